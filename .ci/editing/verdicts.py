"""What the lines of `rt check` and `rt must-fail` say of edits; commands that run until a time, and that can be
stopped together."""
import os
import re
import signal
import subprocess
import threading
import time
from pathlib import Path


def refused_in(lines: list[str], function: str) -> str | None:
    """Returns why the prover refuses a function for a goal of its own, or None."""
    words = function.split("::")
    names = rf"fn \w+::{function}", rf"fn \w+::(?:\w+::)*{'::'.join(words[-2:])}"
    said = [line for line in lines if re.match(rf"(?:{'|'.join(names)}): no", line)]
    goals = re.search(r"did not prove (.*?);|did not prove (.*)", said[0]) if len(said) == 1 else None
    if goals:
        return f"not proved: {goals[1] or goals[2]}"
    if len(said) == 1 and ": not proved" in said[0]:
        folder = f"/{words[-2]}/{words[-1]}/"
        return next((line for line in lines if ": error" in line and folder in line), None)
    return None


def short(function: str) -> str:
    """Returns a method's name with its type's alone, as its module may be another one than that of its file."""
    words = function.split("::")
    return "::".join(words[-2:]) if words[-2][:1].isupper() else function


def is_tried(lines: list[str]) -> bool:
    """Returns whether a check of functions alone tried any."""
    return any(line.startswith("only=") for line in lines)


def broken_files(lines: list[str]) -> set[str]:
    """Returns the files that do not compile, by what a check says, which then proves nothing."""
    if any(line.startswith(("only=", "fn ")) for line in lines):
        return set()
    return {it[1] for line in lines if (it := re.match(r"(src/\S+?\.rt):\d+:\d+: error\[", line))}


def is_proved(lines: list[str]) -> bool:
    return any(line.startswith("logic=proved") for line in lines)


def refused_by(lines: list[str]) -> str | None:
    """Returns what a check of a whole crate refuses first, or None if it proves the crate or does not compile it."""
    return next((line for line in lines if re.match(r"fn \S+: no", line)), None)


def refused_alone(lines: list[str], name: str) -> dict[str, str]:
    """Returns the names of the files that the gate's command refuses as edits of a crate, and why."""
    form = re.compile(rf"rt: must-fail {name}/(\S+): refused, as it must be:? ?(.*)")
    return {it[1]: it[2] for line in lines if (it := form.match(line))}


class Commands:
    """The commands that run, of which no more begin once they are stopped."""

    def __init__(self) -> None:
        self.running: list[subprocess.Popen[str]] = []
        self.lock, self.is_stopped = threading.Lock(), False

    def begin(self, command: list[str], folder: Path) -> subprocess.Popen[str] | None:
        with self.lock:
            if self.is_stopped:
                return None
            process = subprocess.Popen(command, cwd=folder, stdout=subprocess.PIPE, stderr=subprocess.STDOUT,
                                       text=True, errors="replace", start_new_session=True)
            self.running.append(process)
            return process

    def stop(self) -> None:
        with self.lock:
            self.is_stopped = True
            for process in self.running:
                if process.poll() is None:
                    os.killpg(process.pid, signal.SIGTERM)

    def run_until(self, command: list[str], folder: Path, end: float | None) -> list[str] | None:
        """Runs a command and returns its lines, or None if it was still running at the end or was stopped."""
        process = self.begin(command, folder)
        if process is None:
            return None
        try:
            left = None if end is None else max(end - time.monotonic(), 1)
            lines = process.communicate(timeout=left)[0].splitlines()
            return None if self.is_stopped else lines
        except subprocess.TimeoutExpired:
            os.killpg(process.pid, signal.SIGTERM)
            process.communicate()
            return None
