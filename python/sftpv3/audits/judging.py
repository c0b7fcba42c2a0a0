"""`sftpv3 audit` of recordings, several at a time, and of small ones many in one run. How recordings are audited is in
`audit` alone."""
from __future__ import annotations

import json
import os
import subprocess
import threading
import time
from collections import deque
from collections.abc import Iterator
from concurrent import futures
from contextlib import suppress
from typing import Any, NamedTuple

from sftpv3.audits.results import ACCEPTED, MALFORMED, REFUSED, UNREAD, Result
from sftpv3.codec import kinds, wording
from sftpv3.system import inputs, program

# How many batches are begun for each that is audited at a time: their verdicts wait for those of an earlier one.
AHEAD = 16

# How many recordings a run of the program gets at most, and how many of their bytes but for the last one's: what is
# audited at a time ends at about the same time, and a run costs less than its audits.
MOST, BYTES = 64, 1 << 22

# How many batches there are at least for each that is audited at a time, where there are as many recordings.
SPREAD = 4


class Failed(Exception):
    """Why nothing more is audited. `status` is that of the run."""

    def __init__(self, why: str, status: int):
        super().__init__(why)
        self.status = status


class Ran(NamedTuple):
    """A run of the program: its status, the objects that it printed with the seconds that each took, and what it said
    to standard error."""
    status: int
    told: list[tuple[dict[str, Any], float]]
    said: str


class Judge:
    """The program with a tree and further options, and which runs of it there are."""

    def __init__(self, tree: str, options: list[str]):
        self.tree = inputs.place_of(tree)
        self.words = [program.program(), "audit", "--tree", self.tree, "--json", "--explain", *options]
        self.running: set[subprocess.Popen] = set()
        self.lock, self.has_ended = threading.Lock(), False
        self.most = MOST if takes_several(self.words[0]) else 1

    def audit(self, names: list[str]) -> list[Result]:
        """The verdicts on recordings. Raises Failed if there is none on any, since the tree or an option is wrong."""
        fit = [name for name in names if program.takes(name)]
        found = dict(zip(fit, self.judged(fit))) if fit else {}
        unfit = {"message": program.NO_TEXT}
        return [found.get(name) or Result(name, UNREAD, unfit) for name in names]

    def judged(self, names: list[str]) -> Iterator[Result]:
        """The same of names that the program takes. Where a run is ended by a signal, such as for want of memory, that
        is said of the recording at which it was, and another run goes on behind that."""
        while names:
            ran = self.run(self.words_for(names))
            told = [it for it in ran.told if self.is_of_recording(it[0])]
            for name, (fields, seconds) in zip(names, told):
                yield result_of(name, fields, seconds)
            if len(told) < len(names):
                if ran.status >= 0:
                    raise Failed(*self.why_failed(ran))
                yield Result(names[len(told)], UNREAD, {"message": how_ended(ran)})
            names = names[len(told) + 1:]

    def words_for(self, names: list[str]) -> list[str]:
        places = [inputs.place_of(name) for name in names]
        return ["--", *places] if self.most > 1 else ["--transcript", places[0]]

    def is_of_recording(self, told: dict[str, Any]) -> bool:
        """Whether an object is what was printed of a recording, and not why no recording is judged."""
        error = told.get("error", {})
        return "name" in told or "verdict" in told or error.get("kind") in ("transcript", "memory") or \
            error.get("kind") == "read" and error.get("file") != self.tree

    def why_failed(self, ran: Ran) -> tuple[str, int]:
        """Why a run that no signal ended did not judge all: it did not take its options, or not the tree."""
        misused = program.of_usage(ran.said)
        if misused is not None:
            return program.one_line(misused), MALFORMED
        error = next((told["error"] for told, _ in ran.told if told.get("error", {}).get("kind") != "unjudged"), None)
        if error is None:
            return how_ended(ran), UNREAD
        more = f": {error['reason']}" if "reason" in error else ""
        found = kinds.TEXTS.get(error.get("found"))
        more += f"; it is {found}, not {kinds.TREE}" if found else ""
        return f"{wording.line(self.tree)}: {error.get('message')}{more}", ran.status

    def run(self, words: list[str]) -> Ran:
        """A run of the program, which `end` ends."""
        said = os.memfd_create("said")
        try:
            with self.lock:
                if self.has_ended:
                    return Ran(-1, [], "")
                process = subprocess.Popen([*self.words, *words], stdin=subprocess.DEVNULL, stdout=subprocess.PIPE,
                                           stderr=said, start_new_session=True)
                self.running.add(process)
            try:
                told = list(objects(process.stdout))
                return Ran(process.wait(), told, os.pread(said, 1 << 16, 0).decode(errors="replace"))
            finally:
                with self.lock:
                    self.running.discard(process)
        finally:
            os.close(said)

    def end(self) -> None:
        """Ends all runs, and begins no more."""
        with self.lock:
            self.has_ended = True
            for process in self.running:
                with suppress(ProcessLookupError):
                    process.kill()


def takes_several(name: str) -> bool:
    """Whether this program audits several transcripts in one run."""
    done = subprocess.run([name, "audit", "--help"], stdin=subprocess.DEVNULL, stdout=subprocess.PIPE,
                          stderr=subprocess.DEVNULL, check=False)
    return b"--transcripts-from" in done.stdout


def objects(stream) -> Iterator[tuple[dict[str, Any], float]]:
    """The objects that a run prints, and how long each took to come."""
    last = time.monotonic()
    with stream:
        for line in stream:
            now = time.monotonic()
            with suppress(ValueError):
                told = json.loads(line)
                if isinstance(told, dict):
                    yield told, now - last
            last = now


def how_ended(ran: Ran) -> str:
    lines = ran.said.splitlines()
    return f"sftpv3 audit ended with status {ran.status}: {lines[0] if lines else 'it said nothing'}"


def result_of(name: str, told: dict[str, Any], seconds: float) -> Result:
    """What is known of a recording from the object that was printed of it."""
    status = told.get("error", {}).get("status", {"accepted": ACCEPTED, "refused": REFUSED}.get(told.get("verdict")))
    shown = inputs.SHOWN if name == inputs.WORD else name
    return Result(shown, UNREAD if status is None else status, fields_of(told), seconds)


def fields_of(told: dict[str, Any]) -> dict[str, Any]:
    """What an audit told as fields: those of an error, and of the explanation of a refusal."""
    found = {**told, **told.get("error", {})}
    found.update({part["part"]: part["text"] for part in told.get("explanation", [])})
    return {name: inputs.shown(value) if isinstance(value, str) else value for name, value in found.items()
            if name not in ("error", "explanation", "status", "name")}


def batches(names: list[str], jobs: int, most: int) -> Iterator[list[str]]:
    """The names in the runs that audit them: small recordings together, large ones alone."""
    most = max(1, min(most, len(names) // (SPREAD * jobs)))
    batch: list[str] = []
    size = 0
    for name in names:
        batch.append(name)
        size += bytes_in(name) if most > 1 else 0
        if len(batch) == most or size > BYTES:
            yield batch
            batch, size = [], 0
    if batch:
        yield batch


def bytes_in(name: str) -> int:
    try:
        return os.stat(name).st_size
    except OSError:
        return 0


def each(judge: Judge, names: list[str], jobs: int) -> Iterator[Result]:
    """The verdicts, in the order of the names; so many runs of the program are going on at a time."""
    waiting, executor = batches(names, jobs, judge.most), futures.ThreadPoolExecutor(jobs)
    begun: deque = deque()
    try:
        while True:
            while len(begun) < AHEAD * jobs and (batch := next(waiting, None)) is not None:
                begun.append(executor.submit(judge.audit, batch))
            if not begun:
                return
            yield from begun.popleft().result()
    finally:
        for task in begun:
            task.cancel()
        judge.end()
        executor.shutdown()
