"""Tries the edits of crates, and records which crates had all of theirs refused."""
import datetime
import hashlib
import os
import tempfile
import threading
import time
from concurrent.futures import ThreadPoolExecutor
from pathlib import Path

from crates import TOP, Crates

from editing.attempts import Attempts, Refusals, groups
from editing.blocks import Edit, edits_in, record_in, write_record
from editing.verdicts import Commands
from editing.definitions import Files
from editing.hashes import hash_now, hash_of

COMMANDS = Commands()
# The crates whose promises a user relies on most come first; the others follow, lowest first.
FIRST = ["sftp_audit", "sftp_server", "sftp_handles", "sftp_tree", "sftp_strings", "sftp_packets", "sftp_codec",
         "sftp_wire"]


def edits_of(crates: Crates, name: str) -> list[Edit]:
    return edits_in(name, crates.folders[name])


def due_crates(crates: Crates) -> list[str]:
    """Returns the crates whose edits were not all refused since they changed."""
    files = Files(crates)
    edits = {name: found for name in crates.lines if (found := edits_of(crates, name))}
    order = [it for it in FIRST if it in edits] + [it for it in edits if it not in FIRST]
    return [it for it in order if record_in(crates.folders[it]) != hash_of(files, it, edits[it])]


class Refused:
    """The edits of a crate that were refused, each under a hash of its own, kept so that a later call goes on there."""

    def __init__(self, files: Files, name: str, edits: list[Edit]):
        self.file, self.lock = TOP / "out" / "edits" / name, threading.Lock()
        lines = self.file.read_text().splitlines() if self.file.is_file() else []
        ground = hash_of(files, name, [])
        self.hashes = {it.file_name: hashlib.sha256((ground + it.text).encode()).hexdigest() for it in edits}
        self.names = [it for it, hash in self.hashes.items() if f"{it} {hash}" in lines]

    def add(self, found: dict[Edit, str]) -> None:
        with self.lock:
            for edit, why in found.items():
                print(f"{edit.crate}/{edit.file_name}: refused: {why[:160]}", flush=True)
            self.names += [edit.file_name for edit in found]
            self.file.parent.mkdir(parents=True, exist_ok=True)
            self.file.write_text("".join(f"{it} {self.hashes[it]}\n" for it in self.names))


class Trial:
    """The edits of a crate, which are tried until a time, if one is given."""

    def __init__(self, crates: Crates, name: str, end: float | None):
        self.crates, self.name, self.end = crates, name, end
        self.edits = edits_of(crates, name)
        files = Files(crates)
        self.hash, self.refused = hash_of(files, name, self.edits), Refused(files, name, self.edits)

    def copy_repository(self, copy: Path) -> None:
        """Copies the crate and those below it, with what rt keeps of them."""
        below = self.crates.below(self.name)
        self.crates.copy([*below, self.name], copy)
        self.crates.copy_kept(self.name, copy)
        for other in below:
            self.crates.copy_kept(other, copy, "out/rlib")

    def left(self, edits: list[Edit]) -> list[Edit]:
        return [it for it in edits if it.file_name not in self.refused.names]

    def add(self, found: Refusals) -> bool:
        """Takes what an attempt refused. Returns whether there was time for it."""
        if found is not None:
            self.refused.add(found)
        return found is not None

    def try_groups(self, attempts: Attempts, edits: list[Edit]) -> bool:
        """Tries edits of different functions together, as long as some are refused. Returns whether there was time."""
        count = None
        while count != len(self.left(edits)):
            count = len(self.left(edits))
            for group in groups(self.left(edits), attempts.crate):
                if not self.add(attempts.together(group)):
                    return False
        return True

    def try_part(self, edits: list[Edit]) -> bool:
        """Tries edits in a copy of their own, first together, then alone. Returns whether there was time."""
        if not self.left(edits):
            return True
        with tempfile.TemporaryDirectory(prefix="edits-") as room:
            self.copy_repository(Path(room))
            attempts = Attempts(COMMANDS, Path(room), self.name, self.end)
            if not self.try_groups(attempts, edits):
                return False
            for attempt in attempts.singly, attempts.alone:
                if not self.add(attempt(self.left(edits)) if self.left(edits) else {}):
                    return False
            return True

    def run(self) -> int | None:
        """Tries the edits, and records it if all were refused. Returns how many were, or None without time."""
        copies = int(os.environ.get("RT_COPIES", 1))
        parts = [self.edits[number::copies] for number in range(copies)]
        with ThreadPoolExecutor(copies) as pool:
            try:
                if not all(list(pool.map(self.try_part, parts))):
                    return None
            except BaseException:
                COMMANDS.stop()
                raise
        count = len(self.refused.names)
        if count == len(self.edits) and self.hash == hash_now(self.crates, self.name, edits_of(self.crates, self.name)):
            write_record(self.crates.folders[self.name], str(datetime.date.today()), count, self.hash)
        return count


def try_all(crates: Crates, names: list[str], end: float | None = None) -> int:
    """Tries the edits of these crates, and returns the status of the command."""
    refused = count = tried = 0
    for name in names:
        if end is not None and time.monotonic() >= end:
            print(f"edits: no time was left for {name} and what comes after it", flush=True)
            break
        trial = Trial(crates, name, end)
        found = trial.run()
        if found is None:
            print(f"edits: the time was over before all edits of {name} were tried", flush=True)
            break
        refused, count, tried = refused + found, count + len(trial.edits), tried + 1
    print(f"{refused} edits refused, {count - refused} not refused")
    return 1 if refused < count else 3 if tried < len(names) else 0
