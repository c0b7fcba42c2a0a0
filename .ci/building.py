"""What the builds of a program share, proved or not: the sources that it is of, what its version says, that one build
runs at a time in a folder, and how far a proof is."""
import fcntl
import hashlib
import os
import re
import shutil
import subprocess
import sys
import time
from contextlib import contextmanager, suppress
from pathlib import Path

import toolchain
from crates import TOP

# What the version says of a program that nothing has proved.
NOT_PROVED = "(not proved)"
# With fewer bytes left on the disk, a build that fails fails for that.
LEAST_ROOM = 1 << 24


def hash_of(crates, names):
    """Returns the hash of all that the crates are built from. What a program is tried on is no part of it."""
    sum = hashlib.sha256()
    for name in names:
        sum.update(f"{crates.lines[name]}\n".encode())
        for file, path in crates.files(name):
            data = file.read_bytes()
            sum.update(f"{path} {len(data)}\n".encode() + data)
    return sum.hexdigest()


def hash_of_program(crates, program):
    return hash_of(crates, [*crates.below(program), program])


def is_of(file, sum):
    """Whether a file that a build wrote names these sources."""
    try:
        return file.read_text().split()[0] == sum
    except (OSError, IndexError):
        return False


def is_built(crates, folder, program):
    """Whether the program in the folder is built from the sources as they are."""
    recorded = folder / f"{program}.built"
    return (folder / program).is_file() and is_of(recorded, hash_of_program(crates, program))


def printed_by(*words):
    """Returns what a command prints at the top of the repository, or nothing if it fails."""
    try:
        return subprocess.run(words, cwd=TOP, stdin=subprocess.DEVNULL, capture_output=True, text=True,
                              check=True).stdout.strip()
    except (OSError, subprocess.CalledProcessError):
        return ""


def commit():
    """Returns of which commit the sources are, and by which toolchain they are built, or nothing without git."""
    commit = printed_by("git", "rev-parse", "--short=12", "HEAD")
    if not commit or Path(printed_by("git", "rev-parse", "--show-toplevel")).resolve() != TOP:
        return ""
    changes = " with changes" if printed_by("git", "status", "--porcelain", "crates", "crates.txt") else ""
    kit = printed_by(toolchain.found() or "", "version").partition(" ")[0]
    return f" (commit {commit}{changes}, {kit})"


def version_source(is_proved=True):
    """Returns the text of src/version.rt, or nothing if that of the repository serves: of a proved program without
    git."""
    of_commit = commit()
    if is_proved and not of_commit:
        return ""
    tool = (TOP / "crates" / "sftp_tool" / "src" / "lib.rt").read_text()
    number = re.search(r'pub const VERSION: &str = "(.*)";', tool)[1]
    text = f"{number}{of_commit}" if is_proved else f"{number}{of_commit} {NOT_PROVED}"
    return ("//! What `--version` prints: the version, the commit and the toolchain.\n\n"
            "/// The version of the program.\n"
            f'pub(crate) const VERSION: Option<&str> = Some("{text}");\n')


class Turns:
    """Builds of a folder, one at a time: the one whose turn it is holds a lock on a file, which has its process."""

    def __init__(self, file):
        file.parent.mkdir(parents=True, exist_ok=True)
        self.file, self.has_waited = file.open("a+"), False

    def is_taken(self):
        """Takes the turn unless another build has it. Returns whether this one has it now."""
        try:
            fcntl.flock(self.file, fcntl.LOCK_EX | fcntl.LOCK_NB)
        except BlockingIOError:
            return False
        self.file.seek(0)
        self.file.truncate()
        self.file.write(f"{os.getpid()}\n")
        self.file.flush()
        return True

    def holder(self):
        """Returns the process whose turn it is, or nothing while that is not known."""
        self.file.seek(0)
        return self.file.read().strip()


@contextmanager
def turn(file, waiting):
    """Waits until no other build has the turn, and gives it to the block. `waiting` is called with the Turns at the
    start of the wait, and gives what is called again and again until its end."""
    turns = Turns(file)
    with turns.file:
        if not turns.is_taken():
            goes_on, turns.has_waited = waiting(turns), True
            while not turns.is_taken():
                time.sleep(0.3)
                goes_on()
            goes_on()
        yield turns


class Said:
    """What a proof that runs has said, line by line, in a file."""

    def __init__(self, folder):
        self.file, self.read = folder / "build.said", 0

    def say(self, text):
        with suppress(OSError), self.file.open("a") as file:
            file.write(f"{text}\n")

    def lines(self):
        """Returns the lines that came since the last call."""
        try:
            data = self.file.read_bytes()
        except OSError:
            data = b""
        self.read = self.read if self.read <= len(data) else 0
        new = data[self.read:data.rfind(b"\n") + 1]
        self.read += len(new)
        return new.decode(errors="replace").splitlines()


def how_far(folder):
    """Returns how many crates a proof of this folder has proved, in words."""
    found = [it[0] for line in Said(folder).lines() if (it := re.match(r"\d+ of \d+ crates", line))]
    return f"{found[-1]} are proved" if found else "no crate is proved"


def tell(program, text):
    """Says a line to standard error, unless nobody can be told."""
    with suppress(OSError):
        print(f"{program}: {text}", file=sys.stderr, flush=True)


def told(error, folder):
    """Why something failed that the system was asked for, in a line, with the file, or where none is known, the folder
    of the build."""
    name = error.filename if error.filename2 is None else error.filename2
    return f"{folder if name is None else os.fsdecode(name)}: {error.strerror or error}"


def is_full(folder):
    """Whether the disk of a folder has too little room for anything to be built."""
    return shutil.disk_usage(folder).free < LEAST_ROOM
