"""Runs the program on trees and transcripts, and says how much memory it had."""
import functools
import subprocess
import tempfile
from contextlib import contextmanager
from pathlib import Path

from sftpv3.codec import BEGUN, CLIENT, NO_SUCH_FILE, OK, SERVER, put_records, request, status, trees
from sftpv3.system.program import program
from trials.processes import used_by

# the bytes of a file, how many of them a large tree has, and what a run may take besides
FILE, COUNT, BESIDES = 8 << 20, 12, 32 << 20

# seconds after which a run hangs
LONG = 60

# how much more memory a run may have for a file from a pipe than for the same from a folder
NOISE = 4 << 20


def run(*words, **options):
    return subprocess.run([program(), *map(str, words)], stdin=subprocess.DEVNULL, capture_output=True, text=True,
                          timeout=LONG, check=False, **options)


def audit(*words, **options):
    return run("audit", *words, **options)


def session(code):
    """The transcript of a session that makes a directory, and is told this code."""
    return put_records([*BEGUN, (CLIENT, request(1, "MKDIR", b"/new", {})), (SERVER, status(1, code, b""))])


def fed(files):
    """Fills pipes of these names, one after the other, as a script does."""
    for name, data in files:
        with open(name, "wb") as pipe:
            try:
                pipe.write(data)
            except BrokenPipeError:
                pass


def peak(*words, source=subprocess.DEVNULL, errors=subprocess.DEVNULL):
    """The status of a run, and the most memory that it had, in bytes."""
    done, _, memory = used_by([program(), *words], stdin=source, stdout=subprocess.DEVNULL, stderr=errors)
    return done.returncode, memory


class Room:
    """A folder, the bytes of a small tree, and the files of a session that is accepted with it, and of one that is
    refused."""

    def __init__(self, folder):
        self.folder, self.good, self.bad = folder, folder / "good.transcript", folder / "bad.transcript"
        self.tree = trees.put(trees.Tree([trees.Entry(b"/a", trees.FILE, b"abc"),
                                          trees.Entry(b"/b", trees.FILE, bytes(200_000))]))
        self.good.write_bytes(session(OK))
        self.bad.write_bytes(session(NO_SUCH_FILE))

    @functools.cached_property
    def large(self):
        name = self.folder / "large.tree"
        entries = [trees.Entry(b"/%02d" % it, trees.FILE, bytes([it]) * FILE) for it in range(COUNT)]
        trees.write(trees.Tree(entries), name)
        return name


@contextmanager
def room():
    with tempfile.TemporaryDirectory() as folder:
        yield Room(Path(folder))
