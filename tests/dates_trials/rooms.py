"""Servers of a tree and of a folder, and the times that they show."""
import os
import shlex
import shutil
import subprocess
import tempfile
import time
from pathlib import Path

from sftpv3 import codec
from sftpv3.system.program import TOP, program
from trials.other_servers import SFTP_SERVER
from trials.sessions import Client

PROGRAM = program()
SCRIPT = os.path.join(TOP, "clients/serve")

# Times that no clock shows any more, and whom they tell apart.
OLD, OLDER = 1_000_000_000, 900_000_000
# What the tree has at the start of each trial.
DIRECTORIES = (b"/d", b"/e", b"/e/inner")
FILES = (b"/f", b"/d/g")
LINK = b"/l"
PLACES = (b"/", *DIRECTORIES, *FILES)


class Refused(AssertionError):
    """A status that is not OK."""


class Server(Client):
    """A server that was started over pipes, below a folder if it has one."""

    def __init__(self, words, below=b""):
        self.below = below
        self.process = subprocess.Popen(words, stdin=subprocess.PIPE, stdout=subprocess.PIPE)
        super().__init__(self.process.stdin.fileno(), self.process.stdout.fileno())
        self.greet()

    def place(self, path):
        return self.below + path if path.startswith(b"/") else path

    def ask(self, name, *fields):
        """A request, whose paths are below the folder, and its reply."""
        kinds = codec.REQUESTS[name][1].split()
        fields = [self.place(it) if kind in ("path", "new_path", "link") else it for kind, it in zip(kinds, fields)]
        reply = codec.read(codec.SERVER, super().ask(name, *fields))
        if reply.name == "STATUS" and reply.fields[0] not in (codec.OK, codec.EOF):
            raise Refused(f"{name}: {reply.fields[0]}")
        return reply

    def times(self, path, name="LSTAT"):
        """The times that the attributes of a place have: of access and of modification."""
        return self.ask(name, path).fields[0].get("times")

    def open(self, path, flags, given=None):
        return self.ask("OPEN", path, flags, given or {}).fields[0]

    def listing(self, path):
        """The names in a directory with the times of their attributes."""
        handle, found = self.ask("OPENDIR", path).fields[0], {}
        while (reply := self.ask("READDIR", handle)).name == "NAME":
            found.update({name: given.get("times") for name, _, given in reply.fields[0]})
        self.ask("CLOSE", handle)
        return found

    def end(self):
        self.process.stdin.close()
        return self.process.wait(30)


class Room:
    """A folder for a trial, with a tree and a folder that have the same."""

    def __init__(self):
        # in memory where there is a file system for that, as POSIX has it
        shared = "/dev/shm" if os.access("/dev/shm", os.W_OK) else None
        self.folder = Path(tempfile.mkdtemp(prefix="sftpv3-dates-", dir=shared))
        self.made = 0

    def __enter__(self):
        self.clear()
        return self

    def clear(self):
        """The tree is a blank one."""
        subprocess.run([PROGRAM, "blank", self.folder / "t"], check=True)

    def __exit__(self, *_):
        shutil.rmtree(self.folder)

    def command(self, *more):
        """The words that start the program on the tree, which it saves."""
        tree = str(self.folder / "t")
        return [PROGRAM, "serve", "--tree", tree, "--save", tree, *more]

    def script(self, *more):
        return shlex.join([SCRIPT, "--program", *self.command(*more)[:1], *self.command(*more)[2:]])

    def tree(self, *more):
        """The program, on a blank tree."""
        return Server([PROGRAM, "serve", "--tree", str(self.folder / "t"), *more])

    def openssh(self):
        """OpenSSH's server, below an empty folder."""
        self.made += 1
        folder = self.folder / str(self.made)
        folder.mkdir()
        return Server([SFTP_SERVER], os.fsencode(folder))

    def now(self):
        return int(time.time())


def fill(server):
    """Makes what each trial begins with, and gives all of it old times."""
    for path in DIRECTORIES:
        server.ask("MKDIR", path, {})
    for path in FILES:
        handle = server.open(path, codec.WRITE | codec.CREAT)
        server.ask("WRITE", handle, 0, b"some bytes")
        server.ask("CLOSE", handle)
    server.ask("SYMLINK", b"f", LINK)
    for path in reversed(PLACES):
        server.ask("SETSTAT", path, {"times": (OLDER, OLD)})
