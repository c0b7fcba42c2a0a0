"""Starts recorders, and speaks to them."""
import os
import select
import signal
import subprocess
import tempfile
import time
from pathlib import Path

from sftpv3 import codec
from sftpv3.system import program, temporary
from trials import sessions
from trials.processes import SOON, ended

TOP = Path(program.TOP)
RECORD = os.environ.get("RECORD", str(TOP / "clients/record"))
STUB = str(TOP / "tests/record_trials/stub.py")
PROGRAM = os.environ.get("SFTPV3", str(TOP / "out/sftpv3"))
INIT = codec.init()


class Room:
    """A folder for one trial, and the processes that it started, which are ended with it."""

    def __init__(self):
        self.folder = Path(tempfile.mkdtemp(prefix="sftpv3-record-", dir=temporary.folder()))
        self.started = []

    def __enter__(self):
        return self

    def __exit__(self, *_):
        for it in self.started:
            if it.poll() is None:
                it.kill()
            it.wait()
            for pipe in (it.stdin, it.stdout, it.stderr):
                if pipe and not pipe.closed:
                    close(pipe)
        for name in sorted(self.folder.rglob("*"), reverse=True):
            name.rmdir() if name.is_dir() and not name.is_symlink() else name.unlink()
        self.folder.rmdir()

    def start(self, *words, **options):
        """Starts the recorder with these words, over pipes."""
        options = {"stdin": subprocess.PIPE, "stdout": subprocess.PIPE, "stderr": subprocess.PIPE, "bufsize": 0,
                   "cwd": self.folder, **options}
        process = subprocess.Popen([RECORD, *map(str, words)], **options)
        self.started.append(process)
        return process

    def stub(self, transcript, *words, options=(), **more):
        """Starts the recorder with the stub as its server."""
        return self.start(*options, transcript, STUB, *words, **more)

    def session(self, transcript, *words, **more):
        """The same, with a session that is open."""
        process = self.stub(transcript, *words, **more)
        open_session(process)
        return process

    def read(self, name):
        return (self.folder / name).read_bytes()


def close(pipe):
    try:
        pipe.close()
    except OSError:
        pass


def stubs(folder):
    """The processes of stubs that were started in this folder."""
    found = []
    for entry in Path("/proc").iterdir():
        try:
            if entry.name.isdigit() and STUB.encode() in (entry / "cmdline").read_bytes().split(b"\0")[:4] \
                    and os.readlink(entry / "cwd") == str(folder) and "record" not in (entry / "comm").read_text():
                found.append(int(entry.name))
        except OSError:
            pass
    return found


def receive(process, count):
    """So many bytes of the recorder's output, or fewer at its end."""
    return sessions.receive(process.stdout.fileno(), count)


def receive_within(process, count, seconds):
    """The same, or what comes within so many seconds."""
    data, end = b"", time.monotonic() + seconds
    while len(data) < count and select.select([process.stdout], [], [], max(0, end - time.monotonic()))[0]:
        piece = os.read(process.stdout.fileno(), count - len(data))
        if not piece:
            break
        data += piece
    return data


def open_session(process):
    """Sends an INIT and awaits the stub's VERSION."""
    process.stdin.write(INIT)
    return receive(process, 9)


def meet(process, first, second):
    """Has a request come in the very round in which the reply to the one before it does: when both are there, the
    recorder is stopped, and sees neither until it goes on. The stub is `late`."""
    process.stdin.write(first)
    time.sleep(0.5)
    process.send_signal(signal.SIGSTOP)
    time.sleep(2.5)
    process.stdin.write(second)


def leave(process):
    """The client goes away. Returns the recorder's status, or None if it does not end soon."""
    close(process.stdin)
    return ended(process, SOON)


def errors(process):
    """What the process printed to standard error, when it has ended. One that has not by now is ended."""
    if process.poll() is None:
        process.kill()
    return process.stderr.read().decode(errors="replace")
