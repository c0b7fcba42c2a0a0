"""Starts servers over sockets and pipes, speaks to them, and says what a saved tree has."""
import io
import os
import shutil
import signal
import socket
import subprocess
import tarfile
import tempfile
from pathlib import Path

from sftpv3 import codec
from sftpv3.system import program, temporary
from trials.processes import SOON, children_of, ended, kill
from trials.sessions import Client

TOP = Path(program.TOP)
PROGRAM = program.program()
# what is tried, as words: `SERVE="FILE serve"` tries the program without the script
SERVE = os.environ["SERVE"].split() if "SERVE" in os.environ else [str(TOP / "clients/serve"), "--program", PROGRAM]
IS_PLAIN = "SERVE" in os.environ
VERSION_BYTES = 124
WRITTEN = codec.WRITE | codec.CREAT
KINDS = ("sockets", "pipes")
SIGNALS = (signal.SIGTERM, signal.SIGHUP, signal.SIGINT)


def command(*words):
    """The command of a server, from options. The program without the script does not have those of the script."""
    words, own = list(words), ("--log", "--grace") if IS_PLAIN else ()
    for it in own:
        if it in words:
            del words[words.index(it):words.index(it) + 2]
    return [*SERVE, *words]


class Server(Client):
    """A server that was started, and the client's two ends of the session."""

    def __init__(self, words, kind, folder, **more):
        if kind == "sockets":
            ours, theirs = socket.socketpair()
            output = ours.detach()
            super().__init__(output, output)
            reader, writer = theirs.detach(), None
        else:
            reader, input = os.pipe()
            output, writer = os.pipe()
            super().__init__(input, output)
        # the signals of a terminal do not come to the trial itself
        options = {"cwd": folder, "stderr": subprocess.PIPE, "start_new_session": True, **more}
        self.process = subprocess.Popen(list(map(str, words)), stdin=reader,
                                        stdout=reader if writer is None else writer, **options)
        for it in {reader, writer} - {None}:
            os.close(it)

    def open(self):
        """Opens the session. Returns whether the server replied."""
        try:
            return len(self.greet()) == VERSION_BYTES
        except BrokenPipeError:
            return False

    def make(self, name):
        """Makes a directory. Returns whether the reply says OK."""
        return codec.Reply(self.ask("MKDIR", name.encode(), {})).code == codec.OK

    def handle(self, name, *fields):
        return codec.Reply(self.ask(name, *fields)).handle

    def create(self, name):
        """Opens a new file. Returns its handle."""
        return self.handle("OPEN", name.encode(), WRITTEN, {})

    def close(self):
        """The client goes away."""
        for it in {self.input, self.output} - {None}:
            os.close(it)
        self.input = self.output = None

    def close_input(self):
        """The client has no more to ask."""
        if self.input == self.output:
            with socket.socket(fileno=os.dup(self.input)) as end:
                end.shutdown(socket.SHUT_WR)
        else:
            os.close(self.input)
            self.input = None

    def status(self, seconds=SOON):
        """Its status, or None if it has not ended within so many seconds."""
        return ended(self.process, seconds)

    def end_by(self, number, seconds=SOON):
        """Sends it a signal. Returns its status, or None if it has not ended within so many seconds."""
        self.process.send_signal(number)
        return self.status(seconds)

    def errors(self):
        """What it printed to standard error. One that should have ended by now is killed."""
        if self.process.poll() is None:
            self.process.kill()
        return self.process.stderr.read().decode(errors="replace")


class Room:
    """A folder for a trial, with a blank tree, and the servers that it started."""

    def __init__(self):
        self.folder = Path(tempfile.mkdtemp(prefix="sftpv3-serve-", dir=temporary.folder()))
        self.servers = []

    def __enter__(self):
        os.chmod(self.folder, 0o755)
        subprocess.run([PROGRAM, "blank", "--mode", "0644", self.folder / "t"], check=True)
        return self

    def __exit__(self, *_):
        self.end_servers()
        shutil.rmtree(self.folder)

    def end_servers(self):
        """Ends all that was started here."""
        for it in self.servers:
            children = [] if it.process.poll() is not None else children_of(it.process.pid)
            it.process.kill()
            it.process.wait()
            it.close()
            it.process.stderr.close()
            for number in children:
                kill(number)
        self.servers = []

    def serve_words(self, *words, tree="t"):
        """The command of a server, from the tree t."""
        return command("--tree", tree, *words)

    def serve(self, *words, kind="sockets", tree="t", **more):
        """Starts a server, from the tree t."""
        server = Server(self.serve_words(*words, tree=tree), kind, self.folder, **more)
        self.servers.append(server)
        return server

    def saving(self, *words, kind="sockets", save="t", **more):
        """Starts a server that saves, and opens the session."""
        server = self.serve("--save", save, *words, kind=kind, **more)
        if not server.open():
            raise AssertionError(f"no session: {server.status()}")
        return server

    def working(self, *words, **more):
        """The same, with a directory /a that the client has made."""
        server = self.saving(*words, **more)
        server.make("/a")
        return server

    def names(self, name="t"):
        """The names in a saved tree, or what the program says of it."""
        ran = subprocess.run([PROGRAM, "show", self.folder / name], capture_output=True, text=True)
        if ran.returncode:
            return [ran.stderr]
        return [it.split('"')[1] for it in ran.stdout.splitlines()[2:]]

    def contents(self, name="t"):
        """The files of a saved tree, by name."""
        data = subprocess.run([PROGRAM, "export", self.folder / name], stdout=subprocess.PIPE, check=True).stdout
        with tarfile.open(fileobj=io.BytesIO(data)) as archive:
            return {it.name.lstrip("./"): archive.extractfile(it).read() for it in archive if it.isfile()}

    def left(self):
        return sorted(it.name for it in self.folder.iterdir())
