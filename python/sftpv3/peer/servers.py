"""Starts the server that is tried, keeps the last of what it writes to standard error, and ends it; and the streams of
packets to and from it.

What it leaves running are processes that lost the one that started them, and get the probe for their parent instead.
Those of a session are known by a variable, or by the process group or session of its server, and end with it. Those
that took care not to be known end with the run, unless they may be what --reset started, which goes on.
"""
import copy
import ctypes
import errno
import itertools
import os
import selectors
import shlex
import signal
import subprocess
import tempfile
import time
from collections import deque
from contextlib import contextmanager, suppress

from sftpv3 import codec
from sftpv3.codec import wording
from sftpv3.peer import pieces
from sftpv3.system import greetings, removing, temporary
from sftpv3.system.pauses import AT_ONCE, Clock

# Seconds for a server to end after its input did, and after it left a request unanswered.
PARTING, SILENT_PARTING = 2, 0.5

# The most bytes of standard error that are kept of a session.
KEPT = 1 << 16

# Seconds to wait for a reply, and how many times as long for VERSION.
TIMEOUT, OPENING = 10, 12

# How many requests behind one without a reply are asked at most: the audit refuses a client that asks more.
WINDOW = 1000


class NotStarted(Exception):
    """There was no VERSION 3. `session` is what there was, if the server ran."""

    def __init__(self, why, session=None):
        super().__init__(why)
        self.session = session


class Stopped(Exception):
    """The run is to end: nobody waits for this session."""


class ResetFailed(NotStarted):
    """The command of --reset failed, so no server was started."""


class Server:
    """How to start the server. `{tree}` in a word of its command or of `reset` stands for the name of the tree file,
    and `{folder}` for that of a folder, which is empty when a session begins.
    With `leftovers`, what it leaves running is ended. With `link_first` it takes the paths of SYMLINK in the order of
    the draft; plans have them in OpenSSH's. With `only_given` nothing is asked through handles that it never gave."""

    def __init__(self, command, reset=None, leftovers=None, link_first=False, only_given=False):
        self.command, self.reset, self.leftovers = command, reset, leftovers
        self.link_first, self.only_given, self.folder = link_first, only_given, ""

    def in_order(self, step):
        """The step as it is sent to this server."""
        if not self.link_first or step.name != "SYMLINK":
            return step
        found = copy.copy(step)
        found.fields = step.fields[::-1]
        return found

    def takes_tree(self):
        return self.has("{tree}", with_reset=True)

    def has(self, word, with_reset=False):
        """Whether its command has `{tree}` or `{folder}`, or that of --reset."""
        return any(word in one for one in self.command + [self.reset or ""] * with_reset)

    @contextmanager
    def with_folder(self, above):
        """The server with a folder for a session, below this one, if its command has a word for it."""
        if not self.has("{folder}", with_reset=True):
            yield self
            return
        found = copy.copy(self)
        found.folder = tempfile.mkdtemp(prefix="files-", dir=above)
        try:
            yield found
        finally:
            remove(found.folder)

    def again(self):
        """The server, to be started on the files that it has."""
        found = copy.copy(self)
        found.reset = None
        return found

    def start(self, tree_file, seconds=None, stop=None):
        """Runs the command of --reset, for at most so many seconds, and starts the server."""
        environment = dict(os.environ, SFTPV3_TREE=tree_file)
        if self.reset:
            run_reset(self.named(self.reset, shlex.quote(tree_file), shlex.quote(self.folder)), environment, seconds,
                      stop)
        words = [self.named(word, tree_file, self.folder) for word in self.command]
        mark = self.leftovers.mark() if self.leftovers else ""
        environment.update({VARIABLE: mark} if mark else {})
        return Running(started(words, environment), self.leftovers, mark)

    @staticmethod
    def named(word, tree_file, folder):
        """A word with the names in place of what stands for them."""
        return word.replace("{tree}", tree_file).replace("{folder}", folder)


# Why the folder of a session stays where another user owns what is in it, as with sudo or a container.
NOT_OURS = ("the server's files there are not this user's: in place of {folder}, name a folder of your own, and have "
            "--reset empty and fill it")


def remove(folder):
    """Removes the folder of a session, with all that the server made there."""
    try:
        removing.remove_directory(folder)
    except FileNotFoundError:
        pass
    except PermissionError as error:
        raise PermissionError(error.errno, f"{error.strerror}: {NOT_OURS}", folder) from None


# Why the system starts no process at all now, whatever it is: too many files, processes or memory are taken.
OURS = {errno.EMFILE, errno.ENFILE, errno.ENOMEM, errno.EAGAIN}


def started(words, environment=None):
    """The process of a server, in a session of its own, with pipes. Raises NotStarted if the command is none, and
    OSError if this process may start none."""
    try:
        return subprocess.Popen(words, stdin=subprocess.PIPE, stdout=subprocess.PIPE, stderr=subprocess.PIPE, bufsize=0,
                                env=environment, start_new_session=True)
    except (OSError, ValueError) as error:
        if getattr(error, "errno", None) in OURS:
            raise OSError(error.errno, error.strerror, words[0]) from None
        raise NotStarted(f"cannot run {wording.line(words[0])}: {getattr(error, 'strerror', None) or error}") from error


def run_reset(command, environment, seconds, stop):
    """What it starts may go on, and have its standard error: so that is a file, and no pipe to be read to its end."""
    with tempfile.TemporaryFile(dir=temporary.folder()) as errors:
        process = subprocess.Popen(command, shell=True, env=environment, stdin=subprocess.DEVNULL,
                                   stdout=subprocess.DEVNULL, stderr=errors, start_new_session=True)
        deadline = None if seconds is None else time.monotonic() + seconds
        while process.poll() is None:
            if stop and stop.is_set():
                stop_group(process)
                raise Stopped()
            if deadline is not None and time.monotonic() > deadline:
                stop_group(process)
                raise ResetFailed(f"--reset did not end within {seconds:g} seconds")
            time.sleep(0.01)
        errors.seek(max(0, errors.seek(0, os.SEEK_END) - KEPT))
        if process.returncode != 0:
            said = errors.read().decode(errors="replace").strip()
            raise ResetFailed(f"--reset ended {ending(process.returncode)}: {said}")


def stop_group(process):
    """Ends a process, with those that it started: it is asked to, and then killed."""
    for sent in (signal.SIGTERM, signal.SIGKILL):
        try:
            os.killpg(process.pid, sent)
            process.wait(1)
        except (ProcessLookupError, subprocess.TimeoutExpired):
            pass


class Running:
    """A server that runs: its pipes, and the last of what it wrote to standard error."""

    def __init__(self, process, left=None, mark=""):
        self.process, self.said = process, bytearray()
        self.leftovers, self.mark = left, mark
        self.started = time.monotonic()
        for stream in (process.stdin, process.stdout, process.stderr):
            os.set_blocking(stream.fileno(), False)

    def read(self):
        """What standard output has now: nothing, if it has ended."""
        return os.read(self.process.stdout.fileno(), 1 << 18)

    def listen(self):
        """Reads what standard error has now, and says whether it goes on."""
        try:
            data = os.read(self.process.stderr.fileno(), 1 << 16)
        except BlockingIOError:
            return True
        self.said += data
        del self.said[:-KEPT]
        return bool(data)

    def part(self, seconds, take):
        """Ends the input, gives `take` what still comes, and waits for the end, at most so long. Gives the status, or
        None if the server had to be stopped."""
        self.process.stdin.close()
        deadline = time.monotonic() + seconds
        with selectors.DefaultSelector() as selector:
            for stream in (self.process.stdout, self.process.stderr):
                selector.register(stream, selectors.EVENT_READ)
            while selector.get_map() and time.monotonic() < deadline:
                ended = self.process.poll() is not None
                ready = selector.select(0 if ended else 0.05)
                for key, _ in ready:
                    if not (self.listen() if key.fileobj is self.process.stderr else take(self.read())):
                        selector.unregister(key.fileobj)
                if ended and not ready:
                    # what it started may have its pipes still
                    break
        try:
            status = self.process.wait(max(0, deadline - time.monotonic()))
        except subprocess.TimeoutExpired:
            status = None
            self.stop()
        for stream in (self.process.stdout, self.process.stderr):
            stream.close()
        if self.leftovers:
            self.leftovers.end_session(self.mark, self.process.pid)
        return status

    def stop(self):
        stop_group(self.process)


# The signals that a program gets for its own mistakes.
CRASHES = {signal.SIGSEGV, signal.SIGABRT, signal.SIGBUS, signal.SIGFPE, signal.SIGILL, signal.SIGSYS, signal.SIGTRAP}

# What a shell adds to the number of a signal, for its own exit status.
SHELL = 128


def is_crash(status):
    """Whether a process with this exit status was ended by such a signal, or a shell says so of what it ran. `None` is
    one that had to be stopped."""
    return status is not None and (-status in CRASHES or status - SHELL in CRASHES)


def ending(status):
    """How a process ended: with a status, or by a signal that is named. `None` is one that had to be stopped."""
    if status is None:
        return "only when it was stopped"
    if status >= 0:
        return f"with status {status}"
    try:
        return f"by signal {signal.Signals(-status).name}"
    except ValueError:
        return f"by signal {-status}"


# The most bytes of a packet that are taken in; docs/PROTOCOL.md allows fewer.
LARGEST = 1 << 20


class Arrived:
    """Bytes that came, from which packets are taken. Nothing is copied more than twice."""

    def __init__(self):
        self.data, self.place = bytearray(), 0

    def __len__(self):
        return len(self.data) - self.place

    def add(self, data):
        if self.place > len(self.data) // 2:
            del self.data[:self.place]
            self.place = 0
        self.data += data

    def length(self):
        return codec.length(bytes(self.data[self.place:self.place + 4]))

    def unlike_packet(self, count):
        """What is said of bytes that begin with so great a length of a packet."""
        text = greetings.text_at(memoryview(self.data)[self.place:])
        return f"its output is text, {text}" if text else f"a packet has {count} bytes"

    def take(self, count):
        self.place += count
        return bytes(memoryview(self.data)[self.place - count:self.place])


# What stands between two pieces of a packet.
BREAK = memoryview(b"")

# How many packets that leave together are written at once, so that they come together.
TOGETHER = 64


class Streams:
    """Sends packets to a server that runs, and takes those that come. `cuts` says which go in pieces; without it none
    does. `wrong` says of a packet that is too long how long it is."""

    def __init__(self, running, cuts=None):
        self.running, self.leaving, self.arrived, self.wrong = running, deque(), Arrived(), None
        self.cuts, self.clock = cuts, Clock()
        self.selector = selectors.DefaultSelector()
        for stream in (running.process.stdout, running.process.stderr):
            self.selector.register(stream, selectors.EVENT_READ)

    def give(self, packet):
        rest = memoryview(packet)
        for count in self.cuts.counts(packet) if self.cuts else ():
            self.leaving += [rest[:count], BREAK]
            rest = rest[count:]
        self.leaving.append(rest)

    def exchange(self, seconds):
        """Writes what can be written, and reads what is there; waits until one of both can be done, at most so long.
        Gives True if something came, False if nothing did, and None if nothing more will, or too much is there."""
        held = bool(self.leaving) and self.send()
        blocked = bool(self.leaving) and not held
        if blocked:
            self.selector.register(self.running.process.stdin, selectors.EVENT_WRITE)
        seconds = max(0, min(seconds, pieces.GLANCE if held else AT_ONCE))
        self.clock.look()
        ready = [key.fileobj for key, _ in self.selector.select(seconds)]
        self.clock.look(seconds)
        if blocked:
            self.selector.unregister(self.running.process.stdin)
        if self.running.process.stderr in ready and not self.running.listen():
            self.selector.unregister(self.running.process.stderr)
        if self.running.process.stdout in ready:
            return True if self.receive(self.running.read()) else None
        return False

    def send(self):
        """Writes what can be written. Says whether the next piece has to wait until the server has taken the last."""
        pipe = self.running.process.stdin.fileno()
        try:
            while self.leaving:
                if self.cuts and self.cuts.is_held(pipe):
                    return True
                self.wrote(os.writev(pipe, self.together()))
        except BlockingIOError:
            pass
        except OSError:
            # what the server wrote before it ended is read first
            self.leaving.clear()
        return False

    def together(self):
        """What goes next, up to the end of a piece that goes alone."""
        return list(itertools.takewhile(lambda it: it is not BREAK, itertools.islice(self.leaving, TOGETHER)))

    def wrote(self, count):
        """Takes away so many bytes that were written, and the break behind them."""
        while self.leaving and self.leaving[0] is not BREAK and count >= len(self.leaving[0]):
            count -= len(self.leaving.popleft())
        if self.leaving and self.leaving[0] is BREAK:
            self.leaving.popleft()
            self.cuts.begin()
        elif self.leaving:
            self.leaving[0] = self.leaving[0][count:]

    def receive(self, data):
        """Takes what came, and says whether more may come and is wanted."""
        self.arrived.add(data)
        return bool(data) and len(self.arrived) <= 4 * LARGEST

    def next_packet(self):
        count = self.arrived.length()
        if count is not None and count > LARGEST:
            self.wrong = self.wrong or self.arrived.unlike_packet(count)
        return self.arrived.take(count) if count is not None and count <= min(LARGEST, len(self.arrived)) else None

    def rest(self):
        """The bytes that are left and are no packet, or not the whole of one."""
        return self.arrived.take(min(len(self.arrived), LARGEST))


SET_CHILD_SUBREAPER = 36
VARIABLE = "SFTPV3_PROBE"
# How often it is looked again, since what ends may leave others, and how long one may take to end, in seconds.
ROUNDS, SECONDS = 50, 2
# How long what a server left may take to end by itself, in seconds.
GRACE = 0.5


def children():
    """The processes whose parent is this one."""
    found = set()
    with suppress(OSError):
        for task in os.listdir("/proc/self/task"):
            with suppress(OSError), open(f"/proc/self/task/{task}/children", encoding="ascii") as file:
                found |= set(map(int, file.read().split()))
    return found


def state_of(process):
    """The letter of its state, its group and its session; None if it is gone."""
    try:
        with open(f"/proc/{process}/stat", encoding="utf-8", errors="replace") as file:
            state, _, group, session = file.read().rpartition(")")[2].split()[:4]
    except (OSError, ValueError):
        return None
    return state, int(group), int(session)


def variable_of(process):
    """What its environment had for the variable when it started, or None."""
    try:
        with open(f"/proc/{process}/environ", "rb") as file:
            words = file.read().split(b"\0")
    except OSError:
        return None
    start = f"{VARIABLE}=".encode()
    return next((it[len(start):].decode(errors="replace") for it in words if it.startswith(start)), None)


def end(is_meant):
    """Kills the children that are meant, and what these leave in turn."""
    for _ in range(ROUNDS):
        found = [it for it in children() if is_meant(it)]
        for process in found:
            with suppress(ProcessLookupError, PermissionError):
                os.kill(process, signal.SIGKILL)
        if not [it for it in found if has_ended(it)]:
            return


def await_end(is_meant, seconds=GRACE, stop=None):
    """Gives the children that are meant some time to end by themselves, and says whether they did."""
    deadline = time.monotonic() + seconds
    while time.monotonic() < deadline and not (stop and stop.is_set()):
        found = [it for it in children() if is_meant(it)]
        for process in found:
            with suppress(ChildProcessError):
                os.waitpid(process, os.WNOHANG)
        if not found:
            return True
        time.sleep(0.02)
    return False


def has_ended(process):
    """Waits for a child that was killed, some seconds."""
    deadline = time.monotonic() + SECONDS
    while time.monotonic() < deadline:
        try:
            if os.waitpid(process, os.WNOHANG)[0]:
                return True
        except ChildProcessError:
            return True
        time.sleep(0.01)
    return False


def is_forgotten(process):
    """Whether a child has ended and nobody waits for it. What the probe starts is in its session, or leads one."""
    state = state_of(process)
    return state is not None and state[0] == "Z" and state[2] not in (process, os.getsid(0))


class Leftovers:
    """What the servers of a run leave. Made before the first of them starts."""

    def __init__(self):
        self.run = os.urandom(8).hex()
        # children of a shell that was replaced by this process are not those of a server
        self.is_alone = not children()
        with suppress(AttributeError, OSError):
            ctypes.CDLL(None).prctl(SET_CHILD_SUBREAPER, 1, 0, 0, 0)

    def mark(self):
        """The value of the variable for a server."""
        return f"{self.run}-{os.urandom(8).hex()}"

    @staticmethod
    def of_session(mark, server):
        """What tells the processes that a server left from others."""
        def is_meant(process):
            if process == server:
                return False
            state = state_of(process)
            return state is not None and (server in state[1:] or is_forgotten(process) or variable_of(process) == mark)
        return is_meant

    def end_session(self, mark, server):
        """Ends what a server left that has ended itself."""
        is_meant = self.of_session(mark, server)
        await_end(is_meant)
        end(is_meant)

    def end_run(self, has_reset):
        """Ends what is left of all sessions, once none is played."""
        def is_meant(process):
            return self.is_alone and not has_reset or (variable_of(process) or "").startswith(self.run)
        end(is_meant)


class Held:
    """Takes the place of leftovers while a server is to be started again. What it left has so many seconds to end by
    itself, since it may still write, and then goes on until all is over: what it would write later is not lost."""

    def __init__(self, leftovers, seconds, stop):
        self.leftovers, self.seconds, self.stop = leftovers, seconds, stop
        self.ended, self.goes_on = [], False

    def of(self, server):
        """The server with these leftovers."""
        found = copy.copy(server)
        found.leftovers = self if self.leftovers else None
        return found

    def mark(self):
        return self.leftovers.mark()

    def end_session(self, mark, server):
        """Waits for what a server left that has ended itself."""
        self.ended.append((mark, server))
        has_ended_all = await_end(self.leftovers.of_session(mark, server), self.seconds, self.stop)
        self.goes_on = self.goes_on or not has_ended_all

    def end(self):
        """Ends what is left."""
        for mark, server in self.ended:
            self.leftovers.end_session(mark, server)
