"""The server's process: its start, its end, its status."""
import os

from sftpv3.system import signals
from sftpv3.system.starts import NotStarted, exit_code

try:
    import _socket as sockets
except ImportError:
    import socket as sockets

# How much a socket to the server holds, where the system allows it.
ROOM = 1 << 19
# Signals that end a server in order, or since its client is gone.
ORDERLY = (signals.SIGPIPE, signals.SIGTERM, signals.SIGHUP, signals.SIGINT)


def one_way():
    """Two ends of a stream, the second one to write to. They are sockets: nobody can open one by its name in /proc."""
    reader, writer = sockets.socketpair()
    writer.shutdown(sockets.SHUT_RD)
    writer.setsockopt(sockets.SOL_SOCKET, sockets.SO_SNDBUF, ROOM)
    return reader.detach(), writer.detach()


def start(words):
    """Starts the command in a session of its own, so that what it starts can be ended with it."""
    try:
        return Server(words)
    except (OSError, ValueError) as error:
        raise NotStarted(words[0], error) from None


class Server:
    """A process, and the streams to it."""

    def __init__(self, words):
        their_input, self.input = one_way()
        self.output, their_output = one_way()
        try:
            # what Python ignores has its default again
            self.process = os.posix_spawnp(
                words[0], words, os.environ, setsid=True, setsigdef=(signals.SIGPIPE, signals.SIGXFSZ),
                file_actions=((os.POSIX_SPAWN_DUP2, their_input, 0), (os.POSIX_SPAWN_DUP2, their_output, 1)))
        except BaseException:
            os.close(self.input)
            os.close(self.output)
            raise
        finally:
            os.close(their_input)
            os.close(their_output)
        for end in (self.input, self.output):
            os.set_blocking(end, False)
        self.code = self.ticks = None

    def look(self):
        """A process has ended: asks whether it was this one."""
        if self.code is None:
            self.code = exit_code(self.process)

    def has_ended(self):
        return self.code is not None

    def status(self):
        """Its status; 128 and the number of the signal that ended it."""
        return 128 + signals.SIGKILL if self.code is None else self.code if self.code >= 0 else 128 - self.code

    def has_crashed(self):
        """Whether a signal ended it, which none sends that ends a server in order."""
        return -self.code > 0 and -self.code not in ORDERLY

    def end_told(self):
        """How it ended."""
        return f"ended with status {self.code}" if self.code >= 0 else f"was ended by {signals.name_of(-self.code)}"

    def close_input(self):
        os.close(self.input)

    def close_output(self):
        """Closes it. What is left in it is read before, so that a server that writes gets EPIPE and no ECONNRESET."""
        end = sockets.socket(fileno=self.output)
        try:
            end.shutdown(sockets.SHUT_RD)
            while end.recv(1 << 18):
                pass
        except OSError:
            pass
        end.close()

    def send(self, number):
        """Sends a signal to the server and to all that it started."""
        try:
            os.killpg(self.process, number)
        except OSError:
            pass

    def is_working(self):
        """Whether one of its processes used the processor since the last call, or waits for a disk."""
        before, (self.ticks, is_waiting) = self.ticks, self.work()
        return is_waiting or before is not None and self.ticks > before

    def work(self):
        """The processor time of the server's processes, and whether one of them runs or waits for a disk."""
        ticks, is_waiting = 0, False
        try:
            numbers = [it for it in os.listdir("/proc") if it.isdigit()]
        except OSError:
            numbers = []
        for number in numbers:
            try:
                with open(f"/proc/{number}/stat", "rb") as file:
                    fields = file.read().rpartition(b")")[2].split()
            except OSError:
                continue
            if int(fields[2]) == self.process:
                ticks += int(fields[11]) + int(fields[12])
                is_waiting = is_waiting or fields[0] in (b"R", b"D")
        return ticks, is_waiting
