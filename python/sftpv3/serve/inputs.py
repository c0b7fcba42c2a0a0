"""The server's input, and how it is ended.

A socket of the system itself, which sshd, sftp and sshfs give, is the server's own: shut for reading, it gives what has
come and then its end. Nothing is copied. Of a pipe only who writes to it makes the end. So the server has a pipe of
ours, to which the system moves what comes, by splice: it is not copied either, where the system has that.
"""
from __future__ import annotations

import os
import select
import stat

from sftpv3.system import ways
from sftpv3.system.starts import widen

try:
    import _socket as sockets
except ImportError:
    import socket as sockets

# How much our pipe holds, where the system allows it, and how much is moved at once.
ROOM = 1 << 20


def is_local_socket(file: int) -> bool:
    """Whether it is a socket of which one end can be shut, so that nothing comes through any more."""
    if not stat.S_ISSOCK(os.fstat(file).st_mode):
        return False
    end = sockets.socket(fileno=file)
    found = end.family == sockets.AF_UNIX and end.type == sockets.SOCK_STREAM
    end.detach()
    return found


def shut(file: int, how: int):
    """Shuts a socket, for all who have it open."""
    end = sockets.socket(fileno=file)
    try:
        end.shutdown(how)
    except OSError:
        # its other end is gone
        pass
    end.detach()


def shut_output():
    """Cuts a client off that takes no replies, if it is on a socket: what the server writes then fails."""
    if stat.S_ISSOCK(os.fstat(1).st_mode):
        shut(1, sockets.SHUT_WR)


class Given:
    """A socket, which the server itself reads."""

    server_end = None
    is_open, is_full = False, False

    def wanted(self) -> dict[int, int]:
        return {}

    def end(self):
        shut(0, sockets.SHUT_RD)


class Filled:
    """A pipe to the server, which is filled with what comes from a stream: standard input, or a FIFO."""

    def __init__(self, source: int = 0):
        self.source = source
        self.server_end, self.pipe = os.pipe2(os.O_CLOEXEC)
        self.is_open, self.is_full = True, False
        # how much is still to come, once the end is wanted
        self.left = None
        self.move = spliced if hasattr(os, "splice") else copied
        widen(self.pipe, ROOM)
        os.set_blocking(self.pipe, False)

    def wanted(self) -> dict[int, int]:
        """What to wait for: what comes, or room for it; and that the server takes no more."""
        if not self.is_open:
            return {}
        return {self.pipe: select.POLLOUT} if self.is_full else {self.source: select.POLLIN, self.pipe: 0}

    def go_on(self, file: int, is_broken: bool):
        """Does what an event of one of the two descriptors asks for."""
        if file == self.pipe and is_broken:
            self.close()
        else:
            self.fill()

    def fill(self):
        """Moves what has come, as far as there is room."""
        try:
            count = self.move(self.source, self.pipe, ROOM if self.left is None else min(ROOM, self.left))
        except BlockingIOError:
            # either nothing has come, or there is no room
            self.is_full = has(self.source, select.POLLIN)
            return
        except BrokenPipeError:
            self.close()
            return
        except OSError:
            if self.move is spliced:
                # what comes is none of the streams that the system can move
                self.move = copied
            else:
                self.close()
            return
        self.is_full = False
        if self.left is not None:
            self.left -= count
        if not count or self.left == 0:
            self.close()

    def end(self):
        """What has come by now still goes to the server."""
        if self.is_open and self.left is None:
            self.left = waiting(self.source)
            if not self.left:
                self.close()

    def close(self):
        """Ends the server's input. Who still writes to ours gets a fault, and does not wait."""
        self.is_open = False
        os.close(self.pipe)
        nothing = os.open(os.devnull, os.O_RDONLY)
        os.dup2(nothing, self.source)
        os.close(nothing)


def tree_of(name: str) -> Filled | None:
    """The tree file, if it is a FIFO: nobody may ever write to it, and who waits for that in the call that opens it is
    ended by no signal that is kept from it. If it cannot be read, the program says so."""
    try:
        with ways.place_led_to(name) as place:
            found = place.state()
            is_pipe = found is not None and stat.S_ISFIFO(found.st_mode) and os.path.exists("/proc/self/fd")
            return Filled(place.open(os.O_RDONLY | os.O_NONBLOCK)) if is_pipe else None
    except OSError:
        return None


class Waiting:
    """The FIFOs whose other end the server may wait for when it opens them: by the name of each, how that end is
    opened."""

    def __init__(self, record: str | None, replay: str | None):
        given = [(record, os.O_RDONLY), (replay, os.O_WRONLY)]
        self.ends = {name: how for name, how in given if name is not None and is_fifo(name)}

    def let_go(self):
        """Opens and closes these ends, which nobody notices who does not wait for one."""
        for name, how in self.ends.items():
            try:
                with ways.place_led_to(name) as place:
                    os.close(place.open(how | os.O_NONBLOCK))
            except OSError:
                # the server is not there yet, or has it open
                pass


def is_fifo(name: str) -> bool:
    try:
        found = ways.end_of(name)[1]
    except OSError:
        return False
    return found is not None and stat.S_ISFIFO(found.st_mode)


def spliced(source: int, pipe: int, count: int) -> int:
    return os.splice(source, pipe, count, flags=os.SPLICE_F_MOVE | os.SPLICE_F_NONBLOCK)


def copied(source: int, pipe: int, count: int) -> int:
    """The same where splice does not work: no more than what a pipe with any room takes whole."""
    if not has(pipe, select.POLLOUT):
        raise BlockingIOError
    data = os.read(source, min(count, select.PIPE_BUF))
    if data:
        os.write(pipe, data)
    return len(data)


def has(file: int, event: int) -> bool:
    """Whether this event of a descriptor is there now."""
    looking = select.poll()
    looking.register(file, event)
    return bool(looking.poll(0))


def waiting(file: int) -> int:
    """How many bytes have come that nobody has read."""
    import fcntl
    import termios
    try:
        found = fcntl.ioctl(file, termios.FIONREAD, bytes(8))
    except OSError:
        return 0
    return int.from_bytes(found[:4], "little")
