"""The streams of a server: pipes, whatever those of this script are.

A server that clients/servers start has root as its user. Of an open file of the machine it could change the owner and
the permissions, and write what is then a program of set-id root. So it gets no descriptor of this process: what passes
is copied.
"""
import contextlib
import os
import resource
import threading

from sftpv3.system.notices import printable

# How much of a packet is read before it is passed on.
LONGEST = 1 << 18

# How many seconds what a server wrote to standard error may take to be shown, once it has ended.
LAST_WORDS = 2


def read_packet(source):
    """The next packet, or what is left if the stream ends. Of one that is longer than any may be, the beginning."""
    data = b""
    while len(data) < 4 or len(data) < min(4 + int.from_bytes(data[:4], "big"), LONGEST):
        wanted = 4 if len(data) < 4 else min(4 + int.from_bytes(data[:4], "big"), LONGEST)
        piece = os.read(source, min(wanted - len(data), 1 << 16))
        if not piece:
            break
        data += piece
    return data


def write_all(target, data):
    view = memoryview(data)
    while view:
        view = view[os.write(target, view):]


def pass_on(source, target):
    """Passes on what comes until one of both ends, and closes both: neither end waits for one that is gone."""
    try:
        data = os.read(source, 1 << 16)
        while data:
            write_all(target, data)
            data = os.read(source, 1 << 16)
    except OSError:
        pass
    finally:
        os.close(source)
        os.close(target)


def pass_all(asking, replies):
    """Passes on what the client asks and what the server replies, until one of both ends; by these ends of pipes."""
    threading.Thread(target=pass_on, args=(os.dup(0), asking), daemon=True).start()
    pass_on(replies, os.dup(1))


def show(source):
    """Writes what the server writes to standard error to that of this script, without what a terminal acts on. The
    server is never held up by nobody's reading it."""
    is_taken = True
    with contextlib.suppress(OSError):
        while data := os.read(source, 1 << 12):
            is_taken = is_taken and is_written(data.decode("utf-8", "surrogateescape").split("\n"))


def is_written(lines):
    """Whether these parts of lines are written to standard error."""
    with contextlib.suppress(OSError):
        write_all(2, "\n".join(map(printable, lines)).encode())
        return True
    return False


def shown(source):
    """Begins to show what comes from here, and gives the thread that does."""
    showing = threading.Thread(target=show, args=(source,), daemon=True)
    showing.start()
    return showing


class Streams:
    """Pipes to and from a server that is a fork of this process."""

    def __init__(self):
        self.asked, self.asking = os.pipe()
        self.replies, self.replying = os.pipe()
        self.said, self.saying = os.pipe()

    def take(self):
        """In the server's process: these become its standard streams, and it keeps no other descriptor."""
        for number, end in enumerate((self.asked, self.replying, self.saying)):
            os.dup2(end, number)
        os.closerange(3, resource.getrlimit(resource.RLIMIT_NOFILE)[0])

    def serve(self, server):
        """In this process: passes all on until the server ends, whose number this is. Gives its status."""
        for end in (self.asked, self.replying, self.saying):
            os.close(end)
        said = shown(self.said)
        pass_all(self.asking, self.replies)
        status = os.waitstatus_to_exitcode(os.waitpid(server, 0)[1])
        said.join(LAST_WORDS)
        return status
