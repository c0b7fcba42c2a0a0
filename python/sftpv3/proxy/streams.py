"""The loop that passes both streams on, holds replies back, and ends the session.

One thread waits for all streams. As long as a client takes nothing, no more is read from the server, and the other way
round: at most HELD bytes of each stream are held. The server is in a session of its own, and is ended with all that it
started, once the session is over and it does not end by itself."""
from __future__ import annotations

import heapq
import os
import select
import signal
import subprocess
import time
from contextlib import suppress
from typing import Optional, Union

from sftpv3.proxy.packets import Act, Faults, Packets
from sftpv3.system import ending
from sftpv3.system.notices import Notices
from sftpv3.system.starts import NotStarted

# How much is read at a time, and how much of a stream is held at most.
PIECE, HELD = 1 << 16, 1 << 24

# How many seconds a server may take to end behind its input, and to end after SIGTERM.
PARTING, KILL = 5.0, 1.0

GONE = select.POLLHUP | select.POLLERR | select.POLLNVAL | getattr(select, "POLLRDHUP", 0)


class Way:
    """What is to be written to a stream, as much as it takes at a time."""

    def __init__(self, file: int):
        self.file, self.data = file, bytearray()
        self.is_open = True
        os.set_blocking(file, False)

    def put(self, data: bytes) -> None:
        self.data += data

    def write(self) -> bool:
        """Writes what is taken. Returns whether anyone still takes something."""
        with suppress(BlockingIOError):
            while self.data:
                try:
                    del self.data[:os.write(self.file, self.data)]
                except BlockingIOError:
                    raise
                except OSError:
                    return False
        return True

    def close(self) -> None:
        if self.is_open:
            self.is_open = False
            self.data.clear()
            os.close(self.file)


# What comes at its time: bytes of the server's stream, or what is done in their place.
Coming = Union[bytes, Act]


class Held:
    """What is held back, each until its time; what has one time, in the order in which it came."""

    def __init__(self) -> None:
        self.queue: list[tuple[float, int, Coming]] = []
        self.number = self.size = 0

    def put(self, due: float, what: Coming) -> None:
        self.number += 1
        self.size += size_of(what)
        heapq.heappush(self.queue, (due, self.number, what))

    def take(self, now: float) -> Optional[Coming]:
        """The next whose time has come."""
        if not self.queue or self.queue[0][0] > now:
            return None
        found = heapq.heappop(self.queue)[2]
        self.size -= size_of(found)
        return found

    def clear(self) -> None:
        self.queue, self.size = [], 0

    def patience(self, now: float) -> Optional[float]:
        """How many milliseconds it is until the next one."""
        return max(0.0, 1000 * (self.queue[0][0] - now)) if self.queue else None


def size_of(what: Coming) -> int:
    return len(what) if isinstance(what, bytes) else 0


def start(words: list[str]) -> subprocess.Popen:
    """Starts the server. Raises NotStarted."""
    try:
        return subprocess.Popen(words, stdin=subprocess.PIPE, stdout=subprocess.PIPE, start_new_session=True, bufsize=0)
    except (OSError, ValueError) as error:
        raise NotStarted(words[0], error) from None


class Session:
    """A session between the client's ends, 0 and 1, and a server."""

    def __init__(self, server: subprocess.Popen, faults: Faults, notices: Notices):
        self.server, self.faults, self.notices = server, faults, notices
        self.input, output = moved_away(0), moved_away(1)
        self.to_client, self.to_server = Way(output), Way(os.dup(server.stdin.fileno()))
        self.from_server = os.dup(server.stdout.fileno())
        server.stdin.close()
        server.stdout.close()
        self.asked, self.replied, self.held = Packets(), Packets(), Held()
        self.has_input = self.has_server = True
        # what has come in place of a reply, from which on nothing is read
        self.act: Optional[Act] = None
        # how many more bytes of the server's stream come before each of these
        self.left = {act: faults.bytes_before(act) for act in Act}

    # what is passed

    def ask(self) -> None:
        """Reads of the client, and passes on what the server is to get."""
        data = read(self.input)
        if not data:
            self.to_server.put(self.asked.rest)
            self.asked.rest = b""
            self.end_input()
        for packet in self.asked.take(data):
            if self.asked.is_lost or self.faults.is_passed(packet):
                self.to_server.put(packet)
        self.hold_failed(0.0)

    def reply(self) -> None:
        """Reads of the server."""
        data = read(self.from_server)
        for packet in self.replied.take(data):
            mark = None if self.replied.is_lost else self.faults.mark_of(packet)
            seconds = mark.seconds if mark else 0.0
            self.hold(mark.act or packet if mark else packet, seconds)
            self.hold_failed(seconds)
        if not data:
            self.has_server = False
            os.close(self.from_server)
            self.hold(self.replied.rest, 0.0)

    def hold(self, what: Coming, seconds: float) -> None:
        """Holds a reply back, or what is done in its place, for so many seconds, and as long as each one."""
        self.held.put(time.monotonic() + seconds + self.faults.usual_delay(), what)

    def hold_failed(self, seconds: float) -> None:
        """Holds the replies to requests that failed, whose turn it is."""
        for reply in self.faults.order.take():
            self.hold(reply, seconds)

    def let_go(self) -> None:
        """Passes on what has come to its time, up to the byte behind which something is done."""
        now = time.monotonic()
        while self.act is None and (what := self.held.take(now)) is not None:
            if isinstance(what, Act):
                self.meet(what)
            else:
                self.pass_on(what)
        if self.to_client.data and not self.to_client.write():
            self.cut()

    def pass_on(self, data: bytes) -> None:
        """Passes bytes on, or those before the one behind which something is done."""
        act = min((it for it in Act if self.left[it] is not None and self.left[it] <= len(data)),
                  key=lambda it: self.left[it], default=None)
        self.to_client.put(data if act is None else data[:self.left[act]])
        self.left = {it: None if left is None else left - len(data) for it, left in self.left.items()}
        if act is not None:
            self.meet(act)

    # what ends

    def meet(self, act: Act) -> None:
        """The place has come where the session is cut, or nothing passes any more. What came before is still passed."""
        self.act = act
        self.held.clear()
        self.notices.say("the session is cut here" if act is Act.CUT else "from here on nothing passes")

    def end_input(self) -> None:
        if self.has_input:
            self.has_input = False
            os.close(self.input)

    def cut(self) -> None:
        """Closes all streams, whatever they have."""
        self.end_input()
        self.to_client.close()
        self.to_server.close()
        if self.has_server:
            self.has_server = False
            os.close(self.from_server)

    def settle(self) -> None:
        """Closes what has come to its end."""
        if not self.has_input and not self.to_server.data:
            self.to_server.close()
        if self.act is None:
            is_over = not self.has_server and not self.held.queue
        else:
            is_over = self.act is Act.CUT or not self.has_input
        if is_over and not self.to_client.data:
            self.cut()

    def wanted(self) -> dict[int, int]:
        """What to wait for, by descriptor."""
        wanted = {self.to_client.file: select.POLLOUT if self.to_client.data else 0}
        if self.act is not None:
            # whether the client has closed its end: what it sends is left unread
            wanted.update({self.input: GONE} if self.has_input else {})
            return wanted
        if self.has_input:
            wanted[self.input] = select.POLLIN if len(self.to_server.data) + self.held.size < HELD else 0
        if self.has_server:
            wanted[self.from_server] = select.POLLIN if len(self.to_client.data) + self.held.size < HELD else 0
        if self.to_server.is_open:
            wanted[self.to_server.file] = select.POLLOUT if self.to_server.data else 0
        return wanted

    def go_on(self, file: int, found: int) -> None:
        """Does what the events of a descriptor ask for."""
        if self.has_input and file == self.input:
            if self.act is None:
                self.ask()
            elif found & GONE:
                self.end_input()
        elif self.has_server and file == self.from_server:
            self.reply()
        elif file == self.to_server.file and self.to_server.is_open:
            if found & GONE or not self.to_server.write():
                self.to_server.close()
                self.end_input()
        elif file == self.to_client.file and self.to_client.is_open:
            if found & GONE or not self.to_client.write():
                self.cut()

    def run(self) -> None:
        """Passes on what comes, until all streams are closed."""
        while self.to_client.is_open:
            looking = select.poll()
            for file, events in self.wanted().items():
                looking.register(file, events)
            for file, found in looking.poll(self.held.patience(time.monotonic())):
                if self.to_client.is_open:
                    self.go_on(file, found)
            if self.to_client.is_open:
                self.let_go()
            if self.to_client.is_open:
                self.settle()

    def end(self) -> int:
        """Ends the server, if it does not end by itself. Returns its status; 128 and the number of the signal that
        ended it."""
        self.cut()
        for number, seconds in ((signal.SIGTERM, PARTING), (signal.SIGKILL, KILL), (None, KILL)):
            with suppress(subprocess.TimeoutExpired):
                code = self.server.wait(seconds)
                return code if code >= 0 else 128 - code
            if number is not None:
                with suppress(ProcessLookupError):
                    os.killpg(self.server.pid, number)
        return 128 + signal.SIGKILL


def read(file: int) -> bytes:
    try:
        return os.read(file, PIECE)
    except OSError:
        return b""


def moved_away(file: int) -> int:
    """A descriptor for what this one leads to, which leads nowhere from now on: so a stream can be closed."""
    found, nothing = os.dup(file), os.open(os.devnull, os.O_RDWR)
    os.dup2(nothing, file)
    os.close(nothing)
    return found


def play(words: list[str], faults: Faults, notices: Notices) -> int:
    """Has a session. Returns its status. Raises NotStarted, and Signalled if a signal ends it."""
    with ending.put_off() as go_on:
        session = Session(start(words), faults, notices)
        try:
            go_on()
            session.run()
        finally:
            status = session.end()
    for text in (*faults.told(), *faults.unmet()):
        notices.say(text)
    return status
