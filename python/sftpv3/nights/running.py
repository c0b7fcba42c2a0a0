"""Runs a program to its end within bounds of time and memory, and holds the first lines of what it prints."""
import os
import resource
import select
import signal
import subprocess
from typing import Dict, List, Optional, Sequence

from sftpv3.system import children
from sftpv3.system.pauses import AT_ONCE, Clock

# The most bytes of a line that are held, and the most that are read at a time.
LONGEST, PIECE = 4096, 1 << 16


class Line:
    """A line as far as it came: its first bytes, and how many more it has."""

    def __init__(self) -> None:
        self.data, self.more = b"", 0

    def add(self, piece: bytes) -> None:
        room = LONGEST - len(self.data)
        self.data += piece[:room]
        self.more += max(0, len(piece) - room)

    def text(self) -> str:
        more = f"...{self.more:,} more bytes" if self.more else ""
        return self.data.decode(errors="replace") + more

    def __bool__(self) -> bool:
        return bool(self.data)


class Told:
    """What a program printed on both streams: its first lines, at most `most`; the last one; and how many there are.
    `status` is that of its end."""

    def __init__(self, most: int) -> None:
        self.most, self.count, self.status = most, 0, 0
        self.first: List[str] = []
        self.last, self.line = "", Line()

    def take(self, data: bytes) -> None:
        """Takes the next bytes."""
        begun, *others = data.split(b"\n")
        self.line.add(begun)
        if self.count >= self.most:
            # of these, the last whole line and what comes behind it can still be wanted
            self.count += max(0, len(others) - 2)
            others = others[-2:]
        for piece in others:
            self.end_line()
            self.line.add(piece)

    def end_line(self) -> None:
        self.count, self.last, self.line = self.count + 1, self.line.text(), Line()
        if self.count <= self.most:
            self.first.append(self.last)

    def end(self) -> None:
        """The program prints no more."""
        if self.line:
            self.end_line()

    def starts(self, text: str) -> bool:
        return bool(self.first) and self.first[0].startswith(text)

    def lines(self, count: Optional[int] = None) -> List[str]:
        """Of the first `count` lines, or of all, those that are held, and how many are not."""
        count = self.count if count is None else count
        held = self.first[:count]
        return held + ([f"and {count - len(held)} more"] if count > len(held) else [])


def within(most: int) -> None:
    """Bounds the address space of this process, as far as the system has no lower bound. Where a file may not be
    longer, it gets an error in place of a signal, and so says which."""
    signal.signal(signal.SIGXFSZ, signal.SIG_IGN)
    resource.setrlimit(resource.RLIMIT_AS, children.bounded(resource.getrlimit(resource.RLIMIT_AS), most))


def run(words: Sequence[str], most: int, seconds: float, space: Optional[int] = None, pass_fds=(),
        env: Optional[Dict[str, str]] = None) -> Told:
    """Runs a command to its end, in an address space of so many bytes, and holds its first lines. Raises TimeoutExpired
    after so many seconds, when it is killed; those in which the machine was paused do not count."""
    told, clock = Told(most), Clock()
    deadline = clock.now() + seconds
    limit = None if space is None else lambda: within(space)
    with children.child(words, stderr=subprocess.STDOUT, bufsize=0, pass_fds=pass_fds, preexec_fn=limit,
                        env=env) as running:
        while has_come(running.stdout.fileno(), clock, deadline):
            data = os.read(running.stdout.fileno(), PIECE)
            if not data:
                told.status = running.wait(max(0, deadline - clock.now()))
                told.end()
                return told
            told.take(data)
        raise subprocess.TimeoutExpired(words, seconds)


def has_come(file: int, clock: Clock, deadline: float) -> bool:
    """Waits until something can be read, at most until this time of the clock, and says whether it can."""
    clock.look()
    while (left := deadline - clock.now()) > 0:
        ready = select.select([file], [], [], min(left, AT_ONCE))[0]
        clock.look(min(left, AT_ONCE))
        if ready:
            return True
    return False
