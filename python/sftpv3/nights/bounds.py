"""What bounds the copies of records: bytes, the room of the disk, and time. A record may share its bytes with another
file of its user's, and so cost the spool nothing, where a copy of it costs all of them."""
import errno
import os
from typing import Callable, NamedTuple

from sftpv3.system.pauses import Clock

# Which part of the room that was free as the night began is left free by all of its copies.
LEFT_FREE = 10


class TooMuch(Exception):
    """Why a record is not copied, by which bound."""


class IsOver(Exception):
    """The time of the night is over, and what is being copied waits for the next one."""


class NotCopied(Exception):
    """A record of which no copy could be made within the bounds, and why."""

    def __init__(self, record, why: TooMuch) -> None:
        super().__init__(str(why))
        self.record = record


class Room:
    """The room of a disk, of which a night leaves a part free."""

    def __init__(self, folder: int) -> None:
        self.folder = folder
        self.least = self.free() // LEFT_FREE

    def free(self) -> int:
        found = os.fstatvfs(self.folder)
        return found.f_bavail * found.f_frsize

    def check(self, count: int) -> None:
        """Raises OSError before bytes are written that would leave less free than that."""
        if self.free() - count < self.least:
            raise OSError(errno.ENOSPC, f"No space left on device but {self.least:,} bytes, which a night leaves free")


class Most(NamedTuple):
    """How many bytes a record's copy may have, and how many seconds the copies of a set may take together."""

    count: int
    seconds: float


class Bounds:
    """The bounds of the copies of a record, or of a set of them. `is_over` says whether the night may not go on."""

    def __init__(self, most: Most, room: Room, is_over: Callable[[], bool]) -> None:
        self.most, self.room, self.is_over = most, room, is_over
        self.clock, self.copied = Clock(), 0
        self.deadline = self.clock.now() + most.seconds

    def begin(self) -> None:
        """Another record begins."""
        self.copied = 0

    def check(self, count: int) -> None:
        """To be called before so many bytes more are copied. Raises TooMuch, IsOver or OSError if they may not be."""
        self.clock.look()
        self.copied += count
        if self.copied > self.most.count:
            raise TooMuch(f"it has more than {self.most.count} bytes (--most-copied)")
        if self.clock.now() > self.deadline:
            raise TooMuch(f"its copy did not end within {self.most.seconds:g} seconds (--audit-seconds)")
        if self.is_over():
            raise IsOver()
        self.room.check(count)
