"""When sessions ran, as far as their records tell, and which of them may have run at the same time."""
import os
import struct
import time
from typing import Dict, List, NamedTuple, Optional, Tuple

from sftpv3.nights.records import Record
from sftpv3.spool.sinks import BOOT_BYTES, BOOT_OPENING, boot_clock

SECOND = 10**9
# A file of times of a boot: the boot, the date, the clock at that moment; then an entry for each record.
HEAD, ENTRY = struct.Struct(f">8s{BOOT_BYTES}s2Q"), struct.Struct(">Q")
# By how much the date in a name may precede the one in the file of times beside it.
LATER = 2 * SECOND
# By how much the time of a file may be behind that of its last change: the system takes it at its ticks.
TICK = SECOND // 100

# The call statx of Linux: the mask and the result of a file's birth.
AT_EMPTY_PATH, BIRTH, BUFFER, MASK_AT, BIRTH_AT = 0x1000, 0x800, 256, 0, 0x50


class Span(NamedTuple):
    """When a session ran: from and to, in nanoseconds from 1970 on; and the same on the clock of a boot, where a file
    of times has it. It may have run any time between."""

    start: int
    end: int
    boot: Optional[bytes] = None
    first: int = 0
    last: int = 0

    def until_now(self) -> "Span":
        """The same of a session that still runs."""
        return self._replace(end=max(self.end, time.time_ns()), last=max(self.last, boot_clock()))


class Clock(NamedTuple):
    """What a file of times says of its session: the boot, the date of the start, and the first and the last time on the
    clock of the boot."""

    boot: bytes
    date: int
    first: int
    last: int


def clock_of(file: int) -> Optional[Clock]:
    """What a file of times says, if it is one of a boot that has a time at all."""
    size = os.fstat(file).st_size
    if size < HEAD.size + ENTRY.size or (size - HEAD.size) % ENTRY.size:
        return None
    opening, boot, date, zero = HEAD.unpack(os.pread(file, HEAD.size, 0))
    if opening != BOOT_OPENING:
        return None
    first, last = (zero + ENTRY.unpack(os.pread(file, ENTRY.size, at))[0] for at in (HEAD.size, size - ENTRY.size))
    return Clock(boot, date, first, last) if first <= last else None


def born(file: int) -> Optional[int]:
    """When a file was made, in nanoseconds from 1970 on; None if the file system or the system does not say."""
    try:
        import ctypes
        statx = ctypes.CDLL(None, use_errno=True).statx
    except (ImportError, OSError, AttributeError):
        return None
    found = ctypes.create_string_buffer(BUFFER)
    if statx(file, b"", AT_EMPTY_PATH, BIRTH, found) or not struct.unpack_from("=I", found, MASK_AT)[0] & BIRTH:
        return None
    seconds, rest = struct.unpack_from("=qI", found, BIRTH_AT)
    return seconds * SECOND + rest


def clock_beside(record: Record) -> Optional[Clock]:
    """What the file of times beside a record says."""
    file = record.open_times()
    if file is None:
        return None
    try:
        return clock_of(file)
    finally:
        os.close(file)


def span_of(record: Record) -> Span:
    """When the session of a record that is open ran. Its name has the second of its start; what the file of times says,
    or when the file was made, counts within that second alone, since others may have made or moved the file later."""
    start, written = int(record.told * SECOND), os.fstat(record.file).st_mtime_ns
    clock = clock_beside(record)
    exact = born(record.file) if clock is None else clock.date
    latest = written if not record.is_dated else start + (SECOND if clock is None else LATER)
    if exact is not None and exact < latest and (exact >= start or not record.is_dated):
        start = exact
    end = max(start, written) + TICK
    return Span(start, end) if clock is None else Span(start, end, clock.boot, clock.first, clock.last)


def may_overlap(one: Span, other: Span) -> bool:
    """Whether two sessions may have run at the same time."""
    if one.boot is not None and other.boot is not None:
        return one.boot == other.boot and one.first <= other.last and other.first <= one.last
    return one.start <= other.end and other.start <= one.end


class Reach:
    """Until when the sessions of a group ran: by the date, those without times of a boot apart, and by each boot."""

    def __init__(self) -> None:
        self.end = self.plain = -1
        self.boots: Dict[bytes, int] = {}

    def add(self, span: Span) -> None:
        self.end = max(self.end, span.end)
        if span.boot is None:
            self.plain = max(self.plain, span.end)
        else:
            self.boots[span.boot] = max(self.boots.get(span.boot, -1), span.last)

    def has(self, span: Span) -> bool:
        """Whether a session that began later may have run at the same time as one of these."""
        if span.boot is None:
            return span.start <= self.end
        return span.start <= self.plain or span.first <= self.boots.get(span.boot, -1)


def in_order(record: Record) -> Tuple:
    """What comes first began first."""
    return record.span.start, record.span.end, record.name


def groups(records: List[Record]) -> List[List[Record]]:
    """The records in the order of their starts, together those that may have run at the same time as another one of
    them. Each has its span."""
    found: List[List[Record]] = []
    reach = Reach()
    for record in sorted(records, key=in_order):
        if not found or not reach.has(record.span):
            found.append([])
            reach = Reach()
        found[-1].append(record)
        reach.add(record.span)
    return found
