"""Files of times, read; spool/sinks.py writes them. A recorder reads none, so what this needs does not hold up its
start."""
import struct

from sftpv3.codec import kinds
from sftpv3.spool.sinks import BOOT_BYTES, BOOT_OPENING, TIMES_OPENING


class Malformed(Exception):
    """A file of times that cannot be read."""


class Clock:
    """What a file of times says: the boot, or None of the first form; the date of the start; what the machine's clock
    said then, or None; and the time of each record from then on."""

    def __init__(self, boot, date, zero, times):
        self.boot, self.date, self.zero, self.times = boot, date, zero, times

    def start(self):
        """When the session began, on a clock that it shares with others: the machine's, or else the date."""
        return self.date if self.zero is None else self.zero


def clock_of(data):
    """What a file of times of either form says. Raises Malformed if it is cut, or a time is less than the one before
    it, which no clock that is never set gives."""
    is_of_boot = data[:8] == BOOT_OPENING
    head = 16 + (BOOT_BYTES + 8) * is_of_boot
    if data[:8] not in (TIMES_OPENING, BOOT_OPENING) or len(data) < head:
        raise Malformed(kinds.mistaken(data, kinds.TIMES) or "the file has no times")
    if len(data) % 8:
        raise Malformed("the file ends inside an entry")
    times = list(struct.unpack(f">{(len(data) - head) // 8}Q", data[head:]))
    for number, (last, found) in enumerate(zip(times, times[1:]), 2):
        if found < last:
            raise Malformed(f"the time of record {number} is less than the one before")
    if not is_of_boot:
        return Clock(None, *struct.unpack(">Q", data[8:16]), None, times)
    return Clock(data[8:8 + BOOT_BYTES], *struct.unpack(">2Q", data[8 + BOOT_BYTES:head]), times)


def read_times(data):
    """The date of the start, and the time of each record."""
    clock = clock_of(data)
    return clock.date, clock.times
