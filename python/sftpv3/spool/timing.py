"""The files of times beside the records of a spool: all on the clock of the machine's boot, by the daemon that keeps
them."""
import os
import struct
import time
from contextlib import suppress

from sftpv3.spool.names import times_name
from sftpv3.spool.sinks import boot_clock, boot_id, boot_times_opening, date_and_zero, time_entries
from sftpv3.system import ways

# What precedes the fields of a record: the side and the packet's length; and the fewest bytes of a packet, which has a
# type and a number. The first eight bytes of a transcript are no record.
FRONT, FEWEST, OPENING = struct.Struct(">cI"), 5, 8


def boot():
    """The boot of the machine, or None if the system does not say."""
    try:
        return boot_id()
    except (OSError, ValueError):
        return None


def count_of(data, at=0):
    """How many records these bytes are, or None if they are no whole records."""
    count = 0
    while at + FRONT.size <= len(data):
        length = FRONT.unpack_from(data, at)[1]
        if length < FEWEST:
            return None
        at, count = at + FRONT.size + length, count + 1
    return count if at == len(data) else None


class Times:
    """The file of times beside a record."""

    def __init__(self, file, boot_of_it):
        self.file, self.is_begun, self.written = file, False, 0
        date, self.zero = date_and_zero(time.time_ns, boot_clock)
        self.opening = boot_times_opening(boot_of_it, date, self.zero)

    @classmethod
    def beside(cls, made, boot_of_it):
        """Makes the file beside a record; None if the system knows no boot, or it cannot be made: the record is worth
        more than its times."""
        name = times_name(made.name)
        if boot_of_it is None or name is None:
            return None
        place = ways.Location(made.folder, name, os.path.join(os.path.dirname(made.path), name))
        try:
            return cls(place.open(os.O_WRONLY | os.O_CREAT | os.O_EXCL), boot_of_it)
        except OSError:
            return None

    def entries(self, data):
        """What is to be written for the bytes of whole batches, which have come by now: the first ones begin with the
        opening of the transcript. Nothing if they are no records, and then nothing more is written later."""
        count = count_of(data, 0 if self.is_begun else OPENING)
        if count is None:
            return b""
        opening = b"" if self.is_begun else self.opening
        return opening + time_entries([boot_clock() - self.zero] * count)

    def put(self, entries):
        """Writes it. Returns whether the times go on: not behind what is no record, or what could not be written."""
        try:
            if entries and os.write(self.file, entries) == len(entries):
                self.is_begun, self.written = True, self.written + len(entries)
                return True
        except OSError:
            pass
        self.close()
        return False

    def close(self):
        """Closes it, with whole entries alone."""
        with suppress(OSError):
            os.ftruncate(self.file, self.written)
        os.close(self.file)
