"""Faults of servers in what is written: loss, corruption and cuts, by size, by offset, by count, at the end, after a
rename, after a truncation. The text of each says what the server does wrong."""
from sftpv3 import codec
from sftpv3.codec import APPEND, EXCL, TRUNC, WRITE
from sftpv3.faults.kinds import (FAR, MOVES, Moved, Settings, Writes, ask, fault, flagged, loses, set_to, sets,
                                 with_other, without, written, written_at, written_data)

KIB = 1024

write_lost_by_size = loses("A WRITE of more than {LENGTH} bytes is lost.",
                           lambda self, asked, offset, data: len(data) > self.LENGTH, LENGTH=20000)
write_lost_by_offset = loses("A WRITE at {OFFSET} or behind is lost.",
                             lambda self, asked, offset, data: offset >= self.OFFSET, OFFSET=2 ** 20)
write_lost_by_count = loses("WRITE number {COUNT} through a handle is lost.",
                            lambda self, asked, offset, data: self.count_through(asked) == self.COUNT, COUNT=16)
write_lost_at_end = loses(
    "The last block of an upload, if it is shorter than 4 KiB and lies behind 32 KiB, is lost.",
    lambda self, asked, offset, data: offset >= 32 * KIB and offset % (4 * KIB) == 0 and len(data) < 4 * KIB)
write_lost_inside = loses(
    "A WRITE that lies inside the file, so that the file does not get longer, is lost if it has over {LENGTH} bytes.",
    lambda self, asked, offset, data: len(data) > self.LENGTH and offset + len(data) < self.length(asked), LENGTH=1000)

write_cut = written_data("Of a WRITE only the first {LENGTH} bytes are done.",
                         lambda self, offset, data: data[:self.LENGTH] if len(data) > self.LENGTH else data,
                         LENGTH=32 * KIB)
write_lacks_last_byte = written_data("The last byte of a WRITE of {LENGTH} bytes or more is not written.",
                                     lambda self, offset, data: data[:-1] if len(data) >= self.LENGTH else data,
                                     LENGTH=64 * KIB)
write_corrupt_by_size = written_data("Byte 4,096 of a WRITE is changed.",
                                     lambda self, offset, data: with_other(data, 4096))
write_corrupt_by_offset = written_data("The byte at 100,000 of a file is written wrongly.",
                                       lambda self, offset, data: with_other(data, 100000 - offset, 0x80))

write_offset_wraps = written_at("The offset of a WRITE is taken modulo {MODULUS}.",
                                lambda self, offset: offset % self.MODULUS if offset < FAR else offset,
                                MODULUS=2 ** 20)
write_elsewhere = written_at(
    "A WRITE at an offset of 65,536 or more that is no multiple of 512 goes to the multiple before it.",
    lambda self, offset: offset - offset % 512 if 2 ** 16 <= offset < FAR else offset)


@written(LENGTH=1000)
def write_cuts_file(self, asked, handle, offset, data):
    """A WRITE of over {LENGTH} bytes ends the file behind it."""
    if len(data) > self.LENGTH and not self.flags(asked) & APPEND:
        return [asked, self.another("FSETSTAT", handle, {"size": offset + len(data)})]


@written
def write_twice(self, asked, handle, offset, data):
    """A WRITE of 4 KiB is done a second time, 4 KiB further on."""
    return [asked] + [self.another("WRITE", handle, offset + len(data), data)] * (len(data) == 4 * KIB)


@written
def gap_with_garbage(self, asked, handle, offset, data):
    """The byte before a WRITE behind the end of a new file is no 0."""
    if self.flags(asked) & (TRUNC | EXCL) and data and 0 < self.length(asked) < offset < FAR:
        return [codec.Request(asked.number, "WRITE", [handle, offset - 1, b"g" + data])]


@written
def empty_write_lengthens(self, asked, handle, offset, data):
    """A WRITE of no bytes behind the end makes the file longer."""
    if not data and self.lengths.get(self.path(asked), offset) < offset < FAR:
        return [codec.Request(asked.number, "FSETSTAT", [handle, {"size": offset}])]


write_lost_after_rename = fault("loses", Moved, Writes)(
    "What is written through a handle whose file got another name, by the path that it was opened by, is lost.",
    lambda self, asked, offset, data: self.opener_number(asked) in self.moved)


class write_lost_after_truncation(Writes, cut=set):
    """The first WRITE through a handle after its FSETSTAT of a size is lost."""

    def alter(self, asked):
        if sets(asked, "size", ("FSETSTAT",)):
            self.cut.add(asked.handle())

    def loses(self, asked, _offset, data):
        lost = asked.handle() in self.cut and bool(data)
        if lost:
            self.cut.discard(asked.handle())
        return lost


@loses
def write_lost_with_two_handles(self, asked, offset, data):
    """A WRITE is lost if its file is open by the same path through another handle, too."""
    opener = self.opener(asked)
    return opener is not None and any(other is not opener and other.fields[0] == opener.fields[0]
                                      for other in list(self.opened.values()))


@written(COUNT=60)
def write_lost_with_many_handles(self, asked, handle, offset, data):
    """With more than {COUNT} handles open, a WRITE through the newest goes to that before it."""
    handles = list(self.opened)
    if len(handles) > self.COUNT and handle == handles[-1] and self.opened[handles[-2]].name == "OPEN":
        return [codec.Request(asked.number, "WRITE", [handles[-2], offset, data])]


class write_lost_in_flight(Writes):
    """Of WRITEs that come together, the fourth and later ones are lost."""

    together = 0

    def requests(self, packets):
        self.together = 0
        return super().requests(packets)

    def loses(self, _asked, _offset, _data):
        self.together += 1
        return self.together > 3


zeros_lost = loses("A WRITE of {LENGTH} bytes or more, all of them 0, is lost.",
                   lambda self, asked, offset, data: len(data) >= self.LENGTH and not any(data), LENGTH=512)
zeros_at_end_lost = written_data("Of a WRITE that ends in 16 bytes of 0 or more, those at its end are not written.",
                                 lambda self, offset, data: data.rstrip(b"\0") if data.endswith(bytes(16)) else data)


@loses(last=dict, LENGTH=100)
def write_alike_lost(self, asked, offset, data):
    """A WRITE of {LENGTH} bytes or more is lost if the one before it through the handle had the same bytes."""
    before = self.last.get(asked.handle())
    self.last[asked.handle()] = data
    return len(data) >= self.LENGTH and data == before


@loses(done=set, LENGTH=100)
def write_again_lost(self, asked, offset, data):
    """A WRITE of {LENGTH} bytes or more is lost if an earlier one through the handle had the same bytes and offset."""
    one = self.opener_number(asked), offset, data
    known = one in self.done
    self.done |= {one} if len(data) >= self.LENGTH else set()
    return known


append_at_offset = flagged("OPEN passes over APPEND: a WRITE goes to its offset.",
                           lambda self, asked, flags: flags & ~APPEND if flags & WRITE else flags)
append_lost = loses("Through a handle that is open with APPEND, a WRITE of over {LENGTH} bytes is lost.",
                    lambda self, asked, offset, data: self.flags(asked) & APPEND and len(data) > self.LENGTH,
                    LENGTH=2000)

truncation_lost = Settings.but("FSETSTAT of a size is told done, and is not.", NAMES=("FSETSTAT",), WHAT="size")
truncation_lost_by_size = set_to(
    "SETSTAT and FSETSTAT of a size from {SIZE} bytes on are told done, and are not.",
    lambda self, asked, given: without(given, "size") if self.SIZE <= given["size"] < FAR else given, WHAT="size",
    SIZE=40000)
truncation_to_block = set_to(
    "SETSTAT and FSETSTAT of a size above {BLOCK} cut at the multiple of this before it.",
    lambda self, asked, given:
    {**given, "size": given["size"] - given["size"] % self.BLOCK} if self.BLOCK < given["size"] < FAR else given,
    WHAT="size", BLOCK=4096)


@ask
def lengthened_with_garbage(self, asked):
    """A file of 1,000 bytes or more that FSETSTAT made longer ends in a byte that is no 0."""
    size = asked.fields[1].get("size", 0) if asked.name == "FSETSTAT" else 0
    if 1000 <= self.length(asked) < size < FAR:
        return [asked, self.another("WRITE", asked.handle(), size - 1, b"g")]


truncated_keeps_bytes = flagged(
    "OPEN with TRUNC does not empty a file of which over {SIZE} bytes were written.",
    lambda self, asked, flags: flags & ~TRUNC if self.lengths.get(asked.fields[0], 0) > self.SIZE else flags,
    SIZE=30000)


@ask
def replaced_keeps_old(self, asked):
    """posix-rename to the name of a file that was written removes the old name, and leaves the new one's file."""
    if asked.name == "POSIX-RENAME" and all(path in self.lengths for path in asked.fields):
        return [codec.Request(asked.number, "REMOVE", asked.fields[:1])]


@ask(pairs=set)
def replaced_by_itself_is_removed(self, asked):
    """posix-rename of a name made by hardlink to the name of the same file removes the old name."""
    if asked.name == "HARDLINK":
        self.pairs.add(tuple(reversed(asked.fields)))
    if asked.name == "POSIX-RENAME" and tuple(asked.fields) in self.pairs:
        return [codec.Request(asked.number, "REMOVE", asked.fields[:1])]


@ask(SIZE=2 ** 18)
def renamed_loses_tail(self, asked):
    """A file of more than {SIZE} bytes is cut there when it gets another name."""
    if asked.name in MOVES and self.lengths.get(asked.fields[0], 0) > self.SIZE:
        return [self.another("SETSTAT", asked.fields[0], {"size": self.SIZE}), asked]


@ask(SIZE=300000)
def close_loses_tail(self, asked):
    """CLOSE of a file that was written through the handle cuts what lies behind {SIZE} bytes."""
    closed = self.closed(asked)
    if closed and closed.name == "OPEN" and closed.fields[1] & WRITE \
            and self.lengths.get(closed.fields[0], 0) > self.SIZE:
        return [self.another("FSETSTAT", asked.fields[0], {"size": self.SIZE}), asked]
