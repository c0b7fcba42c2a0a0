"""Faults of servers in what is read: corruption, cuts, early and late ends, what was read before."""
from sftpv3.faults.kinds import (FAR, OK_STATUS, Moved, Reads, alter, at_end, is_below, shown, status, with_data,
                                 with_other)

KIB = 1024

read_corrupt_by_offset = shown("DATA from byte {OFFSET} on has a wrong first byte.",
                               lambda self, asked, offset, data: with_other(data, 0) if offset >= self.OFFSET else data,
                               OFFSET=100000)
read_corrupt_at_boundary = shown("The byte at 32,768 is wrong.",
                                 lambda self, asked, offset, data: with_other(data, 32 * KIB - offset))
read_corrupt_by_size = shown(
    "In DATA of {LENGTH} bytes or more, the last 512 are 0.",
    lambda self, asked, offset, data: data if len(data) < self.LENGTH else data[:-512] + bytes(512), LENGTH=32 * KIB)


@shown(count=int)
def read_corrupt_by_count(self, asked, offset, data):
    """Each 40th DATA of 1,000 bytes or more has its first two bytes exchanged."""
    self.count += len(data) >= 1000
    return data[1::-1] + data[2:] if len(data) >= 1000 and self.count % 40 == 0 else data


read_lacks_last_byte = shown(
    "DATA that ends where the file ends, from byte {OFFSET} on, lacks the last byte.",
    lambda self, asked, offset, data:
    data[:-1] if offset >= self.OFFSET and 1 < len(data) < min(asked.fields[2], 32 * KIB) else data, OFFSET=32 * KIB)
read_cut = shown("DATA has at most {LENGTH} bytes, wherever the file ends.",
                 lambda self, asked, offset, data: data[:self.LENGTH] if len(data) > self.LENGTH else data,
                 LENGTH=16 * KIB)
read_ends_early = shown("A READ at {OFFSET} or behind finds the end of the file.",
                        lambda self, asked, offset, data: None if offset >= self.OFFSET else data, OFFSET=2 ** 20)
read_ends_at_block = shown(
    "Of a file of which 32,768 bytes were written, a READ that begins in the second half finds the end.",
    lambda self, asked, offset, data: None if self.length(asked) == 32 * KIB and offset >= 16 * KIB else data)


class read_ends_below_renamed(Moved, Reads):
    """A READ through a handle finds the end once a directory on the path that it was opened by got another name."""

    def is_meant(self, path, renamed):
        return is_below(path, renamed)

    def shown(self, asked, _offset, data):
        return None if self.opener_number(asked) in self.moved else data


read_behind_end = at_end(
    "A READ at an offset from {OFFSET} on that is behind the end gives a byte of 0.", lambda self, asked, reply:
    with_data(reply, b"\0") if self.OFFSET <= asked.fields[1] < FAR and asked.fields[2] else reply, OFFSET=1000)
read_empty_at_end = at_end(
    "A READ of {LENGTH} bytes or more at the end is answered with DATA of no bytes.",
    lambda self, asked, reply: with_data(reply, b"") if asked.fields[2] >= self.LENGTH else reply, LENGTH=32 * KIB)
read_ok_at_end = at_end(
    "A READ of {LENGTH} bytes or more at the end is answered with OK.",
    lambda self, asked, reply: status(reply, OK_STATUS) if asked.fields[2] >= self.LENGTH else reply, LENGTH=4 * KIB)


@alter(MODULUS=2 ** 32)
def read_offset_wraps(self, asked):
    """The offset of a READ is taken modulo {MODULUS}."""
    if asked.name == "READ":
        asked.fields[1] = asked.fields[1] % self.MODULUS


@shown(last=dict)
def read_stale(self, asked, offset, data):
    """A READ by the same path, of as many bytes at the same offset as the last, gives what that gave."""
    place = (self.path(asked), offset, asked.fields[2])
    known = self.last.setdefault(self.path(asked), (place, data))
    self.last[self.path(asked)] = (place, data)
    return known[1] if known[0] == place else data


@shown(before=dict)
def read_repeats_block(self, asked, offset, data):
    """A READ of 32 KiB or more behind 64 KiB gives the bytes of the READ before it through the handle."""
    before = self.before.get(asked.handle(), data)
    self.before[asked.handle()] = data
    return before if offset >= 64 * KIB and len(data) >= 32 * KIB == len(before) else data


@alter(COUNT=30)
def read_of_other_handle(self, asked):
    """With more than {COUNT} handles open, a READ through the oldest file goes to the next."""
    files = [handle for handle, opener in list(self.opened.items()) if opener.name == "OPEN"]
    if asked.name == "READ" and len(files) > self.COUNT and asked.handle() == files[0]:
        asked.fields[0] = files[1]


class read_old_after_replacing(Reads, replaced=set):
    """After posix-rename, the first READ by the new name, of a file that was written by the name, is all 0."""

    def alter(self, asked):
        if asked.name == "POSIX-RENAME" and asked.fields[1] in self.lengths:
            self.replaced.add(asked.fields[1])

    def shown(self, asked, _offset, data):
        if self.path(asked) not in self.replaced:
            return data
        self.replaced.discard(self.path(asked))
        return bytes(len(data))


class read_after_truncation(Reads, cut=set):
    """After FSETSTAT of a size through the handle, DATA of more than 10 bytes ends in a byte of 0xff."""

    def alter(self, asked):
        if asked.name == "FSETSTAT" and "size" in asked.fields[1]:
            self.cut.add(self.path(asked))

    def shown(self, asked, _offset, data):
        return data[:-1] + b"\xff" if self.path(asked) in self.cut and len(data) > 10 else data
