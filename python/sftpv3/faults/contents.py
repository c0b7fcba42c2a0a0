"""Faults of servers that take the bytes of files for more than bytes, or keep them: texts, blocks of zeros, gaps, files
of the same size, and whole files that CLOSE puts back."""
import gzip
from contextlib import suppress

from sftpv3 import codec
from sftpv3.codec import APPEND, READ, TRUNC
from sftpv3.faults.kinds import FILE, Asks, Reads, clean, opens, sets_size, shown, with_data, written, written_data

TEXT = bytes(range(32, 127)) + b"\n\r\t"
BLOCK = 4096


def is_text(data):
    return bool(data) and not data.strip(TEXT) and b"\n" in data


line_ends_doubled = written_data(
    "In a WRITE of text, a newline gets a carriage return before it.",
    lambda self, offset, data: data.replace(b"\n", b"\r\n") if is_text(data) and b"\r" not in data else data)
line_ends_halved = shown("In DATA that is text, a carriage return before a newline is left out.",
                         lambda self, asked, offset, data: data.replace(b"\r\n", b"\n") if is_text(data) else data)


@shown
def text_ends_at_sign(self, asked, offset, data):
    """DATA that is text but for a byte of 26 ends there."""
    before, sign, _ = data.partition(b"\x1a")
    return before or None if sign and is_text(data.replace(b"\x1a", b"")) else data


mark_of_order_lost = shown(
    "The mark of UTF-8 at the start of a file is left out.",
    lambda self, asked, offset, data: data.removeprefix(b"\xef\xbb\xbf") if offset == 0 else data)


class archive_is_unpacked(Asks, inside=dict):
    """A READ through a handle that is open to read alone gives what is in a file of gzip."""

    def alter(self, asked):
        if asked.name == "OPEN" and asked.fields[1] == READ:
            found = self.bytes_now(asked.fields[0]) or b""
            if found.startswith(b"\x1f\x8b\x08"):
                with suppress(OSError, EOFError):
                    self.inside[asked.number] = gzip.decompress(found)

    def answer(self, asked, reply):
        inside = self.inside.get(self.opener_number(asked), b"") if asked.name == "READ" else b""
        data = inside and inside[asked.fields[1]:asked.fields[1] + min(asked.fields[2], 32768)]
        return [with_data(reply, data)] if data else None


@written
def zero_blocks_skipped(self, asked, handle, offset, data):
    """Blocks of 4,096 bytes of 0 in a WRITE that has others, too, are not written."""
    kept, start = [], 0
    for place in range(-offset % BLOCK, len(data) - BLOCK + 1, BLOCK):
        if not any(data[place:place + BLOCK]):
            kept.append((start, place))
            start = place + BLOCK
    kept = [(begin, end) for begin, end in (*kept, (start, len(data))) if end > begin]
    if start and kept and any(data):
        pieces = [[handle, offset + begin, data[begin:end]] for begin, end in kept]
        return [codec.Request(asked.number, "WRITE", pieces[0])] + [self.another("WRITE", *one) for one in pieces[1:]]


class append_behind_cut(Asks, ends=dict):
    """What is written with APPEND to a file that was cut meanwhile goes where its end was before."""

    def ask(self, asked):
        if sets_size(asked) or opens(asked, TRUNC):
            self.note(self.about(asked))
        if asked.name == "WRITE" and self.flags(asked) & APPEND and asked.fields[2]:
            end = self.ends.pop(self.opener_number(asked), 0)
            now = self.attributes_now("FSTAT", asked.fields[0])
            if now and now["size"] < end:
                return [self.another("FSETSTAT", asked.fields[0], {"size": end}), asked]
        return None

    def note(self, path):
        for opener in self.openers():
            if opener.fields[1] & APPEND and clean(opener.fields[0]) == path:
                given = self.attributes_now("STAT", path)
                self.ends[opener.number] = given["size"] if given else 0


class remade_alike_unseen(Asks, Reads, read=set, removed=dict, views=dict):
    """Where a file was removed and another one of the same size made by its path, READs give the bytes of the old one
    if that was read before."""

    # It keeps the paths that were read; the bytes of what was removed there; and those that OPENs find.

    def alter(self, asked):
        path = clean(asked.fields[0]) if asked.name in ("OPEN", "REMOVE") else None
        if asked.name == "REMOVE" and path in self.read and self.kind_now(path) == FILE:
            self.removed[path] = self.bytes_now(path) or b""
        if asked.name == "OPEN" and asked.fields[1] == READ:
            self.read.add(path)
            now = self.attributes_now("STAT", path) if path in self.removed else None
            if now and now["size"] == len(self.removed[path]):
                self.views[asked.number] = self.removed[path]

    def shown(self, asked, offset, data):
        view = self.views.get(self.opener_number(asked))
        return data if view is None else view[offset:offset + len(data)]
