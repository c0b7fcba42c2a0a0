"""Lines of text as bytes, by docs/FORMATS.md (the text of a file, both ways) and docs/CASES.md: records and packets,
transcripts, tree files, and any bytes."""
from __future__ import annotations

import re
from collections.abc import Callable

from sftpv3.codec import transcripts
from sftpv3.codec.fields import string, uint32, uint64
from sftpv3.codec.packets import CLIENT, EXTENSIONS, FLAGS, KINDS_OF, LAYOUTS, SERVER, SIDES, WRITERS, packet
from sftpv3.codec.trees import OPENING, OPENING_WIDE, OPENING_WITH_LIMITS

# What a session begins with.
GREETINGS = ["C INIT 3", 'S VERSION 3 "posix-rename@openssh.com"="1" "hardlink@openssh.com"="1" '
             '"fsync@openssh.com"="1" "limits@sftpv3.test"="1"']

# The head and the root of a tree file whose lines have none.
HEAD, ROOT = 'home "/" uid 0 gid 0', 'D "/" 0 0 0755'

# What stands in no text in quotes.
STRANGE = re.compile(rb"[^ -~]|\\(?!x[0-9a-f]{2})")


class Unread(Exception):
    """A line that is not in its form, and what should be there."""


class Line:
    """A line as far as it was read."""

    def __init__(self, text: str):
        self.text, self.place = text.encode(), 0

    def refuse(self, expected: str) -> Unread:
        return Unread(f"column {self.place + 1}: expected {expected}: {self.text.decode(errors='replace')[:200]}")

    def match(self, pattern: bytes, expected: str) -> re.Match[bytes]:
        found = re.compile(pattern).match(self.text, self.place)
        if not found:
            raise self.refuse(expected)
        self.place = found.end()
        return found

    def has(self, word: str) -> bool:
        """Takes the word if it is next, and returns whether it is."""
        is_next = self.text.startswith(word.encode(), self.place)
        self.place += len(word) if is_next else 0
        return is_next

    def take(self, word: str) -> None:
        if not self.has(word):
            raise self.refuse(f"`{word}`")

    def end(self) -> None:
        if self.place < len(self.text):
            raise self.refuse("the end of the line")

    def number(self, bits: int = 32, base: int = 10, pattern: bytes = b"[0-9]+") -> int:
        value = int(self.match(pattern, "a number")[0], base)
        if value >= 2**bits:
            raise self.refuse(f"a number below 2^{bits}")
        return value

    def numbers(self, *bits: int) -> list[int]:
        """Takes numbers with a space before each."""
        found = []
        for it in bits:
            self.take(" ")
            found.append(self.number(it))
        return found

    def octal(self) -> int:
        return self.number(base=8, pattern=b"0[0-7]+")

    def quoted(self) -> bytes:
        """Takes a text in quotes, and returns its bytes."""
        text = self.match(b'"([^"]*)"', "a text in quotes")[1]
        # many zeros are looked at as spaces, which is quick
        if STRANGE.search(text.replace(rb"\x00", b" ")):
            raise self.refuse("a text of printable characters and `\\x`")
        return text.decode("unicode_escape").encode("latin-1")

    def spaced(self) -> bytes:
        self.take(" ")
        return self.quoted()

    def two_numbers(self) -> tuple[int, int]:
        first = self.number()
        self.take(",")
        return first, self.number()

    def pair(self) -> tuple[bytes, bytes]:
        name = self.quoted()
        self.take("=")
        return name, self.quoted()

    def flags(self) -> int:
        """Takes names of flags, none of them twice, or a number."""
        names = self.match(b"[0-9]+|[A-Z|]+", "flags")[0].decode()
        if names.isdigit() and int(names) < 2**32:
            return int(names)
        words = names.split("|")
        if len(set(words)) < len(words) or not set(words) <= set(FLAGS):
            raise self.refuse("flags of OPEN")
        return sum(FLAGS[it] for it in words)

    def listed(self, first: bytes, separator: str, item: Callable) -> list:
        """Takes items with a separator between, if what each begins with is next."""
        if not self.text.startswith(first, self.place):
            return []
        found = [item()]
        while self.has(separator):
            found.append(item())
        return found

    def attributes(self) -> dict:
        """Takes those attributes that are there, in their order."""
        found: dict = {}
        if self.has(" size="):
            found["size"] = self.number(64)
        if self.has(" owner="):
            found["owner"] = self.two_numbers()
        if self.has(" permissions="):
            found["permissions"] = self.octal()
        if self.has(" times="):
            found["times"] = self.two_numbers()
        if self.has(" extended="):
            found["extended"] = self.listed(b'"', ",", self.pair)
        return found

    def name_item(self) -> tuple[bytes, bytes, dict]:
        return self.spaced(), self.spaced(), self.attributes()

    def pairs(self) -> list[tuple[bytes, bytes]]:
        """Takes pairs up to the end, with a space before each."""
        found = []
        while self.place < len(self.text):
            self.take(" ")
            found.append(self.pair())
        return found

    def message(self) -> list[bytes]:
        """Takes a message and its language, which are empty if the line ends here."""
        return [b"", b""] if self.place == len(self.text) else [self.spaced(), self.spaced()]

    def field(self, kind: str, name: str):
        """Takes the field of a packet that has this kind and this name."""
        if kind in ("attributes", "pairs"):
            return getattr(self, kind)()
        if kind == "names":
            return self.listed(b" ", ";", self.name_item)
        self.take(" ")
        if name == "flags":
            return self.flags()
        return self.number(64 if kind == "uint64" else 32) if kind in ("uint32", "uint64") else self.quoted()

    def fields(self, name: str) -> list:
        """Takes the fields of the packet of this name."""
        names = LAYOUTS[name][1].split()
        if name == "STATUS":
            return [*self.numbers(32), *self.message()]
        return [self.field(kind, it) for kind, it in zip(KINDS_OF[name], names)]


def named_packet(line: Line, name: str) -> bytes:
    """Returns the packet of this name that a line has behind its side."""
    body = b"" if name in ("INIT", "VERSION") else uint32(*line.numbers(32))
    line.take(f" {name}")
    body += string(EXTENSIONS[name]) if name in EXTENSIONS else b""
    values = line.fields(name)
    line.end()
    return packet(LAYOUTS[name][0], body + b"".join(WRITERS[it](value) for it, value in zip(KINDS_OF[name], values)))


def hexadecimal(line: Line) -> bytes:
    digits = line.match(rb"[0-9a-f]*", "hexadecimal digits")[0]
    line.end()
    if len(digits) % 2:
        raise line.refuse("two hexadecimal digits a byte")
    return bytes.fromhex(digits.decode())


def record_of(text: str) -> tuple[bytes, bytes]:
    """Returns the side and the bytes of the record that a line is."""
    line = Line(text)
    side = line.match(b"[CS]", "`C` or `S`")[0]
    name = re.match(r".?(?:[0-9][^ ]* )?([^ ]*)", text[1:], re.DOTALL)[1]
    if name in SIDES[side]:
        return side, named_packet(line, name)
    line.take(" raw")
    if line.place < len(line.text):
        line.take(" ")
    return side, hexadecimal(line)


def transcript(records: list[str]) -> bytes:
    """Returns the transcript of these records. A line that says nothing is passed over."""
    said = [it for it in records if it.lstrip(" ")[:1] not in ("", "#")]
    return transcripts.put_records([record_of(it) for it in said])


def session(records: list[str]) -> bytes:
    return transcript([*GREETINGS, *records])


def sides(records: list[str]) -> tuple[bytes, bytes]:
    """Returns the packets of the client and those of the server in these records."""
    found = [record_of(it) for it in records]
    return tuple(b"".join(data for side, data in found if side == it) for it in (CLIENT, SERVER))


def bytes_of_line(text: str) -> bytes:
    """Returns the bytes of a line: those of a text in quotes, of hexadecimal digits, or of a record's packet."""
    if text.startswith(("C ", "S ")):
        return record_of(text)[1]
    line = Line(text if text.startswith('"') else text.replace(" ", ""))
    if not text.startswith('"'):
        return hexadecimal(line)
    data = line.quoted()
    line.end()
    return data


def bytes_of(lines: list[str]) -> bytes:
    return b"".join(map(bytes_of_line, lines))


# ==== Tree files.

def limits_of(line: Line) -> tuple[bytes, bytes]:
    """Takes the limits of a head, and returns the opening and their bytes."""
    if not line.has(" limits"):
        return OPENING, b""
    start = line.place
    try:
        four = line.numbers(32, 64, 32, 32)
        total = line.numbers(64)
    except Unread:
        line.place = start
        return OPENING_WITH_LIMITS, uint32(*line.numbers(32, 32, 32, 32))
    return OPENING_WIDE, uint32(four[0]) + uint64(four[1]) + uint32(*four[2:]) + uint64(*total)


def head_of(text: str) -> tuple[bytes, bool]:
    """Returns the bytes of a head, and whether its tree file is of the third kind."""
    line = Line(text)
    line.take("home ")
    home = line.quoted()
    line.take(" uid")
    owner = line.numbers(32)
    line.take(" gid")
    owner += line.numbers(32)
    opening, limits = limits_of(line)
    line.take(" entries")
    count = line.numbers(32)
    line.end()
    return opening + string(home) + uint32(*owner) + limits + uint32(*count), opening == OPENING_WIDE


def owner_of(line: Line, has_times: bool) -> bytes:
    """Takes a user, a group and permissions, and times behind them if there are some."""
    owner = line.numbers(32, 32)
    line.take(" ")
    owner.append(line.octal())
    return uint32(*owner, *(line.numbers(32, 32) if has_times else []))


def root_of(text: str, is_wide: bool) -> bytes:
    line = Line(text)
    letter = "d" if is_wide and text.startswith("d") else "D"
    line.take(f'{letter} "/"')
    owner = owner_of(line, letter == "d")
    line.end()
    return (letter.encode() if is_wide else b"") + owner


def owned(line: Line, letter: str) -> bytes:
    """Takes what a directory or a file says behind its path."""
    said = owner_of(line, letter.islower())
    if letter in "Dd":
        return said
    data = line.spaced()
    return said + (uint64(len(data)) + data if letter in "Gg" else string(data))


def entry_of(text: str, is_wide: bool) -> bytes:
    line = Line(text)
    letter = line.match(b"[DFHLGdfg]" if is_wide else b"[DFHL]", "the letter of an entry")[0].decode()
    path = string(line.spaced()) + letter.encode()
    if letter == "H":
        said = uint32(*line.numbers(32))
    else:
        said = string(line.spaced()) if letter == "L" else owned(line, letter)
    line.end()
    return path + said


def tree(lines: list[str]) -> bytes:
    """Returns the tree file of these lines. The head has no number of entries; head and root may be absent."""
    rest = list(lines)
    head = rest.pop(0) if rest and rest[0].startswith("home ") else HEAD
    root = rest.pop(0) if rest and rest[0].startswith(('D "/" ', 'd "/" ')) else ROOT
    front, is_wide = head_of(f"{head} entries {len(rest)}")
    return front + root_of(root, is_wide) + b"".join(entry_of(it, is_wide) for it in rest)


# ==== Streams of packets.

def cut(stream: bytes) -> tuple[bytes, bytes]:
    """Returns the first packet of a stream, or all of it if it has no whole one, and what follows."""
    end = 4 + int.from_bytes(stream[:4], "big") if len(stream) >= 4 else len(stream)
    return stream[:end], stream[end:]
