"""The messages of a session as records, in the text of `sftpv3 make`. What the log does not say is named in a line
before the record, and `?` or 0 stands for it there. OpenSSH's server does one request at a time, so the log has them in
the order in which they came, each with its reply behind it."""
from __future__ import annotations

import re
from collections.abc import Iterator
from dataclasses import dataclass, field

from sftpv3.codec import LONGEST, string, wording
from sftpv3.logs.messages import Said, unescaped

PATH = rb'"(.*)"'
# What is said of a request in one message, by its name in the log. Groups are its id and further fields.
REQUEST = re.compile(rb"(?:process_extended_copy_data: )?request (\d{1,10}): (.*)", re.DOTALL)
REPLY = re.compile(rb"sent (?:(status|handle handle|data len|names count) (\d{1,9})|attrib have 0x([0-9a-f]{1,8}))")
OPEN = re.compile(rb"open flags (\d{1,9})")
CLOSE = re.compile(rb"close handle (\d{1,10})")
THROUGH = re.compile(rb'(read|write|readdir|fstat|fstatvfs) ".*" \(handle (\d{1,9})\)'
                     rb'(?: off (\d{1,20}) len (\d{1,9}))?', re.DOTALL)
FSETSTAT = re.compile(rb"fsetstat handle (\d{1,10})")
FSYNC = re.compile(rb"fsync \(handle (\d{1,9})\)")
COPY = re.compile(rb'copy-data from ".*" \(handle (\d{1,9})\) off (\d{1,20}) len (\d{1,20}) to ".*" '
                  rb'\(handle (\d{1,9})\) off (\d{1,20})', re.DOTALL)
# Requests of extensions with one text.
EXTENDED = re.compile(rb'(expand, original|home-directory) "(.*)"', re.DOTALL)
EXTENSIONS = {b"expand, original": "expand-path@openssh.com", b"home-directory": "home-directory"}
SETSTAT = re.compile(rb"(setstat|lsetstat) name " + PATH, re.DOTALL)
# What is said of a request in a message behind the one with its id.
OPENED = re.compile(rb"open " + PATH + rb" flags \S* mode 0?([0-7]+)", re.DOTALL)
NAMED = re.compile(rb"(stat name|lstat name|opendir|remove name|rmdir name|realpath|readlink|statvfs) " + PATH,
                   re.DOTALL)
MADE = re.compile(rb"mkdir name " + PATH + rb" mode 0?([0-7]+)", re.DOTALL)
TWO = re.compile(rb'(rename|posix-rename|symlink|hardlink) old "(.*)" new "(.*)"', re.DOTALL)
SET = re.compile(rb'set ".*" (?:size (\d{1,20})|mode 0?([0-7]{1,6})|modtime (\S+)|owner (\d{1,10}) group (\d{1,10}))',
                 re.DOTALL)
UNKNOWN = re.compile(rb'Unknown extended request "(.*)"', re.DOTALL)
VERSION = re.compile(rb"received client version (\d+)")

# Requests that have a path, by what the log calls them; two paths; and the modes that the server takes where a request
# has none.
WITH_PATH = {b"stat name": "STAT", b"lstat name": "LSTAT", b"opendir": "OPENDIR", b"remove name": "REMOVE",
             b"rmdir name": "RMDIR", b"realpath": "REALPATH", b"readlink": "READLINK"}
WITH_TWO = {b"rename": "RENAME", b"posix-rename": "POSIX-RENAME", b"symlink": "SYMLINK", b"hardlink": "HARDLINK"}
USUAL_FILE, USUAL_FOLDER = b"666", b"777"
# What the log has for a handle that is not open.
NO_HANDLE = 1 << 31
FLAGS = ("READ", "WRITE", "APPEND", "CREAT", "TRUNC", "EXCL")

# The attributes that a reply has, by the bits of its flags, with what stands for them.
ATTRIBUTES = ((1, "size=0"), (2, "owner=0,0"), (4, "permissions=00"), (8, "times=0,0"))


@dataclass
class Record:
    """A record: its line of text, and what the log does not say of it."""

    text: str
    unknown: list[str] = field(default_factory=list)


@dataclass
class Asked:
    """A request whose reply has not come: its id, its name, and the fields that are known so far."""

    number: int
    line: int
    name: str = ""
    fields: list[str] = field(default_factory=list)
    unknown: list[str] = field(default_factory=list)


def quoted(data: bytes) -> str:
    return wording.quoted(data)


def handle(number: bytes) -> str:
    """A handle as the server writes it: its number in four bytes."""
    return quoted(int(number).to_bytes(4, "big"))


class Teller:
    """Tells the records of a session, message by message."""

    def __init__(self) -> None:
        self.asked: Asked | None = None
        self.version = False
        # how many requests there are, and of how many records something is not known
        self.requests = self.incomplete = 0

    def records(self, said: list[Said]) -> Iterator[Record]:
        for one in said:
            for record in self.take(one):
                self.incomplete += bool(record.unknown)
                yield record
        for record in self.unanswered():
            self.incomplete += bool(record.unknown)
            yield record

    def take(self, one: Said) -> Iterator[Record]:
        """The records that are known with this message."""
        text = one.text
        if found := VERSION.fullmatch(text):
            yield from self.opening(min(int(found[1]), 3))
        elif found := REQUEST.fullmatch(text):
            yield from self.numbered(int(found[1]), found[2], one)
        elif found := UNKNOWN.fullmatch(text):
            yield from self.unknown_extension(found, one)
        elif text.startswith((b"users-groups-by-id: ", b"message repeated ")):
            yield Record("", [f"what line {one.line} tells of, which is left out: {shown(text)}"])
        elif self.asked:
            self.detail(text)

    def opening(self, version: int) -> Iterator[Record]:
        self.version = True
        yield Record(f"C INIT {version}", ["the extensions of INIT"])
        yield Record("S VERSION 3", ["the extensions of VERSION"])

    def numbered(self, number: int, text: bytes, one: Said) -> Iterator[Record]:
        """A message with the id of a request: it is asked, or answered."""
        if not self.version:
            yield from self.opening(3)
        if text.startswith(b"sent "):
            yield from self.answered(number, text, one)
            return
        yield from self.unanswered()
        self.asked = Asked(number, one.line)
        self.begin(text)

    def unanswered(self) -> Iterator[Record]:
        """The request before, if the log has no reply to it."""
        if self.asked:
            yield from self.request()
            yield Record("", [f"the reply to request {self.asked.number}"])
            self.asked = None

    def begin(self, text: bytes) -> None:
        """What the message with the id says of a request."""
        asked = self.asked
        if found := OPEN.fullmatch(text):
            asked.name, asked.fields = "OPEN", ["", flags(int(found[1]))]
        elif found := CLOSE.fullmatch(text):
            asked.name, asked.fields = "CLOSE", [self.handle(found[1])]
        elif found := THROUGH.fullmatch(text):
            self.through(*found.groups())
        elif found := FSETSTAT.fullmatch(text):
            asked.name, asked.fields = "FSETSTAT", [self.handle(found[1])]
        elif found := FSYNC.fullmatch(text):
            asked.name, asked.fields = "FSYNC", [handle(found[1])]
        elif found := SETSTAT.fullmatch(text):
            self.set_stat(found[1], unescaped(found[2]))
        elif text == b"limits":
            asked.name, asked.fields = "EXTENDED", ['"limits@openssh.com"', '""']
        elif text == b"mkdir":
            asked.name, asked.fields = "MKDIR", [""]
        elif found := EXTENDED.fullmatch(text):
            asked.name, asked.fields = "EXTENDED", [f'"{EXTENSIONS[found[1]]}"', quoted(string(unescaped(found[2])))]
        elif found := COPY.fullmatch(text):
            asked.name, asked.fields = "EXTENDED", ['"copy-data"', quoted(copied(*map(int, found.groups())))]

    def handle(self, number: bytes) -> str:
        """A handle of a request, which the server may not know."""
        if int(number) < NO_HANDLE:
            return handle(number)
        self.asked.unknown.append("the handle, which is none that the server gave")
        return '"?"'

    def through(self, name: bytes, number: bytes, offset: bytes | None, length: bytes | None) -> None:
        """A request through a handle."""
        asked = self.asked
        if name == b"fstatvfs":
            asked.name = "EXTENDED"
            asked.fields = ['"fstatvfs@openssh.com"', quoted(string(int(number).to_bytes(4, "big")))]
            return
        asked.name, asked.fields = name.decode().upper(), [handle(number)]
        if offset is not None and length is not None:
            count = min(int(length), LONGEST)
            asked.fields += [offset.decode(), length.decode() if name == b"read" else quoted(b"?" * count)]
            if name == b"write" and count:
                asked.unknown.append(f"the {count:,} bytes of the WRITE")

    def set_stat(self, name: bytes, path: bytes) -> None:
        """A request that sets attributes, which further messages name."""
        if name == b"setstat":
            self.asked.name, self.asked.fields = "SETSTAT", [quoted(path)]
        else:
            self.asked.name, self.asked.fields = "EXTENDED", ['"lsetstat@openssh.com"', quoted(string(path) + bytes(4))]
            self.asked.unknown.append("the attributes of lsetstat@openssh.com")

    def detail(self, text: bytes) -> None:
        """What a further message says of the request."""
        asked = self.asked
        if found := OPENED.fullmatch(text):
            asked.fields[0] = quoted(unescaped(found[1]))
            asked.fields += self.mode(found[2], USUAL_FILE)
        elif found := MADE.fullmatch(text):
            asked.fields = [quoted(unescaped(found[1])), *self.mode(found[2], USUAL_FOLDER)]
        elif found := NAMED.fullmatch(text):
            self.of_path(found[1], unescaped(found[2]))
        elif found := TWO.fullmatch(text):
            self.of_two(found)
        elif found := SET.fullmatch(text):
            self.attribute(*(it and it.decode() for it in found.groups()))
        elif text.startswith(b'set "'):
            asked.unknown.append("an attribute, since a line is missing or cut")

    def mode(self, mode: bytes, usual: bytes) -> list[str]:
        """The permissions of a request, which may have none where they are the usual ones."""
        self.asked.unknown.append("attributes besides permissions")
        if mode == usual:
            self.asked.unknown[-1] = f"whether it has permissions (0{mode.decode()}), and other attributes"
            return []
        return [f"permissions=0{mode.decode()}"]

    def of_path(self, name: bytes, path: bytes) -> None:
        if name == b"statvfs":
            self.asked.name, self.asked.fields = "EXTENDED", ['"statvfs@openssh.com"', quoted(string(path))]
        else:
            self.asked.name, self.asked.fields = WITH_PATH[name], [quoted(path)]

    def of_two(self, found: re.Match) -> None:
        self.asked.name = WITH_TWO[found[1]]
        self.asked.fields = [quoted(unescaped(found[2])), quoted(unescaped(found[3]))]
        if found[0].count(b'" new "') > 1:
            self.asked.unknown.append("where the first path ends")

    def attribute(self, size: str | None, mode: str | None, time: str | None, user: str | None,
                  group: str | None) -> None:
        """An attribute that is set, one of these."""
        if self.asked.name not in ("SETSTAT", "FSETSTAT"):
            return
        if time:
            self.asked.fields.append("times=0,0")
            self.asked.unknown.append(f"the times, but for the later one, {wording.line(time)} by the server's clock")
        elif user:
            self.asked.fields.append(f"owner={user},{group}")
        else:
            self.asked.fields.append(f"size={size}" if size else f"permissions=0{mode}")

    def unknown_extension(self, found: re.Match, one: Said) -> Iterator[Record]:
        """A request that the server does not know; its id is that of the reply."""
        yield from self.unanswered()
        self.asked = Asked(-1, one.line, "EXTENDED", [quoted(unescaped(found[1])), '""'], ["the data of the request"])

    def request(self) -> Iterator[Record]:
        """The record of the request."""
        asked = self.asked
        self.requests += 1
        if "" in asked.fields:
            asked.fields = [it or '"?"' for it in asked.fields]
            asked.unknown.append("the path, since a line is missing or cut")
        if not asked.name:
            yield Record("", [f"request {asked.number} of line {asked.line}, which is left out: the log does not say "
                              "what it asks for"])
        else:
            yield Record(" ".join(["C", str(asked.number), asked.name, *in_order(asked.fields)]), asked.unknown)

    def answered(self, number: int, text: bytes, one: Said) -> Iterator[Record]:
        """The records of a request and of its reply."""
        if self.asked and self.asked.number == -1:
            self.asked.number = number
        if self.asked is None or self.asked.number != number:
            yield Record("", [f"the request to which line {one.line} is the reply, which is left out"])
            return
        yield from self.request()
        is_left_out, self.asked = not self.asked.name, None
        found = REPLY.fullmatch(text)
        if is_left_out or found is None:
            yield Record("", [f"the reply to request {number}: {shown(text)}"])
        else:
            yield reply(number, found[1], found[2]) if found[1] else attributes(number, int(found[3], 16))


def copied(source: int, offset: int, length: int, target: int, place: int) -> bytes:
    """The data of copy-data, of which the log has all."""
    def number(value: int) -> bytes:
        return min(value, 2**64 - 1).to_bytes(8, "big")
    return (string(source.to_bytes(4, "big")) + number(offset) + number(length) + string(target.to_bytes(4, "big")) +
            number(place))


def shown(text: bytes) -> str:
    """A message in a line of the text, cut."""
    return wording.line(text[:80].decode(errors="replace"))


def flags(bits: int) -> str:
    """The flags of OPEN."""
    known = [name for at, name in enumerate(FLAGS) if bits >> at & 1]
    left = bits & ~63
    return "|".join(known + ([f"0x{left:x}"] if left else [])) or "0"


def in_order(fields: list[str]) -> list[str]:
    """The fields of a request, attributes in the order of a packet."""
    places = ("size=", "owner=", "permissions=", "times=")
    rank = {it: next((at for at, name in enumerate(places, 1) if it.startswith(name)), 0) for it in fields}
    return sorted(fields, key=lambda it: rank[it])


def reply(number: int, kind: bytes, value: bytes) -> Record:
    """The record of a reply."""
    if kind == b"status":
        return Record(f"S {number} STATUS {int(value)} {quoted(MESSAGES.get(int(value), b'?'))} \"\"",
                      [] if int(value) in MESSAGES else ["the message of the STATUS"])
    if kind == b"handle handle":
        return Record(f"S {number} HANDLE {handle(value)}")
    if kind == b"data len":
        count = min(int(value), LONGEST)
        return Record(f"S {number} DATA {quoted(b'?' * count)}", [f"the {count:,} bytes of the DATA"])
    count = int(value)
    if count > MOST_NAMES:
        return Record("", [f"the reply to request {number}: {count:,} names"])
    return Record(f"S {number} NAME " + "; ".join(['"?" "?"'] * count), [f"the names ({count:,}) and attributes"])


def attributes(number: int, bits: int) -> Record:
    """The record of an ATTRS."""
    return Record(" ".join([f"S {number} ATTRS", *(text for bit, text in ATTRIBUTES if bits & bit)]),
                  ["the values of the attributes"])


# The most names that a packet has room for.
MOST_NAMES = LONGEST // 12

# The messages that OpenSSH's server sends with a code.
MESSAGES = {0: b"Success", 1: b"End of file", 2: b"No such file", 3: b"Permission denied", 4: b"Failure",
            5: b"Bad message", 6: b"No connection", 7: b"Connection lost", 8: b"Operation unsupported"}
