"""The packets of SFTP version 3, both ways: docs/PROTOCOL.md has their table.

A packet is its id, its name (as `sftpv3 show --full` prints it) and the values of its fields in order. INIT and VERSION
have no id. `encode` writes a packet of either side. `decode` and `Reply` read what any client or server sends, as far
as it can be read; `read` and `front` read by the letter, and name the first fault of what is malformed.
"""
from __future__ import annotations

from collections.abc import Callable
from typing import Any

from sftpv3.codec import fields
from sftpv3.codec.fields import Fields, Malformed, pairs, string, uint32

CLIENT, SERVER = b"C", b"S"

# The most bytes of a packet, its length included.
LONGEST = 262_144

INIT, VERSION = 1, 2
EXTENDED = 200
STATUS, HANDLE, DATA, NAME, ATTRS, EXTENDED_REPLY = 101, 102, 103, 104, 105, 201

OK, EOF, NO_SUCH_FILE, PERMISSION_DENIED, FAILURE, BAD_MESSAGE, OP_UNSUPPORTED = 0, 1, 2, 3, 4, 5, 8
CODES = {OK: "OK", EOF: "EOF", NO_SUCH_FILE: "NO_SUCH_FILE", PERMISSION_DENIED: "PERMISSION_DENIED",
         FAILURE: "FAILURE", BAD_MESSAGE: "BAD_MESSAGE", 6: "NO_CONNECTION", 7: "CONNECTION_LOST",
         OP_UNSUPPORTED: "OP_UNSUPPORTED"}


def code_name(code: int) -> str:
    """What a code of a STATUS is called."""
    return CODES.get(code, "no code of version 3")


# The flags of OPEN.
READ, WRITE, APPEND, CREAT, TRUNC, EXCL = 1, 2, 4, 8, 16, 32
FLAGS = {"READ": READ, "WRITE": WRITE, "APPEND": APPEND, "CREAT": CREAT, "TRUNC": TRUNC, "EXCL": EXCL}

# The extensions that the auditor judges, by the names that requests have here.
EXTENSIONS = {
    "POSIX-RENAME": b"posix-rename@openssh.com",
    "HARDLINK": b"hardlink@openssh.com",
    "FSYNC": b"fsync@openssh.com",
    "LIMITS": b"limits@sftpv3.test",
}

# The type of each request, and its fields behind the id.
REQUESTS = {
    "OPEN": (3, "path flags attributes"),
    "CLOSE": (4, "handle"),
    "READ": (5, "handle offset length"),
    "WRITE": (6, "handle offset data"),
    "LSTAT": (7, "path"),
    "FSTAT": (8, "handle"),
    "SETSTAT": (9, "path attributes"),
    "FSETSTAT": (10, "handle attributes"),
    "OPENDIR": (11, "path"),
    "READDIR": (12, "handle"),
    "REMOVE": (13, "path"),
    "MKDIR": (14, "path attributes"),
    "RMDIR": (15, "path"),
    "REALPATH": (16, "path"),
    "STAT": (17, "path"),
    "RENAME": (18, "path new_path"),
    "READLINK": (19, "path"),
    "SYMLINK": (20, "target link"),
    "POSIX-RENAME": (EXTENDED, "path new_path"),
    "HARDLINK": (EXTENDED, "path new_path"),
    "FSYNC": (EXTENDED, "handle"),
    "LIMITS": (EXTENDED, ""),
    "EXTENDED": (EXTENDED, "extension rest"),
}

# The same of replies, and of what begins a session, which has no id.
REPLIES = {
    "STATUS": (STATUS, "code message language"),
    "HANDLE": (HANDLE, "handle"),
    "DATA": (DATA, "data"),
    "NAME": (NAME, "names"),
    "ATTRS": (ATTRS, "attributes"),
    "EXTENDED_REPLY": (EXTENDED_REPLY, "rest"),
}
GREETINGS = {"INIT": (INIT, "version pairs"), "VERSION": (VERSION, "version pairs")}
LAYOUTS = {**GREETINGS, **REQUESTS, **REPLIES}

# How a field is written and read, where its name does not say it.
KINDS = {"path": "string", "new_path": "string", "target": "string", "link": "string", "extension": "string",
         "data": "string", "message": "string", "language": "string", "version": "uint32", "flags": "uint32",
         "length": "uint32", "code": "uint32", "offset": "uint64"}
KINDS_OF = {name: [KINDS.get(field, field) for field in layout.split()] for name, (_, layout) in LAYOUTS.items()}

WRITERS: dict[str, Callable[..., bytes]] = {
    "string": string, "handle": string, "uint32": uint32, "uint64": fields.uint64, "pairs": pairs,
    "attributes": fields.attributes, "names": fields.names, "rest": bytes}

# The names of packets by their types; of extensions, the name of those that are not known.
NAMES = {kind: name for name, (kind, _) in LAYOUTS.items()}
SIDES = {CLIENT: {"INIT", *REQUESTS}, SERVER: {"VERSION", *REPLIES}}
OF_EXTENSION = {extension: name for name, extension in EXTENSIONS.items()}

# Requests that change nothing, whatever the server answers.
LOOKERS = {"LSTAT", "STAT", "FSTAT", "READ", "REALPATH", "READLINK", "FSYNC", "LIMITS"}


class Packet:
    """A packet: its id, or None; its name; the values of its fields."""

    def __init__(self, number: int | None, name: str, values: list[Any]):
        self.number, self.name, self.fields = number, name, values

    def __eq__(self, other: object) -> bool:
        return isinstance(other, Packet) and vars(self) == vars(other)

    def __repr__(self) -> str:
        return f"{type(self).__name__}({self.number!r}, {self.name!r}, {self.fields!r})"


class Request(Packet):
    """A packet of a client behind its INIT."""

    def handle(self) -> bytes | None:
        """The field that is a handle, or None."""
        return self.fields[0] if REQUESTS[self.name][1].startswith("handle") else None


def packet(kind: int, body: bytes) -> bytes:
    """The packet of this type with these bytes behind it, whatever they are."""
    return uint32(len(body) + 1) + bytes([kind]) + body


def encode(given: Packet) -> bytes:
    """The bytes of a packet. A handle has to be bytes; what only the profile refuses is not looked at."""
    body = b"" if given.number is None else uint32(given.number)
    if given.name in EXTENSIONS:
        body += string(EXTENSIONS[given.name])
    for kind, value in zip(KINDS_OF[given.name], given.fields):
        body += WRITERS[kind](value)
    return packet(LAYOUTS[given.name][0], body)


def init(number: int = 3) -> bytes:
    """An INIT of this version, without extensions."""
    return encode(Packet(None, "INIT", [number, []]))


def request(number: int, name: str, *fields: object) -> bytes:
    return encode(Request(number, name, list(fields)))


def version(number: int, extensions: list[tuple[bytes, bytes]]) -> bytes:
    """A VERSION with these extensions, pairs of name and data."""
    return encode(Packet(None, "VERSION", [number, extensions]))


def status(number: int, code: int, message: bytes = b"") -> bytes:
    return encode(Packet(number, "STATUS", [code, message, b""]))


def length(data: bytes) -> int | None:
    """The number of bytes of the packet that begins here, or None if its length is not there whole."""
    return None if len(data) < 4 else 4 + int.from_bytes(data[:4], "big")


def id_of(data: bytes) -> int:
    """The id of a whole request or reply."""
    return int.from_bytes(data[5:9], "big")


def split(data: bytes) -> tuple[list[bytes], bytes]:
    """The packets of a stream by their lengths alone, and what is left behind them."""
    found, at = [], 0
    while (size := length(data[at:at + 4])) is not None and len(data) - at >= size:
        found.append(data[at:at + size])
        at += size
    return found, data[at:]


def named(name: str, source: Fields) -> tuple[str, list[Any]]:
    """The values of a packet from the bytes behind its id, and its name, which that of an extension turns out to be."""
    start = source.place
    if name == "EXTENDED":
        name = OF_EXTENSION.get(source.string(), name)
        source.place = start if name == "EXTENDED" else source.place
    return name, [getattr(source, kind)() for kind in KINDS_OF[name]]


def decode(data: bytes) -> Request:
    """The request of a packet of the client. What is behind its fields is not looked at, nor is what only the profile
    refuses."""
    source = Fields(data[4:])
    kind, number = source.byte(), source.uint32()
    if NAMES.get(kind) not in REQUESTS:
        raise Malformed(f"no request has the type {kind}", "Type")
    return Request(number, *named(NAMES[kind], source))


def names_in(data: bytes) -> list[tuple[bytes, bytes, dict[str, Any]]]:
    """The items of a NAME: each a name, a long name and attributes."""
    return Fields(data[9:]).names()


def attributes_in(data: bytes) -> dict[str, Any]:
    return Fields(data[9:]).attributes()


def string_in(data: bytes) -> bytes:
    """The bytes of a DATA, or a handle of a HANDLE."""
    return Fields(data[9:]).string()


class Reply:
    """The head of a reply: its id and its type; the code of a STATUS, the handle of a HANDLE."""

    def __init__(self, data: bytes):
        source = Fields(data[4:])
        self.kind, self.number = source.byte(), source.uint32()
        self.code = source.uint32() if self.kind == STATUS else None
        self.handle = source.string() if self.kind == HANDLE else None


def version_of(data: bytes) -> tuple[int, list[tuple[bytes, bytes]]]:
    """The version and the extensions of a VERSION. Any other packet is Malformed."""
    source = Fields(data[4:])
    if source.byte() != VERSION:
        raise Malformed("it is no VERSION", "Type")
    return source.uint32(), source.pairs()


def read(side: bytes, data: bytes) -> Packet:
    """The packet of this side that these bytes are, by the letter; Malformed with its first fault. Of their length
    nothing is judged."""
    source = Fields(data[4:], strict=True)
    name = NAMES.get(source.byte())
    if name not in SIDES[side]:
        raise Malformed(f"no packet of this side has the type {data[4]}", "Type")
    number = None if name in GREETINGS else source.uint32()
    name, values = named(name, source)
    if source.left():
        raise Malformed(f"{source.left()} bytes follow the last field", "Trailing")
    return Request(number, name, values) if name in REQUESTS else Packet(number, name, values)


def front(side: bytes, data: bytes) -> tuple[bytes, Packet] | None:
    """The packet in front of a stream, by the letter: its bytes and what it is; None where it is not whole yet.
    Malformed with its fault."""
    count = length(data)
    if count is None:
        return None
    if not 5 <= count <= LONGEST:
        raise Malformed(f"the length {count - 4} is out of range", "Length")
    return None if len(data) < count else (data[:count], read(side, data[:count]))
