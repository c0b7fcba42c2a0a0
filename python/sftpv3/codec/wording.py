"""A packet as a person reads it: its name, its id, one line, and its fields."""
from __future__ import annotations

import bisect
import itertools
import string
from collections.abc import Callable, Sequence
from dataclasses import dataclass, field
from typing import Any

from sftpv3 import codec
from sftpv3.codec.packets import FLAGS

# How many signs of a text a line has, and how many its field; and how many bytes the field of what is no packet.
SHORT, LONG, RAW = 40, 512, 256

# The most names of a NAME, and the most extensions, that are listed.
LISTED = 20

PLAIN = set(string.printable[:95].encode()) - set(b'"\\')

# Each byte as `sftpv3 show` prints it in a text.
SIGNS = [chr(byte) if byte in PLAIN else f"\\x{byte:02x}" for byte in range(256)]


@dataclass
class Packet:
    """What a packet says. Of one that cannot be read, `name` is `raw`, and `trouble` says why."""

    name: str
    number: int | None = None
    line: str = ""
    fields: list[tuple[str, str]] = field(default_factory=list)
    trouble: str = ""


def quoted(data: bytes, most: int | None = None) -> str:
    """A text as `sftpv3 show` prints it, cut after so many signs, and told how many bytes more it has."""
    signs = [SIGNS[byte] for byte in data[:most]]
    count = len(signs)
    if most is not None:
        count = bisect.bisect_right(list(itertools.accumulate(map(len, signs))), most)
    more = f"...{len(data) - count:,} more" if count < len(data) else ""
    return '"' + "".join(signs[:count]) + '"' + more


def clean(text: str) -> str:
    """A text that may hold anything, without characters that a page or XML must not have, or that hide others."""
    return "".join(sign if sign in "\t\n" or sign.isprintable() else escaped(sign) for sign in text)


def line(text: str) -> str:
    """The same as one line of a terminal: without line feeds and tabs, too."""
    if text.isprintable():
        return text
    return "".join(sign if sign.isprintable() else escaped(sign) for sign in text)


def escaped(sign: str) -> str:
    """A character as its bytes are written. One that stands for a byte that is no UTF-8 is that byte."""
    code = ord(sign)
    if 0xDC80 <= code <= 0xDCFF:
        return f"\\x{code - 0xDC00:02x}"
    return "".join(f"\\x{byte:02x}" for byte in sign.encode("utf-8", "surrogatepass"))


def code_of(code: int) -> str:
    return f"{code} {codec.code_name(code)}"


def flags_of(flags: int) -> str:
    known = [name for name, bit in FLAGS.items() if flags & bit]
    left = flags & ~sum(FLAGS.values())
    return "|".join(known + ([f"0x{left:x}"] if left else [])) or "none"


def attributes_of(given: dict[str, Any]) -> str:
    words = []
    if "size" in given:
        words.append(f"size {given['size']}")
    if "owner" in given:
        words.append("uid {} gid {}".format(*given["owner"]))
    if "permissions" in given:
        words.append(f"permissions {given['permissions']:06o}")
    if "times" in given:
        words.append("times {} {}".format(*given["times"]))
    return ", ".join(words) or "none"


def of_handle_bytes(data: bytes, most: int | None = None) -> str:
    """A handle: as text if all of it can be printed, else as a number; cut after so many signs."""
    if all(byte in PLAIN for byte in data):
        return quoted(data, most)
    kept = data if most is None else data[:most // 2]
    more = f"...{len(data) - len(kept):,} more" if len(kept) < len(data) else ""
    return f"0x{kept.hex()}{more}"


def of(side: bytes, data: bytes, handle: str | None = None) -> Packet:
    """What a packet of the client (`b"C"`) or of the server says, whatever bytes it has. `handle` is what the line has
    in place of the request's handle."""
    try:
        return of_client(data, handle) if side == b"C" else of_server(data)
    except codec.Malformed as error:
        return raw(data, str(error))


def raw(data: bytes, trouble: str) -> Packet:
    number = int.from_bytes(data[5:9], "big") if len(data) >= 9 else None
    return Packet("raw", number, f"{len(data):,} bytes", [("bytes", in_hex(data[:RAW]))], trouble)


def in_hex(data: bytes) -> str:
    return " ".join(f"{byte:02x}" for byte in data) or "none"


def fields_of(data: bytes) -> codec.Fields:
    """The fields of a packet, behind its length."""
    if codec.length(data) != len(data):
        raise codec.Malformed("the packet is not whole")
    return codec.Fields(data[4:])


def of_client(data: bytes, handle: str | None = None) -> Packet:
    fields = fields_of(data)
    if data[4:5] == bytes([codec.INIT]):
        return of_opening("INIT", fields)
    request = codec.decode(data)
    values = dict(zip(codec.REQUESTS[request.name][1].replace("rest", "data").split(), request.fields))
    shown = [(name.replace("_", " "), of_field(name, value, LONG)) for name, value in values.items()]
    parts = [handle if handle and name == "handle" else in_line(name, value) for name, value in values.items()]
    line = ", ".join(part for part in parts if part)
    return Packet(request.name, request.number, line, shown)


def of_field(name: str, value: Any, most: int) -> str:
    if name == "flags":
        return flags_of(value)
    if name == "attributes":
        return attributes_of(value)
    if name == "data":
        return f"{len(value):,} bytes {quoted(value, most)}"
    if name == "handle":
        return of_handle_bytes(value, most)
    return quoted(value, most) if isinstance(value, bytes) else f"{value:,}"


def in_line(name: str, value: Any) -> str:
    """A field in the line of its request. What is left out is in the fields."""
    if name == "attributes":
        return attributes_of(value) if value else ""
    if name in ("offset", "length"):
        return f"{name} {value:,}"
    return of_field(name, value, SHORT)


def of_opening(name: str, fields: codec.Fields) -> Packet:
    fields.byte()
    number, pairs = fields.uint32(), fields.pairs()
    shown = [(quoted(key, LONG), quoted(value, LONG)) for key, value in pairs[:LISTED]]
    return Packet(name, None, f"version {number}" + (f", {len(pairs)} extensions" if pairs else ""),
                  [("version", str(number))] + shown + more(pairs))


def more(listed: Sequence[object]) -> list[tuple[str, str]]:
    return [("more", f"{len(listed) - LISTED:,}")] if len(listed) > LISTED else []


# Replies by their types, and those with one field: how it is shown, and read.
REPLIES = {kind: name for name, (kind, _) in codec.REPLIES.items()}
OF_ONE_FIELD: dict[int, tuple[str, Callable[[codec.Fields], Any]]] = {
    codec.HANDLE: ("handle", codec.Fields.string), codec.DATA: ("data", codec.Fields.string),
    codec.ATTRS: ("attributes", codec.Fields.attributes), codec.EXTENDED_REPLY: ("data", codec.Fields.rest)}


def of_server(data: bytes) -> Packet:
    fields = fields_of(data)
    kind = fields.byte()
    if kind == codec.VERSION:
        return of_opening("VERSION", codec.Fields(data[4:]))
    if kind not in REPLIES:
        raise codec.Malformed(f"no reply has the type {kind}")
    number = fields.uint32()
    line, shown = {codec.STATUS: of_status, codec.NAME: of_names}.get(kind, of_one_field)(kind, fields)
    if fields.left():
        raise codec.Malformed(f"{fields.left()} bytes follow the last field")
    return Packet(REPLIES[kind], number, line, shown)


def of_status(_: int, fields: codec.Fields) -> tuple[str, list[tuple[str, str]]]:
    code = fields.uint32()
    shown = [("code", code_of(code))]
    # some servers leave out both
    if fields.left():
        shown += [("message", quoted(fields.string(), LONG)), ("language", quoted(fields.string(), LONG))]
    return code_of(code), shown


def of_names(_: int, fields: codec.Fields) -> tuple[str, list[tuple[str, str]]]:
    items = fields.names()
    first = " ".join(quoted(item[0], SHORT) for item in items[:3])
    shown = [(quoted(item[0], LONG), attributes_of(item[2])) for item in items[:LISTED]]
    count = f"{len(items):,} name{'s' if len(items) != 1 else ''}"
    return f"{count} {first}{' ...' if len(items) > 3 else ''}", shown + more(items)


def of_one_field(kind: int, fields: codec.Fields) -> tuple[str, list[tuple[str, str]]]:
    name, read = OF_ONE_FIELD[kind]
    value = read(fields)
    return of_field(name, value, SHORT), [(name, of_field(name, value, LONG))]


def kind_of(side: bytes, data: bytes) -> str:
    """The name of a packet, without reading all of it."""
    name = codec.NAMES.get(data[4]) if len(data) > 4 else None
    if side != b"C":
        return name if name in codec.REPLIES else "raw"
    if name == "EXTENDED":
        try:
            return codec.decode(data).name
        except codec.Malformed:
            return "raw"
    return name if name == "INIT" or name in codec.REQUESTS else "raw"
