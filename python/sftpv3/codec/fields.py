"""The fields of packets and of tree files, both ways (docs/PROTOCOL.md, docs/FORMATS.md).

Numbers are big-endian, and a string is a uint32 length and that many bytes. Attributes are a dictionary with those of
`size`, `owner` (user and group), `permissions`, `times` (of access and of change) and `extended` (pairs of bytes) that
are there.
"""
from __future__ import annotations

import struct
from typing import Any

SIZE, OWNER, PERMISSIONS, TIMES, EXTENDED = 1, 2, 4, 8, 0x80000000
KNOWN = SIZE | OWNER | PERMISSIONS | TIMES | EXTENDED

LONGEST_HANDLE = 256


class Malformed(Exception):
    """Bytes that are not what they should be. `fault` is the name that the documents have for it, or nothing."""

    def __init__(self, why: str, fault: str = ""):
        super().__init__(why)
        self.fault = fault


def uint32(*values: int) -> bytes:
    """These numbers in four bytes each; struct.error if one does not fit."""
    return struct.pack(f">{len(values)}I", *values)


def uint64(*values: int) -> bytes:
    return struct.pack(f">{len(values)}Q", *values)


def string(data: bytes) -> bytes:
    return struct.pack(">I", len(data)) + data


def pairs(given: list[tuple[bytes, bytes]]) -> bytes:
    return b"".join(string(name) + string(data) for name, data in given)


def attributes(given: dict[str, Any]) -> bytes:
    flags, data = 0, b""
    if "size" in given:
        flags, data = flags | SIZE, data + uint64(given["size"])
    if "owner" in given:
        flags, data = flags | OWNER, data + uint32(*given["owner"])
    if "permissions" in given:
        flags, data = flags | PERMISSIONS, data + uint32(given["permissions"])
    if "times" in given:
        flags, data = flags | TIMES, data + uint32(*given["times"])
    if "extended" in given:
        flags, data = flags | EXTENDED, data + uint32(len(given["extended"])) + pairs(given["extended"])
    return uint32(flags) + data


def names(items: list[tuple[bytes, bytes, dict[str, Any]]]) -> bytes:
    """What a NAME lists: each name, its long name and its attributes."""
    return uint32(len(items)) + b"".join(string(name) + string(long) + attributes(it) for name, long, it in items)


class Fields:
    """Reads fields from left to right; Malformed where one goes past the end. A strict reader refuses what the profile
    refuses, too: handles of more than 256 bytes, and attributes with unknown flags."""

    def __init__(self, data: bytes, strict: bool = False):
        self.data, self.strict, self.place = data, strict, 0

    def left(self) -> int:
        return len(self.data) - self.place

    def take(self, count: int) -> bytes:
        if self.place + count > len(self.data):
            raise Malformed("a field goes past the end of the packet", "Short")
        self.place += count
        return self.data[self.place - count:self.place]

    def byte(self) -> int:
        return self.take(1)[0]

    def uint32(self) -> int:
        return int.from_bytes(self.take(4), "big")

    def uint64(self) -> int:
        return int.from_bytes(self.take(8), "big")

    def string(self) -> bytes:
        return self.take(self.uint32())

    def handle(self) -> bytes:
        length = self.uint32()
        if self.strict and length > LONGEST_HANDLE:
            raise Malformed(f"a handle has more than {LONGEST_HANDLE} bytes", "HandleTooLong")
        return self.take(length)

    def rest(self) -> bytes:
        return self.take(self.left())

    def pairs(self) -> list[tuple[bytes, bytes]]:
        """Pairs of strings up to the end."""
        found = []
        while self.left():
            found.append((self.string(), self.string()))
        return found

    def attributes(self) -> dict[str, Any]:
        flags = self.uint32()
        found: dict[str, Any] = {}
        if self.strict and flags & ~KNOWN:
            raise Malformed("attributes have a flag that is not known", "Flags")
        if flags & SIZE:
            found["size"] = self.uint64()
        if flags & OWNER:
            found["owner"] = (self.uint32(), self.uint32())
        if flags & PERMISSIONS:
            found["permissions"] = self.uint32()
        if flags & TIMES:
            found["times"] = (self.uint32(), self.uint32())
        if flags & EXTENDED:
            found["extended"] = [(self.string(), self.string()) for _ in range(self.uint32())]
        return found

    def names(self) -> list[tuple[bytes, bytes, dict[str, Any]]]:
        return [(self.string(), self.string(), self.attributes()) for _ in range(self.uint32())]
