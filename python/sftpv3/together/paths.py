"""Paths of requests (docs/TREE.md), taken apart once."""
from __future__ import annotations

from sftpv3.together.outside import trees

# A path of so many bytes may be too long for a file system.
LONG = 1024


def parts_of(path: bytes) -> tuple[bytes, ...]:
    return tuple(part for part in path.split(b"/") if part)


def ends_loosely(path: bytes) -> bool:
    """Whether a file system may look past its end: it is empty, or ends in a slash or dots."""
    if path in (b"", b".", b".."):
        return True
    return path.endswith((b"/.", b"/..")) or path.endswith(b"/") and bool(parts_of(path))


class Path:
    """A path, and the names that it has from the root on."""

    __slots__ = ("text", "is_bad", "is_loose", "is_long", "is_absolute", "parts")

    def __init__(self, text: bytes, home: tuple[bytes, ...]):
        self.text = text
        self.is_bad = not trees.is_good_path(text)
        self.is_loose, self.is_long = ends_loosely(text), len(text) >= LONG
        self.is_absolute = text[:1] == b"/"
        self.parts = parts_of(text) if self.is_absolute else (*home, *parts_of(text))
