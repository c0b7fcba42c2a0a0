"""Tree files, both ways (docs/FORMATS.md), and the texts of places (docs/TREE.md)."""
from __future__ import annotations

from collections.abc import Callable
from typing import Any, BinaryIO, TypeVar

from sftpv3.codec import kinds
from sftpv3.codec.fields import Fields, Malformed, string, uint32, uint64

# What is read.
T = TypeVar("T")

# A file of the second kind has limits of its own, and one of the third kind limits that are higher, or times.
OPENING, OPENING_WITH_LIMITS, OPENING_WIDE = b"SFTREE01", b"SFTREE02", b"SFTREE03"

DIRECTORY, FILE, FURTHER, LINK = b"D", b"F", b"H", b"L"

# The letters of entries of the third kind: whether a file, times, and whether the length is a uint64.
LETTERS = {b"D": (False, False, False), b"d": (False, True, False), b"F": (True, False, False),
           b"f": (True, True, False), b"G": (True, False, True), b"g": (True, True, True)}

# The usual limits of a tree, the highest of a file of the second kind, and the most: entries below the root, bytes of a
# file, bytes that one READ gives, and open handles. A fifth, the bytes of all files, stands behind them if it is there.
USUAL, HIGHEST = (65_536, 16_777_216, 32_768, 256), (1_048_576, 67_108_864, 65_536, 1_024)
MOST = (4_294_967_293, 2**40, 261_120, 65_536)

# The lowest limit on the bytes of all files, and the one that is none.
LEAST_OF_ALL, NO_LIMIT_OF_ALL = 16_777_216, 2**58

# The fewest bytes of a file whose length is a uint64.
LONG = 2**32

NO_TIMES = (0, 0)

# The most names of a place; the most bytes of a name, and of a path.
DEEPEST, LONGEST_NAME, LONGEST_PATH = 64, 255, 4_096

HIGHEST_PERMISSIONS = 0o7777


def text_of(place: tuple[bytes, ...] | list[bytes]) -> bytes:
    """The absolute text of a place."""
    return b"".join(b"/" + name for name in place) or b"/"


def place_of(text: bytes) -> tuple[bytes, ...] | None:
    """The place whose absolute text this is, or None."""
    names = tuple(text[1:].split(b"/")) if text != b"/" else ()
    if text[:1] != b"/" or len(names) > DEEPEST:
        return None
    good = all(0 < len(name) <= LONGEST_NAME and b"\0" not in name and name not in (b".", b"..") for name in names)
    return names if good else None


def is_good_path(path: bytes) -> bool:
    return b"\0" not in path and len(path) <= LONGEST_PATH and all(
        len(part) <= LONGEST_NAME for part in path.split(b"/"))


class Entry:
    """An entry: its path, its kind, the owner and permissions of a directory or file, and its content: the bytes of a
    file, the path of the first name of a further one, or the target of a link; and the times of access and of
    modification of a directory or file, both 0 if neither is known."""

    def __init__(self, path: bytes, kind: bytes, content: bytes = b"", uid: int = 0, gid: int = 0,
                 permissions: int = 0o755, times: tuple[int, int] = NO_TIMES):
        self.path, self.kind, self.content = path, kind, content
        self.uid, self.gid, self.permissions, self.times = uid, gid, permissions, times

    def names(self) -> tuple[bytes, ...]:
        return tuple(name for name in self.path.split(b"/") if name)

    def owner(self) -> tuple[int, int, int]:
        return self.uid, self.gid, self.permissions


class Tree:
    """A tree: its home, the user and group of what is made, its limits, the root's entry, and the others in rising
    order."""

    def __init__(self, entries: list[Entry], home: bytes = b"/", uid: int = 0, gid: int = 0, root: Entry | None = None,
                 limits: tuple[int, ...] = USUAL):
        self.home, self.uid, self.gid, self.limits = home, uid, gid, limits
        self.root = root or Entry(b"/", DIRECTORY)
        self.entries = sorted(entries, key=Entry.names)

    def with_entries(self, entries: list[Entry]) -> Tree:
        return Tree(entries, self.home, self.uid, self.gid, self.root, self.limits)

    def most_entries(self) -> int:
        return self.limits[0]

    def has_times(self) -> bool:
        return any(entry.times != NO_TIMES for entry in (self.root, *self.entries))

    def largest(self) -> int:
        """The most bytes of a file."""
        return self.limits[1]

    def most_read(self) -> int:
        return self.limits[2]


def limit_of_all(limits: tuple[int, ...]) -> int:
    """The most bytes of all files."""
    return limits[4] if len(limits) > 4 else NO_LIMIT_OF_ALL


def are_far(limits: tuple[int, ...]) -> bool:
    """Whether no file of the second kind has these limits."""
    return limit_of_all(limits) < NO_LIMIT_OF_ALL or any(one > most for one, most in zip(limits, HIGHEST))


def opening_of(limits: tuple[int, ...], has_times: bool) -> bytes:
    """The opening of the tree file with these limits, and times or none: the lowest that holds it."""
    if has_times or are_far(limits):
        return OPENING_WIDE
    return OPENING if limits[:4] == USUAL else OPENING_WITH_LIMITS


def limits_text(opening: bytes, limits: tuple[int, ...]) -> bytes:
    """The limits behind an opening."""
    if opening == OPENING:
        return b""
    if opening == OPENING_WITH_LIMITS:
        return uint32(*limits[:4])
    return uint32(limits[0]) + uint64(limits[1]) + uint32(*limits[2:4]) + uint64(limit_of_all(limits))


def owned(letter: bytes, owner: tuple[int, int, int], times: tuple[int, int]) -> bytes:
    """A letter, the small one with times; a user, a group and permissions; and the times if there are some."""
    if times == NO_TIMES:
        return letter + uint32(*owner)
    return letter.lower() + uint32(*owner, *times)


def head(home: bytes, owner: tuple[int, int], limits: tuple[int, ...], count: int, root: tuple[int, int, int],
         times: tuple[int, int] = NO_TIMES, has_times: bool = False) -> bytes:
    """The bytes in front of the entries, of which there are so many. An owner is a user and a group; that of the root
    has its permissions behind them. The times are the root's; `has_times` says whether any entry has some."""
    opening = opening_of(limits, has_times or times != NO_TIMES)
    of_root = owned(DIRECTORY, root, times) if opening == OPENING_WIDE else uint32(*root)
    return opening + string(home) + uint32(*owner) + limits_text(opening, limits) + uint32(count) + of_root


def put_owner(file: BinaryIO, owner: tuple[int, int]) -> None:
    """Changes, in a tree file that is open, the user and the group of what is made."""
    file.seek(len(OPENING))
    home = Fields(file.read(4)).uint32()
    file.seek(home, 1)
    file.write(uint32(*owner))


def directory(path: bytes, owner: tuple[int, int, int], times: tuple[int, int] = NO_TIMES) -> bytes:
    """The entry of a directory. Its owner is a user, a group and permissions."""
    return string(path) + owned(DIRECTORY, owner, times)


def file_of(path: bytes, owner: tuple[int, int, int], size: int, times: tuple[int, int] = NO_TIMES) -> bytes:
    """The entry of a file, in front of its bytes, of which there are so many."""
    if size < LONG:
        return string(path) + owned(FILE, owner, times) + uint32(size)
    return string(path) + owned(b"G", owner, times) + uint64(size)


def further(path: bytes, first: int) -> bytes:
    """The entry of a further name of the file whose first name is the entry with this number."""
    return string(path) + FURTHER + uint32(first)


def link(path: bytes, target: bytes) -> bytes:
    return string(path) + LINK + string(target)


def put(tree: Tree) -> bytes:
    """The bytes of the tree file. Whether a tree may have these entries is not looked at."""
    numbers = {entry.path: number for number, entry in enumerate(tree.entries, 1)}
    parts = [head(tree.home, (tree.uid, tree.gid), tree.limits, len(tree.entries), tree.root.owner(), tree.root.times,
                  tree.has_times())]
    for entry in tree.entries:
        if entry.kind == DIRECTORY:
            parts.append(directory(entry.path, entry.owner(), entry.times))
        elif entry.kind == FILE:
            parts += [file_of(entry.path, entry.owner(), len(entry.content), entry.times), entry.content]
        elif entry.kind == FURTHER:
            parts.append(further(entry.path, numbers[entry.content]))
        else:
            parts.append(link(entry.path, entry.content))
    return b"".join(parts)


class Reader:
    """A tree file as far as it was read, by the letter. The first fault is Malformed: the number of the entry, which is
    0 in the head, and its kind."""

    def __init__(self, data: bytes):
        self.fields, self.number = Fields(data), 0
        self.limits: tuple[int, ...] = USUAL
        self.is_wide, self.room = False, NO_LIMIT_OF_ALL
        self.directories: set[tuple[bytes, ...]] = {()}
        self.files: dict[int, bytes] = {}
        self.last: tuple[bytes, ...] = ()

    def fault(self, kind: str) -> Malformed:
        return Malformed(f"entry {self.number}: {kind}", kind)

    def judge(self, holds: bool, kind: str = "Value") -> None:
        if not holds:
            raise self.fault(kind)

    def field(self, read: Callable[..., T], *words: Any) -> T:
        try:
            return read(*words)
        except Malformed:
            raise self.fault("Short") from None

    def number_in(self, least: int = 0, most: int = 2**32 - 1) -> int:
        value = self.field(self.fields.uint32)
        self.judge(least <= value <= most)
        return value

    def long_in(self, least: int = 0, most: int = 2**64 - 1) -> int:
        value = self.field(self.fields.uint64)
        self.judge(least <= value <= most)
        return value

    def string(self) -> bytes:
        return self.field(self.fields.string)

    def times(self, has_times: bool) -> tuple[int, int]:
        if not has_times:
            return NO_TIMES
        times = self.number_in(), self.number_in()
        self.judge(times != NO_TIMES)
        return times

    def owner(self) -> tuple[int, int, int]:
        return self.number_in(), self.number_in(), self.number_in(most=HIGHEST_PERMISSIONS)

    def place(self) -> tuple[bytes, ...]:
        place = place_of(self.string())
        if place is None:
            raise self.fault("Value")
        return place

    def tree(self) -> Tree:
        opening = self.fields.data[:len(OPENING)]
        if why := kinds.mistaken(self.fields.data, kinds.TREE):
            raise Malformed(why, "Magic")
        self.judge(opening in (OPENING, OPENING_WITH_LIMITS, OPENING_WIDE), "Magic")
        self.fields.take(len(OPENING))
        self.is_wide = opening == OPENING_WIDE
        home, uid, gid = text_of(self.place()), self.number_in(), self.number_in()
        self.take_limits(opening)
        count = self.number_in(most=self.limits[0])
        root = self.root()
        entries = []
        for self.number in range(1, count + 1):
            entries.append(self.entry())
        tree = Tree(entries, home, uid, gid, root, self.limits)
        self.judge(not self.is_wide or opening_of(self.limits, tree.has_times()) == OPENING_WIDE)
        self.number = count + 1
        self.judge(not self.fields.left(), "Trailing")
        return tree

    def take_limits(self, opening: bytes) -> None:
        if opening == OPENING_WITH_LIMITS:
            self.limits = tuple(self.number_in(least, most) for least, most in zip(USUAL, HIGHEST))
            self.judge(self.limits != USUAL)
        if opening == OPENING_WIDE:
            ranges = list(zip(USUAL, MOST))
            four = (self.number_in(*ranges[0]), self.long_in(*ranges[1]), self.number_in(*ranges[2]),
                    self.number_in(*ranges[3]))
            self.room = self.long_in(LEAST_OF_ALL, NO_LIMIT_OF_ALL)
            self.limits = four if self.room == NO_LIMIT_OF_ALL else (*four, self.room)

    def root(self) -> Entry:
        """The root, after the third opening with its letter."""
        letter = self.field(self.fields.take, 1) if self.is_wide else DIRECTORY
        self.judge(letter.upper() == DIRECTORY)
        owner = self.owner()
        return Entry(b"/", DIRECTORY, b"", *owner, self.times(letter != DIRECTORY))

    def entry(self) -> Entry:
        place = self.place()
        self.judge(place != ())
        self.judge(place > self.last, "Order")
        self.judge(place[:-1] in self.directories, "Parent")
        self.last = place
        path, kind = text_of(place), self.field(self.fields.take, 1)
        if kind in LETTERS and (self.is_wide or kind in (DIRECTORY, FILE)):
            return self.owned(place, path, *LETTERS[kind])
        if kind == FURTHER:
            first = self.files.get(self.number_in())
            if first is None:
                raise self.fault("Value")
            return Entry(path, kind, first)
        self.judge(kind == LINK)
        target = self.string()
        self.judge(target != b"" and is_good_path(target))
        return Entry(path, kind, target)

    def owned(self, place: tuple[bytes, ...], path: bytes, is_file: bool, has_times: bool, is_long: bool) -> Entry:
        """What a directory or a file says behind its letter."""
        owner = self.owner()
        times = self.times(has_times)
        if is_file:
            return Entry(path, FILE, self.content(path, is_long), *owner, times)
        self.directories.add(place)
        return Entry(path, DIRECTORY, b"", *owner, times)

    def content(self, path: bytes, is_long: bool) -> bytes:
        content = self.field(self.fields.take, self.long_in(LONG)) if is_long else self.string()
        self.judge(len(content) <= min(self.limits[1], self.room))
        self.room -= len(content)
        self.files[self.number] = path
        return content


def get(data: bytes) -> Tree:
    """The tree of a tree file; Malformed with its first fault."""
    return Reader(data).tree()


def fault_of(data: bytes) -> str | None:
    """The first fault of a tree file as text, or None."""
    try:
        get(data)
    except Malformed as error:
        return str(error)
    return None


def read(name: str) -> Tree:
    """The tree of the file of this name; Malformed or OSError."""
    with open(name, "rb") as file:
        return get(file.read())


def write(tree: Tree, name: str) -> None:
    with open(name, "wb") as file:
        file.write(put(tree))
