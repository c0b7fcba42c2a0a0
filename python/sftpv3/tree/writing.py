"""The tree file (docs/FORMATS.md) of what a view has, written entry by entry."""
import os
import stat
from typing import BinaryIO, Callable, Dict, NamedTuple, Tuple

from sftpv3.codec import trees
from sftpv3.codec.trees import HIGHEST, LONGEST_NAME, MOST, USUAL, text_of
from sftpv3.system import mounted
from sftpv3.tree.looking import Entry, Trouble, View, about, changed, is_mounted_over, kind, shown

PIECE = 1 << 20

# What becomes of sockets, FIFOs and devices, by the words of --special; `sftpv3 import` says the same.
BECAME = {
    "file": "an empty file in its place (for audit --allow special)",
    "skip": "left out (--special file keeps its name)",
    "refuse": "refused",
}


class Owner(NamedTuple):
    """Where relative paths start, and who owns what a session makes. A home that `is_sought` counts only if it is a
    directory of the tree: else they start in the root."""
    home: bytes
    user: int
    group: int
    is_sought: bool = False


class Wanted(NamedTuple):
    """What is asked of a tree: its limits by name, the most bytes of its file, and what becomes of sockets, FIFOs and
    devices."""
    limits: str
    most: int
    special: str = "file"

    def leaves_out(self, entry: Entry) -> bool:
        return is_mounted_over(entry) or bool(kind(entry)) and self.special != "file"


def tell_of(entry: Entry, wanted: Wanted, tell: Callable[[str], None]) -> None:
    """Names what is left out of a tree, and what is not there as it is."""
    if entry.is_mount:
        what = "it is" if wanted.leaves_out(entry) else "what it has is"
        tell(f"{shown(entry.place)}: mounted{' by another user' * (entry.state is None)}: {what} left out")
    elif kind(entry):
        tell(f"{shown(entry.place)}: {kind(entry)}, which no tree holds: {BECAME[wanted.special]}")


class FirstNames:
    """The files, and the numbers of the entries by which they were named first. What is mounted at two places has two
    names, too, which its count of links does not say."""

    def __init__(self) -> None:
        self.first: Dict[int, int] = {}

    def of(self, entry: Entry, number: int) -> int:
        """The number of the first name of the entry's file, which is this one if it had none before."""
        return self.first.setdefault(entry.state.st_dev << 64 | entry.state.st_ino, number)


class Needs:
    """What a view needs: how many entries, the bytes of the largest file, and those of the tree file behind its head;
    what is left out; and whether it has the directory `home`."""

    def __init__(self, view: View, wanted: Wanted, home: bytes, tell: Callable[[str], None]):
        self.entries = self.largest = self.left_out = self.bytes = refused = 0
        self.home, self.has_home = home, False
        named = FirstNames()
        for entry in view.entries():
            tell_of(entry, wanted, tell)
            refused += wanted.special == "refuse" and not entry.is_mount and bool(kind(entry))
            if wanted.leaves_out(entry):
                self.left_out += 1
            else:
                self.left_out += entry.is_mount
                self.take(entry, named)
        if refused:
            raise Trouble(f"{refused} sockets, FIFOs or devices, which no tree holds")
        if self.entries > MOST[0]:
            raise Trouble(f"{self.entries} entries; a tree has at most {MOST[0]}")

    def take(self, entry: Entry, named: FirstNames) -> None:
        """Counts an entry, and the bytes that it has in a tree file."""
        self.entries += 1
        path, size = text_of(entry.place), entry.state.st_size
        if stat.S_ISDIR(entry.state.st_mode):
            self.has_home = self.has_home or path == self.home
            self.bytes += len(trees.directory(path, (0, 0, 0)))
        elif stat.S_ISLNK(entry.state.st_mode):
            self.bytes += len(trees.link(path, target_of(entry)))
        elif named.of(entry, self.entries) != self.entries:
            self.bytes += len(trees.further(path, 0))
        elif kind(entry):
            self.bytes += len(trees.file_of(path, (0, 0, 0), 0))
        elif size > MOST[1]:
            raise Trouble(f"{shown(entry.place)}: {size} bytes; a file of a tree has at most {MOST[1]}")
        else:
            self.largest = max(self.largest, size)
            self.bytes += len(trees.file_of(path, (0, 0, 0), size)) + size

    def check_room(self, file: BinaryIO, head: int, most: int) -> None:
        """Refuses what a sparse file may pretend to have, before anything is written."""
        found, wanted = os.fstatvfs(file.fileno()), head + self.bytes
        free = found.f_bavail * found.f_frsize
        if wanted > most:
            raise Trouble(f"the tree file would have {wanted} bytes, and --most allows {most}")
        if wanted > free:
            raise Trouble(f"the tree file would have {wanted} bytes, and where it is to be, {free} are free")

    def limits(self, wanted: str) -> Tuple[int, ...]:
        """The limits by name: usual, raised, most, or fit, the lowest that are enough."""
        lowest = tuple(map(max, USUAL, (self.entries, self.largest, 0, 0)))
        limits = {"usual": USUAL, "raised": HIGHEST, "most": MOST, "fit": lowest}[wanted]
        if any(need > limit for need, limit in zip(lowest, limits)):
            raise Trouble(f"{self.entries} entries and a file of {self.largest} bytes need more than the {wanted} "
                          "limits")
        return limits


def owner_of(state: os.stat_result) -> Tuple[int, int, int]:
    return state.st_uid, state.st_gid, stat.S_IMODE(state.st_mode)


class Writer:
    """Writes the entries of one tree file, which has at most these bytes and entries: those that were counted before,
    when nothing was written."""

    def __init__(self, file: BinaryIO, entries: int, most: int):
        self.file, self.entries, self.room = file, entries, most
        self.count = self.bytes = self.left_out = 0
        self.named = FirstNames()

    def write(self, data: bytes) -> None:
        self.room -= len(data)
        if self.room < 0:
            raise Trouble("the folder changed while it was read")
        self.file.write(data)

    def put(self, entry: Entry) -> None:
        self.count += 1
        if self.count > self.entries:
            raise Trouble("the folder changed while it was read")
        path = text_of(entry.place)
        if stat.S_ISDIR(entry.state.st_mode):
            self.write(trees.directory(path, owner_of(entry.state)))
        elif stat.S_ISLNK(entry.state.st_mode):
            self.write(trees.link(path, target_of(entry)))
        elif not self.is_further_name(entry, path):
            self.put_file(entry, path)

    def is_further_name(self, entry: Entry, path: bytes) -> bool:
        """Whether the file has a name already; this one is then written as a further name."""
        number = self.named.of(entry, self.count)
        if number != self.count:
            self.write(trees.further(path, number))
        return number != self.count

    def put_file(self, entry: Entry, path: bytes) -> None:
        """A file; in the place of a socket, a FIFO or a device, which is not opened, an empty one."""
        if kind(entry):
            self.write(trees.file_of(path, owner_of(entry.state), 0))
            return
        with about(entry.place):
            held = mounted.open_at(entry.name, entry.directory, os.O_RDONLY | os.O_NONBLOCK)
        with open(held, "rb", buffering=0) as source:
            state = os.fstat(held)
            if not stat.S_ISREG(state.st_mode) or state.st_size != entry.state.st_size:
                raise changed(entry.place)
            self.write(trees.file_of(path, owner_of(state), state.st_size))
            self.copy(source, entry)

    def copy(self, source, entry: Entry) -> None:
        left = entry.state.st_size
        while left:
            with about(entry.place):
                piece = source.read(min(left, PIECE))
            if not piece:
                raise changed(entry.place)
            left -= len(piece)
            self.write(piece)
        self.bytes += entry.state.st_size


def target_of(entry: Entry) -> bytes:
    """The target of a link. docs/TREE.md: a good path has no name of more than 255 bytes."""
    with about(entry.place):
        target = entry.target or os.readlink(entry.name, dir_fd=entry.directory)
    if not target or any(len(name) > LONGEST_NAME for name in target.split(b"/")):
        raise Trouble(f"{shown(entry.place)}: the link's target is empty or has a name of more than {LONGEST_NAME} "
                      "bytes")
    return target


def write(view: View, owner: Owner, wanted: Wanted, file: BinaryIO, tell: Callable[[str], None]) -> Writer:
    """Writes the tree file, and gives what was counted. What changes meanwhile is Trouble."""
    needs = Needs(view, wanted, owner.home, tell)
    limits = needs.limits(wanted.limits)
    home = b"/" if owner.is_sought and not needs.has_home else owner.home
    head = trees.head(home, (owner.user, owner.group), limits, needs.entries, owner_of(view.root_state()))
    needs.check_room(file, len(head), wanted.most)
    writer = Writer(file, needs.entries, len(head) + needs.bytes)
    writer.write(head)
    for entry in view.entries():
        if not wanted.leaves_out(entry):
            if entry.state.st_size > limits[1] and stat.S_ISREG(entry.state.st_mode):
                raise changed(entry.place)
            writer.put(entry)
    if writer.count != needs.entries:
        raise Trouble("the folder changed while it was read")
    writer.left_out = needs.left_out
    return writer
