"""What a folder has, found through descriptors of its directories: no link is followed, whatever changes meanwhile;
and the entries of a tree file: these, and the directories and links that lead to them from the root."""
import heapq
import os
import re
import stat
from contextlib import ExitStack, contextmanager
from typing import Dict, FrozenSet, Iterator, List, NamedTuple, Optional, Tuple

from sftpv3.codec.trees import MOST, text_of
from sftpv3.system import mounted
from sftpv3.system.ways import Way, names

# What is mounted where, in the fifth word of each line; spaces and the like are written as octal numbers.
MOUNTS = "/proc/self/mountinfo"

Place = Tuple[bytes, ...]

# docs/TREE.md: the most names from the root to an entry.
DEEPEST = 64


class Trouble(Exception):
    """Why no tree file can be made."""


class Entry(NamedTuple):
    """An entry: its place as clients see it, what `lstat` says, or nothing if another user mounted it, and where it is:
    a name in a directory, which is open until the next entry is asked for; of a link on the way to a folder, its
    target. What is below a mount is not looked for."""
    place: Place
    state: Optional[os.stat_result]
    directory: Optional[int]
    name: bytes
    is_mount: bool = False
    target: bytes = b""


def shown(place: Place) -> str:
    """A place as a line of text."""
    return ascii(os.fsdecode(b"/" + b"/".join(place)))[1:-1]


def changed(place: Place) -> Trouble:
    return Trouble(f"{shown(place)}: changed while it was read")


@contextmanager
def about(place: Place) -> Iterator[None]:
    """Has an error name the place that is looked at. What is gone by then has changed."""
    try:
        yield
    except FileNotFoundError:
        raise changed(place) from None
    except OSError as error:
        raise OSError(error.errno, error.strerror, text_of(place)) from None


def mount_points() -> List[Place]:
    """Where something is mounted, also what is of the same file system."""
    with open(MOUNTS, "rb") as file:
        # the kernel escapes blanks in a path, and leaves other bytes as they are
        paths = [line.split(b" ")[4] for line in file]
    return [names(re.sub(rb"\\([0-7]{3})", lambda found: bytes([int(found[1], 8)]), path)) for path in paths]


class Look:
    """One look at what folders have, without what is below these mounts. The names of a directory are held as long as
    its entries are looked at; so those of all entries together may have no more than `most` bytes, as paths, and there
    may be as many entries as any tree has."""

    def __init__(self, mounts: FrozenSet[Place] = frozenset(), most: int = 1 << 34):
        self.mounts, self.most, self.entries, self.bytes = mounts, most, 0, 0

    def names_in(self, directory: int, place: Place) -> List[bytes]:
        """The names in a directory, in the order of tree files."""
        found, above = [], sum(map(len, place)) + len(place) + 1
        with os.scandir(directory) as entries:
            for entry in entries:
                name = os.fsencode(entry.name)
                self.count(above + len(name))
                found.append(name)
        return sorted(found)

    def count(self, path: int) -> None:
        """Counts an entry whose path has so many bytes."""
        self.entries, self.bytes = self.entries + 1, self.bytes + path
        if self.entries > MOST[0]:
            raise Trouble(f"more than {MOST[0]} entries, as many as a tree has")
        if self.bytes > self.most:
            raise Trouble(f"the names of the entries have more than the {self.most} bytes that --most allows")

    def below(self, directory: int, place: Place) -> Iterator[Entry]:
        """All below a directory, in the order of tree files."""
        beside = mounted.number_of(directory)
        for name in self.names_in(directory, place):
            with about(place + (name,)):
                state = state_of(name, directory, beside)
            entry = Entry(place + (name,), state, directory, name, place + (name,) in self.mounts or state is None)
            if len(entry.place) > DEEPEST:
                raise Trouble(f"{shown(entry.place)}: more than {DEEPEST} names below the root")
            yield entry
            if not entry.is_mount and stat.S_ISDIR(entry.state.st_mode):
                yield from self.below_entry(entry)

    def below_entry(self, entry: Entry) -> Iterator[Entry]:
        with about(entry.place):
            held = mounted.folder_at(entry.name, entry.directory)
        try:
            yield from self.below(held, entry.place)
        finally:
            os.close(held)


def state_of(name: bytes, directory: int, beside: Optional[bytes]) -> Optional[os.stat_result]:
    """What `lstat` says of a name in a directory on the mount `beside`, unless another user mounted what has it."""
    try:
        return mounted.state_at(name, directory, beside)
    except mounted.OfAnother:
        return None


SPECIAL = {stat.S_IFSOCK: "a socket", stat.S_IFIFO: "a FIFO", stat.S_IFCHR: "a device", stat.S_IFBLK: "a device"}


def kind(entry: Entry) -> str:
    """What an entry is, if no tree can hold it: a socket, a FIFO or a device."""
    return SPECIAL.get(stat.S_IFMT(entry.state.st_mode), "")


def is_mounted_over(entry: Entry) -> bool:
    """Whether an entry is mounted and no directory, or another user mounted it."""
    return entry.is_mount and (entry.state is None or not stat.S_ISDIR(entry.state.st_mode))


class View:
    """What clients see: these folders, below the root `/` or, where the server changes its root, the one folder as the
    root; without mounts, not what is mounted below them. A look at it holds at most so many bytes of paths."""

    def __init__(self, folders: List[str], is_root: bool, stack: ExitStack, with_mounts: bool = True,
                 most: int = 1 << 34):
        self.is_root, self.most = is_root, most
        self.above: Dict[Place, Entry] = {}
        opened = dict(self.open(folder, stack) for folder in folders)
        top, self.root = next(iter(opened.items())) if is_root else self.open("/", stack)
        self.mounts = frozenset() if with_mounts else frozenset(
            it[len(top):] for it in mount_points() if it[:len(top)] == top)
        self.folders = {place: opened[place] for place in sorted(opened) if not is_root and not
                        any(place[:length] in opened for length in range(len(place)))}

    def open(self, folder: str, stack: ExitStack) -> Tuple[Place, int]:
        """Opens a folder, and takes in the directories and links from the root to it. Returns its place."""
        path = os.path.join(os.getcwd(), folder) if self.is_root else os.path.abspath(folder)
        with Way() as way:
            for it in way.lead(names(os.fsencode(path))):
                self.above[it.place] = Entry(it.place, it.state, None, it.place[-1], target=it.target)
            held = way.open()
        stack.callback(os.close, held)
        return way.place, held

    def root_state(self) -> os.stat_result:
        return os.fstat(self.root)

    def entries(self) -> Iterator[Entry]:
        """All entries in the order of tree files, each once."""
        look = Look(self.mounts, self.most)
        if self.is_root:
            yield from look.below(self.root, ())
            return
        parts = [iter(sorted(self.above.values(), key=lambda entry: entry.place))]
        parts += [look.below(held, place) for place, held in self.folders.items()]
        last = None
        for entry in heapq.merge(*parts, key=lambda entry: entry.place):
            if entry.place != last:
                yield entry
            last = entry.place
