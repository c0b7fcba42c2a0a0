"""What a tree has: directories, files and links; and what sessions have open."""
from __future__ import annotations

from typing import Optional

DIRECTORY, FILE, LINK = 1, 2, 3

# Of so many bytes of a file one hash is kept.
BLOCK = 4096

# A user, a group and permissions.
Owner = tuple[int, int, int]


class Node:
    """A directory, a file or a link. Its number says which request made it, whatever the order was.

    Of a directory, `came` has the step in which a name came, if that was not in the tree at the start. `is_linked` says
    whether a directory has a name. `names` counts those of a file, and `opened` its handles.
    """

    __slots__ = ("kind", "number", "owner", "entries", "came", "is_linked", "content", "names", "opened", "target",
                 "parts", "told", "blocks", "stale")

    def __init__(self, kind: int, number: int, owner: Owner):
        self.kind, self.number, self.owner = kind, number, owner
        self.entries: dict[bytes, Node] = {}
        self.came: dict[bytes, int] = {}
        self.is_linked = True
        self.content = bytearray()
        self.names = self.opened = 0
        self.target, self.parts = b"", ()
        # the hash that counts in that of the state; those of the blocks, and which of these are out of date
        self.told = 0
        self.blocks: list[int] = []
        self.stale: set[int] = set()

    def digest(self) -> int:
        """A hash of what the node is; of one that nothing leads to any more it is 0."""
        if self.kind == DIRECTORY:
            names = frozenset((name, node.number) for name, node in self.entries.items())
            return hash((self.number, self.owner, names)) if self.is_linked else 0
        if not self.names and not self.opened:
            return 0
        if self.kind == LINK:
            return hash((self.number, self.target))
        self.refresh()
        return hash((self.number, self.owner, self.names, len(self.content), tuple(self.blocks)))

    def refresh(self) -> None:
        """Brings the hashes of blocks up to date."""
        count = -(-len(self.content) // BLOCK)
        del self.blocks[count:]
        stale = self.stale | set(range(len(self.blocks), count))
        self.blocks += [0] * (count - len(self.blocks))
        for block in stale:
            if block < count:
                self.blocks[block] = hash(bytes(self.content[block * BLOCK:(block + 1) * BLOCK]))
        self.stale = set()


class OpenFile:
    """An open file, or a directory that OPEN opened."""

    __slots__ = ("node", "reads", "writes", "appends")

    def __init__(self, node: Node, reads: bool, writes: bool, appends: bool):
        self.node, self.reads, self.writes, self.appends = node, reads, writes, appends

    def digest(self, _: int) -> int:
        return hash((self.node.number, self.reads, self.writes, self.appends))


class Listing:
    """An open directory: what it had when it was opened, by names with what was shown of each, and the step of then;
    and which names were given, with the step in which each was given last."""

    __slots__ = ("node", "left", "begun", "given")

    def __init__(self, node: Node, left: dict[bytes, tuple], begun: int):
        self.node, self.left, self.begun = node, left, begun
        self.given: dict[bytes, int] = {}

    def must(self) -> list[bytes]:
        """The names that were there all the time, and were not given yet."""
        there, came = self.node.entries, self.node.came
        return [name for name in self.left
                if name not in self.given and name in there and came.get(name, 0) <= self.begun]

    def is_left(self, name: bytes) -> bool:
        return name in self.left and name not in self.given

    def is_due(self, name: bytes) -> bool:
        """Whether a name that is there was not given since it was there anew."""
        came = self.node.came.get(name, 0)
        if name not in self.given:
            return name in self.left or came > self.begun
        return came > max(self.begun, self.given[name])

    def digest(self, number: int) -> int:
        names = [(name, self.is_left(name), self.is_due(name)) for name in {*self.left, *self.node.entries}]
        left = tuple(sorted((name, shown) for name, shown in self.left.items() if name not in self.given))
        return hash((number, self.node.number, frozenset(names), frozenset(self.must()), left))


Opened = Optional[object]
