"""A tree that requests of several sessions change, step by step, and how changes are taken back.

Each change puts what undoes it into a log. The state has a digest, a hash that does not depend on the order in which
requests were done, only on what they left. While `trace` is set, the things that are looked at and changed are noted.
"""
from __future__ import annotations

from typing import Any, Optional, Union

from sftpv3.together.nodes import BLOCK, DIRECTORY, FILE, LINK, Listing, Node, OpenFile, Owner
from sftpv3.together.outside import trees
from sftpv3.together.paths import Path, parts_of

# The most links that a walk follows, and the most names of a place.
LINKS, DEEPEST = 40, 64

# One block of this many bytes is a thing that is looked at or changed.
GRAIN = 512


class Trace:
    """What was looked at, and what was changed."""

    def __init__(self) -> None:
        self.reads: set[tuple] = set()
        self.writes: set[tuple] = set()

    def clashes(self, other: "Trace") -> bool:
        """Whether the order of the two may matter."""
        return not (self.writes.isdisjoint(other.reads) and self.writes.isdisjoint(other.writes)
                    and self.reads.isdisjoint(other.writes))


class Place:
    """Where a path leads: the directories and the names on the way, and what is there, or None."""

    __slots__ = ("folders", "names", "node")

    def __init__(self, folders: list[Node], names: list[bytes], node: Optional[Node]):
        self.folders, self.names, self.node = folders, names, node

    def is_root(self) -> bool:
        return not self.names

    def folder(self) -> Node:
        """The directory that the last name is in."""
        return self.folders[len(self.names) - 1]

    def text(self) -> bytes:
        return trees.text_of(self.names)


class State:
    """The tree, what each session has open, and how many steps were done."""

    def __init__(self, tree: trees.Tree, sessions: int):
        self.home = parts_of(tree.home)
        self.maker = (tree.uid, tree.gid)
        self.limits = tree.limits
        self.log: list[tuple] = []
        self.open: list[dict[bytes, Union[OpenFile, Listing]]] = [{} for _ in range(sessions)]
        self.open_count, self.entry_count, self.step = 0, len(tree.entries), 0
        self.root = Node(DIRECTORY, -1, tree.root.owner())
        self.stale: set[Node] = {self.root}
        self.total = 0
        # whether a request was tried that was done although there was no room, or did what nobody knows
        self.is_beyond = False
        self.trace: Optional[Trace] = None
        self.fill(tree)

    def fill(self, tree: trees.Tree) -> None:
        made = {(): self.root}
        for number, entry in enumerate(tree.entries, 2):
            place = trees.place_of(entry.path)
            node = self.node_of(entry, -number, made)
            node.names += 1
            made[place] = node
            made[place[:-1]].entries[place[-1]] = node
            self.stale.add(node)

    def node_of(self, entry: trees.Entry, number: int, made: dict) -> Node:
        if entry.kind == trees.FURTHER:
            return made[trees.place_of(entry.content)]
        kinds = {trees.DIRECTORY: DIRECTORY, trees.FILE: FILE, trees.LINK: LINK}
        node = Node(kinds[entry.kind], number, entry.owner())
        if node.kind == FILE:
            node.content = bytearray(entry.content)
        elif node.kind == LINK:
            node.target, node.parts = entry.content, parts_of(entry.content)
        return node

    # what is looked at

    def path(self, text: bytes) -> Path:
        return Path(text, self.home)

    def walk(self, path: Path, follow: bool) -> Union[Place, str]:
        """Where a path leads, or the cause that it leads nowhere."""
        if path.is_bad:
            return "BadPath"
        folders, names = [self.root], []
        rest = list(path.parts[::-1])
        links = 0
        while rest:
            name = rest.pop()
            if name == b"." or name == b"..":
                if name == b".." and names:
                    folders.pop()
                    names.pop()
                continue
            here = folders[-1]
            node = here.entries.get(name)
            if self.trace is not None:
                self.trace.reads.add((here.number, name))
            if node is not None and node.kind == DIRECTORY:
                folders.append(node)
                names.append(name)
            elif node is None or node.kind == FILE or not rest and not follow:
                if node is not None and node.kind == LINK or not rest:
                    names.append(name)
                    return Place(folders, names, node)
                return "NoEntry" if node is None else "NotDir"
            else:
                links += 1
                if links > LINKS:
                    return "Loop"
                rest.extend(node.parts[::-1])
                if node.target[:1] == b"/":
                    folders, names = [self.root], []
        return Place(folders, names, folders[-1])

    def look(self, *thing: Any) -> None:
        if self.trace is not None:
            self.trace.reads.add(thing)

    def look_at_bytes(self, node: Node, start: int, end: int) -> None:
        if self.trace is not None:
            self.trace.reads.update((node.number, "byte", block) for block in range(start // GRAIN, end // GRAIN + 1))

    def opened(self, session: int, handle: bytes) -> Union[OpenFile, Listing, None]:
        if self.trace is not None:
            self.trace.reads.add((session, "handle", handle))
        return self.open[session].get(handle)

    # what is changed

    def put(self, table: dict, key: Any, value: Any) -> None:
        """Sets a value of a table; None takes it away."""
        self.log.append((restore, table, key, table.get(key)))
        restore(table, key, value)

    def set(self, holder: object, name: str, value: Any) -> None:
        self.log.append((setattr, holder, name, getattr(holder, name)))
        setattr(holder, name, value)

    def touch(self, node: Node) -> None:
        """The hash of a node is out of date, and will be again if the change is taken back."""
        self.stale.add(node)
        self.log.append((self.stale.add, node))

    def wrote(self, *thing: Any) -> None:
        if self.trace is not None:
            self.trace.writes.add(thing)

    def enter(self, folder: Node, name: bytes, node: Node) -> None:
        """A name comes into a directory."""
        self.touch(folder)
        self.touch(node)
        self.put(folder.entries, name, node)
        self.put(folder.came, name, self.step)
        self.set(node, "names", node.names + 1)
        self.wrote(folder.number, name)
        self.wrote(folder.number, "list")

    def leave(self, folder: Node, name: bytes) -> None:
        """A name goes from a directory."""
        node = folder.entries[name]
        self.touch(folder)
        self.touch(node)
        self.put(folder.entries, name, None)
        self.put(folder.came, name, None)
        self.set(node, "names", node.names - 1)
        self.wrote(folder.number, name)
        self.wrote(folder.number, "list")

    def unlink(self, folder: Node, name: bytes) -> None:
        """A name goes for good; so does its directory."""
        node = folder.entries[name]
        self.leave(folder, name)
        self.set(self, "entry_count", self.entry_count - 1)
        if node.kind == DIRECTORY:
            self.set(node, "is_linked", False)

    def make(self, folder: Node, name: bytes, node: Node) -> None:
        """A name comes that was nowhere."""
        self.set(self, "entry_count", self.entry_count + 1)
        self.enter(folder, name, node)

    def own(self, node: Node, owner: Owner) -> None:
        self.touch(node)
        self.set(node, "owner", owner)
        self.wrote(node.number, "owner")

    def resize(self, node: Node, size: int) -> None:
        """Cuts a file, or fills it with zeros."""
        old = len(node.content)
        if size < old:
            self.log.append((node.content.extend, bytes(node.content[size:])))
            del node.content[size:]
        elif size > old:
            self.log.append((cut, node.content, old))
            node.content.extend(bytes(size - old))
        if size != old:
            self.stale_bytes(node, min(size, old), max(size, old))
        self.wrote(node.number, "size")

    def write(self, node: Node, start: int, data: bytes) -> None:
        """Puts bytes into a file, behind zeros if it ends before."""
        end, old = start + len(data), len(node.content)
        if start > old:
            self.resize(node, start)
        self.log.append((splice, node.content, start, end, bytes(node.content[start:end])))
        node.content[start:end] = data
        self.stale_bytes(node, start, end)
        if end > old:
            self.wrote(node.number, "size")

    def stale_bytes(self, node: Node, start: int, end: int) -> None:
        blocks = range(start // BLOCK, end // BLOCK + 1)
        node.stale.update(blocks)
        self.log.append((stale_again, node, blocks))
        self.touch(node)
        if self.trace is not None:
            self.trace.writes.update((node.number, "byte", block) for block in range(start // GRAIN, end // GRAIN + 1))

    def hold(self, session: int, handle: bytes, opened: Union[OpenFile, Listing]) -> None:
        """Gives a session a handle."""
        self.wrote(session, "handle", handle)
        self.put(self.open[session], handle, opened)
        self.pinned(opened.node, 1)

    def close(self, session: int, handle: bytes) -> None:
        node = self.open[session][handle].node
        self.put(self.open[session], handle, None)
        self.pinned(node, -1)

    def pinned(self, node: Node, count: int) -> None:
        self.set(self, "open_count", self.open_count + count)
        self.set(node, "opened", node.opened + count)
        self.touch(node)

    def undo(self, length: int) -> None:
        """Takes back what was done since the log had this length."""
        log = self.log
        while len(log) > length:
            act, *words = log.pop()
            act(*words)

    # which state it is

    def digest(self) -> int:
        for node in self.stale:
            told = node.digest()
            self.total ^= node.told ^ told
            node.told = told
        self.stale.clear()
        held = self.total
        for session, table in enumerate(self.open):
            for handle, opened in table.items():
                held ^= hash((session, handle, opened.digest(session)))
        return held


def restore(table: dict, key: Any, value: Any) -> None:
    if value is None:
        table.pop(key, None)
    else:
        table[key] = value


def cut(content: bytearray, size: int) -> None:
    del content[size:]


def splice(content: bytearray, start: int, end: int, old: bytes) -> None:
    """Takes back a WRITE: these bytes go, and the old ones, perhaps fewer, come back."""
    content[start:end] = old


def stale_again(node: Node, blocks: range) -> None:
    node.stale.update(blocks)
