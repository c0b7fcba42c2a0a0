"""A plain model of the tree: a table from places to what is there (docs/TREE.md), and tree files (docs/FORMATS.md).

A place is the tuple of the names that lead to it. What is at a place is ("D", owner), ("F", number of a file) or
("L", target), an owner (user, group, permissions).
"""
from model.texts import lines_of, text_of_bytes
from sftpv3.codec import trees as tree_files
from sftpv3.codec.trees import USUAL, is_good_path, place_of, text_of

LINKS = 40


class File:
    def __init__(self, owner, bytes):
        self.owner, self.bytes = owner, bytearray(bytes)


def parts_of(path):
    return [part for part in path.split(b"/") if part]


def with_given(owner, given):
    """An owner with what attributes give of the user, the group and the permissions."""
    user, group = given.get("owner", owner[:2])
    return user, group, given.get("permissions", owner[2]) & 0o7777


class Tree:
    def __init__(self, home=(), owner=(0, 0), root=(0, 0, 0o755), limits=USUAL):
        self.home, self.owner = home, owner
        self.limits, self.all_limit = limits, tree_files.limit_of_all(limits)
        self.entry_limit, self.file_limit, self.read_limit, self.handle_limit = limits[:4]
        self.nodes, self.files, self.made = {(): ("D", root)}, {}, 0

    def make_file(self, owner, bytes=b""):
        """The number of a new file."""
        self.files[self.made] = File(owner, bytes)
        self.made += 1
        return self.made - 1

    def walk(self, path, follow):
        """The place where a path leads, or None and the cause that it leads nowhere."""
        if not is_good_path(path):
            return None, "BadPath"
        rest = parts_of(path) if path[:1] == b"/" else [*self.home, *parts_of(path)]
        place, links = (), 0
        while rest:
            name = rest.pop(0)
            if name == b".":
                continue
            if name == b"..":
                place = place[:-1]
                continue
            there = self.nodes.get((*place, name))
            if there is None or there[0] == "F":
                if rest:
                    return None, "NoEntry" if there is None else "NotDir"
                return (*place, name), None
            if there[0] == "D":
                place = (*place, name)
                continue
            if not rest and not follow:
                return (*place, name), None
            links += 1
            if links > LINKS:
                return None, "Loop"
            rest = parts_of(there[1]) + rest
            if there[1][:1] == b"/":
                place = ()
        return place, None

    def kind(self, place):
        """`D`, `F`, `L`, or None where there is nothing."""
        there = self.nodes.get(place)
        return there and there[0]

    def has_entries(self, place):
        return any(other != place and other[:len(place)] == place for other in self.nodes)

    def depth_if_moved(self, old, new):
        below = [len(other) - len(old) for other in self.nodes if other[:len(old)] == old]
        return len(new) + max(below, default=0)

    def names_of(self, number):
        return [place for place, there in self.nodes.items() if there == ("F", number)]

    def shown(self, place):
        """The attributes that a reply has."""
        kind, value = self.nodes[place]
        if kind == "F":
            return self.shown_file(value)
        if kind == "D":
            return {"size": 0, "owner": value[:2], "permissions": 0o040000 | value[2]}
        return {"size": len(value), "owner": self.owner, "permissions": 0o120777}

    def shown_file(self, number):
        file = self.files[number]
        return {"size": len(file.bytes), "owner": file.owner[:2], "permissions": 0o100000 | file.owner[2]}

    def overfills(self, number, size, opened):
        """Whether a limit is broken if this file has so many bytes. Files without a name count if they are among those
        that are open."""
        named = {value for kind, value in self.nodes.values() if kind == "F"}
        others = sum(len(self.files[other].bytes) for other in (named | opened) - {number})
        return size > self.file_limit or others + size > self.all_limit

    def set_file(self, number, given):
        file = self.files[number]
        file.owner = with_given(file.owner, given)
        if "size" in given:
            size = given["size"]
            file.bytes = file.bytes[:size] + bytes(size - len(file.bytes[:size]))

    def move(self, old, new):
        self.nodes = {(*new, *place[len(old):]) if place[:len(old)] == old else place: there
                      for place, there in self.nodes.items()}

    def entries(self):
        """The entries below the root in the order of a tree file: place, kind, owner or None, and the value."""
        first = {}
        places = sorted(place for place in self.nodes if place)
        for number, place in enumerate(places, 1):
            kind, value = self.nodes[place]
            if kind == "D":
                yield place, "D", value, None
            elif kind == "L":
                yield place, "L", None, value
            elif value in first:
                yield place, "H", None, first[value]
            else:
                first[value] = number
                yield place, "F", self.files[value].owner, bytes(self.files[value].bytes)

    def bytes(self):
        """The tree file. A tree has no times."""
        entries = list(self.entries())
        parts = [tree_files.head(text_of(self.home), self.owner, self.limits, len(entries), self.nodes[()][1])]
        for place, kind, owner, value in entries:
            path = text_of(place)
            if kind == "D":
                parts.append(tree_files.directory(path, owner))
            elif kind == "F":
                parts += [tree_files.file_of(path, owner, len(value)), value]
            else:
                parts.append((tree_files.further if kind == "H" else tree_files.link)(path, value))
        return b"".join(parts)

    def told_limits(self):
        """The limits as the text of the tree file has them."""
        return (*self.limits[:4], self.all_limit) if tree_files.are_far(self.limits) else self.limits

    def lines(self):
        """The lines of a block that stand for the tree file."""
        lines = []
        if self.home or self.owner != (0, 0) or self.limits != USUAL:
            words = [f"home {text_of_bytes(text_of(self.home))} uid {self.owner[0]} gid {self.owner[1]}"]
            lines.append(" ".join([*words, "limits", *map(str, self.told_limits())] if self.limits != USUAL else words))
        if self.nodes[()][1] != (0, 0, 0o755) or lines:
            lines.append(text_of_entry((), "D", self.nodes[()][1], None))
        lines += [text_of_entry(*entry) for entry in self.entries()]
        return [it for line in lines for it in lines_of(line)]


def text_of_entry(place, kind, owner, value):
    words = [kind, text_of_bytes(text_of(place))]
    if owner:
        words += [str(owner[0]), str(owner[1]), f"0{owner[2]:o}"]
    if kind == "H":
        words.append(str(value))
    elif kind != "D":
        words.append(text_of_bytes(value))
    return " ".join(words)


def tree_of(file):
    """The tree of a tree file; Malformed with its first fault."""
    read = tree_files.get(file)
    tree = Tree(place_of(read.home), (read.uid, read.gid), read.root.owner(), read.limits)
    firsts = {}
    for entry in read.entries:
        tree.nodes[place_of(entry.path)] = node_of(entry, tree, firsts)
    return tree


def node_of(entry, tree, firsts):
    """What an entry says is there. `firsts` has the files by the paths of their first names."""
    if entry.kind == tree_files.DIRECTORY:
        return "D", entry.owner()
    if entry.kind == tree_files.LINK:
        return "L", entry.content
    if entry.kind == tree_files.FILE:
        firsts[entry.path] = tree.make_file(entry.owner(), entry.content)
        return "F", firsts[entry.path]
    return "F", firsts[entry.content]
