"""What the planner believes the server's tree to be, so that most of what it plans makes sense, and what a request does
to that, if nothing refuses it. Nothing is judged by it: that is `sftpv3 audit`'s part."""
import copy
from collections import Counter

from sftpv3 import codec
from sftpv3.codec import trees

DIRECTORY, FILE, LINK = "directory", "file", "link"

# No file has so many bytes, on no system: offsets are signed numbers of 64 bits.
FAR = 2 ** 63


class Entry:
    """What is at a place: its kind, the number of a file, the target of a link."""

    def __init__(self, kind, number=None, target=b""):
        self.kind, self.number, self.target = kind, number, target


class Ring(Exception):
    """A path goes round in a ring of links."""


class Model:
    """Places, which are tuples of names, to entries; and the sizes of the files, by their numbers. No file gets larger
    than `largest`."""

    def __init__(self, tree):
        self.largest = tree.largest()
        self.home = tuple(name for name in tree.home.split(b"/") if name)
        self.places, self.sizes, self.written = {(): Entry(DIRECTORY)}, {}, set()
        by_path = {}
        for entry in tree.entries:
            if entry.kind == trees.FILE:
                by_path[entry.path] = self.new_number(len(entry.content))
                self.places[entry.names()] = Entry(FILE, by_path[entry.path])
            elif entry.kind == trees.FURTHER:
                self.places[entry.names()] = Entry(FILE, by_path[entry.content])
            elif entry.kind == trees.LINK:
                self.places[entry.names()] = Entry(LINK, target=entry.content)
            else:
                self.places[entry.names()] = Entry(DIRECTORY)
        self.names_before = self.names_by_directory()
        # how many names are in each directory that has some
        self.counts = Counter(place[:-1] for place in self.places if place)

    def new_number(self, size):
        self.sizes[len(self.sizes)] = size
        return len(self.sizes) - 1

    def copy(self):
        """A model that may change, while this one stays. Entries are shared: they never change."""
        copied = copy.copy(self)
        copied.places, copied.sizes, copied.written = dict(self.places), dict(self.sizes), set(self.written)
        copied.counts = Counter(self.counts)
        return copied

    def set_size(self, number, size):
        """A file was written or cut, and has this size now."""
        self.sizes[number] = size
        self.written.add(number)

    def names_by_directory(self):
        """The places of the directories, each with the names in it."""
        found = {place: set() for place in self.of_kind(DIRECTORY)}
        for place in self.places:
            if place:
                found[place[:-1]].add(place[-1])
        return found

    def changed_directories(self):
        """The places of the directories that have other names than at the start, each with how many it has."""
        return {place: len(names) for place, names in self.names_by_directory().items()
                if names != self.names_before.get(place)}

    def unchanged_directories(self):
        """The places of the other directories, each with how many names it has."""
        changed = self.changed_directories()
        return [(place, len(names)) for place, names in self.names_by_directory().items() if place not in changed]

    def unchanged_files(self):
        """A place of each file that was not written, with its size."""
        by_number = {self.at(place).number: place for place in self.of_kind(FILE)}
        return [(place, self.sizes[number]) for number, place in by_number.items() if number not in self.written]

    def at(self, place):
        return self.places.get(place)

    def of_kind(self, kind):
        return [place for place, entry in self.places.items() if entry.kind == kind]

    def below(self, place):
        if not self.counts[place]:
            return []
        return [other for other in self.places if other != place and other[:len(place)] == place]

    def walk(self, path, follow):
        """The place that a path leads to, or None."""
        try:
            return self.follow(path, follow)
        except Ring:
            return None

    def goes_round(self, path):
        """Whether a path goes round in a ring."""
        try:
            self.follow(path, True)
            return False
        except Ring:
            return True

    def follow(self, path, follow):
        """The place that a path leads to, or None: docs/TREE.md, The walk."""
        parts = [part for part in path.split(b"/") if part]
        parts = parts if path.startswith(b"/") else list(self.home) + parts
        place, links = (), 0
        while parts:
            part = parts.pop(0)
            if part in (b".", b".."):
                place = place[:-1] if part == b".." else place
                continue
            entry = self.at(place + (part,))
            if entry is not None and entry.kind == DIRECTORY:
                place += (part,)
            elif entry is not None and entry.kind == LINK and (parts or follow):
                links += 1
                if links > 40:
                    raise Ring
                place = () if entry.target.startswith(b"/") else place
                parts = [name for name in entry.target.split(b"/") if name] + parts
            else:
                return None if parts else place + (part,)
        return place

    def place_of(self, entry):
        """The place of a directory that is there, or None."""
        return next((place for place, other in self.places.items() if other is entry), None)

    def names_in(self, directory):
        return {place[-1] for place in self.places if place and place[:-1] == directory}

    def leads_to(self, link, kind):
        """The place that the link there leads to, if that is of this kind."""
        place = self.walk(b"/" + b"/".join(link), True)
        return place if place is not None and self.at(place) and self.at(place).kind == kind else None

    def add(self, place, entry):
        self.counts[place[:-1]] += place not in self.places
        self.places[place] = entry

    def make_file(self, place):
        self.add(place, Entry(FILE, self.new_number(0)))
        self.written.add(self.at(place).number)

    def remove(self, place):
        self.counts[place[:-1]] -= place in self.places
        self.places.pop(place, None)

    def move(self, old, new):
        """Moves what is at the old place, with all below it; what was at the new one is gone."""
        if old == new or self.same_file(old, new):
            return
        moved = [(place, self.at(place)) for place in [old] + self.below(old)]
        for place, _ in moved:
            self.remove(place)
        for place, entry in moved:
            self.add(new + place[len(old):], entry)

    def same_file(self, one, other):
        first, second = self.at(one), self.at(other)
        return bool(first and second and first.kind == FILE == second.kind and first.number == second.number)


class Open:
    """What is open: `FILE` or `DIRECTORY`, the flags of its OPEN, the number of its file, its entry, its path."""

    def __init__(self, flags, entry, path):
        self.kind, self.flags, self.number, self.entry, self.path = entry.kind, flags, entry.number, entry, path


def good_path(path):
    return b"\0" not in path and len(path) <= 4096 and all(len(part) <= 255 for part in path.split(b"/"))


def good_flags(flags):
    writes, creates = flags & codec.WRITE, flags & codec.CREAT
    return (flags & (codec.READ | codec.WRITE) and flags < 64
            and (creates or not flags & (codec.TRUNC | codec.EXCL))
            and (writes or not flags & (codec.TRUNC | codec.APPEND)))


def apply(planner, step):
    """Changes the planner's model and its account of what is open."""
    effect = EFFECTS.get(step.name)
    paths = [value for value in step.fields if isinstance(value, bytes)] if step.name in PATHS else []
    if effect and all(good_path(path) for path in paths):
        effect(planner, planner.model, step, *step.fields)


def of_open(planner, model, step, path, flags, _attributes):
    place = model.walk(path, not flags & codec.EXCL)
    entry = place is not None and model.at(place)
    if place is None or not good_flags(flags):
        return
    if entry is None:
        if not flags & codec.CREAT:
            return
        model.make_file(place)
    elif flags & codec.EXCL or entry.kind != FILE:
        return
    elif flags & codec.TRUNC:
        model.set_size(entry.number, 0)
    planner.opened[step.number] = Open(flags, model.at(place), path)


def of_opendir(planner, model, step, path):
    place = model.walk(path, True)
    if place is not None and model.at(place) and model.at(place).kind == DIRECTORY:
        planner.opened[step.number] = Open(0, model.at(place), path)


def of_close(planner, _model, _step, handle):
    if planner.opened.pop(getattr(handle, "step", None), None):
        planner.closed.append(handle)


def of_write(planner, model, _step, handle, offset, data):
    opened = planner.opened.get(getattr(handle, "step", None))
    if opened and opened.kind == FILE and opened.flags & codec.WRITE and data:
        size = model.sizes[opened.number]
        end = size + len(data) if opened.flags & codec.APPEND else max(size, offset + len(data))
        model.set_size(opened.number, end if end <= model.largest else size)


def of_size(planner, model, _step, handle, given):
    opened = planner.opened.get(getattr(handle, "step", None))
    if opened and opened.kind == FILE and opened.flags & codec.WRITE and given.get("size", FAR) <= model.largest:
        model.set_size(opened.number, given["size"])


def of_setstat(_planner, model, _step, path, given):
    place = model.walk(path, True)
    entry = place is not None and model.at(place)
    if entry and entry.kind == FILE and given.get("size", FAR) <= model.largest:
        model.set_size(entry.number, given["size"])


def of_remove(_planner, model, _step, path):
    place = model.walk(path, False)
    if place and model.at(place) and model.at(place).kind != DIRECTORY:
        model.remove(place)


def of_rmdir(_planner, model, _step, path):
    place = model.walk(path, False)
    if place and model.at(place) and model.at(place).kind == DIRECTORY and not model.below(place):
        model.remove(place)


def of_mkdir(_planner, model, _step, path, _attributes):
    place = model.walk(path, False)
    if place and not model.at(place):
        model.add(place, Entry(DIRECTORY))


def of_symlink(_planner, model, _step, target, path):
    place = model.walk(path, False)
    if place and target and not model.at(place):
        model.add(place, Entry(LINK, target=target))


def of_hardlink(_planner, model, _step, old, new):
    old, new = model.walk(old, False), model.walk(new, False)
    if old and new and not model.at(new) and model.at(old) and model.at(old).kind == FILE:
        model.add(new, model.at(old))


def of_rename(_planner, model, _step, old, new):
    old, new = model.walk(old, False), model.walk(new, False)
    if old and new and model.at(old) and not model.at(new) and new[:len(old)] != old:
        model.move(old, new)


def of_posix_rename(_planner, model, _step, old, new):
    old, new = model.walk(old, False), model.walk(new, False)
    if not old or not new or not model.at(old) or (new[:len(old)] == old and new != old):
        return
    kinds = [model.at(place) and model.at(place).kind == DIRECTORY for place in (old, new)]
    if model.at(new) and (kinds[0] != kinds[1] or model.below(new)):
        return
    model.move(old, new)


EFFECTS = {
    "OPEN": of_open, "OPENDIR": of_opendir, "CLOSE": of_close, "WRITE": of_write, "FSETSTAT": of_size,
    "SETSTAT": of_setstat, "REMOVE": of_remove, "RMDIR": of_rmdir, "MKDIR": of_mkdir, "SYMLINK": of_symlink,
    "HARDLINK": of_hardlink, "RENAME": of_rename, "POSIX-RENAME": of_posix_rename,
}

# Requests whose fields that are bytes are all paths.
PATHS = {"OPEN", "OPENDIR", "SETSTAT", "REMOVE", "RMDIR", "MKDIR", "SYMLINK", "HARDLINK", "RENAME", "POSIX-RENAME"}
