"""What a walk asks: where things are, what a directory has, what a link and a file hold. It follows no link.
`sftpv3 infer` makes the tree of what was seen."""
import os
import subprocess
from collections import deque

from sftpv3 import codec
from sftpv3.peer import programs, servers
from sftpv3.system import children
from sftpv3.system.program import of_usage, one_line
from sftpv3.walk import bounds
from sftpv3.walk.bounds import Misbehaves, shown
from sftpv3.walk.sessions import DIRECTORY, FILE, LINK, kind_of

# The bytes of a READ, and how many of one file are asked at a time.
CHUNK, BATCH = 32768, 32


def ask(name, *fields):
    return codec.Request(None, name, list(fields))


def parts_of(path):
    return [part for part in path.split(b"/") if part not in (b"", b".")]


def real(asked, reply):
    """The place that REALPATH tells, which is within what a tree file has."""
    if not reply.names:
        raise Misbehaves(f"REALPATH of {shown(asked)} gave {reply.why()}")
    place = reply.names[0]
    why = why_no_place(place)
    if why:
        raise Misbehaves(f"REALPATH of {shown(asked)} gave {shown(place)}, which {why}")
    return b"/" + b"/".join(parts_of(place))


def why_no_place(path):
    """Why an absolute path is none of a place in a tree file, or None."""
    if not path.startswith(b"/") or b"\0" in path:
        return "is no absolute path"
    if len(path) > bounds.PATH:
        return f"has {len(path):,} bytes, more than the {bounds.PATH:,} of any path"
    count = len(parts_of(path))
    return f"has {count:,} names, more than the {bounds.DEPTH} of any tree file" if count > bounds.DEPTH else None


def above(path):
    """The paths of the directories above a place, from the root on, without the place."""
    parts = parts_of(path)
    return [b"/" + b"/".join(parts[:count]) for count in range(len(parts))]


def within(path, name):
    return (b"" if path == b"/" else path) + b"/" + name


class Walk:
    """Looks at what is below some places. Without `contents` no file is read; `most` is how many bytes are read of all
    files together, and `most_entries` how many entries there may be. `notes` gets what was not looked at, or cannot be
    in a tree file."""

    def __init__(self, places, notes, contents=True, most=bounds.READ, most_entries=bounds.ENTRIES):
        self.notes, self.contents, self.left, self.most_entries = notes, contents, most, most_entries
        self.entries = self.names = 0
        self.looked = set()
        # the places to look at that are not there
        self.absent = []
        # what is to be done, the last first: iterators over the steps of tasks
        self.stack = [iter([self.begin(places)])]

    def next(self):
        """The steps of the next task, or None."""
        while self.stack:
            steps = next(self.stack[-1], None)
            if steps is not None:
                return steps
            self.stack.pop()
        return None

    def later(self, steps):
        self.stack.append(iter(steps))

    def begin(self, places):
        """Asks where the places are, and where relative paths start."""
        asked = list(dict.fromkeys([b".", *places]))
        replies = yield [ask("REALPATH", path) for path in asked]
        found = {path: real(path, reply) for path, reply in zip(asked, replies)}
        for place in reversed(list(dict.fromkeys(places))):
            absolute = place if place.startswith(b"/") else within(found[b"."], place)
            self.later([self.way(absolute), self.way(found[place]), self.entry(found[place], is_asked_for=True)])

    def way(self, path):
        """Looks at what is on the way to a place: directories and links."""
        wanted = [place for place in above(path) if place not in self.looked]
        self.looked.update(wanted)
        replies = yield [ask("LSTAT", place) for place in wanted]
        links = [place for place, reply in zip(wanted, replies)
                 if reply.attributes and kind_of(reply.attributes) == LINK]
        yield [ask("READLINK", place) for place in links]

    def entry(self, path, is_asked_for=False):
        """Looks at what is at a place, and then at what is in it."""
        (found,) = yield [ask("LSTAT", path)]
        if found.attributes is None:
            if is_asked_for and found.code == codec.NO_SUCH_FILE:
                self.absent.append(path)
            self.notes.add(path, f"cannot be looked at: {found.why()}")
            return
        kind = kind_of(found.attributes)
        if kind == DIRECTORY:
            yield from self.directory(path)
        elif kind == FILE:
            yield from self.file(path, found.attributes.get("size"))
        elif kind == LINK:
            yield [ask("READLINK", path), ask("STAT", path)]
        else:
            self.notes.add(path, "is no directory, file or link, which no tree file has")

    def directory(self, path):
        (opened,) = yield [ask("OPENDIR", path)]
        if opened.handle is None:
            self.notes.add(path, f"cannot be listed: {opened.why()}")
            return
        names = yield from self.listing(path, opened.handle)
        yield [ask("CLOSE", opened.handle)]
        if len(parts_of(path)) < bounds.DEPTH:
            self.later(self.entry(within(path, name)) for name in names)
        elif names:
            self.notes.add(path, f"has entries deeper than the {bounds.DEPTH} names of any tree file")

    def listing(self, path, handle):
        """The names in a directory, without `.` and `..`, each once."""
        names, idle = {}, 0
        while True:
            (reply,) = yield [ask("READDIR", handle)]
            if reply.names is None:
                if reply.code != codec.EOF:
                    self.notes.add(path, f"was not listed to its end: {reply.why()}")
                return list(names)
            fresh = [name for name in reply.names if name not in (b".", b"..") and name not in names]
            names.update(dict.fromkeys(fresh))
            idle = 0 if fresh else idle + 1
            if idle > bounds.IDLE:
                raise Misbehaves(f"the listing of {shown(path)} goes on without names that are new")
            self.count(path, fresh)

    def count(self, path, names):
        """Counts names, and looks whether they are some."""
        for name in names:
            if not name or len(name) > bounds.NAME or b"/" in name or b"\0" in name:
                raise Misbehaves(f"the listing of {shown(path)} has the name {shown(name)}")
        self.entries += len(names)
        self.names += sum(map(len, names)) + len(path)
        if self.entries > self.most_entries:
            raise Misbehaves(f"there are more than {self.most_entries:,} entries, as many as --max-entries says")
        most = self.most_entries * bounds.NAME_BYTES
        if self.names > most:
            raise Misbehaves(f"the names of all entries have more than {most:,} bytes")

    def file(self, path, size):
        if size is None or size > bounds.LARGEST:
            self.notes.add(path, "has no size" if size is None else
                           f"has {size:,} bytes, more than the {bounds.LARGEST:,} of any tree file")
            return
        if not self.contents:
            return
        if size > self.left:
            self.notes.add(path, f"is not read: its {size:,} bytes are more than are left of --max-bytes")
            return
        self.left -= size
        (opened,) = yield [ask("OPEN", path, codec.READ, {})]
        if opened.handle is None:
            self.notes.add(path, f"cannot be opened: {opened.why()}")
            return
        why = yield from self.reading(path, opened.handle, size)
        if why:
            self.notes.add(path, why)
        yield [ask("CLOSE", opened.handle)]

    def reading(self, path, handle, size):
        """Reads a file of this size, and whether it ends there. Gives why it was not read, or None."""
        wanted, short = Ranges(size), 0
        while True:
            batch = wanted.take(BATCH)
            if not batch:
                return None
            replies = yield [ask("READ", handle, *one) for one in batch]
            for (offset, length), reply in zip(batch, replies):
                why = ends_early(offset, length, size, reply)
                if why:
                    return why
                if reply.count is not None and reply.count < length:
                    wanted.add(offset + reply.count, length - reply.count)
                    short += reply.count < bounds.LITTLE
            if short > bounds.SHORT:
                raise Misbehaves(f"READ of {shown(path)} gives few bytes at a time")


class Ranges:
    """The ranges of a file that are still to be read, the last one behind its end."""

    def __init__(self, size):
        self.size, self.place, self.again = size, 0, deque()

    def add(self, offset, length):
        self.again.append((offset, length))

    def take(self, most):
        """The next ranges, at most so many."""
        found = [self.again.popleft() for _ in range(min(most, len(self.again)))]
        while len(found) < most and self.place is not None:
            length = min(CHUNK, self.size - self.place)
            found.append((self.place, length or CHUNK))
            self.place = self.place + length if length else None
        return found


def ends_early(offset, length, size, reply):
    """Why a file is read no further, by the reply to a READ, or None."""
    if reply.code == codec.EOF:
        return None if offset >= size else f"was {size:,} bytes long, and ended before byte {offset + length:,}"
    if reply.count is None:
        return f"cannot be read: {reply.why()}"
    if offset >= size:
        return f"was {size:,} bytes long, and has bytes behind that"
    if not 0 < reply.count <= length:
        return f"cannot be read: a READ of {length:,} bytes gave {reply.count:,}"
    return None


# The most memory of `infer`, unless it is told otherwise: it takes twice the bytes of a record with files.
MEMORY = 1 << 32

# The least that its address space is bounded by: the program has to be loaded, and then says by itself what it lacks.
LEAST_SPACE = 1 << 26


class NotInferred(Exception):
    """`sftpv3 infer` ended, and not with a tree or with the words that there is none."""


def told_by(*streams):
    """What the program said, behind a colon, if it said something."""
    lines = [line.removeprefix("sftpv3: ") for stream in streams for line in stream.splitlines() if line]
    return ": " + "; ".join(lines) if lines else ""


def can_infer(program):
    """Whether the program has the subcommand: older ones have not."""
    return subprocess.run([program, "help", "infer"], stdin=subprocess.DEVNULL, capture_output=True,
                          check=False).returncode == 0


def why_wrong(program, words, folder):
    """What the program says of options that it does not take, or None: it is asked of a session that has just begun."""
    begun = os.path.join(folder, "begun.transcript")
    with open(begun, "wb") as file:
        file.write(codec.put_records(codec.BEGUN))
    done = programs.run([program, "infer", *words, "--transcript", begun, os.path.join(folder, "begun.tree")], None)
    if done.returncode != 2:
        return None
    said = done.stderr.decode(errors="replace")
    return one_line(of_usage(said) or said) or "the program does not take its options"


def why_too_large(lines, memory):
    """Why no tree is made of a session that tells too much, behind what the program says of it. Its limit of paths goes
    by the length of the record alone."""
    bound = children.lower_space(max(memory, LEAST_SPACE)) or f"{memory:,} bytes of memory (--memory)"
    needs = ("has no room for the paths of the session" if any(line.startswith("no tree: the paths ") for line in lines)
             else f"needs more than {bound}")
    return "; ".join([f"`sftpv3 infer` {needs}", *lines])


def infer(program, transcript, tree, words=(), memory=MEMORY, stop=None):
    """Has the tree written that explains the session. Gives whether there is one, and what was said of it, on standard
    output and on standard error. Raises Stopped, and ends it, once `stop` is set."""
    done = programs.run([program, "infer", "--explain", "--memory", str(memory), *words, "--transcript", transcript,
                         tree], stop, max(memory, LEAST_SPACE))
    said, why = (stream.decode(errors="replace").rstrip("\n") for stream in (done.stdout, done.stderr))
    lines = why.splitlines()
    if done.returncode == 3 and any(line.startswith("sftpv3: out of memory") for line in lines):
        raise NotInferred(why_too_large([line for line in lines if line.startswith("no tree: ")], memory))
    if done.returncode not in (0, 1):
        raise NotInferred(f"`sftpv3 infer` ended {servers.ending(done.returncode)}{told_by(said, why)}")
    return done.returncode == 0, said, why
