"""Scenes of a table: each request, on each kind of thing, by each way to it, in each state of its handle. A scene has
one request. By each way and in each state it meets a thing that it is for, and once each other kind of thing, which it
may not change. Over all scenes each way meets each state, and each kind of thing both. What goes wrong where two meet,
and nobody thought of, stands in such a square."""
from sftpv3.probe.dating import times
from sftpv3.probe.model import FILE
from sftpv3.probe.plans import with_word
from sftpv3.probe.transfers import CREAT, EXCL, READ, TRUNC, WRITE

BYTES = b"what the file has at the start, which is longer than what is written"


def made(p, path, data=BYTES):
    """A new file with these bytes."""
    step = p.ask("OPEN", path, WRITE | CREAT | EXCL, {})
    yield step
    if data:
        yield p.ask("WRITE", step.opened(), 0, data)
    yield p.ask("CLOSE", step.opened())


def file(p, path, _top):
    yield from made(p, path)


def empty_file(p, path, _top):
    yield from made(p, path, b"")


def with_further(p, path, top):
    yield from made(p, path)
    yield p.ask("HARDLINK", path, top + b"/e/further")


def directory(p, path, _top):
    yield p.ask("MKDIR", path, {})


def directory_with_names(p, path, top):
    yield from directory(p, path, top)
    yield p.ask("MKDIR", path + b"/in", {})


def link_to_file(p, path, top):
    yield from made(p, top + b"/e/aim")
    yield p.ask("SYMLINK", b"../e/aim", path)


def link_to_directory(p, path, _top):
    yield p.ask("SYMLINK", b"../e", path)


def link_to_nothing(p, path, _top):
    yield p.ask("SYMLINK", b"nothing", path)


def nothing(_p, _path, _top):
    return iter(())


# The kinds of things, each with what makes one at a path below `top`; and those that are opened as directories are.
FILES, DIRECTORIES = (file, empty_file, with_further), (directory, directory_with_names, link_to_directory)
LINKS = (link_to_file, link_to_directory, link_to_nothing)
THINGS = (*FILES, *DIRECTORIES, link_to_file, link_to_nothing, nothing)

# What requests are for: what is there for those that follow links, and for those that do not.
FOLLOWED = (*FILES, link_to_file, *DIRECTORIES)
NAMED = THINGS[:-1]
TO_FILES = (*FILES, link_to_file)


def moved(p, top):
    """The way by another name of the directory, which it gets now."""
    yield p.ask("RENAME", top + b"/d", top + b"/moved")
    return top + b"/moved/x"


def as_it_is(text):
    """A way that needs nothing: the path of a thing, by that of the directory that all is in."""
    def way(_p, top):
        yield from ()
        return text % top
    return way


def by_link(p, top):
    """The way through a link to the directory, which is made now."""
    yield p.ask("SYMLINK", b"d", top + b"/l")
    return top + b"/l/x"


def relative(_p, top):
    yield from ()
    return top.lstrip(b"/") + b"/d/x"


# The ways to a thing.
WAYS = [as_it_is(b"%s/d/x"), relative, by_link, as_it_is(b"%s/e/../d/x"), as_it_is(b"%s//d/./x"), moved]


def opened(p, path, thing, flags):
    """The handle of what is at a path, open in this way, or of a listing if it is a directory."""
    step = p.ask("OPENDIR", path) if thing in DIRECTORIES else p.ask("OPEN", path, flags, {})
    yield step
    return step


def alone(_p, _path, _thing):
    yield from ()
    return []


def open_to_read(p, path, thing):
    return [(yield from opened(p, path, thing, READ))]


def open_to_write(p, path, thing):
    step = yield from opened(p, path, thing, WRITE)
    if thing not in DIRECTORIES:
        yield p.ask("WRITE", step.opened(), 5, b"WRITE")
    return [step]


def open_twice(p, path, thing):
    first = yield from opened(p, path, thing, READ)
    second = yield from opened(p, path, thing, READ | WRITE)
    yield p.ask("CLOSE", second.opened())
    return [first]


def closed(p, path, thing):
    step = yield from opened(p, path, thing, READ)
    yield p.ask("CLOSE", step.opened())
    return []


def being_listed(p, path, _thing):
    step = p.ask("OPENDIR", path.rpartition(b"/")[0])
    yield step
    yield p.ask("READDIR", step.opened())
    return [step]


# The states of a handle. Each gives the steps that opened what is still open.
STATES = [alone, open_to_read, open_to_write, open_twice, closed, being_listed]


def by_path(name, *fields):
    """A request with the path, and these fields behind it."""
    def act(p, path, _top, _thing):
        yield p.ask(name, path, *(field(p) if callable(field) else field for field in fields))
    return act


def to_new(name):
    """A request that gives the thing another path."""
    def act(p, path, top, _thing):
        yield p.ask(name, path, top + b"/e/new")
        yield p.ask("LSTAT", top + b"/e/new")
    return act


def to_taken(name):
    """The same request, of another file, to the path of the thing."""
    def act(p, path, top, _thing):
        yield from made(p, top + b"/e/old", b"another file")
        yield p.ask(name, top + b"/e/old", path)
        yield p.ask("LSTAT", top + b"/e/old")
    return act


def link_at(p, path, _top, _thing):
    yield p.ask("SYMLINK", b"../e", path)


def by_open(flags):
    """An OPEN with these flags, a READ and a WRITE through what it gives, and a CLOSE."""
    def act(p, path, _top, _thing):
        step = p.ask("OPEN", path, flags, {})
        yield step
        yield p.ask("WRITE" if flags & WRITE else "READ", step.opened(), 3, b"open" if flags & WRITE else 20)
        yield p.ask("CLOSE", step.opened())
    return act


def through(name, *fields, flags=READ | WRITE):
    """A request through a handle of the thing, which is open for all, and an FSTAT of a file. Nothing is asked through
    the handle of another kind of thing where that is left out."""
    def act(p, path, _top, thing):
        is_of_kind = (thing in DIRECTORIES) == (name == "READDIR")
        if not is_of_kind and "WrongKind" in p.skip:
            return
        step = yield from opened(p, path, thing, flags)
        yield p.ask(name, step.opened(), *(field(p) if callable(field) else field for field in fields),
                    cause=None if is_of_kind else "WrongKind")
        if thing not in DIRECTORIES:
            yield p.ask("FSTAT", step.opened())
        yield p.ask("CLOSE", step.opened())
    return act


def listed(p, path, _top, _thing):
    step = p.ask("OPENDIR", path)
    yield step
    yield p.ask("READDIR", step.opened())
    yield p.ask("CLOSE", step.opened())


# The requests, each with a word for its scene, and the things that it is for.
REQUESTS = [
    ("open_to_read", by_open(READ), TO_FILES),
    ("open_to_empty", by_open(WRITE | CREAT | TRUNC), (*TO_FILES, nothing)),
    ("open_to_make", by_open(WRITE | CREAT | EXCL), (nothing,)),
    ("stat", by_path("STAT"), FOLLOWED),
    ("lstat", by_path("LSTAT"), NAMED),
    ("size", by_path("SETSTAT", {"size": 9}), TO_FILES),
    ("permissions", by_path("SETSTAT", {"permissions": 0o750}), FOLLOWED),
    ("times", by_path("SETSTAT", times), FOLLOWED),
    ("opendir", listed, DIRECTORIES),
    ("readlink", by_path("READLINK"), LINKS),
    ("realpath", by_path("REALPATH"), FOLLOWED),
    ("remove", by_path("REMOVE"), (*FILES, *LINKS)),
    ("rmdir", by_path("RMDIR"), (directory,)),
    ("mkdir", by_path("MKDIR", {}), (nothing,)),
    ("rename", to_new("RENAME"), NAMED),
    ("rename_to", to_taken("RENAME"), (nothing,)),
    ("posix_rename", to_new("POSIX-RENAME"), NAMED),
    ("posix_rename_to", to_taken("POSIX-RENAME"), (*FILES, *LINKS, nothing)),
    ("hardlink", to_new("HARDLINK"), FILES),
    ("hardlink_to", to_taken("HARDLINK"), (nothing,)),
    ("symlink", link_at, (nothing,)),
    ("read", through("READ", 2, 40), TO_FILES),
    ("write", through("WRITE", 4, b"through"), TO_FILES),
    ("fstat", through("FSTAT"), TO_FILES),
    ("fsetstat_size", through("FSETSTAT", {"size": 7}), TO_FILES),
    ("fsetstat_permissions", through("FSETSTAT", {"permissions": 0o705}), TO_FILES),
    ("fsync", through("FSYNC"), TO_FILES),
    ("readdir", through("READDIR"), DIRECTORIES),
]


def rows(number):
    """The rows of a request: things, with the places of a way and of a state."""
    fit = REQUESTS[number][2]
    found = [(fit[(place + number) % len(fit)], place % len(WAYS), (place + number) % len(STATES))
             for place in range(max(len(WAYS), len(fit)))]
    others = [thing for thing in THINGS if thing not in fit]
    return found + [(thing, (place + number) % len(WAYS), (2 * place + number) % len(STATES))
                    for place, thing in enumerate(others)]


def square(p, act, thing, way, state):
    """A row: the thing is made, opened and reached; the request is asked; and what is there then is looked at."""
    top = p.blank(b"square")
    for path in (top, top + b"/d", top + b"/e"):
        yield p.ask("MKDIR", path, {})
    yield from thing(p, top + b"/d/x", top)
    path = yield from way(p, top)
    held = yield from state(p, path, thing)
    yield from act(p, path, top, thing)
    yield from looked_at(p, path, thing)
    for step in held:
        yield p.ask("READDIR", step.opened()) if step.name == "OPENDIR" else p.ask("READ", step.opened(), 0, 100)
        yield p.ask("CLOSE", step.opened())
    yield from listed(p, path.rpartition(b"/")[0], top, thing)
    yield from read_besides(p, path, top, thing)


def looked_at(p, path, thing):
    """What a path shows, and its target or its bytes."""
    yield p.ask("LSTAT", path)
    yield p.ask("READLINK", path) if thing in LINKS else p.ask("STAT", path)
    if thing in TO_FILES:
        yield from read(p, path)


def read(p, path):
    """The bytes at a path: no file of a square has more."""
    step = p.ask("OPEN", path, READ, {})
    yield step
    yield p.ask("READ", step.opened(), 0, 100)
    yield p.ask("CLOSE", step.opened())


def read_besides(p, path, top, thing):
    """The bytes of each file of a row that `looked_at` did not read: the request may have made or moved it, or written
    to it where the path led before."""
    place = p.model.walk(path, True) if thing in TO_FILES else None
    seen = {p.model.at(place).number} if place and p.model.at(place) else set()
    for other in p.model.below((top[1:],)):
        entry = p.model.at(other)
        if entry.kind == FILE and entry.number not in seen:
            seen.add(entry.number)
            yield from read(p, b"/" + b"/".join(other))


def squares_of(number):
    """The scene of a request."""
    word, act, _ = REQUESTS[number]

    def squares(p):
        """A request on each kind of thing, by six ways to it, in six states of its handle."""
        for thing, way, state in rows(number):
            yield from square(p, act, thing, WAYS[way], STATES[state])
    return with_word(squares, word)


# How many seeds it takes to come again, and how far a scene comes behind the one before it.
PERIOD, APART = 49, 12

PERIODS = [("links", squares_of(number), PERIOD, APART * number) for number in range(len(REQUESTS))]
