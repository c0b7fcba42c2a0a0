"""Pairs of requests that depend on each other and come one behind the other, which a server with many in flight may not
exchange. Each pair has a file or a directory of its own, and stands where no request waits for another's reply."""
from sftpv3.probe.plans import Content
from sftpv3.probe.transfers import APPEND, CREAT, READ, TRUNC, WRITE, listing


def side_by_side(p):
    """Pairs of requests of which the second depends on the one just before it, in any order."""
    yield from each_of(p, PAIRS)


def of_places(p):
    """Pairs of requests of which one takes something from a place, or puts it there, and the other goes there."""
    yield from each_of(p, OF_PLACES)


def of_names(p):
    """Pairs of requests of which the first makes a name, and the second lists it, or takes it for another."""
    yield from each_of(p, OF_NAMES)


def each_of(p, pairs):
    pairs = [pair for pair, feature in pairs.items() if feature not in p.skip]
    for pair in p.random.sample(pairs, len(pairs)):
        yield from pair(p)


def filled(p, flags=READ | WRITE):
    """A file of 600 bytes that is open. Gives its path, its content and the OPEN."""
    path, content = p.blank(b"pair"), Content(p.random, 600)
    step = p.ask("OPEN", path, flags | WRITE | CREAT | TRUNC, {})
    yield step
    yield p.ask("WRITE", step.opened(), 0, content.at(0, 600))
    return path, content, step


def set_and_set(p):
    """Two SETSTATs of one thing: the second holds."""
    path, _, step = yield from filled(p)
    for name, value in (("permissions", p.random.sample([0o600, 0o640, 0o604], 2)), ("size", [700, 300])):
        for one in value:
            yield p.ask("SETSTAT", path, {name: one})
    yield p.ask("STAT", path)
    yield p.ask("CLOSE", step.opened())


def trunc_and_set(p):
    """A file is emptied, and then given a length, and the other way round."""
    path, _, step = yield from filled(p)
    yield p.ask("OPEN", path, WRITE | CREAT | TRUNC, {})
    yield p.ask("SETSTAT", path, {"size": 50})
    yield p.ask("STAT", path)
    yield p.ask("SETSTAT", path, {"size": 60})
    yield p.ask("OPEN", path, WRITE | CREAT | TRUNC, {})
    yield p.ask("STAT", path)
    yield p.ask("CLOSE", step.opened())


def read_and_trunc(p):
    """A file is read, and then emptied or cut by its path."""
    path, _, step = yield from filled(p)
    yield p.ask("READ", step.opened(), 0, 100)
    yield p.ask("SETSTAT", path, {"size": 40})
    yield p.ask("READ", step.opened(), 0, 100)
    yield p.ask("OPEN", path, WRITE | CREAT | TRUNC, {})
    yield p.ask("READ", step.opened(), 0, 100)
    yield p.ask("CLOSE", step.opened())


def cut_and_read(p):
    """A file is cut, or made longer, through the handle, and then read through it."""
    _, _, step = yield from filled(p)
    for size in (200, 500, 20):
        yield p.ask("FSETSTAT", step.opened(), {"size": size})
        yield p.ask("READ", step.opened(), 0, 1000)
    yield p.ask("CLOSE", step.opened())


def write_and_look(p):
    """A WRITE through one handle, and an FSTAT or a READ through another of the file."""
    path, content, step = yield from filled(p)
    other = p.ask("OPEN", path, READ, {})
    yield other
    yield p.ask("STAT", path)
    for size in (600, 650):
        yield p.ask("WRITE", step.opened(), size, content.at(size, 50))
        yield p.ask("FSTAT", other.opened())
    yield p.ask("WRITE", step.opened(), 3, content.at(9, 50))
    yield p.ask("READ", other.opened(), 0, 60)
    for one in (step, other):
        yield p.ask("CLOSE", one.opened())


def name_and_look(p):
    """A name that HARDLINK makes, and what is asked of it."""
    path, _, step = yield from filled(p)
    for name in ("STAT", "LSTAT", "OPEN"):
        other = p.blank(b"pair.other")
        yield p.ask("HARDLINK", path, other)
        yield p.ask(name, other, *([READ, {}] if name == "OPEN" else []))
    yield p.ask("CLOSE", step.opened())


def link_and_remove(p):
    """A link that is made and removed, or made and read."""
    path = p.blank(b"pair.link")
    for name in ("REMOVE", "READLINK", "LSTAT"):
        yield p.ask("SYMLINK", b"aim", path)
        yield p.ask(name, path)
    yield p.ask("REMOVE", path)
    yield p.ask("LSTAT", path)


def rename_and_look(p):
    """A link to a file gets another name, and that is asked where it leads; the file gets one, and is looked at."""
    path, _, step = yield from filled(p)
    links = [p.blank(b"pair.link") for _ in range(3)]
    yield p.ask("SYMLINK", path, links[0])
    for name, old, new in (("RENAME", *links[:2]), ("POSIX-RENAME", *links[1:])):
        yield p.ask(name, old, new)
        yield p.ask("REALPATH", new)
    new = p.blank(b"pair.new")
    yield p.ask("RENAME", path, new)
    yield p.ask("STAT", new)
    yield p.ask("FSTAT", step.opened())
    yield p.ask("STAT", path)
    yield p.ask("CLOSE", step.opened())


def change_and_list(p):
    """A name is made in a directory or removed from it, and then that is listed."""
    top = p.blank(b"pair.top")
    yield p.ask("MKDIR", top, {})
    yield p.ask("MKDIR", top + b"/a", {})
    yield from listing(p, top, 1)
    yield p.ask("SYMLINK", b"aim", top + b"/b")
    yield from listing(p, top, 2)
    yield p.ask("REMOVE", top + b"/b")
    yield from listing(p, top, 1)
    yield p.ask("RMDIR", top + b"/a")
    yield from listing(p, top, 0)


def append_and_append(p):
    """Two WRITEs through two handles with APPEND, and a STAT of the file."""
    path, content, step = yield from filled(p, APPEND)
    other = p.ask("OPEN", path, WRITE | APPEND, {})
    yield other
    yield p.ask("STAT", path)
    for one, count in ((step, 7), (other, 9), (step, 100), (other, 1)):
        yield p.ask("WRITE", one.opened(), 0, content.at(count, count))
    yield p.ask("STAT", path)
    for one in (step, other):
        yield p.ask("CLOSE", one.opened())


def rename_and_make(p):
    """A file gets another name, as a log does, and a new one is made by its old name, three times; the same of a
    directory."""
    path, _, step = yield from filled(p)
    folder, other, logs = p.blank(b"pair.top"), p.blank(b"pair.top"), [step]
    yield p.ask("STAT", path)
    for _ in range(3):
        yield p.ask("RENAME", path, p.blank(b"pair.log"))
        fresh = p.ask("OPEN", path, WRITE | CREAT, {})
        yield fresh
        yield p.ask("WRITE", fresh.opened(), 0, b"a new log")
        logs.append(fresh)
    yield p.ask("STAT", path)
    for one in logs:
        yield p.ask("CLOSE", one.opened())
    yield p.ask("MKDIR", folder, {})
    yield p.ask("MKDIR", folder + b"/in", {})
    yield p.ask("RENAME", folder, other)
    yield p.ask("MKDIR", folder, {})
    yield p.ask("STAT", other + b"/in")
    yield p.ask("RMDIR", folder)
    yield p.ask("MKDIR", folder, {"permissions": 0o700})
    yield p.ask("STAT", folder)


def rename_and_set(p):
    """A file gets another name, and then permissions, by that; it gets two names one after the other."""
    path, _, step = yield from filled(p)
    names = [p.blank(b"pair.name") for _ in range(3)]
    yield p.ask("RENAME", path, names[0])
    yield p.ask("SETSTAT", names[0], {"permissions": 0o640})
    yield p.ask("STAT", names[0])
    yield p.ask("RENAME", names[0], names[1])
    yield p.ask("RENAME", names[1], names[2])
    yield p.ask("STAT", names[2])
    yield p.ask("HARDLINK", names[2], path)
    yield p.ask("REMOVE", names[2])
    yield p.ask("STAT", path)
    yield p.ask("CLOSE", step.opened())


def open_and_replace(p):
    """A file is opened, and then replaced or removed: the handle has the old one."""
    path, content, step = yield from filled(p)
    part = p.blank(b"pair.part")
    made = p.ask("OPEN", part, WRITE | CREAT, {})
    yield made
    yield p.ask("WRITE", made.opened(), 0, content.at(5, 40))
    for one in (made, step):
        yield p.ask("CLOSE", one.opened())
    old = p.ask("OPEN", path, READ, {})
    yield old
    yield p.ask("POSIX-RENAME", part, path)
    yield p.ask("READ", old.opened(), 0, 1000)
    fresh = p.ask("OPEN", part, READ | WRITE | CREAT, {})
    yield fresh
    yield p.ask("REMOVE", part)
    yield p.ask("LSTAT", part)
    for one in (old, fresh):
        yield p.ask("CLOSE", one.opened())


def make_and_list(p):
    """A file that OPEN makes in a directory, or permissions that it gets, and then a listing of that."""
    top = p.blank(b"pair.top")
    yield p.ask("MKDIR", top, {})
    fresh = p.ask("OPEN", top + b"/new", WRITE | CREAT, {})
    yield fresh
    yield from listing(p, top, 1)
    yield p.ask("SETSTAT", top + b"/new", {"permissions": 0o604})
    yield from listing(p, top, 1)
    yield p.ask("CLOSE", fresh.opened())


def remove_and_put(p):
    """A file is removed, and another gets its path, as where there is no posix-rename; a link is replaced, and read."""
    path, _, step = yield from filled(p)
    other, links = p.blank(b"pair.other"), [p.blank(b"pair.link") for _ in range(2)]
    fresh = p.ask("OPEN", other, WRITE | CREAT, {})
    yield fresh
    yield p.ask("REMOVE", path)
    yield p.ask("RENAME", other, path)
    for one in (fresh, step):
        yield p.ask("CLOSE", one.opened())
    for link, target in zip(links, (b"old", b"new")):
        yield p.ask("SYMLINK", target, link)
    yield p.ask("POSIX-RENAME", links[1], links[0])
    yield p.ask("READLINK", links[0])


# The pairs, each with the feature that it needs, if it does.
PAIRS = {
    set_and_set: None, cut_and_read: None, link_and_remove: None, rename_and_look: None, change_and_list: None,
    trunc_and_set: "two-handles", read_and_trunc: "two-handles", write_and_look: "two-handles",
    name_and_look: "two-handles", append_and_append: "append",
}

OF_PLACES = {rename_and_make: None, rename_and_set: None, open_and_replace: None}

OF_NAMES = {make_and_list: None, remove_and_put: None}
