"""Scenes that make sense: each gives its steps one after the other, and sees what was planned in between. Steps of
several scenes are mixed."""
from sftpv3 import codec
from sftpv3.probe.model import DIRECTORY, FILE

READ, WRITE, APPEND, CREAT, TRUNC, EXCL = (
    codec.READ, codec.WRITE, codec.APPEND, codec.CREAT, codec.TRUNC, codec.EXCL)


def looking(p):
    """STAT, LSTAT and REALPATH of anything."""
    for _ in range(p.random.randint(1, 3)):
        place = p.random.choice([p.file, p.directory, p.link, p.file])()
        yield p.ask(p.random.choice(["STAT", "LSTAT", "REALPATH"]), p.path(place))


def reading(p):
    """A file that is read, also past its end."""
    step = p.ask("OPEN", p.path(p.idle_file()), READ, {})
    yield step
    handle = step.opened()
    for _ in range(p.random.randint(1, 4)):
        yield p.ask("READ", handle, p.offset(), p.random.choice([0, 1, 4, 10, 100, 32768, 32768, 70000]))
    yield from using(p, handle)
    yield p.ask("CLOSE", handle)


def using(p, handle):
    """Sometimes an FSTAT or fsync."""
    if p.random.random() < 0.5:
        yield p.ask(p.random.choice(["FSTAT", "FSTAT", "FSYNC"]), handle)


def writing(p):
    """A file that is made or emptied, written and read."""
    new = p.random.random() < 0.6
    place = p.free() if new else p.idle_file()
    flags = p.random.choice([READ, 0]) | WRITE | p.random.choice([CREAT, CREAT | TRUNC, CREAT | EXCL if new else CREAT])
    step = p.ask("OPEN", p.path(place), flags, p.attributes())
    yield step
    handle = step.opened()
    for _ in range(p.random.randint(1, 4)):
        yield p.ask("WRITE", handle, p.offset_within(step), p.data())
        if flags & READ and p.random.random() < 0.5:
            yield p.ask("READ", handle, 0, p.random.choice([10, 30, 32768]))
    yield from using(p, handle)
    yield p.ask("CLOSE", handle)
    yield p.ask("STAT", p.path(place))


def appending(p):
    """What is written with APPEND goes to the end, whatever the offset is."""
    place = p.random.choice([p.idle_file, p.free])()
    step = p.ask("OPEN", p.path(place), p.random.choice([READ, 0]) | WRITE | APPEND | CREAT, {})
    yield step
    for _ in range(p.random.randint(1, 3)):
        yield p.ask("WRITE", step.opened(), p.offset(), p.data())
    yield from using(p, step.opened())
    yield p.ask("CLOSE", step.opened())
    again = p.ask("OPEN", p.path(place), READ, {})
    yield again
    yield p.ask("READ", again.opened(), p.offset(), 50)
    yield p.ask("CLOSE", again.opened())


def append_reading(p):
    """READs through the handle that is open with APPEND: they go by their offsets."""
    step = p.ask("OPEN", p.path(p.random.choice([p.idle_file, p.free])()), READ | WRITE | APPEND | CREAT, {})
    yield step
    for _ in range(p.random.randint(1, 3)):
        yield p.ask("WRITE", step.opened(), p.offset(), p.data())
        yield p.ask("READ", step.opened(), p.offset(), 50)
    yield p.ask("CLOSE", step.opened())


def overlapping(p):
    """READs and WRITEs of the same bytes through one handle, close together."""
    step = p.ask("OPEN", p.path(p.idle_file()), READ | WRITE, {})
    yield step
    yield from written_and_read(p, step, [step.opened()])
    yield p.ask("CLOSE", step.opened())


def two_handles(p):
    """READs and WRITEs of the same bytes through two handles of one file, close together."""
    place = p.file()
    steps = [p.ask("OPEN", p.path(place), flags, {}) for flags in (READ | WRITE, p.random.choice([READ, READ | WRITE]))]
    yield from steps
    yield from written_and_read(p, steps[0], [step.opened() for step in steps])
    for step in steps:
        yield p.ask("CLOSE", step.opened())


def written_and_read(p, step, handles):
    """WRITEs through the handle of this step, each with a READ behind it through one of these handles."""
    for _ in range(p.random.randint(2, 5)):
        yield p.ask("WRITE", step.opened(), min(p.random.choice([0, 1, 5]), p.size(step)), p.data())
        yield p.ask("READ", p.random.choice(handles), 0, p.random.choice([10, 30, 2000]))
        yield from using(p, p.random.choice(handles))


def leaving_gap(p):
    """A WRITE behind the end of a file, and READs before it, across it and in it: it is bytes of 0."""
    step = p.ask("OPEN", p.path(p.random.choice([p.idle_file, p.free])()), READ | WRITE | CREAT, {})
    yield step
    for _ in range(p.random.randint(1, 2)):
        size = p.size(step)
        yield p.ask("WRITE", step.opened(), size + p.random.choice([1, 5, 100, 40000]), p.data())
        yield p.ask("READ", step.opened(), max(size - p.random.choice([0, 0, 10]), 0), p.random.choice([3, 50, 32768]))
    yield from using(p, step.opened())
    yield p.ask("CLOSE", step.opened())


def setting(p):
    """Attributes that are set by path and by handle."""
    place = p.random.choice([p.file, p.file, p.directory])()
    entry = place is not None and p.model.at(place)
    choices = [{"permissions": p.random.choice([0o600, 0o644, 0o755, 0o1777, 0o4755, 0o100640])},
               {"owner": p.random.choice([(0, 0), (7, 8), (1000, 1000)])}, {"times": (10, 20)}, {},
               {"owner": (5, 6), "permissions": 0o750}]
    if entry and entry.kind == FILE:
        choices += [{"size": p.random.choice([0, 1, 10, 30, 1000])}] * 3
    yield p.ask("SETSTAT", p.path(place), p.random.choice(choices))
    yield p.ask("STAT", p.path(place))
    handle = p.handle(FILE, WRITE)
    if handle:
        yield p.ask("FSETSTAT", handle, p.random.choice(choices[:5] + [{"size": p.random.choice([0, 3, 50])}]))
        yield p.ask("FSTAT", handle)


def emptying(p):
    """A file that is open and gets emptied through another OPEN."""
    place = p.file()
    step = p.ask("OPEN", p.path(place), READ | WRITE, {})
    yield step
    yield p.ask("READ", step.opened(), 0, 10)
    other = p.ask("OPEN", p.path(place), WRITE | CREAT | TRUNC, {})
    yield other
    yield p.ask("READ", step.opened(), 0, 10)
    yield p.ask("WRITE", step.opened(), 5, b"xyz")
    yield p.ask("FSTAT", other.opened())
    yield p.ask("CLOSE", other.opened())
    yield p.ask("READ", step.opened(), 0, 10)
    yield p.ask("CLOSE", step.opened())


def removing(p):
    """A file that loses its name while it is open."""
    place = p.idle_file()
    step = p.ask("OPEN", p.path(place), READ | WRITE, {})
    yield step
    yield p.ask("REMOVE", p.path(place))
    yield p.ask("WRITE", step.opened(), p.offset_within(step), p.data())
    yield p.ask("READ", step.opened(), 0, 40)
    if p.random.random() < 0.5:
        yield p.ask("OPEN", p.path(place), WRITE | CREAT | EXCL, {})
    yield p.ask("FSTAT", step.opened())
    yield p.ask("CLOSE", step.opened())
    yield p.ask("STAT", p.path(place))


def naming(p):
    """A further name of a file: what is written through one name is read through the other."""
    old, new = p.idle_file(), p.free()
    yield p.ask("HARDLINK", p.path(old), p.path(new))
    one = p.ask("OPEN", p.path(old), WRITE, {})
    yield one
    yield p.ask("WRITE", one.opened(), p.offset_within(one), p.data())
    yield p.ask("CLOSE", one.opened())
    other = p.ask("OPEN", p.path(new), READ, {})
    yield other
    yield p.ask("READ", other.opened(), 0, 50)
    yield p.ask("REMOVE", p.path(old))
    yield p.ask("STAT", p.path(new))
    yield p.ask("CLOSE", other.opened())


def listing(p):
    """A directory that is listed in parts while names come and go."""
    place = (b"many",) if p.random.random() < 0.2 else p.directory()
    step = p.ask("OPENDIR", p.path(place))
    yield step
    for _ in range(p.random.randint(1, 3)):
        yield p.ask("READDIR", step.opened())
        if p.random.random() < 0.4:
            yield p.random.choice([adding, dropping])(p, place)
    yield p.ask("READDIR", step.opened())
    yield p.ask("CLOSE", step.opened())


def adding(p, place):
    """A name that is added to a directory."""
    path = p.path((place or ()) + (p.random.choice([b"a", b"b", b"new"]),))
    return p.random.choice([p.ask("MKDIR", path, {}), p.ask("OPEN", path, WRITE | CREAT, {})])


def dropping(p, place):
    """A name that is removed from a directory, if it has one."""
    names = [other for other in p.model.below(place or ()) if p.model.at(other).kind != DIRECTORY]
    return p.ask("REMOVE", p.path(p.random.choice(names) if names else None))


def listing_moved(p):
    """A directory that is renamed, or whose parent is, while it is listed."""
    inner = [place for place in p.model.of_kind(DIRECTORY) if place]
    place = p.random.choice(inner) if inner else ()
    step = p.ask("OPENDIR", p.path(place))
    yield step
    if p.random.random() < 0.3:
        yield p.ask("READDIR", step.opened())
    yield p.ask("RENAME", p.path(place[:p.random.randint(1, len(place))] if place else None), p.path(p.free()))
    yield p.ask("READDIR", step.opened())
    yield p.ask("READDIR", step.opened())
    yield p.ask("CLOSE", step.opened())


def making(p):
    """A directory that is made, filled, emptied and removed."""
    place = p.free()
    yield p.ask("MKDIR", p.path(place), p.attributes())
    yield p.ask("LSTAT", p.path(place))
    inside = place + (p.random.choice([b"a", b"b"]),)
    yield p.random.choice([p.ask("MKDIR", p.path(inside), {}), p.ask("SYMLINK", b"..", p.path(inside))])
    if p.model.at(inside) and p.model.at(inside).kind == DIRECTORY:
        yield p.ask("RMDIR", p.path(inside))
    else:
        yield p.ask("REMOVE", p.path(inside))
    yield p.ask("RMDIR", p.path(place))


def giving_away(p):
    """A file or a directory that is made for another user."""
    place, given = p.free(), {"owner": (7, 8), "permissions": 0o644}
    if p.random.random() < 0.3:
        yield p.ask("MKDIR", p.path(place), given)
    else:
        step = p.ask("OPEN", p.path(place), WRITE | p.random.choice([CREAT, CREAT | TRUNC, CREAT | EXCL]), given)
        yield step
        yield p.ask("CLOSE", step.opened())
    yield p.ask("STAT", p.path(place))


def linking(p):
    """A link that is made, read and followed."""
    place = p.free()
    aim = p.random.choice([p.file, p.directory, p.free])() or ()
    target = p.random.choice([p.path(aim), p.path(aim), b"..", b"x", b"a/b/c"])
    yield p.ask("SYMLINK", target, p.path(place))
    yield p.ask("READLINK", p.path(place))
    yield p.ask(p.random.choice(["STAT", "LSTAT", "REALPATH"]), p.path(place))
    yield p.ask(p.random.choice(["REMOVE", "STAT", "READLINK"]), p.path(place))


def moving(p):
    """Something that gets another place, and what is there then."""
    old = p.random.choice([p.file, p.link, p.directory])()
    old, new = old or None, p.free()
    yield p.ask(p.random.choice(["RENAME", "RENAME", "POSIX-RENAME"]), p.path(old), p.path(new))
    yield p.ask("LSTAT", p.path(new))
    yield p.ask("STAT", p.path(old))


def replacing(p):
    """Something that takes the place of another thing of its kind."""
    kind = p.random.choice([p.file, p.file, p.link])
    old, new = kind(), p.random.choice([p.file, p.link])()
    yield p.ask("POSIX-RENAME", p.path(old), p.path(new))
    yield p.ask("LSTAT", p.path(new))
    yield p.ask("LSTAT", p.path(old))


def replacing_directory(p):
    """A directory that takes the place of an empty one."""
    one, other = p.free(), p.free()
    yield p.ask("MKDIR", p.path(one), {})
    yield p.ask("MKDIR", p.path(other), {})
    yield p.ask("POSIX-RENAME", p.path(one), p.path(other))
    yield p.ask("STAT", p.path(one))
    yield p.ask("OPENDIR", p.path(other))


def through_nowhere(p):
    """A file that is made through a link that leads nowhere."""
    links = [place for place in p.model.of_kind("link") if not p.model.at(p.model.walk(b"/" + b"/".join(place), True))]
    place = p.random.choice(links) if links else None
    yield p.ask("OPEN", p.path(place), READ | WRITE | CREAT, {})
    yield p.ask("STAT", p.path(place))


def at_limits(p):
    """Offsets and sizes at the limits of numbers, through a handle."""
    step = p.ask("OPEN", p.path(p.idle_file()), READ | WRITE, {})
    yield step
    for _ in range(2):
        offset = p.random.choice([2 ** 31 - 1, 2 ** 31, 2 ** 32 - 1, 2 ** 32, 2 ** 63 - 1, 2 ** 63, 2 ** 64 - 1])
        yield p.ask("READ", step.opened(), offset, p.random.choice([0, 1, 2, 32768]))
    if p.random.random() < 0.2:
        yield p.ask("WRITE", step.opened(), 2 ** 24 - 1, b"e")
    yield p.ask("WRITE", step.opened(), p.random.choice([0, 2 ** 64 - 1]), b"")
    yield p.ask("CLOSE", step.opened())
