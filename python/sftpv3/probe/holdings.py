"""Scenes of what a file, a directory or a link keeps and shows: by a second handle, by its owner and permissions, in a
log, by unusual targets, and beside another file with the same bytes. Each has names of its own, as those of
transfers.py have."""
from sftpv3.probe.plans import Content
from sftpv3.probe.renewals import filled
from sftpv3.probe.takeovers import put
from sftpv3.probe.transfers import APPEND, CREAT, EXCL, READ, TRUNC, WRITE, download, listing


def seen_by_second(p):
    """A handle to read shows that the file gets longer by its path; and the path shows what another handle sets."""
    path, _, step = yield from filled(p, b"second", 1000)
    reader = p.ask("OPEN", path, READ, {})
    yield reader
    yield p.ask("SETSTAT", path, {"size": 1500})
    yield p.ask("FSTAT", reader.opened())
    yield p.ask("READ", reader.opened(), 900, 1000)
    yield p.ask("STAT", path)
    yield p.ask("FSETSTAT", step.opened(), {"permissions": 0o640})
    yield p.ask("STAT", path)
    for one in (step, reader):
        yield p.ask("CLOSE", one.opened())


def keeping_log(p):
    """Lines that are the same go to the end of a log, each once, whatever else its OPEN asks for; a handle goes on with
    the log that got another name."""
    path, old, line = p.blank(b"lines"), p.blank(b"lines.1"), b"the same line\n"
    for flags in (EXCL, TRUNC):
        step = p.ask("OPEN", path, WRITE | CREAT | APPEND | flags, {})
        yield step
        for _ in range(2):
            yield p.ask("WRITE", step.opened(), 0, line)
        yield p.ask("FSTAT", step.opened())
        if flags == EXCL:
            yield p.ask("CLOSE", step.opened())
    yield p.ask("RENAME", path, old)
    new = p.ask("OPEN", path, WRITE | CREAT | APPEND, {})
    yield new
    for one in (step, new):
        yield p.ask("WRITE", one.opened(), 0, b"a line more\n")
        yield p.ask("FSTAT", one.opened())
        yield p.ask("CLOSE", one.opened())
    yield from download(p, old, 40)


def owning(p):
    """A file of another user stays that user's when it is emptied, and when it gets another name; what replaces it is
    not; an owner and permissions at once; an owner by a link is that of the file."""
    path, new, part, link = p.blank(b"owned"), p.blank(b"owned.new"), p.blank(b"owned.part"), p.blank(b"owned.link")
    for name in (path, part):
        yield from put(p, name, 30)
    yield p.ask("SETSTAT", path, {"owner": (7, 8)})
    step = p.ask("OPEN", path, WRITE | CREAT | TRUNC, {})
    yield step
    yield p.ask("FSTAT", step.opened())
    yield p.ask("CLOSE", step.opened())
    yield p.ask("RENAME", path, new)
    yield p.ask("LSTAT", new)
    yield p.ask("POSIX-RENAME", part, new)
    yield p.ask("LSTAT", new)
    yield p.ask("SETSTAT", new, {"owner": (7, 8), "permissions": 0o4755})
    yield p.ask("LSTAT", new)
    yield p.ask("REMOVE", new)
    step = p.ask("OPEN", new, WRITE | CREAT, {})
    yield step
    yield p.ask("FSTAT", step.opened())
    yield p.ask("CLOSE", step.opened())
    yield p.ask("SYMLINK", new[1:], link)
    yield p.ask("SETSTAT", link, {"owner": (5, 6)})
    yield p.ask("LSTAT", new)


def making_with_modes(p):
    """New files with permissions of no one, and with none to write; and a directory that gets and loses the bit of its
    group."""
    folder, path, other = p.blank(b"mode.d"), p.blank(b"mode.none"), p.blank(b"mode.read")
    more = {} if "extended-pairs" in p.skip else {"extended": [(b"note@example.org", b"\0\1")]}
    yield p.ask("MKDIR", folder, {})
    for given in ({"permissions": 0o2755}, {"permissions": 0o755, **more}):
        yield p.ask("SETSTAT", folder, given)
        yield p.ask("LSTAT", folder)
    for name, mode in ((other, 0o444), (path, 0)):
        step = p.ask("OPEN", name, WRITE | CREAT | EXCL, {"permissions": mode})
        yield step
        yield p.ask("WRITE", step.opened(), 0, b"written")
        yield p.ask("FSTAT", step.opened())
        yield p.ask("CLOSE", step.opened())


def leading_round(p):
    """A link to `.`, and another one in its place; links to each other; a relative link that gets another directory, by
    which a file is emptied."""
    top, inner, file = p.blank(b"round"), b"/in", b"/file"
    ring = [p.blank(b"round.ring") for _ in range(2)]
    yield p.ask("MKDIR", top, {})
    yield p.ask("MKDIR", top + inner, {})
    for path, size in ((top + file, 70), (top + inner + file, 40)):
        yield from put(p, path, size)
    for target, name in ((b".", b"/self"), (b"file", b"/near")):
        yield p.ask("SYMLINK", target, top + name)
    yield p.ask("STAT", top + b"/self/file")
    yield p.ask("REALPATH", top + b"/self")
    yield p.ask("REMOVE", top + b"/self")
    yield p.ask("SYMLINK", b"in", top + b"/self")
    yield p.ask("REALPATH", top + b"/self")
    yield p.ask("RENAME", top + b"/near", top + inner + b"/near")
    yield p.ask("STAT", top + inner + b"/near")
    for link, aim in (ring, ring[::-1]):
        yield p.ask("SYMLINK", aim[1:], link)
    yield p.ask("STAT", ring[0], cause="Loop")
    yield from put(p, top + inner + b"/near", 20, WRITE | CREAT | TRUNC)
    yield p.ask("LSTAT", top + inner + b"/near")
    yield p.ask("LSTAT", top + inner + file)


def twins(p):
    """Two files with the same bytes, and one that begins like them, are each a file of its own; blocks of ones; and
    sizes that are whole blocks of 64 KiB."""
    paths, content = [p.blank(b"same") for _ in range(3)], Content(p.random, 4000)
    data = content.at(0, 4000)
    for path, written in zip(paths, (data, data, data[:3000] + content.at(9, 1000))):
        step = p.ask("OPEN", path, READ | WRITE | CREAT | TRUNC, {})
        yield step
        yield p.ask("WRITE", step.opened(), 0, written)
        yield p.ask("WRITE", step.opened(), 500 if path == paths[1] else 4000, content.at(77, 200))
        yield p.ask("CLOSE", step.opened())
    for path in (paths[0], paths[2]):
        yield from download(p, path, 4200)
    step = p.ask("OPEN", paths[0], READ | WRITE, {})
    yield step
    yield p.ask("WRITE", step.opened(), 1000, b"\xff" * 1500)
    yield p.ask("READ", step.opened(), 900, 2000)
    for size in (131_072, 65_536):
        yield p.ask("FSETSTAT", step.opened(), {"size": size})
        yield p.ask("FSTAT", step.opened())
    yield p.ask("CLOSE", step.opened())


def seen_by_link(p):
    """What is listed and read by a path through a link, and by another name of a file, once other paths changed it; and
    what is looked at by a path that is spelled in another way."""
    top, link, name = p.blank(b"by"), p.blank(b"by.link"), p.blank(b"by.name")
    yield p.ask("MKDIR", top, {})
    yield p.ask("SYMLINK", top[1:], link)
    yield from put(p, top + b"/file", 200)
    yield p.ask("HARDLINK", top + b"/file", name)
    yield from looked_through(p, link, name, top)
    step = p.ask("OPEN", top + b"/file", WRITE, {})
    yield step
    yield p.ask("WRITE", step.opened(), 50, bytes(range(100)))
    yield p.ask("CLOSE", step.opened())
    yield p.ask("MKDIR", top + b"/more", {})
    yield p.ask("SETSTAT", top + b"/file", {"permissions": 0o640})
    yield from looked_through(p, link, name, top)


def looked_through(p, link, name, top):
    """A listing by the link, READs by both names, and a STAT."""
    yield from listing(p, link, 2)
    for path in (link + b"/file", name):
        step = p.ask("OPEN", path, READ, {})
        yield step
        yield p.ask("READ", step.opened(), 0, 1000)
        yield p.ask("CLOSE", step.opened())
    yield p.ask("STAT", top.replace(b"/", b"//") + b"/./file")


# Names that systems and programs have for files of their own.
OF_SYSTEMS = [b"._file", b".DS_Store", b"Thumbs.db", b"desktop.ini", b".wh.file", b".nfs0001", b".fuse_hidden0001",
              b"lost+found"]


def names_of_systems(p):
    """Names that systems have for files of their own are names like others."""
    top = p.blank(b"systems")
    yield p.ask("MKDIR", top, {})
    for name in OF_SYSTEMS:
        yield p.ask("MKDIR", top + b"/" + name, {})
    yield from listing(p, top, len(OF_SYSTEMS))
    yield p.ask("RMDIR", top, cause="NotEmpty")
    for name in OF_SYSTEMS:
        yield p.ask("RMDIR", top + b"/" + name)
    yield p.ask("RMDIR", top)


# Each comes each so many seeds, first with that seed, as in `planner.PERIODS`.
PERIODS = [
    ("transfers", seen_by_second, 7, 1),
    ("transfers", keeping_log, 7, 4),
    ("transfers", owning, 7, 0),
    ("transfers", making_with_modes, 7, 6),
    ("links", leading_round, 9, 2),
    ("transfers", twins, 9, 3),
    ("links", seen_by_link, 9, 5),
    ("unusual-names", names_of_systems, 7, 0),
]
