"""Scenes in which something takes a place: a directory that of another one, a file one at which nothing was found, and
what no RENAME may replace; and in which files and directories that were there at the start lose and get theirs."""
from sftpv3.probe.model import DIRECTORY, FILE
from sftpv3.probe.pairs import each_of
from sftpv3.probe.plans import Content
from sftpv3.probe.transfers import CREAT, EXCL, READ, WRITE, download, listing


def put(p, path, size, flags=WRITE | CREAT):
    """A file of one block, by as few requests as can be."""
    step = p.ask("OPEN", path, flags, {})
    yield step
    yield p.ask("WRITE", step.opened(), 0, Content(p.random, size).at(0, size))
    yield p.ask("CLOSE", step.opened())


def deploying(p):
    """A directory takes the place of another, as the new version of a site does: what is below it is that of the new
    one. One that replaces an empty directory keeps its permissions."""
    site, new, old = p.blank(b"site"), p.blank(b"site.new"), p.blank(b"site.old")
    for top, size in ((site, 90), (new, 140)):
        yield p.ask("MKDIR", top, {})
        yield from put(p, top + b"/page", size)
    if "owner" not in p.skip:
        yield p.ask("SETSTAT", new + b"/page", {"owner": (7, 8)})
    yield p.ask("STAT", site + b"/page")
    yield p.ask("RENAME", site, old)
    yield p.ask("RENAME", new, site)
    yield from download(p, site + b"/page", 140)
    yield p.ask("SETSTAT", site, {"permissions": 0o711})
    yield p.ask("MKDIR", new, {})
    yield p.ask("POSIX-RENAME", site, new)
    yield p.ask("LSTAT", new)


def finding_later(p):
    """What is made or put at a path at which nothing was found is there: files by OPEN and by RENAME, a directory."""
    path, moved, folder = p.blank(b"later"), p.blank(b"later.moved"), p.blank(b"later.d")
    for name in (path, moved):
        yield p.ask("OPEN", name, READ, {}, cause="NoEntry")
    yield from put(p, path, 80)
    yield from download(p, path, 80)
    yield p.ask("LSTAT", folder, cause="NoEntry")
    yield p.ask("MKDIR", folder, {})
    yield p.ask("LSTAT", folder)
    yield p.ask("RENAME", path, moved)
    yield from download(p, moved, 80)


def standing_apart(p):
    """RENAME makes no directory that its path lacks, replaces no directory and nothing by a link, and moves nothing to
    its own place."""
    file, folder, empty, absent = p.blank(b"apart"), p.blank(b"apart.d"), p.blank(b"apart.e"), p.blank(b"apart.not")
    link = p.blank(b"apart.link")
    yield from put(p, file, 30)
    for path in (folder, empty):
        yield p.ask("MKDIR", path, {})
    for name in ("RENAME", "POSIX-RENAME"):
        yield p.ask(name, file, absent + b"/in", cause="NoEntry")
    for old, new in ((folder, empty), (file, file), (folder, folder)):
        yield p.ask("RENAME", old, new, cause="Exists")
    for path in (folder, empty):
        yield p.ask("RMDIR", path)
    yield p.ask("SYMLINK", file[1:], link)
    for new in (file, link):
        yield p.ask("RENAME", link, new, cause="Exists")


def counting_names(p):
    """RMDIR leaves a directory in which something was made, put or named, and removes it once that was moved away."""
    file, folder, other = p.blank(b"counted"), p.blank(b"counted.d"), p.blank(b"counted.e")
    yield from put(p, file, 30)
    for path in (folder, other, folder + b"/in"):
        yield p.ask("MKDIR", path, {})
    yield p.ask("RMDIR", folder, cause="NotEmpty")
    yield p.ask("RENAME", folder + b"/in", other + b"/in")
    yield p.ask("STAT", other + b"/in/../in")
    yield p.ask("RMDIR", other, cause="NotEmpty")
    yield p.ask("RMDIR", folder)
    yield p.ask("POSIX-RENAME", other + b"/in", folder)
    yield p.ask("HARDLINK", file, other + b"/name")
    yield p.ask("RMDIR", other, cause="NotEmpty")
    yield p.ask("POSIX-RENAME", other + b"/name", folder + b"/name")
    yield p.ask("RMDIR", other)


def racing(p):
    """Two requests at once that want the same place, or to remove the same thing: the second has to be refused."""
    yield from each_of(p, RACES)


def opening_twice(p):
    """A file that is made twice."""
    path = p.blank(b"race")
    step = p.ask("OPEN", path, WRITE | CREAT | EXCL, {})
    yield step
    yield p.ask("OPEN", path, WRITE | CREAT | EXCL, {}, cause="Exists")
    yield p.ask("CLOSE", step.opened())


def making_twice(p):
    """A directory that is made twice, and removed twice."""
    folder = p.blank(b"race.d")
    for cause in (None, "Exists"):
        yield p.ask("MKDIR", folder, {}, cause=cause)
    for cause in (None, "NoEntry"):
        yield p.ask("RMDIR", folder, cause=cause)


def linking_twice(p):
    """A link that is made twice, and removed twice."""
    link = p.blank(b"race.link")
    for target, cause in ((b"one", None), (b"two", "Exists")):
        yield p.ask("SYMLINK", target, link, cause=cause)
    yield p.ask("READLINK", link)
    for cause in (None, "NoEntry"):
        yield p.ask("REMOVE", link, cause=cause)


def renaming_twice(p):
    """Two files that get one name."""
    files, new = [p.blank(b"race") for _ in range(2)], p.blank(b"race.new")
    for path, size in zip(files, (10, 20)):
        yield from put(p, path, size)
    for path, cause in zip(files, (None, "Exists")):
        yield p.ask("RENAME", path, new, cause=cause)
    yield p.ask("STAT", new)


# These, each with the feature that it needs, if it does, as in `pairs.PAIRS`.
RACES = {opening_twice: "two-handles", making_twice: None, linking_twice: "SYMLINK", renaming_twice: "rename-over"}


# The most bytes of a file of the start that is read whole, and the most names of a directory that is emptied.
MOST_BYTES, MOST_NAMES = 32_768, 5


def started_file(p):
    """A place of a file that was there at the start, has bytes, and was not changed since or is open, or None."""
    busy = {opened.number for opened in p.opened.values() if opened.kind == FILE}
    found = [place for place, size in p.model.unchanged_files()
             if 0 < size <= MOST_BYTES and p.model.at(place).number not in busy]
    return p.random.choice(sorted(found)) if found else None


def first_changes(p):
    """A file of the start that is open to read while it is written for the first time, and is then replaced, removed
    and made again."""
    place = started_file(p)
    if place is None:
        return
    path, part = b"/" + b"/".join(place), p.blank(b"first.part")
    if "two-handles" not in p.skip:
        reader, writer = (p.ask("OPEN", path, flags, {}) for flags in (READ, READ | WRITE))
        yield reader
        yield writer
        yield p.ask("WRITE", writer.opened(), 1, b"written")
        yield p.ask("READ", reader.opened(), 0, 100)
        for step in (reader, writer):
            yield p.ask("CLOSE", step.opened())
    yield from put(p, part, 3)
    yield p.ask("POSIX-RENAME", part, path)
    yield p.ask("REMOVE", path)
    yield p.ask("LSTAT", path, cause="NoEntry")
    yield from put(p, path, 3)
    yield p.ask("STAT", path)


def started_directory(p):
    """A directory that was there at the start with some names, and has no directories in it, or None."""
    found = [place for place, names in p.model.names_before.items() if place and 0 < len(names) <= MOST_NAMES
             and p.model.at(place) and p.model.at(place).kind == DIRECTORY
             and all(p.model.at(below).kind != DIRECTORY for below in p.model.below(place))]
    return p.random.choice(sorted(found)) if found else None


def made_again(p):
    """A directory of the start is removed with its names, and made again: none of them is in it."""
    place = started_directory(p)
    if place is None:
        return
    path = b"/" + b"/".join(place)
    for below in sorted(p.model.below(place)):
        yield p.ask("REMOVE", b"/" + b"/".join(below))
    yield p.ask("RMDIR", path)
    yield p.ask("MKDIR", path, {})
    yield from listing(p, path, 0)


# Each comes each so many seeds, first with that seed, as in `planner.PERIODS`.
PERIODS = [
    ("transfers", deploying, 9, 3),
    ("transfers", finding_later, 7, 5),
    ("transfers", standing_apart, 7, 1),
    ("transfers", counting_names, 7, 4),
    ("transfers", racing, 7, 6),
]

# The same of those that meet files and directories of the start, which only one planner knows.
OF_START = [("transfers", first_changes, 7, 3), ("transfers", made_again, 7, 5)]
