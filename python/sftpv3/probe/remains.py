"""Scenes that look at what remains: where something else was at a path before, in what moved to another directory, by
another path than that of the change, of files that were read before, and where a request had to be refused. Each has
names of its own, as those of transfers.py have."""
import struct
import zlib

from sftpv3.probe import pairs
from sftpv3.probe.plans import Content
from sftpv3.probe.renewals import filled
from sftpv3.probe.transfers import APPEND, CREAT, EXCL, READ, TRUNC, WRITE, download, listing, upload


def changing_kind(p):
    """A path at which there is a file, then a directory with names, which is removed and made again, then files that
    OPEN, RENAME and HARDLINK put there; and a link where a directory comes."""
    path, other = p.blank(b"kind"), p.blank(b"kind.other")
    for name in (path, other):
        yield from upload(p, name, Content(p.random, 90))
    yield p.ask("REMOVE", path)
    yield p.ask("MKDIR", path, {})
    yield from upload(p, path + b"/one", Content(p.random, 10))
    yield p.ask("MKDIR", path + b"/two", {})
    yield p.ask("REMOVE", path + b"/one")
    for name in (path + b"/two", path):
        yield p.ask("RMDIR", name)
    yield p.ask("MKDIR", path, {})
    yield from listing(p, path, 0)
    yield p.ask("LSTAT", path + b"/one", cause="NoEntry")
    yield p.ask("RMDIR", path)
    yield from upload(p, path, Content(p.random, 70), WRITE | CREAT | EXCL)
    yield p.ask("REMOVE", path)
    yield p.ask("RENAME", other, path)
    yield p.ask("HARDLINK", path, other)
    yield p.ask("REMOVE", path)
    yield p.ask("HARDLINK", other, path)
    yield p.ask("STAT", path)
    yield p.ask("REMOVE", other)
    yield p.ask("SYMLINK", path[1:], other)
    yield p.ask("REMOVE", other)
    yield p.ask("MKDIR", other, {})
    yield p.ask("LSTAT", other)


def moving_across(p):
    """A file with two names, which is open, and a directory with a file of two names, go to another directory."""
    top, new, names = p.blank(b"from"), p.blank(b"to"), [p.blank(b"from.name") for _ in range(2)]
    files, content = [top + b"/file", top + b"/tree/file"], Content(p.random, 5000)
    for path in (top, new, top + b"/tree"):
        yield p.ask("MKDIR", path, {})
    for path, name in zip(files, names):
        yield from upload(p, path, Content(p.random, 3000))
        yield p.ask("HARDLINK", path, name)
    step = p.ask("OPEN", files[0], READ | WRITE, {})
    yield step
    yield p.ask("RENAME", files[0], new + b"/moved")
    yield p.ask("WRITE", step.opened(), 100, content.at(0, 500))
    yield p.ask("SETSTAT", names[0], {"permissions": 0o640})
    yield p.ask("STAT", new + b"/moved")
    yield p.ask("CLOSE", step.opened())
    yield from download(p, new + b"/moved", 3000)
    yield p.ask("RENAME", top + b"/tree", new + b"/tree")
    step = p.ask("OPEN", names[1], WRITE, {})
    yield step
    yield p.ask("WRITE", step.opened(), 2900, content.at(7, 400))
    yield p.ask("CLOSE", step.opened())
    yield from download(p, new + b"/tree/file", 3300)


def moving_above(p):
    """A directory gets another name while a file below it is open, which is then written, cut, set and shown."""
    top, new, content = p.blank(b"above"), p.blank(b"above.new"), Content(p.random, 2000)
    for path in (top, top + b"/in"):
        yield p.ask("MKDIR", path, {})
    yield from upload(p, top + b"/in/file", Content(p.random, 900))
    step = p.ask("OPEN", top + b"/in/file", READ | WRITE, {})
    yield step
    yield p.ask("RENAME", top, new)
    yield p.ask("WRITE", step.opened(), 800, content.at(0, 700))
    yield p.ask("FSETSTAT", step.opened(), {"permissions": 0o640})
    yield p.ask("FSETSTAT", step.opened(), {"size": 1400})
    yield p.ask("FSTAT", step.opened())
    yield p.ask("READ", step.opened(), 700, 2000)
    yield p.ask("CLOSE", step.opened())
    yield from download(p, new + b"/in/file", 1400)


def seen_by_others(p):
    """What is seen through a link to a directory, once a path without the link changed it; what is there where nothing
    was found before; and a file that is moved to its own place, and a directory into itself, through the link."""
    top, link = p.blank(b"way"), p.blank(b"way.link")
    yield p.ask("MKDIR", top, {})
    yield p.ask("SYMLINK", top[1:], link)
    yield from upload(p, top + b"/file", Content(p.random, 200))
    yield from looked_at(p, link)
    step = p.ask("OPEN", top + b"/file", WRITE, {})
    yield step
    yield p.ask("WRITE", step.opened(), 150, bytes(range(100)))
    yield p.ask("CLOSE", step.opened())
    yield p.ask("SETSTAT", top + b"/file", {"permissions": 0o640})
    for name, old, new in (("HARDLINK", top + b"/file", top + b"/name"), ("SYMLINK", b"file", top + b"/link"),
                           ("POSIX-RENAME", top + b"/name", top + b"/moved")):
        yield p.ask("LSTAT", new, cause="NoEntry")
        yield p.ask(name, old, new)
        yield p.ask("LSTAT", new)
    yield p.ask("MKDIR", top + b"/more", {})
    yield from looked_at(p, link)
    yield from listing(p, link, 4)
    yield p.ask("POSIX-RENAME", link + b"/file", top + b"/file")
    yield p.ask("STAT", top + b"/file")
    yield p.ask("RENAME", top, link + b"/inside", cause="Inside")
    yield p.ask("LSTAT", top)


def looked_at(p, top):
    """LSTAT of four names in a directory."""
    for name in (b"/file", b"/moved", b"/more", b"/link"):
        yield p.ask("LSTAT", top + name)


def refusing(p):
    """Requests that have to be refused, and leave a file, a directory without names, and one with a link that leads
    nowhere."""
    file, folder, absent = p.blank(b"stays"), p.blank(b"stays.d"), p.blank(b"stays.not")
    yield from upload(p, file, Content(p.random, 400))
    yield p.ask("MKDIR", folder, {})
    yield p.ask("POSIX-RENAME", absent, file, cause="NoEntry")
    yield p.ask("POSIX-RENAME", file, folder, cause="IsDir")
    yield p.ask("OPEN", file + b"/in", WRITE | CREAT | p.random.choice([0, TRUNC, EXCL]), {}, cause="NotDir")
    yield p.ask("OPEN", file, p.random.choice([READ | TRUNC, READ | CREAT | TRUNC, WRITE | TRUNC]), {},
                cause="BadFlags")
    yield p.ask("LSTAT", file)
    yield p.ask("REMOVE", folder, cause="IsDir")
    yield p.ask("LSTAT", folder)
    other = p.blank(b"stays.other")
    yield p.ask("HARDLINK", file, other)
    yield p.ask("RENAME", file, other, cause="Exists")
    yield p.ask("LSTAT", file)
    yield p.ask("SYMLINK", absent[1:], folder + b"/nowhere")
    yield p.ask("RMDIR", folder, cause="NotEmpty")
    yield p.ask("LSTAT", folder + b"/nowhere")
    yield p.ask("REMOVE", folder + b"/nowhere")
    yield p.ask("LSTAT", folder)


def guarding(p):
    """A file that its owner may not write gets another name, is replaced, and is removed: that is up to the directory
    alone."""
    path, new, part = p.blank(b"guarded"), p.blank(b"guarded.new"), p.blank(b"guarded.part")
    for name in (path, part):
        yield from upload(p, name, Content(p.random, 50))
        yield p.ask("SETSTAT", name, {"permissions": 0o444})
    yield p.ask("RENAME", path, new)
    yield p.ask("POSIX-RENAME", part, new)
    yield p.ask("LSTAT", new)
    yield p.ask("REMOVE", new)
    yield p.ask("LSTAT", new, cause="NoEntry")


# How many names a page of a listing has in some servers, or a multiple of that; and the two dots.
PAGE, DOTS = 128, 2


def full_pages(p):
    """A directory of as many names as whole pages have, without dots and with them."""
    if not p.has_room(PAGE + 20):
        return
    top = p.blank(b"pages")
    yield p.ask("MKDIR", top, {})
    for number in range(PAGE):
        yield p.ask("MKDIR", top + b"/%03d" % number, {})
    yield from listing(p, top, PAGE)
    for number in p.random.sample(range(PAGE), DOTS):
        yield p.ask("RMDIR", top + b"/%03d" % number)
    yield from listing(p, top, PAGE - DOTS)


def filling(p):
    """Zeros between other bytes of one WRITE, over other bytes; and gaps that are read, and then filled."""
    path, content, step = yield from filled(p, b"filled", 30_000)
    yield p.ask("WRITE", step.opened(), 3000, content.at(0, 3000) + bytes(9000) + content.at(9, 100))
    yield p.ask("READ", step.opened(), 2000, 20_000)
    yield p.ask("WRITE", step.opened(), 50_000, content.at(5, 1000))
    yield p.ask("READ", step.opened(), 29_000, 22_000)
    yield p.ask("WRITE", step.opened(), 40_000, content.at(3, 5000))
    yield p.ask("READ", step.opened(), 39_000, 12_000)
    yield p.ask("FSETSTAT", step.opened(), {"size": 60_000})
    yield p.ask("READ", step.opened(), 50_900, 10_000)
    yield p.ask("WRITE", step.opened(), 55_000, content.at(8, 700))
    yield p.ask("READ", step.opened(), 54_000, 10_000)
    yield p.ask("CLOSE", step.opened())
    yield from download(p, path, 60_000)


def cutting_log(p):
    """A log that is copied away and emptied, or cut, while a handle with APPEND goes on."""
    path, content, step = yield from filled(p, b"rotated", 500, APPEND)
    for size in (0, 20):
        yield p.ask("SETSTAT", path, {"size": size})
        yield p.ask("WRITE", step.opened(), 500, content.at(size, 60))
        yield p.ask("STAT", path)
    yield p.ask("FSETSTAT", step.opened(), {"size": 50})
    yield p.ask("WRITE", step.opened(), 0, content.at(3, 30))
    yield p.ask("FSTAT", step.opened())
    yield p.ask("CLOSE", step.opened())
    yield from download(p, path, 80)


def alike_in_size(p):
    """A file that is read, and replaced, or removed and made anew, by one of as many bytes, and read again."""
    path, part, size = p.blank(b"edition"), p.blank(b"edition.part"), p.random.choice([700, 3000])
    yield from upload(p, path, Content(p.random, size))
    yield from download(p, path, size)
    yield from upload(p, part, Content(p.random, size))
    yield p.ask("POSIX-RENAME", part, path)
    yield from download(p, path, size)
    yield p.ask("REMOVE", path)
    yield from upload(p, path, Content(p.random, size))
    yield from download(p, path, size)


def packed(data):
    """An archive of gzip, with the data as it is."""
    block = b"\1" + struct.pack("<HH", len(data), len(data) ^ 0xFFFF) + data
    return b"\x1f\x8b\x08" + bytes(7) + block + struct.pack("<II", zlib.crc32(data), len(data))


# Files that some servers take for more than bytes, by what is in them or by their names.
TEXTS = [
    (b"notes.txt", b"one line\nand another  \n" + b"words " * 20 + b"\n\n\tlast, without an end"),
    (b"from-dos.txt", b"one line\r\nand another\r\n"),
    (b"ended.txt", b"a line\nand the sign for the end\x1aand what is behind it\n"),
    (b"marked.csv", b"\xef\xbb\xbfname,size\ncaf\xc3\xa9,3\n"),
    (b"latin.txt", b"caf\xe9 cr\xe8me\nand na\xefve\n"),
    (b"packed.gz", packed(b"what is in the archive\n" * 3)),
]


def plain_texts(p):
    """Texts with the ends of lines of two systems, blanks before one, a long line, a mark of UTF-8, a sign for the end
    and letters of Latin-1, and an archive: each stays as it is."""
    top = p.blank(b"texts")
    yield p.ask("MKDIR", top, {})
    for name, data in TEXTS:
        path = top + b"/" + name
        step = p.ask("OPEN", path, WRITE | CREAT | TRUNC, {})
        yield step
        yield p.ask("WRITE", step.opened(), 0, data)
        yield p.ask("CLOSE", step.opened())
        yield from download(p, path, len(data))


# Each comes each so many seeds, first with that seed, as in `planner.PERIODS`.
PERIODS = [
    ("transfers", changing_kind, 9, 2),
    ("transfers", moving_across, 7, 1),
    ("transfers", moving_above, 7, 3),
    ("links", seen_by_others, 7, 5),
    ("transfers", refusing, 5, 2),
    ("transfers", guarding, 7, 6),
    ("crowds", full_pages, 15, 4),
    ("transfers", filling, 7, 4),
    ("transfers", cutting_log, 7, 0),
    ("transfers", alike_in_size, 11, 1),
    ("transfers", plain_texts, 11, 6),
    ("transfers", pairs.of_names, 5, 3),
]
