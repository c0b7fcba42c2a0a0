"""Scenes in which requests meet: on files that are removed, replaced or made longer while they are open, on listings
that are open together or whose directory is removed, and on what a request has to leave as it is. Each has names of its
own, as those of transfers.py have."""
from sftpv3.probe.model import DIRECTORY
from sftpv3.probe.plans import Content
from sftpv3.probe.transfers import (APPEND, CREAT, EXCL, KIB, NAMES, NAMES_AT_ONCE, READ, TRUNC, WRITE, at_once,
                                    download, listing, making, upload)


def appending_together(p):
    """A log that two handles append to while a third reads what comes, and whose path is looked at; and a new log in
    its place."""
    path, content = p.blank(b"shared-log"), Content(p.random, 100_000)
    steps = [p.ask("OPEN", path, flags, {}) for flags in (WRITE | CREAT | APPEND, WRITE | APPEND, READ)]
    yield from steps
    size, reader = 0, steps[2].opened()
    for turn in range(6):
        count = p.random.choice([1, 100, 5000])
        yield p.ask("WRITE", steps[turn % 2].opened(), p.random.choice([0, 7, size]), content.at(size, count))
        yield p.ask("STAT", path)
        yield p.ask("READ", reader, size, count + 10)
        size += count
        yield p.ask("READ", reader, size, 100)
        yield p.ask("FSTAT", p.random.choice(steps).opened())
    for step in steps:
        yield p.ask("CLOSE", step.opened())
    yield from upload(p, path, Content(p.random, 500), WRITE | CREAT | TRUNC | APPEND)
    yield from download(p, path, 500)


def remaking(p):
    """A file that loses its path, while it is open, to another one, by OPEN and by posix-rename: each handle has its
    own file, with the bytes, the size and the permissions of that."""
    for taking in p.random.sample([made_anew, moved_there], 2):
        path, content = p.blank(b"again"), Content(p.random, 20_000)
        yield from upload(p, path, Content(p.random, 5000))
        old = p.ask("OPEN", path, READ | WRITE, {})
        yield old
        new = yield from taking(p, path)
        yield p.ask("WRITE", new.opened(), 0, content.at(0, 200))
        yield p.ask("WRITE", old.opened(), 100, content.at(500, 3000))
        yield p.ask("READ", new.opened(), 0, 5000)
        yield p.ask("READ", old.opened(), 0, 6000)
        yield from setting_both(p, [(old, 2000), (new, 100)])
        for step in p.random.sample([old, new], 2):
            yield p.ask("CLOSE", step.opened())
        yield from download(p, path, 100)


def made_anew(p, path):
    """The file at a path is removed, and another one made. Gives the OPEN of that."""
    yield p.ask("REMOVE", path)
    new = p.ask("OPEN", path, READ | WRITE | CREAT | EXCL, {})
    yield new
    return new


def moved_there(p, path):
    """Another file takes the place of that at a path. Gives the OPEN of that."""
    part = p.blank(b"again.part")
    yield from upload(p, part, Content(p.random, 300))
    yield p.ask("POSIX-RENAME", part, path)
    new = p.ask("OPEN", path, READ | WRITE, {})
    yield new
    return new


def setting_both(p, opened):
    """What is set through handles, each with a size, and shown through them."""
    for step, size in opened:
        yield p.ask("FSETSTAT", step.opened(), {"permissions": p.random.choice([0o600, 0o640, 0o755])})
        yield p.ask("FSETSTAT", step.opened(), {"size": size})
        yield p.ask("FSYNC", step.opened())
    for step, size in opened:
        yield p.ask("FSTAT", step.opened())
        yield p.ask("READ", step.opened(), size - 50, 100)


def leaving(p):
    """Requests that have to be refused, and what they have to leave as it is; and OPENs that leave a file as it is."""
    path, absent, folder = p.blank(b"kept"), p.blank(b"absent"), p.blank(b"folder")
    yield from upload(p, path, Content(p.random, 5000))
    yield p.ask("OPEN", path, WRITE | CREAT | EXCL | TRUNC, {}, cause="Exists")
    yield p.ask("OPEN", absent, p.random.choice([WRITE, READ | WRITE, WRITE | APPEND]), {}, cause="NoEntry")
    yield p.ask("OPEN", absent + b"/in", WRITE | CREAT | p.random.choice([0, TRUNC, EXCL]), {}, cause="NoEntry")
    yield p.ask("LSTAT", absent)
    yield p.ask("MKDIR", folder if "slash" in p.skip else folder + b"/", {})
    yield p.ask("POSIX-RENAME", folder, path, cause="NotDir")
    yield p.ask("LSTAT", folder)
    yield p.ask("RENAME", folder, absent if "slash" in p.skip else absent + b"/")
    yield p.ask("LSTAT", absent)
    yield p.ask("POSIX-RENAME", path, path)
    yield p.ask(p.random.choice(["STAT", "REALPATH"]), b"")
    yield from download(p, path, 5000)


def emptying_further(p):
    """A file that is emptied and written by one of its two names, and looked at by the other."""
    path, other = p.blank(b"two"), p.blank(b"two.other")
    yield from upload(p, path, Content(p.random, 5000))
    yield p.ask("HARDLINK", path, other)
    for name, seen in ((other, path), (path, other), (other, path)):
        content = Content(p.random, p.random.choice([0, 10, 700]))
        yield from upload(p, name, content)
        yield from download(p, seen, content.size)


def listing_removed(p):
    """No listing has a file that was removed while it was open, or an old name of one that is open."""
    top = p.blank(b"left")
    path, other, third = top + b"/one", top + b"/other", top + b"/third"
    yield p.ask("MKDIR", top, {})
    for name in (path, other, third):
        yield from upload(p, name, Content(p.random, 300))
    steps = [p.ask("OPEN", name, flags, {}) for name, flags in ((path, READ), (other, READ | WRITE), (third, READ))]
    yield from steps
    yield p.ask("REMOVE", path)
    yield from listing(p, top, 2)
    yield p.ask("POSIX-RENAME", other, third)
    yield from listing(p, top, 1)
    yield p.ask("READ", steps[2].opened(), 0, 400)
    for step in p.random.sample(steps, 3):
        yield p.ask("CLOSE", step.opened())
    yield from listing(p, top, 1)


def setting_folders(p):
    """A directory with permissions of its own gets another name; MKDIR where something is sets nothing of it."""
    folder, new = p.blank(b"own"), p.blank(b"own.new")
    yield p.ask("MKDIR", folder, {})
    yield p.ask("SETSTAT", folder, {"permissions": p.random.choice([0o700, 0o711, 0o750])})
    yield p.ask("RENAME", folder, new)
    yield p.ask("STAT", new)
    yield p.ask("POSIX-RENAME", new, folder)
    yield p.ask("STAT", folder)
    file = folder + b"/file"
    yield from upload(p, file, Content(p.random, 100))
    for path in (folder, file):
        yield p.ask("MKDIR", path, {"permissions": p.random.choice([0o777, 0o40775])}, cause="Exists")
        yield p.ask("STAT", path)
    yield p.ask("MKDIR", new, {"permissions": 0o40755})
    yield p.ask("STAT", new)


def giving_far(p):
    """A file and a directory whose users and groups have numbers of more than 16 bits, by path and by handle."""
    folder, path = p.blank(b"given"), p.blank(b"given.file")
    yield p.ask("MKDIR", folder, {})
    yield from upload(p, path, Content(p.random, 100))
    yield p.ask("SETSTAT", folder, {"owner": (70_000, 131_077)})
    yield p.ask("LSTAT", folder)
    step = p.ask("OPEN", path, READ | WRITE, {})
    yield step
    yield p.ask("FSETSTAT", step.opened(), {"owner": (2 ** 31 + 7, 65_536)})
    yield p.ask("FSTAT", step.opened())
    yield p.ask("CLOSE", step.opened())


def writing_alike(p):
    """Blocks of zeros over other bytes and at the end, and WRITEs of bytes that were written before."""
    path, content = p.blank(b"alike"), Content(p.random, 60_000)
    yield from upload(p, path, content)
    step = p.ask("OPEN", path, READ | WRITE, {})
    yield step
    for offset, count in ((p.random.choice([4 * KIB, 8 * KIB]), 4 * KIB), (39_999, 1000), (20_000, 32 * KIB)):
        yield p.ask("WRITE", step.opened(), offset, bytes(count))
        yield p.ask("READ", step.opened(), offset - 10, count + 20)
    data, other = content.at(1, 3000), content.at(2, 2000)
    for offset, written in ((10_000, data), (13_000, data), (10_000, other), (10_000, data), (10_500, data)):
        yield p.ask("WRITE", step.opened(), offset, written)
    yield p.ask("READ", step.opened(), 9990, 6100)
    yield p.ask("WRITE", step.opened(), 60_000, b"end" + bytes(500))
    yield p.ask("FSTAT", step.opened())
    yield p.ask("WRITE", step.opened(), 60_503, bytes(4 * KIB))
    yield p.ask("READ", step.opened(), 59_990, 8 * KIB)
    yield p.ask("CLOSE", step.opened())


def setting_open(p):
    """What is set of a file that is open, by its path and through a handle that is open to read; two things at once;
    a READ of more bytes than any server gives; and the file loses a name that it got while it was open."""
    path, other = p.blank(b"set"), p.blank(b"set.other")
    yield from upload(p, path, Content(p.random, 5000))
    step = p.ask("OPEN", path, READ, {})
    yield step
    yield p.ask("HARDLINK", path, other)
    yield p.ask("FSETSTAT", step.opened(), {"permissions": 0o640})
    yield p.ask("FSTAT", step.opened())
    yield p.ask("SETSTAT", path, {"permissions": 0o604})
    yield p.ask("FSTAT", step.opened())
    yield p.ask("FSETSTAT", step.opened(), {"times": (1, 2)})
    yield p.ask("LSTAT", other)
    if "size-and-more" not in p.skip:
        yield p.ask("SETSTAT", other, {"size": 3000, "permissions": 0o700})
    yield p.ask("FSTAT", step.opened())
    yield p.ask("READ", step.opened(), 2990, 1 << 20 if "long-read" not in p.skip else 32 * KIB)
    moved = p.blank(b"set.moved")
    yield p.ask("RENAME", path, moved)
    yield p.ask("REMOVE", moved)
    yield p.ask("FSTAT", step.opened())
    yield p.ask("CLOSE", step.opened())
    yield p.ask("SETSTAT", other, {"permissions": 0o6751})
    yield p.ask("STAT", other)


def cutting_between(p):
    """A file that is cut by its path and through the handle between WRITEs, close together."""
    path, content = p.blank(b"between"), Content(p.random, 20_000)
    step = p.ask("OPEN", path, READ | WRITE | CREAT, {})
    yield step
    for short in p.random.sample([100, 1000, 3000], 3):
        yield p.ask("WRITE", step.opened(), 0, content.at(short, 5000))
        yield p.ask("SETSTAT", path, {"size": short})
        yield p.ask("WRITE", step.opened(), short, content.at(7, 500))
        yield p.ask("FSETSTAT", step.opened(), {"size": short + 2000})
        yield p.ask("WRITE", step.opened(), short + 1950, content.at(9, 100))
        yield p.ask("STAT", path)
        yield p.ask("READ", step.opened(), 0, 8000)
    yield p.ask("CLOSE", step.opened())


def clearing(p):
    """A tree of unusual names that is removed as `rm -r` removes it."""
    top, first = p.blank(b"tree"), p.blank(b"leaf")
    names = p.random.sample([name for name in NAMES if len(name) < 200], 15)
    yield from upload(p, first, Content(p.random, 100))
    folders = [top, top + b"/" + names[0], top + b"/" + names[1], top + b"/" + names[0] + b"/" + names[2]]
    for folder in folders:
        yield p.ask("MKDIR", folder, {})
        yield p.ask("SETSTAT", folder, {"permissions": 0o755})
    yield p.ask("MKDIR", top + b"/caf\xc3\xa9 noir", {})
    yield p.ask("SETSTAT", top + b"/caf\xc3\xa9 noir", {"permissions": 0o700})
    for name in names[3:]:
        yield from making(p, p.random.choice(folders) + b"/" + name, first)
    held = folders[3] + b"/held"
    yield from upload(p, held, Content(p.random, 100))
    step = p.ask("OPEN", held, READ, {})
    yield step
    yield from cleared(p, top)
    yield p.ask("LSTAT", top)
    yield p.ask("READ", step.opened(), 0, 200)
    yield p.ask("CLOSE", step.opened())


def cleared(p, path):
    """What is at a path is removed, with all that is in it. A directory is listed before, and removed while its listing
    is open, or behind."""
    place = tuple(path[1:].split(b"/"))
    if p.model.at(place).kind != DIRECTORY:
        yield p.ask("REMOVE", path)
        return
    names = sorted(p.model.names_in(place))
    listed = p.ask("OPENDIR", path)
    yield listed
    for _ in range(len(names) // NAMES_AT_ONCE + 2):
        yield p.ask("READDIR", listed.opened())
    stays_open = p.random.random() < 0.5 and not p.skip & {"removed-open", "removed-name"}
    if not stays_open:
        yield p.ask("CLOSE", listed.opened())
    for name in names:
        yield from cleared(p, path + b"/" + name)
    yield p.ask("RMDIR", path)
    if stays_open:
        yield p.ask("CLOSE", listed.opened())


def listing_together(p):
    """Thirty listings that are open at a time, of two directories, each read to its end."""
    counts = {p.blank(b"listed"): 3, p.blank(b"listed"): 40}
    for top, count in counts.items():
        yield p.ask("MKDIR", top, {})
        for number in range(count):
            yield p.ask("MKDIR", top + b"/%02d" % number, {})
    opened = []
    for _ in range(30):
        top = p.random.choice(list(counts))
        opened.append((p.ask("OPENDIR", top), counts[top]))
        yield opened[-1][0]
    yield from at_once(p, [to_end(p, step, count) for step, count in opened])


def to_end(p, step, count):
    """READDIRs of about so many names up to their end, and CLOSE."""
    for _ in range(count // NAMES_AT_ONCE + 2):
        yield p.ask("READDIR", step.opened())
    yield p.ask("CLOSE", step.opened())


def listing_often(p):
    """A directory that is listed 300 times."""
    top = p.blank(b"often")
    yield p.ask("MKDIR", top, {})
    for _ in range(300):
        step = p.ask("OPENDIR", top)
        yield step
        yield p.ask("CLOSE", step.opened())
    yield from listing(p, top, 0)


def chaining_links(p):
    """A link that leads to a link, with a long target, which leads to a file; the same of a directory; and links that
    are made where others were."""
    top, names = p.blank(b"aims"), []
    file = top + b"/caf\xc3\xa9 \xff"
    yield p.ask("MKDIR", top, {})
    yield from upload(p, file, Content(p.random, 300))
    for target in (file, top):
        long = b"/." * p.random.choice([60, 130, 280, 450]) + target
        first, second = p.blank(b"first"), p.blank(b"second")
        yield p.ask("SYMLINK", long, first)
        yield p.ask("SYMLINK", first[1:], second)
        names += [first, second]
    for path in names:
        for name in p.random.sample(["READLINK", "STAT", "LSTAT", "REALPATH"], 4):
            yield p.ask(name, path)
    yield from download(p, names[1], 300)
    yield from listing(p, names[3], 1)
    yield p.ask("RENAME", names[1], p.blank(b"third"))
    yield p.ask("SYMLINK", top, names[1])
    yield p.ask("READLINK", names[1])
    yield p.ask("REMOVE", names[2])
    yield p.ask("SYMLINK", file, names[2])
    yield from download(p, names[2], 300)


def long_paths(p):
    """A path of some 900 bytes, which has a directory of a hundred long names at its end."""
    top, count = p.blank(b"long"), 100
    below = b"".join(b"/" + bytes([65 + number]) * 200 for number in range(4))
    yield p.ask("MKDIR", top, {})
    for end in range(201, len(below) + 1, 201):
        yield p.ask("MKDIR", top + below[:end], {})
    paths = [top + below[:402] + b"/%03d" % number + b"n" * 252 for number in range(count)]
    for path in paths:
        yield p.ask("MKDIR", path, {})
    yield from listing(p, top + below[:402], count)
    yield from upload(p, top + below + b"/file", Content(p.random, 300))
    yield from download(p, top + below + b"/file", 300)
    yield from listing(p, top + below, 1)
    yield p.ask("REALPATH", top + below)
    yield p.ask("RENAME", top + below + b"/file", top + below + b"/" + b"f" * 100)
    for path in p.random.sample(paths, 10):
        yield p.ask("RMDIR", path)
    yield p.ask("SYMLINK", top + below, top + b"/link")
    yield p.ask("READLINK", top + b"/link")
    yield p.ask("REMOVE", top + below + b"/" + b"f" * 100)
    yield p.ask("RMDIR", top + below)
