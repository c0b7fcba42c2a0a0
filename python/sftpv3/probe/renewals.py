"""Scenes that look again at what changed: what a server keeps of attributes, names, targets and bytes has to go with
them. Each has names of its own, as those of transfers.py have."""
from sftpv3.probe.model import FAR
from sftpv3.probe.plans import Content, Unlike
from sftpv3.probe.transfers import APPEND, CREAT, EXCL, KIB, READ, TRUNC, WRITE, download, listing, upload


def filled(p, word, size, flags=READ | WRITE):
    """A file of this size that is open. Gives its path, its content and the OPEN."""
    path, content = p.blank(word), Content(p.random, size + 10_000)
    step = p.ask("OPEN", path, flags | WRITE | CREAT | TRUNC, {})
    yield step
    yield p.ask("WRITE", step.opened(), 0, content.at(0, size))
    return path, content, step


def reading_on(p):
    """READs that go on where the last one ended, with WRITEs between of what they read next, through the handle and
    through another; and WRITEs that go on, with READs between."""
    path, content, step = yield from filled(p, b"on", 20_000)
    other = p.ask("OPEN", path, WRITE, {})
    yield other
    for number, writer in enumerate([step, other, other, step]):
        start = 4 * KIB * number
        yield p.ask("READ", step.opened(), start, 4 * KIB)
        yield p.ask("WRITE", writer.opened(), start + 4 * KIB + 10, content.at(7, 500))
    yield p.ask("READ", step.opened(), 16 * KIB, 5000)
    for number in range(3):
        yield p.ask("WRITE", step.opened(), 300 * number, content.at(number, 300))
        yield p.ask("READ", step.opened(), 9000 + 100 * number, 100)
    for one in (step, other):
        yield p.ask("CLOSE", one.opened())


def leaving_gaps(p):
    """A file that was cut or emptied, and a WRITE behind its end: the gap has none of the bytes of before. A WRITE that
    no system has room for, and one behind it."""
    path, content, step = yield from filled(p, b"gap", 5000)
    emptied = p.ask("OPEN", path, WRITE | CREAT | TRUNC, {})
    cuts = [p.ask("FSETSTAT", step.opened(), {"size": 1000}), p.ask("SETSTAT", path, {"size": 700}), emptied]
    for cut in cuts:
        yield cut
        yield p.ask("WRITE", step.opened(), 4000, content.at(4000, 1500))
        yield p.ask("READ", step.opened(), 0, 6000)
    if "huge" not in p.skip:
        yield p.ask("WRITE", step.opened(), FAR - 1, b"x", cause="NoRoom")
    yield p.ask("WRITE", step.opened(), 10, content.at(3, 40))
    yield p.ask("FSETSTAT", step.opened(), {"size": 5500})
    yield p.ask("READ", step.opened(), 3990, 2000)
    for one in (step, emptied):
        yield p.ask("CLOSE", one.opened())


def passing(p):
    """A file that is removed as soon as it is made, and used by its handle, and not by what is longer than that; a
    directory that is removed while it is open, and made again."""
    path, content, folder = p.blank(b"passing"), Content(p.random, 3000), p.blank(b"passing.d")
    step = p.ask("OPEN", path, READ | WRITE | CREAT | EXCL, {})
    yield step
    yield p.ask("REMOVE", path)
    yield p.ask("WRITE", step.opened(), 0, content.at(0, 3000))
    yield p.ask("LSTAT", path)
    yield p.ask("READ", step.opened(), 0, 4000)
    for name in ("READ", "CLOSE"):
        yield p.ask(name, Unlike(step.number), *([0, 10] if name == "READ" else []), cause="BadHandle")
    yield p.ask("FSTAT", step.opened())
    yield p.ask("CLOSE", step.opened())
    yield p.ask("MKDIR", folder, {})
    listed = p.ask("OPENDIR", folder)
    yield listed
    yield p.ask("RMDIR", folder)
    yield p.ask("LSTAT", folder)
    yield p.ask("MKDIR", folder, {})
    yield p.ask("CLOSE", listed.opened())
    yield from listing(p, folder, 0)


def further_names(p):
    """A file of two names, one of which changes: what is written, cut and set by the one is seen by the other."""
    path, other, third = p.blank(b"twin"), p.blank(b"twin.other"), p.blank(b"twin.third")
    content = Content(p.random, 10_000)
    yield from upload(p, path, Content(p.random, 5000))
    yield p.ask("HARDLINK", path, other)
    for name, seen, moved in ((other, path, third), (path, third, other)):
        step = p.ask("OPEN", name, READ | WRITE, {})
        yield step
        yield p.ask("WRITE", step.opened(), 100, content.at(100, 300))
        yield p.ask("CLOSE", step.opened())
        yield p.ask("RENAME", name if name == other else seen, moved)
        yield from download(p, path, 5000)
    yield p.ask("SETSTAT", other, {"size": 2000})
    yield p.ask("STAT", path)
    for mode in (0, 0o604):
        yield p.ask("SETSTAT", path, {"permissions": mode})
        yield p.ask("STAT", other)


def moving_reader(p):
    """A file that gets another name while it is read, and is then written by that."""
    path, content, step = yield from filled(p, b"moving", 3000)
    yield p.ask("CLOSE", step.opened())
    reading, new = p.ask("OPEN", path, READ, {}), p.blank(b"moved")
    yield reading
    yield p.ask("RENAME", path, new)
    writing = p.ask("OPEN", new, WRITE, {})
    yield writing
    yield p.ask("WRITE", writing.opened(), 1000, content.at(5, 2500))
    yield p.ask("FSTAT", reading.opened())
    yield p.ask("READ", reading.opened(), 900, 3000)
    for one in (reading, writing):
        yield p.ask("CLOSE", one.opened())


def switching(p):
    """A link that another one replaces, as where a name of the newest version is kept, to a file and to a directory."""
    link, tops = p.blank(b"current"), [p.blank(b"version") for _ in range(2)]
    for top, size in zip(tops, (100, 200)):
        yield p.ask("MKDIR", top, {})
        yield from upload(p, top + b"/file", Content(p.random, size))
    yield p.ask("MKDIR", tops[1] + b"/more", {})
    for below in (b"/file", b""):
        yield p.ask("SYMLINK", tops[0] + below, link)
        yield p.ask("STAT", link)
        new = p.blank(b"current.new")
        yield p.ask("SYMLINK", tops[1] + below, new)
        yield p.ask("POSIX-RENAME", new, link)
        yield p.ask("STAT", link)
        yield p.ask("READLINK", link)
        if below:
            yield from download(p, link, 200)
            yield p.ask("REMOVE", link)
    yield from listing(p, link, 2)
    yield p.ask("STAT", link + b"/more")
    yield p.ask("STAT", link + b"/more/../file")


def leading_far(p):
    """A chain of twelve links; `..` behind a link; a target that ends in a slash, and one in a directory; a link to a
    directory without names, which RMDIR leaves."""
    top, inner = p.blank(b"far"), b"/inner"
    yield p.ask("MKDIR", top, {})
    yield p.ask("MKDIR", top + inner, {})
    yield from upload(p, top + b"/file", Content(p.random, 150))
    first = p.blank(b"chain")
    yield p.ask("SYMLINK", top + b"/file", first)
    last = first
    for _ in range(11):
        link = p.blank(b"chain")
        yield p.ask("SYMLINK", last[1:], link)
        last = link
    yield p.ask("STAT", last)
    yield from download(p, last, 150)
    to_inner = p.blank(b"inside")
    yield p.ask("SYMLINK", top + inner + (b"" if "slash" in p.skip else b"/"), to_inner)
    yield p.ask("READLINK", to_inner)
    yield p.ask("STAT", to_inner + b"/../file")
    yield p.ask("SYMLINK", b"file", top + b"/near")
    yield p.ask("STAT", top + b"/near")
    yield p.ask("RMDIR", to_inner, cause="NotDir")
    yield p.ask("LSTAT", top + inner)
    yield p.ask("SYMLINK", b"../" + top[1:] + b"/inner/../file", top + b"/round")
    yield p.ask("READLINK", top + b"/round")
    yield p.ask("STAT", top + b"/round")


def moving_tree(p):
    """A directory of directories, files and links gets another name: all in it goes with it, as it is, and what is
    beside it stays."""
    top, new, file = p.blank(b"branch"), p.blank(b"bough"), b"/in/file"
    yield from growing(p, top, file)
    yield from looked_at(p, new + file, new + b"/empty", new)
    yield p.ask("RENAME", top, new)
    yield from looked_at(p, new + file, new + b"/in", new + b"/empty", top + b".old", top + file)
    yield p.ask("STAT", new + b"/in/link")
    yield from listing(p, new, 2)
    yield p.ask("RMDIR", new + b"/empty")
    yield p.ask("MKDIR", top, {})
    yield p.ask("POSIX-RENAME", new, top)
    yield p.ask("LSTAT", top + file)
    yield from download(p, top + file, 80)
    for path in (new, new + b".old"):
        yield p.ask("MKDIR", path, {})
    yield p.ask("RMDIR", new)
    yield p.ask("LSTAT", new + b".old")


def growing(p, top, file):
    """A directory with two directories in it, of which one has a file and a link, and one beside it whose name begins
    alike."""
    for path in (top, top + b"/in", top + b"/empty", top + b".old"):
        yield p.ask("MKDIR", path, {})
    yield p.ask("SETSTAT", top + b"/in", {"permissions": 0o710})
    yield from upload(p, top + file, Content(p.random, 80))
    yield p.ask("SETSTAT", top + file, {"permissions": 0o604})
    yield p.ask("SYMLINK", b"file", top + b"/in/link")


def looked_at(p, *paths):
    for path in paths:
        yield p.ask("LSTAT", path)


def listing_again(p):
    """A directory that is listed, and again once the attributes of its entries changed."""
    top = p.blank(b"again")
    yield p.ask("MKDIR", top, {})
    for name, size in ((b"/one", 10), (b"/two", 20)):
        yield from upload(p, top + name, Content(p.random, size))
    yield p.ask("MKDIR", top + b"/three", {})
    yield from listing(p, top, 3)
    yield p.ask("SETSTAT", top + b"/one", {"size": 500})
    yield p.ask("SETSTAT", top + b"/three", {"permissions": 0o700})
    step = p.ask("OPEN", top + b"/two", WRITE | APPEND, {})
    yield step
    yield p.ask("WRITE", step.opened(), 0, b"two more")
    yield from listing(p, top, 3)
    yield p.ask("CLOSE", step.opened())


# Names that some systems, or the stores behind a server, take for one, or for another.
ALIKE = [
    b"Case", b"case", b"\xc3\xa9t\xc3\xa9", b"e\xcc\x81te\xcc\x81", b"l" * 254 + b"1", b"l" * 254 + b"2", b"a",
    b"a#b?c", b"v", b"v;1", b"two blanks", b"two  blanks", b"ends..", b"aux.c", b"long.html", b"long.htm",
    b"in\\side", b"tool", b"tool.exe", b"file", b"\xef\xac\x81le", b"a&b", b"a&amp;b", b"notes", b"notes~", b"x.tmp",
    b"x.filepart", b"*",
]


def alike_names(p):
    """Names that some systems take for one: each is a file, or a directory, of its own; and a name that begins with the
    sign for a home."""
    top = p.blank(b"alike")
    yield p.ask("MKDIR", top, {})
    yield p.ask("MKDIR", top + b"/in", {})
    for number, name in enumerate(p.random.sample(ALIKE, len(ALIKE))):
        step = p.ask("OPEN", top + b"/" + name, WRITE | CREAT | EXCL, {})
        yield step
        yield p.ask("WRITE", step.opened(), 0, b"x" * (number + 1))
        yield p.ask("CLOSE", step.opened())
    yield from listing(p, top, len(ALIKE))
    yield p.ask("REMOVE", top + b"/*")
    for name in ALIKE[:-1]:
        yield p.ask("LSTAT", top + b"/" + name)
        yield p.ask("REMOVE", top + b"/" + name)
        yield p.ask("LSTAT", top + b"/" + name, cause="NoEntry")
    path = p.blank(b"~tilde")
    yield from upload(p, path, Content(p.random, 40))
    yield p.ask("STAT", path if p.model.home else path[1:])


def counting(p):
    """A file that is written in 257 small blocks, and read in as many, by one handle."""
    path, content = p.blank(b"counted"), Content(p.random, 5200)
    step = p.ask("OPEN", path, READ | WRITE | CREAT | TRUNC, {})
    yield step
    for name in ("WRITE", "READ"):
        for number in range(257):
            place = 20 * number
            yield p.ask(name, step.opened(), place, content.at(place, 20) if name == "WRITE" else 20)
    yield p.ask("CLOSE", step.opened())


def failing_often(p):
    """OPENs and OPENDIRs that find nothing, more than a server has handles, and then those of what is there."""
    path, folder = p.blank(b"found"), p.blank(b"found.d")
    yield from upload(p, path, Content(p.random, 60))
    yield p.ask("MKDIR", folder, {})
    for _ in range(101):
        yield p.ask("OPEN", path + b".not", READ, {}, cause="NoEntry")
    for _ in range(61):
        yield p.ask("OPENDIR", path, cause="NotDir")
    yield from download(p, path, 60)
    yield from listing(p, folder, 0)
