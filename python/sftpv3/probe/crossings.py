"""Scenes in which a request meets something of another kind than it expects, or a place that is taken: links that lead
nowhere, files where links are wanted, handles of one kind in the place of another. Each has names of its own, as those
of transfers.py have."""
from sftpv3.probe.plans import Content
from sftpv3.probe.transfers import CREAT, EXCL, READ, TRUNC, WRITE, download, listing, upload


def leading_nowhere(p):
    """A link that leads nowhere is there for what looks at links, and is not for what follows them; nothing is made
    where it leads but by an OPEN without EXCL."""
    link, absent = p.blank(b"nowhere"), p.blank(b"nothing")
    yield p.ask("SYMLINK", absent[1:], link)
    yield p.ask("STAT", link, cause="NoEntry")
    yield p.ask("LSTAT", link)
    yield p.ask("SETSTAT", link, {"permissions": 0o640}, cause="NoEntry")
    yield p.ask("OPENDIR", link, cause="NoEntry")
    yield p.ask("OPEN", link, READ, {}, cause="NoEntry")
    yield p.ask("MKDIR", link, {}, cause="Exists")
    yield p.ask("SYMLINK", b"elsewhere", link, cause="Exists")
    yield p.ask("READLINK", link)
    if p.random.random() < 0.3 and "excl-dangling" not in p.skip:
        yield p.ask("OPEN", link, WRITE | CREAT | EXCL, {}, cause="Exists")
    yield p.ask("LSTAT", absent, cause="NoEntry")
    step = p.ask("OPEN", link, WRITE | CREAT, {})
    yield step
    yield p.ask("CLOSE", step.opened())
    yield p.ask("LSTAT", absent)
    yield p.ask("REMOVE", link)
    yield p.ask("STAT", absent)


def meeting_others(p):
    """Requests that meet something of another kind, or a place that is taken, and leave all as it is."""
    file, other, link, folder = p.blank(b"taken"), p.blank(b"taken.other"), p.blank(b"taken.link"), p.blank(b"taken.d")
    yield from upload(p, file, Content(p.random, 300))
    yield from upload(p, other, Content(p.random, 40))
    yield p.ask("SYMLINK", file[1:], link)
    yield p.ask("MKDIR", folder, {})
    yield p.ask("HARDLINK", file, other, cause="Exists")
    yield p.ask("SYMLINK", other, link, cause="Exists")
    for name, path, cause in (("OPENDIR", file, "NotDir"), ("RMDIR", link, "NotDir"), ("READLINK", file, "NotLink")):
        yield p.ask(name, path, cause=cause)
    yield p.ask("OPEN", folder, READ, {}, cause="IsDir")
    yield p.ask("READLINK", link)
    yield from download(p, other, 40)
    new = p.blank(b"taken.new")
    yield p.ask("RENAME", link, new)
    yield p.ask("LSTAT", new)
    yield p.ask("REMOVE", new)
    yield p.ask("STAT", file)
    yield from upload(p, folder + b"/.hidden", Content(p.random, 5))
    yield p.ask("RMDIR", folder, cause="NotEmpty")
    yield p.ask("REMOVE", folder + b"/.hidden")
    yield p.ask("RMDIR", folder)


def climbing(p):
    """`..` behind a link to a directory deep below, and above the root; and a relative target in a directory."""
    top, link = p.blank(b"climbed"), p.blank(b"climber")
    yield p.ask("MKDIR", top, {})
    yield p.ask("MKDIR", top + b"/in", {})
    yield p.ask("SYMLINK", top[1:] + b"/in", link)
    yield from upload(p, top + b"/file", Content(p.random, 120))
    yield p.ask("SYMLINK", b"../file", top + b"/in/near")
    for path in (link + b"/..", link + b"/../in", link + b"/../file", b"/.." + link + b"/near"):
        yield p.ask("REALPATH", path)
    for path in (link + b"/../file", b"/../.." + top + b"/file", link + b"/near"):
        yield p.ask("STAT", path)
    yield p.ask("READLINK", link + b"/near")
    yield from listing(p, link + b"/..", 2)


def setting_bits(p):
    """Permissions of others and of the group that are set by path and by handle, behind an OPEN that asks for others,
    and looked at by a name that the file got while it was open to be written."""
    path, other = p.blank(b"bits"), p.blank(b"bits.other")
    content = Content(p.random, 2000)
    yield from upload(p, path, Content(p.random, 700))
    for mode in (0o666, 0o772, 0o464):
        yield p.ask("SETSTAT", path, {"permissions": mode})
        yield p.ask("STAT", path)
    step = p.ask("OPEN", path, READ | WRITE | CREAT, {"permissions": 0o600})
    yield step
    yield p.ask("FSTAT", step.opened())
    yield p.ask("HARDLINK", path, other)
    yield p.ask("WRITE", step.opened(), 600, content.at(0, 900))
    yield p.ask("FSETSTAT", step.opened(), {"permissions": 0o626})
    yield p.ask("STAT", other)
    yield from download(p, other, 1500)
    yield p.ask("REMOVE", path)
    yield p.ask("WRITE", step.opened(), 0, content.at(3, 90))
    yield p.ask("FSETSTAT", step.opened(), {"permissions": 0o644})
    yield p.ask("CLOSE", step.opened())
    yield p.ask("LSTAT", path, cause="NoEntry")
    yield p.ask("STAT", other)


def sharing(p):
    """Two handles of one file, of which one is open to read alone, and closes while the other goes on; one that gets
    longer by the other; and READs of no bytes."""
    path, content = p.blank(b"shared"), Content(p.random, 9000)
    yield from upload(p, path, Content(p.random, 1000))
    reader = p.ask("OPEN", path, READ, {})
    yield reader
    writer, third = (p.ask("OPEN", path, READ | WRITE, {}) for _ in range(2))
    yield writer
    yield third
    yield p.ask("WRITE", writer.opened(), 900, content.at(0, 300))
    yield p.ask("WRITE", third.opened(), 1200, content.at(5, 700))
    yield p.ask("READ", reader.opened(), 850, 2000)
    yield p.ask("READ", reader.opened(), 10, 0)
    yield p.ask("CLOSE", writer.opened())
    yield p.ask("FSTAT", third.opened())
    yield p.ask("CLOSE", reader.opened())
    yield p.ask("WRITE", third.opened(), 1900, content.at(9, 10))
    yield p.ask("READ", third.opened(), 1880, 100)
    yield p.ask("CLOSE", third.opened())
    yield from upload(p, path, Content(p.random, 60), WRITE | CREAT | TRUNC)
    yield p.ask("STAT", path)


# Each comes each so many seeds, first with that seed, as in `planner.PERIODS`.
PERIODS = [
    ("links", leading_nowhere, 5, 3),
    ("transfers", meeting_others, 5, 1),
    ("links", climbing, 7, 4),
    ("transfers", setting_bits, 7, 2),
    ("transfers", sharing, 7, 5),
]
