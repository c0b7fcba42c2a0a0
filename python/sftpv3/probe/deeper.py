"""Scenes that faults in the source of a real server asked for: what is set through a handle whose file has another
path, the sticky bit, and links at the place that a RENAME is to take. Each has names of its own, as those of
transfers.py have."""
from sftpv3.probe.dating import times
from sftpv3.probe.takeovers import put
from sftpv3.probe.transfers import CREAT, EXCL, READ, TRUNC, WRITE


def setting_adrift(p):
    """What is set through a handle is set of its file, which has another path by now, or none, and not of the file that
    its old path leads to. What is set by a path at which nothing is has to be refused, and makes nothing."""
    path, new, absent = p.blank(b"adrift"), p.blank(b"adrift.new"), p.blank(b"adrift.not")
    step = p.ask("OPEN", path, READ | WRITE | CREAT | TRUNC, {})
    yield step
    yield p.ask("WRITE", step.opened(), 0, b"what was written first")
    yield p.ask("RENAME", path, new)
    yield from put(p, path, 30)
    yield p.ask("FSETSTAT", step.opened(), times(p))
    yield p.ask("FSTAT", step.opened())
    for given in (times(p), {"size": 3}):
        yield p.ask("SETSTAT", absent, given, cause="NoEntry")
    yield p.ask("LSTAT", absent, cause="NoEntry")
    yield p.ask("SETSTAT", absent, {"owner": (7, 8)}, cause="NoEntry")
    yield p.ask("FSETSTAT", step.opened(), {"owner": (7, 8)})
    yield p.ask("FSTAT", step.opened())
    yield p.ask("LSTAT", path)
    yield p.ask("REMOVE", new)
    yield p.ask("FSETSTAT", step.opened(), {"owner": (5, 6), **times(p)})
    yield p.ask("FSTAT", step.opened())
    yield p.ask("CLOSE", step.opened())


def sticking(p):
    """The sticky bit of a directory that many write to, set by its path, taken away, and asked for when it is made; and
    that of a file, by a handle. Its OPEN asks for a new file that is emptied, as clients do that overwrite nothing."""
    path, folder, other = p.blank(b"sticky"), p.blank(b"sticky.d"), p.blank(b"sticky.e")
    yield p.ask("MKDIR", folder, {})
    for mode in (0o1777, 0o755):
        yield p.ask("SETSTAT", folder, {"permissions": mode})
        yield p.ask("LSTAT", folder)
    step = p.ask("OPEN", path, WRITE | CREAT | TRUNC | EXCL, {})
    yield step
    yield p.ask("FSETSTAT", step.opened(), {"permissions": 0o1640})
    yield p.ask("FSTAT", step.opened())
    yield p.ask("CLOSE", step.opened())
    yield p.ask("MKDIR", other, {"permissions": 0o1755})
    yield p.ask("LSTAT", other)


def renaming_to_links(p):
    """A link that leads nowhere can be renamed, and takes its place: RENAME of a directory and of another link to it
    has to be refused, and leaves both as they are."""
    link, taken, folder = p.blank(b"onto"), p.blank(b"onto.taken"), p.blank(b"onto.d")
    yield p.ask("MKDIR", folder, {})
    for name in (link, taken):
        yield p.ask("SYMLINK", b"leads-nowhere" + name, name)
    yield p.ask("RENAME", link, folder + b"/in")
    yield p.ask("READLINK", folder + b"/in")
    for path in (folder, folder + b"/in"):
        yield p.ask("RENAME", path, taken, cause="Exists")
        yield p.ask("READLINK", taken)
        yield p.ask("LSTAT", path)


# Each comes each so many seeds, first with that seed, as in `planner.PERIODS`.
PERIODS = [
    ("transfers", setting_adrift, 7, 3),
    ("transfers", sticking, 7, 2),
    ("links", renaming_to_links, 7, 5),
]
