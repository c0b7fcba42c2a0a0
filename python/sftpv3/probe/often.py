"""Scenes for what wears out: what the five-hundredth and the thousandth request of a kind does, and a server that opens
a thousand handles one after the other. And what is left of a directory that was listed, once another is at its path.
Each has names of its own, as those of transfers.py have."""
from sftpv3.probe.plans import Content, with_word
from sftpv3.probe.transfers import READ, listing, upload

# How many requests of a kind come one after the other.
MANY, MOST = 501, 1001


def opening_often(p):
    """A file that is opened and closed 1,001 times, and read at the end."""
    path = p.blank(b"reopened")
    yield from upload(p, path, Content(p.random, 40))
    for _ in range(MOST):
        step = p.ask("OPEN", path, READ, {})
        yield step
        yield p.ask("CLOSE", step.opened())
    step = p.ask("OPEN", path, READ, {})
    yield step
    yield p.ask("READ", step.opened(), 0, 100)
    yield p.ask("CLOSE", step.opened())


def looking(p, path, _number):
    yield p.ask("STAT", path)


def setting(p, path, number):
    yield p.ask("SETSTAT", path, {"permissions": 0o600 + number % 8})


def moving(p, path, number):
    """RENAME to another name, and back with the next number."""
    names = [path, path + b".other"]
    yield p.ask("RENAME", names[number % 2], names[1 - number % 2])


def making(p, path, _number):
    yield p.ask("MKDIR", path + b".d", {})
    yield p.ask("RMDIR", path + b".d")


def asking_often(word, act):
    """A scene that asks for one thing of a file 501 times, and looks at what is there then."""
    def asking(p):
        """A file that is looked at, set, renamed, or has a directory made beside it, 501 times."""
        path = p.blank(b"often")
        yield from upload(p, path, Content(p.random, 40))
        for number in range(MANY):
            yield from act(p, path, number)
        for look in (path, path + b".other", path + b".d"):
            yield p.ask("LSTAT", look)
    return with_word(asking, word)


def listing_anew(p):
    """A directory that is listed, gets another name, and is made anew by its path, which is listed again, also once
    something is in it; and the directory of before, by its name of now."""
    top, old = p.blank(b"anew"), p.blank(b"anew.old")
    yield p.ask("MKDIR", top, {})
    for name in (b"/one", b"/two"):
        yield p.ask("MKDIR", top + name, {})
    yield from listing(p, top, 2)
    yield p.ask("RENAME", top, old)
    yield p.ask("MKDIR", top, {})
    yield from listing(p, top, 0)
    yield p.ask("MKDIR", top + b"/three", {})
    yield from listing(p, top, 1)
    yield from listing(p, old, 2)


def misusing_listing(p):
    """The handle of a listing in each request that takes a file's, before and after it is closed."""
    top = p.blank(b"misused")
    yield p.ask("MKDIR", top, {})
    yield p.ask("MKDIR", top + b"/in", {})
    step = p.ask("OPENDIR", top)
    yield step
    for cause in ("WrongKind", "BadHandle"):
        for name, *fields in (("READ", 0, 10), ("WRITE", 0, b"no"), ("FSTAT",), ("FSETSTAT", {"permissions": 0o700}),
                              ("FSYNC",)):
            yield p.ask(name, step.opened(), *fields, cause=cause)
        yield p.ask("READDIR", step.opened(), **({"cause": cause} if cause == "BadHandle" else {}))
        yield p.ask("CLOSE", step.opened(), **({"cause": cause} if cause == "BadHandle" else {}))
    yield from listing(p, top, 1)


# Each comes each so many seeds, first with that seed, as in `planner.PERIODS`.
PERIODS = [
    ("many-handles", opening_often, 49, 30),
    ("transfers", asking_often("stat", looking), 49, 13),
    ("transfers", asking_often("setstat", setting), 49, 24),
    ("transfers", asking_often("rename", moving), 49, 35),
    ("transfers", asking_often("mkdir", making), 49, 46),
    ("transfers", listing_anew, 7, 1),
    ("transfers", misusing_listing, 7, 4),
]
