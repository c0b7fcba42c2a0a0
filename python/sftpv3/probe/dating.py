"""Scenes that set times and look at them, as clients do that keep the times of files: `put -p`, and mounts. Each has
names of its own, as those of transfers.py have."""
from sftpv3.probe.plans import Content
from sftpv3.probe.transfers import CREAT, READ, TRUNC, WRITE, download, listing, upload


def times(p):
    """When something was read last, in the years 2030 to 2033, and changed last, in 2001 to 2004. No read makes the
    first later where the system notes reads that it was not told to (relatime)."""
    return {"times": (1_900_000_000 + 2 * p.random.randrange(50_000_000),
                      1_000_000_000 + 2 * p.random.randrange(50_000_000))}


def owner(p, *numbers):
    """A user and a group, if plans set any."""
    return {} if "owner" in p.skip else {"owner": numbers}


def dated_file(p):
    """The times of a file stay while it is looked at, gets other permissions, is read, and gets another name; and they
    are set together with permissions that let nobody write."""
    path, new, content = p.blank(b"dated"), p.blank(b"dated.new"), Content(p.random, 300)
    yield from upload(p, path, content)
    yield p.ask("SETSTAT", path, times(p))
    yield p.ask("STAT", path)
    yield p.ask("LSTAT", path)
    yield p.ask("SETSTAT", path, {"permissions": 0o640})
    yield p.ask("STAT", path)
    yield from download(p, path, content.size)
    yield p.ask("STAT", path)
    name = p.random.choice(["RENAME", "POSIX-RENAME"])
    yield p.ask(name, path, new)
    yield p.ask("STAT", new)
    yield p.ask("SETSTAT", new, {"permissions": 0o444, **times(p)})
    yield p.ask("LSTAT", new)


def dated_upload(p):
    """Times are set through a handle behind the last WRITE, and stay when it is closed; then through one that is open
    to read and write, by which the file also gets permissions."""
    path, content = p.blank(b"dated-put"), Content(p.random, 5000)
    step = p.ask("OPEN", path, WRITE | CREAT | TRUNC, {})
    yield step
    yield p.ask("WRITE", step.opened(), 0, content.at(0, content.size))
    yield p.ask("FSETSTAT", step.opened(), {"permissions": 0o640, **times(p)})
    yield p.ask("FSTAT", step.opened())
    yield p.ask("CLOSE", step.opened())
    yield p.ask("STAT", path)
    step = p.ask("OPEN", path, READ | WRITE, {})
    yield step
    yield p.ask("FSTAT", step.opened())
    yield p.ask("FSETSTAT", step.opened(), times(p))
    yield p.ask("FSTAT", step.opened())
    yield p.ask("STAT", path)
    yield p.ask("FSETSTAT", step.opened(), {"permissions": 0o604})
    yield p.ask("FSTAT", step.opened())
    yield p.ask("READ", step.opened(), 0, content.size)
    yield p.ask("FSTAT", step.opened())
    yield p.ask("CLOSE", step.opened())
    yield p.ask("LSTAT", path)


def dated_folder(p):
    """Times of a directory, which gets another name, and of a file in it that a listing shows, also where they are set
    together with a size."""
    old, folder, content = p.blank(b"dated-out"), p.blank(b"dated-in"), Content(p.random, 90)
    path = folder + b"/file"
    yield p.ask("MKDIR", old, {})
    yield from upload(p, old + b"/file", content)
    yield p.ask("SETSTAT", old, times(p))
    yield p.ask("RENAME", old, folder)
    yield p.ask("STAT", folder)
    yield from listing(p, folder, 1)
    yield p.ask("LSTAT", folder)
    yield p.ask("SETSTAT", path, times(p))
    yield from listing(p, folder, 1)
    yield p.ask("STAT", path)
    yield p.ask("SETSTAT", path, {"size": 40, **times(p)})
    yield p.ask("STAT", path)


def dated_sync(p):
    """Times that are set through a handle behind a WRITE stay when the file is synced and closed, as by `put -p -f`,
    when it gets an owner, by its path and through a handle, and when it replaces another one, as by rsync; both times
    may be the same. They are set through a handle that is open to read, too."""
    path, step = p.blank(b"dated-sync"), None
    for flags in (WRITE | CREAT | TRUNC, READ | WRITE):
        step = p.ask("OPEN", path, flags, {})
        yield step
        yield p.ask("WRITE", step.opened(), 0, Content(p.random, 700).at(0, 700))
        yield p.ask("FSETSTAT", step.opened(), times(p))
        yield p.ask("FSYNC", step.opened())
        yield p.ask("FSTAT", step.opened())
        yield p.ask("CLOSE", step.opened())
        yield p.ask("STAT", path)
    same = times(p)["times"][1]
    yield p.ask("SETSTAT", path, {"times": (same, same)})
    yield p.ask("LSTAT", path)
    for given in (owner(p, 7, 8), owner(p, 0, 0)):
        if given:
            yield p.ask("SETSTAT", path, given)
            yield p.ask("STAT", path)
    yield from dated_replacing(p, path, p.blank(b"dated-sync.old"))


def dated_replacing(p, path, old):
    """A file that gets times and an owner through a handle that is open to read takes the place of another."""
    made = p.ask("OPEN", old, WRITE | CREAT, {})
    yield made
    yield p.ask("CLOSE", made.opened())
    step = p.ask("OPEN", path, READ, {})
    yield step
    for given in (times(p), owner(p, 7, 8)):
        if given:
            yield p.ask("FSETSTAT", step.opened(), given)
            yield p.ask("FSTAT", step.opened())
    yield p.ask("CLOSE", step.opened())
    yield p.ask("POSIX-RENAME", path, old)
    yield p.ask("STAT", old)


def dated_whole(p):
    """A directory that gets the permissions that it shows; times by a link, which leads to the file; and all attributes
    at once, as of a file that a client has looked at before, by path and by handle."""
    path, folder, link = p.blank(b"dated-whole"), p.blank(b"dated-whole.d"), p.blank(b"dated-whole.link")
    yield p.ask("MKDIR", folder, {})
    yield p.ask("SETSTAT", folder, {**owner(p, 5, 6), "permissions": 0o40750, **times(p)})
    yield p.ask("STAT", folder)
    yield from upload(p, path, Content(p.random, 500))
    if "SYMLINK" not in p.skip:
        yield p.ask("SYMLINK", path[1:], link)
        yield p.ask("SETSTAT", link, times(p))
        yield p.ask("STAT", link)
    yield p.ask("SETSTAT", path, {"size": 400, **owner(p, 5, 6), "permissions": 0o100640, **times(p)})
    yield p.ask("STAT", path)
    step = p.ask("OPEN", path, READ | WRITE, {})
    yield step
    yield p.ask("FSETSTAT", step.opened(), {"size": 300, **owner(p, 7, 8), "permissions": 0o100604, **times(p)})
    yield p.ask("FSTAT", step.opened())
    yield p.ask("CLOSE", step.opened())


def dated_oddly(p):
    """Times of odd seconds, which file systems lose that count in twos, are kept: by a path, through a handle, in a
    listing, and when the file gets another name."""
    folder, path, new = p.blank(b"dated-odd"), b"/dated", b"/dated.new"
    yield p.ask("MKDIR", folder, {})
    yield from upload(p, folder + path, Content(p.random, 60))
    yield p.ask("SETSTAT", folder + path, odd(p))
    yield p.ask("STAT", folder + path)
    yield from listing(p, folder, 1)
    step = p.ask("OPEN", folder + path, READ | WRITE, {})
    yield step
    yield p.ask("FSETSTAT", step.opened(), odd(p))
    yield p.ask("FSTAT", step.opened())
    yield p.ask("CLOSE", step.opened())
    yield p.ask("RENAME", folder + path, folder + new)
    yield p.ask("LSTAT", folder + new)
    yield p.ask("SETSTAT", folder, odd(p))
    yield p.ask("LSTAT", folder)


def odd(p):
    """Times of odd seconds."""
    return {"times": tuple(one + 1 for one in times(p)["times"])}


# The name of this scene.
ODD = "dated-oddly"

# Each session has one of them: as in `planner.PERIODS`.
PERIODS = [("transfers", dated_file, 3, 1), ("transfers", dated_upload, 3, 2), ("transfers", dated_folder, 3, 0)]

# These come apart from the others, since the times of one thing are followed at a time.
MORE = [("transfers", dated_sync, 7, 2), ("transfers", dated_whole, 7, 6), ("odd-seconds", dated_oddly, 7, 3)]
