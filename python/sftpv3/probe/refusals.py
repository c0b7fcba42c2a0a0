"""Requests that some cause refuses: docs/PROTOCOL.md has the causes. Each function yields the steps of one, the last of
which is to be refused; it yields none if the tree has nothing to try it on."""
from sftpv3 import codec
from sftpv3.probe.model import DIRECTORY, FAR, FILE, LINK

READ, WRITE, APPEND, CREAT, TRUNC, EXCL = (
    codec.READ, codec.WRITE, codec.APPEND, codec.CREAT, codec.TRUNC, codec.EXCL)

CAUSES = {
    "BadFlags", "BadHandle", "BadPath", "Exists", "Inside", "IsDir", "Loop", "NoEntry", "NoRoom", "NotDir", "NotEmpty",
    "NotFile", "NotLink", "NotOpenFor", "Root", "Unknown", "WrongKind",
}

# Requests of one path, with what follows it.
ONE_PATH = [
    ("OPEN", READ, {}), ("LSTAT",), ("STAT",), ("SETSTAT", {"permissions": 0o600}), ("OPENDIR",), ("REMOVE",),
    ("MKDIR", {}), ("RMDIR",), ("REALPATH",), ("READLINK",),
]
TWO_PATHS = ["RENAME", "POSIX-RENAME", "HARDLINK"]


def with_path(p, path, cause, among=None):
    """A request that takes this path, or has it as one of its two."""
    names = among or [words[0] for words in ONE_PATH] + TWO_PATHS + ["SYMLINK"]
    name = p.random.choice(names)
    if name in TWO_PATHS:
        other = p.path(p.random.choice([p.file, p.free])())
        return p.ask(name, *p.random.choice([(path, other), (other, path)]), cause=cause)
    if name == "SYMLINK":
        return p.ask(name, b"f", path, cause=cause)
    return p.ask(name, path, *next(words[1:] for words in ONE_PATH if words[0] == name), cause=cause)


def bad_flags(p):
    """OPEN with flags that say nothing, or that no version has."""
    flags = p.random.choice([0, CREAT, READ | TRUNC, READ | EXCL, WRITE | TRUNC, READ | APPEND, READ | CREAT | TRUNC,
                             READ | 64, WRITE | 0x80000000])
    yield p.ask("OPEN", p.path(p.idle_file()), flags, {}, cause="BadFlags")


def bad_path(p):
    """Names and paths that are too long, and empty targets."""
    path = p.random.choice([b"/" + b"l" * 256, b"/x" * 2100, b"/d/" + b"m" * 300 + b"/x"])
    if p.random.random() < 0.2:
        yield p.ask("SYMLINK", p.random.choice([b"", b"/x" * 2100]), p.path(p.free()), cause="BadPath")
    else:
        yield with_path(p, path, "BadPath")


def nul_path(p):
    """A path with a byte of 0."""
    if p.random.random() < 0.1:
        yield p.ask("SYMLINK", b"f\0", p.path(p.free()), cause="BadPath")
    else:
        yield with_path(p, p.random.choice([b"/f\0", b"/\0", b"/f\0g"]), "BadPath")


def long_target(p):
    """A target of a link with a name that is too long."""
    yield p.ask("SYMLINK", b"t" * 300, p.path(p.free()), cause="BadPath")


def no_entry(p):
    """Paths at which nothing is, and paths below them."""
    place = p.free()
    needs = ["OPEN", "LSTAT", "STAT", "SETSTAT", "OPENDIR", "REMOVE", "RMDIR", "READLINK"]
    if p.random.random() < 0.5:
        yield with_path(p, p.path(place), "NoEntry", needs)
    elif p.random.random() < 0.5:
        yield p.ask(p.random.choice(TWO_PATHS), p.path(place), p.path(p.free()), cause="NoEntry")
    else:
        yield with_path(p, p.path(place + (b"x",)), "NoEntry")


def not_dir(p):
    """A file that is asked for as a directory, and paths below it."""
    place = p.file()
    if place is None:
        return
    path = p.path(place)
    if p.random.random() < 0.5:
        yield p.ask(p.random.choice(["OPENDIR", "RMDIR"]), path, cause="NotDir")
    else:
        yield with_path(p, path + p.random.choice([b"/x", b"/.", b"/..", b"/../d"]), "NotDir")


def loop(p):
    """Links that lead round in a ring, and paths through them."""
    rings = [place for place in p.model.of_kind(LINK) if p.model.walk(b"/" + b"/".join(place), True) is None]
    if not rings:
        return
    path = p.path(p.random.choice(rings))
    if p.random.random() < 0.5:
        yield with_path(p, path, "Loop", ["STAT", "SETSTAT", "REALPATH", "OPENDIR", "OPEN"])
    else:
        yield with_path(p, path + b"/x", "Loop")


def exists(p):
    """Places that are taken, for what makes something there."""
    place = p.path(p.random.choice([p.file, p.directory, p.link])())
    yield p.random.choice([
        p.ask("MKDIR", place, {}, cause="Exists"),
        p.ask("SYMLINK", b"f", place, cause="Exists"),
        p.ask("OPEN", place, WRITE | CREAT | EXCL, {}, cause="Exists"),
        p.ask("RENAME", p.path(p.file()), place, cause="Exists"),
        p.ask("HARDLINK", p.path(p.file()), place, cause="Exists"),
    ])


def excl_dangling(p):
    """EXCL asks that nothing is at the place, and a link is, which leads to where a file might be made."""
    aims = {link: p.model.walk(b"/" + b"/".join(link), True) for link in p.model.of_kind(LINK)}
    links = [link for link, aim in aims.items() if aim is not None and not p.model.at(aim)]
    if links:
        yield p.ask("OPEN", p.path(p.random.choice(links)), WRITE | CREAT | EXCL, {}, cause="Exists")


def is_dir(p):
    """A directory that is asked for as a file."""
    place = p.path(p.directory())
    yield p.random.choice([
        p.ask("REMOVE", place, cause="IsDir"),
        p.ask("OPEN", place, p.random.choice([READ, WRITE, READ | WRITE, WRITE | CREAT, WRITE | CREAT | TRUNC]), {},
              cause="IsDir"),
        p.ask("POSIX-RENAME", p.path(p.file()), place, cause="IsDir"),
    ])


def not_link(p):
    """READLINK of a file or of a directory."""
    yield p.ask("READLINK", p.path(p.random.choice([p.file, p.directory])()), cause="NotLink")


def not_file(p):
    """Sizes and further names of what is no file."""
    place = p.path(p.directory())
    yield p.random.choice([
        p.ask("SETSTAT", place, {"size": 0}, cause="NotFile"),
        p.ask("SETSTAT", place, {"size": 3, "permissions": 0o700}, cause="NotFile"),
        p.ask("HARDLINK", place, p.path(p.free()), cause="NotFile"),
        p.ask("HARDLINK", p.path(p.link()), p.path(p.free()), cause="NotFile"),
    ])


def not_empty(p):
    """RMDIR of a directory with names, and posix-rename onto one."""
    full = [place for place in p.model.of_kind(DIRECTORY) if place and p.model.below(place)]
    others = [place for place in p.model.of_kind(DIRECTORY) if place]
    if not full:
        return
    place = p.path(p.random.choice(full))
    yield p.random.choice([
        p.ask("RMDIR", place, cause="NotEmpty"),
        p.ask("POSIX-RENAME", p.path(p.random.choice(others)), place, cause="NotEmpty"),
    ])


def root(p):
    """The root, removed, renamed and replaced."""
    path = p.random.choice([b"/", b"//", b"/.", b"/..", b"/d/.."])
    yield p.random.choice([
        p.ask("RMDIR", path, cause="Root"),
        p.ask("REMOVE", path, cause="Root"),
        p.ask("RENAME", path, p.path(p.free()), cause="Root"),
        p.ask("POSIX-RENAME", p.path(p.directory()), path, cause="Root"),
    ])


def inside(p):
    """A directory that is to go below itself."""
    inner = [place for place in p.model.of_kind(DIRECTORY) if place]
    if inner:
        place = p.random.choice(inner)
        below = place + (p.random.choice([b"a", b"in"]),)
        yield p.ask(p.random.choice(["RENAME", "POSIX-RENAME"]), p.path(place), p.path(below), cause="Inside")


def by_handle(p, handle, cause, among=None):
    """A request through a handle."""
    yield p.random.choice(among or [
        p.ask("CLOSE", handle, cause=cause), p.ask("READ", handle, 0, 10, cause=cause),
        p.ask("WRITE", handle, 0, b"no", cause=cause), p.ask("FSTAT", handle, cause=cause),
        p.ask("FSETSTAT", handle, {"permissions": 0o600}, cause=cause), p.ask("READDIR", handle, cause=cause),
        p.ask("FSYNC", handle, cause=cause),
    ])


def bad_handle(p):
    """Handles that were never given, and those that were closed."""
    # a handle that was closed is tried at most as a name that the server may have given again
    handle = p.random.choice([b"", b"?", b"never opened", b"\xff" * 4, b"h" * 256, b"\xff" * 12])
    if p.closed and p.random.random() < 0.6:
        handle = p.random.choice(p.closed)
    yield from by_handle(p, handle, "BadHandle")


def wrong_kind(p):
    """A directory's handle where a file's is meant, and the other way round."""
    kind = p.random.choice([FILE, DIRECTORY])
    handle = p.handle(kind)
    if handle and kind == FILE:
        yield p.ask("READDIR", handle, cause="WrongKind")
    elif handle:
        yield from by_handle(p, handle, "WrongKind", [
            p.ask("READ", handle, 0, 10, cause="WrongKind"), p.ask("WRITE", handle, 0, b"no", cause="WrongKind"),
            p.ask("FSTAT", handle, cause="WrongKind"), p.ask("FSYNC", handle, cause="WrongKind"),
            p.ask("FSETSTAT", handle, {"permissions": 0o700}, cause="WrongKind"),
        ])


def not_open_for(p):
    """READ through a handle that is open to write alone, and the other way round."""
    handle = p.handle(FILE, READ)
    if handle and not p.opened[handle.step].flags & WRITE:
        yield p.random.choice([p.ask("WRITE", handle, 0, b"no", cause="NotOpenFor"),
                               p.ask("FSETSTAT", handle, {"size": 0}, cause="NotOpenFor")])
    handle = p.handle(FILE, WRITE)
    if handle and not p.opened[handle.step].flags & READ:
        yield p.ask("READ", handle, 0, 10, cause="NotOpenFor")


def no_room(p):
    """No system has room for this."""
    yield growing(p, p.random.choice([FAR, FAR + 1, 2 ** 64]))


def too_large(p):
    """The tree has no room for this, but a server may."""
    yield growing(p, p.random.choice([p.model.largest + 1, 2 ** 31, 2 ** 32 + 1, 2 ** 62]))


def growing(p, length):
    """A request that makes a file as long as this."""
    handle, size = p.handle(FILE, WRITE), {"size": min(length, 2 ** 64 - 1)}
    if handle and p.random.random() < 0.5:
        return p.random.choice([p.ask("WRITE", handle, length - 1, b"x", cause="NoRoom"),
                                p.ask("FSETSTAT", handle, size, cause="NoRoom")])
    return p.ask("SETSTAT", p.path(p.file()), size, cause="NoRoom")


def unknown(p):
    """Extensions that nobody has."""
    name = p.random.choice([b"unheard-of@example.org", b"", b"check-file", b"x" * 300])
    yield p.ask("EXTENDED", name, p.random.choice([b"", b"\0\0\0\1f"]), cause="Unknown")
