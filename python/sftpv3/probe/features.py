"""What `--skip` may name, besides requests and causes: features that a request has by itself, and others that it has
by what was planned before it."""
from contextlib import suppress

from sftpv3 import codec
from sftpv3.faults import distant
from sftpv3.probe.model import DIRECTORY, EFFECTS, FAR, FILE, LINK

# Features, and the words of the help.
FEATURES = {
    "nul": "paths with a byte of 0",
    "not-utf-8": "paths and targets of links that are no UTF-8",
    "slash": "paths that end in a slash, or in a dot",
    "long": "paths of 1,024 bytes or more",
    "huge": "offsets and sizes of 2^31 or more",
    "large": "what makes a file larger than the tree has room for",
    "distant": "what makes a file of some GiB that has hardly any bytes",
    "long-read": "READs of more than 32,768 bytes",
    "long-target": "targets of links with a name of more than 255 bytes",
    "owner": "attributes with a user and a group",
    "large-owner": "attributes with a user or a group above 65,535",
    "sticky": "permissions with 01000, the sticky bit",
    "times": "attributes with times of access and modification",
    "odd-seconds": "times of odd seconds, which FAT does not keep",
    "new-owner": "OPEN and MKDIR with a user and a group",
    "new-permissions": "OPEN and MKDIR with permissions",
    "extended-pairs": "attributes with extended pairs",
    "setstat-size": "SETSTAT of a size",
    "size-and-more": "SETSTAT and FSETSTAT of a size together with other attributes",
    "append": "OPEN with APPEND",
    "append-read": "READ through a handle that is open with APPEND",
    "gap": "WRITE behind the end of a file",
    "two-handles": "OPEN of a file that is open already",
    "excl-dangling": "OPEN with EXCL of a link that leads to nothing, where it might make a file",
    "rename-over": "RENAME to a place that is taken",
    "rename-dangling": "RENAME of a link to the place of a link that leads to nothing",
    "rename-over-dangling": "RENAME of anything to the place of a link that leads to nothing",
    "absolute-links": "links with absolute targets",
    "moved-listing": "what moves a directory that is open, or takes its path away",
    "removed-name": "what takes a name out of a directory that is open",
    "removed-open": "RMDIR of a directory that is open",
    "removed-file": "what takes away a name of a file that is open",
    "denying": "permissions that deny something to the owner of a directory or file",
    "realpath-ring": "REALPATH of links that lead round in a ring",
    "transfers": "uploads and downloads in blocks, and what follows them on the same files",
    "crowds": "directories of up to 5,000 names that the session makes",
    "unusual-names": "directories of long, short and unusual names that the session makes",
    "links": "links to a file and a directory, met as the last names of paths",
    "deep": "paths of 30 names",
    "many-handles": "a hundred handles that are open at a time",
    "read-back": "what the session made, read back and listed at its end",
    "lasting": "what a session left, looked at once the server was started again on its files",
}

# What plans of a first run leave out besides: paths with doubled slashes and dots, and those by links.
SPELLINGS = "spellings"

# What a server has room for, and the tree has not: a difference there says nothing of the server. Plans of the probe
# leave it out unless `--also` names it.
BEYOND = {"large", "long-target"}

# What `--also` takes: these, and what a session has besides.
TOGETHER = "two-clients"
ALSO = BEYOND | {TOGETHER}

# The most bytes of a name, and fewer than any system takes for a path.
NAME_LIMIT, PATH_LIMIT = 255, 4096


# Requests without a path and without attributes.
PLAIN = {"CLOSE", "READ", "WRITE", "FSTAT", "READDIR", "FSYNC"}


def of_request(name, fields):
    """The features that a request has by itself."""
    if name in PLAIN:
        found = {"huge"} if any(isinstance(value, int) and value >= 2 ** 31 for value in fields) else set()
        return found | {"long-read"} if name == "READ" and fields[2] > 32768 else found
    paths = [value for value in fields if isinstance(value, bytes)] if name not in ("WRITE", "EXTENDED") else []
    given = next((value for value in fields if isinstance(value, dict)), {})
    numbers = [value for value in fields if isinstance(value, int)] + [given.get("size", 0)]
    found = {
        "nul": any(b"\0" in path for path in paths),
        "not-utf-8": not codec.REQUESTS[name][1].startswith("handle") and not all(map(is_text, paths)),
        "long": any(len(path) >= 1024 for path in paths),
        "slash": any(path.endswith((b"/", b"/.", b"/..")) and path.strip(b"/") for path in paths),
        "owner": "owner" in given,
        "large-owner": max(given.get("owner", (0,))) > 65535,
        "huge": name != "OPEN" and any(number >= 2 ** 31 for number in numbers),
        "long-target": name == "SYMLINK" and len(fields[0]) < PATH_LIMIT and longest_name(fields[0]) > NAME_LIMIT,
        "absolute-links": name == "SYMLINK" and fields[0].startswith(b"/"),
        "sticky": bool(given.get("permissions", 0) & 0o1000),
        "times": "times" in given,
        "new-owner": name in ("OPEN", "MKDIR") and "owner" in given,
        "new-permissions": name in ("OPEN", "MKDIR") and "permissions" in given,
        "extended-pairs": "extended" in given,
        "setstat-size": name == "SETSTAT" and "size" in given,
        "size-and-more": "size" in given and len(given) > 1,
        "append": name == "OPEN" and bool(fields[1] & codec.APPEND),
    }
    return {feature for feature, has in found.items() if has}


def is_text(path):
    """Whether these bytes are UTF-8."""
    with suppress(UnicodeDecodeError):
        path.decode()
        return True
    return False


def longest_name(path):
    return max(len(name) for name in path.split(b"/"))


def of_plan(planner, step):
    """The features that a step has behind what was planned before it."""
    test = TESTS.get(step.name)
    return test(planner, step, *step.fields) if test else set()


def opened_by(planner, handle):
    """What this handle is open for, or None."""
    return planner.opened.get(getattr(handle, "step", None))


def denying(kind, given):
    """Whether permissions for something of this kind deny something to its owner."""
    most = 0o700 if kind == DIRECTORY else 0o600 if kind == FILE else 0
    return {"denying"} if ~given.get("permissions", 0o700) & most else set()


def of_open(planner, _step, path, flags, attributes):
    model, found = planner.model, denying(FILE, attributes)
    place, link = model.walk(path, True), model.at(model.walk(path, False))
    entry = model.at(place)
    if entry and entry.kind == FILE and entry.number in {opened.number for opened in planner.opened.values()}:
        found.add("two-handles")
    if flags & codec.EXCL and flags & codec.CREAT and link and link.kind == LINK and place and not entry:
        found.add("excl-dangling")
    return found


def of_read(planner, _step, handle, _offset, _count):
    opened = opened_by(planner, handle)
    return {"append-read"} if opened and opened.flags & codec.APPEND else set()


def of_write(planner, _step, handle, offset, data):
    opened = opened_by(planner, handle)
    if not data or not opened or not opened.flags & codec.WRITE:
        return set()
    size = planner.model.sizes[opened.number]
    start = size if opened.flags & codec.APPEND else offset
    return of_length(planner, opened.path, start + len(data)) | \
        ({"gap"} if size < start < FAR - len(data) else set())


def of_length(planner, path, length):
    """Whether a server may have room for a file of this length, and the tree has not, and whether it is judged then."""
    is_beyond = planner.model.largest < length < FAR
    return {"distant" if distant.is_meant(path) else "large"} if is_beyond else set()


def of_setstat(planner, _step, path, given):
    entry = planner.model.at(planner.model.walk(path, True))
    # by its text alone, `f/..` of a file is a directory
    kind = entry.kind if entry else DIRECTORY if b".." in path.split(b"/") else None
    return of_length(planner, path, given.get("size", 0)) | denying(kind, given)


def of_fsetstat(planner, _step, handle, given):
    opened = opened_by(planner, handle)
    return of_length(planner, opened and opened.path, given.get("size", 0)) | \
        (denying(opened.kind, given) if opened else set())


def of_mkdir(_planner, _step, _path, given):
    return denying(DIRECTORY, given)


def of_realpath(planner, _step, path):
    return {"realpath-ring"} if planner.model.goes_round(path) else set()


def of_rename(planner, step, old, new):
    model = planner.model
    moved, taken = (model.at(model.walk(path, False)) for path in (old, new))
    found = {"rename-over"} if taken else set()
    if taken and taken.kind == LINK and not model.at(model.walk(new, True)):
        found |= {"rename-over-dangling"} | ({"rename-dangling"} if moved and moved.kind == LINK else set())
    return found | of_move(planner, step, old, new)


def of_move(planner, step, *_paths):
    """Whether behind this step a directory that is open is not where its path leads, or lacks a name."""
    listed = [opened for opened in planner.opened.values() if opened.kind == DIRECTORY]
    if not listed:
        return set()
    before, after, found = planner.model, planner.model.copy(), set()
    EFFECTS[step.name](planner, after, step, *step.fields)
    gone = before.places.keys() - after.places.keys()
    lacking = {place[:-1] for place in gone}
    for opened in listed if gone else ():
        old, new = place_of(before, opened), place_of(after, opened)
        if old is None or new is None:
            continue
        if after.walk(opened.path, True) != new:
            found.add("moved-listing")
        if old in lacking if old == new else before.names_in(old) - after.names_in(new):
            found.add("removed-name")
    return found


def place_of(model, opened):
    """The place of a directory that is open, or None."""
    place = model.walk(opened.path, True)
    return place if model.at(place) is opened.entry else model.place_of(opened.entry)


def of_name(planner, path):
    """Whether a path is a name of a file that is open."""
    entry = planner.model.at(planner.model.walk(path, False))
    is_open = entry and entry.number in {opened.number for opened in planner.opened.values() if opened.kind == FILE}
    return {"removed-file"} if is_open else set()


def of_remove(planner, step, path):
    return of_move(planner, step, path) | of_name(planner, path)


def of_posix_rename(planner, step, old, new):
    return of_move(planner, step, old, new) | of_name(planner, new)


def of_rmdir(planner, step, path):
    entry = planner.model.at(planner.model.walk(path, False))
    is_open = entry and entry.kind == DIRECTORY and any(opened.entry is entry for opened in planner.opened.values())
    return of_move(planner, step, path) | ({"removed-open"} if is_open else set())


TESTS = {
    "OPEN": of_open, "READ": of_read, "WRITE": of_write, "SETSTAT": of_setstat, "FSETSTAT": of_fsetstat,
    "MKDIR": of_mkdir, "REALPATH": of_realpath, "RENAME": of_rename, "POSIX-RENAME": of_posix_rename,
    "REMOVE": of_remove, "RMDIR": of_rmdir,
}
