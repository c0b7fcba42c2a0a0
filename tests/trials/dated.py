"""Short sessions that set times, and what `probe/set_times.py` has to find in them: the words, or nothing."""
from sftpv3 import codec
from sftpv3.codec import Packet
from sftpv3.probe import set_times

SET, OTHER = (1_900_000_000, 1_000_000_000), (1_900_000_000, 1_000_000_002)
FILE, LINK, FOLDER = 0o100644, 0o120777, 0o040755
ACCESS, MODIFICATION, SWAPPED = set_times.ACCESS, set_times.MODIFICATION, set_times.SWAPPED


def ask(number, name, *fields):
    return codec.CLIENT, codec.request(number, name, *fields)


def reply(number, name, *fields):
    return codec.SERVER, codec.encode(Packet(number, name, list(fields)))


def status(number, code=codec.OK):
    return codec.SERVER, codec.status(number, code)


def shown(number, times, permissions=FILE):
    given = {"size": 3, "owner": (0, 0), "permissions": permissions}
    return reply(number, "ATTRS", given if times is None else {**given, "times": times})


def done(number, name, *fields):
    """A request that is told done."""
    return [ask(number, name, *fields), status(number)]


def opened(number, name, path, handle, *more):
    return [ask(number, name, path, *more), reply(number, "HANDLE", handle)]


def seen(number, name, thing, times, permissions=FILE):
    return [ask(number, name, thing), shown(number, times, permissions)]


def listed(number, handle, name, times, permissions=FILE):
    item = (name, name, {"size": 3, "owner": (0, 0), "permissions": permissions, "times": times})
    return [ask(number, "READDIR", handle), reply(number, "NAME", [item])]


SETTING = done(1, "SETSTAT", b"/d/f", {"times": SET})
OPEN = opened(2, "OPEN", b"/d/f", b"h", codec.READ | codec.WRITE, {})
LISTING = opened(2, "OPENDIR", b"/d", b"h")
STAT = seen(9, "STAT", b"/d/f", OTHER)

SESSIONS = [
    ("what was set is shown", SETTING + seen(9, "STAT", b"/d/f", SET), None),
    ("another time of modification", SETTING + STAT, MODIFICATION),
    ("another time of access", SETTING + seen(9, "STAT", b"/d/f", (5, SET[1])), ACCESS),
    ("both the other way round", SETTING + seen(9, "STAT", b"/d/f", SET[::-1]), SWAPPED),
    ("LSTAT of a file", SETTING + seen(9, "LSTAT", b"/d/f", OTHER), MODIFICATION),
    ("LSTAT of a link", SETTING + seen(9, "LSTAT", b"/d/f", OTHER, LINK), None),
    ("no times are shown", SETTING + seen(9, "STAT", b"/d/f", None), None),
    ("another path", SETTING + seen(9, "STAT", b"/d/g", OTHER), None),
    ("times are refused", [ask(1, "SETSTAT", b"/d/f", {"times": SET}), status(1, codec.FAILURE)] + STAT, None),
    ("times of 1970", done(1, "SETSTAT", b"/d/f", {"times": (10, 20)}) + STAT, None),
    ("odd seconds, shown as even ones", done(1, "SETSTAT", b"/d/f", {"times": (SET[0], SET[1] + 1)}) + STAT,
     MODIFICATION),
    ("odd seconds, shown as they are", done(1, "SETSTAT", b"/d/f", {"times": (SET[0], SET[1] + 1)})
     + seen(9, "STAT", b"/d/f", (SET[0], SET[1] + 1)), None),
    ("permissions behind them", SETTING + done(3, "SETSTAT", b"/d/f", {"permissions": 0o600}) + STAT, MODIFICATION),
    ("a size behind them", SETTING + done(3, "SETSTAT", b"/d/f", {"size": 2}) + STAT, None),
    ("a WRITE behind them", OPEN + SETTING + done(3, "WRITE", b"h", 0, b"x") + STAT, None),
    ("a WRITE in flight with them", OPEN + [ask(3, "WRITE", b"h", 0, b"x"), *SETTING, status(3)] + STAT, None),
    ("a WRITE in flight with STAT", OPEN + SETTING + [STAT[0], ask(3, "WRITE", b"h", 0, b"x"), STAT[1]], None),
    ("set while STAT is in flight", [STAT[0], *SETTING, STAT[1]], None),
    ("FSTAT through a handle of before", OPEN + SETTING + seen(9, "FSTAT", b"h", OTHER), MODIFICATION),
    ("FSTAT through one of behind", SETTING + OPEN + seen(9, "FSTAT", b"h", OTHER), MODIFICATION),
    ("READ leaves the time of access open", OPEN + SETTING
     + [ask(3, "READ", b"h", 0, 9), reply(3, "DATA", b"abc"), *seen(9, "STAT", b"/d/f", (5, SET[1]))], None),
    ("both the same", done(1, "SETSTAT", b"/d/f", {"times": SET[:1] * 2}) + seen(9, "STAT", b"/d/f", SET[:1] * 2),
     None),
    ("fsync does not modify", OPEN + done(1, "FSETSTAT", b"h", {"times": SET}) + done(3, "FSYNC", b"h") + STAT,
     MODIFICATION),
    ("READ does not modify", OPEN + SETTING + [ask(3, "READ", b"h", 0, 9), reply(3, "DATA", b"abc")] + STAT,
     MODIFICATION),
    ("set by handle, CLOSE does not modify", OPEN + done(1, "FSETSTAT", b"h", {"times": SET}) + done(3, "CLOSE", b"h")
     + STAT, MODIFICATION),
    ("a handle that is another file's by now", OPEN + done(1, "FSETSTAT", b"h", {"times": SET})
     + done(3, "CLOSE", b"h") + opened(4, "OPEN", b"/d/g", b"h", codec.READ, {}) + seen(9, "FSTAT", b"h", OTHER), None),
    ("a handle whose path was moved", OPEN + done(3, "RENAME", b"/d/f", b"/d/g")
     + done(1, "FSETSTAT", b"h", {"times": SET}) + STAT, None),
    ("its new name", SETTING + done(3, "RENAME", b"/d/f", b"/d/g") + seen(9, "STAT", b"/d/g", OTHER), MODIFICATION),
    ("its old name", SETTING + done(3, "RENAME", b"/d/f", b"/d/g") + STAT, None),
    ("a new name elsewhere", SETTING + done(3, "RENAME", b"/d/f", b"/e/f") + seen(9, "STAT", b"/e/f", OTHER), None),
    ("a listing", LISTING + SETTING + listed(9, b"h", b"f", OTHER), MODIFICATION),
    ("a listing of another name", LISTING + SETTING + listed(9, b"h", b"g", OTHER), None),
    ("a listing of a link", LISTING + SETTING + listed(9, b"h", b"f", OTHER, LINK), None),
    ("a directory", done(1, "SETSTAT", b"/d", {"times": SET}) + seen(9, "STAT", b"/d", OTHER, FOLDER), MODIFICATION),
    ("a directory with a new name in it", done(1, "SETSTAT", b"/d", {"times": SET}) + done(3, "MKDIR", b"/d/n", {})
     + seen(9, "STAT", b"/d", OTHER, FOLDER), None),
    ("a reply that is cut", SETTING + [STAT[0], (codec.SERVER, STAT[1][1][:-2])], None),
]


def try_sessions(steps):
    for name, records, wanted in SESSIONS:
        found = [one.found for one in set_times.findings([*codec.BEGUN, *records])]
        steps.check(f"times: {name}", found == ([] if wanted is None else [wanted]), found)
