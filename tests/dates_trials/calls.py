"""What each request does to times, on the tree and by OpenSSH's sftp-server on a folder; times in the names of open
directories."""
import subprocess

from dates_trials.rooms import DIRECTORIES, FILES, LINK, OLD, OLDER, PROGRAM, fill
from sftpv3 import codec
from trials.other_servers import has_openssh

CREAT, TRUNC, EXCL, READ, WRITE = codec.CREAT, codec.TRUNC, codec.EXCL, codec.READ, codec.WRITE
# Times that are given, of access and of modification.
GIVEN = (1_100_000_000, 1_200_000_000)


def written(server, path, data):
    handle = server.open(path, WRITE)
    server.ask("WRITE", handle, 2, data)
    server.ask("CLOSE", handle)


def set_open(server, path, given):
    handle = server.open(path, WRITE)
    server.ask("FSETSTAT", handle, given)
    server.ask("CLOSE", handle)


def opened(server, path, flags, given=None):
    server.ask("CLOSE", server.open(path, flags, given))


def written_without_name(server):
    """A file loses its name, is written to, and a new file gets the name."""
    handle = server.open(b"/f", WRITE)
    server.ask("REMOVE", b"/f")
    opened(server, b"/f", WRITE | CREAT)
    server.ask("SETSTAT", b"/f", {"times": GIVEN})
    server.ask("WRITE", handle, 0, b"x")
    server.ask("CLOSE", handle)


def moved_over_itself(server):
    server.ask("HARDLINK", b"/f", b"/e/f")
    for path in (b"/e", b"/f"):
        server.ask("SETSTAT", path, {"times": (OLDER, OLD)})
    server.ask("POSIX-RENAME", b"/f", b"/e/f")


def emptied(server):
    server.ask("RMDIR", b"/e/inner")
    server.ask("SETSTAT", b"/e", {"times": GIVEN})
    server.ask("SETSTAT", b"/", {"times": (OLDER, OLD)})


def replaced(server):
    """An empty directory takes the place of another, whose times go with it."""
    emptied(server)
    server.ask("MKDIR", b"/n", {})
    server.ask("SETSTAT", b"/n", {"times": (OLD, OLDER)})
    server.ask("SETSTAT", b"/", {"times": (OLDER, OLD)})
    server.ask("POSIX-RENAME", b"/e", b"/n")


def made_again(server):
    """What is made where something was removed has none of its times."""
    server.ask("SETSTAT", b"/e/inner", {"times": GIVEN})
    server.ask("RMDIR", b"/e/inner")
    server.ask("MKDIR", b"/e/inner", {})


def moved_deep(server):
    server.ask("SETSTAT", b"/e/inner", {"times": GIVEN})
    server.ask("RENAME", b"/e", b"/d/e")


# What is asked, by what it says; and where it has a result that is known besides, which times what has behind it:
# `now`, `old`, or as given, of access and of modification.
CALLS = {
    "WRITE modifies its file": (lambda it: written(it, b"/f", b"xy"), {b"/f": ("old", "now")}),
    "WRITE of no bytes changes none": (lambda it: written(it, b"/f", b""), {b"/f": ("old", "old")}),
    "FSETSTAT of a size modifies": (lambda it: set_open(it, b"/f", {"size": 3}), {b"/f": ("old", "now")}),
    "FSETSTAT of times gives them": (lambda it: set_open(it, b"/f", {"times": GIVEN}), {b"/f": GIVEN}),
    "SETSTAT of a shorter size modifies": (lambda it: it.ask("SETSTAT", b"/f", {"size": 3}), {b"/f": ("old", "now")}),
    "SETSTAT of a longer size modifies": (lambda it: it.ask("SETSTAT", b"/f", {"size": 30}), {b"/f": ("old", "now")}),
    "SETSTAT of size and times gives these": (
        lambda it: it.ask("SETSTAT", b"/f", {"size": 3, "times": GIVEN}), {b"/f": GIVEN}),
    "SETSTAT of permissions changes none": (
        lambda it: it.ask("SETSTAT", b"/f", {"permissions": 0o600}), {b"/f": ("old", "old")}),
    "SETSTAT of a directory's times": (lambda it: it.ask("SETSTAT", b"/e", {"times": GIVEN}), {b"/e": GIVEN}),
    "SETSTAT of the root's times": (lambda it: it.ask("SETSTAT", b"/", {"times": GIVEN}), {b"/": GIVEN}),
    "SETSTAT follows a link": (
        lambda it: it.ask("SETSTAT", LINK, {"times": GIVEN}), {b"/f": GIVEN, LINK: ("now", "now")}),
    "OPEN changes none": (lambda it: opened(it, b"/f", READ), {b"/f": ("old", "old"), b"/": ("old", "old")}),
    "OPEN with CREAT of what is there changes none": (
        lambda it: opened(it, b"/f", WRITE | CREAT), {b"/f": ("old", "old"), b"/": ("old", "old")}),
    "OPEN with TRUNC modifies": (
        lambda it: opened(it, b"/f", WRITE | CREAT | TRUNC), {b"/f": ("old", "now"), b"/": ("old", "old")}),
    "OPEN makes a file: it and its directory are new": (
        lambda it: opened(it, b"/d/n", WRITE | CREAT), {b"/d/n": ("now", "now"), b"/d": ("old", "now")}),
    "OPEN with EXCL makes a file": (
        lambda it: opened(it, b"/d/n", WRITE | CREAT | EXCL), {b"/d/n": ("now", "now"), b"/d": ("old", "now")}),
    "MKDIR: the directory and that above it": (
        lambda it: it.ask("MKDIR", b"/e/n", {}),
        {b"/e/n": ("now", "now"), b"/e": ("old", "now"), b"/": ("old", "old")}),
    "RMDIR modifies the directory above": (lambda it: it.ask("RMDIR", b"/e/inner"), {b"/e": ("old", "now")}),
    "REMOVE modifies the directory above": (lambda it: it.ask("REMOVE", b"/d/g"), {b"/d": ("old", "now")}),
    "REMOVE of a link": (lambda it: it.ask("REMOVE", LINK), {b"/": ("old", "now"), b"/f": ("old", "old")}),
    "SYMLINK: the link and the directory above": (
        lambda it: it.ask("SYMLINK", b"f", b"/d/l"), {b"/d": ("old", "now"), b"/d/l": ("now", "now")}),
    "RENAME of a file modifies both directories": (
        lambda it: it.ask("RENAME", b"/d/g", b"/e/g"),
        {b"/d": ("old", "now"), b"/e": ("old", "now"), b"/e/g": ("old", "old"), b"/": ("old", "old")}),
    "RENAME of a directory: what is below it moves with it": (
        moved_deep, {b"/d": ("old", "now"), b"/": ("old", "now"), b"/d/e": ("old", "old"), b"/d/e/inner": GIVEN}),
    "posix-rename replaces a file": (
        lambda it: it.ask("POSIX-RENAME", b"/d/g", b"/f"),
        {b"/d": ("old", "now"), b"/": ("old", "now"), b"/f": ("old", "old")}),
    "posix-rename replaces an empty directory": (replaced, {b"/": ("old", "now"), b"/n": GIVEN}),
    "posix-rename of one name of a file over the other": (
        moved_over_itself, {b"/f": ("old", "old"), b"/e": ("old", "old")}),
    "hardlink modifies the directory of the new name": (
        lambda it: it.ask("HARDLINK", b"/f", b"/e/h"), {b"/e": ("old", "now"), b"/e/h": ("old", "old")}),
    "a WRITE through one name shows at the other": (
        lambda it: (it.ask("HARDLINK", b"/f", b"/e/h"), written(it, b"/f", b"x")), {b"/e/h": ("old", "now")}),
    "a file without a name is none of a new one": (written_without_name, {b"/f": GIVEN}),
    "what is made again is new": (made_again, {b"/e/inner": ("now", "now")}),
}
# What OpenSSH's server leaves out, and the draft has: times that OPEN and MKDIR give.
OWN = {
    "OPEN gives a new file times": (
        lambda it: opened(it, b"/n", WRITE | CREAT, {"times": GIVEN}), {b"/n": GIVEN, b"/": ("old", "now")}),
    "MKDIR gives a new directory times": (
        lambda it: it.ask("MKDIR", b"/e/n", {"times": GIVEN}), {b"/e/n": GIVEN, b"/e": ("old", "now")}),
}
SHOWN = {OLD: "old", OLDER: "old"}


def seen(server, places, start):
    """The times that places have: `now`, `old`, or as they were given."""
    found = {}
    for path in places:
        times = server.times(path)
        found[path] = times and tuple("now" if it >= start else SHOWN.get(it, it) for it in times)
    return found


def tried(room, server, call, places):
    start = room.now()
    fill(server)
    call(server)
    found = seen(server, places, start)
    server.end()
    return found


def by_tree(steps, room):
    for name, (call, expected) in {**CALLS, **OWN}.items():
        found = tried(room, room.tree("--times"), call, expected)
        steps.check(f"{name}: {said(expected)}", found == expected, said(found))


def by_openssh(steps, room):
    """What the trials expect is what OpenSSH's server has on a folder."""
    if not has_openssh(steps):
        return
    for name, (call, expected) in CALLS.items():
        found = tried(room, room.openssh(), call, expected)
        steps.check(f"OpenSSH's server: {name}", found == expected, said(found))


def said(found):
    return ", ".join(f"{path.decode()} {' '.join(map(str, times or ['none']))}" for path, times in found.items())


def shown_everywhere(steps, room):
    """STAT, LSTAT and FSTAT show the same times, and without the option none."""
    for more, expected in ((["--times"], (OLDER, OLD)), ([], None)):
        told, server = " ".join(more) or "without --times", room.tree(*more)
        fill(server)
        for path in (*FILES, *DIRECTORIES, b"/"):
            shown = {server.times(path, name) for name in ("STAT", "LSTAT")}
            steps.check(f"{told}: STAT and LSTAT of {path.decode()}", shown == {expected}, shown)
        handle = server.open(b"/f", READ)
        shown = server.ask("FSTAT", handle).fields[0].get("times")
        steps.check(f"{told}: FSTAT", shown == expected, shown)
        server.end()


# How many names a long listing has.
MANY = 300


def in_names(steps, room):
    server = room.tree("--times")
    fill(server)
    found = server.listing(b"/")
    expected = {it[1:]: server.times(it) for it in (*DIRECTORIES, *FILES, b"/l") if it.count(b"/") == 1}
    steps.check("READDIR has the times of LSTAT", found == expected, f"{found}, not {expected}")
    server.end()


def in_many_names(steps, room):
    """Each name has its own times, over many replies."""
    server = room.tree("--times")
    for number in range(MANY):
        path = b"/%d" % number
        if number % 3:
            server.ask("CLOSE", server.open(path, codec.WRITE | codec.CREAT, {"times": (number, OLD + number)}))
        else:
            server.ask("MKDIR", path, {"times": (number, OLD + number)})
    found = server.listing(b"/")
    expected = {b"%d" % it: (it, OLD + it) for it in range(MANY)}
    steps.check(f"each of {MANY} names has its own times", found == expected,
                [it for it in expected if found.get(it) != expected[it]][:3])
    server.end()


def while_open(steps, room):
    """A listing has the times of when its directory was opened, as it has the sizes of then."""
    server = room.tree("--times")
    fill(server)
    handle = server.ask("OPENDIR", b"/").fields[0]
    server.ask("SETSTAT", b"/f", {"times": (1, 2), "size": 1})
    items = {name: given for name, _, given in server.ask("READDIR", handle).fields[0]}
    steps.check("READDIR has the times of OPENDIR", items[b"f"]["times"] == (OLDER, OLD) and items[b"f"]["size"] == 10,
                items[b"f"])
    server.end()


def in_lines(steps, room):
    """Long names have the date of the last modification, as `date` has it."""
    server = room.tree("--times", "--long-names")
    moments = (0, 951_782_400, OLD, 4_102_444_799, 4_294_967_295)
    for moment in moments:
        server.ask("MKDIR", b"/%d" % moment, {"times": (1, moment)})
    handle = server.ask("OPENDIR", b"/").fields[0]
    lines = {name: line for name, line, _ in server.ask("READDIR", handle).fields[0]}
    for moment in moments:
        date = subprocess.run(["date", "-u", "-d", f"@{moment}", "+%b %e  %Y"], env={"LC_ALL": "C"},
                              stdout=subprocess.PIPE, check=True).stdout.strip()
        line = lines[b"%d" % moment]
        steps.check(f"the long name of {moment} has {date.decode()}", b" %s %d" % (date, moment) in line, line)
    server.end()


def audited(steps, room):
    """A session with times is accepted with the tree that it left, but for the times."""
    tree, end, record = (str(room.folder / it) for it in ("t", "end", "record"))
    server = room.tree("--times", "--record", record, "--save", end)
    fill(server)
    server.listing(b"/")
    server.times(b"/f")
    server.end()
    ran = subprocess.run([PROGRAM, "audit", "--tree", tree, "--transcript", record, "--out", end + "2"],
                         stdout=subprocess.PIPE, text=True)
    same = subprocess.run([PROGRAM, "diff", end, end + "2"], stdout=subprocess.PIPE, text=True)
    steps.check("audit accepts the session with the tree that it left", ran.returncode == same.returncode == 0,
                ran.stdout + same.stdout)


TRIALS = (by_tree, by_openssh, shown_everywhere, in_names, in_many_names, while_open, in_lines, audited)
