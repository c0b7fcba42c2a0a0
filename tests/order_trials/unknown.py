"""Sets that an order explains only with changes that no session shows."""
import json
import os

from order_trials import sets
from order_trials.runs import together
from order_trials.sets import ABSENT, OK, Session
from order_trials.verdicts import HANDLE, LOCK, OPENED, lock, remover
from sftpv3.codec import READ, trees

# A lock that is there although it was removed.
LATE = {"a": remover(), "b": lock(1039, 1200, OPENED)}
ALL = ("--others", "/")
TOLD = 'accepted 2 requests in 2 sessions, with 1 unknown change\n  before b.transcript record 4: OPEN "/lock"'


def made(steps, folder):
    """Somebody made the file again, if the options let somebody do that there."""
    sets.put(folder, LATE, entries=LOCK)
    found = together(folder, *ALL)
    steps.check("a change that no session shows explains a set, and is told", found == (0, TOLD), found)
    told = json.loads(together(folder, *ALL, "--json")[1])
    steps.check("the same as JSON", told["unknown_changes"] == [
        {"change": 'OPEN "/lock"', "transcript": "b.transcript", "record": 4}] and told["requests"] == 2
        and told["sessions"] == 2, told)
    steps.check("without --others it is refused", together(folder)[0] == 1)
    for name, words in (("below another path", ("--others", "/other")), ("beside it", ("--others", "/loc")),
                        ("where none may be made", (*ALL, "--most-others", "0"))):
        found = together(folder, *words)
        steps.check(f"nor is it accepted {name}", found[0] == 4 and "changes that others" in found[1], found)
    for name, words in (("the path itself", ("--others", "/lock")),
                        ("one of two", ("--others", "/other", "--others", "/lock"))):
        steps.check(f"it is with {name}", together(folder, *words)[0] == 0)


def none_needed(steps, folder):
    sets.put(folder, {"a": remover(), "b": lock(150, 250, ABSENT)}, entries=LOCK)
    found = together(folder, *ALL, "--write-others", os.path.join(folder, "others"))
    steps.check("a set that needs no such change has none", found == (0, "accepted 2 requests in 2 sessions")
                and not os.path.exists(os.path.join(folder, "others.times")), found)


def as_session(steps, folder):
    """The changes become a session, with which the set is an ordinary one, wherever its name is among the others."""
    for name in ("0", "aa", "z"):
        place = os.path.join(folder, name)
        os.mkdir(place)
        sets.put(place, LATE, entries=LOCK)
        order = os.path.join(place, "order")
        found = together(place, *ALL, "--write-order", order, "--write-others", os.path.join(place, "set", name))
        steps.check(f"the changes are written as a session {name}", found[0] == 0, found)
        found = together(place)
        steps.check("with it the set is an ordinary one", found == (0, "accepted 4 requests in 3 sessions"), found)
        found = together(place, "--order", order)
        steps.check("and the order is accepted", found == (0, "accepted 4 requests in 3 sessions"), found)


def told_by_replies(steps, folder):
    """Each kind of change, by a reply that tells of it."""
    entries = [trees.Entry(b"/d", trees.DIRECTORY), trees.Entry(b"/f", trees.FILE, b"abc", 0, 0, 0o644)]
    shown = {"size": 3, "owner": (0, 0), "permissions": 0o100600}
    reader = Session().ask(0, 9, ("OPEN", b"/f", READ, {}), OPENED).ask(
        10, 20, ("READ", HANDLE, 0, 9), ("DATA", b"axc"))
    longer = Session().ask(0, 9, ("OPEN", b"/f", READ, {}), OPENED).ask(
        10, 20, ("READ", HANDLE, 0, 9), ("DATA", b"ab"))
    for session, count, text in (
            (reader, 1, 'before a.transcript record 6: WRITE "/f" 0, 3 bytes'),
            (longer, 1, 'before a.transcript record 6: SETSTAT "/f" size 2'),
            (Session().ask(0, 9, ("STAT", b"/f"), ("ATTRS", shown)), 1,
             'before a.transcript record 4: SETSTAT "/f" permissions 600, owner 0:0'),
            (Session().ask(0, 9, ("STAT", b"/d"), ABSENT), 1, 'before a.transcript record 4: RMDIR "/d"'),
            (Session().ask(0, 9, ("MKDIR", b"/g/h", {}), OK).ask(10, 19, ("LSTAT", b"/g"), ABSENT), 0, ""),
            (Session().ask(0, 9, ("READLINK", b"/l"), ("NAME", [(b"f", b"f", {})])), 1,
             'before a.transcript record 4: SYMLINK "f" "/l"')):
        sets.put(folder, {"a": session}, entries=entries)
        found = together(folder, *ALL, "--most-others", "1")
        if count:
            steps.check(f"what a reply tells: {text[29:]}", found[0] == 0 and found[1].endswith("\n  " + text), found)
        else:
            steps.check("one change makes no directory and removes it", found[0] == 4, found)


def outside(steps, folder):
    """A link below the path leads out of it: what is there stays."""
    entries = [*LOCK, trees.Entry(b"/in", trees.DIRECTORY), trees.Entry(b"/in/l", trees.LINK, b"/lock")]
    shown = {"size": 0, "owner": (0, 0), "permissions": 0o100600}
    sets.put(folder, {"a": Session().ask(0, 9, ("STAT", b"/in/l"), ("ATTRS", shown))}, entries=entries)
    found = together(folder, "--others", "/in", "--most-others", "2")
    steps.check("nobody changes what a link leads to outside", found[0] == 4, found)
    steps.check("somebody does where that may be changed", together(folder, "--others", "/lock")[0] == 0)


def usage(steps, folder):
    sets.put(folder, LATE, entries=LOCK)
    for words in (["--others", "lock"], ["--others", "/a/../b"], [*ALL, "--order", "x"], ["--write-others", "x"],
                  [*ALL, "--most-others", "x"], [*ALL, "--write-others", os.path.join(folder, "a")]):
        status, said = together(folder, *words)
        steps.check(f"{' '.join(words[:2])} is bad usage", status == 2 and "Traceback" not in said, said)


TRIALS = (made, none_needed, as_session, told_by_replies, outside, usage)
