"""Verdicts on sets that are made by hand."""
import json
import os
import struct

from order_trials import sets
from order_trials.runs import together
from order_trials.sets import ABSENT, OK, Session
from sftpv3.codec import CREAT, READ, WRITE, trees

HANDLE = b"\0\0\0\0"
OPENED = "HANDLE", HANDLE
SHOWN = {"size": 0, "owner": (0, 0), "permissions": 0o100644}


def lock(asked, answered, reply):
    return Session().ask(asked, answered, ("OPEN", b"/lock", READ, {}), reply)


def remover():
    """Removes /lock between the microseconds 100 and 200."""
    return Session().ask(100, 200, ("REMOVE", b"/lock"), OK)


LOCK = [trees.Entry(b"/lock", trees.FILE, b"", 0, 0, 0o644)]


def overlapping(steps, folder):
    """Of two requests in flight together, either may be first."""
    for name, reply in (("before", OPENED), ("after", ABSENT)):
        sets.put(folder, {"a": remover(), "b": lock(150, 250, reply)}, entries=LOCK)
        steps.check(f"an OPEN may be {name} a REMOVE that overlaps it",
                    together(folder) == (0, "accepted 2 requests in 2 sessions"), together(folder))


def in_sequence(steps, folder):
    """A REMOVE that was answered before an OPEN was asked is before it."""
    sets.put(folder, {"a": remover(), "b": lock(1039, 1200, OPENED)}, entries=LOCK)
    found = together(folder)
    steps.check("an OPEN behind a REMOVE is refused, with the two that contradict each other", found == (
        1, 'refused: b.transcript record 4: OPEN "/lock" answered HANDLE is right before a.transcript record 4 '
           '(REMOVE "/lock", OK), which had its reply 839 us earlier'), found)
    told = json.loads(together(folder, "--json")[1])
    steps.check("the same as JSON", told["verdict"] == "refused" and told["record"] == 4
                and told["contradicts"] == {"transcript": "a.transcript", "record": 4}, told)
    steps.check("a tolerance of 838 us does not help", together(folder, "--tolerance", "838")[0] == 1)
    steps.check("one of 839 us does", together(folder, "--tolerance", "839")[0] == 0)


def not_modelled(steps, folder):
    """What the search does not model makes no refusal: a copy, a limit on all bytes, how deep a directory moves."""
    late = {"a": remover(), "b": lock(1039, 1200, OPENED)}
    copied = Session().ask(1, 9, ("EXTENDED", b"copy-data", b""), ("STATUS", 8, b"", b""))
    sets.put(folder, {**late, "c": copied}, entries=LOCK)
    status, said = together(folder)
    steps.check("with a request that copies, no set is refused", status == 4 and "copy-data" in said, said)
    sets.put(folder, late, entries=LOCK)
    os.remove(os.path.join(folder, "set", "c.transcript"))
    os.remove(os.path.join(folder, "set", "c.times"))
    trees.write(trees.Tree(LOCK, limits=(*trees.USUAL, 16_777_216)), os.path.join(folder, "start.tree"))
    status, said = together(folder)
    steps.check("nor with a limit on the bytes of all files", status == 4 and "limit on the bytes" in said, said)
    deep = b"/d" * 21
    moved = Session().ask(1, 9, ("RENAME", deep, b"/e"), ABSENT)
    sets.put(folder, {**late, "c": moved}, entries=[*LOCK, *(trees.Entry(b"/d" * at, trees.DIRECTORY)
                                                            for at in range(1, 24))])
    status, said = together(folder)
    steps.check("nor where a directory moves that may be too deep", status == 4 and "deep" in said, said)


def beyond(steps, folder):
    """A refusal is none where the audit would say NotModelled, or where nobody knows what was done."""
    late = {"a": remover(), "b": lock(1039, 1200, OPENED)}
    posix = ("--profile", "posix")
    many = Session()
    for at in range(trees.USUAL[3] + 1):
        many.ask(0, 0, ("OPEN", b"/lock", READ, {}), ("HANDLE", struct.pack(">I", at)))
    sets.put(folder, {**late, "c": many}, entries=LOCK)
    found = together(folder, *posix)
    steps.check("no set of more handles than the tree allows is refused", found[0] == 4 and "beyond" in found[1], found)
    steps.check("strictly they are", together(folder)[0] == 1)
    for name, session, word in (
            ("an extension that did something", Session().ask(1, 9, ("EXTENDED", b"x@y", b""), OK), "extension"),
            ("a CLOSE without a reply, and its handle", Session().ask(1, 9, ("OPEN", b"/lock", READ, {}), OPENED).ask(
                10, None, ("CLOSE", HANDLE), None).ask(11, 19, ("FSTAT", HANDLE), ABSENT), "without a reply"),
            ("a SETSTAT without a reply", Session().ask(
                1, None, ("SETSTAT", b"/lock", {"size": 1, "permissions": 0}), None), "which fields")):
        sets.put(folder, {**late, "c": session}, entries=LOCK)
        found = together(folder, *posix)
        steps.check(f"nor sets with {name}", found[0] == 4 and word in found[1], found)


def in_pages(steps, folder):
    """A server adds the bytes of a WRITE page by page, and the file shows it."""
    entries = [trees.Entry(b"/f", trees.FILE, bytes(4090), 0, 0, 0o644)]
    for name, place, shown, status in (("between two pages", 4090, 4096, 4), ("within one", 4080, 4086, 1)):
        writer = Session().ask(0, 9, ("OPEN", b"/f", WRITE, {}), OPENED).ask(
            100, 200, ("WRITE", HANDLE, place, b"x" * 14), OK)
        told = "ATTRS", {"size": shown, "owner": (0, 0), "permissions": 0o100644}
        sets.put(folder, {"a": writer, "b": Session().ask(140, 150, ("STAT", b"/f"), told)}, entries=entries)
        found = together(folder, "--profile", "posix")
        steps.check(f"a size in the midst of a WRITE, {name}", found[0] == status, found)


def handles(steps, folder):
    """Both sessions have a handle of the same name, each of its own file."""
    one, other = Session(), Session()
    for at, (session, path, data) in enumerate(((one, b"/f", b"abc"), (other, b"/g", b"xyz"))):
        session.ask(at, 10 + at, ("OPEN", path, READ | WRITE | CREAT, {}), OPENED)
        session.ask(20 + at, 30 + at, ("WRITE", HANDLE, 0, data), OK)
        session.ask(40 + at, 50 + at, ("READ", HANDLE, 0, 9), ("DATA", data))
    sets.put(folder, {"a": one, "b": other})
    steps.check("handles of one name in two sessions", together(folder)[0] == 0, together(folder))


def without_reply(steps, folder):
    """A MKDIR that got no reply was done, or was not."""
    for name, reply, status in (("done", ("ATTRS", {**SHOWN, "permissions": 0o040755}), 0), ("left out", ABSENT, 0),
                                ("something else", ("ATTRS", SHOWN), 1)):
        sets.put(folder, {"a": Session().ask(10, None, ("MKDIR", b"/d", {}), None),
                          "b": Session().ask(100, 200, ("STAT", b"/d"), reply)})
        found = together(folder)
        steps.check(f"a request without a reply is {name}", found[0] == status, found)


def in_parts(steps, folder):
    """A STAT shows the one field of a SETSTAT that was set, and not yet the other."""
    entries = [trees.Entry(b"/f", trees.FILE, b"abc", 0, 0, 0o644)]
    given = {"size": 1, "permissions": 0o600}
    for name, shown, status in (("the size first", (1, 0o644), 0), ("the permissions first", (3, 0o600), 1)):
        told = "ATTRS", {"size": shown[0], "owner": (0, 0), "permissions": 0o100000 | shown[1]}
        sets.put(folder, {"a": Session().ask(0, 100, ("SETSTAT", b"/f", given), OK),
                          "b": Session().ask(40, 50, ("STAT", b"/f"), told)}, entries=entries)
        steps.check(f"a SETSTAT in parts: {name}", together(folder, "--profile", "posix")[0] == status)
        steps.check(f"and whole: {name}", together(folder)[0] == 1)


def torn_set(folder):
    """A READ that shows the first half of one state and the second half of another one."""
    entries = [trees.Entry(b"/f", trees.FILE, b"aaaaaaaa", 0, 0, 0o644)]
    writer = Session().ask(0, 10, ("OPEN", b"/f", WRITE, {}), OPENED)
    writer.ask(100, 200, ("WRITE", HANDLE, 0, b"bbbbbbbb"), OK)
    reader = Session().ask(0, 10, ("OPEN", b"/f", READ, {}), OPENED)
    reader.ask(100, 200, ("READ", HANDLE, 0, 8), ("DATA", b"aaaabbbb"))
    sets.put(folder, {"a": reader, "b": writer}, entries=entries)


def torn(steps, folder):
    """Such a READ is explained in pieces that end where the states do."""
    torn_set(folder)
    steps.check("a torn READ is refused", together(folder)[0] == 1)
    steps.check("--torn 4 explains it", together(folder, "--torn", "4") == (
        0, "accepted 4 requests in 2 sessions, 1 of them in parts"), together(folder, "--torn", "4"))
    steps.check("--torn 3 does not", together(folder, "--torn", "3")[0] == 1)


def orders(steps, folder):
    """An order is written, and judged when it is given."""
    name = os.path.join(folder, "order")
    sets.put(folder, {"a": remover(), "b": lock(150, 250, ABSENT)}, entries=LOCK)
    steps.check("an order is written", together(folder, "--write-order", name)[0] == 0)
    head = b"SFTPOR01" + struct.pack(">I", 2) + b"\0\0\0\1a\0\0\0\1b" + struct.pack(">I", 0)
    right, wrong = struct.pack(">4H", 0, 0, 1, 0), struct.pack(">4H", 1, 0, 0, 0)
    steps.check("its bytes are those of docs/FORMATS.md", sets.read(name) == head + right, sets.read(name))
    steps.check("it is accepted when it is given", together(folder, "--order", name)[0] == 0)
    for why, data in (("a reply that is wrong there", head + wrong), ("a request left out", head + right[:4]),
                      ("one request twice", head + right + right[:4]), ("a session that is none", head + b"\0\5\0\0"),
                      ("a part that is none", head + b"\0\0\0\1" + right[4:]),
                      ("a request left out that was answered", head + b"\0\0\xff\xff" + right[4:])):
        sets.write(name, data)
        found = together(folder, "--order", name)
        steps.check(f"an order is not accepted with {why}", found[0] == 4 and "accepted " not in found[1], found)
    sets.put(folder, {"a": remover(), "b": lock(1039, 1200, OPENED)}, entries=LOCK)
    sets.write(name, head + wrong)
    found = together(folder, "--order", name)
    steps.check("nor with one that the clock contradicts", found[0] == 4 and "place 2" in found[1], found)


# A program that accepts every transcript, but refuses each set; and one that says nothing of sets.
REFUSING = """#!/bin/sh
case " $* " in *" --together "*)
    echo '{"verdict":"refused","transcript":"00001.transcript","record":4,"kind":"Clock","place":2,"text":"why"}'
    exit 1
esac
echo 'accepted 2 requests'
"""
SILENT = """#!/bin/sh
case " $* " in *" --together "*) exit 2 ;; esac
echo 'accepted 2 requests'
"""


def not_by_itself(steps, folder):
    """Nothing is accepted that the program does not accept as a set: of whole requests, and of requests in parts."""
    sets.put(folder, {"a": remover(), "b": lock(150, 250, ABSENT)}, entries=LOCK)
    name = os.path.join(folder, "program")
    for why, text, wanted in (
            ("refuses", REFUSING, (4, "undecided: sftpv3 audit does not accept the order: b.transcript record 4: Clock "
                                      "at place 2: why")),
            ("fails", SILENT, (3, "together: sftpv3 audit ended with status 2:"))):
        sets.write(name, text.encode())
        os.chmod(name, 0o755)
        found = together(folder, program=name)
        steps.check(f"a set that the program {why} is not accepted", (found[0], found[1].strip()) == wanted, found)
    sets.write(name, REFUSING.encode())
    torn_set(folder)
    found = together(folder, "--torn", "4", program=name)
    steps.check("nor is one with requests in parts", found[0] == 4 and "does not accept" in found[1], found)


def bounded(steps, folder):
    sets.put(folder, {"a": remover(), "b": lock(150, 250, ABSENT)}, entries=LOCK)
    found = together(folder, "--steps", "1")
    steps.check("a search that comes to its bound is undecided", found[0] == 4 and "in 1 steps" in found[1], found)


TRIALS = (overlapping, in_sequence, not_modelled, beyond, in_pages, handles, without_reply, in_parts, torn, orders,
          not_by_itself, bounded)
