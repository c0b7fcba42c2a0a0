"""Behind a session that a night refuses or cannot judge: what contradicts the tree is open, and all else is judged to
the byte, from night to night, in sets, and where a program of the machine writes (--volatile)."""
import json
import os
import random

from night_trials.causes import audited, lie, listed
from night_trials.place import ENDS_WELL, USER, rewrite
from night_trials.sets import WRITE, Client, Spooled, ended
from record_trials.steps import PROGRAM
from sftpv3 import codec
from sftpv3.nights import opening
from sftpv3.nights.opening import Known, Open, Pattern, Place
from trials.processes import executable

# How many lies are told behind a refusal, how many of these a night has to refuse, and by which seed.
LIES, LEAST, SEED = 100, 80, 11
HOME = b"/home/u"


def met_a_change(place, name="late"):
    """A session that is refused: it saw a file that another program made."""
    (place.live / name).write_text("by another program")
    client = Client(place.words)
    client.ask("STAT", os.fsencode(place.live / name))
    ended(client)


def goes_on(steps, place):
    """Sessions behind a refusal have verdicts of their own, until all is closed."""
    live = os.fsencode(place.live)
    (place.live / "d").mkdir()
    (place.live / "d/in").write_text("x")
    place.nightly()
    met_a_change(place)
    one = Client(place.words)
    one.put(place.live / "f", b"first")
    listed(one, live)
    ended(one)
    other = Client(place.words)
    other.get(place.live / "late")
    listed(other, live + b"/d")
    ended(other)
    gone = Client(place.words)
    gone.ask("REMOVE", live + b"/late")
    ended(gone)
    last = Client(place.words)
    last.put(place.live / "late", b"again")
    listed(last, live)
    ended(last)
    names = [it.name for it in sorted(place.records.iterdir(), key=lambda it: it.stat().st_mtime)]
    which = f'but for 1 open place ("{place.live}/late"), where '
    place.check(steps, "what comes behind a refusal is judged", 1, f"{names[0]}: refused record 4: NotAllowed",
                f'  open from there on: "{place.live}/late"', f"{names[1]}: accepted 6 requests\n",
                f"{names[2]}: accepted 6 requests {which}3 of them are", f"{names[3]}: accepted 1 requests {which}1 of",
                f"{names[4]}: accepted 6 requests\n", "4 sessions accepted; " + ENDS_WELL + "\n")
    steps.check("nothing is unjudged, and nothing stays open", not place.kept("unjudged") and
                not (place.state / USER / "open").exists(), place.kept("unjudged"))
    place.check(steps, "the next night is as ever", 0, "0 sessions accepted; " + ENDS_WELL)


def lies_elsewhere(steps, place):
    """A lie about another place is refused behind a refusal, and its place is open from there on, too."""
    live = os.fsencode(place.live)
    (place.live / "f").write_bytes(b"right")
    (place.live / "g").write_bytes(b"other")
    place.nightly()
    met_a_change(place)
    client = Client(place.words)
    client.get(place.live / "f")
    ended(client)
    record = max(place.records.iterdir(), key=lambda it: it.stat().st_mtime)
    rewrite(record, lambda data: data.replace(b"right", b"wrong"))
    client = Client(place.words)
    client.get(place.live / "f")
    client.get(place.live / "g")
    listed(client, live)
    ended(client)
    place.check(steps, "a lie about another place is refused, and what comes behind it is judged", 1,
                f"{record.name}: refused record 6: NotAllowed", "expected: DATA",
                'accepted 9 requests but for 2 open places ("', 'where 3 of them are',
                f"{record.name}: cause: the server")


def behind_unjudged(steps, place):
    """Behind a session that could not be judged, all that it may have changed is open."""
    live = os.fsencode(place.live)
    place.nightly()
    for name in ("a", "b"):
        client = Client(place.words)
        client.ask("MKDIR", live + b"/" + name.encode(), {})
        client.ask("STAT", live + b"/a")
        ended(client)
    first = min(place.records.iterdir(), key=lambda it: it.stat().st_mtime)
    mark = place.room / "mark"
    program = executable(place.room / "slow", f'#!/bin/sh\n[ "$1" = audit ] && ! [ -e {mark} ] && touch {mark} && '
                         f'sleep 60\nexec {PROGRAM} "$@"\n')
    place.check(steps, "behind a session that was not judged, what it may have changed is open", 1,
                f"{first.name}: not judged: the audit did not end within 3 seconds", "  open from there on: \"",
                'accepted 2 requests but for 1 open place ("', "where 1 of them are",
                f"{ENDS_WELL}, but for 1 open place", program=program, words=["--audit-seconds", "3"])
    place.check(steps, "the folder tells what was open", 0, "0 sessions accepted; " + ENDS_WELL + "\n")


def over_nights(steps, place):
    """What is open stays so until the folder is compared, also where that is another night."""
    place.nightly()
    met_a_change(place)
    mount = place.start()
    mount.stdin.write(codec.request(1, "OPENDIR", os.fsencode(place.live)))
    place.check(steps, "a session is refused, and one runs: nothing is compared", 1, "refused record 4",
                "the folder is not compared")
    found = json.loads((place.state / USER / "open").read_text())
    steps.check("what is open is kept", found == [[os.fsencode(place.live / "late").hex(), True]], found)
    place.end(mount)
    client = Client(place.words)
    client.get(place.live / "late")
    ended(client)
    place.check(steps, "it is open in the next night", 1, "accepted 3 requests but for 1 open place", "where 3 of them "
                "are", f"{ENDS_WELL}, but for 1 open place")
    place.check(steps, "and closed then", 0, "0 sessions accepted; " + ENDS_WELL + "\n")


def in_sets(steps, place):
    """Sessions that overlap are judged together behind a refusal, and behind a refused set."""
    live = os.fsencode(place.live)
    with Spooled(place) as spool:
        place.nightly()
        (place.live / "late").write_text("x")
        client = spool.client()
        client.ask("STAT", live + b"/late")
        ended(client)
        one, other = spool.client(), spool.client()
        one.put(place.live / "f", b"bytes")
        other.get(place.live / "f")
        other.get(place.live / "late")
        listed(one, live)
        ended(one, other)
        place.check(steps, "a set behind a refusal is judged", 1, "refused record 4", "judged together: accepted 12 "
                    "requests in 2 sessions but for 1 open place", "where 3 of them are")
        one, other = spool.client(), spool.client()
        one.put(place.live / "f", b"newer")
        assert other.get(place.live / "f") == b"newer"
        ended(one, other)
        rewrite(spool.records()[-1], lambda data: data.replace(b"newer", b"older"))
        client = spool.client()
        client.get(place.live / "f")
        client.put(place.live / "g", b"bytes")
        ended(client)
        names = [it.name for it in spool.records()]
        place.check(steps, "of a refused set the others are judged without what the wrong reply tells", 1,
                    f"judged together: refused: {names[1]} record ", f'  open from there on: "{place.live}/f"',
                    f"{names[0]}, judged without that: accepted 6 requests in 2 sessions but for 1 open place (",
                    f"{names[2]}: accepted 6 requests but for 1 open place (", "where 3 of them are",
                    f"{names[1]}: cause: the server", "2 sessions accepted")
        steps.check("and kept so", [it.name for it in place.kept("refused")[2:] if it.suffix == ".transcript"] ==
                    names[1:2], place.kept("refused"))


def volatile(steps, place):
    """What a program of the machine writes is not judged, and all else is."""
    live = os.fsencode(place.live)
    (place.live / "log").mkdir()
    (place.live / "f").write_bytes(b"right")
    (place.live / "log/today").write_text("before the option was given")
    words = ["--volatile", str(place.live / "log"), "--volatile", str(place.live / "*.tmp")]
    place.nightly()
    for _ in range(2):
        (place.live / "log/today").write_text("line\n" * random.randrange(1, 9))
        (place.live / "x.tmp").write_text("x")
        client = Client(place.words)
        client.get(place.live / "log/today")
        client.get(place.live / "x.tmp")
        listed(client, live)
        client.get(place.live / "f")
        ended(client)
        (place.live / "log/more").write_text("y")
        place.check(steps, "what --volatile names may change as it likes", 0, "accepted 12 requests but for what "
                    "--volatile names, where 6 of them are", "1 session accepted; " + ENDS_WELL + "\n", words=words)
    client = Client(place.words)
    client.get(place.live / "log/today")
    client.get(place.live / "f")
    ended(client)
    (record,) = place.records.iterdir()
    rewrite(record, lambda data: data.replace(b"right", b"wrong"))
    place.check(steps, "a lie beside it is refused", 1, "refused record 12: NotAllowed", "expected: DATA", words=words)
    (place.live / "by-hand").write_text("z")
    place.check(steps, "a change beside it is named, and none of it", 1, f'"{place.live}/by-hand" added\n',
                words=words)
    for wrong in ("log", "/", "/a/../b"):
        place.check(steps, f"--volatile {wrong}: status 2", 2, "--volatile: invalid path", words=["--volatile", wrong])


def looked_at(place):
    """The record of a session behind a refusal that looks at all there is, and adds to it."""
    live, client = os.fsencode(place.live), Client(place.words)
    client.get(place.live / "f")
    listed(client, live)
    listed(client, live + b"/d")
    for it in (b"/f", b"/d", b"/d/in", b"/none"):
        client.ask("LSTAT", live + it)
    client.ask("READLINK", live + b"/link")
    client.ask("MKDIR", live + b"/made", {})
    client.put(place.live / "written", b"new bytes")
    client.get(place.live / "written")
    client.get(place.live / "late")
    ended(client)
    return max(place.records.iterdir(), key=lambda it: it.stat().st_mtime)


def lies(steps, place):
    """Of lies that the true tree refuses, most are refused behind a refusal, and no other is about a place that is not
    open."""
    (place.live / "f").write_text("some bytes")
    (place.live / "d").mkdir()
    (place.live / "d/in").write_text("x")
    (place.live / "link").symlink_to("f")
    place.nightly()
    met_a_change(place)
    true, alone = place.room / "true", place.room / "alone"
    record = looked_at(place)
    data = record.read_bytes()
    record.unlink()
    mount = place.start()
    mount.stdin.write(codec.request(1, "OPENDIR", os.fsencode(place.live)))
    place.nightly()
    known = place.state / USER / "tree"
    given = Open([Place(bytes.fromhex(path), whole) for path, whole in
                  json.loads((place.state / USER / "open").read_text())])
    links = Known({os.fsencode(place.live / "link"): b"f"}, {})
    with_late(place, known, true)

    def judged(data, tree):
        alone.write_bytes(data)
        return audited(tree, alone)[0]

    def behind(data):
        left = opening.reduced(data, b"/root", given, links)
        return judged(data if left is None else left.data, known)

    steps.check("the right session is accepted, from the true tree and behind the refusal",
                (judged(data, true), behind(data)) == (0, 0), (judged(data, true), behind(data)))
    found, elsewhere, count = 0, [], 0
    for lied, at in each_lie(data):
        if judged(lied, true) != 1:
            continue
        count += 1
        if behind(lied) == 1:
            found += 1
        elif not is_of_late(place, codec.records(data), at):
            elsewhere.append(at)
        if count == LIES:
            break
    steps.check(f"of {LIES} lies behind a refusal at least {LEAST} are refused: {found}", found >= LEAST, found)
    steps.check("all others are about the open place", not elsewhere, elsewhere)
    place.end(mount)


def with_late(place, known, target):
    """The tree with the file that the other program made: as a session of it would leave it."""
    path = os.fsencode(place.live / "late")
    asked = [codec.request(1, "OPEN", path, WRITE, {}), codec.request(2, "WRITE", b"h", 0, b"by another program"),
             codec.request(3, "CLOSE", b"h")]
    handle = codec.encode(codec.Packet(1, "HANDLE", [b"h"]))
    told = [handle, codec.status(2, 0), codec.status(3, 0)]
    made = place.room / "made"
    made.write_bytes(codec.put_records([*codec.BEGUN, *((side, it) for pair in zip(asked, told)
                                                        for side, it in zip((codec.CLIENT, codec.SERVER), pair))]))
    import subprocess
    subprocess.run([str(it) for it in (PROGRAM, "audit", "--profile", "posix-user", "--new-owner", "posix", "--tree",
                                       known, "--transcript", made, "--out", target)], check=True,
                   stdout=subprocess.DEVNULL)


def each_lie(data):
    """Records with one byte of a reply changed, and where."""
    choose, records = random.Random(SEED), codec.records(data)
    while True:
        at = choose.randrange(2, len(records))
        side, packet = records[at]
        changed = lie(packet, choose) if side == codec.SERVER else None
        if changed is not None:
            yield codec.put_records([*records[:at], (side, changed), *records[at + 1:]]), at


def is_of_late(place, records, at):
    """Whether a reply is about the open place: its session asked of nothing else behind that."""
    late = next(number for number, (_, packet) in enumerate(records) if os.fsencode(place.live / "late") in packet
                and packet[4] == codec.REQUESTS["OPEN"][0])
    return at > late


def reduced(steps, _):
    """What is left out of a transcript, and what is open behind it, worked out by hand."""
    for name, given, exchanges, left, behind in CASES:
        data = codec.put_records([*codec.BEGUN, *wire(exchanges)])
        found = opening.reduced(data, HOME, Open(given), KNOWN)
        kept = [at for at, (asked, _) in enumerate(pairs_of(found.data)) if asked.name != "EXTENDED"]
        steps.check(f"reduced: {name}", kept == left and sorted(found.open.places) == sorted(behind),
                    (kept, list(found.open.places)))
    pattern = Pattern(b"/a/*.log")
    steps.check("a pattern names what is below it, too", [pattern.covers(it) for it in (
        b"/a/x.log", b"/a/x.log/in", b"/a/b/x.log", b"/a/x.logs", b"/a")] == [True, True, False, False, False])


def wire(exchanges):
    for number, (asked, reply) in enumerate(exchanges, 1):
        yield codec.CLIENT, codec.request(number, *asked)
        yield codec.SERVER, codec.encode(codec.Packet(number, *reply))


def pairs_of(data):
    found = codec.records(data)[2:]
    return [(codec.read(*one), codec.read(*other)) for one, other in zip(found[::2], found[1::2])]


GOOD, NONE, FAILED = ("STATUS", [0, b"", b""]), ("STATUS", [2, b"", b""]), ("STATUS", [4, b"", b""])
HANDLE = ("HANDLE", [b"h"])
ATTRS = ("ATTRS", [{"permissions": 0o100644}])
P = Place(b"/p")
# What is known of the tree of these cases.
KNOWN = Known({b"/link": b"/p", b"/far": b"/d/e"}, {b"/d": (1, 2, 0o750)})
# Each case: its name, what is open, the exchanges, the numbers of those that are left, and what is open behind them.
CASES = (
    ("what is at an open place or below it", [P], [(("STAT", b"/p"), ATTRS), (("STAT", b"/p/in"), NONE),
                                                   (("STAT", b"/pp"), ATTRS)], [2], [P]),
    ("a path that is written otherwise", [P], [(("STAT", b"../../x/../p"), ATTRS), (("STAT", b"//p/"), ATTRS)], [],
     [P]),
    ("a link that leads there", [P], [(("STAT", b"/link"), ATTRS), (("LSTAT", b"/link/x"), ATTRS)], [], [P]),
    ("a link that the session made", [P], [(("SYMLINK", b"p", b"/l"), GOOD), (("STAT", b"/l"), ATTRS)], [0], [P]),
    ("a path that leads up behind a link", [Place(b"/d/p")], [(("STAT", b"/far/../p"), ATTRS)], [], [Place(b"/d/p")]),
    ("a handle of an open place, until it is given anew", [P], [
        (("OPEN", b"/p", 1, {}), HANDLE), (("READ", b"h", 0, 9), FAILED), (("CLOSE", b"h"), GOOD),
        (("OPEN", b"/q", 1, {}), HANDLE), (("READ", b"h", 0, 9), FAILED)], [3, 4], [P]),
    ("a file that is moved away takes the open place with it", [P], [
        (("RENAME", b"/p", b"/q"), GOOD), (("STAT", b"/q"), ATTRS), (("STAT", b"/r"), ATTRS)], [2],
     [P, Place(b"/q")]),
    ("one that is moved there leaves an open place", [P], [(("RENAME", b"/q", b"/p"), GOOD), (("STAT", b"/q"), NONE)],
     [], [P, Place(b"/q")]),
    ("one that could not be moved there does not", [P], [(("RENAME", b"/q", b"/p"), FAILED),
                                                         (("STAT", b"/q"), ATTRS)], [1], [P]),
    ("a further name of it", [P], [(("HARDLINK", b"/q", b"/p"), GOOD), (("STAT", b"/q"), ATTRS)], [],
     [P, Place(b"/q")]),
    ("a directory above it that is moved", [Place(b"/d/p")], [(("RENAME", b"/d", b"/e"), GOOD),
                                                               (("STAT", b"/e/p"), ATTRS), (("STAT", b"/e/q"), NONE)],
     [0, 2], [Place(b"/d/p"), Place(b"/e/p")]),
    ("a directory above it that is not empty", [Place(b"/d/p")], [(("RMDIR", b"/d"), FAILED)], [], [Place(b"/d/p")]),
    ("one that was removed", [P], [(("REMOVE", b"/p"), GOOD), (("LSTAT", b"/p"), NONE), (("STAT", b"/p"), ATTRS)],
     [1, 2], []),
    ("one that could not be removed", [P], [(("REMOVE", b"/p"), FAILED), (("LSTAT", b"/p"), ATTRS)], [], [P]),
    ("one that was not there", [P], [(("LSTAT", b"/p"), NONE), (("LSTAT", b"/p"), ATTRS)], [0, 1], []),
    ("one that a STAT did not find may be a link", [P], [(("STAT", b"/p"), NONE), (("LSTAT", b"/p"), ATTRS)], [], [P]),
    ("a directory that was made", [P], [(("MKDIR", b"/p", {}), GOOD), (("STAT", b"/p/in"), NONE)], [0, 1], []),
    ("a file that was made anew", [P], [(("OPEN", b"/p", 42, {}), HANDLE), (("CLOSE", b"h"), GOOD)], [0, 1], []),
    ("a file that was opened to be made", [P], [(("OPEN", b"/p", 26, {}), HANDLE), (("CLOSE", b"h"), GOOD)], [], [P]),
    ("attributes alone", [Place(b"/d", False)], [(("STAT", b"/d"), ATTRS), (("OPENDIR", b"/d"), HANDLE),
                                                 (("FSTAT", b"h"), ATTRS), (("STAT", b"/d/in"), ATTRS)], [1, 3],
     [Place(b"/d", False)]),
)


def entries_of_listings(steps, _):
    """In listings the entries of open places are left out, and no others."""
    names = [(it, b"", {"permissions": 0o100644}) for it in (b".", b"p", b"q")]
    exchanges = [(("OPENDIR", b"/"), HANDLE), (("READDIR", b"h"), ("NAME", [names])),
                 (("READDIR", b"h"), ("NAME", [names[1:2]]))]
    data = codec.put_records([*codec.BEGUN, *wire(exchanges)])
    found = opening.reduced(data, HOME, Open([P]), KNOWN)
    pairs = pairs_of(found.data)
    steps.check("a listing is left without its entry, and one of it alone is left out", [
        it[0] for it in pairs[1][1].fields[0]] == [b".", b"q"] and pairs[2][0].name == "EXTENDED" and
        pairs[2][1].fields[0] == codec.OP_UNSUPPORTED and found.count == 1, pairs)
    exchanges = [(("OPENDIR", b"/"), HANDLE), (("READDIR", b"h"), ("NAME", [[
        (b"d", b"", {"owner": (0, 0), "permissions": 0o040777}), *names[1:]]]))]
    told = opening.reduced(codec.put_records([*codec.BEGUN, *wire(exchanges)]), HOME, Open([Place(b"/d", False)]),
                           KNOWN)
    steps.check("of a directory whose attributes are open, a listing has those that are known",
                pairs_of(told.data)[1][1].fields[0][0][2] == {"owner": (1, 2), "permissions": 0o040750}, told)
    exchanges = [(("OPEN", b"/p", 1, {}), HANDLE), (("OPEN", b"/q", 1, {}), HANDLE)]
    steps.check("where a handle is given twice, nothing is left out", opening.reduced(codec.put_records(
        [*codec.BEGUN, *wire(exchanges)]), HOME, Open([P]), KNOWN) is None)
    steps.check("all records keep their numbers", len(codec.records(found.data)) == len(codec.records(data)))


TRIALS = (reduced, entries_of_listings, goes_on, lies_elsewhere, behind_unjudged, over_nights, in_sets, volatile, lies)
