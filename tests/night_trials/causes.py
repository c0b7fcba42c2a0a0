"""Why a night refuses: paths outside, changes by other programs, a full disk, and servers that lie, which are never
taken for one of the others."""
import os
import random
import subprocess

from night_trials.place import USER, rewrite
from night_trials.sets import WRITE, Client, ended
from record_trials.steps import PROGRAM
from sftpv3 import codec
from sftpv3.nights import causes

# How many lies are told, and by which seed.
LIES, SEED = 100, 7


def outside(steps, place):
    """Sessions that leave the folder."""
    live = os.fsencode(place.live)
    (place.room / "beside").write_text("x")
    (place.live / "out").symlink_to(place.room / "beside")
    for name, ask in (("a path outside", lambda it: it.ask("STAT", b"/etc/passwd")),
                      ("the root's names", lambda it: it.ask("STAT", b"/usr/bin")),
                      ("a link that leads outside", lambda it: it.ask("STAT", live + b"/out"))):
        place.nightly()
        client = Client(place.words)
        ask(client)
        ended(client)
        place.check(steps, f"{name}: the cause is outside", 1, "refused record ", ": cause: outside: the path leaves")


def changed_locally(steps, place):
    """Changes by another program, of which a session meets one."""
    live, new, old = os.fsencode(place.live), place.live / "new", place.live / "old"
    for name, change, ask in (
            ("a file was made", lambda: new.write_text("x"), lambda it: it.ask("STAT", live + b"/new")),
            ("a file was made beside what a session set and could not make", lambda: new.write_text("y"),
             lambda it: (it.ask("MKDIR", live, {}), it.ask("SETSTAT", live, {"permissions": 0o755}),
                         it.ask("STAT", live + b"/new"))),
            ("a file was changed", lambda: old.write_text("changed"), lambda it: it.get(old)),
            ("a file was removed", (place.live / "gone").unlink, lambda it: it.ask("STAT", live + b"/gone")),
            ("a name was made", lambda: (place.live / "d/new").write_text("x"), lambda it: listed(it, live + b"/d"))):
        (place.live / "d").mkdir(exist_ok=True)
        for it in ("old", "gone"):
            (place.live / it).write_text("before")
        new.unlink(missing_ok=True)
        place.nightly()
        change()
        client = Client(place.words)
        ask(client)
        ended(client)
        place.check(steps, f"{name} by another program: the cause is a local change", 1, "refused record ",
                    ": cause: changed locally: the reply shows what the folder has now")


def by_writes(steps, place):
    """A server that stores other bytes, and one whose disk is full."""
    live = os.fsencode(place.live)
    place.nightly()
    client = Client(place.words)
    client.put(place.live / "stored", b"wrong")
    assert client.get(place.live / "stored") == b"wrong"
    ended(client)
    rewrite(next(place.records.iterdir()), lambda data: data.replace(b"wrong", b"right", 1))
    place.check(steps, "a server that stores other bytes than it was given: it is the server, though the folder has "
                "them", 1, "refused record ", ": cause: the server: ")
    place.nightly()
    client = Client(place.words)
    handle = client.open(place.live / "big", WRITE)
    client.ask("WRITE", handle, 0, bytes(1000))
    client.ask("STAT", live + b"/big")
    ended(client)
    rewrite(next(place.records.iterdir()), on_a_full_disk)
    place.check(steps, "a WRITE that fails and is there in part: the cause is a full disk", 1, "refused record ",
                ": cause: a full disk: ")


def listed(client, path):
    handle = client.ask("OPENDIR", path)[9:]
    client.ask("READDIR", handle)
    client.ask("CLOSE", handle)


def on_a_full_disk(data):
    """The WRITE has failed, and the file has a part of its bytes."""
    found, is_write = [], False
    for side, packet in codec.records(data):
        if side == codec.SERVER and is_write:
            packet = codec.status(codec.id_of(packet), codec.FAILURE)
        is_write = side == codec.CLIENT and packet[4] == codec.REQUESTS["WRITE"][0]
        found.append((side, packet.replace(b"\0\0\3\xe8", b"\0\0\1\xf4", 1) if packet[4] == codec.ATTRS else packet))
    return codec.put_records(found)


def lie(packet, choose):
    """The reply, with a byte of what it tells changed, or another code; None if it has nothing that is judged."""
    kind, fields = packet[4], packet[9:]
    if kind == codec.STATUS:
        code = int.from_bytes(fields[:4], "big")
        other = choose.choice([it for it in (codec.OK, codec.EOF, codec.NO_SUCH_FILE) if it != code])
        return packet[:9] + other.to_bytes(4, "big") + fields[4:]
    if kind not in (codec.DATA, codec.NAME, codec.ATTRS) or len(fields) < 5:
        return None
    at = choose.randrange(13 if kind != codec.ATTRS else 13, len(packet))
    return packet[:at] + bytes([packet[at] ^ 1 << choose.randrange(8)]) + packet[at + 1:]


def audited(tree, transcript):
    """The first line of an audit of a record, as a night has it."""
    words = [PROGRAM, "audit", "--profile", "posix-user", "--cut", "--new-owner", "posix", "--tree", tree,
             "--transcript", transcript]
    done = subprocess.run(list(map(str, words)), stdout=subprocess.PIPE, stderr=subprocess.STDOUT, text=True,
                          check=False)
    return done.returncode, done.stdout.partition("\n")[0]


def looked_at(place):
    """The record of a session that looks at all that a folder has, and adds to it."""
    live, client = os.fsencode(place.live), Client(place.words)
    client.get(place.live / "f")
    listed(client, live + b"/d")
    for it in (b"/f", b"/d/in", b"/none"):
        client.ask("STAT", live + it)
    client.ask("READLINK", live + b"/link")
    client.ask("REALPATH", live + b"/d")
    client.ask("MKDIR", live + b"/made", {})
    client.put(place.live / "written", b"new bytes")
    client.get(place.live / "written")
    ended(client)
    return next(place.records.iterdir())


def each_lie(tree, data, alone):
    """Lies in a record that an audit refuses: the record, where the lie is, and which record is refused."""
    choose, records, count = random.Random(SEED), codec.records(data), 0
    while count < LIES:
        at = choose.randrange(2, len(records))
        side, packet = records[at]
        changed = lie(packet, choose) if side == codec.SERVER else None
        if changed is None:
            continue
        alone.write_bytes(codec.put_records([*records[:at], (side, changed), *records[at + 1:]]))
        status, line = audited(tree, alone)
        record, kind = causes.place_of_refusal(line)
        if status == 1 and kind == "NotAllowed":
            count += 1
            yield alone.read_bytes(), at, record


def lies(steps, place):
    """Lies in replies of all kinds: each that is refused is the server's, whatever the folder has."""
    (place.live / "f").write_text("some bytes")
    (place.live / "d").mkdir()
    (place.live / "d/in").write_text("x")
    (place.live / "link").symlink_to("f")
    place.nightly()
    tree, start, now, alone = place.state / USER / "tree", *(place.room / it for it in ("start", "now", "alone"))
    start.write_bytes(tree.read_bytes())
    record = looked_at(place)
    data = record.read_bytes()
    steps.check("the right session is accepted", audited(start, record)[0] == 0)
    place.nightly()
    now.write_bytes(tree.read_bytes())

    def is_right_now(asked):
        alone.write_bytes(asked)
        return audited(now, alone)[0] == 0

    links, touched = causes.links_of(str(PROGRAM), str(now)), causes.touched(data, b"/root")
    places = causes.Places([os.fsencode(place.live)], links, touched, is_right_now)
    wrong = [(at, refused) for lied, at, refused in each_lie(start, data, alone)
             if places.cause(lied, b"/root", refused) != causes.SERVER_S]
    steps.check(f"of {LIES} lies that are refused, each is the server's", not wrong, wrong[:3])


TRIALS = (outside, changed_locally, by_writes, lies)
