"""Sessions that overlap: a night judges them together, by the times of a spool, or without times. What is wrong in one
is refused, and named; what comes behind goes on from the tree of the set's end."""
import os
import pwd
import signal
import subprocess
import time

from night_trials.ends import struck
from night_trials.place import ENDS_WELL, OLD, USER, changed, rewrite
from record_trials.steps import INIT, TOP, receive
from sftpv3 import codec
from sftpv3.codec import request
from trials.other_servers import SFTP_SERVER
from trials.processes import make_user, remove_user, wait_until

# Flags of OPEN: read; write, create and truncate.
READ, WRITE = 1, 0x1A
# How many bytes precede what a reply gives: its type, its id, and a length.
FRONT = 9


class Client:
    """A session of raw requests, each answered before the next one is sent."""

    def __init__(self, words, **who):
        self.process = subprocess.Popen(list(map(str, words)), stdin=subprocess.PIPE, stdout=subprocess.PIPE, bufsize=0,
                                        **who)
        self.number = 0
        self.process.stdin.write(INIT)
        self.reply()

    def reply(self):
        length = int.from_bytes(receive(self.process, 4), "big")
        return receive(self.process, length)

    def ask(self, name, *fields):
        self.number += 1
        self.process.stdin.write(request(self.number, name, *fields))
        return self.reply()

    def open(self, path, flags):
        """The handle of a file."""
        return self.ask("OPEN", os.fsencode(path), flags, {})[FRONT:]

    def put(self, path, data):
        handle = self.open(path, WRITE)
        self.ask("WRITE", handle, 0, data)
        self.ask("CLOSE", handle)

    def get(self, path):
        handle = self.open(path, READ)
        data = self.ask("READ", handle, 0, 100)[FRONT:]
        self.ask("CLOSE", handle)
        return data

    def end(self):
        self.process.stdin.close()
        self.process.wait()
        self.process.stdout.close()


class Spooled:
    """A place whose sessions are recorded by the daemon, with times on the clock of the boot."""

    def __init__(self, place):
        self.place, self.socket = place, place.room / "socket"
        place.records.chmod(0o700)
        self.daemon = subprocess.Popen([TOP / "clients/recordd", "--socket", self.socket, place.records],
                                       stderr=subprocess.DEVNULL)
        wait_until(self.socket.exists)
        self.words = [TOP / "clients/record", "--required", "--spool", self.socket, SFTP_SERVER, "-u", "022"]

    def __enter__(self):
        return self

    def __exit__(self, *_):
        self.daemon.send_signal(signal.SIGTERM)
        self.daemon.wait()

    def client(self):
        return Client(self.words)

    def records(self):
        """The records in the order in which they were begun."""
        found = (self.place.records / USER).glob("*.transcript")
        return sorted(found, key=lambda it: (self.place.records / USER / f"{it.stem}.times").read_bytes()[24:40])


def ended(*clients):
    """Ends sessions, long enough before they are judged."""
    for it in clients:
        it.end()
    time.sleep(OLD)


def of_one_clock(steps, place):
    """Two sessions that take turns within each other's time, and one behind them that needs what both made."""
    with Spooled(place) as spool:
        place.nightly()
        one, other = spool.client(), spool.client()
        one.put(place.live / "f", b"first")
        assert other.get(place.live / "f") == b"first"
        other.put(place.live / "f", b"other")
        assert one.get(place.live / "f") == b"other"
        one.ask("MKDIR", os.fsencode(place.live / "d"), {})
        other.ask("MKDIR", os.fsencode(place.live / "d/e"), {})
        ended(one, other)
        behind = spool.client()
        assert behind.get(place.live / "f") == b"other"
        behind.ask("RMDIR", os.fsencode(place.live / "d/e"))
        ended(behind)
        first, second, third = (it.name for it in spool.records())
        place.check(steps, "sessions that take turns are judged together, and the next one from their end", 0,
                    f"{first}, {second}, judged together: accepted ", " requests in 2 sessions", f"{third}: accepted ",
                    "3 sessions accepted; " + ENDS_WELL)
        steps.check("records and their times are kept, and gone from the spool", sorted(it.suffix for it in place.kept(
            "accepted")) == [".times"] * 3 + [".transcript"] * 3 and not list((place.records / USER).iterdir()),
            place.kept("accepted"))


def stale(spool, place):
    """Two sessions that overlap, of which the second reads a file after the first one's write had its reply."""
    one, other = spool.client(), spool.client()
    one.put(place.live / "f", b"newer")
    one.ask("MKDIR", os.fsencode(place.live / "new"), {})
    other.get(place.live / "f")
    other.ask("STAT", os.fsencode(place.live / "new"))
    one.ask("RMDIR", os.fsencode(place.live / "new"))
    ended(one, other)
    return spool.records()[-2:]


def answered_none(data, name):
    """A transcript in which the first request of this name is answered with NO_SUCH_FILE."""
    records = codec.records(data)
    asked = next(it[5:9] for side, it in records if side == codec.CLIENT and it[4] == codec.REQUESTS[name][0])
    none = bytes([0, 0, 0, 17, 101]) + asked + bytes([0, 0, 0, 2]) + bytes(8)
    return codec.put_records([(side, none if side == codec.SERVER and it[5:9] == asked else it)
                              for side, it in records])


def wrong_in_a_set(steps, place):
    """A server that gives stale bytes: by the times no order explains it; without times one does, and it is said."""
    (place.live / "f").write_bytes(b"older")
    with Spooled(place) as spool:
        place.nightly()
        one, other = stale(spool, place)
        rewrite(other, lambda data: answered_none(data, "STAT"))
        status, said = place.nightly()
        steps.check("a stale reply in a set: it is refused, and names the two records", status == 1 and
                    f"{one.name}, {other.name}, judged together: refused: {other.name} record " in said and
                    f" is right before {one.name} record " in said and "us earlier" in said, said)
        steps.check("it is kept with the verdict, and the other one is accepted without that", [
            len([it for it in place.kept("refused") if it.suffix == end])
            for end in (".transcript", ".times", ".verdict")] == [1, 1, 1] and
            f"{one.name}, judged without that: accepted " in said and len(place.kept("accepted")) == 2, said)
        (place.live / "f").write_bytes(b"older")
        place.nightly()
        one, other = stale(spool, place)
        rewrite(other, lambda data: data.replace(b"newer", b"wrong"))
        place.check(steps, "bytes that nobody wrote: they are refused in any order", 1, ", judged together: refused: "
                    f"{other.name} record ", "is right in no order")
        (place.live / "f").write_bytes(b"older")
        place.nightly()
        one, other = stale(spool, place)
        place.check(steps, "a search that is not allowed a step says that it is undecided", 1,
                    ", judged together: not judged: undecided: no order found in 1 steps", words=["--steps", "1"])
        steps.check("and the records are unjudged", len(place.kept("unjudged")) == 4, place.kept("unjudged"))
        place.nightly()
        one, other = stale(spool, place)
        rewrite(other, lambda data: data[:-3])
        place.check(steps, "a record that is cut off: the sessions are judged one by one, and that one is refused", 1,
                    f"{one.name}, {other.name} are not judged together: ", f"{one.name}: accepted ",
                    f"{other.name}: sftpv3: transcript: record ", "Truncated (beside", f"(beside {one.name})",
                    f"{other.name}: cause: ")


def one_after_another(steps, place):
    """Sessions without times that came one after the other within a second did not overlap."""
    words = [*place.words[:2], str(place.records / "%u-%t-%h-%p.transcript"), *place.words[3:]]
    place.nightly()
    for number in range(4):
        one = Client(words)
        one.put(place.live / "f", b"%d" % number)
        one.end()
        time.sleep(0.05)
    time.sleep(OLD)
    status, said = place.nightly()
    steps.check("short sessions, one after the other: each is judged alone", status == 0 and "together" not in said and
                "beside" not in said and "4 sessions accepted; " + ENDS_WELL in said, said)


OTHERS = ("sftpv3-night-a", "sftpv3-night-b")


class Group:
    """Two accounts whose sessions change one folder, which is of a group."""

    def __init__(self, place):
        self.place = place
        for name in OTHERS:
            make_user(name)
        for folder in (place.room, place.room.parent):
            folder.chmod(0o755)
        place.records.chmod(0o1733)
        group = pwd.getpwnam(OTHERS[0]).pw_gid
        os.chown(place.live, 0, group)
        place.live.chmod(0o2775)
        self.group = group

    def __enter__(self):
        return self

    def __exit__(self, *_):
        for name in OTHERS:
            remove_user(name)

    def client(self, name):
        found = pwd.getpwnam(name)
        stem = f"{self.place.records}/%u-%t-%h-%p"
        words = [TOP / "clients/record", "--required", "--boot-clock", "--times", f"{stem}.times", f"{stem}.transcript",
                 SFTP_SERVER, "-u", "022"]
        return Client(words, user=found.pw_uid, group=found.pw_gid, extra_groups=[self.group], cwd=found.pw_dir)

    def check(self, steps, name, status, *parts):
        self.place.check(steps, name, status, *parts, words=["--also", OTHERS[1]], user=OTHERS[0])


def of_several_accounts(steps, place):
    """Two accounts take turns in one folder: each sees what the other one made, and whose it is."""
    live = os.fsencode(place.live)
    with Group(place) as group:
        group.check(steps, "the first night of two accounts", 0, "the tree of the start has ")
        for turn in range(4):
            one, other = (OTHERS[turn % 2], OTHERS[1 - turn % 2])
            client = group.client(one)
            client.ask("REALPATH", b".")
            client.ask("MKDIR", live + b"/d%d" % turn, {})
            client.ask("STAT", live + b"/d%d" % turn)
            client.ask("STAT", live + b"/d%d" % (turn - 1))
            ended(client)
        group.check(steps, "two accounts that take turns: each session is explained by those before it", 0,
                    f"{OTHERS[0]}/{OTHERS[0]}-", f"{OTHERS[1]}/{OTHERS[1]}-", "4 sessions accepted; " + ENDS_WELL)
        one, other = map(group.client, OTHERS)
        for client in (one, other):
            client.ask("REALPATH", b".")
        other.ask("MKDIR", live + b"/of-other", {})
        one.ask("STAT", live + b"/of-other")
        one.ask("RMDIR", live + b"/of-other")
        other.ask("STAT", live + b"/of-other")
        ended(one, other)
        group.check(steps, "two accounts at one time, of which one makes something: they are judged together", 0,
                    "judged together: accepted 6 requests in 2 sessions", "2 sessions accepted; " + ENDS_WELL)
        one, other = map(group.client, OTHERS)
        one.ask("MKDIR", live + b"/of-one", {})
        other.ask("MKDIR", live + b"/of-other", {})
        ended(one, other)
        group.check(steps, "two that both make something: it is said why they are not judged", 1,
                    f"not judged: sessions of several accounts ({OTHERS[0]}, {OTHERS[1]}) that overlap")
    place.check(steps, "--also names nobody: status 2", 2, "there is no user", words=["--also", "nobody-at-all"])


# The search fails in place of giving a verdict; the status is that of a refusal.
FAILING = """
from sftpv3.nights import sets
sets.TOGETHER = {name!r}
"""


def failing_search(steps, place):
    """A search that fails refuses nobody."""
    name = place.room / "failing"
    name.write_text("raise ValueError('planted')\n")
    (place.live / "f").write_bytes(b"older")
    with Spooled(place) as spool:
        place.nightly()
        stale(spool, place)
        place.check(steps, "a search that fails: the sessions are not judged, and a line says why", 1,
                    "not judged: sftpv3-together failed: ValueError: planted",
                    script=changed(place, FAILING.format(name=str(name))))
        steps.check("and they are unjudged", not place.kept("refused") and len(place.kept("unjudged")) == 4)


def struck_in_a_spool(steps, place):
    """A run that is killed once it has decided on a set: the next one finishes it, and judges nothing twice."""
    with Spooled(place) as spool:
        place.nightly()
        for before, count in ((False, 0), (True, 2)):
            one, other = spool.client(), spool.client()
            one.ask("MKDIR", os.fsencode(place.live / f"d{count}"), {})
            other.ask("MKDIR", os.fsencode(place.live / f"d{count}/in"), {})
            ended(one, other)
            struck(place, signal.SIGKILL, "journal.commit", before)
            place.check(steps, f"SIGKILL came {'before' if before else 'behind'} the journal of a set", 0,
                        f"{count} sessions accepted; " + ENDS_WELL)
        kept, left = place.kept("accepted"), list((place.records / USER).iterdir())
        steps.check("each record is kept once, with its times, and gone from the spool", len(kept) == 8 and not left,
                    kept)


TRIALS = (struck_in_a_spool, failing_search, of_several_accounts, of_one_clock, wrong_in_a_set, one_after_another)
