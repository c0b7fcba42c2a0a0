"""Attacks on clients/nightly, which runs as root, by users who put records where it looks."""
import fcntl
import os
import pwd
import re
import subprocess
import time
from contextlib import contextmanager, suppress
from pathlib import Path
from unittest import mock

from attacking.ground import SECONDS, attack, environment
from attacking.recorders import KEEPER
from attacking.saving import TOP
from attacking.sessions import HELLO, MEBI
from sftpv3.codec import CLIENT, CREAT, SERVER, WRITE, Packet, encode, put_records, request, status, version
from sftpv3.nights import records
from sftpv3.system import mounted
from trials.disks import fill, small_disk

# A user who is there on every machine, and whom another one attacks.
VICTIM = pwd.getpwnam("nobody")
# What a file may have by the limits of a nightly tree, which are the highest.
LARGEST = 64 * MEBI


def session(*requests):
    """A transcript in which each request, a name with its fields, is done."""
    records = [(CLIENT, HELLO), (SERVER, version(3, []))]
    for serial, (name, *fields) in enumerate(requests):
        reply = encode(Packet(serial, "HANDLE", [b"h"])) if name == "OPEN" else status(serial, 0)
        records += [(CLIENT, request(serial, name, *fields)), (SERVER, reply)]
    return put_records(records)


def mkdir(path):
    return "MKDIR", path.encode(), {}


def rmdir(path):
    return "RMDIR", path.encode()


def opened(path):
    return "OPEN", path.encode(), CREAT | WRITE, {}


def sized(size):
    return "FSETSTAT", b"h", {"size": size}


CLOSED = ("CLOSE", b"h")


class Nights:
    """A folder of a user, the spool and the state of its nightly runs, of which the first is done."""

    def __init__(self, field, user, *options):
        self.field, self.user, self.options = field, user, options
        self.home, self.spool = field.shared("home", 0o755, user.pw_uid), field.shared("spool", 0o1777)
        self.state, self.peak, self.patience = field.path("state"), 0, SECONDS
        self.run()

    def run(self, *options, to=None):
        """Runs it. Returns its status, what it printed, and the greatest memory of what it started; `peak` is its own.
        """
        words = [self.field.script("nightly"), "--records", self.spool, "--state", self.state, "--home", self.home,
                 *self.options, *options, self.user.pw_name, self.home]
        with open(to or self.field.path("said"), "wb" if to else "wb+") as said:
            started = subprocess.Popen(words, stdin=subprocess.DEVNULL, stdout=said, stderr=subprocess.STDOUT,
                                       env=environment(), start_new_session=True)
            end = time.monotonic() + self.patience
            while True:
                ended, status, used = os.wait4(started.pid, os.WNOHANG)
                if ended:
                    break
                if time.monotonic() > end:
                    os.killpg(started.pid, 9)
                self.peak = max(self.peak, peak_of(started.pid))
                time.sleep(0.02)
            started.returncode = os.waitstatus_to_exitcode(status)
            if to:
                return started.returncode, "", used.ru_maxrss * 1024
            said.seek(0)
            return started.returncode, said.read().decode(errors="surrogateescape"), used.ru_maxrss * 1024

    def put(self, name, data, owner, mode=0o600, ended=10):
        """Puts a record into the spool, whose session ended so many seconds ago. Returns its path."""
        path = os.path.join(self.spool, name)
        with suppress(FileNotFoundError):
            os.remove(path)
        self.field.put(path, data, mode)
        os.chown(path, owner, owner)
        os.utime(path, (time.time() - ended,) * 2)
        return path

    def own(self, owner, name=None):
        """Makes a folder in the spool, by default as the daemon makes that of the user."""
        return self.field.shared(os.path.join(self.spool, name or self.user.pw_name), 0o700, owner)

    def kept(self, kind):
        folder = os.path.join(self.state, self.user.pw_name, kind)
        return sorted(os.path.join(folder, it) for it in os.listdir(folder)) if os.path.isdir(folder) else []

    def change(self):
        """Makes a directory that no record has."""
        self.field.shared(os.path.join(self.home, "unrecorded"), 0o755, self.user.pw_uid)


def peak_of(process):
    """The greatest memory that a process had by now, in bytes; 0 once it has ended."""
    with open(f"/proc/{process}/status", encoding="ascii") as file:
        return next((int(line.split()[1]) * 1024 for line in file if line.startswith("VmHWM:")), 0)


def record_name(user, date="20261127T101500Z"):
    return f"{user.pw_name}-{date}-192.0.2.7-4711.transcript"


def wrong(found, status, *parts, without=()):
    """Says so if a run did not end with this status and print these words, or printed others."""
    if found[0] != status or not all(it in found[1] for it in parts) or \
            any(it in found[1] for it in ("Traceback", *without)):
        yield f"status {found[0]}, not {status}: {found[1][-600:]!r}"


@attack("user")
def a_verdict_on_another_user_is_forged(field):
    """Where all users may make files, a folder of the victim's name has no records of the victim."""
    nights = Nights(field, VICTIM)
    nights.change()
    own = nights.own(field.user.pw_uid)
    forged = session(("MKDIR", os.fsencode(f"{nights.home}/unrecorded"), {"permissions": 0o755}))
    nights.put(f"{VICTIM.pw_name}/{record_name(VICTIM)}", forged, field.user.pw_uid)
    yield from wrong(nights.run(), 1, "something else changed the folder", own, without=["accepted 1 requests"])
    if not os.listdir(own):
        yield "the planted record is taken"
    os.chmod(nights.spool, 0o777)
    os.chown(own, 0, 0)
    yield from wrong(nights.run(), 1, own, without=["accepted 1 requests"])


NOT_TAKEN = "is not taken for a record: "


def shared_file(field, owner, data, mode):
    """A file of another user in a folder of a group, where all can write."""
    folder = field.path("group")
    os.makedirs(folder, exist_ok=True)
    os.chmod(folder, 0o777)
    path = field.put("group/theirs", data, mode)
    os.chown(path, owner.pw_uid, owner.pw_gid)
    os.utime(path, (1, 1))
    return path


def gone_wrong(field, nights, name, said):
    """What goes wrong beside a planted file: it is named, and the victim's own session is judged as ever."""
    d = f"{nights.home}/d"
    nights.put(record_name(VICTIM, "20261127T111500Z"), session(mkdir(d), rmdir(d)), VICTIM.pw_uid)
    nights.change()
    found = nights.run()
    yield from wrong(found, 1, f"{name} {NOT_TAKEN}{said}", "accepted 2 requests",
                     "1 session accepted; something else changed the folder", without=["refused record", "running"])
    if not os.path.exists(os.path.join(nights.spool, name)):
        yield f"{name} is taken"
    os.rmdir(os.path.join(nights.home, "unrecorded"))
    nights.run()
    with suppress(FileNotFoundError):
        os.remove(os.path.join(nights.spool, name))


@attack("user")
def a_shared_file_of_the_victim_is_moved_to_the_records(field):
    """What others wrote into a file of the victim is no record, be it linked or moved to the records, nor is one that
    has other bytes, or that others hold locked. None of them keeps the victim's sessions from being judged."""
    nights, name = Nights(field, VICTIM), record_name(VICTIM)
    forged = session(("MKDIR", os.fsencode(f"{nights.home}/unrecorded"), {"permissions": 0o755}))
    planted = os.path.join(nights.spool, name)
    for turn, (mode, data, said) in enumerate(((0o666, forged, "its group"), (0o600, forged, "it has 2 names"),
                                               (0o644, b"no record", "its group"), (0o644, forged, "its group"))):
        path = shared_file(field, VICTIM, data, mode)
        (os.link if mode == 0o600 else os.rename)(path, planted)
        held = os.open(planted, os.O_RDONLY)
        fcntl.flock(held, fcntl.LOCK_SH if turn == 3 else fcntl.LOCK_UN)
        yield from (f"turn {turn}: {it}" for it in gone_wrong(field, nights, name, said))
        os.close(held)
    for number in range(25):
        nights.put(f"{number}\n.transcript", forged, VICTIM.pw_uid, mode=0o640)
    found = nights.run()
    yield from wrong(found, 1, f'\\x0a.transcript" {NOT_TAKEN}', "5 more are not taken for records")
    if found[1].count(NOT_TAKEN) != 20:
        yield f"{found[1].count(NOT_TAKEN)} are named"


@contextmanager
def changed_at_opening(folder, change):
    """In this block a record of the folder becomes another one's as it is opened, by whichever call."""
    opened_before = []

    def changing(call):
        def at(name, *words, **options):
            if os.fsdecode(name).endswith(".transcript") and not opened_before:
                opened_before.append(name)
                change(name, folder)
            return call(name, *words, **options)
        return at

    with mock.patch.object(os, "open", changing(os.open)), \
            mock.patch.object(mounted, "opened_within", changing(mounted.opened_within)):
        yield


@attack("user")
def a_record_changes_before_it_is_opened(field):
    """A file that is as a record at the first look, and not when it is open, is none."""
    changes = {"mode": lambda name, folder: os.chmod(name, 0o660, dir_fd=folder),
               "link": lambda name, folder: os.link(name, f"{name}.2", src_dir_fd=folder, dst_dir_fd=folder),
               "owner": lambda name, folder: os.chown(name, 1, 1, dir_fd=folder)}
    for kind, change in changes.items():
        spool = field.shared(kind)
        field.put(f"{kind}/{record_name(VICTIM)}", b"", 0o600)
        os.chown(os.path.join(spool, record_name(VICTIM)), VICTIM.pw_uid, VICTIM.pw_gid)
        found = records.Spool(spool, VICTIM.pw_uid)
        record, = found.records()
        with changed_at_opening(found.shared, change), suppress(records.NotTaken, records.Failed):
            record.open()
            yield f"{kind}: it is opened"


@attack("user")
def a_strangers_name_spoils_the_status(field):
    """What a stranger puts under the victim's name into the spool of all is named, and the night is as good as it was.
    In a spool where that can have taken the daemon's folder away, or if it may be that folder, the status is 1."""
    nights = Nights(field, VICTIM)
    user, place = field.user.pw_uid, os.path.join(nights.spool, VICTIM.pw_name)
    good, said = "0 sessions accepted; the folder is as they left it", f"{place} is not taken for records: "
    for make in (os.mkdir, lambda path: os.symlink("/", path), os.mknod):
        make(place)
        for owner, mode, wanted in ((user, 0o1777, 0), (user, 0o777, 1), (0, 0o1777, 1), (user, 0o755, 1)):
            os.chmod(nights.spool, mode)
            os.chown(place, owner, owner, follow_symlinks=False)
            yield from (f"{owner}, {mode:o}: {it}" for it in wrong(nights.run(), wanted, good, said))
        subprocess.run(["rm", "-r", place], check=True)
    os.chmod(nights.spool, 0o1777)
    nights.put(record_name(VICTIM), b"of a stranger", user)
    yield from wrong(nights.run(), 0, good, without=[record_name(VICTIM)])


@attack("user")
def a_name_reads_like_a_verdict(field):
    """What is not in the names that recorders give is printed in quotes."""
    nights = Nights(field, field.user)
    name = f"{record_name(field.user)}: accepted 812 requests; \\\".transcript"
    shown = f'"{record_name(field.user)}: accepted 812 requests; \\x5c\\x22.transcript"'
    nights.put(name, session()[:-1], field.user.pw_uid)
    yield from wrong(nights.run(), 1, f": {shown}: sftpv3: transcript: record 2: Truncated")
    nights.put(name, session(), field.user.pw_uid, mode=0o644)
    yield from wrong(nights.run(), 1, f": {shown} {NOT_TAKEN}")


@attack()
def a_log_of_the_nights_is_every_users(field):
    """What the documents say to keep what a night prints makes a log that only root reads."""
    for place in ("docs/OPERATORS.md", "packaging/sftpv3-nightly.cron"):
        text = Path(TOP, place).read_text(encoding="utf-8")
        log, = set(re.findall(r">>(/var/log/\S+) 2>&1", text))
        made = re.search(rf"(install [^`\n]*) {log}\b", text)
        there = field.path("log")
        subprocess.run(["sh", "-c", f"umask 022; {made[1] if made else ':'} {there}; echo private >>{there} 2>&1"],
                       check=True)
        if os.stat(there).st_mode & 0o077:
            yield f"{place}: mode {os.stat(there).st_mode & 0o777:o}"
        os.remove(there)


@attack("user")
def records_of_others_are_reached_through_a_link(field):
    """A link of the victim's name in the spool leads nowhere, be it to the records that are kept of others."""
    nights = Nights(field, VICTIM)
    kept = os.path.join(nights.state, "other", "accepted")
    os.makedirs(kept, 0o700)
    dear = field.put(os.path.join(kept, "other-20261127T101500Z-local-1.transcript"),
                     session(mkdir(f"{nights.home}/d")))
    os.utime(dear, (1, 1))
    for mode in (0o1777, 0o755):
        os.symlink(kept, os.path.join(nights.spool, VICTIM.pw_name))
        os.chmod(nights.spool, mode)
        yield from wrong(nights.run(), 1, "not taken", without=["accepted 1 requests"])
        if not os.path.exists(dear):
            yield "a record of another user is taken"
            return
        os.remove(os.path.join(nights.spool, VICTIM.pw_name))


@attack("user")
def the_folder_of_the_daemon_is_taken(field):
    """The spool of sftpv3-recordd is read as ever, in the order of the times that the daemon wrote."""
    nights = Nights(field, VICTIM)
    os.chown(nights.spool, KEEPER, KEEPER)
    os.chmod(nights.spool, 0o700)
    nights.own(KEEPER)
    d = f"{nights.home}/d"
    for name, made in (("20261127T101500Z-192.0.2.7-1", mkdir(d)), ("20261127T101600Z-20000101T000000Z-2", rmdir(d)),
                       ("99999999T999999Z-192.0.2.7-3", mkdir(d)), ("x20000101T000000Z-3", rmdir(d))):
        ended = {"1": 40, "2": 30}.get(name[-1], 20 if name[0] == "9" else 10)
        nights.put(f"{VICTIM.pw_name}/{name}.transcript", session(made), KEEPER, ended=ended)
    yield from wrong(nights.run(), 0, "4 sessions accepted", "the folder is as they left it")


@attack("user")
def a_name_has_no_time(field):
    """A record whose name has a time that there is none of, or one in digits of other scripts, is one as others."""
    nights = Nights(field, field.user)
    for date in ("99999999T999999Z", "20261399T000000Z", "٢٠٢٦١١٢٧T١٠١٥٠٠Z", "00000101T000000Z"):
        nights.put(record_name(field.user, date), session(("REMOVE", b"/x"))[:8], field.user.pw_uid)
    yield from wrong(nights.run(), 0, "nothing was asked: the record ends before INIT", "the folder is as they left it")


@attack("user")
def a_verdict_is_put_off(field):
    """A time that is yet to come, a lock, and a time that is always now: none has a run end as if all were well."""
    nights = Nights(field, field.user)
    nights.change()
    name = record_name(field.user)
    path = nights.put(name, session(mkdir(f"{nights.home}/d"), rmdir(f"{nights.home}/d")), field.user.pw_uid,
                      ended=-10 ** 9)
    yield from wrong(nights.run(), 1, "1 session accepted; something else changed the folder", "unrecorded")
    path = nights.put(name, session(), field.user.pw_uid)
    held = os.open(path, os.O_RDONLY)
    fcntl.flock(held, fcntl.LOCK_EX)
    yield from wrong(nights.run(), 1, "still running", "not compared since")
    yield from wrong(nights.run("--longest", "1"), 0, "still running", "not compared since")
    os.utime(os.path.join(nights.state, field.user.pw_name, "compared"), (time.time() - 4000,) * 2)
    yield from wrong(nights.run("--longest", "1"), 1, "still running", "not compared since")
    os.close(held)
    with field.beside(always_now, path):
        yield from wrong(nights.run(), 1, "still running", "not compared since")
    yield from wrong(nights.run(), 0, "1 session accepted; the folder is as they left it")


def always_now(path):
    while True:
        os.utime(path)
        time.sleep(0.01)


@attack("user")
def a_record_takes_all_memory(field):
    """A record of some kilobytes is not judged beyond the limit, which says so, and holds up nobody else."""
    nights = Nights(field, field.user)
    files = [f"{nights.home}/m{it}" for it in range(24)]
    made = [it for file in files for it in (opened(file), sized(LARGEST), CLOSED)]
    many = session(*made, *(("REMOVE", file.encode()) for file in files))
    nights.put(record_name(field.user), many, field.user.pw_uid)
    found = nights.run()
    yield from wrong(found, 1, "not judged: ", "--memory", without=["status 3"])
    if found[2] > 1200 * MEBI:
        yield f"{found[2] // MEBI} MiB"
    nights.put(record_name(field.user), session(), field.user.pw_uid)
    yield from wrong(nights.run(), 0, "1 session accepted; the folder is as they left it")
    nights.put(record_name(field.user), many, field.user.pw_uid)
    found = nights.run("--memory", str(256 * MEBI))
    yield from wrong(found, 1, "not judged: ")
    if found[2] > 400 * MEBI:
        yield f"{found[2] // MEBI} MiB of 256"


@attack("user")
def a_record_takes_all_time(field):
    """An audit ends when its time is over, which is said, and holds up nobody else."""
    nights = Nights(field, field.user)
    changes = [it for _ in range(400) for it in (sized(LARGEST), sized(0))]
    nights.put(record_name(field.user), session(opened(f"{nights.home}/m"), *changes), field.user.pw_uid)
    start = time.monotonic()
    yield from wrong(nights.run("--audit-seconds", "2"), 1, "not judged: the audit did not end within 2 seconds")
    if time.monotonic() - start > 30:
        yield f"{time.monotonic() - start:.0f} seconds"
    left = sorted(os.listdir(os.path.join(nights.state, field.user.pw_name)))
    if left != ["compared", "tree", "unjudged"]:
        yield f"left: {left}"
    nights.put(record_name(field.user), session(), field.user.pw_uid)
    yield from wrong(nights.run(), 0, "1 session accepted; the folder is as they left it")


@attack("user")
def many_records_take_all_night(field):
    """A night is over when its time is, whoever filled it: it judges one record at least, and what is left is judged
    in the nights behind it."""
    nights = Nights(field, field.user)
    for second in range(4):
        nights.put(record_name(field.user, f"20261127T10150{second}Z"), session(), field.user.pw_uid)
    for left in (3, 2):
        yield from wrong(nights.run("--night-seconds", "0"), 1, "0 seconds (--night-seconds)",
                         "1 session accepted; the folder is not compared since", without=["a session runs"])
        if len(os.listdir(nights.spool)) != left:
            yield f"{os.listdir(nights.spool)} are left, not {left}"
    yield from wrong(nights.run(), 0, "2 sessions accepted; the folder is as they left it")
    nights.put(record_name(field.user), session(), field.user.pw_uid)
    yield from wrong(nights.run("--night-seconds", "0"), 0, "1 session accepted; the folder is as they left it")


@attack("user")
def a_kept_record_is_changed(field):
    """What is kept is root's alone, and is what was audited, though the user has the record open."""
    nights = Nights(field, field.user)
    data = session(mkdir(f"{nights.home}/d"), rmdir(f"{nights.home}/d"))
    for kind, changed in (("accepted", data), ("refused", data[:-1])):
        path = nights.put(record_name(field.user), changed, field.user.pw_uid, ended=10 ** 9)
        with open(path, "r+b") as file:
            nights.run()
            file.write(b"changed")
        if os.path.exists(path):
            yield "the record is still in the spool"
        kept = nights.kept(kind)
        if not kept:
            yield f"nothing is {kind}"
            continue
        if field.read(kept[0]) != changed:
            yield f"what was {kind} is changed"
        found = os.stat(kept[0])
        if (found.st_uid, found.st_mode & 0o777) != (0, 0o600):
            yield f"what was {kind} is of {found.st_uid}, mode {found.st_mode & 0o777:o}"
        if time.time() - found.st_mtime > SECONDS:
            yield f"a timer goes by what the user chose: {found.st_mtime}"


@attack("user")
def a_record_unfolds_on_the_disk(field):
    """Holes in a record take no room where it is kept."""
    nights = Nights(field, field.user)
    path = nights.put(record_name(field.user), session(), field.user.pw_uid)
    os.truncate(path, 1 << 36)
    os.utime(path, (1, 1))
    start = time.monotonic()
    yield from wrong(nights.run(), 1, "record 3: Direction")
    if time.monotonic() - start > 20 or sum(os.stat(it).st_blocks for it in nights.kept("refused")) > 1000:
        yield "they do"


@attack("user")
def a_name_reaches_the_terminal(field):
    """Names of records, the longest too, are printed as one line without what a terminal acts on."""
    hostile = "\x1b]0;title\x07\x1b[2J\u202e\u009b31m\udcff\rsop: 9 sessions accepted; the folder is as they left it"
    nights = Nights(field, field.user)
    for name in (hostile, "x" * 244, "\u202e" * 81):
        nights.put(f"{name}.transcript", session(), field.user.pw_uid)
    nights.put(f"{hostile}.2.transcript", session()[:-1], field.user.pw_uid)
    held = os.open(nights.put(f"{hostile}.3.transcript", session(), field.user.pw_uid, ended=5), os.O_RDONLY)
    fcntl.flock(held, fcntl.LOCK_EX)
    for turn in range(3):
        status, said, _ = nights.run("--longest", "1")
        if status == 3 or any(not it.isprintable() for it in said.replace("\n", "")):
            yield f"run {turn}: status {status}: {said!r}"
        if turn == 0:
            nights.put(f"{'x' * 244}.transcript", session()[:-1], field.user.pw_uid)
    os.close(held)
    yield from wrong(nights.run(), 1)


def deep_pipes(home, user, depth, count):
    """Makes directories in each other, and FIFOs in the last, all with the longest names, of which no byte is UTF-8."""
    held = os.open(home, os.O_RDONLY)
    for _ in range(depth):
        os.mkdir(b"\xff" * 255, dir_fd=held)
        os.chown(b"\xff" * 255, user.pw_uid, user.pw_gid, dir_fd=held)
        above, held = held, os.open(b"\xff" * 255, os.O_RDONLY, dir_fd=held)
        os.close(above)
    for number in range(count):
        name = b"%d" % number + b"\xff" * 250
        os.mkfifo(name, dir_fd=held)
        os.chown(name, user.pw_uid, user.pw_gid, dir_fd=held)
    os.close(held)


@attack("user")
def what_is_printed_of_names_takes_all_memory(field):
    """Pipes of a user, and names that appear, whose lines have tens of MB together, are not held by root's run."""
    nights = Nights(field, field.user)
    deep_pipes(nights.home, field.user, 30, 600)
    for turn in ("they appear", "they are special at the start"):
        nights.peak = 0
        found = nights.run()
        if nights.peak > 40 * MEBI:
            yield f"{turn}: {nights.peak // MEBI} MiB"
        if len(found[1]) > MEBI:
            yield f"{turn}: it printed {len(found[1])} bytes"
        if turn == "they appear":
            yield from wrong(found, 1, "something else changed the folder", " more\n")
            os.remove(os.path.join(nights.state, field.user.pw_name, "tree"))
        else:
            yield from wrong(found, 0, "and 580 more\n", "the tree of the start has ")


@attack("user", "mount")
def a_full_disk_hides_a_refusal(field):
    """A refusal is told where there is room for the record and not for its verdict, and what is printed can be lost:
    the next night starts from the folder, or judges the record again."""
    with small_disk(Path(field.path("state")), MEBI, "mode=700"):
        nights = Nights(field, field.user)
        filling = os.path.join(nights.state, "filling")
        refused = session(("REMOVE", b"/absent"))
        for name, room, wanted in (("first", 4096, 3), ("second", MEBI, 1)):
            path = nights.put(record_name(field.user), refused, field.user.pw_uid)
            fill(filling)
            os.truncate(filling, os.path.getsize(filling) - min(room, os.path.getsize(filling)))
            yield from wrong(nights.run(), wanted, "refused record 4: NotAllowed", without=["accepted 1 requests"])
            os.truncate(filling, 0)
            is_judged_again = os.path.exists(path)
            if is_judged_again:
                yield from wrong(nights.run(), 1, "refused record 4: NotAllowed", without=["accepted 1 requests"])
            if os.path.exists(path) or not nights.kept("refused"):
                yield f"{name}: the record is not kept"
            is_begun = name == "second" or is_judged_again
            next_day = "the folder is as they left it" if is_begun else "the tree of the start has "
            yield from wrong(nights.run(), 0, next_day)
        path = nights.put(record_name(field.user), refused, field.user.pw_uid)
        nights.run(to="/dev/full")
        if not os.path.exists(path):
            yield from wrong(nights.run(), 1, "refused record 4", without=["as they left it"])
        else:
            yield from wrong(nights.run(), 1, "refused record 4: NotAllowed")


@attack("user")
def many_records_take_all_memory(field):
    """However many records a user puts into the spool, few of them are held."""
    nights = Nights(field, field.user)
    held = os.open(nights.spool, os.O_RDONLY)
    for number in range(60_000):
        os.mknod(f"{number}.transcript", dir_fd=held)
        os.chown(f"{number}.transcript", field.user.pw_uid, field.user.pw_gid, dir_fd=held)
    os.close(held)
    nights.peak, nights.patience = 0, 20
    nights.run()
    if nights.peak > 50 * MEBI:
        yield f"{nights.peak // MEBI} MiB"
    if not nights.kept("unjudged") and not nights.kept("refused"):
        yield "none is judged"


def time_of_keeping(field, owner, number):
    """How long a record is kept under a name whose beginning many others have, without the wait for the disk."""
    name = f"{'x' * 200}{number}.transcript"
    there = field.put(f"records/{name}", b"", 0o600)
    os.chown(there, owner, owner)
    folder = os.open(os.path.dirname(there), os.O_RDONLY)
    record = records.Record(folder, name, os.stat(there), None)
    record.open()
    copied = field.copy_of(record)
    start = time.thread_time()
    copied.keep(copied.place_in("unjudged"))
    passed = time.thread_time() - start
    copied.close()
    record.close()
    os.close(folder)
    return passed


@attack("user")
def many_names_with_one_beginning_take_all_time(field):
    """The last of 1,200 records whose names begin alike takes no longer than the first."""
    field.shared("records")
    field.shared("kept")
    numbers = records.Numbers()
    field.copy_of = lambda record: records.Copy(field.path("kept"), record, numbers)
    passed = [time_of_keeping(field, field.user.pw_uid, number) for number in range(1200)]
    first, last = sum(passed[:150]), sum(passed[-150:])
    if last > 3 * first:
        yield f"{1000 * last:.0f} ms, and {1000 * first:.0f} ms at the start"
    if len(os.listdir(field.path("kept/unjudged"))) != 1200:
        yield f"{len(os.listdir(field.path('kept/unjudged')))} are kept"


@attack("user")
def an_empty_record_has_another_name(field):
    """What is said of a record, and kept beside it, has its name, be it empty or no record."""
    nights, name = Nights(field, field.user), record_name(field.user)
    for data, said in ((b"", "not judged: nothing was recorded"), (b"x", "sftpv3: transcript: record 0: Magic")):
        nights.put(name, data, field.user.pw_uid)
        yield from wrong(nights.run(), 1, f"{name}: {said}", without=["/proc/"])
    verdicts = [it for it in nights.kept("refused") if it.endswith(".verdict")]
    if len(verdicts) != 1 or b"/proc/" in field.read(verdicts[0]):
        yield f"{verdicts} are kept, or name a descriptor"


@attack("user")
def a_record_of_another_kind_has_another_name(field):
    """What is said of a record, and kept beside it, has its name, whatever file it is."""
    nights, name = Nights(field, field.user), record_name(field.user)
    nights.put(name, b"SFTREE01", field.user.pw_uid)
    yield from wrong(nights.run(), 1, f"  sftpv3: {name} is a tree file", without=["/proc/"])
    for kept in nights.kept("refused"):
        with open(kept, "rb") as file:
            if b"/proc/" in file.read():
                yield f"{kept} names a descriptor"


@attack("user", "mount")
def a_disk_is_full(field):
    """A record that has no room where it is kept stays where it is, whole, and nothing cut is kept."""
    with small_disk(Path(field.path("state")), MEBI, "mode=700"):
        nights = Nights(field, field.user)
        data = session(*(it for _ in range(9000) for it in (mkdir(f"{nights.home}/d"), rmdir(f"{nights.home}/d"))))
        path = nights.put(record_name(field.user), data, field.user.pw_uid)
        yield from wrong(nights.run(), 3, "cannot be copied: No space left")
        if not os.path.exists(path) or os.path.getsize(path) != len(data):
            yield "the record is gone"
        left = [it for kind in ("accepted", "refused", "unjudged") for it in nights.kept(kind)]
        if left:
            yield f"{left} is kept"
        subprocess.run(["mount", "-o", "remount,size=64m", nights.state], check=True)
        yield from wrong(nights.run(), 0, "1 session accepted; the folder is as they left it")
