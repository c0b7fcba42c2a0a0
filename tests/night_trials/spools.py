"""Strange spools and places: records without a byte, dates that the clock skipped or repeats, names of any bytes, other
file systems, and what other users put there."""
import os
import shutil
import subprocess
import tempfile
import time

from night_trials.place import ENDS_WELL, NIGHTLY, USER, changed, environment
from record_trials.steps import receive
from sftpv3.codec import request
from trials.disks import fill, small_disk
from trials.processes import run


def empty_records(steps, place):
    """Records in which there is nothing, as a full disk, a recorder that is killed or a power failure leaves them: they
    are no reply of the server, and hide nothing that comes behind them."""
    place.nightly()
    for number, data in enumerate((b"", b"SFTPT")):
        place.write_record(f"20200101T00000{number}Z", data, ended=1577836800 + number)
    place.session("mkdir d")
    status, said = place.nightly()
    steps.check("records with nothing in them: they are named and judged by nobody, and the next session is",
                status == 1 and said.count("not judged: nothing was recorded") == 2 and
                "refused" not in said and f"1 session accepted; {ENDS_WELL}" in said, said)
    steps.check("they are kept apart", [len(place.kept(it)) for it in ("accepted", "refused", "unjudged")] == [
        1, 0, 2] and not list(place.records.iterdir()))
    place.check(steps, "and the next day is as ever", 0, "0 sessions accepted; " + ENDS_WELL)


def started_nowhere(steps, place):
    """A run that is started in a folder that is gone says so, where a name needs that folder."""
    for name, words in {"--records": ["--records", "records"], "--state": ["--state", "state"], "a folder": []}.items():
        gone = place.room / "gone"
        gone.mkdir()
        script = ["sh", "-c", 'cd "$1" && rmdir "$1" && shift && exec "$@"', "sh", gone, NIGHTLY, "--records",
                  place.records, "--state", place.state, *words, USER, place.live if words else "live"]
        ran = run(script, env=environment())
        steps.check(f"a relative name of {name} in a folder that is gone: status 3, and why", ran.returncode == 3
                    and "the folder in which this was started is gone" in ran.stdout, ran)


# The first record that is opened is removed before that.
REMOVED = """
hold = records.mounted.open_at
def removed(name, folder, *words):
    os.unlink(name, dir_fd=folder)
    records.mounted.open_at = hold
    return hold(name, folder, *words)
records.mounted.open_at = removed
"""


def removed_meanwhile(steps, place):
    """A record that is gone when it is opened, as a recorder takes back that of a server that did not start."""
    place.begin("ls", "mkdir d")
    place.check(steps, "a record that was removed meanwhile is none, and the next session is judged", 0,
                "1 session accepted; " + ENDS_WELL, script=changed(place, REMOVED))


# An hour that Berlin's clocks had twice: these seconds are 02:30 in both.
TWICE = (1792888200, 1792891800)


def hours_that_repeat(steps, place):
    """A date that is printed says which of two equal hours it means."""
    place.nightly()
    process = place.start()
    process.stdin.write(request(1, "OPENDIR", b"/"))
    receive(process, 4)
    said = []
    for seconds in TWICE:
        os.utime(place.state / USER / "compared", (seconds,) * 2)
        said.append(subprocess.run(place.night_words(), stdout=subprocess.PIPE, text=True, check=False,
                                   env={**environment(), "TZ": "Europe/Berlin"}).stdout)
    place.end(process)
    steps.check("the hour that clocks repeat is told from the one before", said[0] != said[1] and
                all("since 2026-10-25 02:30" in it for it in said), said)


def dates_to_come(steps, place):
    """A clock that was an hour fast and was set back: the records of that hour keep their order."""
    place.nightly()
    names = [f"d{'/e' * depth}" for depth in range(6)]
    for name in names:
        before = set(place.records.iterdir())
        place.session(f"mkdir {name}")
        (record,) = set(place.records.iterdir()) - before
        number = names.index(name)
        # the names in the opposite order of the alphabet, so that only dates tell
        at = time.time() + 3600 + 10 * number
        date = time.strftime("%Y%m%dT%H%M%SZ", time.gmtime(at))
        moved = record.rename(place.records / f"{9 - number}-{date}-local-1.transcript")
        os.utime(moved, (at + 5,) * 2)
    place.check(steps, "dates to come keep their order", 0, f"6 sessions accepted; {ENDS_WELL}")


def names_of_any_bytes(steps, place):
    """A record's name with line feeds, escapes and bytes that are no UTF-8."""
    place.begin("mkdir d")
    (record,) = place.records.iterdir()
    os.rename(record, os.fsencode(place.records) + b"/a\nroot: 9 sessions accepted\x1b[2J\xff\xc3\xa9.transcript")
    status, said = place.nightly()
    steps.check("a name of any bytes is one line, in quotes", status == 0 and len(said.splitlines()) == 2 and
                r"\x0a" in said and r"\xff" in said and "\x1b" not in said, repr(said))
    steps.check("and is kept under a name that no terminal acts on", [it.name for it in place.kept("accepted")]
                == ["a_root:_9_sessions_accepted__2J__.transcript"], place.kept("accepted"))


# Locks as NFS has them, by flock(2): only who can write to a file locks it for itself alone. The state is not on NFS.
ON_NFS = """
import fcntl, stat
hold = fcntl.flock
def flock(file, how):
    is_read = fcntl.fcntl(file, fcntl.F_GETFL) & os.O_ACCMODE == os.O_RDONLY
    if how & fcntl.LOCK_EX and is_read and stat.S_ISREG(os.fstat(file).st_mode):
        raise OSError(9, os.strerror(9))
    return hold(file, how)
fcntl.flock = flock
"""
# No locks at all, as on NFS without its daemon for locks.
NO_LOCKS = """
import fcntl, stat
hold = fcntl.flock
def flock(file, how):
    if stat.S_ISREG(os.fstat(file).st_mode):
        raise OSError(37, os.strerror(37))
    return hold(file, how)
fcntl.flock = flock
"""


def on_nfs(steps, place):
    """A spool on NFS: sessions that have ended are judged, and those that run so far."""
    place.begin("mkdir d")
    on_nfs = changed(place, ON_NFS)
    place.check(steps, "a spool on NFS: a session that has ended", 0, "1 session accepted; " + ENDS_WELL, script=on_nfs)
    process = place.start()
    place.check(steps, "and one that runs and has done nothing", 0, "accepted 0 requests so far; still running",
                "the folder is as they left it", script=on_nfs)
    place.end(process)
    place.check(steps, "and when it has ended", 0, "1 session accepted; " + ENDS_WELL, script=on_nfs)
    place.session("rmdir d")
    place.check(steps, "a spool without locks: nobody knows whether a session runs, and a line says so", 3,
                "whether its session runs is not known: No locks available", script=changed(place, NO_LOCKS))
    place.check(steps, "and the record waits", 0, "1 session accepted; " + ENDS_WELL)


# A user who may make names beside the state.
OTHER = 65534


def planted(steps, place):
    """What another user made in place of the state of a user is neither used nor followed."""
    elsewhere = place.room / "elsewhere"
    elsewhere.mkdir()
    place.state.mkdir()
    place.state.chmod(0o1777)
    place.room.chmod(0o755)
    name = place.state / USER
    name.symlink_to(elsewhere)
    os.chown(name, OTHER, OTHER, follow_symlinks=False)
    place.check(steps, "a link of another user in place of the state: status 3", 3, str(name))
    name.unlink()
    name.mkdir(0o700)
    os.chown(name, OTHER, OTHER)
    place.check(steps, "a folder of another user in place of the state: status 3", 3,
                f"{name}: it belongs to another user")
    steps.check("and nothing is written to either", not list(elsewhere.iterdir()) and not list(name.iterdir()))


def full_state(steps, place):
    """A state without room: the record stays, whatever the run came to, and a line names what could not be written."""
    with small_disk(place.state, "256k", "mode=700") as is_there:
        if not is_there:
            steps.skip("a full state", "no small disk can be made here")
            return
        place.begin("mkdir d", "mkdir d/e")
        filling = place.state / "filling"
        fill(filling)
        ran = []
        while not ran or ran[-1][0]:
            ran.append(place.nightly())
            os.truncate(filling, max(0, filling.stat().st_size - 4096))
        said = [it for _, it in ran]
        steps.check("a full state: status 3 until there is room, and each line names what it is about",
                    {it for it, _ in ran[:-1]} == {3} and len(ran) > 3 and
                    not any(f"nightly: {USER}: No space" in it for it in said) and "refused" not in "".join(said), said)
        place.check(steps, "then both sessions are accepted", 0, "0 sessions accepted; " + ENDS_WELL)
        steps.check("and kept once", len(place.kept("accepted")) == 2 and not list(place.records.iterdir()))


def of_others(steps, place):
    place.begin("mkdir d")
    mine = sorted(place.records.iterdir())[0]
    other, link, pipe = (place.record("20200101T000000Z", number) for number in (1, 2, 3))
    shutil.copy(mine, other)
    os.chown(other, OTHER, OTHER)
    link.symlink_to("/etc/passwd")
    os.mkfifo(pipe)
    taken = "is not taken for a record: it is no regular file"
    place.check(steps, "the user's links and pipes are named", 1, "1 session accepted; " + ENDS_WELL,
                f"{link.name} {taken}", f"{pipe.name} {taken}")
    for it in (link, pipe):
        os.chown(it, OTHER, OTHER, follow_symlinks=False)
    place.check(steps, "records of others, links and pipes are left alone", 0, "0 sessions accepted; " + ENDS_WELL)
    spool = place.records / USER
    spool.mkdir()
    place.session("rmdir d")
    for it in place.records.glob(f"{USER}-2026*"):
        it.rename(spool / it.name)
    place.check(steps, "the spool of sftpv3-recordd has a folder for each user", 0, "1 session accepted; " + ENDS_WELL)


def on_another_file_system(steps, place):
    """The state is in the room, the records are in memory."""
    with tempfile.TemporaryDirectory(dir="/dev/shm") as folder:
        place.records.rmdir()
        place.records.symlink_to(folder)
        place.begin("mkdir d")
        place.check(steps, "records of another file system", 0, "1 session accepted; " + ENDS_WELL)
        steps.check("are moved, too", len(place.kept("accepted")) == 1 and not os.listdir(folder) and
                    place.kept("accepted")[0].read_bytes().startswith(b"SFTPTR01C"))


TRIALS = (empty_records, started_nowhere, removed_meanwhile, hours_that_repeat, dates_to_come, names_of_any_bytes,
          on_nfs, planted, full_state, on_another_file_system, of_others)
