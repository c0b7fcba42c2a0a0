"""Records that cost the spool little, and of which a copy costs much: by its bytes, by its time, or since the disk of
the state is small. A night goes on within its bounds, and names what it left."""
import os
import time

from night_trials.place import ENDS_WELL, changed
from sftpv3.codec import request
from trials.disks import small_disk

MIB = 1 << 20
# Records of these dates are before all others.
FIRST, SECOND = "20200101T000000Z", "20200101T000001Z"

# Each piece of a copy takes a tenth of a second, and a letter is written for it.
SLOW = """
import time
write = os.pwrite
def slow(*words):
    time.sleep(0.1)
    with open({notes!r}, "a") as notes:
        notes.write("x")
    return write(*words)
os.pwrite = slow
"""
# How many pieces of a large record are copied within 2 seconds at most, and one that was begun in them.
PIECES = 21

# It notes how much of the disk of the state was free when it was least.
WATCHED = """
write, least = os.pwrite, [1 << 60]
def watched(file, *words):
    count = write(file, *words)
    found = os.fstatvfs(file)
    least[0] = min(least[0], found.f_bavail * found.f_frsize)
    with open({notes!r}, "w") as notes:
        notes.write(str(least[0]))
    return count
os.pwrite = watched
"""


def write_large(place, date=FIRST, count=64 * MIB, ended=1577836800):
    """A record of many bytes, which is of no session."""
    place.write_record(date, b"SFTPTR01" + b"x" * count, ended)
    return place.record(date)


def slowed(place):
    """A nightly run whose copies take long, and where it notes how much is copied."""
    notes = place.room / "pieces"
    return changed(place, SLOW.format(notes=str(notes))), notes


def of_much_time(steps, place):
    """A copy takes no more time than an audit may, and no night copies behind its end."""
    place.nightly()
    large = write_large(place)
    place.session("mkdir d")
    slow, notes = slowed(place)
    place.check(steps, "a copy that takes too long is given up, and named", 1, f"{large.name}: not judged: its copy "
                "did not end within 2 seconds (--audit-seconds); it stays in the spool", script=slow,
                words=["--audit-seconds", "2", "--night-seconds", "3"])
    steps.check("the run keeps these bounds", len(notes.read_text()) <= PIECES, notes.read_text())
    place.nightly()
    place.session("rmdir d")
    place.check(steps, "the next nights name it, and judge what comes behind it", 1, f"{large.name}: not judged on an "
                "earlier night; it stays in the spool", ": accepted ", "1 session accepted; " + ENDS_WELL)
    large.unlink()
    place.check(steps, "when it is removed, the night is as ever", 0, "0 sessions accepted; " + ENDS_WELL)


def behind_the_end(steps, place):
    """A copy that is being made when the night is over waits for the next one."""
    place.begin("mkdir d")
    time.sleep(2)
    large = write_large(place, "20991231T000000Z", ended=time.time() - 1)
    slow, notes = slowed(place)
    place.check(steps, "a copy is given up when the night is over, and waits", 1, ": accepted ",
                f"{large.name}: it and what comes behind it wait for the next run, since this one took 2 "
                "seconds (--night-seconds)",
                script=slow, words=["--night-seconds", "2"])
    steps.check("the run ends with the night", len(notes.read_text()) <= PIECES, notes.read_text())
    steps.check("and the record stays", large.exists())


def of_many_bytes(steps, place):
    """A record of more bytes than one may have. Holes are none."""
    place.nightly()
    large = write_large(place, count=3 * MIB)
    place.check(steps, "a record of too many bytes stays where it is, and is named", 1, f"{large.name}: not judged: it "
                "has more than 1048576 bytes (--most-copied); it stays in the spool", words=["--most-copied", str(MIB)])
    steps.check("nothing of it is kept", large.exists() and not place.kept("unjudged") and not place.kept("refused"))
    place.write_record(SECOND, b"SFTPTR01", ended=1577836801)
    os.truncate(place.record(SECOND), 1 << 40)
    place.check(steps, "holes cost nothing: such a record is judged, and malformed", 1, "sftpv3: transcript: record 1",
                words=["--most-copied", str(MIB)])


def of_a_small_disk(steps, place):
    """A copy leaves a tenth of what was free on the disk of the state."""
    with small_disk(place.state, "16m", "mode=700") as is_there:
        if not is_there:
            steps.skip("a small disk of the state", "no small disk can be made here")
            return
        place.nightly()
        free = os.statvfs(place.state).f_bavail * os.statvfs(place.state).f_frsize
        large, notes = write_large(place), place.room / "notes"
        place.check(steps, "a copy for which the disk has no room: status 3, and the record is named", 3,
                    f"{large.name}: cannot be copied: No space left on device but ",
                    script=changed(place, WATCHED.format(notes=str(notes))))
        least = int(notes.read_text())
        steps.check("a tenth of what was free stays free", least >= free // 10, (least, free))
        steps.check("and nothing of the copy is left", large.exists() and not (place.state / "records.new").exists())


def beside_others(steps, place):
    """A large record among sessions that overlap: it is left, and none of them is lost."""
    place.nightly()
    process = place.start()
    place.session("mkdir d")
    place.end(process, request(1, "STAT", b"/"))
    large = max(place.records.iterdir(), key=lambda it: it.stat().st_mtime)
    with open(large, "ab") as file:
        file.write(bytes(3 * MIB))
    time.sleep(2)
    status, said = place.nightly("--most-copied", str(MIB))
    steps.check("a record of too many bytes among sessions that overlap is left", status == 1 and
                f"{large.name}: not judged: it has more than 1048576 bytes" in said and "Traceback" not in said and
                [it.name for it in place.records.iterdir()] == [large.name], said)
    steps.check("the other one is kept", len(place.kept("unjudged")) == 1, said)


TRIALS = (of_much_time, behind_the_end, of_many_bytes, of_a_small_disk, beside_others)
