"""Sessions that run on, as those of mounts: each night judges what they have done so far, and goes on from there."""
import os
import time

from night_trials.place import ENDS_WELL, OLD, USER
from night_trials.sets import Client, Spooled, ended


def change(record, old, new):
    """Changes bytes of a record that a recorder still writes, at their place."""
    data = record.read_bytes()
    with open(record, "r+b") as file:
        file.seek(data.index(old))
        file.write(new)
    time.sleep(OLD)


def of_days(steps, place):
    """A mount over four nights: quiet, with an open folder, with a lie, and ended."""
    live = os.fsencode(place.live)
    (place.live / "f").write_bytes(b"right")
    place.nightly()
    mount = Client(place.words)
    mount.ask("MKDIR", live + b"/m", {})
    time.sleep(OLD)
    (record,) = place.records.iterdir()
    for _ in range(2):
        place.check(steps, "a mount that is quiet is judged so far, and the folder is compared", 0,
                    f"{record.name}: accepted ", " so far; still running", "0 sessions accepted; " + ENDS_WELL)
    steps.check("what is judged for good is kept once, and the record stays", len(place.kept("accepted")) == 1 and
                list(place.records.iterdir()) == [record], place.kept("accepted"))
    handle = mount.ask("OPENDIR", live)[9:]
    mount.ask("RMDIR", live + b"/m")
    time.sleep(OLD)
    place.check(steps, "one that has a folder open is judged so far, and nothing is compared", 1,
                f"{record.name}: accepted 2 requests so far; still running", "a session runs, so the folder is not")
    mount.ask("READDIR", handle)
    mount.ask("CLOSE", handle)
    mount.get(place.live / "f")
    change(record, b"right", b"wrong")
    place.check(steps, "a lie is found while the session runs", 1, f"{record.name}: refused record ", "still running",
                "expected: DATA", "the tree of the start has ")
    steps.check("its part is kept with the verdict, and the record stays", len(place.kept("refused")) == 2 and
                list(place.records.iterdir()) == [record], place.kept("refused"))
    mount.ask("MKDIR", live + b"/n", {})
    time.sleep(OLD)
    place.check(steps, "the next night goes on behind it, from the folder as it was", 0,
                f"{record.name}: accepted 1 requests so far", ENDS_WELL)
    mount.ask("RMDIR", live + b"/n")
    ended(mount)
    place.check(steps, "and when it has ended, the rest is judged", 0, f"{record.name}: accepted 1 requests",
                "1 session accepted; " + ENDS_WELL)
    steps.check("then the record is gone from the spool, and nothing else is left", not list(place.records.iterdir())
                and sorted(os.listdir(place.state / USER)) == ["accepted", "compared", "refused", "tree"],
                os.listdir(place.state / USER))


def waited_for(steps, place):
    """Sessions that ended beside a mount wait for it, and are judged with what is left of it."""
    live = os.fsencode(place.live)
    with Spooled(place) as spool:
        place.nightly()
        mount = spool.client()
        mount.ask("MKDIR", live + b"/m", {})
        time.sleep(OLD)
        place.check(steps, "a mount in a spool is judged so far", 0, "accepted 1 requests so far", ENDS_WELL)
        other = spool.client()
        other.ask("MKDIR", live + b"/m/in", {})
        ended(other)
        names = [it.name for it in spool.records()]
        place.check(steps, "a session beside it waits, is named and counted, and the status is not 0", 1,
                    f"{names[0]}: still running", f"; 1 beside or behind waits: {names[1]}", words=["--longest", "9"])
        mount.ask("STAT", live + b"/m/in")
        mount.ask("RMDIR", live + b"/m/in")
        ended(mount)
        place.check(steps, "when it has ended, both are judged together, it from where it was judged", 0,
                    f"{names[0]}, {names[1]}, judged together: accepted 3 requests in 2 sessions", ENDS_WELL)


def lost(steps, place):
    """A mount from before the first night: what it did before is not judged, and it starts when it is quiet."""
    live = os.fsencode(place.live)
    mount = Client(place.words)
    handle = mount.open(place.live / "open", 0x1A)
    time.sleep(OLD)
    place.check(steps, "a mount from before the first night, which has a file open: there is no tree yet", 1,
                "still running; it is not judged, since there is no tree that it started from")
    mount.ask("CLOSE", handle)
    time.sleep(OLD)
    place.check(steps, "when it is quiet, the tree is made", 1, "the tree of the start has ")
    mount.ask("REMOVE", live + b"/open")
    ended(mount)
    place.check(steps, "and what it does from then on is judged", 0, ": accepted 1 requests", "1 session accepted; " +
                ENDS_WELL)


TRIALS = (of_days, waited_for, lost)
