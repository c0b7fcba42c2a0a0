"""What people do with times: `make`, `touch`, `cp -p`, copies by size and time, lftp's mirror; on a tree with times and
on one without."""
import os
import shutil
import subprocess
import time
from contextlib import contextmanager

from dates_trials.rooms import OLD
from trials.clients import Mount, ServerOfLftp, has
from trials.processes import run

# sshfs 3.7.3 opens what is there with TRUNC and without CREAT, which the draft does not allow; so nothing is opened so.
MAKEFILE = "out: in\n\tcp --remove-destination in out\n"
# How long a mount may remember attributes.
FRESH = "cache=no"


@contextmanager
def mounted(room, *more):
    """A blank tree, mounted by sshfs."""
    room.clear()
    with subprocess.Popen(room.command(*more), stdin=subprocess.PIPE, stdout=subprocess.PIPE) as server:
        mount = Mount(room.folder / "mount", server.stdout, server.stdin, FRESH)
        server.stdin.close()
        server.stdout.close()
        with mount as place:
            yield place


def can_mount(steps):
    if not os.path.exists("/dev/fuse") or os.geteuid() != 0:
        steps.skip("sshfs", "a mount needs /dev/fuse and root")
        return False
    return has(steps, "sshfs")


def rewrite(file, text):
    """Writes over a file, which keeps its size."""
    with open(file, "r+", encoding="ascii") as opened:
        opened.write(text)


def made(place):
    """What `make` says where the source changed after the program was made: twice of the same size."""
    (place / "Makefile").write_text(MAKEFILE)
    (place / "in").write_text("one")
    run(["make", "-C", place])
    time.sleep(1.1)
    rewrite(place / "in", "two")
    said = run(["make", "-C", place]).stdout
    return "in out" in said and (place / "out").read_text() == "two"


def with_make(steps, room):
    if not can_mount(steps) or not has(steps, "make"):
        return
    for more in (["--times"], []):
        with mounted(room, *more) as place:
            is_made = made(place)
        told = "with times" if more else "without times"
        steps.check(f"make on sshfs, {told}: a changed source is {'' if more else 'not '}made again",
                    is_made == bool(more))


def with_touch(steps, room):
    if not can_mount(steps):
        return
    for more in (["--times"], []):
        with mounted(room, *more) as place:
            (place / "f").write_text("text")
            run(["touch", "-d", f"@{OLD}", place / "f"])
            run(["cp", "-p", place / "f", place / "copy"])
            found = [int(os.stat(place / name).st_mtime) for name in ("f", "copy")]
        told = "with times" if more else "without times"
        steps.check(f"touch -d and cp -p on sshfs, {told}", (found == [OLD, OLD]) == bool(more), found)


def differ(one, other):
    """Whether a copy by size and time, as rsync makes it, would copy the file."""
    here, there = os.stat(one), os.stat(other)
    return here.st_size != there.st_size or int(here.st_mtime) != int(there.st_mtime)


def with_second_copies(steps, room):
    """A second run by size and time copies nothing, and then what was changed, though its size stayed."""
    if not can_mount(steps):
        return
    for more in (["--times"], []):
        source = room.folder / "source"
        source.write_text("one")
        os.utime(source, (OLD, OLD))
        with mounted(room, *more) as place:
            shutil.copy2(source, place / "copy")
            first = differ(source, place / "copy")
            source.write_text("two")
            second = differ(source, place / "copy")
        told = "with times" if more else "without times"
        steps.check(f"a second copy by size and time, {told}: it knows what is the same, and what changed",
                    (not first and second) == bool(more), (first, second))


def mirrored(room, more):
    """What lftp's `mirror -R` leaves of a file that changed and kept its size between two runs in one session."""
    room.clear()
    local = room.folder / "local"
    local.mkdir(exist_ok=True)
    (local / "f").write_text("one")
    os.utime(local / "f", (OLD, OLD))
    server = ServerOfLftp(str(room.folder), room.script(*more))
    mirror = f"mirror -R {local} /r"
    words = [*server.settings(), mirror, f"!printf two >{local}/f", mirror, "cat /r/f", "bye"]
    found = run(["lftp", "-c", "\n".join(words)]).stdout
    server.wait()
    return found


def with_lftp(steps, room):
    if not has(steps, "lftp"):
        return
    for more in ([], ["--no-times"]):
        found = mirrored(room, more)
        told = "without times" if more else "with times"
        steps.check(f"lftp mirror -R, {told}: a changed file of the same size is {'not ' if more else ''}sent again",
                    found == ("one" if more else "two"), found)


TRIALS = (with_make, with_touch, with_second_copies, with_lftp)
