"""Runs of clients/nightly that are killed before each step on files that they do, or in which one such step fails: the
next run goes on as if nothing had happened. And recorders that are killed before each thing that they write: the night
blames nobody for it."""
import shutil
import signal
import subprocess
from concurrent.futures import ThreadPoolExecutor

from night_trials.place import ENDS_WELL, USER, Place, changed
from record_trials.steps import TOP
from trials.processes import executable

# How many runs are tried at once.
AT_ONCE = 4

# Code that changes a run: something happens before one of its steps on files. A file that is opened to be written is
# one without bytes before the next step.
STRUCK = """
import builtins, errno, signal
left = {number}
def step_on():
    global left
    left -= 1
    if left == 0:
        {blow}
def counted(step):
    def call(*words, **how):
        step_on()
        return step(*words, **how)
    return call
for name in ("rename", "replace", "remove", "unlink", "fsync", "truncate", "pwrite", "mkdir", "utime"):
    setattr(os, name, counted(getattr(os, name)))
open_file = builtins.open
def opened(name, mode="r", **how):
    file = open_file(name, mode, **how)
    step_on() if "w" in mode else None
    return file
builtins.open = opened
"""


class Copied:
    """The records and the state of a place, copied, for runs of their own."""

    def __init__(self, place, number):
        self.room = place.room / f"copy-{number}"
        self.records, self.state = self.room / "records", self.room / "state"
        self.room.mkdir()
        for it in (place.records, place.state):
            subprocess.run(["cp", "-a", it, self.room], check=True)
        self.place = place

    def run(self, **how):
        words = ["--records", self.records, "--state", self.state]
        return self.place.nightly(*words, **how)

    def kept(self):
        folder = self.state / USER
        return {kind: sorted(it.name for it in (folder / kind).iterdir())
                for kind in ("accepted", "refused", "unjudged") if (folder / kind).is_dir()}


# What happens to a run, and what is said of it.
KILL = "os.kill(os.getpid(), signal.SIGKILL)", "killed at"
FAIL = 'raise OSError(errno.EIO, "a fault of the disk")', "with a fault of the disk at"


def strike_at(place, blow, number, kept):
    """Has this happen to a run at this step. Returns whether it came to that step, and what is wrong after the next
    run."""
    copied = Copied(place, number)
    try:
        status, first = copied.run(script=changed(copied, STRUCK.format(number=number, blow=blow)))
        if status != -signal.SIGKILL and "a fault of the disk" not in first:
            return False, ""
        if "the verdict cannot be kept" in first:
            kept = {kind: [it for it in names if not it.endswith(".verdict")] for kind, names in kept.items()}
        status, said = copied.run()
        left = {it.name for it in (copied.state / USER).iterdir()}
        ends = status == 0 and ENDS_WELL in said if len(kept) == 1 else status in (0, 1)
        is_well = ends and copied.kept() == kept and not list(copied.records.iterdir()) and "Traceback" not in first + \
            said and left == {"compared", "tree", *kept}
        return True, "" if is_well else f"step {number}: {copied.kept()}, {left}, {first}, {status}: {said}"
    finally:
        shutil.rmtree(copied.room)


def strike_at_each(strike):
    """Strikes what this starts at each of its steps in turn, until it ends before the step. Returns how many steps
    there are, and what is wrong after them."""
    wrong, count, goes_on = [], 0, True
    with ThreadPoolExecutor(AT_ONCE) as pool:
        while goes_on:
            found = list(pool.map(strike, range(count + 1, count + 1 + AT_ONCE)))
            goes_on = all(was_struck for was_struck, _ in found)
            count += sum(was_struck for was_struck, _ in found)
            wrong += [why for _, why in found if why]
    return count, wrong


def strike_nights(steps, place, name, kept, blow, how):
    """Strikes a run at each of its steps on files."""
    count, wrong = strike_at_each(lambda number: strike_at(place, blow, number, kept))
    steps.check(f"{name}: a run {how} each of {count} steps on files loses nothing and judges nothing twice",
                count > 20 and not wrong, f"{len(wrong)} wrong: {wrong[:3]}")


def killed_when_accepting(steps, place):
    """Two sessions of which the second needs what the first one made, and one in which nothing was asked."""
    place.begin("mkdir d", "mkdir d/e")
    subprocess.run([str(it) for it in place.words], stdin=subprocess.DEVNULL, check=False)
    kept = {"accepted": sorted(it.name for it in place.records.iterdir())}
    strike_nights(steps, place, "accepted sessions", kept, *KILL)


def struck_when_refusing(steps, place):
    """A session that is accepted, one that is refused, and one behind it."""
    place.begin("mkdir d")
    (place.live / "late").write_text("x")
    place.session(f"get late {place.room}/late")
    place.session("mkdir e")
    first, second, third = sorted(it.name for it in place.records.iterdir())
    kept = {"accepted": [first, third], "refused": [second, f"{second}.verdict"]}
    for blow in (KILL, FAIL):
        strike_nights(steps, place, "a refused session", kept, *blow)


# A recorder that is killed before one of the calls by which it writes records, and passes packets on.
KILLED_RECORDER = """#!/usr/bin/python3 -IS
import os, runpy, signal, sys
left = {number}
def counted(step):
    def call(*words):
        global left
        left -= 1
        if left == 0:
            os.kill(os.getpid(), signal.SIGKILL)
        return step(*words)
    return call
for name in ("write", "writev", "ftruncate"):
    setattr(os, name, counted(getattr(os, name)))
sys.argv[0] = {record!r}
runpy.run_path(sys.argv[0], run_name="__main__")
"""

# What a night may say of a session whose recorder was killed: nothing had passed, all that did is right, or so much of
# it is, and nobody knows whether the server did the rest.
NO_BLAME = (f"1 session accepted; {ENDS_WELL}", f"1 of them with unanswered requests; {ENDS_WELL}",
            "changed the folder, or requests of theirs that were not judged:", f"0 sessions accepted; {ENDS_WELL}")


def kill_recorder_at(place, number):
    """Kills the recorder of a session at this call. Returns whether it came to that call, and what is wrong."""
    room = place.room / f"call-{number}"
    room.mkdir()
    of_its_own = Place(room)
    of_its_own.nightly()
    text = KILLED_RECORDER.format(number=number, record=str(TOP / "clients/record"))
    of_its_own.words[0] = executable(room / "recorder", text)
    is_whole = of_its_own.try_session("mkdir d", f"put {__file__} d/f", "ls -l d", "rename d/f g")
    status, said = of_its_own.nightly()
    is_well = status in (0, 1) and "refused" not in said and "Traceback" not in said and \
        any(it in said for it in NO_BLAME) and not list(of_its_own.records.iterdir())
    return not is_whole, "" if is_well else f"call {number}: {status}: {said}"


def killed_recorders(steps, place):
    count, wrong = strike_at_each(lambda number: kill_recorder_at(place, number))
    steps.check(f"a recorder killed at each of {count} calls: the night refuses nothing, and blames no other",
                count > 20 and not wrong, f"{len(wrong)} wrong: {wrong[:3]}")


TRIALS = (killed_when_accepting, struck_when_refusing, killed_recorders)
