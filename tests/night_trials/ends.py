"""Nights that a signal ends, or that find no room, at each point of keeping a record: each record is kept once, and the
next night goes on."""
import os
import signal
import subprocess
import sys

from night_trials.place import ENDS_WELL, USER, changed, environment
from record_trials.steps import PROGRAM
from trials.finding import FIND
from trials.processes import executable, kill, processes_of, wait_until

# A program whose audit does not end. Then the file `mark` is there.
HANGING = """#!/bin/sh
[ "$1" = audit ] && touch "{mark}" && sleep 600
exec {program} "$@"
"""


def end_by(place, number):
    """Starts a run whose audit does not end, and sends it a signal. Gives its status and what it prints, and the
    processes that are left."""
    mark = place.room / "mark"
    program = executable(place.room / "hanging", HANGING.format(mark=mark, program=PROGRAM))
    mark.unlink(missing_ok=True)
    with subprocess.Popen(place.night_words(), stdout=subprocess.PIPE, stderr=subprocess.STDOUT, text=True,
                          env=environment(program)) as run:
        wait_until(lambda: mark.exists() or run.poll() is not None)
        run.send_signal(number)
        run.wait(30)
        left = processes_of(str(program))
        for it in left:
            kill(it)
        return run.returncode, run.stdout.read(), left


def signals(steps, place):
    place.begin("mkdir d", "mkdir d/e")
    for number in (signal.SIGTERM, signal.SIGHUP, signal.SIGINT):
        status, said, left = end_by(place, number)
        steps.check(f"{number.name} ends a run with status {128 + number}, and all that it started",
                    status == 128 + number and not left and sorted(os.listdir(place.state / USER)) == [
                        "compared", "tree"] and
                    said == f"nightly: {USER}: {number.name} came; what is left waits for the next run\n",
                    f"{status} {left}: {said}")
    place.check(steps, "the next one goes on", 0, "2 sessions accepted; " + ENDS_WELL)


# A nightly run that is sent a signal behind, or before, a step of keeping a record.
STRUCK = """
import os, runpy, sys
{find}
from sftpv3.nights import journal, records
step = {step}
def struck(*words):
    {before} and os.kill(os.getpid(), {number})
    found = step(*words)
    os.kill(os.getpid(), {number})
    return found
{step} = struck
sys.argv = sys.argv[1:]
runpy.run_path(sys.argv[0], run_name="__main__")
"""

# Code that changes a run, for which the file systems have other numbers than for the run before.
RESTARTED = """
identity_of = records.identity_of
def of_another(state):
    device, *rest = identity_of(state)
    return (device + 1, *rest)
records.identity_of = of_another
"""

# What a run is sent, and where: when it has kept the first record, before that is removed from the spool, and before it
# is kept. Then the name of a folder, how many sessions the next run has to accept, and whether the machine is restarted
# before it.
BLOWS = [
    (signal.SIGTERM, "journal.commit", False, "a", 1, False),
    (signal.SIGKILL, "journal.commit", False, "b", 1, False),
    (signal.SIGKILL, "records.Record.remove", True, "c", 1, False),
    (signal.SIGKILL, "journal.commit", True, "d", 2, False),
    (signal.SIGKILL, "records.Record.remove", True, "e", 1, True),
]


def struck(place, number, step, before):
    """A run that is sent a signal at a step of keeping the first record."""
    code = STRUCK.format(find=FIND, number=int(number), step=step, before=before)
    subprocess.run([sys.executable, "-c", code, *place.night_words()], stdout=subprocess.DEVNULL,
                   stderr=subprocess.DEVNULL, check=False, env=environment())


def struck_when_kept(steps, place):
    """The next session starts from the tree in which the kept one ended, whatever came between."""
    place.nightly()
    for number, step, before, name, count, is_restarted in BLOWS:
        place.session(f"mkdir {name}")
        place.session(f"mkdir {name}/in")
        struck(place, number, step, before)
        how = {"script": changed(place, RESTARTED)} if is_restarted else {}
        came = f"{number.name} came {'before' if before else 'behind'} {step}{', and a restart' * is_restarted}"
        place.check(steps, f"{came}: the next run accepts what is left", 0,
                    f"{count} session{'s' * (count > 1)} accepted; " + ENDS_WELL, **how)
    steps.check("each record is kept once", len(place.kept("accepted")) == 2 * len(BLOWS) and
                not list(place.records.iterdir()), place.kept("accepted"))


# It notes which names are removed and replaced, and which folders have their names on the disk.
NOTED = """
def noted(name):
    step = getattr(os, name)
    def note(it, *words, **how):
        with open({notes!r}, "a") as file:
            file.write(name + " " + (os.readlink(f"/proc/self/fd/{{it}}") if name == "fsync" else str(it)) + "\\n")
        return step(it, *words, **how)
    setattr(os, name, note)
for name in ("unlink", "fsync", "replace"):
    noted(name)
"""


def removed_for_good(steps, place):
    """A record that is kept is gone from the spool whatever comes later, before its last tree is used."""
    place.begin("mkdir d")
    (record,) = place.records.iterdir()
    notes = place.room / "notes"
    place.check(steps, "a run that is watched", 0, ENDS_WELL, script=changed(place, NOTED.format(notes=str(notes))))
    found = notes.read_text().splitlines()
    wanted = [f"unlink {record.name}", f"fsync {place.records}", "replace tree.after"]
    places = [found.index(it) if it in found else -1 for it in wanted]
    steps.check("it has the removal from the spool on the disk before the next tree", -1 not in places and
                places == sorted(places), found)


# No record can be removed from the spool.
READ_ONLY = """
def remove(_):
    raise OSError(30, os.strerror(30))
records.Record.remove = remove
"""


def spool_read_only(steps, place):
    """A record that cannot be removed from the spool is kept once, and removed when it can be."""
    place.begin("mkdir d")
    for _ in range(3):
        place.check(steps, "a record cannot be removed from the spool: status 3, and why", 3, "Read-only file system",
                    script=changed(place, READ_ONLY))
    place.check(steps, "once it can be, the next run goes on", 0, ENDS_WELL)
    place.session("rmdir d")
    place.check(steps, "and the next day", 0, "1 session accepted; " + ENDS_WELL)
    steps.check("each record was kept once", len(place.kept("accepted")) == 2 and
                not list(place.records.iterdir()), place.kept("accepted"))


def next_alone(steps, place):
    """The tree of a record that is kept, and no word on which record that was."""
    place.nightly()
    (place.state / USER / "tree").rename(place.state / USER / "tree.next")
    place.check(steps, "a tree that is next, and no word whose it is: it is that of the next session", 0, ENDS_WELL)
    steps.check("and it is left no more", not (place.state / USER / "tree.next").exists())


def met_a_change(place, number):
    """A session that is to be refused: it saw what another program changed."""
    (place.live / f"late-{number}").write_text("x")
    place.session(f"get late-{number} {place.room}/late")


def refused_when_struck(steps, place):
    """A refused record is kept as one, whatever came between."""
    blows = ("journal.commit", True), ("records.Record.remove", True), ("journal.commit", False)
    for number, (step, before) in enumerate(blows):
        place.nightly()
        met_a_change(place, number)
        struck(place, signal.SIGKILL, step, before)
        status, said = place.nightly()
        steps.check(f"SIGKILL came {'before' if before else 'behind'} {step}: a refused record is kept as one",
                    len(place.kept("refused")) >= number + 1 and not place.kept("unjudged") and
                    not list(place.records.iterdir()) and "not judged" not in said and status in (0, 1),
                    f"{status}: {said}")
    found = [it for it in place.kept("refused") if it.suffix != ".verdict"]
    steps.check("and each is kept once", len(found) == 3, found)
    verdicts = [it.with_name(f"{it.name}.verdict") for it in found]
    steps.check("and each with its verdict", all(it.exists() and "refused record " in it.read_text() and
                "causes: NoEntry" in it.read_text() for it in verdicts), place.kept("refused"))
    steps.check("nothing else is left", set(os.listdir(place.state / USER)) <= {"compared", "refused", "tree"},
                os.listdir(place.state / USER))


def no_room_for_refused(steps, place):
    """A refused record that cannot be kept is refused again."""
    place.nightly()
    met_a_change(place, 0)
    (place.state / USER / "refused").write_text("in the way")
    for _ in range(2):
        place.check(steps, "a refused record cannot be kept: status 3, behind its verdict", 3, "refused record ",
                    "refused: File exists")
    (place.state / USER / "refused").unlink()
    place.check(steps, "once it can be kept, it is refused again", 1, "refused record ", "causes: NoEntry")
    steps.check("and kept with its verdict", len(place.kept("refused")) == 2 and not place.kept("unjudged"))


TRIALS = (signals, struck_when_kept, removed_for_good, spool_read_only, next_alone, refused_when_struck,
          no_room_for_refused)
