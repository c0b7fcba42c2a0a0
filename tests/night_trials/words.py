"""Words that a night does not take, folders that are not there, and an output that is full."""
import fcntl
import os
import subprocess
from pathlib import Path

from night_trials.place import ENDS_WELL, USER, environment
from record_trials.steps import PROGRAM
from trials.processes import executable


def usage(steps, place):
    place.check(steps, "a user that is not there: status 2", 2, "there is no user", user="nobody-at-all")
    place.check(steps, "a folder that is not there: status 3", 3, "No such file", folders=[place.room / "absent"])
    for words in (["--memory", "0"], ["--audit-seconds", "x"], ["--longest", "-1"], ["--longest", "nan"],
                  ["--audit-seconds", "9999999999"], ["--look-seconds", "9999999999"], ["--memory", str(1 << 61)]):
        place.check(steps, f"{' '.join(words)}: status 2", 2, f"argument {words[0]}: '{words[1]}' is ", words=words)
    (place.live / "large").write_bytes(bytes(1000))
    place.check(steps, "files of more than a third of --memory: status 3", 3, "a third of --memory", words=["--memory",
                                                                                                     "2000"])
    for words in (["--wrong"], ["--umask", "999"], ["--explain"], ["--json"], ["--progress"], ["--help"], ["-h"],
                  ["--profile", "posix", "--tree", "x"]):
        place.check(steps, f"{' '.join(words)}, which the audit does not take: status 2 before anything is made", 2,
                    "nightly: behind --: ", words[-2] if words[-1] == "x" else words[0], words=["--", *words])
    steps.check("and nothing is made", not (place.state / USER / "tree").exists())
    place.begin("mkdir d")
    place.check(steps, "later, too", 2, "--wrong", words=["--", "--wrong"])
    steps.check("and the records stay", len(list(place.records.iterdir())) == 1)
    held = os.open(place.state / USER, os.O_RDONLY)
    fcntl.flock(held, fcntl.LOCK_EX)
    place.check(steps, "two runs at once: status 3", 3, "another run")
    os.close(held)
    place.records.rename(place.room / "away")
    place.check(steps, "a spool that is not there: status 3", 3, "No such file")


def nobody_reads(steps, place):
    """What cannot be printed is not done either: so no verdict is lost."""
    place.begin("mkdir d")
    with open("/dev/full", "wb") as full:
        done = subprocess.run(place.night_words(), stdout=full, stderr=subprocess.PIPE, text=True, check=False,
                              env=environment())
    steps.check("standard output is full: status 3, and the record stays", done.returncode == 3 and
                done.stderr == "nightly: standard output: No space left on device\n" and
                len(list(place.records.iterdir())) == 1, f"{done.returncode}: {done.stderr}")
    place.check(steps, "the next run says it", 0, ": accepted ", "1 session accepted; " + ENDS_WELL)


def no_state(steps, place):
    """A state that cannot be made is named whole: the system makes no folder in /sys."""
    place.state = Path("/sys/sftpv3-trial/state")
    place.check(steps, "a state that cannot be made: status 3, and where", 3,
                f"nightly: {USER}: {place.state / USER}: ")


# The program, with a version as that of one that ./sftpv3 had built without a proof.
UNPROVED = """#!/bin/sh
[ "$1" != --version ] || {{ echo 'sftpv3 0.2.0 (commit 1234, rattle-kit-13f) (not proved)'; exit; }}
exec {program} "$@"
"""


def not_proved(steps, place):
    """Nothing is judged by a program that nothing has proved, on the first night and on later ones."""
    program = executable(place.room / "unproved", UNPROVED.format(program=PROGRAM))
    told = f"nightly: {USER}: {program} is not proved, and a night's verdicts are those of the proved program\n"
    said = place.nightly(program=program)
    steps.check("a program that is not proved: status 3, and nothing is made", said == (3, told) and
                not (place.state / USER).exists(), said)
    place.begin("mkdir d")
    said = place.nightly(program=program)
    steps.check("later, too, and the record stays", said == (3, told) and len(list(place.records.iterdir())) == 1, said)
    place.check(steps, "the proved one judges it", 0, ": accepted ", "1 session accepted; " + ENDS_WELL)


TRIALS = (usage, nobody_reads, no_state, not_proved)
