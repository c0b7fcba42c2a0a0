"""The limits of a night, on memory and on time: programs that print much, limits of the system that are lower, and a
machine that is paused."""
import os
import resource
import signal
import subprocess
import time

from night_trials.place import ENDS_WELL, environment
from record_trials.steps import PROGRAM
from trials.copies import copy_scripts
from trials.processes import executable, limited, processes_of, wait_until

# The address space that a nightly run may have when what it starts prints much: its own is some 50 MB.
SPACE = 128 << 20

# A program that prints as much, in lines or as one, where another one says what a folder has, or what differs.
TALKATIVE = """#!/bin/sh
if [ "$1" = "{subcommand}" ]; then
    {lines}
    {last}
    exit {status}
fi
exec {program} "$@"
"""

MANY_LINES = "yes 'D \"/home/u/and-so-on/and-so-on\" added' | head -n 1500000"

LONG_LINE = "head -c 100000000 /dev/zero | tr '\\0' x; echo"


def talkative(place, subcommand, lines, last="", status=1):
    """A program that prints much for this subcommand, and is the right one for all others."""
    text = TALKATIVE.format(subcommand=subcommand, lines=lines, last=last, status=status, program=PROGRAM)
    return executable(place.room / "talkative", text)


def much_is_printed(steps, place):
    """What the program and sftpv3-tree print is not held, however much it is."""
    little = {"preexec_fn": limited(resource.RLIMIT_AS, SPACE, resource.RLIM_INFINITY)}
    scripts = copy_scripts(place.room / "scripts")
    for lines in (MANY_LINES, LONG_LINE):
        (scripts / "tree").write_text(f"import subprocess\nsubprocess.run({lines!r}, shell=True)\n"
                                      "print('no tree, says the last line')\nraise SystemExit(3)\n")
        place.check(steps, "sftpv3-tree prints much, and fails: its last line says why", 3,
                    "no tree, says the last line", script=scripts / "nightly", **little)
    (scripts / "tree").write_text("import sys\nprint(sys.flags)\nraise SystemExit(3)\n")
    place.check(steps, "sftpv3-tree is started without what users installed", 3, "isolated=1", "no_site=1",
                script=scripts / "nightly")
    place.nightly()
    for lines, told, reasons in ((MANY_LINES, "  and 1499980 more\n", "  and 1499901 more\n"),
                                 (LONG_LINE, "...99,995,904 more bytes\n", "...99,995,904 more bytes\n")):
        place.check(steps, "the folder has many changes: some are named, and all counted", 1, told,
                    program=talkative(place, "diff", lines), **little)
        place.session("ls")
        place.check(steps, "the explanation of a refusal has many lines", 1, "refused record 3: NotAllowed", reasons,
                    program=talkative(place, "audit", "echo refused record 3: NotAllowed; " + lines), **little)
    steps.check("what is kept of it is short", len(place.kept("refused")) == 4 and all(
        it.stat().st_size < 1 << 20 for it in place.kept("refused")), place.kept("refused"))
    program = talkative(place, "diff", "yes")
    place.check(steps, "a comparison that prints without end is ended", 1, "cannot be told within 2 seconds",
                words=["--audit-seconds", "2"], program=program, **little)
    (scripts / "tree").write_text("import time\nwhile True:\n    print('on and on')\n    time.sleep(0.01)\n")
    place.check(steps, "so is a look at the folders", 3, "within 2 seconds (--look-seconds)",
                script=scripts / "nightly", words=["--look-seconds", "2"], **little)


def a_lower_limit(steps, place):
    """`ulimit -v` of less than what an audit may have bounds it, and the night goes on. That is four times --memory."""
    less = {"preexec_fn": limited(resource.RLIMIT_AS, 1 << 30)}
    place.check(steps, "a lower limit of the system: the tree is made", 0, "the tree of the start has ",
                words=["--memory", str(1 << 30)], **less)
    place.session("mkdir d")
    place.check(steps, "a lower limit of the system: the session is judged", 0, "1 session accepted; " + ENDS_WELL,
                words=["--memory", str(1 << 30)], **less)


# A program whose audit needs more memory than a limit of the system allows.
GREEDY = """#!/bin/sh
[ "$1" = audit ] || exec {program} "$@"
dd if=/dev/zero of=/dev/null bs=400000000 count=1 2>/dev/null || {{ echo "sftpv3: out of memory" >&2; exit 3; }}
exec {program} "$@"
"""


def a_soft_limit(steps, place):
    """A soft limit of the system is kept, too, and named where it is too low: --memory is not what is wrong."""
    place.begin("mkdir d")
    program = executable(place.room / "greedy", GREEDY.format(program=PROGRAM))
    place.check(steps, "a soft limit that is too low: it is named", 1, "not judged: the audit needs more than the "
                "system's limit of 314,572,800 bytes (ulimit -v)", program=program,
                preexec_fn=limited(resource.RLIMIT_AS, 300 << 20, resource.RLIM_INFINITY))


# A program whose audit takes a second. When it begins, the file `mark` is there.
SLOW = """#!/bin/sh
[ "$1" = audit ] && touch "{mark}" && sleep 1
exec {program} "$@"
"""


def paused(steps, place):
    """A machine that is paused within an audit, and goes on later: that time is none of the audit's."""
    place.begin("mkdir d")
    mark = place.room / "mark"
    program = executable(place.room / "slow", SLOW.format(mark=mark, program=PROGRAM))
    with subprocess.Popen(place.night_words("--audit-seconds", "15"), stdout=subprocess.PIPE, stderr=subprocess.STDOUT,
                          text=True, env=environment(program)) as run:
        wait_until(lambda: mark.exists() or run.poll() is not None)
        stopped = [run.pid, *processes_of(str(program))]
        for it in stopped:
            os.kill(it, signal.SIGSTOP)
        time.sleep(17)
        for it in stopped:
            os.kill(it, signal.SIGCONT)
        said = run.communicate()[0]
    steps.check("a pause of the machine is no time of an audit", run.returncode == 0 and
                "1 session accepted; " + ENDS_WELL in said, f"{run.returncode}: {said}")


TRIALS = (much_is_printed, a_lower_limit, a_soft_limit, paused)
