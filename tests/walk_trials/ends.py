"""Walks that are ended by signals, paused, or get too little memory or room: each ends in order, and says why."""
import os
import resource
import shlex
import shutil
import signal
import subprocess
import sys
import tempfile
import time

from sftpv3.system.program import TOP
from trials.probes import SERVE, misbehaving
from trials.processes import executable, kill, limited, processes_of, wait_until
from walk_trials.runs import HOSTILE, HUNG, WALK, is_clean, needs_infer, run, walk

# Seconds after which a signal is said not to end a script.
PROMPT = 60

# Programs `sftpv3` whose `infer` hangs, or needs more memory than it gets, or says of which files or paths that is so.
HANGING = """#!/bin/sh
case "$*" in "help infer" | *begun.tree) exit;; esac
echo $$ >"$MARK"
sleep 600
"""
GREEDY = """#!/bin/sh
[ "$*" = "help infer" ] && exit
sleep 1
dd if=/dev/zero of=/dev/null bs=400000000 count=1 2>/dev/null || { echo "sftpv3: out of memory" >&2; exit 3; }
"""
LARGE = """#!/bin/sh
[ "$*" = "help infer" ] && exit
echo "no tree: the files of the session have 5 bytes in all" >&2
echo "sftpv3: out of memory: x needs more than '--memory' allows" >&2
exit 3
"""
PATHS = """#!/bin/sh
[ "$*" = "help infer" ] && exit
echo "no tree: the paths that replies tell of have 9 bytes in all" >&2
echo "sftpv3: out of memory" >&2
exit 3
"""


def with_program(folder, name, text):
    """What the environment of a walk has for which a script of this text is the program."""
    return {"SFTPV3": executable(os.path.join(folder, name), text)}


def signalled(folder, words, number, environment, ignored=()):
    """Starts a command, and sends it a signal once the file `mark` is there. Gives its status, or None if it did not
    end in time, what it printed, what it left in its temporary folder, and its processes that are left."""
    room = tempfile.mkdtemp(dir=folder)
    mark, temporary = os.path.join(room, "mark"), os.path.join(room, "tmp")
    os.mkdir(temporary)
    environment = {**os.environ, "TMPDIR": temporary, "MARK": mark, **environment}

    def ignore():
        for it in (signal.SIGHUP, signal.SIGINT, signal.SIGTERM):
            signal.signal(it, signal.SIG_IGN if it in ignored else signal.SIG_DFL)
    with subprocess.Popen(words, cwd=room, env=environment, stdin=subprocess.DEVNULL, stdout=subprocess.PIPE,
                          stderr=subprocess.STDOUT, preexec_fn=ignore, start_new_session=True) as running:
        wait_until(lambda: os.path.exists(mark) or running.poll() is not None)
        for it in (*ignored, number):
            running.send_signal(it)
            time.sleep(0.2)
        try:
            said = running.communicate(timeout=PROMPT)[0].decode(errors="replace")
            status = running.returncode
        except subprocess.TimeoutExpired:
            status, said = None, ""
        left = os.listdir(temporary), processes_of(mark)
        for it in {running.pid, *left[1]} if running.poll() is None or left[1] else ():
            kill(it)
    shutil.rmtree(room)
    return status, said, *left


def try_signals(steps, folder):
    """A signal ends a walk in order, be it in the session, or while the tree is made."""
    hanging = with_program(folder, "hanging", HANGING)
    for what, server, environment in (("in the session", "marks_and_hangs", {}), ("in infer", "Right", hanging)):
        for number in (signal.SIGTERM, signal.SIGHUP, signal.SIGINT):
            words = [WALK, "--timeout", "600", "--to", "seen.tree", "--", *HOSTILE, server]
            status, said, left, running = signalled(folder, words, number, environment)
            steps.check(f"{what}, {number.name} ends a walk with status {128 + number}, and leaves nothing",
                        status == 128 + number and said == f"walk: {number.name} came; no tree is written\n" and
                        not left and not running, f"{status}: {said} {left} {running}")
    words[-1] = "marks_and_hangs"
    status, said, left, running = signalled(folder, words, signal.SIGTERM, {}, ignored=[signal.SIGHUP])
    steps.check("a signal that was ignored at the start is ignored", status == 143 and "SIGTERM" in said,
                f"{status}: {said}")


def try_pause(steps, folder):
    """Where all is stopped for longer than a reply may take, as in a container that is paused, no server is blamed."""
    probe = [os.path.join(TOP, "clients", "probe"), "--seeds", "1", "--jobs", "1", "--timeout", "4", "--keep", "kept"]
    for words in ([WALK, "--timeout", "4", "--to", "seen.tree", "--", *HOSTILE, "marks_and_waits"],
                  [*probe, "--", *misbehaving("waits_once")]):
        mark = os.path.join(tempfile.mkdtemp(dir=folder), "mark")
        with subprocess.Popen(words, cwd=folder, env={**os.environ, "MARK": mark}, stdin=subprocess.DEVNULL,
                              stdout=subprocess.PIPE, stderr=subprocess.STDOUT) as running:
            wait_until(lambda: os.path.exists(mark) or running.poll() is not None)
            others = [it for it in processes_of(mark) if it != running.pid]
            for it in (running.pid, *others):
                os.kill(it, signal.SIGSTOP)
            time.sleep(6)
            os.kill(running.pid, signal.SIGCONT)
            time.sleep(0.5)
            for it in others:
                os.kill(it, signal.SIGCONT)
            said = running.communicate(timeout=HUNG)[0].decode(errors="replace")
        steps.check(f"{os.path.basename(words[0])}: all is stopped for 6 seconds, where replies have 4: none is late",
                    running.returncode == 0 and others, f"{running.returncode}: {said}")


# A walk that gets SIGTERM when `infer` has ended.
LATE = """
import os, runpy, signal, subprocess, sys
class Done(subprocess.CompletedProcess):
    def __init__(self, words, *others):
        super().__init__(words, *others)
        if words[-1] == sys.argv[2]:
            os.kill(os.getpid(), signal.SIGTERM)
            for _ in range(1000):
                pass
subprocess.CompletedProcess = Done
sys.argv[0] = {walk!r}
runpy.run_path({walk!r}, run_name="__main__")
"""


def try_late_signal(steps, folder):
    """A signal that comes behind the end of `infer` ends the walk in order, and what is told of the tree is true."""
    late = os.path.join(folder, "late.tree")
    code = LATE.format(walk=WALK)
    status, said = run([sys.executable, "-c", code, "--to", late, "--", *HOSTILE, "Right"], folder)
    steps.check("SIGTERM behind the end of infer: status 143, and that the tree is written", status == 143 and
                os.path.exists(late) and said == "walk: SIGTERM came; the tree is written\n", f"{status}: {said}")


def try_left_processes(steps, folder):
    """What a server started in its session ends with the walk, also where the server has ended before."""
    mark = os.path.join(folder, "left-mark")
    code = f"sleep 600 >/dev/null 2>&1 & exec {shlex.join([*HOSTILE, 'Right'])}"
    status, said = run([WALK, "--to", "left.tree", "--", "sh", "-c", code], folder, env={**os.environ, "MARK": mark})
    left = processes_of(mark)
    for it in left:
        os.kill(it, signal.SIGKILL)
    steps.check("what a server leaves running ends with the walk", status == 0 and not left, f"{status} {left}: {said}")


def try_memory(steps, folder):
    """`infer` gets no more memory than --memory says."""
    greedy, large, paths = (with_program(folder, name, text)
                            for name, text in (("greedy", GREEDY), ("large", LARGE), ("paths", PATHS)))
    status, said = run([WALK, "--memory", "4", "--to", "x", "--", *HOSTILE, "Right"], folder,
                       env={**os.environ, **large})
    steps.check("--memory 4: what is too large is said", status == 3 and is_clean(said) and
                "needs more than 4 bytes of memory (--memory); no tree: the files of the session have 5 bytes in all"
                in said, f"{status}: {said}")
    status, said = run([WALK, "--to", "x", "--", *HOSTILE, "Right"], folder, env={**os.environ, **paths})
    steps.check("paths that are too long are not blamed on --memory", status == 3 and is_clean(said) and
                "the paths that replies tell of have 9 bytes in all" in said and "--memory" not in said,
                f"{status}: {said}")
    for options, most in ((["--memory", "100000000"], 100_000_000), (["--memory", "1"], 1)):
        status, said = run([WALK, *options, "--to", "x", "--", *HOSTILE, "Right"], folder,
                           env={**os.environ, **greedy})
        steps.check(f"{' '.join(options)}: more than that infer does not get", status == 3 and is_clean(said) and
                    f"`sftpv3 infer` needs more than {most:,} bytes of memory (--memory)" in said, f"{status}: {said}")
        status, said = walk(folder, [*options, "--to", "seen.tree"], [*HOSTILE, "Right"])
        steps.check(f"{' '.join(options)}: that is enough, or is said to be too little",
                    status == 0 if most > 1 else status == 3 and f"needs more than {most:,} bytes of memory" in said,
                    f"{status}: {said}")


def try_soft_limit(steps, folder):
    """A limit of the system that is lower than --memory is kept, also a soft one, and is what is named."""
    greedy = with_program(folder, "greedy", GREEDY)
    for hard in (200 << 20, resource.RLIM_INFINITY):
        status, said = run([WALK, "--to", "x", "--", *HOSTILE, "Right"], folder, env={**os.environ, **greedy},
                           preexec_fn=limited(resource.RLIMIT_AS, 200 << 20, hard))
        steps.check(f"ulimit -v 200 MiB, {'soft' if hard < 0 else 'hard'}: infer gets no more, and that is said",
                    status == 3 and is_clean(said) and "--memory" not in said and
                    "`sftpv3 infer` needs more than the system's limit of 209,715,200 bytes (ulimit -v)" in said,
                    f"{status}: {said}")


def try_full_disk(steps, folder):
    """Where no file can be written, a walk and a probe fail: they do not tell of a tree or of differences."""
    probe = [os.path.join(TOP, "clients", "probe"), "--", *SERVE]
    for name, words in (("walk", [WALK, "--to", "seen.tree", "--", *HOSTILE, "Right"]), ("probe", probe)):
        status, said = run(words, folder, preexec_fn=limited(resource.RLIMIT_FSIZE, 0))
        steps.check(f"{name}: without a place for temporary files: status 3", status == 3 and "temporary" in said
                    and is_clean(said), f"{status}: {said[-600:]}")


TRIALS = needs_infer(try_signals, try_pause, try_late_signal, try_left_processes, try_memory, try_soft_limit,
                     try_full_disk)
