"""Servers that cannot be started, the command of --reset, and what servers leave behind."""
import os
import signal
import subprocess
import sys

from probe_trials.runs import ENDLESS, PROBE, probe, read, side_by_side
from trials.probes import SERVE, misbehaving

# Servers that cannot be started, and what the probe says.
NOT_STARTED = [
    ("exit-at-start", "it ended with status 9\n  standard error: no configuration was found"),
    ("hang-at-start", "no VERSION came: no reply within 6 seconds"),
    ("garbage-at-start", 'no VERSION came: its output is text, "Welcome to this host"'),
    ("version-six", "the server speaks version 6, not 3"),
    ("short-version", "the first packet is not right"),
]


def try_not_started(steps, _):
    side_by_side(try_refusal, [(steps, *one) for one in NOT_STARTED])


def try_refusal(steps, kind, wanted):
    status, said, _ = probe("--timeout", "0.5", "--", *misbehaving(kind))
    steps.check(f"{kind}: status 3, and why", status == 3 and wanted in said, (status, said))


def try_start(steps, folder):
    """A server that starts, and later does not, has a difference."""
    environment = dict(os.environ, MISBEHAVING_COUNT=os.path.join(folder, "starts.count"))
    words = ["--seeds", "1-6", "--in-flight", "1"]
    status, said, _ = probe(*words, "--keep", os.path.join(folder, "starts"), "--jobs", "1", "--",
                            *misbehaving("starts-at-times"), env=environment)
    steps.check("a start that fails at times is a difference", status == 1 and "INIT: no VERSION came" in said
                and "the port is taken" in said, said)
    reset = os.path.join(folder, "reset.sh")
    with open(reset, "w", encoding="ascii") as file:
        file.write(f"echo >>{folder}/resets; [ $(wc -l <{folder}/resets) -lt 4 ] || {{ echo no more >&2; exit 5; }}\n")
    status, said, _ = probe(*words, "--budget", "0", "--keep", os.path.join(folder, "reset"), "--reset", f"sh {reset}",
                            "--", *misbehaving("fifth-refusal"))
    steps.check("a reset that fails: status 3, and what was found is reported", status == 3 and "--reset ended with "
                "status 5: no more" in said and "code 0 (OK)" in said and "not played" in said, (status, said))
    steps.check("what was found then is not said to be whole for lack of time", "no time was left" not in said and
                "not shrunk: the run failed" in said, said)
    with open(reset, "w", encoding="ascii") as file:
        file.write(f"echo >>{folder}/more; [ $(wc -l <{folder}/more) -lt 9 ] || {{ echo no more >&2; exit 5; }}\n")
    status, said, _ = probe(*words, "--keep", os.path.join(folder, "later"), "--reset", f"sh {reset}", "--",
                            *misbehaving("fifth-refusal"))
    steps.check("a reset that fails while sessions are shrunk: the same", status == 3 and "status 5: no more" in said
                and "intermittent" not in said and "code 0 (OK)" in said, (status, said))


def try_reset(steps, folder):
    """A command of --reset that hangs, also when the run is stopped, and one that leaves a process with its standard
    error."""
    status, said, took = probe("--timeout", "0.2", "--reset", "sleep 300", "--", *misbehaving("Healthy"))
    steps.check("a reset that hangs: status 3", status == 3 and "--reset did not end within 2.4 seconds" in said, said)
    status, said, took = probe("--patience", "2", "--reset", "sleep 300", "--", *misbehaving("Healthy"))
    steps.check("a run that is stopped while a reset hangs: status 4", status == 4 and "not played: --patience" in said
                and took < 20, (status, took, said))
    left = os.path.join(folder, "left")
    status, said, took = probe("--seeds", "1-2", "--reset", f"sleep 100 & echo $! >>{left}", "--",
                               *misbehaving("Healthy"))
    with open(left, encoding="ascii") as file:
        for line in file:
            os.kill(int(line), signal.SIGKILL)
    steps.check("a reset that leaves a process: it is not waited for", status == 0 and took < 60, (status, took, said))


# A server that leaves a process behind, in a session of its own, which may hide whose it is.
LEAVES = """
import os, signal, sys
if os.fork() == 0:
    os.setsid()
    if os.fork() == 0:
        signal.signal(signal.SIGTERM, signal.SIG_IGN)
        with open(sys.argv[1], "a") as file:
            print(os.getpid(), file=file)
        os.execve("/bin/sleep", ["sleep", "100"], {} if sys.argv[2] == "hidden" else os.environ)
    os._exit(0)
os.wait()
os.execv(sys.argv[3], sys.argv[3:])
"""


def is_there(process):
    return os.path.exists(f"/proc/{process}")


def try_left(steps, folder):
    """What a server leaves ends with its session, or with the run; what others started goes on."""
    for kind in ("plain", "hidden"):
        pids = os.path.join(folder, f"{kind}.pids")
        server = [sys.executable, "-c", LEAVES, pids, kind, *SERVE]
        status, said, _ = probe("--seeds", "1-3", "--requests", "10", "--skip", "transfers", "--", *server)
        left = [it for it in read(pids).split() if is_there(it)]
        for process in left:
            os.kill(int(process), signal.SIGKILL)
        steps.check(f"a server that leaves a process ({kind}): none is left of {len(read(pids).split())}", status == 0
                    and not left and len(read(pids).split()) >= 3, (status, left, said))
    pids = os.path.join(folder, "plain-one.pids")
    script = f"sleep 100 & echo $! >{pids}.other; exec {PROBE} --seeds 1 --requests 10 --skip transfers -- \"$@\""
    server = [sys.executable, "-c", LEAVES, pids, "plain", *SERVE]
    done = subprocess.run(["sh", "-c", script, "sh", *server], capture_output=True, check=False, timeout=ENDLESS)
    other = read(f"{pids}.other").strip()
    steps.check("a child of the shell before goes on", done.returncode == 0 and is_there(other) and
                not any(map(is_there, read(pids).split())), done)
    os.kill(int(other), signal.SIGKILL)


TRIALS = (try_not_started, try_start, try_reset, try_left)
