"""What ends a run: signals, a terminal that goes away, --patience and --budget; and how long it takes."""
import fcntl
import os
import re
import signal
import subprocess
import termios
import time

from probe_trials.runs import PROBE, probe, read
from sftpv3.system.program import program
from trials.probes import groups_of, misbehaving
from trials.processes import executable, processes_of, wait_until

def seconds_to_end(run):
    """How many seconds it takes until a process ends; it is killed after a minute."""
    start = time.monotonic()
    try:
        run.wait(60)
    except subprocess.TimeoutExpired:
        run.kill()
        run.wait()
    return time.monotonic() - start


def try_stop(steps, folder, name, sent, server, wanted, until, words=(), environment=None):
    """A run of many seeds gets a signal when `until` has returned, which is given the name of the file in which all is
    that was printed."""
    report, said, mark = (os.path.join(folder, name + end) for end in (".json", ".said", ".mark"))
    with open(said, "wb") as file:
        run = subprocess.Popen([PROBE, "--seeds", "1-5000", "--report", report, "--keep", os.path.join(folder, name),
                                *words, "--", *server], stdout=file, stderr=subprocess.STDOUT,
                               stdin=subprocess.DEVNULL, start_new_session=True,
                               env=dict(os.environ, MARK=mark, **environment or {}))
    until(said)
    # a terminal sends SIGINT to all processes of its group
    (os.killpg if sent == signal.SIGINT else os.kill)(run.pid, sent)
    took = seconds_to_end(run)
    steps.check(f"{name}: status {wanted}", run.returncode == wanted and f"not played: {sent.name}" in read(said),
                (run.returncode, read(said)))
    steps.check(f"{name}: it ends within 10 seconds", took < 10, took)
    steps.check(f"{name}: the report is written", os.path.exists(report) and
                bool(groups_of(report)) == (wanted == 1), read(said))
    steps.check(f"{name}: no process is left", not processes_of(mark), processes_of(mark))


def try_signals(steps, folder):
    """What was found is reported and written, and no server is left."""
    def found(said):
        wait_until(lambda: "seed " in read(said))
    for sent, kind, wanted, until in ((signal.SIGINT, "fifth-refusal", 1, found),
                                      (signal.SIGTERM, "fifth-refusal", 1, found),
                                      (signal.SIGHUP, "fifth-refusal", 1, found),
                                      (signal.SIGTERM, "Healthy", 4, lambda _: time.sleep(6)),
                                      (signal.SIGINT, "hang", 4, lambda _: time.sleep(6))):
        try_stop(steps, folder, f"{kind}-{sent.name}", sent, misbehaving(kind), wanted, until)


def try_hangup(steps, folder):
    """A terminal that goes away ends the run, unless `nohup` started it; what was found is in the files."""
    for is_ignored in (False, True):
        name = os.path.join(folder, f"hangup-{is_ignored}")
        temporary, mark, report = f"{name}.tmp", f"{name}.mark", f"{name}.json"
        os.mkdir(temporary)
        ours, theirs = os.openpty()

        def sit_down():
            fcntl.ioctl(theirs, termios.TIOCSCTTY, 0)
            signal.signal(signal.SIGHUP, signal.SIG_IGN if is_ignored else signal.SIG_DFL)
        run = subprocess.Popen([PROBE, "--seeds", "1-5000", "--report", report, "--keep", name, "--",
                                *misbehaving("fifth-refusal")], stdin=theirs, stdout=theirs, stderr=theirs,
                               start_new_session=True, preexec_fn=sit_down,
                               env=dict(os.environ, MARK=mark, TMPDIR=temporary))
        os.close(theirs)
        said = b""
        while b"seed " not in said:
            said += os.read(ours, 4096)
        if is_ignored:
            os.kill(run.pid, signal.SIGHUP)
            time.sleep(3)
            steps.check("nohup: the run goes on", run.poll() is None, run.returncode)
            run.terminate()
        os.close(ours)
        took = seconds_to_end(run)
        steps.check(f"{os.path.basename(name)}: it ends within 30 seconds", took < 30 and run.returncode in (1, 3),
                    (took, run.returncode))
        steps.check(f"{os.path.basename(name)}: nothing is left", not processes_of(mark) and not os.listdir(temporary),
                    (processes_of(mark), os.listdir(temporary)))
        steps.check(f"{os.path.basename(name)}: what was found is kept", os.path.exists(report) and groups_of(report)
                    and os.listdir(name), os.path.exists(name) and os.listdir(name))


# Stands for the program: its audits, behind the first so many, take two minutes.
SLOW = """#!/bin/sh
[ "$1" = audit ] || exec "$PROGRAM" "$@"
echo >>"$AUDITS"
[ "$(wc -l <"$AUDITS")" -le "$QUICK" ] || sleep 120
exec "$PROGRAM" "$@"
"""


def try_stop_of_audits(steps, folder):
    """A stop is seen while sessions are judged; what was found by then is reported, also of a session or of a plan that
    was not judged to its end."""
    slow, audits = executable(os.path.join(folder, "slow"), SLOW), os.path.join(folder, "audits")
    environment = {"SFTPV3": slow, "PROGRAM": program(), "AUDITS": audits}
    for quick, sent, kind, wanted in ((0, signal.SIGTERM, "Healthy", 4), (0, signal.SIGINT, "fifth-refusal", 4),
                                      (1, signal.SIGINT, "fifth-refusal", 1), (2, signal.SIGTERM, "fifth-refusal", 1),
                                      (5, signal.SIGTERM, "fifth-refusal", 1)):
        open(audits, "wb").close()
        try_stop(steps, folder, f"{kind}-{sent.name}-in-audit-{quick + 1}", sent, misbehaving(kind), wanted,
                 lambda _: wait_until(lambda: len(read(audits)) > quick), ["--jobs", "1"],
                 dict(environment, QUICK=str(quick)))
    status, said, took = probe("--patience", "3", "--", *misbehaving("Healthy"),
                               env=dict(os.environ, **environment, QUICK="0"))
    steps.check("--patience is seen while a session is judged", status == 4 and took < 20, (status, took, said))


def try_times(steps, folder):
    """A timeout a seed, no more: after a look at the root, a session ends with the first, and none is played again. And
    servers that are late are not blamed."""
    starts = os.path.join(folder, "late.starts")
    words = ["--seeds", "1-8", "--reset", f"echo >>{starts}", "--timeout", "2", "--budget", "0", "--keep",
             os.path.join(folder, "late")]
    status, said, took = probe(*words, "--in-flight", "1", "--", *misbehaving("looks-unanswered"))
    steps.check(f"requests without replies cost a timeout a seed: 8 seeds took {took:.0f} seconds",
                status == 1 and took >= 8 * 2 and os.path.getsize(starts) == 1 + 8, (os.path.getsize(starts), said))
    status, said, took = probe("--seeds", "1-2", "--requests", "20", "--", *misbehaving("slow"))
    steps.check("a server that takes 100 ms for a reply is accepted", (status, "\naccepted: 2 " in said) ==
                (0, True), said)
    status, said, took = probe("--seeds", "1-2", "--", *misbehaving("no-end"))
    steps.check("a server that does not end is stopped, and not blamed", status == 0, (status, said))


def try_budget(steps, folder):
    words = ["--seeds", "1-10", "--keep", os.path.join(folder, "budget")]
    status, said, playing = probe(*words, "--budget", "0", "--", *misbehaving("fifth-refusal"))
    kinds = said.count("not shrunk: no time was left")
    steps.check("--budget 0: all is kept whole, and says so", status == 1 and kinds > 3 and
                "shrunk to" not in said and "a longer --budget" not in said, said)
    status, said, took = probe("--seeds", "1-10", "--keep", os.path.join(folder, "more"), "--budget", "1", "--",
                               *misbehaving("fifth-refusal"))
    steps.check(f"--budget 5 ends in time: {took:.0f} seconds, and {playing:.0f} without shrinking",
                status == 1 and took < 2 * playing + 25, said)
    steps.check("a line says that a longer one shortens them", "a longer --budget than 1 " in said, said)
    first = said.find("seed 1: ")
    steps.check("differences are printed as they come", 0 <= first < said.find("\n1. "), said)


def try_patience(steps, folder):
    status, said, took = probe("--seeds", "1-5000", "--patience", "4", "--", *misbehaving("Healthy"))
    steps.check("--patience without a difference: status 4, and how many were not played", status == 4 and took < 30
                and re.search(r"no difference in \d+ sessions.* of 5000 sessions were not played: --patience", said),
                (status, took, said))
    # a busy machine needs more time to find the first
    for patience in ("5", "60"):
        status, said, took = probe("--seeds", "1-5000", "--patience", patience, "--keep",
                                   os.path.join(folder, "patience"), "--", *misbehaving("fifth-refusal"))
        if "seed " in said:
            break
    steps.check("--patience with differences: status 1", status == 1 and took < float(patience) + 35 and
                "not played: --patience" in said, (status, took, said))
    status, said, took = probe("--seeds", "1-5000", "--first", "--keep", os.path.join(folder, "first"), "--",
                               *misbehaving("fifth-refusal"))
    steps.check("--first ends at the first difference", status == 1 and "not played: --first" in said, (status, said))


TRIALS = (try_signals, try_hangup, try_stop_of_audits, try_times, try_budget, try_patience)
