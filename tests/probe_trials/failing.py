"""What fails on the side of the probe: the system, its outputs, itself."""
import errno
import json
import os
import re
import shutil
import subprocess
import sys
import tempfile
from unittest import mock
from xml.etree import ElementTree

from probe_trials.runs import PROBE, probe
from sftpv3.peer import servers
from sftpv3.system import program
from trials.finding import FIND
from trials.probes import SERVE, misbehaving

# A user with no rights.
NOBODY = 65534


def try_limits(steps, folder):
    """What the system refuses the probe itself is no difference of the server."""
    words = [PROBE, "--seeds", "1-8", "--jobs", "4", "--budget", "0", "--keep", os.path.join(folder, "limits"), "--"]
    for most in (14, 18, 22):
        done = subprocess.run(["prlimit", f"--nofile={most}", *words, *SERVE], capture_output=True, text=True,
                              stdin=subprocess.DEVNULL, check=False)
        said = done.stdout + done.stderr
        steps.check(f"{most} open files: status 0, or 3 and why", done.returncode in (0, 3) and "expected" not in said
                    and "Traceback" not in said and ("Too many open files" in said) == (done.returncode == 3),
                    (done.returncode, said))
    for number in (errno.EMFILE, errno.ENOMEM, errno.EAGAIN):
        with mock.patch.object(subprocess, "Popen", side_effect=OSError(number, os.strerror(number))):
            try:
                servers.started(["server"])
            except servers.NotStarted as error:
                steps.check(f"{errno.errorcode[number]} is not the server's", False, error)
            except OSError as error:
                steps.check(f"{errno.errorcode[number]} is not the server's", error.errno == number, error)
    if steps.lacks_root("no further threads"):
        return
    room = tempfile.mkdtemp(dir="/tmp")
    os.chown(room, NOBODY, NOBODY)
    few = ["setpriv", f"--reuid={NOBODY}", f"--regid={NOBODY}", "--clear-groups", "prlimit", "--nproc=3"]
    done = subprocess.run([*few, "/usr/bin/python3", "-B", *words[:-2], os.path.join(room, "kept"), "--", *SERVE],
                          cwd=room, capture_output=True, text=True, stdin=subprocess.DEVNULL, check=False)
    said = done.stdout + done.stderr
    steps.check("few processes for its user: status 3, and why", done.returncode == 3 and "Traceback" not in said and
                "expected" not in said and said.count("\n") == 1, (done.returncode, said))
    shutil.rmtree(room)


def try_not_removed(steps, folder):
    """What a server made in {folder} may belong to another user, as by sudo or a container."""
    refused = PermissionError(errno.EACCES, os.strerror(errno.EACCES), "x")
    with mock.patch.object(servers.removing, "remove_directory", side_effect=refused):
        try:
            with servers.Server(["server", "{folder}"]).with_folder(folder) as server:
                made = server.folder
        except PermissionError as error:
            said = program.told(error)
            steps.check("{folder} that cannot be removed: it is named, and what to do", said.startswith(
                f"{made}: Permission denied: ") and "--reset" in said and "\n" not in said, said)


def try_not_written(steps, folder):
    """What cannot be kept, or written as a report, is printed all the same."""
    kept = os.path.join(folder, "no-folder")
    words = ["--seeds", "1", "--in-flight", "1", "--budget", "0"]
    for more in (["--keep", kept, "--reset", f"rm -rf {kept}; : >{kept}"],
                 ["--keep", os.path.join(folder, "a-folder"), "--report", "/dev/full"]):
        status, said, _ = probe(*words, *more, "--", *misbehaving("fifth-refusal"))
        steps.check(f"{more[-2]} {more[-1]}: status 3, and what was found is printed", status == 3 and "\n1. " in said
                    and " of difference" in said and "Traceback" not in said, (status, said))


# Runs a command with a folder of its own of so little room that no report fits into it.
SMALL = """mount -t tmpfs -o size=4k none "$0" && exec "$@" """


def try_full_reports(steps, folder):
    """A report for which a disk has no room is named, whatever kind it is; what was found is printed all the same."""
    words = [PROBE, "--seeds", "1-2", "--requests", "5", "--skip", "transfers,crowds", "--keep",
             os.path.join(folder, "kept"), "--report"]
    done = subprocess.run([*words, "/dev/full", "--", *SERVE], capture_output=True, text=True, check=False,
                          stdin=subprocess.DEVNULL)
    steps.check("--report /dev/full: status 3, and its name", done.returncode == 3 and "accepted: 2 sess" in done.stdout
                and done.stderr == "probe: /dev/full: No space left on device\n", (done.returncode, done.stderr))
    place = os.path.join(folder, "small")
    os.mkdir(place)
    for kind in ("html", "xml", "json"):
        name = os.path.join(place, f"{'r' * 20}.{kind}")
        if steps.lacks_root(f"a full disk under a report of {kind}"):
            continue
        # the page of its file, and a file that fills the other one
        fill = ["sh", "-c", 'head -c 4096 /dev/zero >"$0/fill"; exec "$@"', place]
        done = subprocess.run(["unshare", "--mount", "sh", "-c", SMALL, place, *fill, *words, name, "--", *SERVE],
                              capture_output=True, text=True, check=False, stdin=subprocess.DEVNULL)
        steps.check(f"a full disk under a report of {kind}: status 3, and its name", done.returncode == 3 and
                    "accepted: 2 sessions" in done.stdout and
                    done.stderr == f"probe: {name}: No space left on device\n", (done.returncode, done.stderr))


def try_skipped(steps, folder):
    """Seeds that were not played are skipped in JUnit and JSON, and a page is not green then."""
    words = ["--seeds", "1-4", "--jobs", "1", "--requests", "5", "--in-flight", "1", "--budget", "0", "--skip",
             "transfers,crowds", "--keep", os.path.join(folder, "kept-skipped"), "--first"]
    for end in ("xml", "json"):
        report = os.path.join(folder, f"skipped.{end}")
        status, said, _ = probe(*words, "--report", report, "--", *misbehaving("fifth-refusal"))
        played = int(re.search(r"(\d) of 4 sessions were not played: --first", said)[1]) if status == 1 else None
        if end == "json":
            lines = [json.loads(line) for line in open(report, encoding="utf-8")]
            skipped = [(it["seed"], it["accepted"]) for it in lines if it.get("skipped") == "not played: --first"]
            steps.check("JSON: seeds that were not played are skipped", played and skipped ==
                        [(seed, None) for seed in range(5 - played, 5)], lines)
        else:
            suite = ElementTree.parse(report).getroot()
            cases = [case.get("classname") for case in suite.findall("testcase") if case.find("skipped") is not None]
            steps.check("JUnit: seeds that were not played are skipped", played and suite.get("skipped") == str(played)
                        and cases == [f"probe.seed-{seed}" for seed in range(5 - played, 5)] and
                        suite.get("tests") == str(len(suite.findall("testcase"))), ElementTree.tostring(suite)[:600])
    report = os.path.join(folder, "stopped.html")
    status, said, _ = probe("--seeds", "1-400", "--jobs", "1", "--patience", "2", "--keep", folder, "--report", report,
                            "--", *SERVE)
    text = open(report, encoding="utf-8").read()
    steps.check("a page of a run that was ended is not green", status == 4 and
                '<h1 class="plain">no difference' in text, (status, text[text.find("<h1"):][:80]))


def try_closed_output(steps, folder):
    """Where nobody reads what is printed, the probe ends, and says nothing."""
    run = subprocess.Popen([PROBE, "--seeds", "1-20", "--budget", "0", "--keep", os.path.join(folder, "closed"), "--",
                            *misbehaving("fifth-refusal")],
                           stdout=subprocess.PIPE, stderr=subprocess.PIPE, text=True, stdin=subprocess.DEVNULL)
    run.stdout.close()
    said = run.stderr.read()
    status = run.wait()
    steps.check("standard output that is closed: status 3, and not a word", (status, said) == (3, ""), (status, said))


def try_full_streams(steps, folder):
    """A standard error that is full changes no status, and a standard output that is full has status 3 and is named."""
    words = ["--seeds", "1-2", "--requests", "10", "--skip", "transfers", "--budget", "0", "--keep",
             os.path.join(folder, "full")]
    with open("/dev/full", "wb") as full:
        for name, wanted, streams in (("standard error", 1, {"stderr": full}), ("standard output", 3, {"stdout": full}),
                                      ("each of them", 3, {"stdout": full, "stderr": full})):
            done = subprocess.run([PROBE, *words, "--", *misbehaving("without_owners")], check=False, text=True,
                                  **{"stdout": subprocess.PIPE, "stderr": subprocess.PIPE, **streams})
            is_said = name != "standard output" or "probe: standard output: No space left" in done.stderr
            steps.check(f"{name} is full: status {wanted}", done.returncode == wanted and is_said, done)


# Runs the probe with these arguments; the plan of seed 4 cannot be made.
BROKEN = FIND + """
import runpy
from sftpv3.probe import planner
whole = planner.plan
def plan(seed, *more):
    if seed == 4:
        raise ValueError("no plan")
    return whole(seed, *more)
planner.plan = plan
sys.argv = sys.argv[1:]
runpy.run_path(sys.argv[0], run_name="__main__")
"""


def try_own_mistake(steps, folder):
    """A mistake in the probe itself is told from differences, and what was found before it is reported."""
    report = os.path.join(folder, "own.json")
    for kind, found in (("Healthy", False), ("fifth-refusal", True)):
        words = ["--seeds", "1-8", "--jobs", "1", "--budget", "0", "--keep", os.path.join(folder, "own"), "--report",
                 report, "--", *misbehaving(kind)]
        done = subprocess.run([sys.executable, "-c", BROKEN, PROBE, *words], text=True,
                              capture_output=True, check=False, stdin=subprocess.DEVNULL)
        name = f"{kind}, a mistake in the probe itself"
        steps.check(f"{name}: status 3, and it says so", done.returncode == 3 and "ValueError: no plan" in done.stderr
                    and "a mistake in the probe itself" in done.stderr, done)
        steps.check(f"{name}: what was found is reported", os.path.exists(report) == found and
                    ("code 0 (OK)" in done.stdout) == found, done)


TRIALS = (try_limits, try_not_removed, try_not_written, try_full_reports, try_skipped, try_closed_output,
          try_full_streams, try_own_mistake)
