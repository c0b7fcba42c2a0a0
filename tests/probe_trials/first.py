"""A first run (--quick), and what a run knows of those before: --known, --last-failed, --max-kinds; and what a server
keeps that nothing needs."""
import json
import os

from probe_trials.runs import probe, read
from sftpv3.probe import groups, sessions, verdicts
from trials.probes import SERVE, faulty, groups_of, planted, stand_in

SMALL = "transfers,crowds,unusual-names,links,deep,many-handles,read-back"


def try_quick(steps, folder):
    """Nothing of a sound server, within a minute; of one with two bugs each at once, shrunk and whole."""
    status, said, _ = probe("--quick", "--", *SERVE)
    steps.check("--quick finds nothing in sftpv3 serve", status == 0 and "\naccepted: " in said, said)
    keep, report = os.path.join(folder, "quick"), os.path.join(folder, "quick.json")
    server = stand_in("planted", "wrong-code", planted("wrong-byte"))
    status, said, took = probe("--quick", "--keep", keep, "--report", report, "--", *server)
    found = groups_of(report)
    steps.check(f"--quick finds two bugs, each shrunk when it is shown: {len(found)} kinds after {took:.0f} seconds",
                status == 1 and {"READ", "RMDIR"} & {one["request"] for one in found} and said.count("\n1. ") == 1
                and said.startswith("\n1. "), said)
    steps.check("its first kind is shrunk", found and found[0]["requests"] and found[0]["requests"] <= 6, found)


def try_known(steps, folder):
    """Kinds of an earlier report are expected."""
    keep, report = os.path.join(folder, "known"), os.path.join(folder, "known.json")
    words = ["--seeds", "3-6", "--in-flight", "1", "--skip", SMALL, "--budget", "0", "--keep", keep]
    status, said, _ = probe(*words, "--report", report, "--", *planted("wrong-code"))
    count = len(groups_of(report))
    steps.check(f"a first run finds {count} kinds", status == 1 and count, said)
    again = os.path.join(folder, "again.json")
    status, said, _ = probe(*words, "--known", report, "--report", again, "--", *planted("wrong-code"))
    steps.check("with --known they are expected", status == 0 and f"{count} of {count} known kinds came" in said, said)
    status, said, _ = probe(*words, "--known", again, "--", *planted("wrong-code"))
    steps.check("the second report tells them, too", status == 0 and f"{count} of {count} known kinds came" in said,
                said)
    status, said, _ = probe(*words, "--known", report, "--", *stand_in("planted", "told-done", planted("wrong-code")))
    steps.check("another kind is found beside them", status == 1 and "known kinds came" in said, said)
    status, said, _ = probe(*words, "--known", os.path.join(folder, "usual.tree"), "--", *SERVE)
    steps.check("what is no report is bad usage", status == 2 and "Traceback" not in said, said)


def try_last_failed(steps, folder):
    """The seeds that differed are played again; and one kind is enough for --max-kinds 1."""
    keep, report = os.path.join(folder, "last"), os.path.join(folder, "last.json")
    words = ["--in-flight", "1", "--skip", SMALL, "--budget", "0", "--keep", keep]
    status, said, _ = probe("--last-failed", *words, "--", *SERVE)
    steps.check("--last-failed without a run before is bad usage", status == 2 and "seeds-that-differed" in said, said)
    status, said, _ = probe("--seeds", "1-8", *words, "--report", report, "--", *planted("wrong-code"))
    failed = [line["seed"] for line in map(json.loads, read(report).splitlines())
              if "seed" in line and not line["accepted"]]
    kept = read(os.path.join(keep, "seeds-that-differed.txt")).strip()
    steps.check(f"seeds {kept} differed", status == 1 and kept == ",".join(map(str, failed)) and 0 < len(failed) < 8,
                said)
    status, said, _ = probe("--last-failed", *words, "--", *SERVE)
    steps.check("they are played again", status == 0 and f"\naccepted: {len(failed)} sessions, " in said, said)
    status, said, _ = probe("--seeds", "1-8", "--max-kinds", "1", "--jobs", "1", *words, "--", *planted("wrong-code"))
    steps.check("--max-kinds 1 ends the run", status == 1 and "sessions were not played: --max-kinds" in said, said)


def try_leaks(steps, folder):
    """Descriptors that nothing gives back, and memory."""
    keep, report = os.path.join(folder, "leak"), os.path.join(folder, "leak.json")
    status, said, _ = probe("--seeds", "3", "--keep", keep, "--report", report, "--budget", "5", "--", *faulty(
        "descriptor-leaks-by-listing"))
    steps.check("a leak is found", status == 1 and "LEAK: " in said and "descriptors more after" in said, said)
    steps.check("it is one kind", [one["request"] for one in groups_of(report)] == ["LEAK"], said)
    status, said, _ = probe("--seeds", "3", "--", *faulty("memory-leaks"))
    steps.check("memory is told, and no difference", status == 0 and "MiB more at the end" in said, said)


def difference(seed, request, reply):
    verdict = verdicts.Verdict(False, "", reply + 1, "NotAllowed", {"expected": f"{request}", "found": f"{request}"})
    session = sessions.Session(1, [], [])
    return verdicts.Difference(seed, 1, request, verdict, [], session, reply - 1, reply)


def try_order(steps, _):
    """The earliest refused reply leads where shrinking did not finish."""
    found = groups.Groups()
    late, early, short = (difference(1, name, place) for name, place in (("READ", 90), ("STAT", 30), ("MKDIR", 70)))
    for one in (late, late, late, short, short, early):
        group = found.add([], one)
        if one is short:
            group.shortest = one
    order = [group.request for group in found.reported()]
    steps.check("the earliest refused reply leads", order == ["STAT", "MKDIR", "READ"], order)
    order = [group.request for group in found.all()]
    steps.check("those with the most differences are shrunk first", order == ["READ", "MKDIR", "STAT"], order)


TRIALS = (try_order, try_quick, try_known, try_last_failed, try_leaks)
