"""--checks: what was looked at, in text, JSON lines, JUnit and on a page; and how far sessions reached."""
import json
import os
import re
from xml.etree import ElementTree

from probe_trials.runs import probe, read
from sftpv3.probe import checks, planner
from trials.probes import SERVE, misbehaving

# Plans of few requests.
SMALL = ["--seeds", "1-2", "--jobs", "1", "--requests", "20", "--in-flight", "1", "--budget", "0", "--skip",
         "transfers,crowds,links,deep,many-handles,unusual-names"]


def rows_of(said):
    """The table of a run: for each check how often it ran, passed and failed, and the rest of the line."""
    found = re.findall(r"^([a-z][a-z0-9-]+) +(\d+) +(\d+) +(\d+)  (.*)$", said, re.MULTILINE)
    return {name: (int(ran), int(passed), int(failed), rest) for name, ran, passed, failed, rest in found}


def try_checks(steps, folder):
    """A sound server passes what ran; each scene has a line, with what it was left out by."""
    status, said, _ = probe(*SMALL, "--checks", "--keep", folder, "--", *SERVE)
    rows = rows_of(said)
    steps.check("--checks: a line for each scene", status == 0 and rows.keys() == {*planner.scenes(), "lasting"}, said)
    steps.check("--checks: of a sound server all that ran passed", 0 < sum(ran > 0 for ran, *_ in rows.values()) and
                all(ran == passed and not failed for ran, passed, failed, _ in rows.values()), said)
    steps.check("--checks: what was left out says by which option",
                "(skipped: --skip crowds)" in rows["few-names"][-1] and rows["few-names"][0] == 0, rows["few-names"])
    steps.check("--checks: sections of the draft", rows["all-back"][-1].startswith("6."), rows["all-back"])
    steps.check("the line before the last one says how far sessions reached",
                re.match(r"reached: pages of a listing \d+, bytes", said.strip().splitlines()[-2]), said[-600:])


def try_reports(steps, folder):
    """Where something differs, its scene failed, in each kind of report."""
    for end in ("json", "xml", "html"):
        report = os.path.join(folder, f"checks.{end}")
        status, said, _ = probe(*SMALL, "--checks", "--keep", folder, "--report", report, "--",
                                *misbehaving("fifth-refusal"))
        failed = [name for name, row in rows_of(said).items() if row[2]]
        if end == "json":
            lines = [json.loads(line) for line in read(report).splitlines()]
            told = [it["check"] for it in lines if it.get("failed")]
            steps.check("JSON: the checks that failed, and how far sessions reached", status == 1 and told == failed
                        and failed and lines[-1]["reached"]["handles"] > 0, (failed, lines[-3:]))
        elif end == "xml":
            suite = ElementTree.parse(report).getroot()
            cases = [it.get("name").split(":")[0] for it in suite.findall("testcase")
                     if it.get("classname") == "probe.check" and it.find("failure") is not None]
            steps.check("JUnit: a case for each check, those that failed fail", cases == failed and
                        suite.get("failures") == str(len(suite.findall("testcase/failure"))), (failed, cases))
        else:
            steps.check("a page: a table of the checks", all(f">{name}</th>" in read(report) for name in failed), said)


def try_reached(steps, _):
    """READs behind WRITEs of others are counted, by hand."""
    found = checks.reached([(b"C", b""), (b"S", b""), *(
        (side, bytes(4) + bytes([kind]) + number.to_bytes(4, "big") + b"".join(map(text, texts)))
        for side, kind, number, texts in (
            (b"C", checks.OPEN, 1, [b"/a"]), (b"C", checks.OPEN, 2, [b"/a"]), (b"S", 102, 1, [b"one"]),
            (b"S", 102, 2, [b"two"]), (b"C", checks.WRITE, 3, [b"one", b"12345678"]), (b"S", 101, 3, []),
            (b"C", checks.READ, 4, [b"two"]), (b"S", 103, 4, []), (b"C", checks.READ, 5, [b"two"]), (b"S", 103, 5, []),
            (b"C", checks.WRITE, 6, [b"one", b"12345678"]), (b"S", 101, 6, []), (b"C", checks.READ, 7, [b"one"])))])
    steps.check("how far a session reached", (found.foreign, found.handles, found.in_flight) == (1, 2, 2), found)


def text(data):
    return len(data).to_bytes(4, "big") + data


TRIALS = (try_checks, try_reports, try_reached)
