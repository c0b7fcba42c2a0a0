"""Modules of the probe, called without a run; and that --jobs changes no report."""
import os
import re
import subprocess
import time

from probe_trials.runs import probe
from sftpv3 import codec
from sftpv3.peer import servers
from sftpv3.probe import groups, limits, options, plans, sessions, shrinking, verdicts
from sftpv3.probe.plans import Step
from sftpv3.system import progress
from trials.probes import misbehaving

def try_progress(steps, _):
    """A line now and then where standard error is no terminal."""
    read, write = os.pipe()
    with os.fdopen(write, "w") as stream, os.fdopen(read) as lines:
        told = progress.Progress("probe", stream, 0.2)
        for number in range(10):
            told.say(f"number {number}")
            time.sleep(0.1)
        stream.close()
        said = lines.read().splitlines()
    steps.check("a line at each pause on what is no terminal", 3 <= len(said) <= 6 and
                said[0].startswith("probe: "), said)


def try_jobs(steps, folder):
    """The report is the same, however many servers run side by side."""
    reports = []
    for jobs in ("1", "4"):
        report, keep = os.path.join(folder, f"jobs-{jobs}.json"), os.path.join(folder, f"jobs-{jobs}")
        status, said, _ = probe("--seeds", "1-12", "--in-flight", "1", "--budget", "0", "--jobs", jobs, "--keep", keep,
                                "--report", report, "--", *misbehaving("fifth-refusal"))
        with open(report, encoding="utf-8") as file:
            reports.append((status, re.sub(r"jobs-\d|^probe: .*\n", "", said, flags=re.MULTILINE),
                            re.sub(r'jobs-\d|"seconds": [0-9.]+', "", file.read())))
    steps.check("a report does not depend on --jobs", reports[0] == reports[1] and reports[0][0] == 1, reports)


def try_much(steps, folder):
    """What a server makes long is not held without end: replies, or requests that have its handles."""
    tree = os.path.join(folder, "usual.tree")
    handle = Step(1, "OPENDIR", [b"/"])
    for kind, asked, said in (
            ("long-texts", [Step(it, "MKDIR", [b"/much-%d" % it, {}]) for it in range(1, 401)],
             "the replies have more than 67,108,864 bytes"),
            ("long-handles", [handle, *(Step(it, "READDIR", [handle.opened()]) for it in range(2, 402))],
             "a handle of the server has 250,000 bytes")):
        session = sessions.play(servers.Server(misbehaving(kind)), tree, asked, 1, 60)
        held = sum(len(packet) for _, packet in session.records)
        steps.check(f"{kind}: the session ends, and is held no further", session.end == said and held < 70_000_000 and
                    session.unanswered + session.unasked > 0, f"{session.end}: {held} bytes")


def try_explained(steps, _):
    """Each departure that would accept a reply is named: `audit --explain` has a line for each."""
    why = "reply: 4 S STATUS 1 21 code 5\nallowed by: codes\nallowed by: extensions\n"
    verdict = verdicts.of_audit(subprocess.CompletedProcess([], 1, b"refused record 4: NotAllowed\n", why.encode()))
    steps.check("two departures that would accept a reply are named", verdict.lines["allowed by"] ==
                "codes, extensions", verdict)


def try_room(steps, _):
    """Where a server has little room, a READ is asked for in parts, none of which is behind the last offset."""
    far = Step(7, "READ", [b"h", 2 ** 64 - 5000, 12000])
    found = [step.fields[1:] for step in plans.Room(0, 4000, 4000, 9).cut([far])]
    steps.check("parts of a READ end with the last offset", found == [[2 ** 64 - 5000, 4000], [2 ** 64 - 1000, 4000]],
                found)


class Hurried:
    """A worker whose sessions show these differences one after the other, and whose time is over in the last."""

    timeout = 10

    def __init__(self, played, halt):
        self.played, self.halt, self.server = played, halt, self

    def takes_tree(self):
        return False

    def play(self, *_):
        found = verdicts.Judged()
        found.differences = [self.played.pop(0)]
        if not self.played:
            self.halt.set("time")
        return found.differences[0].session, found


def try_room_again(steps, _):
    """Parts of a WRITE that is asked once the server was started again are asked then, too."""
    late = plans.asked_again(Step(7, "WRITE", [b"h", 0, bytes(50)]))
    found = [(step.number, step.again, step.fields[1]) for step in plans.Room(write=20).cut([late])]
    steps.check("parts of a WRITE are asked when it was to be", found == [(7, True, 0), (8, True, 20), (9, True, 40)],
                found)


def try_cut_short(steps, _):
    """A session whose audits are cut short by the end of the time does not tell whether a difference comes again."""
    found = [verdicts.Difference(1, 1, name, verdicts.Verdict(False, "", 3, "Wire Type", {}), [], sessions.Session(1),
                                 None, None) for name in ("STAT", "READ")]
    for played, wanted in ((found, "shrunk to 0 requests, time was over"), (found[1:], "not shrunk: no time was left")):
        halt, group = limits.Halt(), groups.Group(groups.key_of(found[0]), found[0], [])
        shrinking.Shrinker(Hurried(list(played), halt), group, limits.Until(halt), lambda: None).shrink(None)
        steps.check(f"where time is over in try {len(played)}: {wanted}", group.story() == wanted, group.story())


def try_tally(steps, _):
    """A session in which nothing was judged is not counted, and has no place in a report."""
    found = limits.Tally(range(1, 4))
    for seed, requests, unjudged in ((1, 60, 0), (2, 0, 0), (3, 5, 5)):
        found.add(limits.Played(seed, 1, 0.1, requests, unjudged))
    judged = [one.seed for one in found.judged]
    steps.check("sessions in which nothing was judged do not count",
                (found.sessions, judged, found.left) == (1, [1], 0), judged)
    steps.check("and are skipped", [it[:2] for it in found.skipped()] == [("seed-2", 2), ("seed-3", 3)])
    found = limits.Tally(options.seeds("7,1-2,1,5-6"))
    for seed in (7, 1, 5):
        found.add(limits.Played(seed, 1, 0.1, 60, 0))
    steps.check("what was not played is skipped, also of seeds that are given twice",
                [it[1] for it in found.skipped()] == [2, 1, 6] and found.left == 3, [*found.skipped()])
    found = limits.Tally(options.seeds("1-1000000000000"))
    found.add(limits.Played(2, 1, 0.1, 60, 0))
    skipped = [*found.skipped()]
    steps.check("of very many seeds the first are told each, and how many more there are", [it[1] for it in skipped] ==
                [1, *range(3, 10_002), None] and skipped[-1][2].startswith("999999989999 further"), skipped[-1])


def try_bytes(steps, _):
    """What comes is cut into packets in time that does not grow with its square."""
    arrived, packet = servers.Arrived(), codec.packet(codec.DATA, bytes(262000))
    start = time.monotonic()
    for _ in range(400):
        for place in range(0, len(packet), 65536):
            arrived.add(packet[place:place + 65536])
        if arrived.take(arrived.length()) != packet:
            steps.check("packets are cut as they came", False)
    steps.check("100 MB in packets take less than 5 seconds", time.monotonic() - start < 5 and not len(arrived),
                time.monotonic() - start)


TRIALS = (try_progress, try_jobs, try_much, try_explained, try_room, try_room_again, try_cut_short, try_tally,
          try_bytes)
