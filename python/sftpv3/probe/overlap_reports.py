"""What a run with --clients prints, keeps and reports. A set cannot be played again, since its requests would meet
otherwise: so the whole is kept, as `sftpv3-together` reads it."""
import json
import os
import re
import shlex

from sftpv3.codec import trees
from sftpv3.probe import reports, sets
from sftpv3.system import files, program

# The folder of a set, and the tree from which it starts, in what is kept.
SET, TREE = "set", "start.tree"

# How many sets without a verdict are kept, one of a workload.
MOST_UNSURE = 3


def write_all(run, found):
    """Keeps the kinds, and writes the report. Gives what could not be written, as errors."""
    wrong = []
    for number, kind in enumerate(found, 1):
        kind.number = number
    unsure = {one.workload: one for one in run.with_word(sets.UNDECIDED)}
    kept = [(f"{kind.number:02}-{word_of(kind.title())}", kind.first, kind) for kind in found]
    kept += [(f"undecided-{one.workload}", one, None) for one in list(unsure.values())[:MOST_UNSURE]]
    for name, outcome, kind in kept:
        try:
            place = keep(run, name, outcome)
            if kind:
                kind.kept = place
        except OSError as error:
            wrong.append(error)
    try:
        if run.given.report:
            write = write_junit if run.given.report.endswith(".xml") else write_json_lines
            write(run.given.report, run, found)
    except OSError as error:
        wrong.append(error)
    return wrong


def word_of(title):
    return re.sub(r"[^a-z0-9]+", "-", title.lower()).strip("-")[:50].strip("-")


def keep(run, name, outcome):
    """Keeps a set in a folder of its own; gives its name, or None if nothing was played."""
    if outcome.played is None:
        return None
    place = os.path.join(files.held(run.given.keep), name)
    files.folder(place)
    files.folder(os.path.join(place, SET))
    sets.write(os.path.join(place, SET), outcome.played, run.auditor.lacks)
    files.write(os.path.join(place, TREE), trees.put(run.tree))
    errors = [(number, session.errors) for number, session in enumerate(outcome.played.sessions, 1) if session.errors]
    files.write(os.path.join(place, "standard-error.txt"), b"".join(said for _, said in errors))
    files.write_text(os.path.join(place, "verdict.txt"), "\n".join(
        [f"{outcome.word}: {sets.told(outcome.played, outcome.verdict)}", f"again: {again(place, outcome)}"]) + "\n")
    return place


def again(place, outcome):
    """The command that judges a kept set."""
    name = program.called("together")
    return shlex.join([name, os.path.join(place, SET), "--tree", os.path.join(place, TREE), *outcome.verdict.options])


def print_kind(kind):
    program.say("")
    program.say(f"{kind.number}. {kind.title()}")
    program.say(f"   {kind.text}")
    where = f"kept in {kind.kept}" if kind.kept else "not kept"
    program.say(f"   {len(kind.seeds)} sets of {', '.join(kind.workloads)}, first in seed {kind.seeds[0]}; {where}")
    for line in kind.lines:
        program.say("      " + reports.cut_line(line))


def summary(run, found, unsure):
    """The last line."""
    count, requests = len(run.outcomes), run.tally.requests
    stopped = f"; {run.tally.left} of {run.tally.planned} sets were not played: {run.tally.stopped}" \
        if run.tally.left else ""
    lacking = f"; {len(unsure)} undecided, so not accepted" if unsure else ""
    torn = sum(one.verdict is not None and one.verdict.is_torn for one in run.with_word(sets.ACCEPTED))
    lacking += f"; {torn} accepted with a READ that has bytes of two moments" if torn else ""
    again = sum(one.undecided for one in run.outcomes if one.word != sets.UNDECIDED)
    lacking += f"; {again} played twice, since the first try was undecided" if again else ""
    what = f"{count} set{'s' if count != 1 else ''} of {run.given.clients} clients"
    if found:
        refused = len(run.refused())
        return (f"{len(found)} kind{'s' if len(found) != 1 else ''} of difference in {refused} of {what}, {requests} "
                f"requests{lacking}{stopped}")
    if lacking or stopped:
        return f"no difference in {what}, {requests} requests{lacking}{stopped}"
    return f"accepted: {what}, {requests} requests"


def of_kind(kind):
    """What a JSON line says of a kind."""
    return {"kind": kind.number, "request": kind.request, "found": kind.found, "text": kind.text,
            "workloads": kind.workloads, "count": len(kind.seeds), "seeds": kind.seeds, "kept": kind.kept}


def of_outcome(one):
    """What a JSON line says of a set."""
    return {"seed": one.seed, "workload": one.workload, "verdict": one.word, "accepted": one.word == sets.ACCEPTED,
            "requests": one.requests, "undecided_before": one.undecided, "seconds": round(one.seconds, 3),
            "differences": [one.kind.title()] if one.kind else []}


def write_json_lines(name, run, found):
    lines = [of_outcome(one) for one in run.outcomes] + [of_kind(kind) for kind in found]
    files.write_text(name, "".join(json.dumps(reports.clean(line)) + "\n" for line in lines))


def junit_case(one):
    """A case: a failure if the set was refused, an error if it is undecided."""
    text, quoted = reports.junit_text, reports.junit_quoted
    name = one.kind.title() if one.kind else one.word
    case = f"  <testcase classname={quoted(f'probe.seed-{one.seed}')} name={quoted(f'{one.workload}: {name}')} " \
        f'time="{one.seconds:.3f}"'
    if one.word == sets.ACCEPTED:
        return case + "/>"
    if one.word == sets.UNDECIDED:
        why = sets.told(one.played, one.verdict)
        return f'{case}>\n    <error type="undecided" message={quoted(why)}></error>\n  </testcase>'
    lines = [one.kind.text, *one.kind.lines] if one.kind.first is one else [f"as in seed {one.kind.seeds[0]}"]
    return (f"{case}>\n    <failure type={quoted(one.word)} message={quoted(one.kind.title())}>"
            + text("\n".join(lines)) + "</failure>\n  </testcase>")


def write_junit(name, run, _):
    cases = [junit_case(one) for one in run.outcomes]
    suite = f"<testsuite name={reports.junit_quoted('sftpv3-probe --clients -- ' + shlex.join(run.given.command))} " \
        f'tests="{len(cases)}" failures="{len(run.refused())}" errors="{len(run.with_word(sets.UNDECIDED))}" ' \
        f'skipped="0" time="{sum(one.seconds for one in run.outcomes):.3f}">'
    files.write_text(name, "\n".join(['<?xml version="1.0" encoding="UTF-8"?>', suite, *cases, "</testsuite>", ""]))
