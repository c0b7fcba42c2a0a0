"""What is printed, kept and reported, with the session of a difference as text, in which the request and the reply that
differ are marked. JUnit has a case for each seed that is accepted, one for each kind of difference in each other seed,
and one that is skipped for each seed of which nothing was judged."""
import json
import os
import re
import shlex
import subprocess
import sys
import time
from contextlib import suppress
from dataclasses import asdict
from xml.sax import saxutils

from sftpv3 import codec
from sftpv3.codec import trees, wording
from sftpv3.faults import distant
from sftpv3.page import differing, document, exchanges
from sftpv3.page.picture import counted
from sftpv3.probe import bytext, known, verdicts
from sftpv3.system import files, program, ways


def keep_server(place, difference, given):
    """Writes into the folder what the server wrote to standard error, how it ended, what it was said to be like, and
    the whole session, if the one that was judged lacks some of it."""
    session = difference.session
    files.write(os.path.join(place, "standard-error.txt"), session.errors)
    files.write_text(os.path.join(place, "server.txt"),
                     f"in flight: {session.in_flight}\nseed: {difference.seed}\n"
                     f"in pieces: {'no' if session.cut is None else 'yes'}\n"
                     f"started again: {started_again(difference)}\n"
                     f"clients: {'two' if session.is_together else 'one'}\n"
                     f"without: {','.join(given.without) or 'nothing'}\n"
                     f"paths: {given.paths or 'by what is there'}\n"
                     f"session: {session.end or 'each request had its reply'}\nended: {session.ending()}\n")
    whole = os.path.join(place, "whole.transcript")
    if session.records != difference.records:
        files.write(whole, codec.put_records(session.records))
    else:
        with ways.location_of(whole) as left, suppress(FileNotFoundError):
            os.unlink(left.name, dir_fd=left.folder)


def started_again(difference):
    """Before which request of the session that was judged the server was started again, counted from 1; or `no`."""
    if difference.again is None:
        return "no"
    return f"before request {sum(side == codec.CLIENT for side, _ in difference.records[:difference.again])}"


def text_of(judge, name):
    done = subprocess.run([judge, "show", "--full", "--data", "all", name], capture_output=True, check=False)
    return done.stdout.decode(errors="replace")


def keep(judge, given, number, group, kept):
    """Keeps the tree, the transcript, their texts and the reason of a group in a folder of its own."""
    name = re.sub(r"[^a-z0-9]+", "-", f"{group.request} {group.found}".lower()).strip("-")[:50].strip("-")
    place = os.path.join(files.held(given.keep), f"{number:02}-{name}")
    files.folder(place)
    keep_server(place, kept.difference, given)
    files.write(os.path.join(place, "start.tree"), kept.difference.session.start or trees.put(kept.tree))
    files.write(os.path.join(place, "session.transcript"), codec.put_records(kept.difference.records))
    seen = distant.records(kept.difference.records)
    seen = bytext.records(seen, given.symlink == "draft") if given.paths else seen
    if given.paths or seen is not kept.difference.records:
        files.write(os.path.join(place, "judged.transcript"), codec.put_records(seen))
    texts = {kind: text_of(judge, os.path.join(place, kind)) for kind in ("start.tree", "session.transcript")}
    for kind, text in texts.items():
        files.write_text(os.path.join(place, kind.split(".")[0] + ".txt"), text)
    verdict = kept.difference.verdict
    files.write_text(os.path.join(place, "verdict.txt"), "\n".join(
        [verdict.text] + [f"{label}: {words}" for label, words in verdict.lines.items()]) + "\n")
    session = judged(kept.difference, "")
    lines = session_lines(session, texts["session.transcript"].splitlines(), given.quick) + \
        byte_lines(verdict.lines, session)
    return place, lines + warned(kept.difference.session.errors)


def warned(errors):
    """A line if what is kept of the server's standard error, as it came, may do something to a terminal."""
    text = errors.decode(errors="surrogateescape")
    return [] if wording.clean(text) == text else ["standard-error.txt has control characters: read it by `less`"]


def seeds_of(group):
    """How often it came, and in which sessions."""
    more = ", ..." if len(group.seeds) > 10 else ""
    seeds = ", ".join(map(str, group.seeds[:10])) + more
    sessions = f"{len(group.seeds)} session{'s' if len(group.seeds) != 1 else ''}"
    return f"{group.count} in {sessions}, of seed{'s' if len(group.seeds) != 1 else ''} {seeds}"


def print_group(number, group):
    program.say("")
    program.say(f"{number}. {group.title()}")
    for line in group.text():
        program.say(f"   {line}")
    seeds = f"{group.count} in {len(group.seeds)} sessions, first in seed {group.seeds[0]}"
    place, lines = group.kept or (None, [])
    program.say(f"   {seeds}; {group.story()}; " + (f"kept in {place}" if place else "not kept, since that failed"))
    for line in lines:
        program.say("      " + line)


# What is said once, as soon as a reply shows it.
NO_OWNERS = ("probe: the server shows attributes without an owner (uid and gid), which no profile accepts: the first "
             "such reply of a session is a difference, and the others are not judged, with all that they show: sizes, "
             "permissions, and the names of listings; --without owners judges all but the owner")


def unjudged(tally):
    """How many requests were not judged, and why, as far as one reason has a name."""
    why = f", {tally.ownerless} of them since their replies show no owner" if tally.ownerless else ""
    return f"; {tally.unjudged} of {tally.requests} requests were not judged{why}" if tally.unjudged else ""


def summary(tally, found):
    """The last line."""
    sessions = f"{tally.sessions} session{'s' if tally.sessions != 1 else ''}"
    stopped = f"{tally.left} of {tally.planned} sessions were not played: {tally.stopped}" if tally.left else ""
    if not found and stopped:
        return f"no difference in {sessions}, {tally.requests} requests; {stopped}"
    if not found:
        return f"accepted: {sessions}, {tally.requests} requests"
    left = unjudged(tally)
    leaders = [group for group in found if not group.leader]
    more = f", {len(found) - len(leaders)} of which may follow from others," if len(leaders) < len(found) else ""
    return (f"{len(found)} kind{'s' if len(found) != 1 else ''} of difference{more} in {tally.differing} of {sessions}"
            f"{left}" + (f"; {stopped}" if stopped else ""))


def of_group(number, group):
    """What a JSON line says of a group."""
    difference = group.shortest.difference if group.shortest else group.first
    byte = byte_of(difference.verdict.lines, judged(difference, ""))
    return {"kind": number, "group": group.leader.number if group.leader else number, "request": group.request,
            "causes": list(group.causes), "expected": group.expected, "found": group.key[3],
            "allowed_by": group.allowed, "accepted_with": group.accepted_with, "count": group.count,
            "seeds": group.seeds, "requests": len(group.shortest.steps) if group.shortest else None,
            "kept": group.kept and group.kept[0], "story": group.story(), "verdict": group.first.verdict.kind,
            "byte": byte and byte.as_dictionary(), "as_if": group.likeness and group.likeness.as_dictionary()}


def write_json_lines(name, tally, found, kinds, looked):
    lines = [{"seed": one.seed, "accepted": not one.groups, "differences": [group.title() for group in one.groups],
              "seconds": round(one.seconds, 3)} for one in tally.judged]
    # neither accepted nor refused
    lines += [{"seed": seed, "accepted": None, "skipped": why} for _, seed, why in tally.skipped()]
    lines += [of_group(number, group) for number, group in enumerate(found, 1)]
    lines += known.lines(kinds)
    lines += [*(one.as_dictionary() for one in looked.all()), {"reached": asdict(looked.reached)}] if looked else []
    files.write_text(name, "".join(json.dumps(clean(line)) + "\n" for line in lines))


def clean(value):
    """A value of JSON whose texts have no characters that a reader may refuse."""
    if isinstance(value, dict):
        return {key: clean(one) for key, one in value.items()}
    if isinstance(value, list):
        return [clean(one) for one in value]
    return wording.clean(value) if isinstance(value, str) else value


def write_page(name, given, tally, found, looked):
    """The page of the run."""
    seeds = [(one.seed, [group.number for group in one.groups]) for one in tally.judged]
    differences = [shown_group(number, group, notes_of(group)) for number, group in enumerate(found, 1)]
    facts = [("server", shlex.join(given.command)), ("its VERSION", tally.version or "none came"),
             ("sftpv3", subprocess.run([program.program(), "--version"], stdout=subprocess.PIPE, check=False)
              .stdout.decode(errors="replace").splitlines() or "unknown"),
             ("options", options_of(given.command)),
             ("seeds", seeds_in_words(tally)),
             ("requests", f"{tally.requests:,}, {tally.unjudged:,} of which were not judged"),
             ("time", f"{sum(one.seconds for one in tally.played):,.1f} s in all sessions, until "
                      f"{time.strftime('%Y-%m-%d %H:%M:%S', time.gmtime())} UTC")]
    rows = [[one.name, one.places(), one.ran, one.passed, one.failed, one.text, one.why()] for one in looked.all()] \
        if looked else []
    run = document.Run("sftpv3-probe", summary(tally, found), facts, seeds, differences, not any(tally.skipped()), rows)
    document.write(name, document.page_of_run(run))


def options_of(command):
    """The options of this run: what stands before the command."""
    words = sys.argv[1:len(sys.argv) - len(command)]
    return shlex.join(words[:-1] if words[-1:] == ["--"] else words) or "none"


def notes_of(group):
    """What is said of a group: how often it came, what became of its session, and what it may follow from."""
    follows = [f"it may follow from {group.leader.number}. {group.leader.title()}"] if group.leader else []
    kept = f"; kept in {group.kept[0]}" if group.kept else ""
    return [seeds_of(group), group.story() + kept] + follows


def seeds_in_words(tally):
    numbers = [one.seed for one in tally.played]
    return f"{numbers[0]} to {numbers[-1]}" if len(numbers) > 1 else ", ".join(map(str, numbers))


def write(name, run, found):
    """A page if the name ends in .html, JUnit if it ends in .xml, else JSON lines, with the kinds that are known. With
    --checks it has what was looked at."""
    looked = run.checks if run.given.checks else None
    if name.endswith((".html", ".htm")):
        write_page(name, run.given, run.tally, found, looked)
    elif name.endswith(".xml"):
        write_junit(name, run.tally, run.given.command, looked)
    else:
        write_json_lines(name, run.tally, found, run.known, looked)


def junit_text(value):
    return saxutils.escape(wording.clean(value))


def junit_quoted(value):
    return saxutils.quoteattr(wording.clean(value))


def write_junit(name, tally, command, looked):
    """Writes the cases of what was played, and of what was looked at, if that is given."""
    cases, failures = [], 0
    for played in tally.judged:
        failures += len(played.groups)
        cases += [junit_case(played, group) for group in played.groups] or \
            [f'  <testcase classname="probe.seed-{played.seed}" name="accepted" time="{played.seconds:.3f}"/>']
    skipped = [junit_skipped(name, why) for name, _, why in tally.skipped()]
    for one in looked.all() if looked else []:
        failures += one.failed > 0
        (cases if one.ran else skipped).append(junit_check(one))
    suite = f'<testsuite name={junit_quoted("sftpv3-probe -- " + shlex.join(command))} ' \
        f'tests="{len(cases) + len(skipped)}" failures="{failures}" errors="0" skipped="{len(skipped)}" ' \
        f'time="{sum(played.seconds for played in tally.played):.3f}">'
    files.write_text(name, "\n".join(['<?xml version="1.0" encoding="UTF-8"?>', suite, *cases, *skipped,
                                      "</testsuite>", ""]))


def junit_skipped(name, why):
    return (f'  <testcase classname="probe.{name}" name="not judged" time="0.000">'
            f'<skipped message={junit_quoted(why)}/></testcase>')


def junit_check(check):
    """The case of a scene: it failed if it did in one session."""
    if not check.ran:
        return junit_skipped(f"check.{check.name}", check.why() or "no session that was played has it")
    head = f'  <testcase classname="probe.check" name={junit_quoted(f"{check.name}: {check.text}")} time="0.000"'
    told = f"failed in {check.failed} of {check.ran} sessions; draft {check.places()}"
    return f'{head}><failure message={junit_quoted(told)}/></testcase>' if check.failed else f"{head}/>"


def junit_name(group):
    """A name that each kind of difference has alone."""
    return f"{group.number}. {group.title()}"


def junit_case(played, group):
    """A case: what was expected and found stands in its failure, with the session that shows it."""
    lines = group.text() + (group.kept[1] if group.kept else [])
    kind = junit_quoted(group.first.verdict.kind)
    return (f'  <testcase classname="probe.seed-{played.seed}" name={junit_quoted(junit_name(group))} '
            f'time="{played.seconds:.3f}">\n'
            f'    <failure type={kind} message={junit_quoted(f"expected {group.expected}; found {group.found}")}>'
            + junit_text("\n".join(lines)) + "</failure>\n  </testcase>")


# A session of more records is printed around what differs, so many before and behind; how many records are printed of
# one that is to be shown whole; and the most signs of a line.
WHOLE, AROUND, ALL, COLUMNS = 30, 6, 60, 160


def session_lines(shown, texts, is_whole=False):
    """The lines of a session, `texts` as `sftpv3 show --full` prints them, a line for each record that is whole. Says
    of all that is left out that it is."""
    marked = sorted({place for place in (shown.request, shown.reply) if place is not None and place < len(texts)})
    parts = exchanges.parts(exchanges.Session(shown.records), marked, ALL if is_whole else WHOLE, AROUND)
    lines, again = [], shown.again
    for part in parts:
        if again is not None and first_of(part) >= again:
            lines, again = lines + [f"  {STARTED_AGAIN}"], None
        if isinstance(part, exchanges.Fold):
            asked = sum(part.requests.values())
            lines.append(f"  ... {counted(asked, 'request')} and {counted(part.replies, 'reply', 'replies')} are left "
                         "out here")
        elif part >= 2:
            lines.append(("> " if part in marked else "  ") + cut_line(record_text(shown, texts, part)))
    return lines


# What stands in a session where the server was started again.
STARTED_AGAIN = "--- the server was started again on the same files"


def first_of(part):
    """The place of the first record of a part."""
    return part.first if isinstance(part, exchanges.Fold) else part


def record_text(shown, texts, place):
    if place < len(texts):
        return texts[place]
    side, data = shown.records[place]
    packet = wording.of(side, data)
    return f"{side.decode()} {packet.name} {packet.line}: {packet.trouble}"


def cut_line(line):
    if len(line) <= COLUMNS:
        return line
    kept = line[:COLUMNS - 30]
    return f"{kept}... {len(line) - len(kept):,} characters more"


def byte_lines(lines, shown):
    """A line on the byte that differs, or none."""
    found = byte_of(lines, shown)
    return [f"differs: {found.text()}"] if found else []


def byte_of(lines, shown):
    return differing.byte_of_reply(lines, shown.packet(shown.request), shown.packet(shown.reply))


def sessions_of(group):
    """The sessions of a group, the one to read first: the shrunk one, and the first that came."""
    found = []
    if group.shortest:
        found.append(judged(group.shortest.difference, "The shortest session that shows it"))
    first = group.first
    title = f"The session in which it came first, of seed {first.seed}"
    found.append(differing.Shown(title + where_again(first.session.again), first.session.records, first.session.times,
                                 first.request, first.reply, first.session.again))
    return found


def judged(difference, title):
    """The records that were judged, with their times where they are all that passed."""
    records, session = difference.records, difference.session
    times = session.times if len(records) == len(session.records) else None
    concerned = (None, None) if difference.verdict.record is None else verdicts.concerned(records, difference.verdict)
    return differing.Shown(title + where_again(difference.again), records, times, *concerned, difference.again)


def where_again(place):
    """What the title of a session says of the place where the server was started again."""
    return "" if place is None else f"; the server was started again before record {place + 1}"


def shown_group(number, group, notes):
    """A group as a page shows it."""
    first = group.shortest.difference if group.shortest else group.first
    return differing.Difference(f"{number}. {group.title()}", notes, first.verdict.kind, first.verdict.lines,
                                first.expected, first.found, sessions_of(group), errors_of(group))


def errors_of(group):
    """The last lines that the server wrote to standard error in the first session, and how it ended, if it did."""
    session = group.first.session
    ended = [f"the server ended {session.ending()}"] if session.end and session.status is not None else []
    return session.last_words(20) + ended
