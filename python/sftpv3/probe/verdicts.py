"""Asks `sftpv3 audit` for its verdict on a session, and goes on after a difference."""
import bisect
import os
import re
import subprocess
from contextlib import suppress
from dataclasses import dataclass
from typing import Dict, List, Optional, Tuple

from sftpv3 import codec
from sftpv3.faults import distant
from sftpv3.peer import programs, servers
from sftpv3.probe import bytext, groups, lacking, leaks, readonly, set_times
from sftpv3.probe.sessions import Session, Stopped
from sftpv3.system.program import of_usage

# The most differences of a session that are told apart: each takes an audit more, and a session may have thousands.
MOST_DIFFERENCES = 12


class Trouble(Exception):
    """The program did not audit: status 2 if a file is malformed, 3 if it ran out of memory or could not read one."""

    def __init__(self, text, status=2):
        super().__init__(text)
        self.status = status


class Misused(Exception):
    """The program does not take these words: what it says of them."""


@dataclass
class Verdict:
    """What is said of a session: `accepted`, or the kind of a refusal or fault and the number of its record, from 1;
    and the lines of `--explain`, by their labels."""

    accepted: bool
    text: str
    record: Optional[int]
    kind: Optional[str]
    lines: Dict[str, str]


def of_audit(done):
    """The verdict of an audit that ran."""
    said, why = done.stdout.decode().strip(), done.stderr.decode().strip()
    accepted = done.returncode == 0
    found = re.match(r"refused record (\d+): (\w+)$", said) if done.returncode == 1 else \
        re.match(r"sftpv3: transcript: record (\d+): (.+)$", why, re.MULTILINE)
    misused = of_usage(why) if done.returncode == 2 else None
    if misused is not None:
        raise Misused(misused)
    if not accepted and not found:
        raise Trouble(f"the audit ended {servers.ending(done.returncode)}: {' '.join(filter(None, (said, why)))}",
                      3 if done.returncode == 3 else 2)
    return Verdict(accepted, said or why, *((int(found[1]), found[2]) if found else (None, None)), explained(why))


def explained(why):
    """The lines of `--explain` by their labels; what has several lines, such as `allowed by`, as one list."""
    lines = {}
    for line in why.splitlines():
        label, colon, text = line.partition(": ")
        if colon and label != "sftpv3":
            lines[label] = f"{lines[label]}, {text}" if label in lines else text
    return lines


class Auditor:
    """Runs `sftpv3 audit --explain` with these options, in a folder for its files. `lacks` is what the server does not
    have; with `by_text` it resolves paths by their text."""

    def __init__(self, program, folder, options=(), lacks=lacking.Lacking(), by_text=False):
        self.program, self.options, self.lacks, self.by_text = program, list(options), lacks, by_text
        self.file = os.path.join(folder, "judged.transcript")

    def in_folder(self, folder):
        """The same with a folder of its own."""
        return Auditor(self.program, folder, self.options, self.lacks, self.by_text)

    def with_options(self, folder, options, by_text):
        """One that judges the same by other options, which says nothing of what the server lacks."""
        return Auditor(self.program, folder, options, by_text=by_text)

    def seen(self, records):
        """The records as the audit is to see them."""
        link_first, found = "--symlink" in self.options, distant.records(records)
        return bytext.records(found, link_first) if self.by_text else found

    def judge(self, tree_file, records, stop=None):
        """The verdict. Raises Stopped, and ends the audit, once `stop` is set."""
        with open(self.file, "wb") as file:
            file.write(codec.put_records(self.seen(records)))
        words = [self.program, "audit", "--explain", "--tree", tree_file, "--transcript", self.file] + self.options
        verdict = of_audit(programs.run(words, stop))
        if distant.has_any(records):
            for label in verdict.lines.keys() & {"expected", "found"}:
                verdict.lines[label] = distant.told(verdict.lines[label])
        return verdict

    def try_options(self, tree_file, stop=None):
        """Raises Misused if the program does not take a word of the options, before there is a session to judge."""
        if self.options:
            self.judge(tree_file, [], stop)

    def knows(self, option):
        """Whether the program's help lists this option of an audit."""
        done = subprocess.run([self.program, "help", "audit"], capture_output=True, text=True, check=False)
        return option in re.findall(r"--[a-z-]+", done.stdout)


@dataclass
class Difference:
    """A reply that differs from what the audit allows, or that did not come."""

    # The seed of the session, or its number where a recorded session is played.
    seed: int
    # The id and the name of the request; None and "none" where no request has the id of the reply.
    number: Optional[int]
    name: str
    # What the audit says. Its `record` counts the records below.
    verdict: Verdict
    # The records that were judged: those of the session, but for requests of earlier differences and what hung on them.
    records: List[Tuple[bytes, bytes]]
    # The whole session: its records, the time of each, how many requests were in flight, how the server ended, and what
    # it wrote to standard error.
    session: Session
    # The places of the request and of the reply in `session.records`, from 0, or None.
    request: Optional[int]
    reply: Optional[int]
    # The place in `records` of the first one once the server was started again, or None.
    again: Optional[int] = None

    @property
    def is_again(self):
        """Whether the server had been started again on the files of the session."""
        place = self.request if self.request is not None else self.reply
        return self.session.again is not None and place is not None and place >= self.session.again

    @property
    def in_flight(self):
        """The most requests that were in flight in the session."""
        return self.session.in_flight

    @property
    def expected(self):
        """What is allowed, as `audit --explain` says it."""
        usual = {"Unanswered": "a reply", "UnknownReply": "a reply to a request that has none"}
        return self.verdict.lines.get("expected") or usual.get(self.verdict.kind, "a reply that can be read")

    @property
    def found(self):
        """What came instead, in the words in which `audit --explain` says what is expected."""
        if self.verdict.kind == "Unanswered":
            return self.session.end or "none"
        lines = self.verdict.lines
        if "found" not in lines and "reply" in lines:
            return groups.of_reply(lines["reply"])
        place = f", {lines['fault']}" if "fault" in lines else ""
        return lines.get("found") or groups.told(self.verdict.kind) + place


class Judged:
    """The differences of a session, how many of its requests were not judged, how many of these since their replies
    show no owner, and the number of the request behind which none was, since nobody knows what it changed."""

    def __init__(self):
        self.differences, self.unjudged, self.ownerless, self.last = [], 0, 0, None
        # the ids of the requests that were not judged
        self.unjudged_ids = set()

    def leave_out(self, records, gone, request, reply):
        """Notes the requests that are not judged since these places are left out, or all behind the last ones."""
        behind = range(max(place or 0 for place in (request, reply)) + 1, len(records)) if gone is None else gone
        self.unjudged_ids |= {codec.id_of(records[place][1]) for place in behind
                              if place != request and records[place][0] == codec.CLIENT}

    def place(self):
        """The place of the last reply that differs, or of its request."""
        places = [place for place in (self.differences[-1].request, self.differences[-1].reply) if place is not None]
        return max(places, default=0)


def judge(auditor, tree_file, session, seed=0, stop=None):
    """All differences of a session that can be told apart; those found so far, once `stop` is set. Raises Stopped if
    there are none."""
    session.records = auditor.lacks.records(session.records)
    settled = set() if auditor.lacks.has_changes() else readonly.refused(session.records)
    judged, places = Judged(), [place for place in range(len(session.records)) if place not in settled]
    while places and len(judged.differences) < MOST_DIFFERENCES:
        records = [session.records[place] for place in places]
        try:
            verdict = auditor.judge(tree_file, records, stop)
        except Stopped:
            if not judged.differences and not session.crashed():
                raise
            break
        if verdict.accepted:
            places = []
            break
        request, reply = concerned(records, verdict)
        asked = request_at(records, request)
        judged.differences.append(Difference(
            seed, asked and asked.number, asked.name if asked else "none", verdict, records, session,
            request if request is None else places[request],
            reply if reply is None or reply >= len(places) else places[reply],
            session.again and bisect.bisect_left(places, session.again)))
        gone = without(records, verdict, request, reply, judged)
        if gone and groups.lacks_owner(judged.differences[-1]):
            gone = ownerless(records, gone, judged)
        judged.leave_out(records, gone, request, reply)
        places = [] if gone is None else [place for at, place in enumerate(places) if at not in gone]
    behind = [place for place in places if place > judged.place() and session.records[place][0] == codec.CLIENT]
    judged.unjudged += len(behind)
    judged.unjudged_ids |= {codec.id_of(session.records[place][1]) for place in behind}
    judged.differences += of_times(session, seed, auditor.lacks.has_access_times())
    judged.differences += [] if auditor.lacks.has_changes() else of_changes(session, seed)
    if session.crashed():
        judged.differences.append(of_crash(session, seed))
    judged.differences += of_leak(session, seed)
    return judged


def of_times(session, seed, keeps_access):
    """The differences of replies that show other times than the session has set, which the audit leaves free."""
    for one in set_times.findings(session.records, session.again, keeps_access):
        verdict = Verdict(False, f"{one.asked.name}: {one.found}", one.reply + 1, "Times",
                          {"expected": one.expected, "found": one.found})
        yield Difference(seed, one.asked.number, one.asked.name, verdict, session.records, session,
                         one.request, one.reply, session.again)


def of_changes(session, seed):
    """The differences of changes that a server did that is to change nothing."""
    for one in readonly.done(session.records)[:MOST_DIFFERENCES]:
        found = "HANDLE" if one.asked.name == "OPEN" else groups.of_code(codec.OK)
        verdict = Verdict(False, f"{one.asked.name}: {found}", one.reply + 1, "Changed",
                          {"expected": readonly.REFUSAL, "found": found})
        yield Difference(seed, one.asked.number, one.asked.name, verdict, session.records, session,
                         one.request, one.reply, session.again)


def of_crash(session, seed):
    """The difference of a server that crashed when its input had ended, and each request had its reply."""
    found = f"the server ended {session.ending()}"
    verdict = Verdict(False, found, None, "Ended", {"expected": "an end without a crash", "found": found})
    return Difference(seed, None, "the end of the input", verdict, session.records, session, None, None,
                      session.again)


def of_leak(session, seed):
    """The difference of a server that keeps descriptors which nothing open needs."""
    found = leaks.descriptors(session)
    if found is None:
        return
    expected = "no more descriptors than before the session and what is open"
    verdict = Verdict(False, f"LEAK: {found}", None, "Leak", {"expected": expected, "found": found})
    yield Difference(seed, None, "LEAK", verdict, session.records, session, None, None, session.again)


def concerned(records, verdict):
    """The places of the request and of the reply that a verdict speaks of; either may be None."""
    place = verdict.record - 1
    side, packet = records[place] if place < len(records) else (b"S", b"")
    if side == b"C":
        return place, None
    number = packet[5:9]
    asked = [at for at in range(2, place) if records[at][0] == b"C" and records[at][1][5:9] == number]
    return asked[-1] if len(number) == 4 and asked else None, place


def request_at(records, place):
    return None if place is None or place < 2 else codec.decode(records[place][1])


def without(records, verdict, request, reply, judged):
    """The places to go on without: of the request and its reply, if the server changed nothing by it, and of what
    depends on its reply. None, if the auditor cannot know what the server changed."""
    if verdict.kind == "UnknownReply":
        return {reply}
    if request is None or reply is None or not goes_on(records, verdict, request, reply):
        judged.unjudged += sum(side == b"C" for side, _ in records[(request or 2) + 1:])
        judged.last = judged.differences[-1].number
        return None
    gone = {request, reply}
    asked, packet = request_at(records, request), records[reply][1]
    if asked.name == "READDIR":
        gone |= through(records, asked.fields[0], request, "READDIR")
    elif asked.name in ("OPEN", "OPENDIR") and packet[4] == codec.HANDLE:
        gone |= through(records, handle_of(packet), reply)
    judged.unjudged += sum(records[at][0] == b"C" for at in gone) - 1
    return gone


def ownerless(records, gone, judged):
    """The places to go on without, with those of all whose replies show no owner: no audit accepts one of them."""
    found = set(gone)
    for asked, reply in showing_no_owner(records):
        if asked not in found:
            found |= {asked, reply}
            found |= of_listing(records, asked)
    more = sum(records[at][0] == b"C" for at in found - gone)
    judged.ownerless += more + 1
    judged.unjudged += more
    return found


def of_listing(records, place):
    """If this request is a READDIR: those of the same listing behind it, and their replies."""
    asked = request_at(records, place)
    return through(records, asked.fields[0], place, "READDIR") if asked.name == "READDIR" else set()


def showing_no_owner(records):
    """The places of the requests whose replies show attributes without an owner, each with that of the reply."""
    asked = {}
    for place, (side, packet) in enumerate(records):
        if side == b"C":
            asked[packet[5:9]] = place
        elif place > 1 and packet[4] in (codec.ATTRS, codec.NAME) and packet[5:9] in asked:
            request = asked[packet[5:9]]
            if request_at(records, request).name in lacking.SHOWING and lacks_owner(packet):
                yield request, place


def lacks_owner(packet):
    """Whether attributes in a reply have no owner."""
    fields = codec.Fields(packet[9:])
    with suppress(codec.Malformed):
        given = [fields.attributes()] if packet[4] == codec.ATTRS else [it for _, _, it in fields.names()]
        return any("owner" not in one for one in given)
    return False


def goes_on(records, verdict, request, reply):
    """Whether the state behind a request is known, although its reply is not allowed: it only looks, or was refused."""
    asked, packet = request_at(records, request), records[reply][1]
    if asked.name in codec.LOOKERS or asked.name == "READDIR":
        return True
    if verdict.kind != "NotAllowed":
        return False
    if packet[4] == codec.STATUS:
        return codec.Reply(packet).code != 0 or asked.name == "CLOSE"
    if packet[4] == codec.HANDLE and asked.name == "OPEN":
        return not asked.fields[1] & (codec.CREAT | codec.TRUNC)
    return packet[4] == codec.HANDLE and asked.name == "OPENDIR"


def handle_of(packet):
    """The handle in a reply, or None."""
    try:
        return codec.Reply(packet).handle
    except codec.Malformed:
        return None


def through(records, handle, start, name=None):
    """The requests through a handle after this record, and their replies, until a reply gives the handle again."""
    found, waiting, is_gone = set(), set(), False
    for place in range(start + 1, len(records)):
        side, packet = records[place]
        number = int.from_bytes(packet[5:9], "big")
        if side == b"C":
            if not is_gone and is_through(packet, handle, name):
                found.add(place)
                waiting.add(number)
            continue
        is_gone = is_gone or handle_of(packet) == handle
        # a second reply is to no request
        if number in waiting:
            waiting.remove(number)
            found.add(place)
    return found


def is_through(packet, handle, name):
    """Whether a request is through this handle, and of this name unless that is None."""
    asked = codec.decode(packet)
    return asked.handle() == handle and name in (None, asked.name)
