"""What a night says of records and of sets of them, and what becomes of their copies: accepted, refused or unjudged."""
import os
import subprocess
from contextlib import ExitStack, contextmanager
from typing import NamedTuple, Optional

from sftpv3.codec import CLIENT, Malformed
from sftpv3.nights import accounts, causes, journal, sets
from sftpv3.nights.auditing import named, said_of_unanswered
from sftpv3.nights.behind import JUDGED, Behind
from sftpv3.nights.behind import named as places_named
from sftpv3.nights.bounds import NotCopied, TooMuch
from sftpv3.nights.journal import AFTER, NEXT, NONE, SAME, TREE, Decision
from sftpv3.nights.looking import changes_nothing
from sftpv3.nights.opening import Open
from sftpv3.nights.parts import Part, reach_of
from sftpv3.nights.records import NEW, Copy, Failed, end_of_silence, is_empty
from sftpv3.nights.spans import may_overlap
from sftpv3.recorder.packets import OPENING
from sftpv3.system import children, ending

# How many lines are printed of a refusal.
MOST_REASONS = 100
# How many refused replies of a set are looked at.
MOST_ROUNDS = 4
# How many sessions are named that ran at the same time.
NAMED = 5


def listed(records):
    """The names of some records, cut short."""
    names = [it.shown() for it in records]
    more = f" and {len(names) - NAMED} more" if len(names) > NAMED else ""
    return ", ".join(names[:NAMED]) + more


def said_beside(record, others):
    """What is said of the sessions that may have run at the same time."""
    beside = [it for it in others if it is not record and may_overlap(it.span, record.span)]
    return f" (beside {listed(beside)})" if beside else ""


def side_of(place, number):
    """The side of a record of a transcript, or None if it has no such record. Of a long one no more is read."""
    with open(place, "rb") as file:
        file.seek(len(OPENING))
        for _ in range(number):
            front = file.read(sets.FRONT.size)
            if len(front) < sets.FRONT.size:
                return None
            side, length = sets.FRONT.unpack(front)
            file.seek(length, os.SEEK_CUR)
    return side


class Refusal(NamedTuple):
    """What was refused: what it is called in lines, whose session it is, where its copy is kept, and the verdict; what
    is said of the sessions that may have run at the same time, if they were not judged with it; and how many sessions
    were refused with it."""

    name: str
    user: str
    place: str
    line: str
    beside: str = ""
    count: int = 1


class Judged(NamedTuple):
    """What is judged of a session or a set: a transcript, how many requests were left out, since they are at open
    places, and what is open behind it, or None: what was so before."""

    file: str
    count: int
    open: Optional[Open]

    def tree(self):
        """What becomes of the tree if it is accepted: nothing if it asked for no change."""
        return SAME if changes_nothing(self.file) else NEXT


class Rest(NamedTuple):
    """What is said of a refused set without what contradicts it: which copies are refused, and by which line; how many
    requests are left out; what is open then; and the line of those that are accepted."""

    refused: dict
    count: int
    open: Open
    line: str


class Judge:
    """Judges records from the tree of the night, one by one or as sets. `night` prints what it says, and runs the
    programs."""

    def __init__(self, night):
        self.night, self.given, self.say, self.summary = night, night.given, night.say, night.summary
        self.behind = Behind(night, self.given.volatile)
        self.unanswered = 0
        # what this night kept, and of which users; and what it refused
        self.kept, self.refusals = [], []

    @contextmanager
    def copied(self, records):
        """Copies of records, which are closed behind the block; what is not kept of them is removed then."""
        taken, bounds = {}, self.night.copy_bounds()
        with ExitStack() as stack:
            stack.callback(self.night.tidy)
            copies = []
            for record in records:
                copies.append(self.copy_of(record, sets.stem_of(record.name, taken), bounds))
                stack.callback(copies[-1].close)
            yield copies

    def copy_of(self, record, stem, bounds):
        """The copy of a record; NotCopied if it would be too much."""
        bounds.begin()
        record.open()
        try:
            return Copy(record, self.night.numbers, bounds, stem, record.part)
        except TooMuch as why:
            raise NotCopied(record, why) from None
        except OSError as error:
            raise Failed(f"{record.shown()}: cannot be copied: {error.strerror}") from None
        finally:
            record.close()

    def judge(self, record, note=""):
        """Audits a copy of a record."""
        try:
            with self.copied([record]) as (copy,):
                self.audit(copy, note)
        except NotCopied as it:
            self.leave(it, note)

    def leave(self, it, note=""):
        """Leaves a record in the spool of which there can be no copy. What comes behind it has no tree to start
        from."""
        self.say(f"{it.record.shown()}: not judged: {it}; it stays in the spool{note}", 1)
        self.summary.unjudged += 1
        self.night.leave(it.record)

    def audit(self, copy, note=""):
        """Audits a session, if there is a tree to start from, and makes its last tree the one of the next. What comes
        of it is said before the record is taken from the spool, so nothing hides it."""
        name = copy.record.shown()
        if not os.path.exists(TREE) or copy.record.is_lost():
            self.give_up([copy], f"{name}: not judged, since there is no tree that it started from")
        elif not self.is_silent(copy, note):
            self.audit_requests(copy, name, note)

    def is_silent(self, copy, note=""):
        """Whether nothing was asked, or recorded at all, which is said then."""
        name = copy.record.shown()
        if is_empty(copy.file):
            # if the session changed something, the folder has it
            self.say(f"{name}: not judged: nothing was recorded{note}", 1)
            self.keep([copy], "unjudged", SAME)
            self.summary.unjudged += 1
            return True
        silence = end_of_silence(copy.file)
        if silence:
            self.say(f"{name}: nothing was asked: the record ends {silence}{note}")
            self.keep([copy], "accepted", SAME)
            self.summary.accepted += 1
        return bool(silence)

    def judged_of(self, copy):
        """The transcript of a copy that is judged: without its requests at open places, if there are such."""
        left = self.behind.reduced(copy) if self.behind.open else None
        if left is None:
            return Judged(f"/proc/self/fd/{copy.file}", 0, None)
        self.behind.write(JUDGED, left.data)
        return Judged(JUDGED, left.count, left.open)

    def is_too_long(self, copy):
        return self.behind.open and os.fstat(copy.file).st_size > causes.MOST_BYTES

    def audit_requests(self, copy, name, note):
        self.night.become(self.night.account(copy.record.user))
        if self.is_too_long(copy):
            self.give_up([copy], f"{name}: not judged: places are open, and it has more than {causes.MOST_BYTES} bytes")
            return
        judged = self.judged_of(copy)
        found = self.run_audit([copy], judged, name, note, pass_fds=[copy.file])
        if found is None:
            return
        first, *more = named(found.lines(), judged.file, name) or [""]
        if found.status == 0:
            self.accept([copy], f"{name}: {first}{self.behind.but_for(judged.count)}{note}", first, judged)
        elif found.status != 1 and not first.startswith("sftpv3: transcript: "):
            raise Failed(f"{name}: the audit ended with status {found.status}: {' '.join([first, *more]).strip()}")
        else:
            self.say(f"{name}: {first}{note}", 1)
            self.night.say_lines(more)
            (place,) = self.keep_behind([copy], "refused", self.behind.behind_refusal(copy, first), [first, *more])
            self.refusals.append(Refusal(name, copy.record.user, place, first, note))

    def keep_behind(self, copies, kind, opened, verdict=()):
        """Keeps copies that are not accepted. What comes behind them starts from the tree without what is open then; if
        that is not known, it has none."""
        if opened is None:
            return self.keep(copies, kind, NONE, verdict)
        self.tell_open(opened)
        return self.keep(copies, kind, NEXT, verdict, opened=opened)

    def tell_open(self, opened):
        """Names what is open and was not so before."""
        new = [it.path for it in opened.places if it not in self.behind.open.places]
        if new:
            self.say(f"  open from there on: {places_named(new)}")

    def run_audit(self, copies, judged, name, note, pass_fds=()):
        """The audit of a transcript from the tree, or None if it came to no verdict, which is said, and the copies are
        put aside. The tree of the end is written if it can be another one."""
        out = [] if judged.tree() == SAME else ["--out", AFTER]
        try:
            found = self.night.run_program(MOST_REASONS, "audit", *self.night.options, "--explain", "--tree", TREE,
                                           "--transcript", judged.file, *out, pass_fds=pass_fds)
        except subprocess.TimeoutExpired:
            self.give_up(copies, f"{name}: not judged: the audit did not end within {self.given.audit_seconds:g} "
                         f"seconds (--audit-seconds){note}")
            return None
        if found.status == 3 and found.starts("sftpv3: out of memory"):
            self.give_up(copies, f"{name}: not judged: the audit needs more than {self.bound()}{note}")
            return None
        return found

    def bound(self):
        """What bounds the memory of what a night runs."""
        return children.lower_space(self.night.space()) or f"{self.given.memory} bytes of memory (--memory)"

    # sessions that run

    def judge_running(self, record):
        """Judges what a session that runs has done so far, and for good what it had done when it was last quiet."""
        if not os.path.exists(TREE) or record.is_lost():
            self.lose(record, "there is no tree that it started from", SAME)
            return
        try:
            with self.copied([record]) as (copy,):
                self.judge_so_far(copy, record)
        except NotCopied as it:
            self.lose(record, it, NONE)

    def judge_so_far(self, copy, record):
        if self.is_too_long(copy):
            self.lose(record, f"places are open, and it has more than {causes.MOST_BYTES} bytes", NONE)
            return
        size = os.fstat(copy.file).st_size
        found = reach_of(copy.file, record.part and Part(record.part.head, record.part.head, 2), size)
        if found.head is None:
            return
        copy.cut(found.end, found.count)
        if not self.is_right_so_far(copy):
            return
        if found.quiet > found.head:
            copy.cut(found.quiet, found.quiet_count)
            self.go_on_behind(copy, found)
        elif record.part is None:
            self.night.note_part(record, Part(found.head, found.head, 2))

    def lose(self, record, why, tree):
        """Holds on to it that there is no tree from which the session could be judged."""
        self.say(f"{record.shown()}: still running; it is not judged, since {why}", 1)
        if not record.is_lost():
            self.night.note_part(record, (record.part or Part(0, 0, 0))._replace(is_lost=True), tree)

    def is_right_so_far(self, copy):
        """Whether all that a session has done is right, which is said."""
        name = copy.record.shown()
        self.night.become(self.night.account(copy.record.user))
        judged = self.judged_of(copy)
        found = self.run_audit([], judged, f"{name}: still running", "", pass_fds=[copy.file])
        if found is None:
            return False
        first, *more = named(found.lines(), judged.file, name) or [""]
        if found.status == 0:
            self.say(f"{name}: {first}{self.behind.but_for(judged.count)} so far; still running",
                     int(self.is_partial(judged)))
            return True
        if found.status != 1 and not first.startswith("sftpv3: transcript: "):
            raise Failed(f"{name}: the audit ended with status {found.status}: {' '.join([first, *more]).strip()}")
        self.say(f"{name}: {first}; still running", 1)
        self.night.say_lines(more)
        part = (copy.record.part or Part(0, 0, 0))._replace(is_lost=True)
        (place,) = self.keep([copy], "refused", NONE, [first, *more], self.night.parts_with(copy.record, part))
        self.refusals.append(Refusal(name, copy.record.user, place, first))
        return False

    def go_on_behind(self, copy, found):
        """Keeps what was done up to a quiet moment, and goes on from its tree."""
        name, judged = copy.record.shown(), self.judged_of(copy)
        done = self.run_audit([], judged, name, "", pass_fds=[copy.file])
        if done is None:
            return
        if done.status != 0:
            raise Failed(f"{name}: of what was accepted, a part is not: {' '.join(done.lines())}")
        before = copy.record.part or Part(found.head, found.head, 2)
        part = Part(before.at + found.quiet - found.head, found.head, before.count + found.quiet_count - 2)
        self.keep([copy], "accepted", judged.tree(), (), self.night.parts_with(copy.record, part), judged.open)
        copy.record.part = part

    # sets

    def judge_together(self, records):
        """Judges sessions that may have run at the same time, of which there are at least two."""
        most = self.given.memory // sets.SHARE
        if len(records) > sets.MOST or sum(it.size for it in records) > most:
            self.say(f"{listed(records)} are not judged together: they are more than {sets.MOST}, or have more than "
                     f"{most} bytes")
            for record in records:
                self.judge(record, said_beside(record, records))
            return
        try:
            with self.copied(records) as copies:
                self.judge_copies(copies)
        except NotCopied as it:
            self.leave(it)
            for record in records:
                if record is not it.record:
                    self.judge(record, said_beside(record, records))

    def judge_copies(self, copies):
        has_tree = os.path.exists(TREE) and not any(it.record.is_lost() for it in copies)
        asked = [it for it in copies if not self.is_silent(it)] if has_tree else copies
        if len(asked) < 2 or not has_tree:
            for copy in asked:
                self.audit(copy)
        else:
            self.judge_set(asked)

    def judge_set(self, copies):
        records = [it.record for it in copies]
        name = f"{listed(records)}, judged together"
        try:
            makers = accounts.makers(copies) if len({it.record.user for it in copies}) > 1 else set()
        except Malformed as error:
            self.judge_one_by_one(copies, str(error))
            return
        if len(makers) > 1:
            self.give_up(copies, f"{name}: not judged: sessions of several accounts ({', '.join(sorted(makers))}) that "
                         "overlap may each have made something, and a set has one owner of what is made")
            return
        self.night.become(self.night.account(next(iter(makers), records[0].user)))
        if any(map(self.is_too_long, copies)):
            self.give_up(copies, f"{name}: not judged: places are open, and one has more than {causes.MOST_BYTES} "
                         "bytes")
            return
        judged = self.reduce_set(copies)
        answer, note = self.best_answer(copies)
        if answer is None:
            self.give_up(copies, f"{name}: not judged: no order was found or refuted within "
                         f"{self.given.audit_seconds:g} seconds (--audit-seconds)")
        elif answer.status == sets.ACCEPTED:
            self.accept_set(copies, name, f"{answer.line}{note}", judged)
        elif answer.status == sets.REFUSED:
            self.say(f"{name}: {answer.line}{note}", 1)
            rest = self.rest_of(copies, answer.line)
            if rest:
                self.keep_rest(copies, rest)
                return
            places = self.keep_behind(copies, "refused", self.behind.behind_unjudged(copies), [answer.line])
            self.note_refusal(name, copies, places, answer.line)
        elif answer.status == sets.UNDECIDED:
            self.give_up(copies, f"{name}: not judged: {answer.line}{note}")
        elif answer.status == sets.USAGE:
            self.judge_one_by_one(copies, answer.line)
        elif answer.line.endswith("out of memory"):
            self.give_up(copies, f"{name}: not judged: the search needs more than {self.bound()}")
        else:
            self.give_up(copies, f"{name}: not judged: sftpv3-together failed: {answer.line}")

    def reduce_set(self, copies):
        """Leaves out the requests of a set at open places. Gives what that is of all of them."""
        left = self.behind.all_reduced(copies) if self.behind.open else None
        for copy, it in zip(copies, left or [None] * len(copies)):
            copy.left = it and it.data
        return Judged(sets.MERGED, sum(it.count for it in left) if left else 0, left[0].open if left else None)

    def rest_of(self, copies, line):
        """Judges a refused set without the places of the refused reply, which are open then, one reply after the other.
        None if that does not come to an end."""
        given, refused = self.behind.firm(), {}
        for _ in range(MOST_ROUNDS):
            copy = next((it for it in copies if f"refused: {os.path.basename(it.place)} record " in line), None)
            places = self.behind.places_behind(copy, line) if copy and self.night.may_go_on() else None
            if not places:
                return None
            refused.setdefault(copy, line)
            given.open(places)
            tree, left = self.behind.without(TREE, given), self.behind.all_reduced(copies, given)
            if tree is None or left is None:
                return None
            for it, one in zip(copies, left):
                it.left = one.data
            answer, _ = self.best_answer(copies, tree)
            if answer is None or answer.status not in (sets.ACCEPTED, sets.REFUSED):
                return None
            line = answer.line
            if answer.status == sets.ACCEPTED:
                return Rest(refused, sum(it.count for it in left), left[0].open, line) \
                    if self.behind.is_accepted(tree, sets.MERGED) else None
        return None

    def keep_rest(self, copies, rest):
        """Keeps the refused sessions of a set, and the others, which are accepted without what is open then."""
        others = [it for it in copies if it not in rest.refused]
        self.tell_open(rest.open)
        before, self.behind.open = self.behind.open, rest.open
        if others:
            names = listed([it.record for it in others])
            self.say(f"{names}, judged without that: {rest.line}{self.behind.but_for(rest.count)}", 1)
        self.behind.open = before
        lines = list(dict.fromkeys(rest.refused.values()))
        places = self.keep(copies, "refused", NEXT, lines, opened=rest.open, accepted=others)
        self.summary.accepted += len(others)
        for copy, place in zip(copies, places):
            if copy in rest.refused:
                self.refusals.append(Refusal(copy.record.shown(), copy.record.user, place, rest.refused[copy]))

    def note_refusal(self, name, copies, places, line):
        """Notes which record of a set is refused."""
        for copy, place in zip(copies, places):
            if f"refused: {os.path.basename(copy.place)} record " in line:
                self.refusals.append(Refusal(name, copy.record.user, place, line, count=len(copies)))

    def best_answer(self, copies, tree=TREE):
        """What is said of a set, and a note on its times: by the times of its records if they have them. Otherwise the
        sessions may come one after the other; and if that explains nothing, in any order at all. None for the answer if
        the time was over."""
        if sets.are_of_one_clock(copies):
            return self.answer(copies, sets.OWN, tree), ""
        found = self.answer(copies, sets.STARTS, tree)
        if found is None or found.status in (sets.USAGE, sets.FAILED):
            return found, ""
        if found.status == sets.ACCEPTED:
            return found, ", one session after the other"
        return self.answer(copies, sets.NOTHING, tree), "; their times are not recorded"

    def answer(self, copies, by, tree):
        """What sftpv3-together says, by its status and its last line; None if the time was over."""
        sets.lay_out(copies, by, self.homes(copies))
        words = sets.words(tree, self.night.options, self.given.steps)
        try:
            found = self.night.run_bounded(words, 1, env={**os.environ, "TMPDIR": os.path.abspath(NEW),
                                                          "SFTPV3": self.night.program})
        except subprocess.TimeoutExpired:
            return None
        return sets.answer_of(found.status, found.last)

    def homes(self, copies):
        """Where the relative paths of each session start, if the sessions are of several accounts, or nothing."""
        users = [it.record.user for it in copies]
        return [self.night.account(it).home for it in users] if len(set(users)) > 1 else []

    def judge_one_by_one(self, copies, why):
        """Judges sessions of a set that cannot be one in the order of their starts."""
        records = [it.record for it in copies]
        self.say(f"{listed(records)} are not judged together: {why}")
        for copy in copies:
            self.audit(copy, said_beside(copy.record, records))

    def accept_set(self, copies, name, line, judged):
        """Accepts a set whose order `sftpv3 audit` accepts, too, and goes on from the tree at its end."""
        found = self.run_audit(copies, judged, name, "")
        if found is None:
            return
        if found.status != 0:
            self.give_up(copies, f"{name}: not judged: sftpv3 audit does not accept the order that was found: "
                         f"{' '.join(found.lines())}")
            return
        self.accept(copies, f"{name}: {line}{self.behind.but_for(judged.count)}", line, judged)

    def sender_of_malformed(self, refusal):
        """Who sent the packet for which a record is malformed, or None if it is no packet that is wrong."""
        found = causes.WIRE.search(refusal.line)
        if not found or " Wire " not in refusal.line:
            return None
        side = side_of(refusal.place, int(found[1]))
        return side and (causes.CLIENT_S if side == CLIENT else causes.SERVER_S)

    # what becomes of copies

    def is_partial(self, judged):
        """Whether requests were left out, but for those that --volatile names."""
        return bool(judged.count and self.behind.open.places)

    def accept(self, copies, text, first, judged):
        """Says that copies are accepted, and goes on from the tree in which they end."""
        unanswered, status = said_of_unanswered(first)
        self.say(text, max(status, self.is_partial(judged)))
        self.night.say_lines(unanswered)
        self.keep(copies, "accepted", judged.tree(), opened=judged.open)
        self.summary.accepted += len(copies)
        self.unanswered += bool(unanswered) or "without a reply" in first

    def give_up(self, copies, text):
        """Says that copies cannot be judged, and puts them aside."""
        self.say(text, 1)
        self.summary.unjudged += len(copies)
        if copies:
            has_tree = os.path.exists(TREE)
            self.keep_behind(copies, "unjudged", self.behind.behind_unjudged(copies) if has_tree else None)

    def keep(self, copies, kind, tree, verdict=(), parts=None, opened=None, accepted=()):
        """Keeps copies, with a verdict beside each, and has their records out of the spool, whatever signal comes
        meanwhile; but those of sessions that run stay there, of which `parts` says how far they are judged. `opened` is
        what is open behind them, if it is something else than before; and `accepted` has those of them that are
        accepted. Returns where each copy is kept."""
        self.tell_endings(copies)
        places = []
        with ending.put_off():
            decision = Decision(tree, self.night.parts_without(copies) if parts is None else parts,
                                None if opened is None else opened.noted())
            is_noted = bool(verdict) and self.note_verdicts(copies, verdict)
            for copy in copies:
                place = copy.place_in("accepted" if copy in accepted else kind)
                places.append(place)
                decision.moves += copy.moves_to(place)
                if is_noted and copy not in accepted:
                    decision.moves.append((copy.verdict(), f"{place}.verdict"))
                decision.records += [copy.record] * (parts is None)
            journal.carry_out(decision)
            self.night.numbers.settle()
            self.night.parts = self.night.parts if decision.parts is None else decision.parts
            self.behind.note(decision, opened)
        self.kept += [(place, it.record.user) for place, it in zip(places, copies)]
        return places

    def tell_endings(self, copies):
        """Says how servers ended that ended their sessions, which no verdict has."""
        for record in (it.record for it in copies if it.record.ending):
            whose = "its recorder" if len(copies) == 1 else f"the recorder of {record.shown()}"
            has_crashed = record.has_crashed_server()
            self.say(f"  {whose} says: the server {record.ending}", int(has_crashed))
            self.summary.crashed += has_crashed

    def note_verdicts(self, copies, verdict):
        """Has the verdict on the disk that is kept beside each copy. Returns whether that could be done."""
        try:
            for copy in copies:
                journal.write(copy.verdict(), "".join(f"{line}\n" for line in verdict))
        except OSError as error:
            self.say(f"  the verdict cannot be kept beside the record: {error.strerror}", 1)
            return False
        return True
