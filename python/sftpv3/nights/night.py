"""One run for one user: audits what was recorded, and compares the folders with what that leaves; the
lines that it prints."""
import fcntl
import os
import shutil
import subprocess
import sys
import time
from contextlib import suppress

from sftpv3.codec import wording
from sftpv3.nights import accounts, causes, journal, sets
from sftpv3.nights.auditing import check_proved, options_of, try_options
from sftpv3.nights.bounds import Bounds, IsOver, Most, Room
from sftpv3.nights.journal import AFTER, JOURNAL, NEXT, NONE, SAME, TREE, Decision
from sftpv3.nights.judging import Judge, listed
from sftpv3.nights.keeping import thin_out
from sftpv3.nights.opening import Open
from sftpv3.nights.parts import Part, reach_of
from sftpv3.nights.records import MOST, NEW, Failed, Gone, NotTaken, Numbers, Spools
from sftpv3.nights.running import run
from sftpv3.nights.spans import groups, span_of
from sftpv3.nights.summary import BEGUN, CAUSE_UNKNOWN, CHANGED, SAME_IN_PART, bytes_on_disk
from sftpv3.nights.summary import SAME as SAME_FOLDERS
from sftpv3.system import children, naming, program, ways

TREE_COMMAND = program.command("tree")
# How many lines are printed of a comparison or of what a folder has that no tree holds.
MOST_LINES = 20
# An audit has the tree file, the tree, and at its end the file of the last tree.
SHARE = 3
# The least that an address space is bounded by: the program itself has to be loaded.
LEAST_SPACE = 1 << 28
# What ended runs and audits may have left in the folder of a user.
LEFT = ("tree.after", "tree.now", accounts.OWNED, ".sftpv3-", "journal.new", "parts.new", sets.MERGED, sets.ORDER,
        "alone.", "open.")
LEFT_FOLDERS = (NEW, sets.FOLDER)
# A refused request alone.
ALONE = "alone.transcript"
# How many times it is looked again, if a session runs and ends meanwhile.
LOOKS = 3
# How many times records are looked for, of which each time nights.records.MOST are taken, before the rest has to wait.
BATCHES = 10


def key_of(record):
    """What a record is called among those of all users."""
    return f"{record.user}/{record.name}"


class Unsaid(Exception):
    """Standard output failed, so nothing more is judged."""


class Night:
    """One run for one user."""

    def __init__(self, given, summary):
        self.given, self.program, self.summary = given, program.program(), summary
        check_proved(self.program)
        self.options = options_of(self.program, given.audit)
        if not any(it.partition("=")[0] == "--memory" for it in self.options):
            self.options += ["--memory", str(given.memory)]
        if given.audit:
            try_options(self.program, self.options)
        self.spool = Spools(given.records, [it.number for it in given.accounts])
        self.folders = [os.fsdecode(ways.from_root(os.fsencode(it))) for it in given.folders]
        self.status = 0
        # when the night is over, and whether a record was judged in it
        self.until, self.is_begun = time.monotonic() + given.night_seconds, False
        self.has_running = False
        # why the folders could not be read, while a session ran
        self.unread = None
        self.numbers = Numbers()
        self.held = ways.own_folder(os.path.join(given.state, given.user))
        # all that is kept is named from there, whatever becomes of the way to it
        os.fchdir(self.held)
        self.compared = "compared"
        try:
            fcntl.flock(self.held, fcntl.LOCK_EX | fcntl.LOCK_NB)
        except BlockingIOError:
            raise Failed(f"another run for {given.user} has not ended") from None
        journal.finish(self.spool)
        self.tidy()
        self.room = Room(self.held)
        # how far sessions that run are judged, by their records; and those that were named since they stay unjudged
        self.parts, self.named = journal.parts(), set()
        self.judge = Judge(self)

    def tidy(self):
        """Removes what an audit or a run left that was ended before its time; nothing of what a journal names."""
        for name in () if os.path.lexists(JOURNAL) else os.listdir(self.held):
            if name in LEFT_FOLDERS:
                shutil.rmtree(name, ignore_errors=True)
            elif name.startswith(LEFT):
                os.remove(name, dir_fd=self.held)

    def say(self, text, status=0):
        """Prints a line. Names in it may have been chosen by a user."""
        try:
            print(wording.line(f"{self.given.user}: {text}"), flush=True)
        except OSError:
            # system.standard.end says why, when it prints what is left
            raise Unsaid() from None
        self.status = max(self.status, status)

    def run_program(self, most, *words, **options):
        """Runs the program with no more memory and time than an audit may take. Returns what it told, at most so many
        lines."""
        return self.run_bounded([self.program, *words], most, **options)

    def run_bounded(self, words, most, **options):
        """The same of any command."""
        return run(words, most, self.given.audit_seconds, space=self.space(), **options)

    def space(self):
        """The address space that the program may have."""
        return max(4 * self.given.memory, LEAST_SPACE)

    def may_go_on(self):
        """Whether this night has time for another audit of a session."""
        return time.monotonic() <= self.until

    def copy_bounds(self):
        """What bounds the copies of a record, or of those of a set. The first of a night has its whole time."""
        return Bounds(Most(self.given.most_copied, self.given.audit_seconds), self.room, self.is_over)

    def say_lines(self, lines):
        """Prints lines that belong to the one before them."""
        for line in lines:
            self.say(f"  {line}")

    def become(self, account):
        """Makes the tree that of a session of this account, if there are several."""
        if len(self.given.accounts) > 1:
            accounts.become(TREE, account)

    def account(self, user):
        """The account that is called so in records."""
        return next(it for it in self.given.accounts if naming.user_name(it.number) == user)

    # sessions that run

    def part_of(self, record):
        """Where what is not judged of a record that is open begins, if a part of it is; else None. One that is shorter
        than it was is as its user made it."""
        inode, *part = self.parts.get(key_of(record), [None])
        if inode != record.identity[1]:
            return None
        found = Part(*part)
        return found if found.at <= os.fstat(record.file).st_size else Part(0, 0, 0, True)

    def parts_with(self, record, part):
        return {**self.parts, key_of(record): [record.identity[1], *part]}

    def parts_without(self, copies):
        """How far sessions that run are judged, but for these, which have ended; None if that is as before."""
        ended = {key_of(it.record) for it in copies}
        return None if ended.isdisjoint(self.parts) else {it: at for it, at in self.parts.items() if it not in ended}

    def note_part(self, record, part, tree=SAME):
        self.parts = self.parts_with(record, part)
        journal.carry_out(Decision(tree, self.parts))

    def leave(self, record):
        """Leaves a record in the spool, whose session has ended. Each night names it, and none judges it."""
        self.named.add(key_of(record))
        self.note_part(record, Part(0, 0, 0, True, True), NONE)

    def is_left(self, record):
        """Whether a record was left in the spool unjudged, which is said once a night."""
        if not (record.part and record.part.is_left):
            return False
        if key_of(record) not in self.named:
            self.named.add(key_of(record))
            self.say(f"{record.shown()}: not judged on an earlier night; it stays in the spool", 1)
        return True

    def idle(self):
        """Where each record ends that is in the spool, if all are of sessions that run and are quiet, and are judged to
        their ends or cannot be, or are left there; else None."""
        found = {}
        for record in self.spool.records():
            try:
                record.open()
                size, part = os.fstat(record.file).st_size, self.part_of(record)
                if part is not None and part.is_left:
                    found[key_of(record)] = [record.identity[1], *part]
                    continue
                is_judged = part is not None and (part.at == size or part.is_lost)
                if not (is_judged and record.is_held()):
                    return None
                reach = reach_of(record.file, part if part.head else None, size)
                if not reach.is_idle(size):
                    return None
                found[key_of(record)] = [record.identity[1], *reach.part()]
            except (Gone, NotTaken):
                return None
            finally:
                record.close()
        return found

    # what has ended

    def audit_all(self):
        """Audits what has ended, and what runs alone, as far as there is a tree to start from. Returns whether
        something is left: a session that waits for one that runs, or there are too many."""
        for _ in range(BATCHES):
            records = self.spool.records()
            if not records or self.audit_these(records):
                return self.idle() is None
        self.say("there are more records, which wait for the next run", 1)
        return True

    def is_over(self):
        """Whether the time of this night is over. Each judges one record, so that all are judged some night."""
        return self.is_begun and time.monotonic() > self.until

    def looked_at(self, records):
        """Those of the records that are as a recorder makes them, each with when its session ran, and whether it still
        does: then until now."""
        found = []
        for record in records:
            try:
                record.open()
                record.part, record.size = self.part_of(record), os.fstat(record.file).st_size
                if self.is_left(record):
                    continue
                record.runs, record.span = record.is_running(), span_of(record)
                if record.runs:
                    record.span = record.span.until_now()
                found.append(record)
            except Gone:
                continue
            except NotTaken as why:
                self.say(f"{record.shown()} is not taken for a record: {why}", 1)
            finally:
                record.close()
        return found

    def audit_these(self, records):
        """Audits these records. Returns whether one of them is of a session that still runs, the night is over, or all
        are left in the spool."""
        found = groups(self.looked_at(records))
        if not found:
            return True
        if len(records) >= MOST and len(found) > 1:
            # what overlaps the last ones may be among those that are not held
            found.pop()
        for place, group in enumerate(found):
            if self.is_over():
                self.tell_over(group)
                return True
            if any(it.runs for it in group):
                self.judge_running([it for one in found[place:] for it in one])
                self.is_begun = True
                return True
            try:
                if not self.has_judged(group):
                    return False
            except IsOver:
                self.tell_over(group)
                return True
            self.is_begun = True
        return False

    def tell_over(self, group):
        self.say(f"{group[0].shown()}: it and what comes behind it wait for the next run, since this one took "
                 f"{self.given.night_seconds:g} seconds (--night-seconds)", 1)

    def has_judged(self, group):
        """Judges a session, or those that may have run at the same time, unless a record is not there any more. Then
        the next look does not find it."""
        try:
            if len(group) == 1:
                self.judge.judge(group[0])
            else:
                self.judge.judge_together(group)
        except (Gone, NotTaken):
            return False
        return True

    def judge_running(self, records):
        """Judges a session that runs, and beside which there is no other one, as far as it went."""
        self.has_running = True
        if len(records) > 1:
            self.tell_waiting(records)
            return
        try:
            self.judge.judge_running(records[0])
        except (Gone, NotTaken):
            # the next run does not find it
            pass

    def tell_waiting(self, records):
        """Names the sessions that still run, and those that wait for them since they have ended beside or behind
        them."""
        running, waiting = ([it for it in records if it.runs is which] for which in (True, False))
        self.summary.waiting = len(waiting)
        behind = f"; {len(waiting)} beside or behind wait{'s' * (len(waiting) == 1)}: {listed(waiting)}" \
            if waiting else ""
        self.say(f"{listed(running)}: still running; what runs is judged when it has ended{behind}", bool(waiting))

    def look(self, idle):
        """The tree of the folders as they are now, and what is said of them; None if a session did anything meanwhile
        but those that stay where they were."""
        now = f"{TREE}.now"
        words = [sys.executable, "-IS", TREE_COMMAND, "--out", now, "--most", str(self.given.memory // SHARE),
                 "--limits", "most", "--user", self.given.user]
        for name in ("home", "group"):
            words += [f"--{name}", getattr(self.given, name)] if getattr(self.given, name) else []
        words += [f"--{it.replace('_', '-')}" for it in ("chroot", "without_mounts") if getattr(self.given, it)]
        try:
            found = run([*words, "--", *self.folders], MOST_LINES, self.given.look_seconds)
        except subprocess.TimeoutExpired:
            self.tidy()
            raise Failed(f"the folders were not read within {self.given.look_seconds:g} seconds (--look-seconds)"
                         ) from None
        if self.idle() != idle:
            # a session may have changed what was read
            self.unread = found.last if found.status else None
            return None
        if found.status:
            hint = f" (a third of --memory, {self.given.memory} bytes)" \
                if "--most" in found.last else ""
            raise Failed(f"{found.last}{hint}")
        return now, found

    def compare(self):
        """Compares the last tree with the folders, and starts anew from what they have. Returns whether that could be
        done: no session ran meanwhile."""
        idle = self.idle()
        looked = self.look(idle)
        if looked is None or idle is None:
            return False
        now, found = looked
        self.tell_causes(now)
        if not os.path.exists(TREE):
            for line in found.lines(found.count - 1):
                self.say(line)
            self.say(f"the tree of the start has {found.last.rpartition(': ')[2].partition(',')[0]}")
            self.summary.folders = BEGUN
        else:
            self.become(self.given.accounts[0])
            self.tell_difference(now)
        self.begin_from(now)
        decision = Decision(NEXT, None if idle == self.parts else idle, [])
        journal.carry_out(decision)
        self.judge.behind.note(decision, None)
        self.parts = idle
        with open(self.compared, "w", encoding="utf-8"):
            os.utime(self.compared)
        return True

    def begin_from(self, now):
        """The next tree is that of the folders as they are now, but for what --volatile names."""
        tree = self.judge.behind.without(now, Open((), self.judge.behind.patterns))
        if tree is None:
            raise Failed("what --volatile names cannot be left out of the tree")
        os.replace(tree, AFTER)

    # why sessions were refused

    def tell_causes(self, now):
        """Says of each refusal why it was, as far as the tree of the folder as it is now tells, or None."""
        refusals, self.judge.refusals = self.judge.refusals, []
        places = self.places_now(now) if now and refusals else None
        for it in refusals:
            cause = self.cause_of(it, places)
            cause = causes.OVERLAP if cause == causes.SERVER_S and it.beside else cause
            self.say(f"{it.name}: cause: {self.told_of(cause, it.beside)}")
            self.summary.refused[cause or CAUSE_UNKNOWN] += it.count

    def told_of(self, cause, beside):
        """What is said of a cause. An overlap hides whether it is the server."""
        if cause == causes.OVERLAP:
            return f"overlap{beside}, or the server: they were not judged together"
        if cause is None:
            return f"{CAUSE_UNKNOWN}: a session runs, or its record has more than {causes.MOST_BYTES} bytes"
        return f"{cause}: {causes.MEANS[cause]}"

    def cause_of(self, refusal, places):
        record, kind = causes.place_of_refusal(refusal.line)
        if kind != "NotAllowed":
            return causes.of_protocol(kind) or self.judge.sender_of_malformed(refusal) or causes.RECORD
        if places is None:
            return None
        account = self.account(refusal.user)
        if os.path.getsize(refusal.place) > causes.MOST_BYTES:
            return None
        with open(refusal.place, "rb") as file:
            return places.cause(file.read(), account.home, record)

    def places_now(self, now):
        """What is known of the folder for the causes of refusals."""
        folders = [b"/"] if self.given.chroot else list(map(os.fsencode, self.folders))
        return causes.Places(folders, causes.links_of(self.program, now), self.touched(),
                             lambda asked: self.is_right_from(now, asked))

    def touched(self):
        """The places that sessions of this night may have changed; None if these are not known."""
        if sum(os.path.getsize(place) for place, _ in self.judge.kept) > causes.MOST_BYTES:
            return None
        found = causes.Touched()
        for place, user in self.judge.kept:
            with open(place, "rb") as file:
                places = causes.touched(file.read(), self.account(user).home)
            if places is None:
                return None
            found.take(places)
        return found

    def is_right_from(self, tree, asked):
        """Whether an audit accepts these records from a tree."""
        with open(ALONE, "wb") as file:
            file.write(asked)
        try:
            return self.run_program(1, "audit", *self.options, "--tree", tree, "--transcript", ALONE).status == 0
        except subprocess.TimeoutExpired:
            return False
        finally:
            os.remove(ALONE)

    # what is said at the end

    def tell_not_compared(self):
        """Says since when nothing was compared, and whether that is too long: users can have their sessions run on."""
        try:
            last = os.stat(self.compared).st_mtime
        except FileNotFoundError:
            last = 0
        since = time.strftime(" since %Y-%m-%d %H:%M %z", time.localtime(last)) if last else ""
        is_late = not 0 <= time.time() - last < 3600 * self.given.longest
        why = "a session runs, so " if self.has_running else ""
        unread = f" ({self.unread})" if self.unread else ""
        self.say(f"{self.counted()}; {why}the folder is not compared{since}{unread}", int(is_late))

    def counted(self):
        unanswered = f", {self.judge.unanswered} of them with unanswered requests" if self.judge.unanswered else ""
        return f"{self.summary.accepted} session{'' if self.summary.accepted == 1 else 's'} accepted{unanswered}"

    def tell_difference(self, now):
        behind = self.judge.behind
        try:
            now = behind.without(now, behind.open) or now
            found = self.run_program(MOST_LINES, "diff", TREE, now)
        except subprocess.TimeoutExpired:
            self.say(f"{self.counted()}; what changed cannot be told within {self.given.audit_seconds:g} seconds", 1)
            return
        if found.status == 3 and found.starts("sftpv3: out of memory"):
            bound = children.lower_space(self.space()) or f"{self.given.memory} bytes (--memory)"
            self.say(f"{self.counted()}; what changed cannot be told with {bound}", 1)
            return
        if found.status not in (0, 1):
            raise Failed(f"sftpv3 diff ended with status {found.status}: {' '.join(found.lines())}")
        self.summary.folders = CHANGED if found.status else SAME_FOLDERS
        if found.status == 0:
            self.summary.folders = SAME_IN_PART if behind.open.places else SAME_FOLDERS
            but = f", but for {behind.named_open()}" if behind.open.places else ""
            self.say(f"{self.counted()}; the folder is as they left it{but}", int(bool(but)))
            return
        unjudged = ", or requests of theirs that were not judged" if self.judge.unanswered else ""
        self.say(f"{self.counted()}; something else changed the folder{unjudged}:", 1)
        self.say_lines(found.lines())

    def reach_verdict(self):
        """Audits and compares, again if a session came and went meanwhile. Returns whether all was compared."""
        for _ in range(LOOKS):
            if self.audit_all():
                return False
            if self.compare():
                return True
            self.has_running = True
            if self.is_over():
                break
        return False

    def thin_out(self):
        """Removes what is kept for too long, or too much of it, and says so."""
        for line in thin_out(self.given.keep_days, self.given.keep_bytes):
            self.say(line)

    def measure(self):
        """Notes how much is in the spool and in the state, and when the folders were compared."""
        self.summary.spool_bytes = sum(it.bytes_on_disk() for it in self.spool.each)
        self.summary.state_bytes = bytes_on_disk(self.held)
        with suppress(FileNotFoundError):
            self.summary.compared = os.stat(self.compared).st_mtime

    def run(self):
        self.thin_out()
        self.judge.behind.leave_out_volatile()
        try:
            return self.judge_all()
        finally:
            self.tidy()
            self.measure()

    def judge_all(self):
        if not self.reach_verdict():
            self.tell_causes(None)
            self.tell_not_compared()
        for spool in self.spool.each:
            for line in spool.strange.lines():
                self.say(line, 1)
            if spool.refused:
                self.say(*spool.refused)
        self.thin_out()
        return self.status
