"""One run of the probe: plays the sessions, shrinks what differs, and reports."""
import itertools
import os
import time
from contextlib import suppress
from dataclasses import dataclass, field
from typing import List, Optional

from sftpv3.codec import trees
from sftpv3.page import document
from sftpv3.peer import servers
from sftpv3.probe import (below, checks, features, groups, hints, known, lacking, lasting, leaks, limits, options,
                          ownfiles, planner, plans, reports, restarts, sessions, shrinking, starting, together,
                          verdicts)
from sftpv3.probe.sessions import NotStarted
from sftpv3.system import program, progress
from sftpv3.walk import bounds

# How often a plan is played at most, each time without one more of its requests; and how often, if the server ends
# behind as many requests each time, whatever they are.
MOST_PLAYED, MOST_ENDED = 12, 3


@dataclass
class Outcome:
    """What came of a seed."""

    played: limits.Played
    # Pairs of the steps that were played and a difference, each kind once for a request.
    differences: List = field(default_factory=list)
    # Why the server did not start, if it did not even once.
    not_started: Optional[Exception] = None
    # What the server's VERSION says.
    version: Optional[List[str]] = None
    # What its sessions looked at.
    looked: checks.Looked = field(default_factory=checks.Looked)


# Why nothing of a session lasts, where that may be how the server is meant to be.
ANEW = "the server starts from the same files each time"


class Plan:
    """A plan, which is played again without a request of which nobody knows what it changed."""

    def __init__(self, given, seed, steps, tree, stop):
        self.seed, self.steps, self.tree, self.stop = seed, steps, tree, stop
        self.in_flight, self.cut = options.in_flight(given, seed), options.cut(given, seed)
        self.outcome = Outcome(limits.Played(seed, self.in_flight, 0, 0, 0))
        self.seen, self.endings = set(), []
        # differences of what was planned for a second start that came without one, and the steps of their session
        self.taken_along = [], steps

    def play(self, worker):
        """What comes of it; what came by then, once it is stopped. Raises Stopped if that is nothing."""
        started = time.monotonic()
        for number in range(MOST_PLAYED):
            try:
                session, judged = self.play_once(worker)
            except sessions.Stopped:
                if not self.outcome.differences:
                    raise
                break
            except servers.ResetFailed:
                raise
            except NotStarted as error:
                self.outcome.not_started = error if number == 0 else None
                self.take([limits.not_started(error, self.in_flight, self.seed)])
                break
            self.take(judged.differences)
            self.take(*self.taken_along)
            self.count(number, session, judged)
            self.outcome.looked.take(self.steps, session, judged)
            if judged.last is None or session.silent() or self.ends_alike(session):
                break
            self.steps = [step for step in self.steps if step.number != judged.last]
        self.outcome.played.seconds = time.monotonic() - started
        return self.outcome

    def play_once(self, worker):
        """Where the server ended with several requests unanswered, they are asked one by one, to see which it is."""
        session, judged = worker.play(self.tree, self.steps, self.in_flight, self.seed, self.stop, cut=self.cut)
        self.outcome.version = document.version(session.records)
        self.taken_along = [], self.steps
        if any(one.is_again for one in judged.differences):
            self.tell_apart(worker, session, judged)
        if session.ended and session.unanswered > 1:
            try:
                alone = worker.play(self.tree, self.steps, options.ONE, self.seed, self.stop, cut=self.cut)
            except sessions.Stopped:
                return session, judged
            if alone[0].ended:
                self.in_flight = options.ONE
                return alone
        return session, judged

    def tell_apart(self, worker, session, judged):
        """What comes without a second start, too, says nothing of what lasts: it is taken as it comes then. Where time
        is over before that is known, what came behind the second start is not taken."""
        def key_of(one):
            return one.number, groups.plain_key(one)
        found = {key_of(one): one for one in judged.differences if one.is_again}
        judged.differences = [one for one in judged.differences if not one.is_again]
        if worker.again.may_begin_anew and worker.begins_anew(session, self.stop):
            worker.again.fail(ANEW, for_good=True)
            return
        steps = [plans.asked_again(step, False) for step in self.steps]
        try:
            _, without = worker.play(self.tree, steps, self.in_flight, self.seed, self.stop, cut=self.cut)
        except (sessions.Stopped, NotStarted):
            return
        there = {key_of(one): one for one in without.differences if key_of(one) in found}
        judged.differences += [one for key, one in found.items() if key not in there]
        self.taken_along = list(there.values()), steps

    def take(self, differences, steps=None):
        for one in differences:
            key = one.number, groups.key_of(one)
            if key not in self.seen:
                self.outcome.differences.append((steps or self.steps, one))
                self.seen.add(key)

    def count(self, number, session, judged):
        """How many requests there are, from the first time; and how many were not judged, from the last."""
        played = self.outcome.played
        if number == 0:
            played.requests = session.asked() + session.unasked
        played.unjudged = judged.unjudged + session.unasked
        played.ownerless = judged.ownerless
        played.memory = max(played.memory, leaks.memory(session))

    def ends_alike(self, session):
        """Whether the server ended behind the same number of requests often enough."""
        self.endings.append((session.end, session.asked()) if session.ended else None)
        last = self.endings[-MOST_ENDED:]
        return len(last) == MOST_ENDED and last[0] is not None and len(set(last)) == 1


def why_failed(error):
    """Why no more is played."""
    if isinstance(error, bounds.Misbehaves):
        return "the server misbehaved"
    if isinstance(error, options.Wrong):
        return "the server has other files than the tree"
    usual = isinstance(error, (NotStarted, verdicts.Trouble, OSError))
    return "the server or the program could not be started" if usual else "the probe itself failed"


class Run:
    """One run of the command."""

    def __init__(self, given, folder, halt, left):
        self.given, self.halt, self.folder = given, halt, folder
        options.can_write("--keep", given.keep)
        if given.report:
            options.can_write("--report", given.report)
        self.known = known.kinds_in(given.known) if given.known else {}
        if given.last_failed:
            given.seeds = known.last_failed(given)
        usual = starting.usual if given.look_first is None else starting.few
        self.tree = options.read("--tree", given.tree, trees.get) if given.tree else \
            starting.without(usual(), given.skip)
        self.recorded = options.read("--session", given.session, plans.steps_of) if given.session else None
        self.program = program.program()
        auditor = verdicts.Auditor(self.program, folder, by_text=given.paths is not None)
        auditor.options = self.profile(auditor)
        self.auditor = auditor
        self.try_profile(auditor, os.path.join(folder, "asked.tree"))
        auditor.lacks = lacking.Lacking(given.without, (self.tree.uid, self.tree.gid), hints.umask(auditor.options))
        self.tree = auditor.lacks.tree(self.tree)
        server = servers.Server(given.command, given.reset, left, given.symlink == "draft", "BadHandle" in given.skip)
        # a record has the order of its server, a plan that of OpenSSH
        self.recorded = self.recorded and list(map(server.in_order, self.recorded))
        if given.start_again:
            self.recorded = plans.started_again(self.recorded, given.start_again)
        # what is named by {folder} is there for what lasts
        self.again = restarts.Restarts(options.keeps_files(given) and "lasting" not in given.skip, given.timeout,
                                       given.reset is not None and not server.has("{folder}"),
                                       features.TOGETHER in given.also)
        is_known = server.takes_tree() or given.look_first is not None
        if not is_known and not given.tree:
            raise options.Wrong(ownfiles.NO_TREE)
        players = self.workers(folder, server, auditor)
        self.pool = limits.Pool(players)
        self.until = limits.Until(halt, given.patience)
        self.root = ownfiles.Root(server, self.tree, self.until)
        if given.look_first is None:
            self.root.look_first(players[0])
        self.playing = limits.Halt(self.until)
        self.groups, self.tally, self.progress = groups.Groups(), limits.Tally(), progress.Progress("probe")
        self.checks = checks.Checks()

    def workers(self, folder, server, auditor):
        """What plays the sessions, one for each that is played at a time."""
        folders = [self.place(folder, number) for number in range(options.jobs(self.given))]
        if self.given.look_first is None:
            return [limits.Worker(one, server, auditor, self.given.timeout, self.again) for one in folders]
        place = below.Place(server, self.given.look_first, self.given.timeout, self.halt, auditor.lacks)
        return [below.Worker(one, server, auditor, self.given.timeout, self.again, place) for one in folders]

    def place(self, folder, number):
        """The folder of a worker."""
        place = os.path.join(folder, str(number))
        os.mkdir(place)
        return place

    def profile(self, auditor):
        """The options of a profile that the program knows; a line says if it knows those that are asked for."""
        words, unknown = [], []
        for option in program.PROFILE_OPTIONS:
            value = getattr(self.given, option[2:].replace("-", "_"))
            if value is not None and auditor.knows(option):
                words += [option, value]
            elif value is not None:
                unknown.append(option)
        if unknown:
            program.tell(f"probe: this program audits strictly: it has no {', '.join(unknown)}")
        return words

    def try_profile(self, auditor, tree_file):
        """Has the program say, before anything is played, whether it takes these options."""
        trees.write(self.tree, tree_file)
        try:
            with suppress(sessions.Stopped):
                auditor.try_options(tree_file, self.halt)
        except verdicts.Misused as error:
            raise options.Wrong(str(error)) from None

    def tasks(self):
        """A task for each session: it plans, plays and judges it."""
        numbers = range(1, options.times(self.given) + 1) if self.given.session else self.given.seeds
        skip = features.BEYOND.difference(self.given.also).union(self.given.skip)

        def steps_of(seed):
            steps = self.recorded if self.given.session else self.planned(seed, skip)
            return self.given.limits.cut(self.auditor.lacks.steps(steps))
        self.tally.numbers = numbers

        def task_of(place, number):
            def task(worker):
                if place == 1:
                    self.root.look_again(worker)
                return Plan(self.given, number, steps_of(number), self.tree, self.playing).play(worker)
            return task
        return map(task_of, itertools.count(), numbers)

    def planned(self, seed, skip):
        """The steps of a seed, and those that look, where that can be, at what they leave."""
        left_out = {}
        steps = planner.plan(seed, self.tree, self.given.requests or options.REQUESTS, skip, left_out)
        self.checks.leave_out(left_out)
        if features.TOGETHER in self.given.also:
            steps = together.dealt(steps, seed)
        return lasting.lasting(steps, self.tree, skip) if self.again.is_wanted else steps

    def play(self):
        """Plays all seeds; raises NotStarted if the server did not start for the first."""
        for outcome in self.pool.in_order(self.tasks(), self.playing, self.say):
            if outcome is None:
                continue
            if outcome.not_started and not self.tally.played:
                why = [str(outcome.not_started), hints.beside(self.pool.jobs)]
                raise NotStarted("\n".join(filter(None, why)))
            self.take(outcome)
            if self.is_enough():
                self.playing.set(self.enough())
                break

    def enough(self):
        """The option by which there are enough differences, or None."""
        most = self.given.max_kinds
        if most and len(self.groups.by_key) >= most:
            return "--max-kinds"
        return "--first" if self.given.first and self.groups.by_key else None

    def is_enough(self):
        return self.enough() is not None

    def say(self):
        found, kinds = self.tally, len(self.groups.by_key)
        self.progress.say(f"{len(found.played)} of {found.planned} sessions played: {found.differing} differ, in "
                          f"{kinds} way{'s' if kinds != 1 else ''}")

    def take(self, outcome):
        """Puts the differences of a seed into their groups, and prints those that are new."""
        found = []
        for steps, difference in outcome.differences:
            key, before = groups.key_of(difference), len(self.groups.by_key)
            if key in self.known:
                self.known[key] += 1
                continue
            found.append((steps, self.groups.add(steps, difference), difference))
            if len(self.groups.by_key) > before:
                self.told_of(found[-1][1], difference)
        if found:
            for (_, group, _), others in zip(found, groups.behind(found, self.tree)):
                group.put_behind(others)
        outcome.played.groups = list(dict.fromkeys(group for _, group, _ in found))
        self.tally.version = self.tally.version or outcome.version
        self.checks.add(outcome.looked)
        if outcome.played.ownerless and not self.tally.ownerless:
            program.tell(reports.NO_OWNERS)
        self.tally.add(outcome.played)

    def told_of(self, group, difference):
        """Prints a kind as soon as it is there."""
        self.progress.clear()
        program.say(f"seed {difference.seed}: {group.title()}; expected: {difference.expected}")

    def shrink(self):
        """Shrinks what may be shrunk in the time that is left, and keeps all."""
        budget = shrinking.Budget(limits.Until(self.until, self.given.budget), self.pool.jobs)
        found = self.groups.all()

        def say():
            self.progress.say(f"shrinking {len(found)} kinds of difference: {budget.played} sessions played")
        tasks = [budget.task(group, self.tree) for group in found]
        for _ in self.pool.in_order(tasks, budget.until, say):
            pass
        self.progress.clear()
        groups.arrange(self.groups.all())

    def hint(self):
        """Says of each difference which options would accept it, as far as there is time."""
        until = limits.Until(self.until, hints.SECONDS)
        with suppress(sessions.Stopped):
            hints.put_hints(self.groups.all(), self.auditor, self.tree, self.folder, until)

    def liken(self, found, seconds):
        """Says of these differences what models of faults they are like, as far as there is time."""
        # the models are many, and most runs need none
        from sftpv3.probe import likeness
        search = likeness.Search(self.program, self.folder, limits.Until(self.until, seconds), self.pool.jobs,
                                 self.given.symlink == "draft")
        likeness.put_likeness(found, search, self.tree)

    def keep(self, group):
        """Keeps the session of a group."""
        shown = group.shortest or shrinking.Shown(group.steps, self.tree, group.first)
        group.kept = reports.keep(self.program, self.given, group.number, group, shown)

    def write(self, found):
        """Keeps what was found, and writes the report. Gives what could not be written, as errors."""
        wrong = []
        for number, group in enumerate(found, 1):
            group.number = number
            try:
                self.keep(group)
            except OSError as error:
                wrong.append(error)
        try:
            known.keep_failed(self.given, self.tally.seeds_that_differ())
            if self.given.report:
                reports.write(self.given.report, self, found)
        except OSError as error:
            wrong.append(error)
        return wrong

    def report(self):
        """Writes and prints what was found. It is printed also if it cannot be written, which is then an error."""
        found = self.groups.reported()
        wrong = self.write(found)
        for group in found:
            reports.print_group(group.number, group)
        for advice in self.advice(found):
            program.tell(f"probe: {advice}")
        vain = len(self.tally.played) - self.tally.sessions
        if vain:
            program.tell(f"probe: in {vain} session{'s' if vain != 1 else ''} no request was played")
        if found or self.tally.left or not self.vain():
            if found:
                program.say("")
            self.print_checks()
            program.say(reports.summary(self.tally, found) + known.summary(self.known) + self.again.told())
        if wrong:
            raise wrong[0]

    def print_checks(self):
        """Prints what was looked at, with --checks, and how far the sessions reached."""
        for line in self.checks.lines() if self.given.checks else []:
            program.say(line)
        if self.tally.sessions:
            program.say(self.checks.reached.text())

    def advice(self, found):
        """What to do otherwise in the next run."""
        budget = None if self.until.is_set() else hints.of_budget(found, self.given.budget)
        start = hints.of_start(found, self.pool.jobs)
        memory = leaks.advice(self.tally.played)
        server = self.root.server
        known = hints.advice(found, self.auditor, self.tree if server.reset or server.has("{folder}") else None)
        return [line for line in (*known, start, self.root.advice(), memory, budget) if line]

    def run(self):
        """Gives the exit status."""
        trouble = None
        try:
            self.play()
            self.progress.clear()
            self.shrink()
            self.hint()
            if self.groups.by_key and self.given.budget:
                self.liken(self.groups.all(), self.given.budget)
        except Exception as error:  # noqa: BLE001 (what was found is reported first, whatever failed)
            trouble = error
            self.progress.clear()
            self.halt.set(why_failed(error))
            for group in self.groups.all():
                group.fail()
            if not self.groups.by_key:
                raise
        self.tally.stopped = self.halt.why or self.playing.why or ("--patience" if self.until.is_set() else None)
        self.report()
        if trouble:
            raise trouble
        return self.status()

    def vain(self):
        """Whether nothing was judged in any session."""
        return all(one.vain() for one in self.tally.played)

    def status(self):
        if self.groups.by_key:
            return options.DIFFERENCES
        if self.tally.left:
            return options.NOT_FINISHED
        if self.vain():
            return options.BAD_USAGE
        return options.ACCEPTED
