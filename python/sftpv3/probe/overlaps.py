"""A run of the probe with --clients: several clients at once on one folder of the server, judged together."""
import tempfile
import time
from dataclasses import dataclass, field
from typing import List, Optional

from sftpv3.probe import clients, features, limits, options, overlap_reports, runs, sets
from sftpv3.probe.sessions import NotStarted
from sftpv3.probe.workloads import WORKLOADS
from sftpv3.system import program

# How often the set of a seed is played if no verdict is reached: at another time the requests meet otherwise.
TRIES = 2

# How many requests each client has, unless --requests says otherwise.
REQUESTS = 150


@dataclass
class Outcome:
    """What came of a seed: the set that was played, and its verdict."""

    seed: int
    workload: str
    requests: int
    seconds: float
    verdict: Optional[sets.Verdict] = None
    played: Optional[clients.Played] = None
    # how many sets were undecided before this one
    undecided: int = 0
    # why the server did not start
    not_started: Optional[Exception] = None
    # the kind of what was refused
    kind: Optional["Kind"] = None

    @property
    def word(self):
        return self.verdict.word if self.verdict else sets.ENDED


@dataclass
class Kind:
    """Refusals that are alike: of one request with one reply, contradicted by one request with one reply."""

    request: str
    found: str
    # the first set that shows it, with what is said of that, and the records that it names
    first: Outcome
    text: str
    lines: List[str]
    seeds: List[int] = field(default_factory=list)
    workloads: List[str] = field(default_factory=list)
    number: int = 0
    kept: Optional[str] = None

    def title(self):
        return f"{self.request}: {self.found}"


def alike(outcome):
    """The request of a refusal, and what is found, in the words that refusals which are alike have in common."""
    played, verdict = outcome.played, outcome.verdict
    if verdict is None:
        return "INIT", str(outcome.not_started).splitlines()[0]
    if verdict.word == sets.ENDED:
        is_asked = verdict.refused.request is not None
        return sets.request_of(played, verdict.refused).name if is_asked else "the end of the input", verdict.why
    one, other = verdict.refused, verdict.contradicts
    found = sets.answered(played, one)
    if other is None:
        return sets.request_of(played, one).name, f"{found} that is right in no order"
    return sets.request_of(played, one).name, (f"{found} that is right only before an earlier "
                                               f"{sets.request_of(played, other).name}")


def workloads_of(given):
    """The workloads that are played, in turn."""
    return [name for name in WORKLOADS if not given.workloads or name in given.workloads]


class Run(runs.Run):
    """One run of the command with --clients."""

    def __init__(self, given, folder, halt, left):
        super().__init__(given, folder, halt, left)
        self.skip = features.BEYOND.difference(given.also).union(given.skip)
        self.kinds, self.outcomes = {}, []

    def asks(self, step):
        """What is asked in place of a request, or None if it is left out."""
        return None if step.tags & self.skip else self.auditor.lacks.step(step)

    def tasks(self):
        names = workloads_of(self.given)
        self.tally.planned = len(self.given.seeds)

        def task_of(place, seed):
            def task(worker):
                if place == 1:
                    self.root.look_again(worker)
                return self.outcome(worker, seed, names[seed % len(names)])
            return task
        return (task_of(place, seed) for place, seed in enumerate(self.given.seeds))

    def outcome(self, worker, seed, workload):
        """Plays and judges the set of a seed, once more if no verdict is reached."""
        for undecided in range(TRIES):
            found = self.tried(worker, seed, workload)
            found.undecided = undecided
            if found.word != sets.UNDECIDED:
                break
        return found

    def tried(self, worker, seed, workload):
        """Plays and judges a set of a seed."""
        worker.write_tree(self.tree)
        started, count = time.monotonic(), self.given.requests or REQUESTS
        found = Outcome(seed, workload, 0, 0)
        try:
            with worker.server.with_folder(worker.folder) as server:
                found.played = clients.play(server, worker.tree_file, workload, seed, self.given.clients, count,
                                            self.given.timeout, self.playing, self.asks,
                                            options.cut(self.given, seed))
            with tempfile.TemporaryDirectory(dir=worker.folder) as folder:
                sets.write(folder, found.played, self.auditor.lacks)
                found.verdict = sets.judge(found.played, folder, worker.kept_tree, self.auditor.options, self.playing)
            found.requests = found.played.asked()
        except NotStarted as error:
            found.not_started = error
        found.seconds = time.monotonic() - started
        return found

    def take(self, outcome):
        self.outcomes.append(outcome)
        self.tally.add(limits.Played(outcome.seed, self.given.clients, outcome.seconds, outcome.requests, 0))
        if outcome.word not in (sets.REFUSED, sets.ENDED):
            if outcome.word == sets.ACCEPTED:
                outcome.played = None
            return
        key = alike(outcome)
        if key not in self.kinds:
            self.kinds[key] = self.kind(key, outcome)
            self.progress.clear()
            program.say(f"seed {outcome.seed}, {outcome.workload}: {self.kinds[key].title()}")
        outcome.kind = self.kinds[key]
        outcome.kind.seeds.append(outcome.seed)
        if outcome.workload not in outcome.kind.workloads:
            outcome.kind.workloads.append(outcome.workload)
        if outcome.kind.first is not outcome:
            outcome.played = None

    @staticmethod
    def kind(key, outcome):
        if outcome.verdict is None:
            return Kind(*key, outcome, str(outcome.not_started), [])
        named = [one for one in (outcome.verdict.refused, outcome.verdict.contradicts) if one]
        return Kind(*key, outcome, sets.told(outcome.played, outcome.verdict), list(sets.lines(outcome.played, named)))

    def play(self):
        for outcome in self.pool.in_order(self.tasks(), self.playing, self.say):
            if outcome is None:
                continue
            if outcome.not_started and not self.outcomes:
                raise outcome.not_started
            self.take(outcome)
            if self.kinds and self.given.first:
                self.playing.set("--first")
                break

    def say(self):
        self.progress.say(f"{len(self.outcomes)} of {self.tally.planned} sets played: {len(self.refused())} refused")

    def shrink(self):
        """What depends on when requests met cannot be played again."""

    def hint(self):
        """No option is known that would accept it."""

    def with_word(self, *words):
        return [one for one in self.outcomes if one.word in words]

    def refused(self):
        return self.with_word(sets.REFUSED, sets.ENDED)

    def report(self):
        """Writes and prints what was found."""
        found = sorted(self.kinds.values(), key=lambda kind: -len(kind.seeds))
        wrong = overlap_reports.write_all(self, found)
        for kind in found:
            overlap_reports.print_kind(kind)
        unsure = self.with_word(sets.UNDECIDED)
        for outcome in unsure:
            program.say(f"seed {outcome.seed}, {outcome.workload}: undecided: "
                        f"{sets.told(outcome.played, outcome.verdict)}")
        program.say(overlap_reports.summary(self, found, unsure))
        if wrong:
            raise wrong[0]

    def status(self):
        if self.kinds:
            return options.DIFFERENCES
        if self.tally.left or self.with_word(sets.UNDECIDED):
            return options.NOT_FINISHED
        return options.ACCEPTED if any(one.requests for one in self.outcomes) else options.BAD_USAGE
