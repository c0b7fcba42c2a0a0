"""A first run (--quick): small sessions with plain paths and without extremes, one request after the other. The first
difference of a session is shrunk at once and shown whole, and then the next session is played."""
from contextlib import suppress

from sftpv3.probe import features, groups, hints, known, limits, options, reports, runs, shrinking
from sftpv3.probe.sessions import NotStarted, Stopped
from sftpv3.system import program

# Seconds for all, and the most to shrink one kind, to see which options would accept it, and what it is like.
SECONDS, SHARE, HINTS, LIKENESS = 55, 15, 2, 10

# The seeds, of which the first ones have small scenes alone, and the requests of these.
SEEDS, SMALL, REQUESTS = "1-30", 15, 40

# What is left out: what few clients ask for, and what goes up to a limit.
EXTREMES = {"nul", "not-utf-8", "slash", "long", "huge", "large-owner", "extended-pairs", "long-read", "excl-dangling",
            "rename-dangling", "moved-listing", "removed-open", "realpath-ring", "denying", "sticky", "unusual-names",
            "crowds", "deep", "many-handles", "lasting", "BadHandle", "EXTENDED", features.SPELLINGS}
LARGE = {"transfers", "links", "read-back"}


def settle(given):
    """Sets what a first run has otherwise than others, as far as the command line does not say it."""
    given.seeds = given.seeds if given.seeds is not options.USUAL_SEEDS else options.seeds(SEEDS)
    given.requests = given.requests or REQUESTS
    given.in_flight = given.in_flight or options.ONE
    given.patience = min(given.patience or SECONDS, SECONDS)
    given.jobs, given.pieces = 1, 0


class Run(runs.Run):
    """One run of the command with --quick."""

    def __init__(self, given, folder, halt, left):
        settle(given)
        super().__init__(given, folder, halt, left)
        self.found, self.wrong, self.place = [], [], 0

    def planned(self, seed, skip):
        self.place += 1
        return super().planned(seed, skip | EXTREMES | (LARGE if self.place <= SMALL else set()))

    def play(self):
        for task in self.tasks():
            outcome = next(self.pool.in_order(iter([task]), self.playing, self.say), None)
            if outcome is None:
                return
            if outcome.not_started and not self.tally.played:
                raise NotStarted(str(outcome.not_started))
            self.take(outcome)
            if self.is_enough():
                self.playing.set(self.enough())
                return

    def take(self, outcome):
        """Takes the first difference that is new, and those that are known."""
        taken, is_found = [], False
        for steps, one in outcome.differences:
            is_new = groups.key_of(one) not in self.groups.by_key and groups.key_of(one) not in self.known
            if not is_new or not is_found:
                taken.append((steps, one))
            is_found = is_found or is_new
        outcome.differences = taken
        super().take(outcome)
        for group in self.groups.by_key.values():
            if group not in self.found:
                self.show(group)

    def show(self, group):
        """Shrinks the session of a group, keeps it, and prints it."""
        self.found.append(group)
        group.number = len(self.found)
        until = limits.Until(self.playing, SHARE)
        task = shrinking.Budget(until, 1).task(group, self.tree)
        for _ in self.pool.in_order(iter([task]), until, self.say):
            pass
        self.progress.clear()
        with suppress(Stopped):
            hints.put_hints([group], self.auditor, self.tree, self.folder, limits.Until(self.playing, HINTS))
        self.liken([group], LIKENESS)
        try:
            self.keep(group)
        except OSError as error:
            self.wrong.append(error)
        reports.print_group(group.number, group)

    def told_of(self, group, difference):
        """Nothing: the whole is printed at once."""

    def shrink(self):
        """That is done by then."""

    def hint(self):
        """That, too."""

    def report(self):
        wrong = list(self.wrong)
        try:
            known.keep_failed(self.given, self.tally.seeds_that_differ())
            if self.given.report:
                reports.write(self.given.report, self, self.found)
        except OSError as error:
            wrong.append(error)
        for advice in self.advice(self.found):
            program.tell(f"probe: {advice}")
        if self.found:
            program.say("")
        self.print_checks()
        program.say(reports.summary(self.tally, self.found) + known.summary(self.known) + "; without --quick the probe "
                    "looks further")
        if wrong:
            raise wrong[0]

    def status(self):
        """A run that time has ended is whole."""
        return options.DIFFERENCES if self.found else options.BAD_USAGE if self.vain() else options.ACCEPTED
