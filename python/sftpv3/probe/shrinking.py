"""The shortest session that still shows a difference: first the requests behind it go, and those that by a guess have
nothing to do with it, then entries of the tree, then other requests. Each try is a session of its own; where replies
race, several are played for one try. All groups share the time that there is; what is not shrunk is kept as it came."""
from sftpv3.codec import trees
from sftpv3.peer.servers import ResetFailed
from sftpv3.probe import groups, limits, needs, plans
from sftpv3.probe.sessions import NotStarted, Stopped

# Seconds for the shrinking of all groups, and the fewest of one.
BUDGET, SHARE = 60, 1

# How many sessions one try may take where the difference does not come each time, and how many times it has to come
# first, one after the other, to be said to come each time. And how many all tries of a group may take.
TRIES, STEADY, MOST = 12, 3, 400

# For a request without a reply: while a session is shrunk, nobody waits longer than so many times the slowest reply of
# the session that showed it, and so many seconds; the shortest session is then played with the timeout as it was given.
SLOWER, SHORTEST = 5, 0.5


class Shown:
    """A session that shows the difference: all differences of it, and the ids whose replies were not judged."""

    def __init__(self, steps, tree, difference, differences=(), unjudged=frozenset()):
        self.steps, self.tree, self.difference = steps, tree, difference
        self.differences, self.unjudged = differences, unjudged


class Budget:
    """The time of all shrinking, which the groups that wait for it share."""

    def __init__(self, until, jobs):
        self.until, self.jobs = until, jobs
        self.waiting = self.played = 0

    def task(self, group, tree):
        """What shrinks this group."""
        self.waiting += 1

        def shrink(worker):
            share = max(SHARE, self.until.left() * self.jobs / self.waiting)
            self.waiting -= 1
            Shrinker(worker, group, limits.Until(self.until, share), self.count).shrink(tree)
        return shrink

    def count(self):
        self.played += 1


class Shrinker:
    """Shrinks the session of one group: sets its `shortest`, and what it says of it. `until` ends it."""

    def __init__(self, worker, group, until, count):
        self.worker, self.group, self.until, self.count = worker, group, until, count
        self.in_flight, self.timeout = group.first.in_flight, quick(group.first.session, worker.timeout)
        self.played, self.tries = 0, 1
        self.best = None

    def shrink(self, tree):
        hurried = self.timeout < self.worker.timeout
        whole = self.until
        if hurried:
            # the last session waits for its reply as long as it was told to
            self.until = limits.Until(whole, whole.left() - 1.5 * self.worker.timeout)
        try:
            if self.again(self.start(tree), tree):
                self.shorten()
            self.group.whole = None if self.best else groups.GONE
        except Stopped:
            self.group.whole = None if self.best else groups.NO_TIME
            self.group.partly = self.best is not None
        self.until, self.timeout, self.tries, self.played = whole, self.worker.timeout, 1, 0
        try:
            if self.best and hurried:
                found, self.best = self.best, None
                self.group.whole = None if self.show(found.steps, found.tree) else groups.LATE
        except Stopped:
            self.group.whole = groups.NO_TIME
        self.group.shortest = self.best

    def start(self, tree):
        """The steps to begin with: a guess that shows it with one request after the other, which is soon tried even if
        the server is slow; else all."""
        wanted, self.in_flight = self.in_flight, 1
        for steps in needs.of_steps(self.group.steps, self.group.first.number):
            if self.show(self.with_closes(steps), tree):
                break
        self.in_flight = wanted
        return self.best.steps if self.best else self.group.steps

    def shorten(self):
        shown = self.guessed(self.best) or self.without_tail(self.best)
        shown = self.without_entries(shown)
        shown = self.without_steps(shown)
        self.without_entries(shown)

    def again(self, steps, tree):
        """Whether the whole session shows it again: one request after the other, if that does it, which needs no luck;
        else with as many in flight as before. Counts how often."""
        wanted = self.in_flight
        for self.in_flight in sorted({1, wanted}):
            tries = TRIES if self.in_flight == wanted else 1
            came = played = 0
            while played < tries:
                came += self.show(steps, tree) is not None
                played += 1
                # time may be over in the next try
                self.group.came, self.group.tries = came, played
                if came == 0 and self.in_flight != wanted or came == played == STEADY:
                    break
                if came and self.in_flight != wanted:
                    tries = TRIES
            if came:
                self.tries = 1 if came == played else TRIES
                return True
        return False

    def guessed(self, shown):
        """What a guess at the steps shows, or None."""
        for steps in needs.of_steps(shown.steps, shown.difference.number):
            found = self.show(self.with_closes(steps), shown.tree)
            if found:
                return found
        return None

    def show(self, steps, tree):
        """The difference in a session of these steps, or None."""
        for _ in range(self.tries):
            if self.until.is_set():
                raise Stopped()
            if self.played >= MOST:
                return None
            self.played += 1
            self.count()
            try:
                _, judged = self.worker.play(tree, steps, self.in_flight, self.group.first.seed, self.until,
                                             self.timeout, self.group.first.session.cut)
            except ResetFailed:
                raise
            except NotStarted:
                return None
            for difference in judged.differences:
                if groups.key_of(difference) == self.group.key:
                    self.best = Shown(steps, tree, difference, judged.differences, judged.unjudged_ids)
                    return self.best
            if self.until.is_set():
                # the audits may have ended before that of the difference
                raise Stopped()
        return None

    def without_tail(self, shown):
        """Without the requests behind that of the difference; where that hides it, without half of them, and so on."""
        numbers = [step.number for step in shown.steps]
        if shown.difference.number not in numbers:
            return shown
        end = numbers.index(shown.difference.number) + 1
        keep = end
        while keep < len(shown.steps):
            shorter = self.show(shown.steps[:keep], shown.tree)
            if shorter:
                return shorter
            keep += max(1, (len(shown.steps) - keep) // 2)
        return shown

    def with_closes(self, steps):
        """The steps, and if the server is started again, each CLOSE of the plan before that for what they open: what is
        lost of a file that was closed is another thing than what is lost of one that was not."""
        if not self.group.first.is_again:
            return steps
        numbers = {step.number for step in steps}
        return [step for step in self.group.steps if step.number in numbers
                or step.name == "CLOSE" and not step.again and plans.opener(step.handle()) in numbers]

    def without_steps(self, shown):
        def smaller(steps):
            steps = self.with_closes(steps)
            return self.show(steps, shown.tree) if len(steps) < len(self.best.steps) else None
        return reduce(shown, shown.steps, smaller, lambda found: found.steps)

    def without_entries(self, shown):
        if not self.worker.server.takes_tree():
            return shown

        def smaller(entries):
            return self.show(shown.steps, shown.tree.with_entries(whole(entries)))
        shown = smaller(needs.of_entries(shown.steps, shown.tree.entries)) or shown
        return reduce(shown, shown.tree.entries, smaller, lambda found: found.tree.entries)


def quick(session, timeout):
    """How long to wait for a reply while this session is shrunk."""
    if not session.silent():
        return timeout
    asked, slowest = {}, 0
    for (side, packet), at in zip(session.records, session.times):
        if side == b"C":
            asked[packet[5:9]] = at
        else:
            slowest = max(slowest, at - asked.pop(packet[5:9], at))
    return min(timeout, max(SHORTEST, SLOWER * slowest))


def whole(entries):
    """Those of the entries whose directory and whose first name are among them."""
    kept, paths = [], {b""}
    for entry in entries:
        parent = entry.path[:entry.path.rindex(b"/")]
        if parent in paths and (entry.kind != trees.FURTHER or entry.content in paths):
            kept.append(entry)
            paths.add(entry.path)
    return kept


def reduce(shown, parts, smaller, parts_of):
    """Takes out all parts, then halves, quarters and so on, as long as that shows the difference."""
    size = len(parts)
    while size >= 1:
        place = 0
        while place < len(parts):
            found = smaller(parts[:place] + parts[place + size:])
            if found:
                shown, parts = found, parts_of(found)
            else:
                place += size
        size //= 2
    return shown
