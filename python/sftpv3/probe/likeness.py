"""What a difference looks like: the models of faults (sftpv3.faults) under which a sound server gives the replies that
the server gave.

The shortest session of a difference is played on `sftpv3 serve` behind each model that changes something in it, with
the numbers that its sentence has searched for. If all replies that were judged are alike under several models, the
session that the difference came from is played behind these, too, and decides which is named first, and which numbers
are left.
"""
import copy
from concurrent import futures
from contextlib import suppress
from dataclasses import dataclass, field
from typing import List, Optional

from sftpv3 import codec
from sftpv3.codec import trees
from sftpv3.faults import comparing, numbers, replaying
from sftpv3.faults.models import MODELS
from sftpv3.probe import groups, limits, set_times, shrinking
from sftpv3.probe.sessions import Stopped
from sftpv3.system import files

# How many models are played with the first session of a difference.
MOST_FIT = 8

# The verdicts on replies that can be compared.
KINDS = {"NotAllowed", "NotModelled", "Times"}

# What `serve` needs to show times.
TIMES = ("--times",)


@dataclass
class Fit:
    """A model under which all replies are alike: the numbers with which they are, or None where it has no number."""

    name: str
    range: Optional[numbers.Range] = None

    @property
    def model(self):
        return MODELS[self.name]

    def sentence(self):
        """What such a server does wrong, as the rest of a sentence."""
        text = numbers.sentence(self.model, self.range and str(self.range))
        first = text.split()[0]
        return (text if first.upper() == first and len(first) > 1 else text[0].lower() + text[1:]).rstrip(".")


@dataclass
class Likeness:
    """What fits a difference: the models, those first that suit its first session best; of how many models; and how
    many replies were compared."""

    fits: List[Fit] = field(default_factory=list)
    models: int = 0
    replies: int = 0

    def as_dictionary(self):
        """The same for a report."""
        return {"models": self.models, "replies": self.replies,
                "fits": [{"model": fit.name, "sentence": fit.sentence()} for fit in self.fits]}

    def lines(self):
        """What is said of it: at most three models."""
        if not self.fits:
            return [f"as if: no model of a fault fits ({self.replies} replies; none of {self.models} models)"]
        many = f"{len(self.fits)} of {self.models} models fit{'s' * (len(self.fits) == 1)}"
        first = f"as if: {self.fits[0].sentence()} ({self.replies} of {self.replies} replies alike; {many})"
        return [first] + [f"or: {fit.sentence()}" for fit in self.fits[1:3]]


class Played:
    """A session that a server had, and how `serve` plays it, up to where the server was started again. `judged` are the
    differences in it, and `unjudged` the ids of requests whose replies were not judged."""

    def __init__(self, program, tree_file, session, judged, unjudged, link_first):
        records = session.records[:session.again]
        self.script = replaying.Script(records, session.cut, link_first)
        self.records = records
        has_times = any(one.verdict.kind == "Times" for one in judged)
        command = [program, "serve", "--tree", tree_file, *(TIMES if has_times else ())]
        self.replay = replaying.Replay(command, self.script)
        self.sound = self.replay.play()
        refused = {one.number: comparing.Refused(fields_of(one)) for one in judged if one.verdict.kind != "Times"}
        theirs = {codec.id_of(packet): packet for side, packet in reversed(records[2:])
                  if side == codec.SERVER and len(packet) >= 9}
        self.comparison = comparing.Comparison(self.script, theirs, self.sound.replies, refused, unjudged)
        self.times = of_times(records) if has_times else None
        self.replies = len(self.comparison.numbers)
        # how many replies are alike behind models that were tried
        self.known = {}

    def alike(self, model):
        """How many replies are alike behind a model."""
        try:
            given = self.replay.play(model)
        except replaying.NoReply:
            return -1
        count = self.comparison.alike(given.replies)
        if self.times is not None:
            # what shows other times is alike only if the model shows such times, too
            count -= len(self.times ^ of_times(self.played_records(given)))
        return count

    def numbers(self, model):
        """The numbers of a model that may differ from each other in this session."""
        own, seen = getattr(model, numbers.name_of(model)), set()
        with suppress(replaying.NeedsServer, *replaying.FAILS):
            replaying.digest(self.script, self.sound, numbers.with_number(model, numbers.Noted(own, seen))())
        return numbers.worth(seen, own)

    def played_records(self, given):
        """The records of a play."""
        found = list(self.records[:2])
        for one in self.script.rounds:
            found += [(codec.CLIENT, given.sent[codec.id_of(packet)]) for packet in one.asked]
            found += [(codec.SERVER, given.replies[number]) for number in one.answered if number in given.replies]
        return found


def of_times(records):
    """The ids of the requests whose replies show other times than were set, each with what is said of it."""
    return {(one.asked.number, one.found) for one in set_times.findings(records)}


def fields_of(difference):
    """The attributes that an audit refused, or None if that is not what it says."""
    lines = difference.verdict.lines
    expected, found = lines.get("expected", ""), lines.get("found", "")
    if " has " in found and ", not " in found:
        found, expected = found.split(" has ", 1)[1].split(", not ", 1)
    elif not (expected.startswith("ATTRS with") and found.startswith("ATTRS with")):
        return None
    differ = frozenset(name for label, name in groups.FIELDS
                       if groups.number(expected, label) != groups.number(found, label))
    return differ | {"kind"} if "permissions" in differ else differ or None


class Weighed:
    """A model that fits one session, as it suits another."""

    def __init__(self, until, played, fit):
        self.until, self.played, self.fit = until, played, fit
        # what some numbers are worth: how many replies are alike with them
        self.known = {}
        self.tried = fit.range and sorted({fit.range.first, fit.range.last, *played.numbers(fit.model)})

    def worth(self, number=None):
        """How many replies are alike with a number, or with none. Raises Stopped once no time is left."""
        made, known = self.fit.name, self.played.known
        if number is not None:
            made = self.fit.name, made_of(self.played, self.fit.model, number)
        if made not in known:
            if self.until.is_set():
                raise Stopped()
            known[made] = self.played.alike(numbers.with_number(self.fit.model, number)())
        return known[made]

    def weigh(self):
        """How many replies are alike with the best of its numbers that are tried."""
        if self.fit.range is None:
            return self.worth()
        self.known, most = self.fit.range.most(self.tried, self.worth)
        return most

    def narrow(self):
        """Takes the numbers with which most are alike. What was not seen to be narrower stays as it was."""
        if self.fit.range is None:
            return
        left = copy.copy(self.fit.range)
        with suppress(Stopped):
            left.narrow(self.tried, self.known, self.worth)
            self.fit.range = left


class Search:
    """Looks for models of one difference."""

    def __init__(self, program, folder, until, jobs, link_first):
        self.program, self.folder, self.until, self.jobs = program, folder, until, jobs
        self.link_first, self.models = link_first, distinct()
        # first sessions of differences, as `serve` plays them: several may come from one
        self.wholes = {}

    def within(self, seconds):
        """The same search, for at most so many seconds."""
        found = copy.copy(self)
        found.until = limits.Until(self.until, seconds)
        return found

    def likeness(self, shown):
        """What fits a session that shows a difference, or None where it cannot be compared or no time is left."""
        difference = shown.difference
        if difference.verdict.kind not in KINDS or difference.is_again or self.until.is_set():
            return None
        try:
            played = self.played(shown)
        except replaying.NoReply:
            return None
        found = Likeness([], len(self.models), played.replies)
        with futures.ThreadPoolExecutor(self.jobs) as pool:
            fits = list(pool.map(lambda name: self.fit(played, name), self.models))
        if self.until.is_set():
            return None
        found.fits = [fit for fit in fits if fit]
        return found

    def played(self, shown):
        difference = shown.difference
        tree_file = f"{self.folder}/alike.tree"
        files.write(tree_file, difference.session.start or trees.put(shown.tree))
        return Played(self.program, tree_file, difference.session, shown.differences or [difference],
                      shown.unjudged, self.link_first)

    def fit(self, played, name):
        """How a model fits, or None."""
        if self.until.is_set():
            return None
        with suppress(*replaying.FAILS):
            has_number = numbers.name_of(MODELS[name]) is not None
            return self.fit_with_number(played, name) if has_number else self.fit_as_it_is(played, name)
        return None

    @staticmethod
    def fit_as_it_is(played, name):
        """Plays a model that changes something in the session."""
        with suppress(replaying.NeedsServer):
            if replaying.digest(played.script, played.sound, MODELS[name]()) is None:
                return None
        return Fit(name) if played.alike(MODELS[name]()) == played.replies else None

    def fit_with_number(self, played, name):
        """Tries each number that may differ from the others in this session."""
        tried, alike, fitting = numbers.some(played.numbers(MODELS[name]), numbers.MOST), {None: False}, []
        for number in tried:
            if self.until.is_set():
                return None
            model = numbers.with_number(MODELS[name], number)
            with suppress(*replaying.FAILS):
                made = made_of(played, MODELS[name], number)
                if made not in alike:
                    alike[made] = played.alike(model()) == played.replies
                fitting += [number] if alike[made] else []
        return Fit(name, numbers.Range(fitting, tried)) if fitting else None

    def order(self, found, shown):
        """Puts those first that suit another session best, and takes those numbers that do."""
        if not found.fits or self.until.is_set():
            return
        try:
            played = self.whole(shown)
        except replaying.NoReply:
            return
        first = found.fits[:MOST_FIT]
        weighed = [Weighed(self.until, played, fit) for fit in first]
        with suppress(Stopped), futures.ThreadPoolExecutor(self.jobs) as pool:
            wholes = list(pool.map(Weighed.weigh, weighed))
            order = sorted(range(len(first)), key=lambda place: -wholes[place])
            found.fits[:MOST_FIT] = [first[place] for place in order]
            list(pool.map(Weighed.narrow, [weighed[place] for place in order if wholes[place] == max(wholes)]))

    def whole(self, shown):
        """The first session of a difference, which may be that of others, too."""
        session = shown.difference.session
        if id(session) not in self.wholes:
            self.wholes[id(session)] = self.played(shown)
        return self.wholes[id(session)]


def made_of(played, model, number):
    """What tells a number of a model from others in a session: None if nothing is changed with it."""
    try:
        return replaying.digest(played.script, played.sound, numbers.with_number(model, number)())
    except replaying.NeedsServer:
        return number


def distinct():
    """The names of the models, without those that are others with another number."""
    found = {}
    for name, model in MODELS.items():
        found.setdefault(model.__doc__, name)
    return list(found.values())


def put_likeness(found, search, tree):
    """Says of each of these groups what it is like, as far as there is time."""
    firsts = {}
    for group in found:
        firsts.setdefault(id(group.first.session), []).append(group.first)
    for left, group in zip(range(len(found), 0, -1), found):
        one = search.within(search.until.left() / left)
        whole = shrinking.Shown(group.steps, tree, group.first, firsts[id(group.first.session)])
        group.likeness = one.likeness(group.shortest or whole)
        if group.shortest and group.likeness:
            one.order(group.likeness, whole)
