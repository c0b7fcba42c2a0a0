"""The numbers of models, such as how long a WRITE is that is lost: which of them a session can tell apart.

A model names its number in its sentence, as `{LENGTH}`, and has it as an attribute. A number that is `noted` keeps what
it is compared with: only there does it make a difference which one it is.
"""
import re

# A number in a sentence.
NUMBER = re.compile(r"\{([A-Z]+)\}")

# What servers have for limits and lengths of counters, whatever a session shows.
USUAL = [0, *(1 << power for power in range(4, 33))]

# The most numbers of a model that are tried in a session, and how many at first where each takes longer.
MOST, FEW = 300, 5


class Noted(int):
    """A number that adds to `seen` what it is compared with, and what is divided by it."""

    seen: set

    def __new__(cls, value, seen):
        found = super().__new__(cls, value)
        found.seen = seen
        return found

    def note(self, other):
        if isinstance(other, int):
            self.seen.add(int(other))
        return int(self)

    def __lt__(self, other):
        return self.note(other) < other

    def __le__(self, other):
        return self.note(other) <= other

    def __gt__(self, other):
        return self.note(other) > other

    def __ge__(self, other):
        return self.note(other) >= other

    def __eq__(self, other):
        return self.note(other) == other

    def __ne__(self, other):
        return self.note(other) != other

    def __rmod__(self, other):
        return other % self.note(other)

    __hash__ = int.__hash__


def name_of(model):
    """The name of the model's number, or None if it has none."""
    found = NUMBER.search(model.__doc__)
    return found and found[1]


def sentence(model, number=None):
    """What such a server does wrong, in one line, with its own number or with this text in place of it."""
    text = " ".join(model.__doc__.split())
    return NUMBER.sub(lambda found: number or f"{getattr(model, found[1]):,}", text)


def with_number(model, number):
    """The model with this number in place of its own, or as it is if that is None."""
    return model if number is None else type(model.__name__, (model,), {name_of(model): number,
                                                                         "__doc__": model.__doc__})


def worth(seen, own):
    """The numbers of a model that may differ from each other where it was compared with these: each of them and its
    neighbours, the usual ones and its own."""
    near = {number + step for number in seen for step in (-1, 0, 1)}
    return sorted(number for number in near | {*USUAL, own} if number >= 0)


def some(tried, most):
    """Of these numbers so many at most, from the first to the last."""
    step = max(1, -(-len(tried) // most))
    return sorted({*tried[::step], tried[-1]})


class Range:
    """Numbers of a model that are alike: the first and the last."""

    def __init__(self, fitting, tried):
        """`fitting` are those of `tried` that fit: the range ends before the first one behind it that does not."""
        self.first = self.last = fitting[0]
        for number in tried[tried.index(self.first):]:
            if number not in fitting:
                break
            self.last = number

    def __contains__(self, number):
        return self.first <= number <= self.last

    def __str__(self):
        return f"{self.first:,}" if self.first == self.last else f"{self.first:,} to {self.last:,}"

    def most(self, tried, worth):
        """What some of the numbers among `tried` are worth, by `worth`: each of these, and the most. Something is worth
        less, the further it is from what is worth most, so it is looked for between the neighbours of the best."""
        inside, known, best = [number for number in tried if number in self], {}, []
        while True:
            few = sorted({*some(inside, FEW), *best})
            known.update((number, worth(number)) for number in few if number not in known)
            most = max(known.values())
            best = [number for number in few if known[number] == most]
            if len(few) == len(inside) or len(best) > 1:
                return known, most
            place = few.index(best[0])
            low, high = few[max(0, place - 1)], few[min(len(few) - 1, place + 1)]
            inside = [number for number in inside if low <= number <= high]

    def narrow(self, tried, known, worth):
        """Keeps those that are worth most, where some are known: these are all from one of `tried` to another. `worth`
        is asked as seldom as halving allows."""
        inside, most = [number for number in tried if number in self], max(known.values())
        best = [number for number in known if known[number] == most]
        self.first = edge(inside, best[0], max((it for it in known if it < best[0]), default=None), most, worth)
        self.last = edge(inside, best[-1], min((it for it in known if it > best[-1]), default=None), most, worth)


def edge(tried, best, other, most, worth):
    """The last number that is worth most on the way from one that is to one that is not."""
    if other is None:
        return best
    between = sorted((it for it in tried if min(best, other) < it < max(best, other)), reverse=best > other)
    while between:
        half = len(between) // 2
        if worth(between[half]) == most:
            best, between = between[half], between[half + 1:]
        else:
            between = between[:half]
    return best
