"""What is looked at once a session is over and the server was started again on the same files: whether what it made,
wrote, changed and removed is there as it left it.

The steps are a function of those of the plan and of the tree. They stand behind the plan, with ids that go on, and are
marked as those of a second start. Some files stay open when the session ends: what WRITE has told done lasts also where
no CLOSE comes, as when a connection breaks.
"""
import itertools

from sftpv3 import codec
from sftpv3.probe import plans
from sftpv3.probe.model import FILE, LINK, Model, apply
from sftpv3.probe.planner import few_empty
from sftpv3.probe.plans import Step
from sftpv3.probe.transfers import listing

# How far behind the last id of the plan the ids go on: READs and WRITEs that are cut into parts have those between.
GAP = 1 << 20

# The most things by their paths: of those that the session changed, and of others; the most links, and files of several
# names, of which one is changed by each name.
MOST_CHANGED, MOST_OTHERS, MOST_LINKS, MOST_PAIRS = 150, 40, 40, 10

# A directory of more names shows them in its listing: few of them are looked at by their paths.
CROWD, MOST_OF_CROWD = 30, 6

# The bytes of a file that are read at its start and at its end, if it has more.
WHOLE, END = 4 << 20, 1 << 16

# The permissions that a file of several names gets by one of them.
OTHERS = {"permissions": 0o646}

# What a file has that stays open: more than one block of a disk, and no whole number of them.
LEFT_OPEN = b"/left-open"
BYTES = plans.part(0, 9001)

# The times that a file gets last, which nothing may have changed by the second start.
TIMES = {"times": (1_000_000_000, 1_000_000_002)}

# Requests that change something at a path.
CHANGING = ("SETSTAT", "REMOVE", "MKDIR", "RMDIR", "RENAME", "SYMLINK", "POSIX-RENAME", "HARDLINK")


class Places(dict):
    """The entries of a model by their places. Knows each place that ever had one, those that were changed last at the
    end."""

    def __init__(self, given):
        super().__init__(given)
        self.ever = dict.fromkeys(given)

    def __setitem__(self, place, entry):
        self.change(place)
        super().__setitem__(place, entry)

    def change(self, place):
        self.ever.pop(place, None)
        self.ever[place] = None


class Left:
    """What the steps of a plan leave, as far as the plan knows; and what they changed."""

    def __init__(self, steps, tree):
        self.model, self.opened, self.closed = Model(tree), {}, []
        self.model.places = Places(self.model.places)
        self.before = set(self.model.places)
        # the places at which something was changed, and the numbers of files
        self.places, self.numbers = set(), set()
        for step in steps:
            self.take(step)

    def take(self, step):
        self.note(step)
        apply(self, step)

    def note(self, step):
        """Notes what a step changes."""
        opened = self.opened.get(plans.opener(step.handle()))
        if step.name in ("WRITE", "FSETSTAT") and opened and opened.number is not None:
            self.numbers.add(opened.number)
        if step.name in CHANGING:
            paths = [value for value in step.fields if isinstance(value, bytes)]
            places = {self.model.walk(path, step.name == "SETSTAT") for path in paths}
            for place in places & self.model.places.keys():
                self.places.add(place)
                self.model.places.change(place)

    def is_changed(self, place):
        entry = self.model.at(place)
        number = entry.number if entry else None
        return (place in self.places or place not in self.before or entry is None
                or number in self.model.written or number in self.numbers)

    def known(self):
        """The places that ever had something, those that were changed last first."""
        return [place for place in reversed(self.model.places.ever) if place]

    def names_of_files(self):
        """The places of each file, by its number."""
        found = {}
        for place in self.model.of_kind(FILE):
            found.setdefault(self.model.at(place).number, []).append(place)
        return found


class Looking:
    """Plans the steps. `listing` takes it for a planner."""

    def __init__(self, left, numbers, most_read):
        self.left, self.numbers, self.most_read = left, numbers, most_read
        # how many names each directory has
        self.counts = {place: len(names) for place, names in left.model.names_by_directory().items()}

    def ask(self, name, *fields):
        return Step(next(self.numbers), name, list(fields))

    def things(self):
        """LSTAT of each place that ever had something, but for most of those in crowds."""
        seen, changed, others = {}, [], []
        for place in self.left.known():
            seen[place[:-1]] = seen.get(place[:-1], 0) + 1
            if seen[place[:-1]] <= MOST_OF_CROWD or self.counts.get(place[:-1], 0) <= CROWD:
                (changed if self.left.is_changed(place) else others).append(place)
        for place in changed[:MOST_CHANGED] + others[:MOST_OTHERS]:
            yield [self.ask("LSTAT", path(place))]

    def links(self):
        """READLINK of links, the last that were made first."""
        found = [place for place in self.left.known() if getattr(self.left.model.at(place), "kind", None) == LINK]
        for place in found[:MOST_LINKS]:
            yield [self.ask("READLINK", path(place))]

    def listings(self):
        """Each directory, to its end, but for most of those without names."""
        for place, count in few_empty(reversed(self.counts.items())):
            yield list(listing(self, path(place), count))

    def files(self):
        """READs of each file, by one of its names, and behind its end, but for most of those without bytes."""
        sizes = self.left.model.sizes
        found = [(places[-1], sizes[number]) for number, places in self.left.names_of_files().items()]
        for place, size in few_empty(reversed(found)):
            yield list(self.reads(path(place), size))

    def reads(self, name, size):
        step = self.ask("OPEN", name, codec.READ, {})
        yield step
        blocks = range(0, size, self.most_read)
        parts = blocks if size <= WHOLE else itertools.chain(range(0, WHOLE, self.most_read),
                                                             range(size - END, size, self.most_read))
        for offset in itertools.chain(parts, [size]):
            yield self.ask("READ", step.opened(), offset, self.most_read)
        yield self.ask("CLOSE", step.opened())

    def pairs(self):
        """Whether the names of a file still lead to one: what is set by one of them, the others show."""
        found = [places for places in self.left.names_of_files().values() if len(places) > 1][-MOST_PAIRS:]
        for places in found:
            yield [self.ask("SETSTAT", path(places[0]), OTHERS)]
        for places in found:
            yield [self.ask("LSTAT", path(place)) for place in places[1:3]]

    def changes(self):
        """What was left open may be written, moved and removed, and its path taken by something else."""
        model = self.left.model
        opened = (one.path for one in self.left.opened.values() if one.path.startswith(LEFT_OPEN))
        name = next((one for one in opened if model.at(model.walk(one, False))), None)
        if name is None:
            return
        moved = next(free_names(model))
        step = self.ask("OPEN", name, codec.WRITE, {})
        yield [step, self.ask("WRITE", step.opened(), len(BYTES), BYTES), self.ask("CLOSE", step.opened()),
               self.ask("LSTAT", name)]
        yield [self.ask("RENAME", name, moved), self.ask("LSTAT", moved), self.ask("REMOVE", moved),
               self.ask("MKDIR", name, {}), self.ask("LSTAT", name), self.ask("RMDIR", name)]

    def parts(self):
        """All steps, those together that hang on each other."""
        return itertools.chain(self.things(), self.links(), self.listings(), self.files(), self.pairs(), self.changes())


def path(place):
    return b"/" + b"/".join(place)


def free_names(model):
    """Paths at which nothing is, one after the other."""
    names = (LEFT_OPEN + b"-%d" % number for number in itertools.count(1))
    return (name for name in names if model.walk(name, False) not in model.places)


def last_words(model, numbers):
    """What the session does last, in parts: it leaves files open, a new one, a new one that it removes, and one that is
    there already; and it sets the times of another."""
    def ask(name, *fields):
        return Step(next(numbers), name, list(fields))

    def left_open(name, flags, data):
        step = ask("OPEN", name, codec.WRITE | flags, {})
        return [step, ask("WRITE", step.opened(), 0, data)]
    new, removed = itertools.islice(free_names(model), 2)
    yield left_open(new, codec.CREAT | codec.EXCL, BYTES)
    removal = ask("REMOVE", removed)
    removal.tags |= {"removed-file"}
    yield left_open(removed, codec.CREAT | codec.EXCL, BYTES) + [removal]
    files = list({model.at(place).number: place for place in model.of_kind(FILE) if len(place) == 1}.values())
    if files:
        yield left_open(path(files[0]), 0, b"left open")
        yield [ask("SETSTAT", path(files[-1]), TIMES)] if len(files) > 1 else []


# The name of what these steps look at, and what that is.
SCENE, TEXT = "lasting", "What a session left is there once the server was started again."


def lasting(steps, tree, skip=frozenset()):
    """These steps, and behind them those that look, once the server was started again, at what they leave."""
    skip = set(skip)
    last = plans.last_number(steps) + GAP
    numbers = (number % plans.IDS for number in itertools.count(last))
    left = Left(steps, tree)
    ending = without(last_words(left.model, numbers), skip)
    for step in ending:
        left.take(step)
    looks = without(Looking(left, numbers, tree.most_read()).parts(), skip)
    return [*steps, *ending, *map(tagged, looks)]


def tagged(step):
    """The step as one of a second start, by which --skip may name it."""
    found = plans.asked_again(step)
    found.tags = step.tags | {"lasting"}
    return found


def without(parts, skip):
    """The steps of these parts, without those that go together with one that is to be left out."""
    return [step for steps in parts if not any(step.tags & skip for step in steps) for step in steps]
