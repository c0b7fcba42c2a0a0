"""The plan of a session. A seed, a tree and a number of requests have one plan, whatever the server answers.

A plan has two parts, mixed with each other. Small scenes meet on the files of the tree. Large scenes have files and
directories of their own, below names that no small scene knows. At the end of both, all that they made is read back and
listed.

The weight of a small scene is the number of draws in 100 sessions of 60 requests: together they are about 2,400, and
three of five draws try to be refused, by one request as a rule. What a client does every day is drawn in most sessions.
What few clients ever do has the weight RARE: then some 5 to 10 of 100 sessions have it, which is enough to find what a
server does wrong there, and not so much that one flaw is all that is seen of a server. No weight depends on a server.
"""
import itertools
import random

from sftpv3 import codec
from sftpv3.probe import (buffers, crossings, dating, deeper, distances, features, holdings, meetings, often, paging,
                          pairs, refusals, remains, renewals, scenes, squares, takeovers, transfers)
from sftpv3.probe.model import DIRECTORY, FILE, LINK, Model, apply
from sftpv3.probe.plans import Handle, Step
from sftpv3.probe.transfers import listing

RARE = 8

WEIGHTS = {
    # Each day's work.
    scenes.looking: 70,              # asks for attributes and paths
    scenes.reading: 90,              # reads, also past the end
    scenes.writing: 110,             # makes or empties a file, and writes
    scenes.appending: 40,            # writes to the end of a log
    scenes.setting: 60,              # changes attributes
    scenes.removing: 40,             # removes a file that is open
    scenes.naming: 40,               # a file with two names
    scenes.listing: 90,              # names come and go in a directory that is listed
    scenes.making: 40,               # makes and removes directories
    scenes.linking: 70,              # makes, reads and follows links
    scenes.moving: 70,               # gives things another place
    scenes.replacing: 40,            # files and links take the place of others
    scenes.overlapping: 80,          # WRITEs and READs of the same bytes: one handle, as in a client's cache
    # Less common, and with room for mistakes.
    scenes.replacing_directory: 20,  # a directory takes the place of an empty one
    scenes.through_nowhere: 20,      # makes a file through a link that leads to nothing
    scenes.at_limits: 25,            # offsets where numbers of 31, 32 and 63 bits end
    # What few clients ever do.
    scenes.append_reading: RARE,     # READs through a handle that is open with APPEND
    scenes.two_handles: RARE,        # WRITEs and READs of the same bytes: two handles, which nothing keeps in order
    scenes.emptying: RARE,           # a file that is read is emptied by another OPEN
    scenes.leaving_gap: RARE,        # a WRITE behind the end, and READs across the gap
    scenes.listing_moved: RARE,      # a directory gets another place while it is listed
    scenes.giving_away: RARE,        # OPEN and MKDIR with an owner
    # What users and programs run into: the place that is taken or empty, the thing of another kind.
    refusals.no_entry: 170,
    refusals.exists: 140,
    refusals.is_dir: 110,
    refusals.not_dir: 110,
    refusals.not_empty: 70,
    refusals.not_file: 70,
    refusals.not_link: 40,
    refusals.loop: 70,
    refusals.inside: 40,
    refusals.root: 40,
    # Mistakes of a client with its handles and flags.
    refusals.bad_handle: 140,
    refusals.wrong_kind: 110,
    refusals.not_open_for: 110,
    refusals.bad_flags: 70,
    refusals.unknown: 40,            # extensions that nobody has
    refusals.bad_path: 60,           # names and paths that are too long for any system
    refusals.no_room: 40,            # sizes that no file can have
    # What few clients ever do.
    refusals.excl_dangling: RARE // 2,  # links that lead to nothing: under EXCL; `exists` has them under RENAME
    refusals.nul_path: RARE,         # a byte of 0 in a path: no program in C can ask for it
    refusals.too_large: RARE,        # what servers have room for, and this project's tree has not
    refusals.long_target: RARE,      # the same, of the target of a link
}


def draw(random):
    """A scene, or a request that is to be refused."""
    return random.choices(list(WEIGHTS), WEIGHTS.values())[0]


# Large scenes. Each seed has one of TRANSFERS in turn, and another by chance.
TRANSFERS = [
    transfers.transferring, transfers.rewriting, transfers.replacing_upload, transfers.transferring_much,
    transfers.cutting, transfers.transferring_edges, transfers.appending_blocks, transfers.transferring_several,
    transfers.sparse, transfers.renaming_open, transfers.transferring,
]

# The others come each so many seeds, first with that seed. No period is even: where each second session has one request
# in flight, each scene meets both. The first word of a row is the feature that `--skip` may name.
PERIODS = [
    ("crowds", transfers.few_names, 3, 1),
    ("unusual-names", transfers.unusual_names, 5, 2),
    ("crowds", transfers.crowd_of(100), 5, 3),
    ("links", transfers.following_links, 5, 1),
    ("deep", transfers.deep, 7, 4),
    ("many-handles", transfers.many_handles, 7, 5),
    ("crowds", transfers.crowd_of(1000), 11, 6),
    ("crowds", transfers.crowd_of(5000), 25, 12),
    ("transfers", meetings.appending_together, 5, 0),
    ("transfers", meetings.remaking, 5, 4),
    ("transfers", meetings.leaving, 5, 3),
    ("transfers", meetings.setting_open, 7, 2),
    ("transfers", meetings.cutting_between, 7, 0),
    ("unusual-names", meetings.clearing, 5, 2),
    ("many-handles", meetings.listing_together, 7, 3),
    ("crowds", meetings.listing_often, 11, 8),
    ("links", meetings.chaining_links, 7, 6),
    ("deep", meetings.long_paths, 7, 1),
    ("transfers", meetings.emptying_further, 5, 1),
    ("transfers", meetings.listing_removed, 5, 2),
    ("transfers", meetings.setting_folders, 5, 0),
    ("transfers", meetings.giving_far, 7, 3),
    ("transfers", meetings.writing_alike, 7, 5),
    ("transfers", pairs.side_by_side, 3, 0),
    ("transfers", pairs.of_places, 9, 4),
    ("transfers", renewals.reading_on, 9, 1),
    ("transfers", renewals.leaving_gaps, 9, 2),
    ("transfers", renewals.passing, 9, 4),
    ("transfers", renewals.further_names, 11, 5),
    ("transfers", renewals.moving_reader, 11, 3),
    ("links", renewals.switching, 11, 7),
    ("links", renewals.leading_far, 11, 4),
    ("transfers", renewals.moving_tree, 11, 8),
    ("transfers", renewals.listing_again, 11, 9),
    ("unusual-names", renewals.alike_names, 15, 7),
    ("many-handles", renewals.counting, 49, 9),
    ("many-handles", renewals.failing_often, 49, 21),
]


def large_scenes(seed, random):
    """The large scenes of a seed, with their features."""
    found = [("transfers", TRANSFERS[seed % len(TRANSFERS)]), ("transfers", random.choice(TRANSFERS))]
    return found + of_seed(seed, PERIODS)


def of_seed(seed, periods):
    """The scenes of these periods that come with a seed, with their features."""
    return [(feature, scene) for feature, scene, period, first in periods if seed % period == first % period]


# Names of what is made, few, so that they meet.
POOL = [b"a", b"b", b"new", b"n", b"x y", b"caf\xc3\xa9", b"-", b"...", b"\xff", b"Z" * 40]


class Planner:
    """Draws scenes, and mixes their steps. Its numbers are those of the steps, and its names those of what scenes make;
    other planners of the session may take from both, too."""

    def __init__(self, seed, tree, skip=(), numbers=None, named=None, left_out=None):
        self.random = random.Random(seed)
        # the features for which scenes were left out, by the names of these
        self.left_out = {} if left_out is None else left_out
        self.model = Model(tree)
        self.skip = set(skip)
        self.numbers = numbers or itertools.count(1)
        self.opened, self.closed, self.named = {}, [], set() if named is None else named
        self.most_read, self.most_entries = tree.most_read(), tree.most_entries()
        self.last = 0

    def small(self, count):
        """The steps of small scenes, so many."""
        playing, planned = [], 0
        for _ in range(40 * count):
            if planned >= count:
                break
            if len(playing) < 3:
                playing.append(draw(self.random)(self))
            scene = self.random.choice(playing)
            step = self.step_of(scene)
            if step is None:
                playing.remove(scene)
            else:
                planned += 1
                yield step

    def large(self, scenes):
        """The steps of these scenes, which come with the names of their features. Up to two are played at a time."""
        waiting, playing = [(feature, scene(self)) for feature, scene in scenes], []
        while waiting or playing:
            if waiting and len(playing) < 2:
                playing.append(waiting.pop(0))
            feature, scene = one = self.random.choice(playing)
            for _ in range(self.random.randint(1, 10)):
                step = self.step_of(scene, {feature})
                if step is None:
                    playing.remove(one)
                    break
                yield step

    def step_of(self, scene, known=frozenset()):
        """The next step of a scene with these features, or None if the scene is at its end or to be left out from here
        on."""
        step = next(scene, None)
        if step is not None:
            step.tags |= features.of_plan(self, step) | known
        if step is not None and step.tags & self.skip:
            self.left_out.setdefault(name_of(scene), set()).update(step.tags & self.skip)
            return None
        if step is not None:
            step.scene = name_of(scene)
            apply(self, step)
        return step

    def ask(self, name, *fields, cause=None):
        self.last = next(self.numbers)
        return Step(self.last, name, list(fields), cause)

    def blank(self, word):
        """The path of a new name, directly below the root, which nothing had before."""
        for number in itertools.count(1):
            name = b"%s-%d" % (word, number)
            if name not in self.named and not self.model.at((name,)):
                self.named.add(name)
                return b"/" + name

    def has_room(self, count):
        """Whether the tree has room for so many entries more, and for as many as the rest of the plan makes."""
        return len(self.model.places) + count + 1000 <= self.most_entries

    def place(self, kind, busy=()):
        """The place of something of this kind, but for files with these numbers, or None."""
        found = [place for place in self.model.of_kind(kind)
                 if self.model.at(place).number not in busy and not self.crowd(place)]
        return self.random.choice(found) if found else None

    def crowd(self, place):
        """Whether this is one of many names of a directory, of which few are wanted in a plan."""
        return len(place) == 2 and place[0] == b"many" and self.random.random() < 0.98

    def file(self):
        return self.place(FILE)

    def idle_file(self):
        """A file that is not open, if there is one. Few clients open a file twice: scenes of their own do that."""
        busy = {opened.number for opened in self.opened.values() if opened.kind == FILE}
        return self.place(FILE, busy) or self.file()

    def directory(self):
        return self.place(DIRECTORY)

    def link(self):
        return self.place(LINK)

    def free(self):
        """A place where something may be made."""
        for _ in range(20):
            place = self.directory() + (self.random.choice(POOL),)
            if not self.model.at(place):
                return place
        return (b"made-%d" % self.last,)

    def path(self, place):
        """A path of this place, spelled in some way. Of none it is one that may lead nowhere."""
        if place is None:
            return b"/absent"
        return text_of(place) if features.SPELLINGS in self.skip else spell(self.random, self.model, place)

    def handle(self, kind, flags=0):
        """A handle of this kind with these flags that is open, or None."""
        found = [number for number, opened in self.opened.items()
                 if opened.kind == kind and opened.flags & flags == flags]
        return Handle(self.random.choice(found)) if found else None

    def attributes(self):
        """Attributes for something new: mostly none or permissions."""
        return self.random.choice([
            {}, {}, {"permissions": 0o640}, {"permissions": 0o100600}, {"permissions": 0o755},
            {"permissions": 0o777}, {"permissions": 0o644}, {"times": (1, 2)},
        ])

    def size(self, step):
        """The size of the file that this step opens, as far as the plan knows."""
        opened = self.opened.get(step.number)
        return self.model.sizes[opened.number] if opened and opened.kind == FILE else 0

    def data(self):
        size = self.random.choice([0, 1, 1, 3, 5, 10, 26, 100, 1000, 8000])
        return self.random.randbytes(size) if size > 26 else b"0123456789ABCDEFGHIJKLMNOPQ"[:size]

    def offset(self):
        return self.random.choice([0, 0, 0, 1, 2, 5, 10, 20, 26, 30, 100, 1000, 40000])

    def offset_within(self, step):
        """Where a WRITE through the handle of this step leaves no gap: at the end of the file, or before it."""
        size = self.size(step)
        return self.random.choice([0, size, size, min(self.offset(), size)])


# Where ids begin, by the last digit of the seed, with others than 1: where they are no numbers of 31 bits, at 0, and
# so that they go on with 0 behind the last of 32 bits.
FIRST_IDS = {5: 2 ** 31, 3: 0, 8: 0, 6: 2 ** 32 - 50}


def ids_of(seed):
    """The ids of a session, one after the other."""
    first = FIRST_IDS.get(seed % 10, 1)
    return itertools.chain(range(first, 2 ** 32), range(first))


# The scenes that come behind all others, each row by a planner of its own, whose random numbers its word is for.
BEHIND = [("further", crossings.PERIODS), ("dated", dating.PERIODS), ("remaining", remains.PERIODS),
          ("dated again", dating.MORE), ("taking", takeovers.PERIODS), ("holding", holdings.PERIODS),
          ("deeper", deeper.PERIODS + buffers.PERIODS), ("wearing", often.PERIODS + paging.PERIODS + distances.PERIODS)]

# Those that look at all that they made by themselves, and have no end.
WHOLE = "squared"


def name_of(scene):
    """The name of a scene, or of what plays it."""
    return scene.__name__.replace("_", "-")


def scenes():
    """All scenes by their names, in the order in which plans have them."""
    rows = [*PERIODS, *(row for _, periods in BEHIND for row in periods), *takeovers.OF_START, *squares.PERIODS]
    found = [*WEIGHTS, *TRANSFERS, *(scene for _, scene, *_ in rows), read_back, all_back]
    return {name_of(scene): scene for scene in found}


def plan(seed, tree, count, skip=(), left_out=None):
    """The steps of a session: so many of small scenes, besides those of large ones and of the end. `left_out` takes in
    the features for which scenes are left out, by their names."""
    numbers, named = ids_of(seed), set()
    small, large, *others = (Planner(word, tree, skip, numbers, named, left_out)
                             for word in (seed, f"large {seed}", *(f"{word} {seed}" for word, _ in BEHIND)))
    between, steps = large.large(large_scenes(seed, large.random)), []
    for step in small.small(count):
        steps.append(step)
        steps += itertools.islice(between, large.random.randint(0, 8))
    steps += between
    for planner, (_, periods) in zip(others, BEHIND):
        steps += planner.large(of_seed(seed, periods))
    steps += small.large(of_seed(seed, takeovers.OF_START))
    steps += Planner(f"{WHOLE} {seed}", tree, skip, numbers, named, left_out).large(of_seed(seed, squares.PERIODS))
    for planner in (large, small, *others):
        steps += planner.large([("read-back", all_back if planner is small else read_back)])
    return steps


def text_of(place):
    """The absolute path of a place."""
    return b"/" + b"/".join(place)


def spell(random, model, place):
    """A path of this place: mostly its absolute text, and else one of many others."""
    text = text_of(place)
    if random.random() < 0.3:
        text = random.choice([doubled, dotted, roundabout, through_link, ending])(random, model, place, text)
    if not model.home and text.startswith(b"/") and random.random() < 0.2:
        text = text.lstrip(b"/") or b"."
    return text


def doubled(random, _model, _place, text):
    """Slashes that stand twice."""
    return text.replace(b"/", b"//", random.randint(1, 2))


def dotted(random, _model, _place, text):
    """A part that is a dot."""
    parts = text.split(b"/")
    parts.insert(random.randrange(1, len(parts)), b".")
    return b"/".join(parts)


def roundabout(random, model, place, text):
    """Into a directory on the way and back, or up from the root."""
    if random.random() < 0.3:
        return b"/.." + text
    cut = random.randint(0, max(len(place) - 1, 0))
    inside = [other for other in model.of_kind(DIRECTORY) if len(other) == cut + 1 and other[:cut] == place[:cut]]
    if not inside:
        return text
    return b"/" + b"/".join(place[:cut] + (random.choice(inside)[-1], b"..") + place[cut:])


def through_link(random, model, place, text):
    """Through a link to a directory on the way."""
    found = []
    for link in model.of_kind(LINK):
        target = model.leads_to(link, DIRECTORY)
        if target and len(target) < len(place) and place[:len(target)] == target:
            found.append((link, target))
    if not found:
        return text
    link, target = random.choice(found)
    return b"/" + b"/".join(link + place[len(target):])


def ending(random, model, place, text):
    """A slash at the end, or a dot, of a directory."""
    entry = model.at(place)
    if entry is None or entry.kind != DIRECTORY or not place:
        return text
    return text + random.choice([b"/", b"/", b"/.", b"//"])


# Of files without bytes, directories without names and links that a session made, so many are looked at: the listings
# show the others.
MOST_EMPTY = 20


def read_back(p):
    """What is open is closed; then each file that was written, each directory with other names, and each link."""
    for number in list(p.opened):
        yield p.ask("CLOSE", Handle(number))
    for place in written(p.model):
        yield from reading(p, b"/" + b"/".join(place), p.model.sizes[p.model.at(place).number])
    for place, count in changed(p.model):
        yield from listing(p, b"/" + b"/".join(place), count)
    for place in sorted(made_links(p.model))[:MOST_EMPTY]:
        yield p.ask("READLINK", text_of(place))


# Of the files and directories that were there at the start, and that no request was to change, so many are looked at,
# if a file has no more bytes, and a directory no more names.
MOST_KEPT, KEPT_BYTES, KEPT_NAMES = 10, 100_000, 200


def all_back(p):
    """Files, directories and links that no request was to change: one that was refused may have changed them."""
    yield from read_back(p)
    for place in sorted(set(p.model.of_kind(LINK)) - set(made_links(p.model))):
        yield p.ask("READLINK", text_of(place))
    for place, size in kept(p, p.model.unchanged_files(), KEPT_BYTES):
        yield from reading(p, b"/" + b"/".join(place), size)
    for place, count in kept(p, p.model.unchanged_directories(), KEPT_NAMES):
        yield from listing(p, b"/" + b"/".join(place), count)


def kept(p, found, most):
    """Some of these places, which come with sizes, that are not too large."""
    fit = sorted(one for one in found if 0 < one[1] <= most)
    return p.random.sample(fit, min(len(fit), MOST_KEPT))


def made_links(model):
    """The links at places where nothing was at the start."""
    return [place for place in model.of_kind(LINK) if place[-1] not in model.names_before.get(place[:-1], ())]


def written(model):
    """A place of each file that was written, but for most of those without bytes."""
    by_number = {model.at(place).number: place for place in model.of_kind(FILE)}
    found = [(place, model.sizes[number]) for number, place in by_number.items() if number in model.written]
    return [place for place, _ in few_empty(found)]


def changed(model):
    """The directories that have other names than at the start, with how many, but for most of those without names."""
    return few_empty(model.changed_directories().items())


def few_empty(found):
    """Those of these pairs whose number is not 0, and some of the others."""
    found = list(found)
    full, empty = [one for one in found if one[1]], [one for one in found if not one[1]]
    return full + empty[:MOST_EMPTY]


def reading(p, path, size):
    """READs of a whole file, and of what is behind its end."""
    step = p.ask("OPEN", path, codec.READ, {})
    yield step
    for offset in list(range(0, size, p.most_read)) + [size]:
        yield p.ask("READ", step.opened(), offset, p.most_read)
    yield p.ask("FSTAT", step.opened())
    yield p.ask("CLOSE", step.opened())
