"""Trees that a seed draws, of every kind that a tree file can hold, for sessions whose tree is to be found without it.

An emphasis says of what there is more: `paths`, `links`, `listings`, `names` or `bytes`.
"""
import random

from model.trees import Tree, text_of
from sftpv3.codec.trees import DEEPEST, HIGHEST, LEAST_OF_ALL, USUAL

EMPHASES = ("paths", "links", "listings", "names", "bytes")

NAMES = (b"a", b"b", b"c", b"d", b"e", b"f", b"g", b"log", b"x y", b"caf\xc3\xa9", b"\xff", b"data.bin", b"...", b"a.b")
OWNERS = ((0, 0), (0, 0), (1000, 1000), (7, 8), (0, 5))
MODES = (0o755, 0o644, 0o700, 0o600, 0o1777, 0, 0o4755)

# The fewest and the most directories, files, links and further names of files, by what is emphasised.
COUNTS = {
    "paths": ((2, 6), (1, 4), (1, 3), (0, 1)),
    "links": ((1, 4), (1, 4), (3, 8), (0, 1)),
    "listings": ((1, 4), (2, 10), (0, 3), (0, 1)),
    "names": ((1, 4), (2, 5), (0, 2), (1, 4)),
    "bytes": ((0, 2), (2, 5), (0, 1), (0, 2)),
}

# How many links are in a row where there are many: a walk follows 40.
ROWS = (5, 39, 40, 41)


class Maker:
    """Draws the entries of a tree."""

    def __init__(self, seed, emphasis):
        self.random = random.Random(f"tree to be found {seed} {emphasis}")
        self.emphasis = emphasis
        self.names = self.random.sample(NAMES, self.random.randint(4, 7))
        owner = self.random.choice(OWNERS)
        self.tree = Tree(owner=owner, root=self.rights(), limits=self.limits())

    def rights(self):
        return (*self.random.choice(OWNERS), self.random.choice(MODES))

    def limits(self):
        choices = [USUAL] * 12 + [HIGHEST]
        if self.emphasis == "bytes":
            choices += [(*USUAL, LEAST_OF_ALL), HIGHEST]
        return self.random.choice(choices)

    def places(self, kind):
        return [place for place, there in self.tree.nodes.items() if there[0] == kind]

    def free(self):
        """A place at which nothing is."""
        while True:
            place = (*self.random.choice(self.places("D")), self.random.choice(self.names))
            if place not in self.tree.nodes and len(place) < 9:
                return place
            if self.random.random() < 0.05:
                self.names.append(b"n%d" % len(self.names))

    def content(self):
        draw = self.random
        count = draw.choice((0, 0, 1, 2, 5, 26, 100, 3_000, 40_000 if self.emphasis == "bytes" else 10))
        kind = draw.random()
        if kind < 0.1:
            return bytes(count)
        if kind < 0.3:
            return (b"abc" * count)[:count]
        if kind < 0.5:
            return draw.randbytes(count // 2) + bytes(count - count // 2)
        return draw.randbytes(count)

    def add_directory(self):
        self.tree.nodes[self.free()] = "D", self.rights()

    def add_file(self):
        self.tree.nodes[self.free()] = "F", self.tree.make_file(self.rights(), self.content())

    def add_further(self):
        files = self.places("F")
        if files:
            self.tree.nodes[self.free()] = self.tree.nodes[self.random.choice(files)]

    def add_link(self):
        place = self.free()
        self.tree.nodes[place] = "L", self.target(place)

    def target(self, place):
        """Where a link at a place leads: to something, or to where nothing is."""
        draw = self.random
        kind = draw.random()
        if kind < 0.12:
            return draw.choice((b".", b"..", b"/", b"../..", b"./", b"/..", place[-1], text_of(place)))
        if kind < 0.24:
            return draw.choice((b"/nowhere", b"nowhere", b"n/m", b"../nowhere", draw.choice(self.names)))
        end = draw.choice([other for other in self.tree.nodes if other] or [()])
        text = text_of(end) if draw.random() < 0.4 else relative(place[:-1], end)
        if draw.random() < 0.15:
            text = draw.choice((text + b"/", b"./" + text.lstrip(b"/"), text + b"/.", text.replace(b"/", b"//"),
                                text + b"/..", text + b"/" + draw.choice(self.names)))
        return text or b"."

    def add_row(self):
        """Many links, each to the next one, the last of them to something."""
        count = self.random.choice(ROWS)
        names = [b"row%02d" % number for number in range(count)]
        for name, target in zip(names, names[1:]):
            self.tree.nodes[name,] = "L", target
        self.tree.nodes[names[-1],] = "L", text_of(self.random.choice(list(self.tree.nodes)))

    def add_deep(self):
        """Directories one in the other, nearly as many as may be."""
        top = self.free()
        for count in range(self.random.choice((DEEPEST - 1, DEEPEST)) - len(top) + 1):
            self.tree.nodes[(*top, *[b"s"] * count)] = "D", self.rights()

    def choose_home(self):
        kind = self.random.random()
        if kind < 0.45:
            return ()
        if kind < 0.85:
            return self.random.choice(self.places("D"))
        return self.random.choice(list(self.tree.nodes)) if kind < 0.92 else self.free()

    def make(self):
        adders = (self.add_directory, self.add_file, self.add_link, self.add_further)
        for add, (least, most) in zip(adders, COUNTS[self.emphasis]):
            for _ in range(self.random.randint(least, most)):
                add()
        if self.emphasis == "links" and self.random.random() < 0.15:
            self.add_row()
        if self.emphasis == "paths" and self.random.random() < 0.05:
            self.add_deep()
        self.tree.home = self.choose_home()
        return self.tree


def relative(above, end):
    """The path from a directory to a place, with the names `..` that it takes."""
    same = 0
    while same < min(len(above), len(end)) and above[same] == end[same]:
        same += 1
    return b"/".join([b".."] * (len(above) - same) + list(end[same:]))


def draw_tree(seed, emphasis):
    """The tree of a seed."""
    return Maker(seed, emphasis).make()
