"""Requests that a seed draws by what is there, and sessions of them with replies that the rules allow.

The replies are those of `serve`, or, of every third seed, others that are allowed as well: other codes, listings in
another order and in other parts, other handles. Replies may come later than they could, in another order.
"""
import random

from model.replies import CODES, Ask, Session
from model.starts import relative
from model.trees import text_of
from sftpv3.codec import CLIENT, SERVER, Packet, Request, encode, put_records
from sftpv3.codec.packets import FLAGS
from sftpv3.codec.transcripts import BEGUN

# How often each request comes, by what is emphasised; `usual` is of those that are not named.
USUAL = {
    "OPEN": 8, "CLOSE": 4, "READ": 6, "WRITE": 6, "LSTAT": 4, "FSTAT": 3, "SETSTAT": 3, "FSETSTAT": 2, "OPENDIR": 3,
    "READDIR": 6, "REMOVE": 3, "MKDIR": 4, "RMDIR": 3, "REALPATH": 3, "STAT": 5, "RENAME": 4, "READLINK": 2,
    "SYMLINK": 2, "POSIX-RENAME": 3, "HARDLINK": 2, "FSYNC": 1, "LIMITS": 1, "EXTENDED": 1,
}
EMPHASISED = {
    "paths": {"STAT": 12, "LSTAT": 8, "REALPATH": 10, "MKDIR": 6, "RENAME": 6, "READ": 2, "WRITE": 2, "READDIR": 3},
    "links": {"READLINK": 8, "SYMLINK": 8, "STAT": 10, "LSTAT": 8, "REALPATH": 8, "OPEN": 10},
    "listings": {"OPENDIR": 10, "READDIR": 20, "MKDIR": 6, "REMOVE": 6, "RMDIR": 5, "RENAME": 5},
    "names": {"HARDLINK": 8, "REMOVE": 8, "RENAME": 10, "POSIX-RENAME": 8, "OPEN": 10, "FSTAT": 5, "STAT": 8},
    "bytes": {"OPEN": 12, "READ": 22, "WRITE": 20, "FSTAT": 6, "FSETSTAT": 5, "SETSTAT": 5, "STAT": 5},
}

OPENINGS = ("READ", "READ", "WRITE", "READ|WRITE", "READ|WRITE", "WRITE|APPEND", "READ|WRITE|APPEND",
            "WRITE|CREAT|TRUNC", "WRITE|CREAT", "READ|WRITE|CREAT", "WRITE|CREAT|APPEND", "READ|WRITE|CREAT|APPEND",
            "WRITE|CREAT|EXCL", "READ|CREAT", "READ|WRITE|CREAT|TRUNC", "", "READ|TRUNC", "WRITE|TRUNC")
OFFSETS = (0, 0, 0, 0, 1, 2, 3, 5, 26, 100, 3_000)
LENGTHS = (0, 1, 5, 10, 100, 4_096, 32_768, 40_000, 2 ** 32 - 1)
BAD_PATHS = (b"", b"/\0", b"n" * 256, b"/" + b"a/" * 2_100)


class Asker:
    """Draws requests of a session."""

    def __init__(self, seed, emphasis, session):
        self.random = random.Random(f"session to be explained {seed} {emphasis}")
        self.session, self.tree, self.emphasis = session, session.tree, emphasis
        weights = {**USUAL, **EMPHASISED[emphasis]}
        self.kinds, self.weights = list(weights), list(weights.values())
        self.seen, self.closed = [place for place in self.tree.nodes if place], []
        self.names = sorted({place[-1] for place in self.seen}) + [b"new", b"n"]

    # Places and paths.

    def place(self, kinds="DFL"):
        """Something that is there, mostly; else a place where something was, or a free one."""
        draw = self.random
        chance = draw.random()
        there = [place for place, node in self.tree.nodes.items() if node[0] in kinds and (place or "D" in kinds)]
        if chance < 0.8 and there:
            return draw.choice(there)
        if chance < 0.86 and self.seen:
            return draw.choice(self.seen)
        if chance < 0.97:
            return self.free()
        return (*draw.choice(list(self.tree.nodes)), draw.choice(self.names))

    def free(self):
        """A place in a directory, at which nothing is mostly."""
        draw = self.random
        above = draw.choice([place for place, node in self.tree.nodes.items() if node[0] == "D"])
        for _ in range(3):
            place = (*above, draw.choice(self.names))
            if place not in self.tree.nodes:
                break
        return place

    def spelled(self, place):
        """A path that leads to a place, if links are not in its way."""
        draw = self.random
        chance = draw.random()
        if place and chance < (0.35 if self.emphasis == "links" else 0.1):
            place = self.through_link(place)
        names = list(place)
        text = text_of(place)
        home = self.tree.home
        if draw.random() < 0.25:
            text = b"/".join(names[len(home):]) if place[:len(home)] == home else relative(home, place)
        odd = 0.3 if self.emphasis == "paths" else 0.08
        return self.odd(text) if draw.random() < odd else text

    def through_link(self, place):
        """The place by a link to a directory on its way, if there is one."""
        ways = []
        for link, node in self.tree.nodes.items():
            if node[0] == "L":
                end, cause = self.tree.walk(text_of(link), True)
                if not cause and place[:len(end)] == end:
                    ways.append((*link, *place[len(end):]))
        return self.random.choice(ways) if ways else place

    def odd(self, text):
        draw = self.random
        front = b"/" if text[:1] == b"/" else b""
        names = [name for name in text.split(b"/") if name]
        at = draw.randint(0, len(names))
        names[at:at] = draw.choice(([b"."], [b""], [b"..", *names[at - 1:at]] if at else [b"."],
                                    [draw.choice(self.names), b".."]))
        return front + b"/".join(names) + draw.choice((b"", b"", b"/", b"/.", b"/.."))

    def path(self, kinds="DFL"):
        if self.random.random() < 0.015:
            return self.random.choice(BAD_PATHS)
        return self.spelled(self.place(kinds))

    # Handles.

    def handle(self, kind):
        draw = self.random
        fitting = [handle for handle, it in self.session.open.items() if it.kind == kind]
        chance = draw.random()
        if chance < 0.92 and fitting:
            return draw.choice(fitting[-4:])
        if chance < 0.97 and self.session.open:
            return draw.choice(list(self.session.open))
        return draw.choice(self.closed) if self.closed and chance < 0.99 else b"none"

    def attributes(self):
        draw = self.random
        found = {}
        if draw.random() < 0.35:
            found["permissions"] = draw.choice((0o600, 0o755, 0o100640, 0o7777))
        if draw.random() < 0.2:
            found["owner"] = draw.choice(((0, 0), (1000, 1000), (7, 8)))
        if draw.random() < 0.1:
            found["times"] = (1, 2)
        return found

    def sized(self):
        draw = self.random
        found = self.attributes()
        if draw.random() < 0.5:
            found["size"] = draw.choice((0, 0, 1, 3, 30, 5_000, self.tree.file_limit + 1 if draw.random() < 0.3 else 4))
        return found

    # Requests.

    def request(self, number):
        name = self.random.choices(self.kinds, self.weights)[0]
        if name in NEEDS_HANDLE and not any(it.kind == NEEDS_HANDLE[name] for it in self.session.open.values()):
            name = {"F": "OPEN", "L": "OPENDIR"}[NEEDS_HANDLE[name]] if self.random.random() < 0.9 else name
        return Request(number, name, FIELDS[name](self))

    def open_fields(self):
        words = self.random.choice(OPENINGS)
        flags = sum(FLAGS[word] for word in words.split("|") if word)
        path = self.path("F" if self.random.random() < 0.8 else "DFL")
        if "CREAT" in words and self.random.random() < 0.5:
            path = self.spelled(self.free())
        return [path, flags, self.attributes()]

    def moved_fields(self):
        """Mostly to a free place; at times below itself, or to what is there."""
        draw = self.random
        old = self.place()
        chance = draw.random()
        if chance < 0.12:
            new = (*old, draw.choice(self.names))
        elif chance < 0.35:
            new = self.place()
        else:
            new = self.free()
        return [self.spelled(old), self.spelled(new)]

    def read_fields(self):
        return [self.handle("F"), self.random.choice((*OFFSETS, 2 ** 64 - 1)), self.random.choice(LENGTHS)]

    def write_fields(self):
        draw = self.random
        offset = draw.choice(OFFSETS)
        if draw.random() < 0.03:
            offset = draw.choice((self.tree.file_limit, 2 ** 63))
        data = draw.choice((b"", b"x", b"\0", b"abc", draw.randbytes(7), draw.randbytes(300), bytes(9)))
        return [self.handle("F"), offset, data]

    def target(self):
        draw = self.random
        chance = draw.random()
        if chance < 0.1:
            return draw.choice((b"", b"a\0", b".", b"..", b"/"))
        end = draw.choice(self.seen or [()]) if chance < 0.3 else draw.choice(list(self.tree.nodes))
        return text_of(end) if chance < 0.6 else relative(self.free()[:-1], end) or b"."


NEEDS_HANDLE = {"READ": "F", "WRITE": "F", "FSTAT": "F", "FSETSTAT": "F", "FSYNC": "F", "READDIR": "L"}

FIELDS = {
    "OPEN": Asker.open_fields, "READ": Asker.read_fields, "WRITE": Asker.write_fields,
    "CLOSE": lambda self: [self.handle(self.random.choice("FL"))],
    "LSTAT": lambda self: [self.path()], "STAT": lambda self: [self.path()],
    "FSTAT": lambda self: [self.handle("F")], "FSYNC": lambda self: [self.handle("F")],
    "SETSTAT": lambda self: [self.path(), self.sized()],
    "FSETSTAT": lambda self: [self.handle("F"), self.sized()],
    "OPENDIR": lambda self: [self.path("D")], "READDIR": lambda self: [self.handle("L")],
    "REMOVE": lambda self: [self.path("FL")], "RMDIR": lambda self: [self.path("D")],
    "MKDIR": lambda self: [self.spelled(self.free()) if self.random.random() < 0.8 else self.path(), self.attributes()],
    "REALPATH": lambda self: [self.path()], "READLINK": lambda self: [self.path("L")],
    "SYMLINK": lambda self: [self.target(), self.spelled(self.free())],
    "RENAME": Asker.moved_fields, "POSIX-RENAME": Asker.moved_fields, "HARDLINK": Asker.moved_fields,
    "LIMITS": lambda self: [], "EXTENDED": lambda self: [b"unknown@example.com", b""],
}


class Answerer:
    """Gives replies: those of `serve`, or others that are allowed as well."""

    def __init__(self, seed, session, is_free):
        self.random, self.session, self.is_free = random.Random(f"replies {seed}"), session, is_free

    def answer(self, request):
        if not self.is_free:
            return self.session.answer(request)
        reply = self.drawn(request)
        if not self.session.accept(request, reply):
            raise ValueError(f"a reply is not allowed: {request} {reply}")
        return reply

    def drawn(self, request):
        draw = self.random
        ask = Ask(self.session, request.name, request.fields)
        causes = ask.causes()
        if causes:
            return Packet(request.number, "STATUS", [draw.choice(CODES[draw.choice(causes)]), b"", b""])
        kind, said = ask.said()
        if kind == "HANDLE":
            return Packet(request.number, kind, [self.new_handle()])
        if kind == "LISTING":
            names = draw.sample(sorted(said[0]), draw.randint(1, len(said[0])))
            return Packet(request.number, "NAME", [[(name, name, said[0][name]) for name in names]])
        if kind == "NAME":
            return Packet(request.number, kind, [[(said[0], said[0], {})]])
        return Packet(request.number, kind, [said[0], b"", b""] if kind == "STATUS" else list(said))

    def new_handle(self):
        """A short name that is free, one that was given before among them."""
        while True:
            handle = b"h%d" % self.random.randint(0, 9 + len(self.session.open))
            if handle not in self.session.open:
                return handle


def draw_session(seed, emphasis, tree, count):
    """The records of a session of so many requests, which begins with a tree; the tree is then as it is at its end."""
    session = Session(tree)
    asker, answerer, record = Asker(seed, emphasis, session), Answerer(seed, session, seed % 3 == 0), Record(seed)
    for number in range(count):
        request = asker.request(number)
        if request.name == "CLOSE" and request.fields[0] in session.open:
            asker.closed.append(request.fields[0])
        record.add(request, answerer.answer(request))
    return record.whole()


class Record:
    """The records of a session. Replies come later than they could, but no handle is used before its reply is there."""

    def __init__(self, seed):
        self.random = random.Random(f"order {seed}")
        self.window, self.records, self.waiting = self.random.choice((1, 1, 4, 16)), [*BEGUN], []

    def add(self, request, reply):
        handle = request.handle()
        while any(other.name == "HANDLE" and other.fields[0] == handle for other in self.waiting):
            self.give()
        self.records.append((CLIENT, encode(request)))
        self.waiting.append(reply)
        while self.waiting and (len(self.waiting) >= self.window or self.random.random() < 0.3):
            self.give()

    def give(self):
        """One of the replies that wait."""
        reply = self.waiting.pop(self.random.randrange(len(self.waiting)))
        self.records.append((SERVER, encode(reply)))

    def whole(self):
        """The transcript, once all replies are there."""
        while self.waiting:
            self.give()
        return put_records(self.records)
