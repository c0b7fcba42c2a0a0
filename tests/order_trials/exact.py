"""The search beside brute force, on small sets that chance makes: half of them with a wrong reply."""
import copy
import os
import random
import time

from order_trials import reference
from sftpv3.codec import APPEND, CREAT, EXCL, READ, TRUNC, WRITE, Packet, Request, trees
from sftpv3.together import checking, deeds, others, profiles, searching, sets, states, teaching

# How many sets are tried, unless ORDER_SETS says otherwise.
SETS = int(os.environ.get("ORDER_SETS", "300"))

# How many states brute force may look at where others may change something.
MOST_WITH_OTHERS = 3000

PATHS = [b"a", b"b", b"d", b"d/a", b"d/b", b"l"]
FLAGS = [READ, READ | WRITE | CREAT, WRITE | CREAT | EXCL, READ | WRITE | APPEND, READ | WRITE | CREAT | TRUNC]
BY_PATH = ["STAT", "LSTAT", "REMOVE", "RMDIR", "READLINK", "OPENDIR", "REALPATH"]
KINDS = ["path", "path", "open", "open", "two", "make", "set", "handle", "handle", "handle", "handle"]


def start_tree():
    entries = [trees.Entry(b"/a", trees.FILE, b"0123456789", 0, 0, 0o644), trees.Entry(b"/d", trees.DIRECTORY)]
    return trees.Tree(entries)


class Maker:
    """Makes a set: requests are done in some order, each at an instant between its two times."""

    def __init__(self, seed):
        self.choice = random.Random(seed)
        self.count = self.choice.randrange(2, 5)
        self.is_piped = [self.choice.random() < 0.3 for _ in range(self.count)]
        self.handles = [[] for _ in range(self.count)]
        self.sessions = [[] for _ in range(self.count)]
        self.state = reference.Joint(reference.model_tree(start_tree()), False)
        self.most = 10

    def make(self):
        choice = self.choice
        for at in range(choice.randrange(min(4, self.most - 3), self.most + 1)):
            session = choice.randrange(self.count)
            request = self.request(session, len(self.sessions[session]) + 1)
            self.put(session, 100 * (at + 1), request, self.state.answer(request))
        if choice.randrange(2):
            self.spoil()
        if choice.randrange(5) == 0:
            self.cut()
        return self.sessions

    def put(self, session, instant, request, reply):
        """Gives a request its times. A session with several in flight asks early."""
        if reply.name == "HANDLE":
            self.handles[session].append(reply.fields[0])
        before = self.sessions[session][-1] if self.sessions[session] else None
        reach = self.choice.choice([5, 150, 300, 700])
        asked = instant - self.choice.randrange(1, reach)
        if before is not None:
            asked = max(asked, before.asked if self.is_piped[session] else before.answered + 1)
            if not self.is_piped[session] and asked >= instant:
                before.answered, asked = instant - 2, instant - 1
        answered = instant + self.choice.randrange(1, reach)
        self.sessions[session].append(reference.One(session, asked, answered, request, reply))

    def spoil(self):
        """Gives one request the reply of another state."""
        one = self.choice.choice([it for deeds_of in self.sessions for it in deeds_of])
        fresh = reference.Joint(reference.model_tree(start_tree()), False)
        wrong = self.choice.choice([Packet(one.request.number, "STATUS", [code, b"", b""]) for code in (0, 2, 4)]
                                   + [fresh.answer(one.request)] * 2)
        if wrong.name != "HANDLE":
            one.reply = wrong

    def cut(self):
        """One session ends before its last reply."""
        for session in self.sessions:
            if session:
                session[-1].reply = session[-1].answered = None
                return

    def request(self, session, number):
        choice = self.choice
        kind, path = choice.choice(KINDS), choice.choice(PATHS)
        if kind == "handle" and self.handles[session]:
            return Request(number, *self.of_handle(choice.choice(self.handles[session])))
        if kind == "open":
            return Request(number, "OPEN", [path, choice.choice(FLAGS), {}])
        if kind == "two":
            return Request(number, choice.choice(["RENAME", "POSIX-RENAME", "HARDLINK"]), [path, choice.choice(PATHS)])
        if kind == "make":
            return Request(number, *choice.choice([("MKDIR", [path, {}]), ("SYMLINK", [choice.choice(PATHS), path])]))
        if kind == "set":
            return Request(number, "SETSTAT", [path, self.attributes()])
        return Request(number, choice.choice(BY_PATH), [path])

    def attributes(self):
        found = {"permissions": 0o600 + self.choice.randrange(3), "size": self.choice.randrange(12),
                 "owner": (self.choice.randrange(2), 0)}
        return {name: found[name] for name in found if self.choice.randrange(2)}

    def of_handle(self, handle):
        choice = self.choice
        return choice.choice([
            ("READ", [handle, choice.randrange(12), 8]), ("READ", [handle, 0, 40]), ("FSTAT", [handle]),
            ("WRITE", [handle, choice.randrange(10), bytes(choice.choices(b"xyz", k=3))]), ("READDIR", [handle]),
            ("READDIR", [handle]), ("FSETSTAT", [handle, self.attributes()]), ("CLOSE", [handle])])


def deeds_of(sessions):
    """The same sessions as the search has them."""
    found = []
    for number, session in enumerate(sessions):
        made = []
        for index, one in enumerate(session):
            deed = deeds.Deed(number, index, one.asked, 1, one.request)
            if one.reply is not None:
                deed.reply, deed.answered = one.reply, one.answered
            made.append(deed)
        found.append(sets.Session(f"s{number}", made).deeds)
    return found


def searched(sessions, names, parts, tolerance, most=0, bound=10**7):
    """What the search says, with at most so many changes of others."""
    tree = start_tree()
    state, profile = states.State(tree, len(sessions) + 1), profiles.Profile(frozenset(names))
    found = deeds_of(sessions)
    for deed in (deed for it in found for deed in it):
        deed.prepare(state, profile, parts)
    teaching.teach(found, state)
    ghost = others.Others(found, state, profile, [b"/"], most) if most else None
    search = searching.Search(found, state, tolerance, bound, ghost)
    is_found = search.run()
    if is_found:
        keep_order(found, [done for done in search.order if done[0].session < len(found)], tolerance)
    return is_found


def keep_order(sessions, order, tolerance):
    """Raises AssertionError unless what the search found keeps to the sessions and to the clock."""
    spans = [[checking.Span(deed.asked, None if deed.reply is None else deed.answered, len(deed.acts))
              for deed in session] for session in sessions]
    places = [checking.Place(deed.session, part) for deed, part in order]
    why = checking.first_fault(spans, places, tolerance)
    assert why is None, why


def compare(seed):
    """The verdicts on one set, of the search and of brute force; None if that is too much."""
    sessions = Maker(seed).make()
    has_listing, is_divided, tolerance = seed % 3 == 1, seed % 3 > 0, 40 * (seed % 5 == 0)
    by_search = searched(sessions, ["listing"] if has_listing else [], deeds.Parts(is_divided, is_divided), tolerance)
    for one in (it for session in sessions for it in session):
        one.divide(is_divided, is_divided)
    try:
        tree = reference.model_tree(start_tree())
        return by_search, reference.has_order(copy.deepcopy(sessions), tree, tolerance, has_listing)
    except reference.TooMany:
        return None


def changes_told(sessions):
    """The changes of others of which the replies of a set tell, each as requests."""
    found = []
    for session in sessions:
        opened = {}
        for one in session:
            name, fields, reply = one.request.name, one.request.fields, one.reply
            if reply is None:
                continue
            if name in ("OPEN", "OPENDIR") and reply.name == "HANDLE":
                opened[reply.fields[0]] = fields[0]
            path = opened.get(fields[0]) if name in THROUGH_HANDLES else None
            places = {"RENAME": fields, "POSIX-RENAME": fields, "HARDLINK": fields, "SYMLINK": fields[1:]}
            for it in [] if name in THROUGH_HANDLES else places.get(name, fields[:1]):
                found += at_place(it)
                found += shown_at(it, reply)
            if path is not None:
                found += shown_at(path, reply) + shown_through(path, name, fields, reply)
            if name == "READLINK" and reply.name == "NAME":
                found.append([("SYMLINK", [reply.fields[0][0][0], fields[0]])])
    return [it for at, it in enumerate(found) if it not in found[:at]]


THROUGH_HANDLES = ("CLOSE", "READ", "WRITE", "FSTAT", "FSETSTAT", "READDIR", "FSYNC")


def at_place(path):
    made = [("OPEN", [path, WRITE | CREAT | EXCL, {}]), ("CLOSE", [None])]
    return [[("REMOVE", [path])], [("RMDIR", [path])], [("MKDIR", [path, {}])], made]


def shown_at(path, reply):
    """A SETSTAT of the attributes that a reply shows, and one of the size of a file."""
    return set_to(path, reply.fields[0]) if reply.name == "ATTRS" else []


def set_to(path, told):
    found = [[("SETSTAT", [path, {"permissions": told["permissions"] & 0o7777, "owner": told["owner"]}])]]
    return found + ([[("SETSTAT", [path, {"size": told["size"]}])]] if told["permissions"] >> 12 == 8 else [])


def shown_through(path, name, fields, reply):
    """What a READ or a READDIR tells."""
    found = []
    if name == "READ" and reply.name == "DATA":
        data = reply.fields[0]
        found.append([("OPEN", [path, WRITE, {}]), ("WRITE", [None, fields[1], data]), ("CLOSE", [None])])
        found.append([("SETSTAT", [path, {"size": fields[1] + len(data)}])])
    elif name == "READ" and reply.fields[0] == 1:
        found.append([("SETSTAT", [path, {"size": fields[1]}])])
    elif name == "READDIR" and reply.name == "NAME":
        for entry, _, told in reply.fields[0]:
            found += at_place(path + b"/" + entry) + set_to(path + b"/" + entry, told)
    return found


def compare_with_others(seed):
    """The verdicts on one set, of every second one without its last session, if others may change one or two things;
    and that of brute force if they may not. None if that is too much."""
    maker = Maker(seed)
    maker.most = 6
    sessions = maker.make()[:-1 if seed % 2 else None]
    most = 1 + (seed % 4 == 0)
    has_listing = seed % 3 == 1
    names = ["listing"] if has_listing else []
    by_search = searched(copy.deepcopy(sessions), names, deeds.Parts(False, False), 0, most)
    for one in (it for session in sessions for it in session):
        one.divide(False, False)
    try:
        tree = reference.model_tree(start_tree())
        without = reference.has_order(copy.deepcopy(sessions), tree, 0, has_listing, MOST_WITH_OTHERS)
        return by_search, reference.has_order(copy.deepcopy(sessions), tree, 0, has_listing, MOST_WITH_OTHERS,
                                              changes_told(sessions), most), without
    except reference.TooMany:
        return None


def small_sets_with_others(steps, _):
    found = {seed: compare_with_others(seed) for seed in range(SETS)}
    judged = {seed: it for seed, it in found.items() if it is not None}
    wrong = [seed for seed, (by_search, by_force, _) in judged.items() if by_search != by_force]
    helped = sum(by_force and not without for _, by_force, without in judged.values())
    never = sum(not by_force for _, by_force, _ in judged.values())
    told = f"{len(judged)} sets, {helped} with an order only so, {never} without, {len(found) - len(judged)} too large"
    steps.check(f"so it does where others may change things: {told}", not wrong and helped and never, wrong)


def small_sets(steps, _):
    start, wrong, with_order, without, left = time.monotonic(), [], 0, 0, 0
    for seed in range(SETS):
        found = compare(seed)
        if found is None:
            left += 1
            continue
        with_order += found[1]
        without += not found[1]
        if found[0] != found[1]:
            wrong.append(seed)
    told = f"{with_order} sets with an order, {without} without, {left} too large"
    steps.check(f"the search says what brute force says: {told}, in {time.monotonic() - start:.0f} s",
                not wrong and with_order and without, wrong)


def in_turn(steps, _):
    """What is done again keeps the clock: nothing comes before a request that was answered before it was asked."""
    done = Packet(1, "STATUS", [0, b"", b""])
    one, other = (reference.One(session, 200 * session, 200 * session + 100, Request(1, "MKDIR", [path, {}]), done)
                  for session, path in enumerate((b"x", b"y")))
    found = deeds_of([[one], [other]])
    state = states.State(start_tree(), 2)
    for deed in (deed for it in found for deed in it):
        deed.prepare(state, profiles.Profile(frozenset()), deeds.Parts(False, False))
    search = searching.Search(found, state, 0, 100)
    is_found, choices = search.run(), list(search.choices)
    search.back_to(0)
    steps.check("what is done again comes in its turn", is_found and len(choices) == 2 and not search.redo(choices[1])
                and search.redo(choices[0]) and search.redo(choices[1]))


TRIALS = (in_turn, small_sets, small_sets_with_others)
