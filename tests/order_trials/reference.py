"""Whether some order explains a few sessions, by brute force over all orders, with the plain model of models/. Nothing
of the search is used.

A request is done whole, or in units: each field of a SETSTAT in the order of OpenSSH's server, and each name of a
READDIR, in any order. With `listing` names may come and go while a directory is read, as docs/PROFILES.md says.
"""
import copy
import itertools

from model import replies as model
from model.trees import tree_of
from sftpv3.codec import Packet, Request, trees

FIELDS = ("size", "permissions", "times", "owner")
MAKERS = {"MKDIR": 0, "SYMLINK": 1, "OPEN": 0, "HARDLINK": 1, "RENAME": 1, "POSIX-RENAME": 1}


class Folder:
    """A directory that is read: which of its names have to be given, and which were there anew and not given since."""

    def __init__(self, place, names):
        self.place, self.must, self.fresh = place, set(names), set()


class Joint(model.Session):
    """The state of all sessions: a handle has the session's number in front."""

    def __init__(self, tree, has_listing):
        super().__init__(tree)
        self.has_listing, self.folders = has_listing, {}

    def takes(self, session, request, reply):
        """Whether a reply is right here, and then does the request."""
        request, reply = joint(session, request), joint(session, reply)
        before = dict(self.tree.nodes)
        place = self.place_of(request)
        if not self.accept(request, reply) and not (self.has_listing and self.gives(request, reply)):
            return False
        if reply.name != "STATUS" or reply.fields[0] == 0:
            self.note(request, reply, before, place)
        return True

    def place_of(self, request):
        if request.name != "OPENDIR":
            return None
        return self.tree.walk(request.fields[0], True)[0]

    def gives(self, request, reply):
        """Whether a READDIR gives a name that is there now, or ends."""
        folder = self.folders.get(request.fields[0]) if request.name == "READDIR" else None
        if folder is None:
            return False
        if reply.name == "STATUS":
            is_removed = self.tree.kind(folder.place) != "D"
            return reply.fields[0] == 1 and not folder.must or is_removed and reply.fields[0] in (2, 4)
        left = self.open[request.fields[0]].left
        names = [name for name, _, _ in reply.fields[0]]
        if len(set(names)) != len(names) or not all(self.is_due(folder, left, *item) for item in reply.fields[0]):
            return False
        for name in names:
            left.pop(name, None)
        return True

    def is_due(self, folder, left, name, _, told):
        if name in left and model.is_shown(told, left[name]):
            return True
        place = (*folder.place, name)
        is_there = self.tree.kind(folder.place) == "D" and place in self.tree.nodes
        return is_there and (name in left or name in folder.fresh) and model.is_shown(told, self.tree.shown(place))

    def note(self, request, reply, before, place):
        """Keeps the directories that are read up to date."""
        if request.name == "OPENDIR":
            self.folders[reply.fields[0]] = Folder(place, self.open[reply.fields[0]].left)
        elif request.name == "CLOSE":
            self.folders.pop(request.fields[0], None)
        elif request.name == "READDIR" and reply.name == "NAME":
            for name, _, _ in reply.fields[0]:
                self.folders[request.fields[0]].must.discard(name)
                self.folders[request.fields[0]].fresh.discard(name)
        elif self.tree.nodes != before:
            self.shift(request, before)

    def shift(self, request, before):
        """What came and went."""
        new = None
        if request.name in MAKERS:
            new = self.walked(request.fields[MAKERS[request.name]], before,
                              request.name == "OPEN" and not request.fields[1] & 32)
        for folder in self.folders.values():
            there = {it[-1] for it in self.tree.nodes if it and it[:-1] == folder.place}
            was = {it[-1] for it in before if it and it[:-1] == folder.place}
            came = there - was | ({new[-1]} if new and new[:-1] == folder.place else set())
            folder.must -= (was - there) | came
            folder.fresh -= was - there
            folder.fresh |= came

    def walked(self, path, before, follow):
        now, self.tree.nodes = self.tree.nodes, before
        place = self.tree.walk(path, follow)[0]
        self.tree.nodes = now
        return place


def model_tree(tree):
    return tree_of(trees.put(tree))


def joint(session, packet):
    """A packet with the session's number in front of its handle."""
    is_handle = packet.name in ("CLOSE", "READ", "WRITE", "FSTAT", "FSETSTAT", "READDIR", "FSYNC", "HANDLE")
    fields = [b"%d:" % session + packet.fields[0], *packet.fields[1:]] if is_handle else packet.fields
    return Packet(packet.number, packet.name, fields)


class One:
    """A request: its session, its times, itself, its reply or None, and, once it is divided, its units as pairs."""

    def __init__(self, session, asked, answered, request, reply):
        self.session, self.asked, self.answered, self.request, self.reply = session, asked, answered, request, reply
        self.units, self.is_ordered = [], True

    def divide(self, names, fields):
        request, reply = self.request, self.reply
        self.units = [(request, reply)]
        if names and request.name == "READDIR" and reply is not None and reply.name == "NAME":
            self.units = [(request, Packet(reply.number, "NAME", [[item]])) for item in reply.fields[0]]
            self.is_ordered = False
        if fields and request.name in ("SETSTAT", "FSETSTAT") and reply is not None and reply.fields[0] == 0:
            given = request.fields[1]
            self.units = [(Packet(request.number, request.name, [request.fields[0], {name: given[name]}]), reply)
                          for name in FIELDS if name in given] or self.units


class TooMany(Exception):
    """There are more states than are worth a look."""


class Brute:
    """All orders, state by state; with up to so many changes of others at any places."""

    def __init__(self, sessions, tolerance, most, changes):
        self.sessions, self.tolerance, self.left, self.changes = sessions, tolerance, most, changes
        self.all = list(itertools.chain(*sessions))

    def has_order(self, state, heads, done, others=0):
        """Whether what is left has an order from here. `done` has, for each session, the units of its next request, and
        `others` says how many changes of others may still come."""
        self.left -= 1
        if self.left < 0:
            raise TooMany
        rest = [one for one in self.all if self.is_left(one, heads)]
        if all(one.reply is None for one in rest):
            return True
        if any(self.goes_on(state, heads, done, session, others) for session in range(len(heads))
               if heads[session] < len(self.sessions[session])
               and self.may_be_next(self.sessions[session][heads[session]], rest)):
            return True
        return others > 0 and any(self.has_order(now, heads, done, others - 1)
                                  for now in filter(None, (changed_by(state, change) for change in self.changes)))

    def is_left(self, one, heads):
        return self.sessions[one.session].index(one) >= heads[one.session]

    def may_be_next(self, one, rest):
        return all(other.answered is None or other.answered + self.tolerance >= one.asked for other in rest)

    def goes_on(self, state, heads, done, session, others):
        one = self.sessions[session][heads[session]]
        units = [at for at in range(len(one.units)) if at not in done[session]]
        for at in units[:1] if one.is_ordered else units:
            now = copy.deepcopy(state)
            had = done[session] | {at}
            is_whole = len(had) == len(one.units)
            if self.does(now, one, at) and self.has_order(now, stepped(heads, session, is_whole), changed(
                    done, session, frozenset() if is_whole else had), others):
                return True
        return one.reply is None and self.has_order(state, stepped(heads, session, True), done, others)

    def does(self, state, one, at):
        request, reply = one.units[at]
        if reply is None:
            state.answer(joint(one.session, request))
            return True
        return state.takes(one.session, request, reply)


def changed_by(state, change):
    """The state after the requests of a change of others, or None if one of them is refused. A handle is None in them:
    it is that which the first one gets."""
    now, handle = copy.deepcopy(state), None
    for name, fields in change:
        before = dict(now.tree.nodes)
        request = Request(1, name, [handle if field is None else field for field in fields])
        reply = now.answer(request)
        if reply.name == "STATUS" and reply.fields[0]:
            return None
        handle = reply.fields[0] if reply.name == "HANDLE" else handle
        if now.tree.nodes != before:
            now.shift(request, before)
    return now


def stepped(heads, session, is_whole):
    return tuple(head + (is_whole and at == session) for at, head in enumerate(heads))


def changed(done, session, had):
    return tuple(had if at == session else it for at, it in enumerate(done))


def has_order(sessions, tree, tolerance=0, has_listing=False, most=200_000, changes=(), others=0):
    """Whether an order explains sessions, lists of `One`, with so many of the changes of others at most."""
    brute = Brute(sessions, tolerance, most, changes)
    count = len(sessions)
    return brute.has_order(Joint(tree, has_listing), (0,) * count, (frozenset(),) * count, others)
