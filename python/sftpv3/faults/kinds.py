"""What the faults of models.py are made of: a stand-in for the server that knows what was asked and what is open, and
changes one thing in what passes.

A fault is a sentence that says what goes wrong, and a function in the place of a method of a class below: `fault` in
between.py says how to write one, and the makers at the end name the methods. One that overrides more is a class.

A fault of the server that no reply shows by itself, such as a lost WRITE, is made by asking the sound server for
something else: an empty WRITE is answered with OK, and changes nothing.
"""
import posixpath
import queue

from sftpv3 import codec
from sftpv3.faults import between
from sftpv3.faults.between import fault

OK_STATUS, END, ABSENT, FAILED = (code.to_bytes(4, "big") for code in (
    codec.OK, codec.EOF, codec.NO_SUCH_FILE, codec.FAILURE))

# Requests that give something another path, that look at a path, and that set attributes.
MOVES, LOOKS, SETS = ("RENAME", "POSIX-RENAME"), ("STAT", "LSTAT"), ("SETSTAT", "FSETSTAT")

# The kinds of things, and where permissions have them.
LINK, FILE, DIRECTORY, KIND = 0o120000, 0o100000, 0o040000, 0o170000

# A path at which nothing is.
NOWHERE = b"/absent/absent"

# Where the ids of requests begin that a fault makes itself, whose replies the client does not see. No plan has these.
OWN_IDS = 0xF0000000


class Fault(between.Bug, asked=dict, opened=dict, lengths=dict, counts=dict, unseen=set):
    """A server with one fault. A fault overrides `alter`, `ask` or `answer`, or what a class below leaves to it.

    It keeps requests by their ids, and those that opened what is open, by its handle; how far a path's file was
    written; how many requests through what one of them opened are counted; and the ids of its own requests.
    """

    # The options that `serve`, the sound server behind it, needs to show it; the departures of a profile that hide it.
    OPTIONS: tuple = ()
    HIDDEN_BY: tuple = ()
    own = OWN_IDS

    def alter(self, asked):
        """Changes a request, or notes something of it, before the server gets it."""

    def ask(self, asked):
        """The requests that the server gets in place of this one, or nothing, which leaves it as it is."""

    def answer(self, asked, reply):
        """The replies that the client gets in place of this one, or nothing, which leaves it as it is."""

    def requests(self, packets):
        return [codec.encode(asked) for packet in packets for asked in self.one(packet)]

    def one(self, packet):
        """What the server gets in place of this packet."""
        asked = codec.decode(packet)
        self.asked[asked.number] = asked
        if asked.name == "CLOSE":
            asked.opened = self.opened.pop(asked.handle(), None)
        own = codec.Request(asked.number, asked.name, list(asked.fields))
        self.alter(own)
        found = self.ask(own) or [own]
        if asked.name == "WRITE" and asked.handle() in self.opened:
            path, end = self.path(asked), asked.fields[1] + len(asked.fields[2])
            self.lengths[path] = max(self.lengths.get(path, 0), end)
        return found

    def replies(self, packets):
        return [sent for packet in packets for sent in self.of_reply(packet)]

    def of_reply(self, packet):
        """What the client gets in place of this packet."""
        if packet[4] == codec.VERSION:
            return [self.opening(packet)]
        reply = codec.Reply(packet)
        if reply.number in self.unseen:
            return []
        asked = self.asked[reply.number]
        found = self.answer(asked, packet) or [packet]
        if reply.handle is not None:
            self.opened[reply.handle] = asked
        return found

    def another(self, name, *fields):
        """A request of the fault's own."""
        self.own += 1
        self.unseen.add(self.own)
        return codec.Request(self.own, name, list(fields))

    def closed(self, asked):
        """The request that gave the handle of a CLOSE, or None."""
        return getattr(self.asked[asked.number], "opened", None)

    def opener(self, asked):
        """The request that opened the handle of a request, or None."""
        return self.opened.get(asked.handle())

    def opener_number(self, asked):
        """The number of the request that opened the handle of a request, or None."""
        opener = self.opener(asked)
        return opener and opener.number

    def count_through(self, asked):
        """Counts a request among those through one opening of a file. Returns how many these are."""
        number = self.opener_number(asked)
        self.counts[number] = self.counts.get(number, 0) + 1
        return self.counts[number]

    def path(self, asked):
        """The path that the handle of a request was opened by."""
        opener = self.opener(asked)
        return opener and opener.fields[0]

    def about(self, asked):
        """The path of a request, or that by which its handle was opened, with one spelling; or None."""
        path = asked.fields[0] if asked.handle() is None else self.path(asked)
        return None if path is None else clean(path)

    def length(self, asked):
        """How far the file of a request's handle was written."""
        return self.lengths.get(self.path(asked), 0)

    def flags(self, asked):
        """The flags of the OPEN that gave the handle of a request."""
        opener = self.opener(asked)
        return opener.fields[1] if opener and opener.name == "OPEN" else 0

    def openers(self, name="OPEN"):
        return [opener for opener in list(self.opened.values()) if opener.name == name]

    def openers_at(self, path, name="OPEN"):
        """The requests that opened what is open by a path."""
        return [opener for opener in self.openers(name) if clean(opener.fields[0]) == clean(path)]

    def numbers_at(self, path, name="OPEN"):
        """The numbers of these requests."""
        return {opener.number for opener in self.openers_at(path, name)}


class Asks(Fault, waits=dict):
    """Asks what it needs to know itself, at once, and waits for the reply."""

    # For how many seconds.
    PATIENCE = 60

    def requests(self, packets):
        # one after the other, so that those before have gone when a request of its own goes
        for packet in packets:
            for asked in self.one(packet):
                yield codec.encode(asked)

    def of_reply(self, packet):
        wait = self.waits.pop(int.from_bytes(packet[5:9], "big"), None) if packet[4] != codec.VERSION else None
        if wait:
            wait.put(packet)
        return super().of_reply(packet)

    def now(self, name, *fields):
        """The reply to a request of its own."""
        asked = self.another(name, *fields)
        wait = self.waits[asked.number] = queue.SimpleQueue()
        between.write(self.pipe, codec.encode(asked))
        return wait.get(timeout=self.PATIENCE)

    def attributes_now(self, name, path_or_handle):
        """The attributes of something, or None."""
        return attributes_of(self.now(name, path_or_handle))

    def kind_now(self, path, name="LSTAT"):
        """The kind of what is at a path, as permissions have it, or None if nothing is."""
        given = self.attributes_now(name, path)
        return given["permissions"] & KIND if given else None

    def dangles(self, path):
        """Whether a link is at a path that leads to nothing."""
        return self.kind_now(path) == LINK and self.kind_now(path, "STAT") is None

    def target_now(self, path):
        """The target of the link at a path, or None."""
        reply = self.now("READLINK", path)
        return codec.names_in(reply)[0][0] if reply[4] == codec.NAME else None

    def aim(self, path):
        """Where a link leads by its own target, as a path, or None if no link is there."""
        target = self.target_now(path)
        return None if target is None else posixpath.join(posixpath.dirname(b"/" + path.lstrip(b"/")), target)

    def names_now(self, path):
        """The names in a directory, without dots, or None."""
        handle = codec.Reply(self.now("OPENDIR", path)).handle
        if handle is None:
            return None
        found, reply = [], self.now("READDIR", handle)
        while reply[4] == codec.NAME:
            found += [name for name, _, _ in codec.names_in(reply)]
            reply = self.now("READDIR", handle)
        self.now("CLOSE", handle)
        return found

    def bytes_now(self, path):
        """The bytes of the file at a path, or None."""
        handle = codec.Reply(self.now("OPEN", path, codec.READ, {})).handle
        if handle is None:
            return None
        found, reply = b"", self.now("READ", handle, 0, BLOCK)
        while reply[4] == codec.DATA:
            found += data_of(reply)
            reply = self.now("READ", handle, len(found), BLOCK)
        self.now("CLOSE", handle)
        return found

    def copy_now(self, path):
        """Puts a copy of the file at a path in its place, which has no other name."""
        found, given = self.bytes_now(path), self.attributes_now("LSTAT", path)
        if found is None or not given:
            return
        self.now("REMOVE", path)
        handle = codec.Reply(self.now("OPEN", path, codec.WRITE | codec.CREAT | codec.EXCL, {})).handle
        for offset in range(0, len(found), BLOCK):
            self.now("WRITE", handle, offset, found[offset:offset + BLOCK])
        self.now("CLOSE", handle)
        self.now("SETSTAT", path, {"permissions": given["permissions"], "owner": given["owner"]})


class After(Asks):
    """Does more after a request, once the server has it."""

    def requests(self, packets):
        for packet in packets:
            yield from super().requests([packet])
            self.after(self.asked[int.from_bytes(packet[5:9], "big")])

    def after(self, asked):
        """What it does after this request."""


def status(packet, code):
    """A STATUS with this code, in place of a reply."""
    return codec.packet(codec.STATUS, packet[5:9] + code + bytes(8))


# The bytes of a READ or a WRITE of a fault's own.
BLOCK = 32768

# Sizes that no fault looks at: those that no file can have.
FAR = 2 ** 31


def clean(path):
    """A path with one spelling."""
    return posixpath.normpath(b"/" + path.lstrip(b"/"))


def top_of(path):
    """The directory that a path is in, with one spelling."""
    return posixpath.dirname(clean(path))


def is_below(path, top):
    """Whether a path leads below another, both with one spelling."""
    return path.startswith(top + b"/")


def paths_of(asked):
    """The paths of a request, each with one spelling."""
    if asked.handle() is not None or asked.name == "EXTENDED":
        return []
    return [clean(value) for value in asked.fields[:2] if isinstance(value, bytes)]


def aim_of(asked):
    """Where the link that a SYMLINK makes leads, with one spelling."""
    target, link = asked.fields
    return clean(posixpath.join(top_of(link), target))


def is_path(asked, place):
    """Whether a field of a request is a path, or the target of a link."""
    return isinstance(asked.fields[place], bytes) and asked.name not in ("WRITE", "EXTENDED") and asked.handle() is None


def refused(asked):
    """A request in place of this one that fails, and does nothing."""
    return [codec.Request(asked.number, "MKDIR", [b"/", {}])]


def told_done(asked):
    """A SETSTAT in place of a request with a path that changes nothing, and fails if nothing is there."""
    return [codec.Request(asked.number, "SETSTAT", [asked.fields[0], {}])]


def opens(asked, flags):
    """Whether a request is an OPEN with one of these flags."""
    return asked.name == "OPEN" and bool(asked.fields[1] & flags)


def sets(asked, what, names=SETS):
    """Whether a request sets this attribute."""
    return asked.name in names and what in asked.fields[1]


def without(given, what):
    """Attributes without this one."""
    return {name: value for name, value in given.items() if name != what}


def sets_size(asked):
    return asked.name in SETS and asked.fields[1].get("size", FAR) < FAR


def code_of(reply):
    """The code of a STATUS, or None."""
    return codec.Reply(reply).code


def data_of(packet):
    return packet[13:]


def with_data(packet, data):
    """DATA in place of a reply."""
    return codec.packet(codec.DATA, packet[5:9] + codec.string(data))


def attributes_of(packet):
    """The attributes in a reply, or None."""
    return codec.attributes_in(packet) if packet[4] == codec.ATTRS else None


def with_attributes(packet, given):
    """ATTRS with these attributes in place of a reply."""
    return codec.packet(codec.ATTRS, packet[5:9] + codec.attributes(given))


def with_names(packet, items):
    """NAME with these items in place of a reply; without any it is the end of the listing."""
    return codec.packet(codec.NAME, packet[5:9] + codec.names(items)) if items else status(packet, END)


def with_other(data, place, bits=1):
    """Bytes, with some bits of the one at this place changed, if that is there."""
    return data[:place] + bytes([data[place] ^ bits]) + data[place + 1:] if 0 <= place < len(data) else data


class Flags(Fault):
    """Takes OPEN for one with other flags."""

    def alter(self, asked):
        if asked.name == "OPEN":
            asked.fields[1] = self.flagged(asked, asked.fields[1])

    def flagged(self, _asked, flags):
        return flags


class Settings(Fault):
    """Takes what sets attributes for what sets others."""

    # the requests that are meant, and the attribute that they have to set
    NAMES, WHAT = SETS, ""

    def alter(self, asked):
        if asked.name in self.NAMES and (not self.WHAT or self.WHAT in asked.fields[1]):
            asked.fields[1] = self.set_to(asked, asked.fields[1])

    def set_to(self, _asked, given):
        """The attributes that are set in place of these."""
        return without(given, self.WHAT)


class Writes(Fault):
    """Does other WRITEs than those that are asked for."""

    def ask(self, asked):
        return self.written(asked, *asked.fields) if asked.name == "WRITE" else None

    def written(self, asked, handle, offset, data):
        """The requests in place of a WRITE, or nothing, which leaves it as it is."""
        if self.loses(asked, offset, data):
            return [codec.Request(asked.number, "WRITE", [handle, 0, b""])]
        fields = [handle, self.written_at(offset), self.written_data(offset, data)]
        return [codec.Request(asked.number, "WRITE", fields)]

    def loses(self, _asked, _offset, _data):
        return False

    def written_at(self, offset):
        """The offset in place of this one."""
        return offset

    def written_data(self, _offset, data):
        """The bytes in place of these."""
        return data


class Reads(Fault):
    """Gives other DATA, or none."""

    def answer(self, asked, reply):
        if asked.name != "READ":
            return None
        if reply[4] != codec.DATA:
            return [self.at_end(asked, reply)] if code_of(reply) == codec.EOF else None
        data = self.shown(asked, asked.fields[1], data_of(reply))
        return [status(reply, END) if data is None else with_data(reply, data)]

    def at_end(self, _asked, reply):
        return reply

    def shown(self, _asked, _offset, data):
        """The bytes in place of those at this offset, or None for the end of the file."""
        return data


class Makes(Fault, made=set):
    """Knows the paths that the session made by one request."""

    # the request, and the place of the path among its fields
    MAKER, PLACE = "MKDIR", 0

    def alter(self, asked):
        if asked.name == self.MAKER:
            self.made.add(clean(asked.fields[self.PLACE]))


class Moved(Fault, moved=set):
    """Knows what was renamed while it was open, by the numbers of the requests that opened it."""

    # which path of a RENAME is meant
    WHICH = 0

    def alter(self, asked):
        if asked.name in MOVES:
            self.moved |= {opener.number for opener in list(self.opened.values())
                           if self.is_meant(opener.fields[0], asked.fields[self.WHICH])}

    def is_meant(self, path, renamed):
        """Whether what was opened by a path is renamed with another."""
        return path == renamed


class Listings(Fault, given=dict):
    """Gives other names in listings. By handle, it knows how many names a listing has given."""

    def answer(self, asked, reply):
        if reply[4] == codec.HANDLE:
            self.given[codec.Reply(reply).handle] = 0
        if asked.name != "READDIR" or reply[4] != codec.NAME:
            return None
        items, before = codec.names_in(reply), self.given.get(asked.handle(), 0)
        self.given[asked.handle()] = before + len(items)
        return [with_names(reply, self.listed(asked, before, items))]

    def listed(self, asked, _before, items):
        """The items in place of these, before which the listing has given so many."""
        changed = [(self.listed_name(name), text, self.listed_given(given)) for name, text, given in items]
        return [item for item in changed if item[0] is not None]

    def listed_name(self, name):
        """The name in place of this one, or None, which leaves it out."""
        return name

    def listed_given(self, given):
        """The attributes in place of these."""
        return given


class Attributes(Fault):
    """Shows other attributes in the replies to STAT, LSTAT and FSTAT."""

    def answer(self, asked, reply):
        given = attributes_of(reply)
        return [reply if given is None else with_attributes(reply, self.seen(asked, given))]

    def seen(self, _asked, given):
        return given


class Targets(Fault):
    """Gives other targets in the replies to READLINK."""

    def answer(self, asked, reply):
        if asked.name != "READLINK" or reply[4] != codec.NAME:
            return None
        target = self.target(asked, codec.names_in(reply)[0][0])
        return [with_names(reply, [(target, target, {})])]

    def target(self, _asked, target):
        return target


class Meets(Fault, calls=dict):
    """Asks what it needs to know itself, and keeps what is to be done with the replies, by their ids."""

    def of_reply(self, packet):
        call = self.calls.pop(int.from_bytes(packet[5:9], "big"), None) if packet[4] != codec.VERSION else None
        if call:
            call(packet)
        return super().of_reply(packet)

    def question(self, call, name, *fields):
        """A request of its own; `call` gets the reply."""
        asked = self.another(name, *fields)
        self.calls[asked.number] = call
        return asked

    def look(self, call, name, path):
        """A request of its own that looks at a path; `call` gets the attributes, or None."""
        return self.question(lambda packet: call(attributes_of(packet)), name, path)


class Refuses(Fault):
    """Refuses some requests, and does nothing then."""

    def ask(self, asked):
        return refused(asked) if self.refuses(asked) else None

    def refuses(self, _asked):
        return False


class Statuses(Fault):
    """Answers with other codes."""

    def answer(self, asked, reply):
        if reply[4] != codec.STATUS:
            return None
        code = self.code(asked, code_of(reply))
        return [reply[:9] + code.to_bytes(4, "big") + reply[13:]]

    def code(self, _asked, code):
        return code


class InFlight(Fault):
    """Knows how many requests are unanswered."""

    asked_so_far = answered = 0

    def requests(self, packets):
        self.asked_so_far += len(packets)
        return super().requests(packets)

    def answer(self, asked, reply):
        self.answered += 1
        return self.in_flight(asked, reply, self.asked_so_far - self.answered + 1)

    def in_flight(self, asked, reply, count):
        """What `answer` gives, with so many requests unanswered."""


class Overtaking(Fault):
    """Does a request before the one that came just before it."""

    def requests(self, packets):
        packets, place = list(packets), 1
        while place < len(packets):
            if self.overtakes(*map(codec.decode, packets[place - 1:place + 1])):
                packets[place - 1], packets[place] = packets[place], packets[place - 1]
                place += 1
            place += 1
        return super().requests(packets)

    def overtakes(self, _first, _second):
        return False


class Paths(Fault):
    """Takes the paths in requests for others."""

    def alter(self, asked):
        for place in range(len(asked.fields)):
            if is_path(asked, place):
                asked.fields[place] = self.leads_to(asked, place, asked.fields[place])

    def leads_to(self, _asked, _place, path):
        """The path in place of this one, or in place of the target of a link."""
        return path


class Spelled(Paths):
    """Takes the names in paths for others, but not those in targets."""

    def leads_to(self, asked, place, path):
        if asked.name == "SYMLINK" and place == 0:
            return path
        return b"/".join(it if it in (b"", b".", b"..") else self.spelled(it) for it in path.split(b"/"))

    def spelled(self, name):
        return name


# What makes faults: each maker is named like the method that its faults override.
alter = fault("alter", Fault)
ask = fault("ask", Fault)
answer = fault("answer", Fault)
flagged = fault("flagged", Flags)
set_to = fault("set_to", Settings)
loses = fault("loses", Writes)
written = fault("written", Writes)
written_at = fault("written_at", Writes)
written_data = fault("written_data", Writes)
shown = fault("shown", Reads)
at_end = fault("at_end", Reads)
listed = fault("listed", Listings)
listed_name = fault("listed_name", Listings)
listed_given = fault("listed_given", Listings)
seen = fault("seen", Attributes)
target = fault("target", Targets)
refuses = fault("refuses", Refuses)
code = fault("code", Statuses)
in_flight = fault("in_flight", InFlight)
overtakes = fault("overtakes", Overtaking)
leads_to = fault("leads_to", Paths)
spelled = fault("spelled", Spelled)

# Those of faults that look at what is there before a request is done, or do more once it is.
alter_now = fault("alter", Asks)
ask_now = fault("ask", Asks)
refuses_now = fault("refuses", Refuses, Asks)
after = fault("after", After)
