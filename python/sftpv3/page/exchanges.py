"""Which reply is to which request, what was in flight meanwhile, and what overtook what, in a transcript, whose faults
it names; and which records of a long session are shown: those round the difference, and those that it hangs on."""
import heapq
import itertools
import os
import stat
from collections import Counter
from dataclasses import dataclass
from typing import Dict, Optional

from sftpv3 import codec
from sftpv3.codec import kinds, wording
from sftpv3.codec.packets import KINDS_OF

# Lanes beside each other. Further requests in flight share the last.
LANES = 32


@dataclass(eq=False)
class Exchange:
    """A request and its reply, by their places in the session. Its lane is free from its reply on."""

    request: int
    reply: Optional[int]
    lane: int


@dataclass
class Handle:
    """A handle: the places of the request that asked for it and of the reply that gave it, and the path."""

    request: int
    reply: int
    path: bytes


class Session:
    """The records of a session, its exchanges in the order asked, and the exchange of each record."""

    def __init__(self, records, times=None):
        self.records, self.times = records, times
        self.exchanges, self.by_place = [], {}
        # how many requests are in flight behind each record
        self.in_flight = []
        # for each place of a request through a handle: the handle
        self.through = {}
        self.waiting, self.handles = {}, {}
        # lanes that were used and are free, and how many there are
        self.free, self.lanes, self.open = [], 0, 0
        for place, (side, data) in enumerate(records):
            if place >= 2 or (side, data[4:5]) not in ((b"C", b"\x01"), (b"S", b"\x02")):
                self.take(place, side, data)
            self.in_flight.append(self.open)

    def take(self, place, side, data):
        if len(data) < 9:
            return
        if side == b"C":
            self.ask(place, data)
        elif self.waiting.get(data[5:9]):
            self.answer(place, data)

    def ask(self, place, data):
        if self.free:
            lane = heapq.heappop(self.free)
        else:
            lane, self.lanes = self.lanes, self.lanes + 1
        self.open += 1
        exchange = Exchange(place, None, lane)
        self.exchanges.append(exchange)
        self.by_place[place] = exchange
        self.waiting.setdefault(data[5:9], []).append(exchange)
        handle = handle_of(data)
        if handle in self.handles:
            self.through[place] = self.handles[handle]

    def answer(self, place, data):
        exchange = self.waiting[data[5:9]].pop(0)
        if not self.waiting[data[5:9]]:
            del self.waiting[data[5:9]]
        self.open -= 1
        exchange.reply = place
        self.by_place[place] = exchange
        heapq.heappush(self.free, exchange.lane)
        if data[4] == codec.HANDLE:
            self.keep_handle(exchange, place, data)

    def keep_handle(self, exchange, place, data):
        try:
            asked = codec.decode(self.records[exchange.request][1])
            if asked.name in ("OPEN", "OPENDIR"):
                self.handles[codec.Reply(data).handle] = Handle(exchange.request, place, asked.fields[0])
        except codec.Malformed:
            pass

    def overtaking(self, exchange):
        """How many later requests had their replies before this one has its own, or would have."""
        end = len(self.records) if exchange.reply is None else exchange.reply
        later = (self.by_place.get(place) for place in range(exchange.request + 1, end)
                 if self.records[place][0] == b"S")
        return sum(one is not None and one.request > exchange.request for one in later)


def handle_of(data):
    """The handle of a request, or None, without reading all of it."""
    if len(data) < 13 or data[4] not in WITH_HANDLE:
        return None
    return data[13:13 + int.from_bytes(data[9:13], "big")]


WITH_HANDLE = {kind for kind, fields in codec.REQUESTS.values() if fields.startswith("handle") and kind != 200}


# What is no file, and would be waited for, or read for ever.
KINDS = ((stat.S_ISFIFO, "a FIFO"), (stat.S_ISDIR, "a folder"), (stat.S_ISSOCK, "a socket"), (stat.S_ISCHR, "a device"),
         (stat.S_ISBLK, "a device"))


# What the folder of a difference has that is read by its name.
KEPT = ("session.transcript", "start.tree")


class Bad(Exception):
    """The file is no transcript. `name` is that of another file, if it is that which is wrong."""

    def __init__(self, why, name=None):
        super().__init__(why)
        self.name = name


def check(name):
    """Refuses what is no regular file. Returns how many bytes it has."""
    found = os.stat(name)
    for is_kind, kind in KINDS:
        if is_kind(found.st_mode):
            kept = [it for it in KEPT if os.path.isfile(os.path.join(name, it))]
            raise Bad(f"it is {kind}, and no regular file" + f", and has {' and '.join(kept)}" * bool(kept), name)
    return found.st_size


class TooLarge(Exception):
    """The file has more bytes than it may."""


def contents(name, most):
    """The bytes of a file, if they are at most so many. No FIFO that comes in its place meanwhile is waited for."""
    size = check(name)
    if size > most:
        raise TooLarge()
    with open(name, "rb", opener=lambda path, flags: os.open(path, flags | os.O_NONBLOCK)) as file:
        # as much memory as is read is taken before
        return file.read(size)


def read(name, most):
    """The records of a transcript of at most so many bytes, up to the first that is none, and what is wrong with that;
    None if all are right."""
    data = contents(name, most)
    if not data.startswith(codec.OPENING):
        raise Bad(kinds.named(data, kinds.TRANSCRIPT) or
                  f"it is no transcript: it does not begin with {codec.OPENING.decode()}")
    records = list(itertools.takewhile(lambda record: record[0] in SIDES, codec.records(data)))
    if [(side, packet[4:5]) for side, packet in records[:2]] != [(b"C", b"\x01"), (b"S", b"\x02")]:
        raise Bad("it does not begin with an INIT and a VERSION")
    return records, fault(data, records)


SIDES = (b"C", b"S")


def fault(data, records):
    """What is wrong behind these records, which come first, or None."""
    place = len(codec.OPENING) + sum(1 + len(packet) for _, packet in records)
    left = len(data) - place
    if left == 0:
        return None
    if data[place:place + 1] not in SIDES:
        return (f"record {len(records) + 1} is of no side: it begins with 0x{data[place]:02x}, which is neither C nor "
                "S")
    count = codec.length(data[place + 1:place + 5])
    has = "no whole length" if count is None else f"{left - 1:,} of its {count:,} bytes"
    return f"record {len(records) + 1} is cut: the file ends after {has}"


# A session of so many records is shown whole. Of a longer one, so many before and behind what differs.
WHOLE, AROUND = 400, 60

# How many changes of the same file or directory are shown besides, the last ones before the difference.
RELATED = 12


@dataclass
class Fold:
    """Records that are left out: the places of the first and of the last, and how many there are of each name."""

    first: int
    last: int
    requests: Dict[str, int]
    replies: int


def parts(session, marked, whole=WHOLE, around=AROUND):
    """What is shown of a session: places of records, and folds. `marked` has the places of what differs."""
    count = len(session.records)
    if count <= whole:
        return list(range(count))
    shown = {0, 1}
    for place in marked or [0, count - 1]:
        shown.update(range(max(0, place - around), min(count, place + around + 1)))
    for place in marked:
        shown.update(related(session, place))
    return with_folds(session, sorted(shown))


def with_folds(session, shown):
    found, after = [], 0
    for place in [*shown, len(session.records)]:
        if place == after + 1:
            found.append(after)
        elif place > after:
            found.append(fold(session, after, place - 1))
        if place < len(session.records):
            found.append(place)
        after = place + 1
    return found


def fold(session, first, last):
    names, replies = Counter(), 0
    for side, data in session.records[first:last + 1]:
        if side == b"C":
            names[wording.kind_of(side, data)] += 1
        else:
            replies += 1
    return Fold(first, last, dict(names.most_common()), replies)


def related(session, place):
    """The exchanges before the one of this place that have to do with it: what opened its handle, and the last
    changes of the same path."""
    exchange = session.by_place.get(place)
    if exchange is None:
        return set()
    paths, found = paths_of(session, exchange.request), set()
    for other in reversed(session.exchanges):
        if len(found) >= RELATED:
            break
        if other.request < exchange.request and changes(session, other) and paths & paths_of(session, other.request):
            found.add(other)
    handle = session.through.get(exchange.request)
    places = {handle.request, handle.reply} if handle else set()
    return places | {at for one in found for at in (one.request, one.reply) if at is not None}


def changes(session, exchange):
    """Whether a request may have changed something."""
    return wording.kind_of(*session.records[exchange.request]) not in codec.LOOKERS | {"READDIR", "CLOSE", "raw"}


def paths_of(session, place):
    """The paths that a request names, itself or by its handle."""
    handle = session.through.get(place)
    if handle:
        return {handle.path}
    try:
        request = codec.decode(session.records[place][1])
    except codec.Malformed:
        return set()
    kinds = KINDS_OF[request.name]
    return {value for kind, value in zip(kinds, request.fields) if kind == "string" and request.name != "WRITE"}
