"""A set of sessions that overlapped: its requests by the time at which they were asked, which of them were in flight
together, the place of each in an order, and which are shown."""
from __future__ import annotations

import bisect
import heapq
import os
from collections import Counter
from collections.abc import Iterable, Iterator
from dataclasses import dataclass, field

from sftpv3.codec import fields, packets
from sftpv3.page import exchanges
from sftpv3.together import checking, merging, orders, sets
from sftpv3.together.deeds import NEVER, Deed

# A set of so many requests is shown whole. Of a larger one, so many before and behind each that is marked; and so many
# earlier changes of the same paths.
WHOLE, AROUND, RELATED = 400, 60, 12

# The most sessions that have lanes.
SESSIONS = 24


@dataclass(eq=False)
class Row:
    """A request of a set. `last` is the place, by the time asked, of the last request that was asked before this one
    had its reply; `lane` is one of its session's. `order` has its places in an order, from 1 on: one, or one for each
    of its parts."""

    deed: Deed
    number: int
    last: int
    lane: int
    order: list[int] = field(default_factory=list)
    is_left_out: bool = False

    @property
    def took(self) -> float | None:
        """Seconds from the request to its reply, or None without one."""
        deed = self.deed
        return None if deed.answered == NEVER else (deed.answered - deed.asked) / 1e9

    def record(self) -> int:
        """The record by which a verdict names it."""
        return self.deed.answered_in or self.deed.asked_in


def is_set(folder: str) -> bool:
    """Whether a folder has files of times, without which it is no set."""
    return os.path.isdir(folder) and any(name.endswith(sets.TIMES) for name in os.listdir(folder))


def check(folder: str) -> int:
    """Refuses what is no regular file among those that are read. Returns how many bytes they have."""
    return sum(exchanges.check(os.path.join(folder, name)) for name in os.listdir(folder)
               if name.endswith((sets.TRANSCRIPT, sets.TIMES)))


class Set:
    """A set. `rows` are by the time asked, `by_record` has them by session and record."""

    def __init__(self, folder: str):
        found, self.is_of_boot = sets.read_set(folder)
        self.names = [session.name for session in found]
        self.deeds = [session.deeds for session in found]
        self.rows = rows_of([deed for deeds in self.deeds for deed in deeds])
        self.by_record = {(row.deed.session, at): row for row in self.rows
                          for at in (row.deed.asked_in, row.deed.answered_in) if at}
        self.begin = min((row.deed.asked for row in self.rows), default=0)
        self.through = {row: path for deeds in self.deeds for row, path in self.handles(deeds)}
        self.asked = [[deed.asked for deed in deeds] for deeds in self.deeds]

    def handles(self, deeds: list[Deed]) -> Iterator[tuple[Row, bytes]]:
        """The requests of a session through a handle, with the path that it was opened by."""
        known: dict[bytes, bytes] = {}
        opened = sorted((deed.answered_in, deed) for deed in deeds
                        if deed.request.name in ("OPEN", "OPENDIR") and deed.reply and deed.reply.name == "HANDLE")
        at = 0
        for deed in deeds:
            while at < len(opened) and opened[at][0] < deed.asked_in:
                giver = opened[at][1]
                known[giver.reply.fields[0]] = giver.request.fields[0]
                at += 1
            if packets.REQUESTS[deed.request.name][1].startswith("handle") and deed.request.fields[0] in known:
                yield self.by_record[deed.session, deed.asked_in], known[deed.request.fields[0]]

    def row_of(self, transcript: str, record: int) -> Row | None:
        """The row that a verdict names."""
        name = transcript.removesuffix(sets.TRANSCRIPT)
        return self.by_record.get((self.names.index(name), record)) if name in self.names else None

    def file(self, row: Row) -> str:
        return self.names[row.deed.session] + sets.TRANSCRIPT

    def paths(self, row: Row) -> set[bytes]:
        """The paths that a request names, itself or by its handle."""
        if row in self.through:
            return {self.through[row]}
        layout = packets.REQUESTS[row.deed.request.name][1].split()
        return {value for kind, value in zip(layout, row.deed.request.fields)
                if kind in ("path", "new_path", "target", "link")}

    def put_order(self, order: orders.Order) -> str | None:
        """Notes the places of an order, up to the first that is none. Says why that is none, or gives None."""
        if order.names != self.names:
            return "it is of other sessions"
        nexts, had = [0] * len(self.names), [0] * len(self.names)
        number = 0
        for place, (session, part) in enumerate(order.places, 1):
            if session >= len(self.names) or nexts[session] >= len(self.deeds[session]):
                return f"place {place}: no request is due there"
            deed = self.deeds[session][nexts[session]]
            row = self.by_record[session, deed.asked_in]
            number += part != checking.LEFT_OUT
            if part == checking.LEFT_OUT:
                row.is_left_out = True
            else:
                row.order.append(number)
            had[session] += 1
            is_whole = part in (checking.WHOLE, checking.LEFT_OUT)
            if is_whole or had[session] >= merging.part_count(deed, order.piece):
                nexts[session], had[session] = nexts[session] + 1, 0
        return None

    def meanwhile(self, row: Row) -> int:
        """How many requests other sessions asked before it had its reply."""
        own = bisect.bisect_right(self.asked[row.deed.session], row.deed.answered) - row.deed.index - 1
        return row.last - row.number - own

    def most_in_flight(self) -> int:
        """How many requests of all sessions waited for their replies at one time."""
        waiting: list[int] = []
        most = 0
        for row in self.rows:
            while waiting and waiting[0] < row.deed.asked:
                heapq.heappop(waiting)
            heapq.heappush(waiting, row.deed.answered)
            most = max(most, len(waiting))
        return most


def rows_of(deeds: list[Deed]) -> list[Row]:
    deeds = sorted(deeds, key=lambda deed: (deed.asked, deed.session, deed.index))
    asked = [deed.asked for deed in deeds]
    lanes: dict[int, Lanes] = {}
    return [Row(deed, number, bisect.bisect_right(asked, deed.answered) - 1,
                lanes.setdefault(deed.session, Lanes()).take(deed)) for number, deed in enumerate(deeds)]


class Lanes:
    """The lanes of a session: a request has one until its reply."""

    def __init__(self) -> None:
        self.taken: list[tuple[int, int]] = []
        self.free: list[int] = []
        self.count = 0

    def take(self, deed: Deed) -> int:
        while self.taken and self.taken[0][0] < deed.asked:
            heapq.heappush(self.free, heapq.heappop(self.taken)[1])
        if not self.free:
            self.free, self.count = [self.count], self.count + 1
        lane = heapq.heappop(self.free)
        heapq.heappush(self.taken, (deed.answered, lane))
        return lane


@dataclass
class Fold:
    """Requests that are left out: the first and the last, and how many there are of each name."""

    first: Row
    last: Row
    names: dict[str, int]


@dataclass
class View:
    """What is shown of a set: the numbers of sessions, and rows and folds. There are `others` sessions besides, with
    `elsewhere` requests."""

    sessions: list[int]
    parts: list[Row | Fold]
    others: int
    elsewhere: int

    def folded(self) -> int:
        """How many requests are in folds."""
        return sum(sum(part.names.values()) for part in self.parts if isinstance(part, Fold))


def view(found: Set, marked: list[Row], around: int = AROUND, whole: int = WHOLE) -> View:
    """What is shown: all of a small set; of a large one what stands round the marked requests, or at both ends."""
    sessions = chosen(found, marked)
    rows = [row for row in found.rows if row.deed.session in sessions]
    others = len(found.names) - len(sessions), len(found.rows) - len(rows)
    if len(rows) <= whole:
        return View(sorted(sessions), list(rows), *others)
    place = {row: at for at, row in enumerate(rows)}
    shown: set[int] = set()
    for at in [place[row] for row in marked] or [0, len(rows) - 1]:
        shown.update(range(max(0, at - around), min(len(rows), at + around + 1)))
    for row in marked:
        shown.update(place[other] for other in related(found, rows[:place[row]], row))
    return View(sorted(sessions), with_folds(rows, shown), *others)


def chosen(found: Set, marked: list[Row]) -> set[int]:
    """The sessions that have lanes: those of what is marked, and those with the most requests."""
    sessions = {row.deed.session for row in marked}
    for number in sorted(range(len(found.names)), key=lambda it: -len(found.deeds[it])):
        if len(sessions) < SESSIONS:
            sessions.add(number)
    return sessions


def related(found: Set, before: list[Row], row: Row) -> list[Row]:
    """The last changes of the paths of a request that were asked before it."""
    paths, kept = found.paths(row), []
    for other in reversed(before):
        if len(kept) == RELATED:
            break
        if changes(other.deed) and paths & found.paths(other):
            kept.append(other)
    return kept


UNCHANGING = packets.LOOKERS | {"OPENDIR", "READDIR", "CLOSE"}


def changes(deed: Deed) -> bool:
    """Whether a request may have changed something."""
    if deed.request.name in UNCHANGING or deed.is_refused():
        return False
    return deed.request.name != "OPEN" or bool(deed.request.fields[1] & (packets.CREAT | packets.TRUNC))


def with_folds(rows: list[Row], shown: Iterable[int]) -> list[Row | Fold]:
    parts: list[Row | Fold] = []
    after = 0
    for at in [*sorted(shown), len(rows)]:
        if at == after + 1:
            parts.append(rows[after])
        elif at > after:
            names = Counter(row.deed.request.name for row in rows[after:at])
            parts.append(Fold(rows[after], rows[at - 1], dict(names.most_common())))
        if at < len(rows):
            parts.append(rows[at])
        after = at + 1
    return parts


def read_order(name: str) -> orders.Order:
    """The order of a file. Raises Bad."""
    exchanges.check(name)
    with open(name, "rb") as file:
        data = file.read()
    try:
        return orders.get(data)
    except fields.Malformed as error:
        raise exchanges.Bad(str(error), name) from None
