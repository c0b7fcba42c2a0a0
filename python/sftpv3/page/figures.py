"""The figures of sessions: requests by their kinds with bytes, how long they waited for their replies, how many were in
flight, and the slowest; and the HTML of that."""
from __future__ import annotations

import heapq
import itertools
from collections.abc import Callable, Iterable, Iterator
from dataclasses import dataclass, field
from typing import Any

from sftpv3 import codec
from sftpv3.codec import wording
from sftpv3.page.picture import counted, safe

# How many of the slowest requests are listed.
SLOWEST = 10

# The row of a table that has all kinds.
ALL, TOTAL = "all", ' class="total"'


@dataclass
class Measured:
    """A request: its kind, the bytes of its packet and of that of its reply, and how many seconds it waited, or None
    if there are no times or no reply came. `subject` is the request itself."""

    kind: str
    to_server: int
    to_client: int
    seconds: float | None
    subject: Any


@dataclass
class Kind:
    """The figures of all requests of a kind. `waited` are their seconds, least first."""

    name: str
    count: int = 0
    to_server: int = 0
    to_client: int = 0
    waited: list[float] = field(default_factory=list)

    def add(self, one: Measured) -> None:
        self.count += 1
        self.to_server += one.to_server
        self.to_client += one.to_client
        if one.seconds is not None:
            self.waited.append(one.seconds)

    def rank(self, percent: int) -> float:
        """The least of the seconds that at least so many percent of them do not exceed."""
        return self.waited[-(-len(self.waited) * percent // 100) - 1]


@dataclass
class Figures:
    """The kinds, those with the most requests first; all of them together; the slowest requests; and how many were in
    flight, and how many handles were open, at most."""

    kinds: list[Kind]
    every: Kind
    slowest: list[Measured]
    in_flight: int
    handles: int


def change_of(asked: str, answered: str, code: int | None) -> int:
    """By how many the handles that are open change with a reply: by their names, and the code of a STATUS."""
    if answered == "HANDLE":
        return 1
    return -1 if (asked, code) == ("CLOSE", codec.OK) else 0


def figures(requests: Iterable[Measured], in_flight: int, changes: Iterable[int]) -> Figures:
    """`changes` are those of the open handles, in the order of the replies."""
    kinds: dict[str, Kind] = {}
    every, timed = Kind(ALL), []
    for one in requests:
        kinds.setdefault(one.kind, Kind(one.kind)).add(one)
        every.add(one)
        if one.seconds is not None:
            timed.append(one)
    for kind in (every, *kinds.values()):
        kind.waited.sort()
    ordered = sorted(kinds.values(), key=lambda kind: (-kind.count, kind.name))
    slow = heapq.nlargest(SLOWEST, timed, key=lambda one: one.seconds)
    return Figures(ordered, every, slow, in_flight, max(itertools.accumulate(changes), default=0))


def of_session(session) -> Figures:
    """The figures of a session of `exchanges`, all of it; their subjects are its exchanges."""
    records, times = session.records, session.times

    def measured(one) -> Measured:
        side, data = records[one.request]
        if one.reply is None:
            return Measured(wording.kind_of(side, data), len(data), 0, None, one)
        seconds = times[one.reply] - times[one.request] if times else None
        return Measured(wording.kind_of(side, data), len(data), len(records[one.reply][1]), seconds, one)

    def changes() -> Iterator[int]:
        answered = (one for one in session.exchanges if one.reply is not None)
        for one in sorted(answered, key=lambda one: one.reply):
            (_, asked), (_, reply) = records[one.request], records[one.reply]
            code = int.from_bytes(reply[9:13], "big") if reply[4:5] == bytes([codec.STATUS]) else None
            yield change_of(wording.kind_of(b"C", asked), wording.kind_of(b"S", reply), code)
    return figures(map(measured, session.exchanges), max(session.in_flight, default=0), changes())


def exact(seconds: float) -> str:
    """Milliseconds with three places behind the point."""
    return f"{seconds * 1000:,.3f}"


def html(found: Figures, told: Callable[[Any], str]) -> str:
    """The figures, behind a line that a reader opens. `told` gives the HTML that names a request."""
    every = found.every
    summary = (f"Figures: {counted(every.count, 'request')} of {counted(len(found.kinds), 'kind')}, "
               f"{found.in_flight:,} in flight and {counted(found.handles, 'handle')} open at most")
    if every.waited:
        summary += f", half of them answered within {exact(every.rank(50))} ms"
    body = [table("Requests by kind, and the bytes of their packets and of their replies",
                  ("kind", "requests", "to the server", "to the client"),
                  [(it.name, f"{it.count:,}", f"{it.to_server:,}", f"{it.to_client:,}")
                   for it in (*found.kinds, every)])]
    if every.waited:
        body.append(table("Milliseconds from a request to its reply",
                          ("kind", "median", "99 percent", "greatest"),
                          [(it.name, exact(it.rank(50)), exact(it.rank(99)), exact(it.rank(100)))
                           for it in (*found.kinds, every) if it.waited]))
        body.append(slowest(found.slowest, told))
    return f'<details class="key figures"><summary>{safe(summary)}</summary>' + "".join(body) + "</details>"


def table(title: str, heads: tuple[str, ...], rows: list[tuple[str, ...]]) -> str:
    head = "".join(f'<th scope="col">{safe(name)}</th>' for name in heads)
    body = "".join(f'<tr{TOTAL * (name == ALL)}><th scope="row">{safe(name)}</th>' +
                   "".join(f"<td>{safe(value)}</td>" for value in values) + "</tr>" for name, *values in rows)
    return f"<table><caption>{safe(title)}</caption><thead><tr>{head}</tr></thead><tbody>{body}</tbody></table>"


def slowest(requests: list[Measured], told: Callable[[Any], str]) -> str:
    title = "The slowest request" if len(requests) == 1 else f"The {len(requests)} slowest requests"
    rows = "".join(f"<li>{exact(one.seconds or 0)} ms: {told(one.subject)}</li>" for one in requests)
    return f'<h3>{title}</h3><ol class="slowest">{rows}</ol>'
