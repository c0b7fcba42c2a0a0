"""Whether an order keeps to the sessions and to the clock. It shares nothing with the search: it reads an order from
its front, once, and keeps a counter for each session and the latest time at which anything so far was asked."""
from __future__ import annotations

from collections.abc import Iterable
from typing import NamedTuple, Optional

WHOLE, LEFT_OUT = 0, 0xFFFF


class Span(NamedTuple):
    """When a request was asked, when it was answered, if it was, and into how many parts it may be divided."""

    asked: int
    answered: Optional[int]
    parts: int


class Place(NamedTuple):
    """A place of an order: the number of the session whose next request has it, and the number of the part."""

    session: int
    part: int


class Counter:
    """How far a session is: its next request, and which parts of that had a place."""

    def __init__(self, spans: list[Span]):
        self.spans, self.next = spans, 0
        self.had: set[int] = set()

    def fault(self, part: int) -> Optional[str]:
        """What is wrong with a place for this part of the next request, or None; then the part has had its place."""
        if self.next >= len(self.spans):
            return "the session has no further request"
        span = self.spans[self.next]
        if part == LEFT_OUT:
            if span.answered is not None or self.had:
                return "a request that was answered is left out"
        elif part == WHOLE:
            if self.had:
                return "a request that is divided comes whole"
        elif part > span.parts or part in self.had or span.parts < 2:
            return f"the request has no part {part} that is due"
        self.take(span, part)
        return None

    def take(self, span: Span, part: int) -> None:
        self.had.add(part)
        if part in (WHOLE, LEFT_OUT) or len(self.had) == span.parts:
            self.next += 1
            self.had = set()


def first_fault(sessions: list[list[Span]], order: Iterable[Place], tolerance: int) -> Optional[str]:
    """What is wrong with an order, at its first place that is wrong; None if each session's requests come in the order
    asked, all of them, and none comes behind one that was asked when it had been answered for longer than this."""
    counters = [Counter(spans) for spans in sessions]
    latest = 0
    for number, (session, part) in enumerate(order, 1):
        if session >= len(counters):
            return f"place {number}: there is no session {session}"
        counter = counters[session]
        span = counter.spans[counter.next] if counter.next < len(counter.spans) else None
        why = counter.fault(part)
        if why:
            return f"place {number}: {why}"
        if part == LEFT_OUT:
            continue
        if span.answered is not None and span.answered + tolerance < latest:
            return f"place {number}: it was answered before an earlier place was asked"
        latest = max(latest, span.asked)
    for session, counter in enumerate(counters):
        if counter.next < len(counter.spans):
            return f"a request of session {session} has no place"
    return None
