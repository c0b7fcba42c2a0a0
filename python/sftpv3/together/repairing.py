"""One request that goes before another one, where a reply is wrong: of two that were in flight together, which one the
server did first is not known, and the order of the replies was a guess.

What a request looks at and what it changes is noted while the last choices are done again. A choice matters if it
changed what the wrong reply looks at, or what a later one that matters looked at.
"""
from __future__ import annotations

from itertools import islice
from typing import Any, Optional

from sftpv3.together.deeds import Choice, Deed
from sftpv3.together.states import Trace

# How many choices back, for each session and in all; and how many repairs are tried at one reply.
BACK, LEAST_BACK, MOST_BACK, ATTEMPTS = 5, 16, 120, 400


class Repairs:
    """Repairs of a search. No pair is tried twice for one goal."""

    def __init__(self, search: Any):
        self.search = search
        self.tried: set[tuple[Deed, Deed, Deed]] = set()
        # what the last goal needs to be right: what it looks at, and what those look at that changed that
        self.needed: set[tuple] = set()

    def repair(self, goal: Deed) -> bool:
        """Finds one request that makes the goal right if it goes before another one. Then the goal is done, else the
        search stands where it stood."""
        most = min(MOST_BACK, max(LEAST_BACK, BACK * len(self.search.sessions)))
        return self.repair_within(goal, min(len(self.search.choices), most))

    def repair_near(self, goal: Deed) -> bool:
        """The same, among the last choices alone."""
        return self.repair_within(goal, min(len(self.search.choices), LEAST_BACK))

    def repair_within(self, goal: Deed, back: int) -> bool:
        """The same, among so many of the last choices."""
        search = self.search
        first = len(search.choices) - back
        choices = search.choices[first:]
        needs = self.trace_of(goal)
        traces = self.traces(first, choices)
        if traces is None:
            return False
        matters, self.needed = which_matter(traces, needs)
        pairs = ((at, session) for at in reversed(range(back)) if matters[at]
                 for session in self.rivals(first + at, traces[at], choices[at].session))
        for at, session in islice(pairs, ATTEMPTS):
            if self.put_before(goal, first + at, session, choices[at:]):
                return True
        search.back_to(first)
        search.follow(choices)
        return False

    def only_needed(self, candidates: list[tuple[int, bool]]) -> list[tuple[int, bool]]:
        """The first of these, and those that change what is needed."""
        return candidates[:1] + [it for it in candidates[1:] if not self.needed.isdisjoint(
            self.trace_next(self.search.head(it[0])).writes)]

    def trace_of(self, deed: Deed) -> Trace:
        """What a request looks at that is wrong here."""
        state = self.search.state
        trace = state.trace = Trace()
        log = len(state.log)
        for act in deed.acts:
            act.act(state)
            state.undo(log)
        state.trace = None
        return trace

    def traces(self, first: int, choices: list[Choice]) -> Optional[list[Trace]]:
        """Does the last choices again, and notes of each what it looks at and changes."""
        search, found = self.search, []
        search.back_to(first)
        for choice in choices:
            found.append(Trace() if choice.is_left_out else self.trace_next(choice.deed))
            if not search.redo(choice):
                return None
        return found

    def trace_next(self, deed: Deed) -> Trace:
        """What the next part of a request looks at and changes."""
        search, state = self.search, self.search.state
        trace = state.trace = Trace()
        log = len(state.log)
        deed.acts[search.next_part(deed.session, deed)].act(state)
        state.undo(log)
        state.trace = None
        return trace

    def rivals(self, count: int, trace: Trace, chosen: int) -> list[int]:
        """The sessions whose next request could have gone before the choice, and matters to it."""
        search = self.search
        search.back_to(count)
        return [session for session, is_left_out in search.candidates()
                if session != chosen and not is_left_out
                and self.trace_next(search.head(session)).clashes(trace)]

    def put_before(self, goal: Deed, count: int, session: int, choices: list[Choice]) -> bool:
        """Has the next request of a session go before these choices, and does the goal then, if it is right."""
        search = self.search
        search.back_to(count)
        moved, other = search.head(session), choices[0].deed
        if moved is None or (goal, moved, other) in self.tried or not search.choose(session):
            return False
        self.tried.add((goal, moved, other))
        search.follow([choice for choice in choices if choice.deed is not moved])
        if not search.gets_past(goal):
            return False
        if moved is not goal:
            search.waits.setdefault(other, set()).add(moved)
        return True


def which_matter(traces: list[Trace], needs: Trace) -> tuple[list[bool], set[tuple]]:
    """Of each choice whether it changed what is needed behind it; and all that is needed."""
    needed, found = set(needs.reads), []
    for trace in reversed(traces):
        matters = not trace.writes.isdisjoint(needed)
        if matters:
            needed |= trace.reads
        found.append(matters)
    return found[::-1], needed
