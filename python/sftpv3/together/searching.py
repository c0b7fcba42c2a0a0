"""The search for an order.

An order is built from its front. A request may be next if it is the next one of its session, and if no other one that
is left was answered before it was asked. What changes nothing is done as soon as it is right: nothing is lost by that,
since it only gives way to others. So only what changes something is a choice. By default requests are done in the order
of their replies. If that is wrong for some request (`goal`), then it is tried, one after another:

- which requests that are in flight make it right, if they come first (`look_ahead`);
- which one request has to go before another, of those that were done lately (`Repairs`);
- orders from some choices back on, in which only what seems to matter leaves its place (`explore_near`);
- all orders from some choices back on, from ever more (`explore`); from the beginning on, that is all there are.

Where nothing comes of a state, it is remembered by a hash of 64 bits, so each is left but once.
"""
from __future__ import annotations

from collections.abc import Callable, Iterator
from typing import TYPE_CHECKING, Optional

from sftpv3.together.deeds import LEFT_OUT, NEVER, WHOLE, Choice, Deed
from sftpv3.together.states import State

if TYPE_CHECKING:
    from sftpv3.together.others import Others
    from sftpv3.together.repairing import Repairs

# How many choices back the search goes at first, and by which factor it goes further.
NEAR, FURTHER = 12, 4

# How many choices back only what seems to matter is moved, and in how many steps.
NEARBY, NEARBY_STEPS = (8, 24, 72), 6000

# How many of the requests in flight are tried before another one, without a look at what is between.
DEPTH = 3

# How many changes of others are tried for one reply, one with another, and how many steps that may take.
DEPTH_OF_OTHERS, MOST_STEPS = 3, 3000

# A part of the order: the request, and the number of the part.
Done = tuple[Deed, int]

# A session whose next request may be next, and whether that is left out.
Candidate = tuple[int, bool]


class OutOfSteps(Exception):
    """The search came to its bound."""


class Search:
    """A search through sessions. `heads` has the next request of each, `parts` which parts of it were done, as bits,
    and `due` its deadline."""

    def __init__(self, sessions: list[list[Deed]], state: State, tolerance: int, bound: int,
                 others: Optional["Others"] = None):
        self.sessions, self.state, self.tolerance, self.bound = sessions, state, tolerance, bound
        self.others = others
        self.heads, self.parts = [0] * len(sessions), [0] * len(sessions)
        self.due = [self.deadline(session, 0) for session in range(len(sessions))]
        self.order: list[Done] = []
        self.choices: list[Choice] = []
        self.steps = self.version = 0
        self.failed = [-1] * len(sessions)
        self.dead: set[int] = set()
        # in an exploration, an OPENDIR may wait, too
        self.is_exploring = False
        # in an exploration, where requests stood in the order that is left: it is tried first
        self.usual: dict[Deed, int] = {}
        # requests that had better wait for these
        self.waits: dict[Deed, set[Deed]] = {}
        self.furthest: tuple[int, Optional[Deed], list[Done]] = (-1, None, [])
        self.placed = 0

    # where it stands

    def deadline(self, session: int, index: int) -> int:
        deeds = self.sessions[session]
        return deeds[index].deadline if index < len(deeds) else NEVER

    def head(self, session: int) -> Optional[Deed]:
        deeds, index = self.sessions[session], self.heads[session]
        return deeds[index] if index < len(deeds) else None

    def limit(self) -> int:
        """The latest time at which what is next may have been asked."""
        return min(self.due) + self.tolerance

    def is_done(self, deed: Deed) -> bool:
        return self.heads[deed.session] > deed.index

    def is_past(self, goal: Deed) -> bool:
        """Whether a request is done, and all that are due before it: only so the search gets on."""
        at = goal.deadline, goal.session
        return all(at < (due, session) for session, due in enumerate(self.due))

    def gets_past(self, goal: Deed) -> bool:
        """Does what is due up to a request, if that is right by a look ahead."""
        while not self.is_past(goal):
            due = self.goal()
            if due is None or not self.go_on(due) and not self.reach(due, 1):
                return False
        return True

    def goal(self) -> Optional[Deed]:
        """The request whose deadline is next; None if none is left that was answered."""
        least = min(self.due)
        return None if least >= NEVER else self.head(self.due.index(least))

    # what it does

    def advance(self, session: int, by: int = 1) -> None:
        """The next request of a session is done, or not any more."""
        self.heads[session] += by
        self.placed += by
        self.due[session] = self.deadline(session, self.heads[session])
        if by > 0:
            self.state.log.append((self.advance, session, -1))

    def set_parts(self, session: int, parts: int) -> None:
        self.parts[session] = parts

    def mark(self, session: int, deed: Deed, at: int) -> None:
        """A part of a request is done."""
        self.order.append((deed, deed.part(at)))
        if len(deed.acts) == 1:
            self.advance(session)
            return
        parts = self.parts[session] | 1 << at
        self.state.log.append((self.set_parts, session, self.parts[session]))
        if parts + 1 == 1 << len(deed.acts):
            self.parts[session] = 0
            self.advance(session)
        else:
            self.parts[session] = parts

    def count(self) -> None:
        self.steps += 1
        if self.steps > self.bound:
            raise OutOfSteps

    def absorb(self) -> None:
        """Does what changes nothing and is right now."""
        is_going = True
        while is_going:
            is_going = False
            limit = self.limit()
            for session in range(len(self.heads)):
                if self.failed[session] != self.version and self.absorb_session(session, limit):
                    is_going = True

    def absorb_session(self, session: int, limit: int) -> bool:
        """The same of one session. Whether anything was done."""
        before = self.heads[session]
        while True:
            deed = self.head(session)
            if deed is None or deed.asked > limit or not self.is_absorbed(deed):
                break
            if not self.look(session, deed):
                self.failed[session] = self.version
                break
        return self.heads[session] != before

    def is_absorbed(self, deed: Deed) -> bool:
        return not (deed.is_choice or deed.is_bound or deed.is_eager and self.is_exploring)

    def look(self, session: int, deed: Deed) -> bool:
        """Does a request that changes nothing, or some of its parts. Whether all is done now."""
        if deed.reply is None:
            self.order.append((deed, LEFT_OUT))
            self.advance(session)
            return True
        done = self.parts[session]
        for at, act in enumerate(deed.acts):
            if not done >> at & 1:
                self.count()
                if act.act(self.state):
                    self.mark(session, deed, at)
        return self.head(session) is not deed

    def choose(self, session: int, is_left_out: bool = False) -> bool:
        """Does the next part of a request that changes something, if that is right, and what is right then. A request
        that got no reply may be left out."""
        if session >= len(self.sessions):
            return self.invent(session - len(self.sessions))
        deed = self.head(session)
        state = self.state
        log, order = len(state.log), len(self.order)
        self.count()
        if is_left_out:
            self.order.append((deed, LEFT_OUT))
            self.advance(session)
        elif self.is_misplaced(deed):
            return False
        else:
            at = self.next_part(session, deed)
            state.log.append((setattr, state, "step", state.step))
            state.step += 1
            if not deed.acts[at].act(state):
                self.state.undo(log)
                return False
            self.mark(session, deed, at)
        self.choices.append(Choice(log, order, session, is_left_out, deed))
        self.version += 1
        self.absorb()
        return True

    def invent(self, number: int) -> bool:
        """Has somebody whom no session shows make the change with this number, if that is right."""
        state, others = self.state, self.others
        if others is None or others.is_full():
            return False
        log, order = len(state.log), len(self.order)
        self.count()
        deed = others.deed(number)
        state.log.append((setattr, state, "step", state.step))
        state.step += 1
        if not deed.acts[0].act(state):
            state.undo(log)
            return False
        state.log.append((others.set_count, others.count))
        others.set_count(others.count + 1)
        self.order.extend((step, WHOLE) for step in deed.steps)
        self.choices.append(Choice(log, order, len(self.sessions) + number, False, deed))
        self.version += 1
        self.absorb()
        return True

    def redo(self, choice: Choice) -> bool:
        """Does again what was chosen, if it may be next and is right."""
        if choice.session < len(self.sessions):
            if self.head(choice.session) is not choice.deed or choice.deed.asked > self.limit():
                return False
        return self.choose(choice.session, choice.is_left_out)

    def next_part(self, session: int, deed: Deed) -> int:
        return 0 if len(deed.acts) == 1 else self.parts[session].bit_length()

    def back_to(self, count: int) -> None:
        """Takes back all choices but so many."""
        if count < len(self.choices):
            choice = self.choices[count]
            self.state.undo(choice.log)
            del self.order[choice.order:]
            del self.choices[count:]
            self.version += 1

    # which requests may be next

    def candidates(self) -> list[Candidate]:
        """The sessions whose next request is a choice, the best ones first, and whether it is left out."""
        limit, found = self.limit(), []
        for session, due in enumerate(self.due):
            deed = self.head(session)
            if deed is not None and deed.asked <= limit and not self.is_absorbed(deed):
                usual = self.usual.get(deed, NEVER)
                found.append((not self.is_placed(deed), self.is_early(deed), usual, due, session, False))
                if deed.reply is None:
                    found.append((True, True, usual, due, session, True))
        found.sort()
        candidates = [(session, is_left_out) for *_, session, is_left_out in found]
        if self.others is not None and self.is_exploring and not self.others.is_full():
            candidates += [(len(self.sessions) + number, False) for number in self.others.everywhere]
        return candidates

    def is_early(self, deed: Deed) -> bool:
        """Whether a request had better wait for others."""
        return deed in self.waits and any(not self.is_done(other) for other in self.waits[deed])

    def is_misplaced(self, deed: Deed) -> bool:
        """Whether a READ says that the file was longer or shorter when a request appended to it. An exploration asks
        no READ."""
        return deed.rank is not None and not self.is_exploring and deed.rank != self.size_at(deed)

    def is_placed(self, deed: Deed) -> bool:
        """Whether a READ says that a request appended to the file just as it is."""
        return deed.rank is not None and deed.rank == self.size_at(deed)

    def size_at(self, deed: Deed) -> int:
        opened = self.state.opened(deed.session, deed.request.fields[0])
        return -1 if opened is None else len(opened.node.content or b"")

    # the search

    def run(self) -> bool:
        """Whether there is an order, which is `order` then. OutOfSteps if the search did not come to its end."""
        from sftpv3.together.repairing import Repairs
        repairs = Repairs(self)
        self.absorb()
        while True:
            goal = self.goal()
            if goal is None:
                self.leave_out_rest()
                return True
            if self.go_on(goal) or self.reach(goal, 1):
                continue
            self.note_failure(goal)
            if repairs.repair_near(goal) or self.look_ahead(goal) or repairs.repair(goal):
                continue
            if self.explore_near(goal, repairs):
                continue
            if goal.rank is not None:
                goal.rank = None
            elif not self.invent_for(goal) and not self.explore_ever_more(goal):
                return False

    def go_on(self, goal: Deed) -> bool:
        """Does the best of the requests that may be next, if the one with the next deadline is a choice."""
        if self.is_absorbed(goal):
            return False
        if goal not in self.waits and goal.rank is None and goal.reply is not None:
            return self.choose(goal.session)
        return any(self.choose(*candidate) for candidate in self.candidates())

    def leave_out_rest(self) -> None:
        """Leaves out the requests that got no reply and that nothing tells of."""
        for session, deeds in enumerate(self.sessions):
            for deed in deeds[self.heads[session]:]:
                self.order.append((deed, LEFT_OUT))

    def note_failure(self, goal: Deed) -> None:
        if self.placed > self.furthest[0]:
            self.furthest = (self.placed, goal, list(self.order))

    def look_ahead(self, goal: Deed) -> bool:
        """Does the fewest requests in flight by which the goal is done."""
        return any(self.reach(goal, depth) for depth in range(2, DEPTH + 1))

    def reach(self, goal: Deed, depth: int) -> bool:
        count = len(self.choices)
        for candidate in self.candidates():
            if self.choose(*candidate):
                if self.is_done(goal) or depth > 1 and self.reach(goal, depth - 1):
                    return True
                self.back_to(count)
        return False

    def explore_near(self, goal: Deed, repairs: "Repairs") -> bool:
        """Tries orders in which what is done first is as usual, or changes what the goal needs. What comes of nothing
        here may come of something else, so it is not remembered."""
        kept = self.dead, self.bound
        for back in NEARBY:
            count = max(0, len(self.choices) - back)
            before = self.choices[count:]
            self.back_to(count)
            self.dead, self.bound = set(), min(kept[1], self.steps + NEARBY_STEPS)
            self.usual = places_in(before)
            is_found = self.explores_within(goal, repairs)
            self.usual = {}
            self.dead, self.bound = kept
            if not is_found:
                self.back_to(count)
            self.follow(before)
            if is_found:
                return True
        return False

    def explores_within(self, goal: Deed, repairs: "Repairs") -> bool:
        """Whether a part of the exploration does the goal within the bound."""
        try:
            return self.explore(goal, repairs.only_needed)
        except OutOfSteps:
            return False

    def explore_ever_more(self, goal: Deed) -> bool:
        """Tries all orders from a choice on, further and further back, until the goal is done."""
        back = NEAR
        self.is_exploring = True
        while True:
            count = max(0, len(self.choices) - back)
            before = self.choices[count:]
            self.back_to(count)
            if count == 0:
                self.begin_anew()
            self.usual = places_in(before)
            is_found = self.explore(goal)
            self.usual = {}
            if is_found:
                self.is_exploring = False
                self.follow(before)
                return True
            if count == 0:
                return False
            self.follow(before)
            back *= FURTHER

    def begin_anew(self) -> None:
        """Goes back to where nothing was done."""
        self.state.undo(0)
        self.order.clear()
        self.version += 1
        self.absorb()

    def follow(self, choices: list[Choice]) -> None:
        """Does these again, as far as they are right."""
        for choice in choices:
            self.redo(choice)

    def invent_for(self, goal: Deed) -> bool:
        """Has somebody make the fewest changes by which the goal is done, of those of which its reply tells."""
        if self.others is None:
            return False
        bound, self.bound = self.bound, min(self.bound, self.steps + MOST_STEPS)
        count = len(self.choices)
        try:
            if any(self.invent_within(goal, depth) for depth in range(1, DEPTH_OF_OTHERS + 1)):
                return True
        except OutOfSteps:
            self.back_to(count)
        finally:
            self.bound = bound
        return False

    def invent_within(self, goal: Deed, depth: int) -> bool:
        count = len(self.choices)
        for number in self.others.told_by(goal, self.parts[goal.session]):
            if self.invent(number):
                if self.is_done(goal) or self.go_on(goal) and self.is_done(goal):
                    return True
                if depth > 1 and self.invent_within(goal, depth - 1):
                    return True
                self.back_to(count)
        return False

    def explore(self, goal: Deed, chosen: Callable[[list[Candidate]], list[Candidate]] = list) -> bool:
        """Whether some order from here does the goal, of the candidates that are chosen at each step. It is done
        then."""
        floor = len(self.choices)
        waiting: list[Iterator[Candidate]] = [iter(chosen(self.candidates()))]
        while waiting:
            candidate = next(waiting[-1], None)
            if candidate is None:
                self.dead.add(self.key())
                waiting.pop()
                self.back_to(max(floor, len(self.choices) - 1))
            elif self.choose(*candidate):
                if self.is_past(goal):
                    return True
                if self.key() in self.dead:
                    self.back_to(len(self.choices) - 1)
                else:
                    waiting.append(iter(chosen(self.candidates())))
        return False

    def key(self) -> int:
        """A hash of where the search stands."""
        invented = 0 if self.others is None else self.others.count
        return hash((tuple(self.heads), tuple(self.parts), invented, self.state.digest()))


def places_in(choices: list[Choice]) -> dict[Deed, int]:
    """Where each request first stands."""
    return {choice.deed: at for at, choice in reversed(list(enumerate(choices)))}
