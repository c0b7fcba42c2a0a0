"""The command: it reads the set, finds or reads an order, checks it, and has it judged."""
from __future__ import annotations

import argparse
import gc
import json
import os
from typing import Any, Optional

from sftpv3.together import (certifying, checking, exactness, explaining, inventing, judging, merging, orders, others,
                             profiles, searching, teaching)
from sftpv3.together.checking import Place
from sftpv3.together.deeds import Deed
from sftpv3.together.options import (ACCEPTED, FAILED, REFUSED, STEPS, STEPS_EACH, TOLERANCE_OF_DATES, UNDECIDED,
                                     USAGE, options, tell)
from sftpv3.together.outside import Malformed, NotBuilt, kinds, place_of, put, trees
from sftpv3.together.sets import TIMES, TRANSCRIPT, Unfit, read_set
from sftpv3.together.states import State

# The nanoseconds of a microsecond.
MICROSECOND = 1_000

STATUS = {"accepted": ACCEPTED, "refused": REFUSED, "undecided": UNDECIDED}


class Verdict:
    """What is printed: the verdict in a word, a sentence, and the same for programs."""

    def __init__(self, word: str, text: str, **told: Any):
        self.word, self.text, self.told = word, text, {"verdict": word, "text": text, **told}

    def show(self, as_json: bool) -> int:
        put(lambda: print(json.dumps(self.told) if as_json else self.text, flush=True))
        return STATUS[self.word]


def refuse(status: int, why: object) -> int:
    tell(why)
    return status


class Command:
    """A set that is judged."""

    def __init__(self, given: argparse.Namespace):
        self.given = given
        given.tree = place_of(given.tree)
        given.order = given.order and place_of(given.order)
        self.tree = read_tree(given.tree)
        self.sessions, is_of_boot = read_set(given.folder)
        self.deeds = [session.deeds for session in self.sessions]
        self.count = sum(map(len, self.deeds))
        self.unknown = exactness.left_out(self.tree, self.deeds, given)
        self.changes: list[inventing.Invented] = []
        if given.write_others and os.path.basename(given.write_others) in (it.name for it in self.sessions):
            raise Unfit(f"{given.write_others}: a session of the set has this name")
        usual = 0 if is_of_boot else TOLERANCE_OF_DATES
        self.tolerance = MICROSECOND * (usual if given.tolerance is None else given.tolerance)

    def state(self) -> State:
        return State(self.tree, len(self.sessions) + 1)

    def others(self, state: State) -> Optional[others.Others]:
        """The changes that others may have made, if the options let there be some."""
        if not self.given.others:
            return None
        self.unknown = self.unknown or "all changes that others may have made"
        return others.Others(self.deeds, state, self.given.by, self.given.others, self.given.most_others)

    def add_others(self, search: searching.Search) -> None:
        """Puts the changes that were found to the set, as the last one of its sessions."""
        if search.others is not None and search.others.count:
            name = os.path.basename(self.given.write_others or inventing.free_name(self.sessions))
            found = inventing.session_of(search.order, self.sessions, name, self.state)
            search.order, self.changes = found.order, found.changes
            if found.changes:
                self.sessions.append(found.session)
                self.deeds.append(found.session.deeds)

    def run(self) -> Verdict:
        if self.given.order:
            return self.judge(self.read_order())
        state = self.state()
        for deed in (deed for deeds in self.deeds for deed in deeds):
            deed.prepare(state, self.given.by, self.given.parts)
        teaching.teach(self.deeds, state)
        bound = STEPS + STEPS_EACH * self.count if self.given.steps is None else self.given.steps
        search = searching.Search(self.deeds, state, self.tolerance, bound, self.others(state))
        try:
            found = search.run()
        except searching.OutOfSteps:
            return self.undecided(search)
        if not found:
            self.unknown = self.unknown or exactness.met(search, self.given)
            return self.refused(search) if self.unknown is None else self.unsure(search)
        self.add_others(search)
        return self.judge([Place(deed.session, part) for deed, part in whole_where_together(search.order)])

    # orders

    def read_order(self) -> list[Place]:
        with open(self.given.order, "rb") as file:
            order = orders.get(file.read())
        if order.names != [session.name for session in self.sessions]:
            raise Unfit(f"{self.given.order}: it is of other sessions")
        self.given.parts.piece = order.piece
        return order.places

    def judge(self, places: list[Place]) -> Verdict:
        """Has an order judged by `sftpv3 audit --together`, after a look at its parts and at its length."""
        piece = self.given.parts.piece
        spans = [[merging.span_of(deed, piece) for deed in deeds] for deeds in self.deeds]
        why = checking.first_fault(spans, places, self.tolerance)
        if why:
            return Verdict("undecided", f"undecided: the order is none: {why}", why=why)
        if self.given.write_transcript:
            judging.write(self.given.write_transcript, merging.merged(self.deeds, places, piece))
        certificate = certifying.Certificate(self.sessions, places, piece)
        found = judging.audit(self.given.tree, self.given.folder, certificate, self.tolerance // MICROSECOND,
                              profiles.words_of(self.given))
        return self.accepted(places) if found.status == judging.ACCEPTED else self.not_accepted(found.told)

    def not_accepted(self, told: dict[str, Any]) -> Verdict:
        """The program refuses the order."""
        session = self.sessions[certifying.number_of(told["transcript"])]
        where = session.file() + (f" record {told['record']}" if "record" in told else "")
        at = f" at place {told['place']}" if "place" in told else ""
        why = f"{where}: {told['kind']}{at}: {told['text']}"
        return Verdict("undecided", f"undecided: sftpv3 audit does not accept the order: {why}", why=why)

    def accepted(self, places: list[Place]) -> Verdict:
        self.write(places)
        divided = len({(place.session, number) for place, number in numbered(places) if number is not None})
        left_out = sum(place.part == checking.LEFT_OUT for place in places)
        recorded = len(self.sessions) - bool(self.changes)
        text = f"accepted {self.count} requests in {recorded} sessions"
        text += f", {divided} of them in parts" if divided else ""
        text += f", {left_out} without a reply left out" if left_out else ""
        told: dict[str, Any] = {"requests": self.count, "sessions": recorded, "in_parts": divided, "left_out": left_out}
        if self.changes:
            text += f", with {len(self.changes)} unknown change{'s' * (len(self.changes) > 1)}"
            text += "".join(f"\n  {self.where(it)}: {it.text}" for it in self.changes)
            told["unknown_changes"] = [{"change": it.text, **(self.named(it.before) if it.before else {})}
                                       for it in self.changes]
        return Verdict("accepted", text, **told)

    def where(self, change: inventing.Invented) -> str:
        return f"before {self.place(change.before)}" if change.before else "at the end"

    def write(self, places: list[Place]) -> None:
        """Writes the order, and the session of others, as the options say."""
        if self.given.write_order:
            names = [session.name for session in self.sessions]
            judging.write(self.given.write_order, [orders.put(orders.by_names(names, self.given.parts.piece, places))])
        if self.given.write_others and self.changes:
            others_session = self.sessions[-1]
            name = self.given.write_others
            judging.write(name + TRANSCRIPT, [inventing.transcript(others_session.deeds)])
            judging.write(name + TIMES, [inventing.times(others_session.deeds, self.given.folder, self.sessions[:-1])])

    # what is told where there is no order

    def named(self, deed: Deed) -> dict:
        return {"transcript": self.sessions[deed.session].file(), "record": deed.answered_in or deed.asked_in}

    def place(self, deed: Deed) -> str:
        return f"{self.sessions[deed.session].file()} record {deed.answered_in or deed.asked_in}"

    def refused(self, search: searching.Search) -> Verdict:
        _, deed, order = search.furthest
        found = explaining.why(self.state(), order, deed)
        text, told = f"refused: {self.place(deed)}: {explaining.told(deed)}", self.named(deed)
        if found.other is None:
            text += " is right in no order of the requests that may come before it"
            return Verdict("refused", text, **told, contradicts=None, steps=search.steps)
        other = found.other
        text += (f" is right before {self.place(other)} ({explaining.asked(other.request)}, "
                 f"{explaining.answered(other)}), {explaining.before(deed, other)}")
        return Verdict("refused", text, **told, contradicts=self.named(other), steps=search.steps)

    def unsure(self, search: searching.Search) -> Verdict:
        """No order was found by a model that lacks something that the set has."""
        _, deed, _ = search.furthest
        return Verdict("undecided", f"undecided: no order was found, but the search does not know {self.unknown}; the "
                       f"furthest was {self.place(deed)}", **self.named(deed), unknown=self.unknown, steps=search.steps)

    def undecided(self, search: searching.Search) -> Verdict:
        count, deed, _ = search.furthest
        text = f"undecided: no order found in {search.bound} steps"
        if deed is None:
            return Verdict("undecided", text, steps=search.bound)
        text += f"; the furthest was {self.place(deed)} (of {self.count} requests, {count} are placed)"
        return Verdict("undecided", text, **self.named(deed), placed=count, steps=search.bound)


def whole_where_together(order: list[searching.Done]) -> list[searching.Done]:
    """The order, in which a request is whole whose parts stand one behind the other as they are numbered."""
    found: list[searching.Done] = []
    for deed, part in order:
        found.append((deed, part))
        count = len(deed.acts)
        if part == count > 1 and found[-count:] == [(deed, at) for at in range(1, count + 1)]:
            found[-count:] = [(deed, checking.WHOLE)]
    return found


def numbered(places: list[Place]) -> list[tuple[Place, Optional[int]]]:
    """The places, with a number for the request of each that is a part."""
    found: list[tuple[Place, Optional[int]]] = []
    wholes: dict[int, int] = {}
    seen: dict[int, set[int]] = {}
    for place in places:
        parts = seen.setdefault(place.session, set())
        if place.part in (checking.WHOLE, checking.LEFT_OUT) or place.part in parts:
            wholes[place.session] = wholes.get(place.session, 0) + 1
            parts.clear()
        is_part = place.part not in (checking.WHOLE, checking.LEFT_OUT)
        if is_part:
            parts.add(place.part)
        found.append((place, wholes.get(place.session, 0) if is_part else None))
    return found


def read_tree(name: str) -> trees.Tree:
    try:
        return trees.read(name)
    except Malformed as error:
        with open(name, "rb") as file:
            why = kinds.named(file.read(512), kinds.TREE) or error
        raise Unfit(f"{name}: {why}") from None


def main(about: str) -> int:
    given = options(about)
    gc.disable()
    try:
        return Command(given).run().show(given.json)
    except Unfit as error:
        return refuse(USAGE, error)
    except Malformed as error:
        return refuse(USAGE, f"{given.order}: {error}")
    except (judging.Failed, NotBuilt) as error:
        return refuse(FAILED, error)
    except MemoryError:
        return refuse(FAILED, "out of memory")
    except OSError as error:
        return refuse(FAILED, f"{error.filename}: {error.strerror}" if error.filename else error.strerror or error)
