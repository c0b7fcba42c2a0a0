"""The changes of others that an order has, as a session of their own."""
from __future__ import annotations

import os
import struct
from collections.abc import Callable
from typing import NamedTuple, Optional

from sftpv3.together.deeds import LEFT_OUT, Deed
from sftpv3.together.explaining import asked, quoted
from sftpv3.together.merging import Pair
from sftpv3.together.others import STEPS_EACH
from sftpv3.together.outside import CLIENT, SERVER, packets, transcripts
from sftpv3.together.sets import TIMES, Session
from sftpv3.together.states import State

# What is done of a request, and the number of the part, as the search has it in its order.
Done = tuple[Deed, int]

# The name of the session of others, unless it is given or taken.
OTHERS = "others"

# The bytes of a file of times before its entries: of the first form, and of the second.
HEADS = {b"SFTPTM01": 16, b"SFTPTM02": 40}


class Invented(NamedTuple):
    """A change that an order has: what it is, and the request that it stands before, if there is one."""

    text: str
    before: Optional[Deed]


class Found(NamedTuple):
    """The order without needless changes, the changes, and the session of these."""

    order: list[Done]
    changes: list[Invented]
    session: Session


def session_of(order: list[Done], sessions: list[Session], name: str, fresh: Callable[[], State]) -> Found:
    """The changes that an order of these sessions needs. `fresh` gives states in which nothing was done."""
    number = len(sessions)
    order = needed(order, number, fresh)
    changes = [Invented(told(steps), next_of(order, steps[-1], number)) for steps in of_order(order, number)]
    return Found(order, changes, Session(name, date(order, number)))


def free_name(sessions: list[Session]) -> str:
    """A name that no session has."""
    taken = {session.name for session in sessions}
    return next(name for name in (OTHERS + "-" * count for count in range(len(taken) + 1)) if name not in taken)


def of_order(order: list[Done], session: int) -> list[list[Deed]]:
    """The changes in an order, each with its requests."""
    found: dict[int, list[Deed]] = {}
    for deed, _ in order:
        if deed.session == session:
            found.setdefault(deed.index // STEPS_EACH, []).append(deed)
    return list(found.values())


def told(steps: list[Deed]) -> str:
    """What a change is: a WRITE has the path in place of the handle, and a SETSTAT what it sets."""
    requests = [step.request for step in steps]
    if len(requests) == STEPS_EACH:
        path, (_, offset, data) = requests[0].fields[0], requests[1].fields
        return f"WRITE {quoted(path)} {offset}, {len(data)} bytes"
    if requests[0].name == "SETSTAT":
        return f"{asked(requests[0])} {shown(requests[0].fields[1])}"
    return asked(requests[0])


def shown(given: dict) -> str:
    words = {"size": "size {}", "permissions": "permissions {:o}", "owner": "owner {0[0]}:{0[1]}"}
    return ", ".join(words[field].format(given[field]) for field in words if field in given)


def next_of(order: list[Done], step: Deed, session: int) -> Optional[Deed]:
    """The request of a recorded session behind a step."""
    at = next(at for at, (deed, _) in enumerate(order) if deed is step)
    return next((deed for deed, _ in order[at:] if deed.session != session), None)


def needed(order: list[Done], session: int, fresh: Callable[[], State]) -> list[Done]:
    """The order without the changes that no reply in it needs."""
    for steps in of_order(order, session):
        fewer = [done for done in order if done[0] not in steps]
        if is_right(fewer, fresh()):
            order = fewer
    return order


def is_right(order: list[Done], state: State) -> bool:
    """Whether each reply of an order is right at its place."""
    for deed, part in order:
        state.step += 1
        if part != LEFT_OUT and not deed.acts[max(0, part - 1)].act(state):
            return False
    return True


def date(order: list[Done], session: int) -> list[Deed]:
    """The requests of an order's changes. Each gets as its times the latest one at which a request before it was asked;
    so it comes behind none that was asked later, and none that is behind it was answered before."""
    latest, found = min((deed.asked for deed, _ in order if deed.session != session), default=0), []
    for deed, part in order:
        if deed.session == session:
            deed.asked = deed.answered = deed.deadline = latest
            found.append(deed)
        elif part != LEFT_OUT:
            latest = max(latest, deed.asked)
    return found


# files

def transcript(deeds: list[Deed]) -> bytes:
    """The transcript of requests that were answered at once."""
    pairs = [pair_of(deed, number) for number, deed in enumerate(deeds, 1)]
    return transcripts.put_records(transcripts.BEGUN) + b"".join(
        CLIENT + packets.encode(request) + SERVER + packets.encode(reply) for request, reply in pairs)


def pair_of(deed: Deed, number: int) -> Pair:
    return (packets.Request(number, deed.request.name, deed.request.fields),
            packets.Packet(number, deed.reply.name, deed.reply.fields))


def times(deeds: list[Deed], folder: str, sessions: list[Session]) -> bytes:
    """The file of times of the same requests, by the clock of the session that began first."""
    first = min(sessions, key=lambda session: session.clock.start())
    with open(os.path.join(folder, first.name + TIMES), "rb") as file:
        data = file.read(max(HEADS.values()))
    entries = [0, 0] + [deed.asked - first.clock.start() for deed in deeds for _ in range(2)]
    return data[:HEADS[data[:8]]] + struct.pack(f">{len(entries)}Q", *entries)
