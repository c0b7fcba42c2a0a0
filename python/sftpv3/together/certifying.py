"""What `sftpv3 audit --together` judges: the files of a set, and an order of whole requests that were answered.

The files of a session are those that were recorded, if the order has each of its requests whole. If it has one in
parts, or leaves one out, or a request got no reply, the session is written anew: each part is a request of its own with
its reply right behind it, at the latest time at which a request up to that place was asked. So the program judges
sessions, times and replies in every case; that parts are those of their request, within its time, `checking` says.
"""
from __future__ import annotations

import os
import struct
from collections.abc import Iterable

from sftpv3.together import orders
from sftpv3.together.checking import LEFT_OUT, WHOLE, Place
from sftpv3.together.inventing import HEADS
from sftpv3.together.merging import Pair, pair_of, steps_of
from sftpv3.together.outside import CLIENT, SERVER, packets, transcripts
from sftpv3.together.sets import TIMES, TRANSCRIPT, Session

ORDER = "order"

# A request with its reply, and when it was done.
Dated = tuple[Pair, int]


def name_of(number: int) -> str:
    """The name that a session has for the program: such names rise as the numbers do."""
    return f"{number:05}"


def number_of(file: str) -> int:
    """The number of the session that a file with such a name has."""
    return int(file.partition(".")[0])


class Certificate:
    """A set and an order of it, as files."""

    def __init__(self, sessions: list[Session], places: Iterable[Place], piece: int):
        self.sessions, self.piece = sessions, piece
        self.steps = list(steps_of([session.deeds for session in sessions], places, piece))
        divided = {deed.session for deed, part in self.steps if part != WHOLE}
        self.anew = [number in divided or session.clock is None or any(deed.reply is None for deed in session.deeds)
                     for number, session in enumerate(sessions)]

    def files(self) -> list[str]:
        """The names of the files of all sessions."""
        return [name_of(number) + ending for number in range(len(self.sessions)) for ending in (TRANSCRIPT, TIMES)]

    def lay_out(self, folder: str, recorded: str) -> None:
        """Makes these files and the order in a folder, from those that were recorded."""
        done = self.dated()
        for number, session in enumerate(self.sessions):
            if self.anew[number]:
                self.write(folder, recorded, number, done[number])
                continue
            for ending in (TRANSCRIPT, TIMES):
                source = os.path.abspath(os.path.join(recorded, session.name + ending))
                os.symlink(source, os.path.join(folder, name_of(number) + ending))
        places = [Place(deed.session, WHOLE) for deed, part in self.steps if part != LEFT_OUT]
        names = [name_of(number) for number in range(len(self.sessions))]
        put(os.path.join(folder, ORDER), orders.put(orders.Order(names, self.piece, places)))

    def dated(self) -> list[list[Dated]]:
        """What each session that is written anew did, in the order, and when."""
        found: list[list[Dated]] = [[] for _ in self.sessions]
        latest = 0
        for deed, part in self.steps:
            if part != LEFT_OUT:
                latest = max(latest, deed.asked)
                if self.anew[deed.session]:
                    found[deed.session].append((pair_of(deed, part, self.piece), latest))
        return found

    def write(self, folder: str, recorded: str, number: int, done: list[Dated]) -> None:
        """Writes a session anew. Its times are on its own clock, or on that of the session that began first."""
        session = self.sessions[number]
        if session.clock is None:
            session = min((it for it in self.sessions if it.clock is not None), key=lambda it: it.clock.start())
        with open(os.path.join(recorded, session.name + TIMES), "rb") as file:
            head = file.read(max(HEADS.values()))
        times = [0, 0] + [time - session.clock.start() for _, time in done for _ in range(2)]
        name = os.path.join(folder, name_of(number))
        put(name + TRANSCRIPT, transcript([pair for pair, _ in done]))
        put(name + TIMES, head[:HEADS[head[:8]]] + struct.pack(f">{len(times)}Q", *times))


def transcript(pairs: list[Pair]) -> bytes:
    """The transcript of requests that were each answered at once, with ids from 1 on."""
    return transcripts.put_records(transcripts.BEGUN) + b"".join(
        CLIENT + packets.encode(packets.Request(number, request.name, request.fields))
        + SERVER + packets.encode(packets.Packet(number, reply.name, reply.fields))
        for number, (request, reply) in enumerate(pairs, 1))


def put(name: str, data: bytes) -> None:
    with open(name, "wb") as file:
        file.write(data)
