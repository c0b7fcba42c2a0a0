"""A set: a folder with NAME.transcript and NAME.times for each session, on one clock."""
from __future__ import annotations

import os
from typing import Optional

from sftpv3.together.deeds import NEVER, Deed
from sftpv3.together.outside import CLIENT, Clock, Malformed, MalformedTimes, clock_of, packets, transcripts

TRANSCRIPT, TIMES = ".transcript", ".times"

# The most requests of a session that wait for a reply, and the most bytes of a handle, which gets the session's number.
WINDOW, LONGEST_HANDLE = 1024, 252
MOST_SESSIONS = 0xFFFF


class Unfit(Exception):
    """Files that are no set."""


class Session:
    """A session: its name, its requests in the order asked, and the clock of its records."""

    def __init__(self, name: str, deeds: list[Deed], clock: Optional[Clock] = None):
        self.name, self.deeds, self.clock = name, deeds, clock
        latest = NEVER
        for deed in reversed(deeds):
            latest = deed.deadline = min(latest, deed.answered)

    def file(self) -> str:
        return self.name + TRANSCRIPT


def read_set(folder: str) -> tuple[list[Session], bool]:
    """The sessions of a folder, by their names, and whether their times are of the machine's own clock; Unfit or
    OSError."""
    files = os.listdir(folder)
    names = sorted(name[:-len(TRANSCRIPT)] for name in files if name.endswith(TRANSCRIPT))
    if not names:
        raise Unfit(f"{folder}: there is no file NAME{TRANSCRIPT}")
    if len(names) > MOST_SESSIONS:
        raise Unfit(f"{folder}: more than {MOST_SESSIONS:,} sessions")
    missing = [name for name in names if name + TIMES not in files]
    if missing:
        raise Unfit(f"{missing[0]}{TRANSCRIPT}: there is no {missing[0]}{TIMES} beside it")
    clocks = [clock_in(folder, name) for name in names]
    refuse_two_clocks(names, clocks)
    sessions = [Session(name, deeds_in(folder, name, number, clock), clock)
                for number, (name, clock) in enumerate(zip(names, clocks))]
    return sessions, clocks[0].boot is not None


def clock_in(folder: str, name: str) -> Clock:
    with open(os.path.join(folder, name + TIMES), "rb") as file:
        data = file.read()
    try:
        return clock_of(data)
    except MalformedTimes as error:
        raise Unfit(f"{name}{TIMES}: {error}") from None


def refuse_two_clocks(names: list[str], clocks: list[Clock]) -> None:
    for name, clock in zip(names, clocks):
        if clock.boot is None and clocks[0].boot is not None or clock.boot is not None and clocks[0].boot is None:
            raise Unfit(f"{names[0]}{TIMES} and {name}{TIMES} are of two forms, so their times cannot be compared")
        if clock.boot != clocks[0].boot:
            raise Unfit(f"{names[0]}{TIMES} and {name}{TIMES} are of two boots, so their times cannot be compared")


def records_in(folder: str, name: str) -> list[tuple[bytes, bytes]]:
    with open(os.path.join(folder, name + TRANSCRIPT), "rb") as file:
        data = file.read()
    try:
        found = transcripts.records(data)
    except Malformed as error:
        raise Unfit(f"{name}{TRANSCRIPT}: {error}") from None
    if len(transcripts.OPENING) + sum(1 + len(packet) for _, packet in found) != len(data):
        raise Unfit(f"{name}{TRANSCRIPT}: record {len(found) + 1}: Truncated")
    return found


def deeds_in(folder: str, name: str, number: int, clock: Clock) -> list[Deed]:
    """The requests of a session."""
    found = records_in(folder, name)
    if len(found) < 2:
        raise Unfit(f"{name}{TRANSCRIPT}: record {len(found) + 1}: Start")
    if len(clock.times) < len(found):
        raise Unfit(f"{name}{TIMES}: record {len(clock.times) + 1} of {name}{TRANSCRIPT} has no time")
    if len(clock.times) > len(found):
        raise Unfit(f"{name}{TIMES}: entry {len(found) + 1}: Trailing")
    reader = Reader(name, number, clock)
    for record, (side, data) in enumerate(found, 1):
        reader.take(record, side, data)
    return reader.deeds


class Reader:
    """Pairs requests with their replies, record by record."""

    def __init__(self, name: str, number: int, clock: Clock):
        self.name, self.number, self.clock = name, number, clock
        self.deeds: list[Deed] = []
        self.waiting: dict[int, Deed] = {}

    def fault(self, record: int, why: str) -> Unfit:
        return Unfit(f"{self.name}{TRANSCRIPT}: record {record}: {why}")

    def packet(self, record: int, side: bytes, data: bytes) -> packets.Packet:
        if side not in packets.SIDES:
            raise self.fault(record, "Direction")
        try:
            found = packets.read(side, data)
        except Malformed as error:
            raise self.fault(record, f"Wire {error.fault}") from None
        if not transcripts.is_in_turn(record, found):
            raise self.fault(record, "Start")
        return found

    def take(self, record: int, side: bytes, data: bytes) -> None:
        found = self.packet(record, side, data)
        if record <= 2:
            return
        if side == CLIENT:
            self.ask(record, found)
        else:
            self.reply(record, found)

    def time(self, record: int) -> int:
        return self.clock.start() + self.clock.times[record - 1]

    def ask(self, record: int, request: packets.Packet) -> None:
        if request.number in self.waiting:
            raise self.fault(record, "IdInUse")
        if len(self.waiting) >= WINDOW:
            raise self.fault(record, "Window")
        self.refuse_long_handle(record, request.name, request.fields)
        deed = Deed(self.number, len(self.deeds), self.time(record), record, request)
        self.deeds.append(deed)
        self.waiting[request.number] = deed

    def reply(self, record: int, reply: packets.Packet) -> None:
        deed: Optional[Deed] = self.waiting.pop(reply.number, None)
        if deed is None:
            raise self.fault(record, "UnknownReply")
        self.refuse_long_handle(record, reply.name, reply.fields)
        deed.answered, deed.answered_in, deed.reply = self.time(record), record, reply

    def refuse_long_handle(self, record: int, name: str, fields: list) -> None:
        if packets.LAYOUTS[name][1].startswith("handle") and len(fields[0]) > LONGEST_HANDLE:
            raise self.fault(record, f"a handle of more than {LONGEST_HANDLE} bytes, which has no room for the number "
                                     "of its session")
