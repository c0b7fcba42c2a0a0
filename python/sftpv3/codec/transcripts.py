"""Transcript files, both ways (docs/FORMATS.md): records, which are pairs of a side, `C` or `S`, and a packet."""
from __future__ import annotations

from collections.abc import Iterable, Iterator

from sftpv3.codec import kinds
from sftpv3.codec.fields import Malformed
from sftpv3.codec.packets import CLIENT, LONGEST, SERVER, SIDES, Packet, front, init, length, version

OPENING = b"SFTPTR01"
# The records of a session in which nothing was asked yet, and whose server announces no extension.
BEGUN = ((CLIENT, init()), (SERVER, version(3, [])))


def put_records(given: Iterable[tuple[bytes, bytes]]) -> bytes:
    return OPENING + b"".join(side + data for side, data in given)


def records(transcript: bytes) -> list[tuple[bytes, bytes]]:
    """The records of a transcript, up to the first that is not whole. Nothing in them is judged."""
    if not transcript.startswith(OPENING):
        raise Malformed(kinds.mistaken(transcript, kinds.TRANSCRIPT) or "the file is no transcript", "Magic")
    found, place = [], len(OPENING)
    while place < len(transcript):
        count = length(transcript[place + 1:place + 5])
        if count is None or place + 1 + count > len(transcript):
            break
        found.append((transcript[place:place + 1], transcript[place + 1:place + 1 + count]))
        place += 1 + count
    return found


def is_in_turn(number: int, packet: Packet) -> bool:
    """Whether this may be the packet of the record with this number: INIT, then VERSION, then neither."""
    if number == 1:
        return packet.name == "INIT" and packet.fields[0] >= 3
    if number == 2:
        return packet.name == "VERSION" and packet.fields[0] == 3
    return packet.name not in ("INIT", "VERSION")


def fault(number: int, kind: str) -> Malformed:
    return Malformed(f"record {number}: {kind}", kind)


def record_at(transcript: bytes, at: int, number: int) -> tuple[bytes, bytes, Packet]:
    """The side, the bytes and the packet of the record at a place, by the letter."""
    side = transcript[at:at + 1]
    if side not in SIDES:
        raise fault(number, "Direction" if side else "Start")
    try:
        found = front(side, transcript[at + 1:at + 1 + LONGEST])
    except Malformed as error:
        raise fault(number, f"Wire {error.fault}") from None
    if found is None:
        raise fault(number, "Truncated")
    if not is_in_turn(number, found[1]):
        raise fault(number, "Start")
    return (side, *found)


def each_record(transcript: bytes) -> Iterator[tuple[bytes, bytes, Packet]]:
    """Yields the side, the bytes and the packet of each record, by the letter; then Malformed with the first fault."""
    if not transcript.startswith(OPENING):
        raise fault(0, "Magic")
    at, number = len(OPENING), 0
    while at < len(transcript) or number < 2:
        number += 1
        record = record_at(transcript, at, number)
        at += 1 + len(record[1])
        yield record


def until_fault(transcript: bytes) -> tuple[list[tuple[bytes, bytes]], str | None]:
    """The records before the first fault, and the fault as text, or None."""
    found = []
    try:
        for side, data, _ in each_record(transcript):
            found.append((side, data))
    except Malformed as error:
        return found, str(error)
    return found, None
