"""How far a session that runs can be judged for good: up to a moment at which it holds nothing open and waits for no
reply, since it is then in no other state than one that begins from the tree of that moment."""
import os
import struct
from typing import Dict, NamedTuple, Optional, Set, Tuple

from sftpv3.recorder.packets import OPENING

# What precedes the fields of a record's packet: the side, and the packet's length; then its type and its number.
FRONT, ABOUT = struct.Struct(">cI"), struct.Struct(">BI")
CLOSE, HANDLE, STATUS = 4, 102, 101
# The most bytes of a record that are looked at: those of a handle are the first ones of a packet.
LOOKED = 512
PIECE = 1 << 20


class Part(NamedTuple):
    """Where the part of a record begins that is not judged: behind so many bytes, of which those of INIT and VERSION
    are the first ones, and behind so many records. `is_lost` if there is no tree from which it could be, and `is_left`
    if the session has ended, and its record stays in the spool unjudged."""

    at: int
    head: int
    count: int
    is_lost: bool = False
    is_left: bool = False


class Reach(NamedTuple):
    """How far a record goes: where its last whole record ends, and where the last one does behind which the session was
    quiet; and where its VERSION ends, or None. Behind each of the first two, how many records there are."""

    end: int
    count: int
    quiet: int
    quiet_count: int
    head: Optional[int]

    def part(self, is_lost: bool = False) -> Part:
        return Part(self.quiet, self.head or 0, self.quiet_count, is_lost)

    def is_idle(self, size: int) -> bool:
        """Whether nothing is open or awaited at the end of a record of so many bytes."""
        return self.head is not None and self.quiet == size


class State:
    """What a session holds open, and for what it waits."""

    def __init__(self) -> None:
        self.open: Set[bytes] = set()
        self.waiting: Dict[int, Tuple[int, bytes]] = {}

    def take(self, side: bytes, data: bytes) -> None:
        """Takes the first bytes of a packet's fields."""
        if len(data) < ABOUT.size:
            return
        kind, number = ABOUT.unpack_from(data)
        text = data[ABOUT.size + 4:][:int.from_bytes(data[ABOUT.size:ABOUT.size + 4], "big")]
        if side == b"C":
            self.waiting[number] = kind, text if kind == CLOSE else b""
            return
        asked, handle = self.waiting.pop(number, (0, b""))
        if kind == HANDLE:
            self.open.add(text)
        elif asked == CLOSE and kind == STATUS and data[ABOUT.size:ABOUT.size + 4] == bytes(4):
            self.open.discard(handle)

    def is_quiet(self) -> bool:
        return not self.open and not self.waiting


def reach_of(file: int, begun: Optional[Part], size: int) -> Reach:
    """How far a record goes of which so many bytes are looked at, from where a part of it begins."""
    at, count, head = (begun.at, begun.count, begun.head) if begun else (len(OPENING), 0, None)
    state, quiet, quiet_count = State(), at, count
    held, held_at = b"", at
    while at + FRONT.size <= size:
        if at + FRONT.size + LOOKED > held_at + len(held):
            held, held_at = os.pread(file, PIECE, at), at
        if len(held) - (at - held_at) < FRONT.size:
            break
        side, length = FRONT.unpack_from(held, at - held_at)
        front = at - held_at + FRONT.size
        if at + FRONT.size + length > size:
            break
        at, count = at + FRONT.size + length, count + 1
        if head is None and count == 2:
            head = at
        if count > 2:
            state.take(side, held[front:front + min(length, LOOKED)])
        if count >= 2 and state.is_quiet():
            quiet, quiet_count = at, count
    return Reach(at, count, quiet, quiet_count, head)
