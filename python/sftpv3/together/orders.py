"""Files of orders (docs/FORMATS.md)."""
from __future__ import annotations

import struct

from sftpv3.together.checking import Place
from sftpv3.together.outside import Fields, Malformed, kinds, string, uint32

OPENING = b"SFTPOR01"


class Order:
    """An order: the names of the sessions, how many bytes a piece of a READ has, and the places."""

    def __init__(self, names: list[str], piece: int, places: list[Place]):
        self.names, self.piece, self.places = names, piece, places


def by_names(names: list[str], piece: int, places: list[Place]) -> Order:
    """An order of sessions with these names, which get their numbers by rising names."""
    rising = sorted(names)
    numbers = [rising.index(name) for name in names]
    return Order(rising, piece, [Place(numbers[place.session], place.part) for place in places])


def put(order: Order) -> bytes:
    head = [OPENING, uint32(len(order.names)), *(string(name.encode(errors="surrogateescape")) for name in order.names)]
    numbers = [number for place in order.places for number in place]
    return b"".join([*head, uint32(order.piece), struct.pack(f">{len(numbers)}H", *numbers)])


def get(data: bytes) -> Order:
    """The order of a file; Malformed with what is wrong."""
    if not data.startswith(OPENING):
        raise Malformed(kinds.mistaken(data, kinds.ORDER) or "the file is no order", "Magic")
    source = Fields(data[len(OPENING):])
    names = [source.string().decode(errors="surrogateescape") for _ in range(source.uint32())]
    piece, rest = source.uint32(), source.rest()
    if len(rest) % 4:
        raise Malformed("the file ends inside a place", "Short")
    numbers = struct.unpack(f">{len(rest) // 2}H", rest)
    return Order(names, piece, [Place(*pair) for pair in zip(numbers[::2], numbers[1::2])])
