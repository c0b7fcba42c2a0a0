"""The transcript of an order: each request and at once its reply, with ids from 1 on, and the number of the session in
front of each handle's name. A part of a request is a request of its own."""
from __future__ import annotations

from collections.abc import Iterable, Iterator

from sftpv3.together.checking import LEFT_OUT, WHOLE, Place, Span
from sftpv3.together.deeds import FIELDS, NEVER, Deed, pieces_of
from sftpv3.together.outside import CLIENT, SERVER, packets, transcripts, uint32

Pair = tuple[packets.Packet, packets.Packet]


def part_count(deed: Deed, piece: int) -> int:
    """Into how many parts a request may be divided; 1 if into none."""
    request, reply = deed.request, deed.reply
    if reply is None:
        return 1
    if request.name == "READDIR" and reply.name == "NAME":
        return len(reply.fields[0])
    if request.name in ("SETSTAT", "FSETSTAT") and reply.name == "STATUS" and reply.fields[0] == 0:
        return len(fields_of(request))
    if request.name == "READ" and reply.name == "DATA" and piece:
        return len(pieces_of(request.fields[1], request.fields[2], reply.fields[0], piece))
    return 1


def fields_of(request: packets.Packet) -> list[str]:
    return [field for field in FIELDS if field in request.fields[1]]


def span_of(deed: Deed, piece: int) -> Span:
    return Span(deed.asked, None if deed.answered == NEVER else deed.answered, part_count(deed, piece))


def pair_of(deed: Deed, part: int, piece: int) -> Pair:
    """The request and the reply of a part, or of the whole."""
    request, reply = deed.request, deed.reply or made_up(deed)
    if part == WHOLE:
        return request, reply
    if request.name == "READDIR":
        return request, packets.Packet(reply.number, "NAME", [[reply.fields[0][part - 1]]])
    if request.name == "READ":
        handle, offset, length = request.fields
        start, count, data = pieces_of(offset, length, reply.fields[0], piece)[part - 1]
        return (packets.Request(request.number, "READ", [handle, start, count]),
                packets.Packet(reply.number, "DATA", [data]))
    field = fields_of(request)[part - 1]
    return packets.Request(request.number, request.name, [request.fields[0], {field: request.fields[1][field]}]), reply


def made_up(deed: Deed) -> packets.Packet:
    """A reply to a request that got none and was done."""
    if deed.request.name == "OPEN":
        return packets.Packet(deed.request.number, "HANDLE", [b"?%d" % deed.number()])
    return packets.Packet(deed.request.number, "STATUS", [0, b"", b""])


def tagged(packet: packets.Packet, number: int, session: int) -> bytes:
    """The bytes of a packet with another id, and a handle of the session."""
    fields = packet.fields
    if packets.LAYOUTS[packet.name][1].startswith("handle"):
        fields = [uint32(session) + fields[0], *fields[1:]]
    return packets.encode(packets.Packet(number, packet.name, fields))


def steps_of(sessions: list[list[Deed]], places: Iterable[Place], piece: int) -> Iterator[tuple[Deed, int]]:
    """The request at each place, and the number of the part."""
    nexts, had = [0] * len(sessions), [0] * len(sessions)
    for session, part in places:
        deed = sessions[session][nexts[session]]
        had[session] += 1
        if part in (WHOLE, LEFT_OUT) or had[session] == part_count(deed, piece):
            nexts[session], had[session] = nexts[session] + 1, 0
        yield deed, part


def merged(sessions: list[list[Deed]], places: Iterable[Place], piece: int) -> Iterator[bytes]:
    """The transcript, piece by piece."""
    yield transcripts.put_records(transcripts.BEGUN)
    number = 0
    for deed, part in steps_of(sessions, places, piece):
        if part != LEFT_OUT:
            number += 1
            request, reply = pair_of(deed, part, piece)
            yield CLIENT + tagged(request, number, deed.session) + SERVER + tagged(reply, number, deed.session)
