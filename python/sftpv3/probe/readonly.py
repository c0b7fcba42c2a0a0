"""A server whose files nobody can change (`--without changes`): each request that would change something is to be
refused, whatever the code, and is left out of what the audit judges, with its reply. One that is done is a difference.

Plans leave out what makes files of its own, since there would be nothing in them but refusals."""
from dataclasses import dataclass

from sftpv3 import codec
from sftpv3.probe import groups

# What plans leave out besides.
LEFT_OUT = {"transfers", "crowds", "unusual-names", "links", "deep", "many-handles", "read-back", "lasting"}

# What is expected of such a request.
REFUSAL = "a refusal, since the server changes nothing (--without changes)"

# The flags of an OPEN that may change something.
CHANGING = codec.WRITE | codec.CREAT | codec.TRUNC | codec.APPEND


@dataclass
class Change:
    """A request that would change something: its place and that of its reply, and whether the server did it."""

    asked: codec.Request
    request: int
    reply: int
    is_done: bool


def is_change(asked):
    """Whether a request may change something, if nothing refuses it."""
    if asked.name == "OPEN":
        return bool(asked.fields[1] & CHANGING)
    return asked.name in groups.CHANGES and (asked.name not in ("SETSTAT", "FSETSTAT") or bool(asked.fields[1]))


def changes(records):
    """The requests among these records that would change something, and have a reply that says whether it was done."""
    asked = {}
    for place, (side, packet) in enumerate(records):
        if place < 2:
            continue
        if side == codec.CLIENT:
            asked[packet[5:9]] = place
        elif packet[5:9] in asked and packet[4] in (codec.STATUS, codec.HANDLE):
            request = asked.pop(packet[5:9])
            one = codec.decode(records[request][1])
            if is_change(one):
                yield Change(one, request, place, packet[4] == codec.HANDLE or packet[9:13] == bytes(4))


def refused(records):
    """The places of the changes that were refused, and of their replies."""
    return {place for one in changes(records) if not one.is_done for place in (one.request, one.reply)}


def done(records):
    """The changes that were done."""
    return [one for one in changes(records) if one.is_done]
