"""Whether a server did what it said it did, where the tree could not hold it. The audit says NotModelled of that, and
follows no further: what is left is what no system can hold, and what the server itself shows later in the session."""
from dataclasses import dataclass
from typing import Optional

from sftpv3 import codec
from sftpv3.codec import wording
from sftpv3.probe.model import FAR

# The requests that set a size, those that make something at their last path, and those that change anything else.
SIZING, MAKING = ("WRITE", "SETSTAT", "FSETSTAT"), ("MKDIR", "SYMLINK", "HARDLINK", "RENAME", "POSIX-RENAME")
CHANGING = {*SIZING, *MAKING, "OPEN", "REMOVE", "RMDIR", "EXTENDED"}

# What is said where nothing tells whether it was done.
NOTHING_TELLS = "the tree has no room for it, and the session does not tell whether it was done: this is no fault"


@dataclass
class Told:
    """What is said of such a difference, and whether it is a bug of the server, whatever the tree has room for."""

    is_bug: bool
    text: str


def of_difference(difference) -> Optional[Told]:
    """What is said of a difference, or None if the tree could hold what it is about."""
    if difference.verdict.kind != "NotModelled" or difference.request is None or difference.reply is None:
        return None
    records = difference.session.records
    asked = codec.decode(records[difference.request][1])
    if asked.name == "EXTENDED":
        return None
    opener = openers(records[:difference.reply]).get(asked.handle())
    size = size_of(asked, opener)
    if size is not None and size >= FAR:
        return Told(True, f"told done: no system holds a file of {size:,} bytes")
    return shown(records, difference.reply, asked, opener, size) or Told(False, NOTHING_TELLS)


def size_of(asked, opener) -> Optional[int]:
    """The size that a request makes a file have at least, or None. By a handle with APPEND its offset says nothing."""
    if asked.name == "WRITE":
        is_at_end = opener is not None and opener.name == "OPEN" and opener.fields[1] & codec.APPEND
        return None if is_at_end else asked.fields[1] + len(asked.fields[2])
    return asked.fields[1].get("size") if asked.name in SIZING else None


def openers(records):
    """The requests whose replies, among these records, gave handles, by these."""
    asked, found = {}, {}
    for side, packet in records[2:]:
        if side == codec.CLIENT:
            asked[packet[5:9]] = codec.decode(packet)
        elif packet[4] == codec.HANDLE and packet[5:9] in asked:
            found[codec.Reply(packet).handle] = asked[packet[5:9]]
    return found


def things_of(asked, opener):
    """The handle and the path by which a request leads to what it sets or makes."""
    if asked.handle() is not None:
        return {asked.handle(), opener and opener.fields[0]} - {None}
    return {asked.fields[1 if asked.name in MAKING[1:] else 0]}


def shown(records, reply, asked, opener, size) -> Optional[Told]:
    """What the first request behind this reply tells that looks at the same, unless another change comes before."""
    wanted, waiting = things_of(asked, opener), {}
    for side, packet in records[reply + 1:]:
        if side == codec.CLIENT:
            one = codec.decode(packet)
            if one.name in CHANGING:
                return None
            if one.name in ("STAT", "LSTAT", "FSTAT", "READLINK") and one.fields[0] in wanted:
                waiting[packet[5:9]] = one
        elif packet[5:9] in waiting:
            found = of_look(waiting[packet[5:9]], packet, asked, size)
            if found:
                return found
    return None


def of_look(look, packet, asked, size) -> Optional[Told]:
    """What this reply to a request that looks tells of the one that was asked before; None if nothing."""
    by = f"{look.name}, request {look.number},"
    if packet[4] == codec.STATUS:
        is_absent = codec.Reply(packet).code == codec.NO_SUCH_FILE and look.name in ("LSTAT", "READLINK")
        return Told(True, f"told done, and not done: {by} finds nothing there") if is_absent else None
    if packet[4] == codec.ATTRS and size is not None:
        has = codec.attributes_in(packet).get("size", size)
        return Told(True, f"told done, and not done: {by} shows the size {has:,}, not {size:,}") if has < size else \
            Told(False, f"it was done, as {by} shows: only the tree has no room for it")
    if packet[4] == codec.NAME and asked.name == "SYMLINK":
        (target, *_), *_ = codec.names_in(packet)
        if target == asked.fields[0]:
            return Told(False, f"it was done, as {by} shows: only the tree has no room for it")
        return Told(True, f"told done, and not done: {by} shows {wording.quoted(target, wording.SHORT)}")
    return None
