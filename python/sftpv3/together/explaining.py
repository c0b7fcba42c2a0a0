"""Why there is no order: the request that no order explains, and what contradicts it.

At the furthest place of the search, its requests are taken back one by one. Where the reply would be right before one
of them that had its reply before this request was asked, these two contradict each other.
"""
from __future__ import annotations

from typing import NamedTuple, Optional

from sftpv3.together.deeds import LEFT_OUT, Deed
from sftpv3.together.outside import packets
from sftpv3.together.requests import Request
from sftpv3.together.searching import Done
from sftpv3.together.states import State

# How many places are taken back.
BACK = 2000


class Why(NamedTuple):
    """The request that is not explained, and the one that contradicts it, if one does."""

    deed: Deed
    other: Optional[Deed]


def why(state: State, order: list[Done], deed: Deed) -> Why:
    """The explanation, by a state in which nothing was done."""
    lengths = []
    for done, part in order:
        lengths.append(len(state.log))
        state.log.append((setattr, state, "step", state.step))
        state.step += 1
        if part != LEFT_OUT:
            done.acts[max(0, part - 1)].act(state)
    for length, (done, part) in zip(lengths[:-BACK - 1:-1], order[::-1]):
        state.undo(length)
        if part == LEFT_OUT or done is deed:
            continue
        is_before = done.deadline < deed.asked or done.session == deed.session
        if is_before and not gives_handle(done, deed) and is_right(state, deed.acts):
            return Why(deed, done)
    return Why(deed, None)


def gives_handle(done: Deed, deed: Deed) -> bool:
    """Whether a request gave the handle that the other one names."""
    return done.session == deed.session and done.reply is not None and done.reply.name == "HANDLE"


def is_right(state: State, acts: list[Request]) -> bool:
    """Whether a request would be right here."""
    length = len(state.log)
    found = all(act.act(state) for act in acts)
    state.undo(length)
    return found


def quoted(text: bytes) -> str:
    """Bytes as text in quotes, in which no sign does anything to a terminal."""
    signs = (chr(it) if 32 <= it < 127 and it not in (34, 92) else f"\\x{it:02x}" for it in text[:200])
    return '"' + "".join(signs) + '"' + ("..." if len(text) > 200 else "")


def asked(request: packets.Packet) -> str:
    """What a request asks for."""
    layout = packets.REQUESTS[request.name][1].split()
    words = [request.name]
    for name, value in zip(layout, request.fields):
        if name in ("path", "new_path", "target", "link", "extension"):
            words.append(quoted(value))
        elif name in ("offset", "length"):
            words.append(str(value))
        elif name == "handle":
            words.append(f"#{value.hex()}")
    return " ".join(words)


def answered(deed: Deed) -> str:
    """What a request was answered."""
    if deed.reply is None:
        return "nothing"
    if deed.reply.name == "STATUS":
        return packets.code_name(deed.reply.fields[0])
    return deed.reply.name


def told(deed: Deed) -> str:
    return f"{asked(deed.request)} answered {answered(deed)}"


def before(deed: Deed, other: Deed) -> str:
    """Why the other one comes first."""
    if deed.session == other.session:
        return "which its session asked for earlier"
    return f"which had its reply {(deed.asked - other.deadline) // 1000} us earlier"
