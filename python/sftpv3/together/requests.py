"""What all requests have in common: whether the reply that was given is right in a state, and what is done then."""
from __future__ import annotations

from collections.abc import Collection
from typing import Optional, Union

from sftpv3.together.outside import packets
from sftpv3.together.paths import Path
from sftpv3.together.profiles import Profile
from sftpv3.together.states import Place, State

# The codes by which a request is refused, and those that a cause allows, where it is not 4 alone (docs/PROTOCOL.md).
REFUSALS = frozenset((2, 3, 4, 5, 8))
CODES = {"BadFlags": (4, 5), "BadPath": (4, 5), "NoEntry": (2,), "NotDir": (2, 4), "Loop": (2, 4),
         "NotOpenFor": (3, 4), "Unknown": (8,)}

# A READ or WRITE that reaches this byte may be too much for a server.
FAR = 2**31

Causes = Collection[str]
NONE: Causes = ()


class Request:
    """A request of a session with its reply. `causes` are those that refuse it; `done` says whether the reply is that
    of a request which none refuses, and changes the state then."""

    def __init__(self, session: int, profile: Profile, reply: Optional[packets.Packet]):
        self.session, self.profile = session, profile
        self.reply = reply
        self.code: Optional[int] = None
        if reply is not None and reply.name == "STATUS" and reply.fields[0] in REFUSALS:
            self.code = reply.fields[0]
        self.is_forgiven = False

    def causes(self, state: State) -> Causes:
        raise NotImplementedError

    def done(self, state: State) -> bool:
        raise NotImplementedError

    def paths(self) -> tuple[Path, ...]:
        return ()

    def needs_room(self) -> bool:
        """Whether it may need room on a disk."""
        return False

    def is_unknown(self) -> bool:
        """Whether nobody knows what the request did, if it was done."""
        return False

    def is_far(self) -> bool:
        """Whether it reads or writes bytes that a server may not have."""
        return False

    def prepare(self) -> None:
        """Finds out whether the profile forgives the reply in every state."""
        code, profile = self.code, self.profile
        if code is None:
            return
        is_usual = code in (2, 4) or profile.codes
        is_loose = any(path.is_loose for path in self.paths())
        is_beyond = self.is_far() or any(path.is_long for path in self.paths())
        self.is_forgiven = (profile.slash and is_loose and is_usual
                            or profile.limits and is_beyond and (code == 4 or profile.codes)
                            or profile.denied and code == 3 or profile.full and code == 4 and self.needs_room())

    def act(self, state: State) -> bool:
        """Whether the reply is right in this state, which is that after the request then."""
        if self.code is None:
            causes = self.causes(state)
            if "NoRoom" in causes or self.is_unknown():
                state.is_beyond = True
            return not causes and self.done(state)
        return self.is_forgiven or self.is_refused(state)

    def is_refused(self, state: State) -> bool:
        causes = self.causes(state)
        if self.profile.codes and causes:
            return True
        return any(self.code in CODES.get(cause, (4,)) for cause in causes)

    def lead(self, state: State, path: Path, follow: bool) -> Union[Place, str]:
        return state.walk(path, follow)

    def is_ok(self) -> bool:
        """Whether the reply says OK; a request without a reply would have got that."""
        return self.reply is None or self.reply.name == "STATUS" and self.reply.fields[0] == 0


class OfPath(Request):
    """A request with one path."""

    follows = False

    def __init__(self, session: int, profile: Profile, reply: Optional[packets.Packet], path: Path):
        super().__init__(session, profile, reply)
        self.path = path
        self.place: Place = None  # type: ignore[assignment]

    def paths(self) -> tuple[Path, ...]:
        return (self.path,)

    def causes(self, state: State) -> Causes:
        found = state.walk(self.path, self.follows)
        if isinstance(found, str):
            return (found,)
        self.place = found
        return self.causes_there(state, found)

    def causes_there(self, state: State, place: Place) -> Causes:
        return NONE if place.node is not None else ("NoEntry",)


class OfHandle(Request):
    """A request through a handle."""

    def __init__(self, session: int, profile: Profile, reply: Optional[packets.Packet], handle: bytes):
        super().__init__(session, profile, reply)
        self.handle = handle
