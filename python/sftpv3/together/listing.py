"""Directories that are open and read, while names come and go (docs/PROFILES.md, `listing`)."""
from __future__ import annotations

from typing import Optional

from sftpv3.together.attributes import is_right, shown
from sftpv3.together.nodes import DIRECTORY, Listing
from sftpv3.together.outside import packets
from sftpv3.together.profiles import Profile
from sftpv3.together.requests import NONE, Causes, OfHandle, OfPath
from sftpv3.together.states import Place, State

DOTS = (b".", b"..")

# A name with its attributes.
Item = tuple[bytes, dict]


class Opendir(OfPath):
    follows = True

    def causes_there(self, state: State, place: Place) -> Causes:
        if place.node is None:
            return ("NoEntry",)
        if place.node.kind != DIRECTORY:
            return ("NotDir",)
        return ("NoRoom",) if state.open_count >= state.limits[3] else NONE

    def done(self, state: State) -> bool:
        if self.reply is None or self.reply.name != "HANDLE":
            return False
        handle = self.reply.fields[0]
        if state.opened(self.session, handle) is not None:
            return False
        node = self.place.node
        state.look(node.number, "list")
        left = {name: shown(state, there) for name, there in node.entries.items()}
        state.hold(self.session, handle, Listing(node, left, state.step))
        return True


class OfListing(OfHandle):
    """A READDIR, or one of its names."""

    def listing(self, state: State) -> Optional[Listing]:
        opened = state.opened(self.session, self.handle)
        return opened if isinstance(opened, Listing) else None

    def causes(self, state: State) -> Causes:
        opened = state.opened(self.session, self.handle)
        if opened is None:
            return ("BadHandle",)
        return NONE if isinstance(opened, Listing) else ("WrongKind",)


class Listed(OfListing):
    """Names that a READDIR gives, each once."""

    def __init__(self, session: int, profile: Profile, reply: Optional[packets.Packet], handle: bytes,
                 items: list[Item]):
        super().__init__(session, profile, reply, handle)
        names = [name for name, _ in items if not (profile.dots and name in DOTS)]
        self.is_well_formed = len(set(names)) == len(names) and bool(items)
        self.items = [(name, told) for name, told in items if not (profile.dots and name in DOTS)]

    def done(self, state: State) -> bool:
        listing = self.listing(state)
        if not self.is_well_formed or not all(self.is_given(state, listing, *item) for item in self.items):
            return False
        for name, _ in self.items:
            state.put(listing.given, name, state.step)
        return True

    def is_given(self, state: State, listing: Listing, name: bytes, told: dict) -> bool:
        """Whether a name may be given: as it was when the directory was opened, or as it is now."""
        if state.trace is not None:
            state.look(listing.node.number, name)
        if listing.is_left(name) and is_right(self.profile, listing.left[name], told):
            return True
        node = listing.node.entries.get(name) if self.profile.listing else None
        return node is not None and listing.is_due(name) and is_right(self.profile, shown(state, node), told)


class Ended(OfListing):
    """A READDIR that says that the end was reached."""

    def done(self, state: State) -> bool:
        listing = self.listing(state)
        state.look(listing.node.number, "list")
        if self.reply is None or self.reply.name != "STATUS" or self.reply.fields[0] != 1:
            return False
        if all(name in listing.given for name in listing.left):
            return True
        return self.profile.listing and not listing.must()

    def is_refused(self, state: State) -> bool:
        return super().is_refused(state) or self.profile.listing and self.is_of_removed(state)

    def is_of_removed(self, state: State) -> bool:
        listing = self.listing(state)
        if listing is None:
            return False
        state.look(listing.node.number, "list")
        return not listing.node.is_linked and self.code in (2, 4)


class Close(OfHandle):
    def causes(self, state: State) -> Causes:
        return NONE if state.opened(self.session, self.handle) is not None else ("BadHandle",)

    def done(self, state: State) -> bool:
        if not self.is_ok():
            return False
        state.close(self.session, self.handle)
        return True
