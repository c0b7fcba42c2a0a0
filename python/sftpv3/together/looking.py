"""Requests that change nothing (docs/PROTOCOL.md)."""
from __future__ import annotations

import struct
from typing import Optional

from sftpv3.together.attributes import FOLDER_TYPE, LOWER, is_right, shown
from sftpv3.together.nodes import LINK, Listing, OpenFile
from sftpv3.together.outside import packets
from sftpv3.together.paths import Path
from sftpv3.together.profiles import Profile
from sftpv3.together.requests import FAR, NONE, Causes, OfHandle, OfPath, Request
from sftpv3.together.states import Place, State

# Extensions that only look, with the bytes of their replies, if these have a length.
LOOKS = {b"limits@openssh.com": 32, b"statvfs@openssh.com": 88, b"fstatvfs@openssh.com": 88,
         b"users-groups-by-id@openssh.com": None}
PATH_QUERIES = (b"expand-path@openssh.com", b"home-directory")


class Stat(OfPath):
    """STAT, and LSTAT."""

    def __init__(self, session: int, profile: Profile, reply: Optional[packets.Packet], path: Path, follows: bool):
        super().__init__(session, profile, reply, path)
        # of a path that ends loosely LSTAT may be answered as STAT
        self.follows = follows
        self.may_follow = profile.slash and path.is_loose and not follows

    def done(self, state: State) -> bool:
        if self.reply is None or self.reply.name != "ATTRS":
            return False
        told = self.reply.fields[0]
        if is_right(self.profile, shown(state, self.place.node), told):
            return True
        return self.may_follow and self.is_right_behind(state, told)

    def is_right_behind(self, state: State, told: dict) -> bool:
        found = state.walk(self.path, True)
        return (not isinstance(found, str) and found.node is not None
                and is_right(self.profile, shown(state, found.node), told))

    def act(self, state: State) -> bool:
        if super().act(state):
            return True
        return self.may_follow and self.code is None and self.is_right_behind(state, self.told())

    def told(self) -> dict:
        return self.reply.fields[0] if self.reply is not None and self.reply.name == "ATTRS" else {}


class Fstat(OfHandle):
    def causes(self, state: State) -> Causes:
        opened = state.opened(self.session, self.handle)
        if opened is None:
            return ("BadHandle",)
        return ("WrongKind",) if is_folder(opened) else NONE

    def done(self, state: State) -> bool:
        return self.tells(state, state.opened(self.session, self.handle).node)

    def tells(self, state: State, node) -> bool:
        return (self.reply is not None and self.reply.name == "ATTRS"
                and is_right(self.profile, shown(state, node), self.reply.fields[0]))

    def act(self, state: State) -> bool:
        return super().act(state) or self.profile.open_dir and self.code is None and self.is_of_folder(state)

    def is_of_folder(self, state: State) -> bool:
        """Whether it shows a directory that is open; of one that is removed, any directory."""
        opened = state.opened(self.session, self.handle)
        if opened is None or not is_folder(opened) or self.reply is None or self.reply.name != "ATTRS":
            return False
        state.look(opened.node.number, "list")
        if opened.node.is_linked:
            return self.tells(state, opened.node)
        return self.reply.fields[0].get("permissions", 0) & ~LOWER == FOLDER_TYPE


def is_folder(opened) -> bool:
    """Whether what is open is a directory, for OPENDIR or for OPEN."""
    return isinstance(opened, Listing) or opened.node.kind != 2


class Read(OfHandle):
    def __init__(self, session: int, profile: Profile, reply: Optional[packets.Packet], handle: bytes, offset: int,
                 length: int):
        super().__init__(session, profile, reply, handle)
        self.offset, self.length = offset, length

    def is_far(self) -> bool:
        return self.offset + self.length >= FAR

    def causes(self, state: State) -> Causes:
        opened = state.opened(self.session, self.handle)
        if opened is None:
            return ("BadHandle",)
        if not isinstance(opened, OpenFile) or is_folder(opened):
            return ("WrongKind",)
        return NONE if opened.reads else ("NotOpenFor",)

    def done(self, state: State) -> bool:
        if self.reply is None:
            return False
        node, limit = state.opened(self.session, self.handle).node, state.limits[2]
        size = len(node.content)
        self.note(state, node)
        if self.reply.name != "DATA":
            is_end = self.reply.name == "STATUS" and self.reply.fields[0] == 1
            return is_end and (self.offset >= size or self.profile.read and self.length == 0)
        data = self.reply.fields[0]
        if self.profile.read and not self.length and not data:
            return True
        count, most = len(data), max(0, min(self.length, size - self.offset))
        is_fit = count == min(most, limit) or self.profile.read and 0 < count and min(most, limit) <= count <= most
        return self.offset < size and is_fit and node.content.startswith(data, self.offset)

    def note(self, state: State, node) -> None:
        if state.trace is not None:
            state.look(node.number, "size")
            count = len(self.reply.fields[0]) if self.reply.name == "DATA" else 0
            state.look_at_bytes(node, self.offset, self.offset + count)


class Readlink(OfPath):
    def causes_there(self, state: State, place: Place) -> Causes:
        if place.node is None:
            return ("NoEntry",)
        return NONE if place.node.kind == LINK else ("NotLink",)

    def done(self, state: State) -> bool:
        return only_name(self.reply) == self.place.node.target


class Realpath(OfPath):
    follows = True

    def causes_there(self, state: State, place: Place) -> Causes:
        return NONE

    def done(self, state: State) -> bool:
        return only_name(self.reply) == self.place.text()

    def act(self, state: State) -> bool:
        return super().act(state) or self.profile.realpath and self.is_loosely_right(state)

    def is_loosely_right(self, state: State) -> bool:
        """Whether it is answered by the text alone."""
        name = only_name(self.reply)
        if self.causes(state):
            return name is not None
        if self.code is not None:
            return (self.code == 2 or self.profile.codes) and self.place.node is None
        return name is not None and name == self.by_text(state)

    def by_text(self, state: State) -> Optional[bytes]:
        parts = list(self.path.parts)
        if not self.path.is_absolute:
            home = state.walk(state.path(b""), True)
            if isinstance(home, str):
                return None
            parts = [*home.names, *parts[len(state.home):]]
        return lexical(parts)


def lexical(parts: list[bytes]) -> bytes:
    """The text of a place if nothing is a link."""
    names: list[bytes] = []
    for part in parts:
        if part == b"..":
            del names[-1:]
        elif part != b".":
            names.append(part)
    return b"".join(b"/" + name for name in names) or b"/"


def only_name(reply: Optional[packets.Packet]) -> Optional[bytes]:
    """The name that a NAME has, if that is one."""
    return reply.fields[0][0][0] if reply is not None and reply.name == "NAME" and len(reply.fields[0]) == 1 else None


class Fsync(OfHandle):
    def causes(self, state: State) -> Causes:
        opened = state.opened(self.session, self.handle)
        if opened is None:
            return ("BadHandle",)
        return ("WrongKind",) if is_folder(opened) and not self.may_be_folder() else NONE

    def may_be_folder(self) -> bool:
        return self.profile.open_dir and self.code is None

    def done(self, state: State) -> bool:
        return self.is_ok()


class Limits(Request):
    def causes(self, state: State) -> Causes:
        return NONE

    def done(self, state: State) -> bool:
        read, handles = state.limits[2], state.limits[3]
        return (self.reply is not None and self.reply.name == "EXTENDED_REPLY"
                and self.reply.fields[0] == struct.pack(">4Q", packets.LONGEST, read, read, handles))


class Unknown(Request):
    """An extension that is not known: it is refused, or only looks."""

    def __init__(self, session: int, profile: Profile, reply: Optional[packets.Packet], extension: bytes):
        super().__init__(session, profile, reply)
        self.extension = extension

    def causes(self, state: State) -> Causes:
        return ("Unknown",)

    def is_unknown(self) -> bool:
        is_end = self.reply is not None and self.reply.name == "STATUS" and self.reply.fields[0] == 1
        return self.profile.extensions and not is_end and not self.only_looks()

    def act(self, state: State) -> bool:
        if self.code is not None and self.profile.extensions:
            return True
        return super().act(state) or self.profile.extensions and self.only_looks()

    def only_looks(self) -> bool:
        if self.reply is None:
            return False
        if self.extension in PATH_QUERIES:
            return only_name(self.reply) is not None
        return (self.extension in LOOKS and self.reply.name == "EXTENDED_REPLY"
                and LOOKS[self.extension] in (None, len(self.reply.fields[0])))
