"""Requests with their replies, as the search does them: whole, or in the parts in which a server may do them.

A READDIR may be a READDIR for each of its names (`names`), a SETSTAT of several fields one for each (`fields`), and a
READ one for each piece of its bytes (`pieces`). A part has a number from 1 on; a request that is done whole has 0.
"""
from __future__ import annotations

from typing import Optional

from sftpv3.together import changing, listing, looking
from sftpv3.together.outside import packets
from sftpv3.together.profiles import Profile
from sftpv3.together.requests import Request
from sftpv3.together.states import State

NEVER = 1 << 62

# The fields of a SETSTAT in the order in which OpenSSH's server sets them.
FIELDS = ("size", "permissions", "times", "owner")
WHOLE, LEFT_OUT = 0, 0xFFFF

# Requests that change something, so that they may have been done although no reply came.
CHANGING = {"OPEN", "WRITE", "SETSTAT", "FSETSTAT", "REMOVE", "MKDIR", "RMDIR", "RENAME", "SYMLINK", "POSIX-RENAME",
            "HARDLINK"}


class Parts:
    """Into which parts requests may be divided; a READ into pieces of so many bytes, or not at all."""

    def __init__(self, names: bool, fields: bool, piece: int = 0):
        self.names, self.fields, self.piece = names, fields, piece


class Deed:
    """A request: its session, its place in it from 0 on, when it was asked and answered, and in which records. The
    deadline is when it was done at the latest: when it, or a later request of the session, was answered. `acts` are its
    parts, and `is_choice` says whether they change anything beyond what their own session has open."""

    __slots__ = ("session", "index", "asked", "answered", "asked_in", "answered_in", "request", "reply", "deadline",
                 "acts", "is_choice", "is_bound", "is_eager", "rank", "is_appended")

    def __init__(self, session: int, index: int, asked: int, asked_in: int, request: packets.Packet):
        self.session, self.index, self.asked, self.asked_in, self.request = session, index, asked, asked_in, request
        self.answered, self.answered_in, self.deadline = NEVER, 0, NEVER
        self.reply: Optional[packets.Packet] = None
        self.acts: list[Request] = []
        self.is_choice = self.is_bound = self.is_eager = False
        # where a WRITE with APPEND stood in the file, if a READ told it
        self.rank: Optional[int] = None
        self.is_appended = False

    def number(self) -> int:
        """The number of what it makes."""
        return (self.session << 32) + self.index + 1

    def is_refused(self) -> bool:
        return self.reply is not None and self.reply.name == "STATUS" and self.reply.fields[0] not in (0, 1)

    def part(self, at: int) -> int:
        """The number of the part at this place of `acts`."""
        return at + 1 if len(self.acts) > 1 else WHOLE

    def prepare(self, state: State, profile: Profile, parts: Parts) -> None:
        """Makes the acts."""
        whole = act_of(self, state, profile)
        self.acts = [whole]
        if self.reply is None:
            self.is_choice = self.request.name in CHANGING
        elif not self.is_refused():
            self.is_choice = changes(self, whole)
            self.is_bound = self.request.name == "OPEN" and not self.is_choice
            self.is_eager = self.request.name == "OPENDIR"
            self.acts = parts_of(self, whole, profile, parts)
        for act in self.acts:
            act.prepare()


class Choice:
    """A request that was chosen, or left out, and how long the log and the order were before."""

    __slots__ = ("log", "order", "session", "is_left_out", "deed")

    def __init__(self, log: int, order: int, session: int, is_left_out: bool, deed: Deed):
        self.log, self.order, self.session, self.is_left_out, self.deed = log, order, session, is_left_out, deed


def changes(deed: Deed, act: Request) -> bool:
    """Whether a request that was done changes the tree."""
    if isinstance(act, changing.Opening):
        return act.changes_tree()
    if isinstance(act, changing.Write):
        return bool(act.data)
    if isinstance(act, (changing.Setstat, changing.Fsetstat)):
        return not act.setting.is_empty
    return deed.request.name in CHANGING


def act_of(deed: Deed, state: State, profile: Profile) -> Request:
    """The request as it is judged when it is done whole."""
    name, fields, reply, session = deed.request.name, deed.request.fields, deed.reply, deed.session
    if name in BY_HANDLE:
        return BY_HANDLE[name](session, profile, reply, *fields)
    if name in BY_PATH:
        return BY_PATH[name](session, profile, reply, state.path(fields[0]), *fields[1:])
    if name in MAKING:
        return MAKING[name](session, profile, reply, state.path(fields[0]), deed.number(), *fields[1:])
    if name == "SYMLINK":
        target, link = reversed(fields) if profile.is_symlink_draft else fields
        return changing.Symlink(session, profile, reply, state.path(link), deed.number(), target)
    if name in BY_TWO:
        return BY_TWO[name](session, profile, reply, *map(state.path, fields))
    if name == "HARDLINK":
        return changing.Hardlink(session, profile, reply, *map(state.path, fields), deed.number())
    if name == "READDIR":
        return readdir(deed, profile)
    return looking.Limits(session, profile, reply) if name == "LIMITS" else extension(deed, state, profile)


def readdir(deed: Deed, profile: Profile) -> Request:
    session, reply, handle = deed.session, deed.reply, deed.request.fields[0]
    if reply is None or reply.name != "NAME":
        return listing.Ended(session, profile, reply, handle)
    return listing.Listed(session, profile, reply, handle, [(name, told) for name, _, told in reply.fields[0]])


def extension(deed: Deed, state: State, profile: Profile) -> Request:
    """A request of an extension that is no request of its own."""
    name, rest = deed.request.fields
    if name == b"lsetstat@openssh.com" and profile.lsetstat:
        try:
            source = packets.Fields(rest)
            path, given = source.string(), source.attributes()
        except packets.Malformed:
            path = None
        if path is not None and not source.left():
            return changing.Lsetstat(deed.session, profile, deed.reply, state.path(path), given)
    return looking.Unknown(deed.session, profile, deed.reply, name)


def parts_of(deed: Deed, whole: Request, profile: Profile, parts: Parts) -> list[Request]:
    name, reply, session = deed.request.name, deed.reply, deed.session
    if isinstance(whole, listing.Listed) and parts.names and 1 < len(reply.fields[0]) < LEFT_OUT:
        return [listing.Listed(session, profile, reply, whole.handle, [(item, told)])
                for item, _, told in reply.fields[0]] if whole.is_well_formed else [whole]
    if name in ("SETSTAT", "FSETSTAT") and parts.fields and deed.is_choice:
        return [one_field(deed, whole, profile, {field: deed.request.fields[1][field]})
                for field in FIELDS if field in deed.request.fields[1]] or [whole]
    if name == "READ" and parts.piece and reply.name == "DATA" and len(reply.fields[0]) > 1:
        return [looking.Read(session, profile, packets.Packet(None, "DATA", [data]), whole.handle, offset, length)
                for offset, length, data in pieces_of(whole.offset, whole.length, reply.fields[0], parts.piece)]
    return [whole]


def one_field(deed: Deed, whole: Request, profile: Profile, given: dict) -> Request:
    if isinstance(whole, changing.Setstat):
        return changing.Setstat(deed.session, profile, deed.reply, whole.path, given)
    return changing.Fsetstat(deed.session, profile, deed.reply, whole.handle, given)


def pieces_of(offset: int, length: int, data: bytes, piece: int) -> list[tuple[int, int, bytes]]:
    """The offset, the length and the bytes of each piece of a READ, which end at multiples of `piece`."""
    found, at = [], 0
    while at < len(data):
        end = min(len(data), at + piece - (offset + at) % piece)
        found.append((offset + at, (length if end == len(data) else end) - at, data[at:end]))
        at = end
    return found


BY_HANDLE = {"CLOSE": listing.Close, "READ": looking.Read, "WRITE": changing.Write, "FSTAT": looking.Fstat,
             "FSETSTAT": changing.Fsetstat, "FSYNC": looking.Fsync}
BY_PATH = {"SETSTAT": changing.Setstat, "OPENDIR": listing.Opendir, "REMOVE": changing.Remove, "RMDIR": changing.Rmdir,
           "REALPATH": looking.Realpath, "READLINK": looking.Readlink,
           "STAT": lambda session, profile, reply, path: looking.Stat(session, profile, reply, path, True),
           "LSTAT": lambda session, profile, reply, path: looking.Stat(session, profile, reply, path, False)}
MAKING = {"MKDIR": changing.Mkdir, "OPEN": changing.Opening}
BY_TWO = {"RENAME": changing.Rename, "POSIX-RENAME": changing.PosixRename}
