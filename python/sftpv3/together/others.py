"""Changes that no session shows: what somebody else may have done below some paths.

A reply tells of changes that could make it right: of its path, that something was made there or removed; of attributes,
a SETSTAT of them; of the bytes that a READ returned, a WRITE of these, or another size; of the target of a link, a
SYMLINK. The search may put such a change where a reply is wrong. It stands in the order like the requests of one more
session, the last one, in which each request was answered at once.
"""
from __future__ import annotations

from collections.abc import Iterator
from typing import Any, NamedTuple, Optional

from sftpv3.together.deeds import Deed, Parts
from sftpv3.together.outside import packets, trees
from sftpv3.together.paths import Path, parts_of
from sftpv3.together.profiles import Profile
from sftpv3.together.requests import Request
from sftpv3.together.states import State

# Up to so many requests of a set, an exploration tries each change of each reply at each place.
MOST_FOR_ALL = 60

# The most requests of a change.
STEPS_EACH = 3

LOWER, FILE_TYPE, TYPES = 0o7777, 0o100000, 0o170000


class Change(NamedTuple):
    """A change: its request with the path first, and the other fields. WRITE has an offset and bytes, and OPEN makes a
    file."""

    name: str
    path: bytes
    rest: tuple

    def requests(self, handle: bytes) -> list[tuple[str, list[Any]]]:
        """What a session would ask to make it."""
        if self.name == "WRITE":
            return [("OPEN", [self.path, packets.WRITE, {}]), ("WRITE", [handle, *self.rest]), ("CLOSE", [handle])]
        if self.name == "OPEN":
            return [("OPEN", [self.path, packets.WRITE | packets.CREAT | packets.EXCL, dict(self.rest)]),
                    ("CLOSE", [handle])]
        if self.name in ("SETSTAT", "MKDIR"):
            return [(self.name, [self.path, dict(self.rest)])]
        return [(self.name, [*self.rest, self.path])]

    def follows(self) -> bool:
        return self.name in ("WRITE", "SETSTAT")


class Invented(Deed):
    """A change in an order: `steps` are its requests, each answered."""

    __slots__ = ("change", "steps")

    def __init__(self, session: int, index: int, change: Change):
        super().__init__(session, index, 0, 0, packets.Request(0, change.name, []))
        self.change, self.steps = change, []


class Steps(Request):
    """The requests of a change, one behind the other, below the paths that are open to others."""

    def __init__(self, session: int, profile: Profile, others: "Others", deed: Invented, path: Path):
        super().__init__(session, profile, None)
        self.others, self.deed, self.path = others, deed, path

    def act(self, state: State) -> bool:
        place = state.walk(self.path, self.deed.change.follows())
        if isinstance(place, str) or not self.others.is_open(place.names):
            return False
        return all(act.act(state) for step in self.deed.steps for act in step.acts)


class Others:
    """The changes of a set: where they may be, how many, and of which each reply tells. `count` has how many there are
    in an order."""

    def __init__(self, sessions: list[list[Deed]], state: State, profile: Profile, paths: list[bytes], most: int):
        self.session, self.state, self.profile, self.most = len(sessions), state, profile, most
        self.places = [state.path(path).parts for path in paths]
        self.count = 0
        self.opened: dict[Deed, bytes] = {}
        for deeds in sessions:
            self.note_opened(deeds)
        self.changes: list[Change] = []
        self.numbers: dict[Change, int] = {}
        is_small = sum(map(len, sessions)) <= MOST_FOR_ALL
        for deed in (deed for deeds in sessions for deed in deeds if is_small):
            self.told_by(deed, 0)
        self.everywhere = list(range(len(self.changes)))

    def note_opened(self, deeds: list[Deed]) -> None:
        """Notes for each request with a handle by which path that was opened."""
        paths: dict[bytes, bytes] = {}
        for deed in deeds:
            request, reply = deed.request, deed.reply
            if request.name in ("OPEN", "OPENDIR") and reply is not None and reply.name == "HANDLE":
                paths[reply.fields[0]] = request.fields[0]
            elif packets.LAYOUTS[request.name][1].startswith("handle") and request.fields[0] in paths:
                self.opened[deed] = paths[request.fields[0]]

    def is_full(self) -> bool:
        return self.count >= self.most

    def is_open(self, names: list[bytes]) -> bool:
        """Whether others may change what has this place: below one of the paths, or there."""
        return bool(names) and any(tuple(names[:len(place)]) == place for place in self.places)

    def told_by(self, deed: Deed, done: int) -> list[int]:
        """The numbers of the changes of which a reply tells, but for parts that are done, as bits."""
        found = []
        for part, change in changes_told(deed, self.opened.get(deed)):
            if part is None or not done >> part & 1:
                number = self.numbers.setdefault(change, len(self.changes))
                if number == len(self.changes):
                    self.changes.append(change)
                found.append(number)
        return list(dict.fromkeys(found))

    def set_count(self, count: int) -> None:
        self.count = count

    def deed(self, number: int) -> Invented:
        """A change as it is done next."""
        change = self.changes[number]
        index = STEPS_EACH * self.count
        found = Invented(self.session, index, change)
        handle = b"others%d" % index
        for at, (name, fields) in enumerate(change.requests(handle)):
            found.steps.append(self.step(index + at, name, fields, handle))
        found.acts = [Steps(self.session, self.profile, self, found, self.state.path(change.path))]
        found.is_choice = True
        return found

    def step(self, index: int, name: str, fields: list[Any], handle: bytes) -> Deed:
        request = packets.Request(index + 1, name, wire_order(name, fields, self.profile))
        found = Deed(self.session, index, 0, 0, request)
        reply = ("HANDLE", [handle]) if name == "OPEN" else ("STATUS", [0, b"", b""])
        found.reply = packets.Packet(index + 1, *reply)
        found.prepare(self.state, self.profile, Parts(False, False))
        return found


def wire_order(name: str, fields: list[Any], profile: Profile) -> list[Any]:
    """The fields of a request as the server takes them: SYMLINK has two orders."""
    return fields[::-1] if name == "SYMLINK" and profile.is_symlink_draft else fields


# A change, and the part of the request that tells of it, if it is one.
Told = tuple[Optional[int], Change]


def changes_told(deed: Deed, opened: Optional[bytes]) -> Iterator[Told]:
    """The changes of which the reply to a request tells; `opened` is the path by which its handle was opened."""
    reply = deed.reply
    if reply is None:
        return
    if deed.request.name == "READDIR":
        if opened is not None and reply.name == "NAME":
            for part, (entry, _, told) in enumerate(reply.fields[0]):
                if entry not in (b".", b".."):
                    yield from ((part if len(deed.acts) > 1 else None, it) for it in of_name(opened, entry, told))
        return
    paths = paths_of(deed.request)
    for path in paths or [opened]:
        if path is not None:
            yield from ((None, change) for change in of_path(path, deed, bool(paths)))


def paths_of(request: packets.Packet) -> list[bytes]:
    """The paths that a request has, but for the target of a link."""
    layout = packets.REQUESTS[request.name][1].split()
    return [value for name, value in zip(layout, request.fields) if name in ("path", "new_path", "link")]


def of_name(folder: bytes, entry: bytes, told: dict) -> list[Change]:
    path = folder.rstrip(b"/") + b"/" + entry if folder else entry
    return [*of_place(path), *of_attributes(path, told)]


def of_path(path: bytes, deed: Deed, is_asked: bool) -> list[Change]:
    reply, fields = deed.reply, deed.request.fields
    found = of_place(path) if is_asked else []
    if reply.name == "ATTRS":
        found += of_attributes(path, reply.fields[0])
    if deed.request.name == "READ":
        if reply.name == "DATA":
            found.append(Change("WRITE", path, (fields[1], reply.fields[0])))
            found.append(resized(path, fields[1] + len(reply.fields[0])))
        elif reply.fields[0] == 1:
            found.append(resized(path, fields[1]))
    if deed.request.name == "READLINK" and reply.name == "NAME" and reply.fields[0]:
        found.append(Change("SYMLINK", path, (reply.fields[0][0][0],)))
    return found


def of_place(path: bytes) -> list[Change]:
    """That something was removed, or made."""
    if not parts_of(path) or not trees.is_good_path(path):
        return []
    return [Change("REMOVE", path, ()), Change("RMDIR", path, ()), Change("OPEN", path, ()),
            Change("MKDIR", path, ())]


def of_attributes(path: bytes, told: dict) -> list[Change]:
    """That what is shown was set."""
    found = []
    if "permissions" in told and "owner" in told:
        found.append(Change("SETSTAT", path, (("permissions", told["permissions"] & LOWER), ("owner", told["owner"]))))
    if "size" in told and told.get("permissions", FILE_TYPE) & TYPES == FILE_TYPE:
        found.append(resized(path, told["size"]))
    return found


def resized(path: bytes, size: int) -> Change:
    return Change("SETSTAT", path, (("size", size),))
