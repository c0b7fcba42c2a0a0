"""The times that a session sets, and whether replies show them.

Audits leave times free, as the draft does not say when they change. But clients that keep them, as `put -p` and mounts
do, rely on SETSTAT and FSETSTAT: as long as nothing is asked that may change a time, a reply that shows times has to
show those that were set. A server may refuse to set them, and its attributes may have none.

One file or directory is followed at a time, by the paths and handles that surely lead to it. What may change something
forgets it, and so does what was in flight together with such a request.
"""
import posixpath
from contextlib import suppress
from dataclasses import dataclass, field
from typing import Dict, Iterator, Optional, Set, Tuple

from sftpv3 import codec

# Requests that change nothing, and those of them that may change when something was last read.
LOOKERS = {"STAT", "LSTAT", "FSTAT", "READLINK", "REALPATH", "CLOSE", "FSYNC"}
READERS = {"READ", "OPENDIR", "READDIR"}

# Requests behind which another thing may be where a path leads.
MOVERS = {"REMOVE", "RMDIR", "RENAME", "POSIX-RENAME"}

# Attributes whose change leaves the times as they are.
BESIDE = {"permissions", "owner"}

# Times that each usual file system keeps: none has those before 1980. FAT has only even seconds.
KEPT = range(1 << 29, 1 << 31)

# The bits of permissions that tell what something is, and what they are of a link.
KIND, LINK = 0o170000, 0o120000

ACCESS, MODIFICATION = "another time of access", "another time of modification"
SWAPPED = "the two times the other way round"


@dataclass
class Followed:
    """What was set last, of what, and by which request. The time of access is None once something may have read it."""

    access: Optional[int]
    modification: int
    name: str
    paths: Set[bytes] = field(default_factory=set)
    handles: Set[bytes] = field(default_factory=set)

    def differs(self, times: Tuple[int, int]) -> Optional[str]:
        """How these times differ from what was set, in words, or None."""
        access, modification = times
        is_right = self.access in (None, access)
        if modification == self.modification:
            return None if is_right else ACCESS
        return SWAPPED if times == (self.modification, self.access) else MODIFICATION


@dataclass
class Asked:
    """A request without a reply, with what was known when it was sent: how many changes and reads had begun or ended,
    and what was followed, if no change was in flight."""

    request: codec.Request
    place: int
    changes: int
    reads: int
    is_alone: bool
    followed: Optional[Followed]


@dataclass
class Finding:
    """A reply with other times than were set: the places of its request and of itself among the records, from 0."""

    request: int
    reply: int
    asked: codec.Request
    expected: str
    found: str


def changes(request: codec.Request) -> bool:
    """Whether a request may change times, or what a path leads to."""
    if request.name == "OPEN":
        return bool(request.fields[1] & (codec.CREAT | codec.TRUNC))
    if request.name in ("SETSTAT", "FSETSTAT"):
        return not request.fields[1].keys() <= BESIDE
    return request.name not in LOOKERS | READERS


def reads(request: codec.Request) -> bool:
    return request.name in READERS or request.name == "OPEN"


class Session:
    """A session as far as its records are read, of a server that keeps times of access or does not."""

    def __init__(self, keeps_access=True):
        self.keeps_access = keeps_access
        self.asked: Dict[int, Asked] = {}
        # how many changes, and how many reads, were asked for or answered; those in flight
        self.changes = self.reads = 0
        self.changing: Set[int] = set()
        self.reading: Set[int] = set()
        # the paths by which handles were opened, as long as they surely lead to the same
        self.opened: Dict[bytes, bytes] = {}
        self.followed: Optional[Followed] = None

    def ask(self, request: codec.Request, place: int):
        is_alone = not self.changing
        self.asked[request.number] = asked = Asked(request, place, 0, 0, is_alone, self.followed)
        if reads(request):
            self.reads += 1
            self.reading.add(request.number)
            if self.followed:
                self.followed.access = None
        if changes(request):
            self.changes += 1
            self.changing.add(request.number)
            self.followed = None
        if request.name in MOVERS:
            self.opened.clear()
        if request.name == "CLOSE":
            self.forget(request.fields[0])
        asked.changes, asked.reads = self.changes, self.reads

    def forget(self, handle: bytes):
        self.opened.pop(handle, None)
        if self.followed:
            self.followed.handles.discard(handle)

    def answer(self, packet: bytes, place: int) -> Optional[Finding]:
        """Takes a reply. Gives what is wrong with its times."""
        reply = codec.Reply(packet)
        asked = self.asked.pop(reply.number, None)
        if asked is None:
            return None
        is_steady = asked.is_alone and asked.changes == self.changes
        found = self.compare(asked, packet, place) if is_steady and self.followed else None
        if reply.number in self.changing:
            self.changing.discard(reply.number)
            self.changes += 1
            if is_steady and reply.code == codec.OK:
                self.follow(asked)
        if reply.handle is not None:
            self.open(asked.request, reply.handle, is_steady)
        if reply.number in self.reading:
            self.reading.discard(reply.number)
            self.reads += 1
        return found

    def restart(self):
        """The server is started again: no handle is left, and it may have read what is there."""
        self.opened.clear()
        if self.followed:
            self.followed.access = None
            self.followed.handles.clear()

    def open(self, request: codec.Request, handle: bytes, is_steady: bool):
        """Notes what a handle was opened by, if nothing was moved meanwhile."""
        self.forget(handle)
        if not is_steady:
            return
        self.opened[handle] = request.fields[0]
        if self.followed and request.fields[0] in self.followed.paths:
            self.followed.handles.add(handle)

    def follow(self, asked: Asked):
        """Follows what this request has set the times of, or moved within its directory."""
        request, before = asked.request, asked.followed
        if request.name in ("SETSTAT", "FSETSTAT"):
            self.followed = self.set_by(request)
        elif request.name in ("RENAME", "POSIX-RENAME") and before and request.fields[0] in before.paths:
            old, new = request.fields
            if posixpath.dirname(old) == posixpath.dirname(new):
                self.followed = Followed(before.access, before.modification, before.name, {new})
        if self.followed and (self.reading or asked.reads != self.reads):
            self.followed.access = None

    def set_by(self, request: codec.Request) -> Optional[Followed]:
        """What to follow behind a request that has set times."""
        thing, given = request.fields
        if not all(time in KEPT for time in given.get("times", (0,))):
            return None
        path = thing if request.name == "SETSTAT" else self.opened.get(thing)
        handles = {handle for handle, one in self.opened.items() if one == path}
        if request.name == "FSETSTAT":
            handles.add(thing)
        access, modification = given["times"]
        return Followed(access if self.keeps_access else None, modification, request.name,
                        set() if path is None else {path}, handles)

    def compare(self, asked: Asked, packet: bytes, place: int) -> Optional[Finding]:
        """What is wrong with the times that this reply shows of what is followed."""
        for times in self.shown(asked.request, packet):
            found = self.followed.differs(times)
            if found:
                expected = f"the times that {self.followed.name} set"
                return Finding(asked.place, place, asked.request, expected, found)
        return None

    def shown(self, request: codec.Request, packet: bytes) -> Iterator[Tuple[int, int]]:
        """The times that a reply shows of what is followed."""
        thing, given = request.fields[0], []
        if packet[4] == codec.ATTRS and request.name in ("STAT", "LSTAT") and thing in self.followed.paths:
            found = codec.attributes_in(packet)
            given = [found] if request.name == "STAT" or is_no_link(found) else []
        elif packet[4] == codec.ATTRS and request.name == "FSTAT" and thing in self.followed.handles:
            given = [codec.attributes_in(packet)]
        elif packet[4] == codec.NAME and request.name == "READDIR" and thing in self.opened:
            given = [it for name, _, it in codec.names_in(packet)
                     if posixpath.join(self.opened[thing], name) in self.followed.paths and is_no_link(it)]
        return (it["times"] for it in given if "times" in it)


def is_no_link(given: dict) -> bool:
    return given.get("permissions", LINK) & KIND != LINK


def findings(records, again: Optional[int] = None, keeps_access: bool = True) -> Iterator[Finding]:
    """The replies of a session with other times than were set: of each request, the first of each kind. At the place
    `again` the server was started again."""
    session, seen = Session(keeps_access), set()
    for place, (side, packet) in enumerate(records):
        if place < 2:
            continue
        if place == again:
            session.restart()
        with suppress(codec.Malformed):
            if side == codec.CLIENT:
                session.ask(codec.decode(packet), place)
                continue
            found = session.answer(packet, place)
            key = found and (found.asked.name, found.expected, found.found)
            if found and key not in seen:
                seen.add(key)
                yield found
