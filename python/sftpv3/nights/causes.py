"""Why a session was refused, as far as the folder and the records of the night tell: a path outside of the folders, a
full disk, a change by a program of the machine, the client, or else the server.

Only what is seen counts. A place is outside by its names, and by links that no session of the night touched. A disk was
full if a WRITE failed and a part of its bytes was there later. A program of the machine changed a place if the reply is
right for the folder as it is now, and no session of the night may have changed that place. All else is the server's."""
import os
import re
import subprocess
from typing import Callable, Dict, Iterable, List, NamedTuple, Optional, Sequence, Set, Tuple

from sftpv3.codec import (CLIENT, CREAT, LAYOUTS, SERVER, TRUNC, WRITE, Malformed, Packet, encode, put_records, read,
                          records)
from sftpv3.codec.packets import APPEND, FAILURE, OK, READ

REFUSED = re.compile(r"refused record ([0-9]+): ([A-Za-z]+)")
IN_A_SET = re.compile(r"refused: (\S+)\.transcript record ([0-9]+): ")
WIRE = re.compile(r"sftpv3: transcript: record ([0-9]+): ")
LINK = re.compile(r'[0-9]+ L "(.*)" "(.*)"')
ESCAPED = re.compile(rb"\\x([0-9a-f]{2})")

OUTSIDE, FULL, LOCALLY, OVERLAP = "outside", "a full disk", "changed locally", "overlap"
SERVER_S, CLIENT_S, RECORD = "the server", "the client", "the record"
# What each cause means, in a line.
MEANS = {
    OUTSIDE: "the path leaves the folders that the tree has",
    FULL: "a WRITE failed, and a part of its bytes was there later",
    LOCALLY: "the reply shows what the folder has now, and no session of this night touched that place",
    SERVER_S: "its reply is wrong, or something changed the folder and changed it back",
    CLIENT_S: "it broke the protocol",
    RECORD: "it is cut or was changed, or has what no tree follows",
}
# The kinds of a refusal that are the client's.
OF_CLIENT = ("IdInUse", "Window")
# The most links on the way of a path, and the most bytes of transcripts of a night that are read for this.
MOST_LINKS, MOST_BYTES = 40, 1 << 26
CHANGING = WRITE | APPEND | CREAT | TRUNC
# Requests that change the places that they name, besides an OPEN to write.
CHANGERS = ("SETSTAT", "REMOVE", "MKDIR", "RMDIR", "RENAME", "POSIX-RENAME", "HARDLINK", "SYMLINK")
# Extensions that the audit does not judge, and that change nothing.
LOOKING = {b"limits@openssh.com", b"statvfs@openssh.com", b"fstatvfs@openssh.com", b"expand-path@openssh.com",
           b"users-groups-by-id@openssh.com", b"home-directory"}
PATHS = ("path", "new_path", "link")


class Exchange(NamedTuple):
    """A request, the number of its reply's record, and that reply; of a request by a handle, the place that is open."""

    request: Packet
    record: int
    reply: Packet
    path: Optional[bytes]


def absolute(path: bytes, home: bytes) -> bytes:
    """A path as one from the root, without `.` and with `..` taken by the letter."""
    return os.path.normpath(os.path.join(home, path) if path else home).replace(b"//", b"/")


def paths_of(request: Packet) -> List[bytes]:
    return [value for kind, value in zip(LAYOUTS[request.name][1].split(), request.fields) if kind in PATHS]


def exchanges(data: bytes, home: bytes) -> Iterable[Exchange]:
    """The requests of a transcript that have replies, in the order of these; it ends where the transcript is
    malformed."""
    waiting: Dict[int, Packet] = {}
    opened: Dict[bytes, bytes] = {}
    for number, (side, packet) in enumerate(records(data), 1):
        if number <= 2:
            continue
        try:
            found = read(side, packet)
        except Malformed:
            return
        if side == CLIENT:
            waiting[found.number] = found
            continue
        request = waiting.pop(found.number, None)
        if request is None:
            continue
        names = paths_of(request)
        is_by_handle = LAYOUTS[request.name][1].startswith("handle")
        path = absolute(names[0], home) if names else opened.get(request.fields[0]) if is_by_handle else None
        if found.name == "HANDLE" and path is not None:
            opened[found.fields[0]] = path
        yield Exchange(request, number, found, path)


def is_failure(reply: Packet) -> bool:
    return reply.name == "STATUS" and reply.fields[0] != OK


def changed_by(request: Packet, opened: Dict[bytes, bytes], home: bytes) -> Optional[Set[bytes]]:
    """The places that a request may change, where handles are open for these; None if that is not known."""
    if request.name == "EXTENDED":
        return set() if request.fields[0] in LOOKING else None
    if request.name == "FSETSTAT":
        return {opened[request.fields[0]]} if request.fields[0] in opened else None
    is_changer = request.name in CHANGERS or request.name == "OPEN" and request.fields[1] & CHANGING
    return {absolute(it, home) for it in paths_of(request)} if is_changer else set()


class Touched:
    """The places that sessions may have changed: those with what is below and above them, and those alone of which they
    set attributes, or where a request with one path failed."""

    def __init__(self) -> None:
        self.near: Set[bytes] = set()
        self.alone: Set[bytes] = set()

    def add(self, request: Packet, places: Set[bytes], is_failed: bool) -> None:
        is_alone = request.name in ("SETSTAT", "FSETSTAT") or is_failed and len(paths_of(request)) == 1
        (self.alone if is_alone else self.near).update(places)

    def take(self, other: "Touched") -> None:
        self.near |= other.near
        self.alone |= other.alone

    def has(self, path: bytes) -> bool:
        return path in self.alone or is_near(path, self.near)


def touched(data: bytes, home: bytes) -> Optional[Touched]:
    """The places that a session may have changed; None if that is not known."""
    found = Touched()
    waiting: Dict[int, Tuple[Packet, Set[bytes]]] = {}
    opened: Dict[bytes, bytes] = {}
    for number, (side, packet) in enumerate(records(data), 1):
        if number <= 2:
            continue
        try:
            one = read(side, packet)
        except Malformed:
            if side == CLIENT:
                return None
            continue
        if side == CLIENT:
            places = changed_by(one, opened, home)
            if places is None:
                return None
            waiting[one.number] = one, places
        elif one.number in waiting:
            request, places = waiting.pop(one.number)
            found.add(request, places, is_failure(one))
            if one.name == "HANDLE":
                opened[one.fields[0]] = absolute(request.fields[0], home)
    for request, places in waiting.values():
        found.add(request, places, False)
    return found


def is_within(path: bytes, folder: bytes) -> bool:
    return path == folder or path.startswith(folder.rstrip(b"/") + b"/")


def is_near(path: bytes, places: Set[bytes]) -> bool:
    """Whether a place is one of these, or below or above one."""
    return any(is_within(path, it) or is_within(it, path) for it in places)


def followed(path: bytes, links: Dict[bytes, bytes]) -> bytes:
    """Where a path leads by these links."""
    for _ in range(MOST_LINKS):
        names = path.split(b"/")[1:]
        places = [b"/" + b"/".join(names[:count]) for count in range(1, len(names) + 1)]
        link = next((it for it in places if it in links), None)
        if link is None:
            break
        path = absolute(os.path.join(os.path.dirname(link), links[link]) + path[len(link):], b"/")
    return path


def links_of(program: str, tree: str) -> Dict[bytes, bytes]:
    """The links of a tree file, by their places."""
    found = {}
    with subprocess.Popen([program, "show", tree], stdin=subprocess.DEVNULL, stdout=subprocess.PIPE) as shown:
        for line in shown.stdout:
            link = LINK.fullmatch(line.decode(errors="replace").rstrip("\n"))
            if link:
                found[unescaped(link[1])] = unescaped(link[2])
    return found


def unescaped(text: str) -> bytes:
    return ESCAPED.sub(lambda it: bytes([int(it[1], 16)]), text.encode())


def is_partly_written(before: Sequence[Exchange], last: Exchange) -> bool:
    """Whether attributes show a file that ends within the bytes of a WRITE that failed."""
    size = last.reply.fields[0].get("size") if last.reply.name == "ATTRS" else None
    return size is not None and any(
        it.request.name == "WRITE" and it.path == last.path and it.reply.name == "STATUS" and
        it.reply.fields[0] == FAILURE and
        it.request.fields[1] < size < it.request.fields[1] + len(it.request.fields[2]) for it in before)


def alone(data: bytes, before: Sequence[Exchange], last: Exchange) -> Optional[bytes]:
    """A transcript in which the request of a refused reply is asked alone: by a handle that was got for it, and if it
    lists, behind the listings before it. None if what it changes cannot be told alone."""
    found = records(data)[:2]
    request, reply = last.request, last.reply
    if request.name in ("READ", "FSTAT", "READDIR"):
        opening = next((it for it in reversed(before) if it.reply.name == "HANDLE" and
                        it.reply.fields[0] == request.fields[0]), None)
        if opening is None:
            return None
        asked = opening.request
        if asked.name == "OPEN":
            asked = Packet(asked.number, "OPEN", [asked.fields[0], READ, {}])
        listed = [it for it in before if it.record > opening.record and it.request.name == "READDIR" and
                  it.request.fields == request.fields] if request.name == "READDIR" else []
        pairs = [(asked, opening.reply), *((it.request, it.reply) for it in listed), (request, reply)]
    elif request.name in ("STAT", "LSTAT", "READLINK", "OPENDIR") or is_failure(reply):
        pairs = [(request, reply)]
    else:
        return None
    if any(LAYOUTS[it.name][1].startswith("handle") for it, _ in pairs) and len(pairs) == 1:
        return None
    for one, other in pairs:
        found += [(CLIENT, encode(one)), (SERVER, encode(other))]
    return put_records(found)


class Places:
    """What a night knows of the folder: where the folders are, what is mounted in them and left out, the links of the
    tree as it is now, and the places that sessions touched; None if these are not known."""

    def __init__(self, folders: Sequence[bytes], links: Dict[bytes, bytes], places: Optional[Touched],
                 is_right_now: Callable[[bytes], bool]):
        self.folders, self.places, self.is_right_now = folders, places, is_right_now
        self.links = {it: target for it, target in links.items() if places is not None and not places.has(it)}

    def is_outside(self, path: bytes) -> bool:
        return not any(is_within(followed(path, self.links), it) for it in self.folders)

    def cause(self, data: bytes, home: bytes, record: int) -> str:
        """Why the reply of a record was refused."""
        before: List[Exchange] = []
        last = None
        for it in exchanges(data, home):
            if it.record == record:
                last = it
                break
            before.append(it)
        if last is None:
            return SERVER_S
        paths = [absolute(it, home) for it in paths_of(last.request)] or [last.path]
        if None not in paths and any(map(self.is_outside, paths)):
            return OUTSIDE
        if is_partly_written(before, last):
            return FULL
        return LOCALLY if self.was_changed(data, before, last, paths) else SERVER_S

    def was_changed(self, data: bytes, before: Sequence[Exchange], last: Exchange, paths: Sequence) -> bool:
        """Whether the reply is right for the folder as it is now, and no session may have made that so."""
        if self.places is None or None in paths or any(map(self.places.has, paths)):
            return False
        asked = alone(data, before, last)
        return asked is not None and self.is_right_now(asked)


def place_of_refusal(line: str) -> Tuple[Optional[int], str]:
    """The number of the record that a verdict refuses, and the kind."""
    found = REFUSED.search(line)
    if found:
        return int(found[1]), found[2]
    found = IN_A_SET.search(line)
    return (int(found[2]), "NotAllowed") if found else (None, "")


def of_protocol(kind: str) -> Optional[str]:
    """The cause of a refusal that its kind tells."""
    return CLIENT_S if kind in OF_CLIENT else SERVER_S if kind == "UnknownReply" else None
