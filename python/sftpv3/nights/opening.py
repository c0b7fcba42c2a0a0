"""Places that are open: nothing is claimed of what is there or below, until the folder is compared or a session tells.
docs/OPERATORS.md says what that means. Here a transcript gets a form without the requests at open places, which the
audit then judges: each of these becomes one for an extension that no server has, and its refusal, so all records keep
their numbers."""
import fnmatch
import os
import re
from typing import Dict, Iterable, List, NamedTuple, Optional, Sequence, Set, Tuple

from sftpv3.codec import (BEGUN, CLIENT, CREAT, EXCL, LAYOUTS, SERVER, Packet, encode, put_records, read, records,
                          status)
from sftpv3.codec.packets import NO_SUCH_FILE, OK, OP_UNSUPPORTED, request
from sftpv3.nights.causes import MOST_LINKS, absolute, changed_by, is_failure, is_within, paths_of

# The extension that stands for a request at an open place.
NOTHING = b"open-place@sftpv3.test"
MOVES = ("RENAME", "POSIX-RENAME")
# Requests that show or set the attributes of what they name.
OF_ATTRIBUTES = ("STAT", "LSTAT", "FSTAT", "SETSTAT", "FSETSTAT")
# Extensions that are not judged but for their form, and have a path first.
WITH_PATH = (b"statvfs@openssh.com", b"expand-path@openssh.com", b"lsetstat@openssh.com")
TYPES, DIRECTORY = 0o170000, 0o040000


class Place(NamedTuple):
    """An open place: with all that is below it, or in its attributes alone."""

    path: bytes
    is_whole: bool = True


class Pattern:
    """What --volatile names: a path of which each name may have the signs of a shell."""

    def __init__(self, text: bytes) -> None:
        self.names = [re.compile(fnmatch.translate(os.fsdecode(it)).encode("utf-8", "surrogateescape"), re.DOTALL)
                      for it in text.strip(b"/").split(b"/")]
        plain = [it for it in text.strip(b"/").split(b"/")]
        fixed = next((at for at, it in enumerate(plain) if re.search(rb"[*?[]", it)), len(plain))
        # the directory below which all are that it names
        self.front = b"/" + b"/".join(plain[:min(fixed, len(plain) - 1)])

    def covers(self, path: bytes) -> bool:
        """Whether it names this place, or one above it."""
        names = path.strip(b"/").split(b"/")
        return len(names) >= len(self.names) and all(one.fullmatch(it) for one, it in zip(self.names, names))


class Open:
    """The places that are open. None is closed of what `is_firm`."""

    def __init__(self, places: Iterable[Place] = (), patterns: Sequence[Pattern] = (), is_firm: bool = False) -> None:
        self.places, self.patterns, self.is_firm = dict.fromkeys(places), list(patterns), is_firm

    def __bool__(self) -> bool:
        return bool(self.places or self.patterns)

    def copy(self) -> "Open":
        return Open(self.places, self.patterns, self.is_firm)

    def whole(self) -> List[bytes]:
        return [it.path for it in self.places if it.is_whole]

    def has(self, path: bytes) -> bool:
        """Whether a place is open, or one above it is."""
        return any(is_within(path, it) for it in self.whole()) or any(it.covers(path) for it in self.patterns)

    def has_attributes(self, path: bytes) -> bool:
        """Whether the attributes of a place are open."""
        return Place(path, False) in self.places or self.has(path)

    def is_above(self, path: bytes) -> bool:
        """Whether an open place may be below this one."""
        return any(is_within(it, path) for it in self.whole()) or any(
            is_within(it.front, path) or is_within(path, it.front) for it in self.patterns)

    def noted(self) -> List:
        """The places as they are kept from night to night."""
        return [[it.path.hex(), it.is_whole] for it in self.places]

    def open(self, places: Iterable[Place]) -> None:
        for it in places:
            self.places[it] = None

    def close(self, path: bytes) -> bool:
        """Closes a place of which it is known that nothing is there, if it can be: not what --volatile names."""
        if self.is_firm or Place(path) not in self.places or any(it.covers(path) for it in self.patterns):
            return False
        rest = [it for it in self.places if not is_within(it.path, path)]
        if any(is_within(path, it.path) for it in rest if it.is_whole):
            return False
        self.places = dict.fromkeys(rest)
        return True


class Reduced(NamedTuple):
    """A transcript without its requests at open places, how many these are, and what is open behind it."""

    data: bytes
    count: int
    open: Open


class Known(NamedTuple):
    """What is known of the tree: where its links lead, and the owner, the group and the permissions of the directories
    whose attributes are open."""

    links: Dict[bytes, bytes]
    owners: Dict[bytes, Tuple[int, int, int]]


def led(path: bytes, links: Dict[bytes, bytes]) -> bytes:
    """Where a path from the root leads by these links, as the system walks it."""
    done: List[bytes] = []
    names, count = path.split(b"/")[::-1], 0
    while names:
        name = names.pop()
        target = links.get(b"/" + b"/".join([*done, name])) if count < MOST_LINKS else None
        if name == b"..":
            del done[-1:]
        elif target is not None and name not in (b"", b"."):
            done, count = [] if target.startswith(b"/") else done, count + 1
            names += target.split(b"/")[::-1]
        elif name not in (b"", b"."):
            done.append(name)
    return b"/" + b"/".join(done)


class Reducing:
    """Goes through a transcript, and leaves out the requests at open places."""

    def __init__(self, given: Open, home: bytes, known: Known) -> None:
        self.open, self.home, self.links, self.owners = given.copy(), home, dict(known.links), known.owners
        # by which path a handle was opened, and whether that was left out
        self.handles: Dict[bytes, Tuple[bytes, bool]] = {}

    def ways(self, path: bytes) -> Tuple[bytes, bytes]:
        """A path by the letter, and where it leads by links."""
        return absolute(path, self.home), led(os.path.join(self.home, path), self.links)

    def is_at(self, path: bytes) -> bool:
        return any(map(self.open.has, self.ways(path)))

    def is_left_out(self, asked: Packet, reply: Optional[Packet]) -> bool:
        """Whether a request is at an open place. What it does elsewhere makes that open, too."""
        if LAYOUTS[asked.name][1].startswith("handle"):
            return self.is_of_handle(asked)
        if asked.name in (*MOVES, "HARDLINK"):
            return self.is_between(asked, reply)
        if asked.name == "EXTENDED":
            return asked.fields[0] in WITH_PATH and self.is_at(first_string(asked.fields[1]))
        return any(self.is_of_path(asked, reply, it) for it in paths_of(asked))

    def is_of_handle(self, asked: Packet) -> bool:
        path, is_out = self.handles.get(asked.fields[0], (None, False))
        if path is None:
            return False
        return is_out or self.is_at(path) or asked.name in OF_ATTRIBUTES and self.open.has_attributes(path)

    def is_of_path(self, asked: Packet, reply: Optional[Packet], text: bytes) -> bool:
        """The same of a request with one path."""
        path, target = self.ways(text)
        if self.is_at(text):
            if is_gone_behind(asked, reply):
                self.open.close(path)
                return True
            return not (was_absent(asked, reply) and path == target and self.open.close(path))
        if asked.name == "RMDIR" and reply is not None and is_failure(reply):
            return self.open.is_above(path)
        return asked.name in OF_ATTRIBUTES and (self.open.has_attributes(path) or self.open.has_attributes(target))

    def is_between(self, asked: Packet, reply: Optional[Packet]) -> bool:
        """The same of a request with two paths."""
        source, target = paths_of(asked)
        found = [self.is_at(source), self.is_at(target)]
        is_failed = reply is not None and is_failure(reply)
        if any(found):
            if not is_failed:
                self.open.open(Place(it) for text in (source, target) for it in self.ways(text))
            return True
        if asked.name in MOVES and is_failed:
            return self.open.is_above(self.ways(target)[0])
        if asked.name in MOVES and reply is not None:
            self.move(self.ways(source)[0], self.ways(target)[0])
        return False

    def move(self, source: bytes, target: bytes) -> None:
        """What is open below a directory that was renamed is so at its new place, and so are links."""
        self.open.open([Place(target + it.path[len(source):], it.is_whole)
                        for it in self.open.places if is_within(it.path, source)])
        self.links.update([(target + it[len(source):], led) for it, led in self.links.items() if is_within(it, source)])

    def note(self, asked: Packet, reply: Optional[Packet], is_out: bool) -> None:
        """Notes which handle was opened, and which link was made."""
        if reply is None:
            return
        if reply.name == "HANDLE":
            self.handles[reply.fields[0]] = self.ways(asked.fields[0])[1], is_out
        elif asked.name == "SYMLINK" and not is_failure(reply):
            target, link = asked.fields
            self.links[absolute(link, self.home)] = target

    def listed(self, asked: Packet, reply: Packet) -> Optional[Packet]:
        """The reply of a listing without the entries that are open, and with the attributes of the tree where these
        are; None if no entry is left."""
        folder, _ = self.handles.get(asked.fields[0], (None, False))
        if folder is None:
            return reply
        left = [self.known_of(folder, it) for it in reply.fields[0]
                if it[0] in (b".", b"..") or not self.open.has(folder.rstrip(b"/") + b"/" + it[0])]
        return reply if left == reply.fields[0] else Packet(reply.number, reply.name, [left]) if left else None

    def known_of(self, folder: bytes, entry):
        """An entry of a listing, with what is known of it if its attributes are open."""
        name, line, told = entry
        path = led(folder + b"/" + name, {})
        if Place(path, False) not in self.open.places or path not in self.owners:
            return entry
        *owner, permissions = self.owners[path]
        known = {"owner": tuple(owner), "permissions": DIRECTORY | permissions}
        return name, line, {it: known.get(it, value) for it, value in told.items()}


def first_string(data: bytes) -> bytes:
    return data[4:4 + int.from_bytes(data[:4], "big")]


def is_gone_behind(asked: Packet, reply: Optional[Packet]) -> bool:
    """Whether nothing is at the place of a request that the tree without that place does not know."""
    return asked.name in ("REMOVE", "RMDIR") and reply is not None and not is_failure(reply)


def was_absent(asked: Packet, reply: Optional[Packet]) -> bool:
    """Whether a reply tells that nothing was at the place of its request."""
    if reply is None:
        return False
    if asked.name == "LSTAT":
        return reply.name == "STATUS" and reply.fields[0] == NO_SUCH_FILE
    if asked.name == "OPEN":
        return asked.fields[1] & (CREAT | EXCL) == CREAT | EXCL and reply.name == "HANDLE"
    return asked.name in ("MKDIR", "SYMLINK") and reply.name == "STATUS" and reply.fields[0] == OK


def paired(found: Sequence[Tuple[bytes, bytes]]) -> List[Tuple[int, Packet, Optional[int], Optional[Packet]]]:
    """The requests of records in the order asked, each with its reply, if it has one, and where both are. Malformed if
    a packet is."""
    waiting: Dict[int, int] = {}
    pairs: List[Tuple[int, Packet, Optional[int], Optional[Packet]]] = []
    for at, (side, packet) in enumerate(found[2:], 2):
        one = read(side, packet)
        if side == CLIENT:
            waiting[one.number] = len(pairs)
            pairs.append((at, one, None, None))
        elif one.number in waiting:
            which = waiting.pop(one.number)
            pairs[which] = (*pairs[which][:2], at, one)
    return pairs


def is_given_twice(pairs) -> bool:
    """Whether a handle was given while it was open: then its requests cannot be told apart."""
    opened: Set[bytes] = set()
    replied = sorted((it for it in pairs if it[3] is not None), key=lambda it: it[2])
    for _, asked, _, reply in replied:
        if reply.name == "HANDLE":
            if reply.fields[0] in opened:
                return True
            opened.add(reply.fields[0])
        elif asked.name == "CLOSE" and not is_failure(reply):
            opened.discard(asked.fields[0])
    return False


def reduced(data: bytes, home: bytes, given: Open, known: Known) -> Optional[Reduced]:
    """A transcript without its requests at open places; None if it cannot be told which these are. Malformed if a
    packet is."""
    found, going, count = list(records(data)), Reducing(given, home, known), 0
    pairs = paired(found)
    if is_given_twice(pairs):
        return None
    for at, asked, reply_at, reply in pairs:
        is_out = going.is_left_out(asked, reply)
        going.note(asked, reply, is_out)
        if not is_out and asked.name == "READDIR" and reply is not None and reply.name == "NAME":
            left = going.listed(asked, reply)
            is_out = left is None
            if left is not None and left is not reply:
                found[reply_at] = SERVER, encode(left)
        if is_out:
            count += 1
            found[at] = CLIENT, request(asked.number, "EXTENDED", NOTHING, b"")
            if reply_at is not None:
                found[reply_at] = SERVER, status(asked.number, OP_UNSUPPORTED)
    return Reduced(put_records(found), count, going.open)


def removals(entries: Iterable[Tuple[bytes, bool]]) -> bytes:
    """A transcript of a session that removes these entries, of which it is known which are directories."""
    found = list(BEGUN)
    ordered = sorted(entries, key=lambda it: (-it[0].count(b"/"), it[0]))
    for number, (path, is_directory) in enumerate(ordered, 1):
        found.append((CLIENT, request(number, "RMDIR" if is_directory else "REMOVE", path)))
        found.append((SERVER, status(number, OK)))
    return put_records(found)


# which places a session opens

def changed(data: bytes, home: bytes, known: Known) -> Optional[List[Tuple[bytes, bool]]]:
    """The places that a session may have changed, by the replies that it had, and whether that is in their attributes
    alone; None if that is not known. Malformed if a packet is."""
    going, found = Reducing(Open(), home, known), []
    for _, asked, _, reply in paired(list(records(data))):
        going.note(asked, reply, False)
        if reply is not None and is_failure(reply):
            continue
        places = changed_by(asked, {handle: path for handle, (path, _) in going.handles.items()}
                            if asked.name == "FSETSTAT" else {}, home)
        if places is None:
            return None
        is_of_attributes = asked.name in ("SETSTAT", "FSETSTAT")
        found += [(it, is_of_attributes) for path in sorted(places) for it in (path, led(path, going.links))]
    return list(dict.fromkeys(found))


# which places a refusal opens

def is_of_directory(reply: Packet) -> bool:
    return reply.name == "ATTRS" and reply.fields[0].get("permissions", 0) & TYPES == DIRECTORY


def listed_until(pairs, at: int, handle: bytes) -> Set[bytes]:
    """The names that a listing gave up to the record at this place, since its handle was opened."""
    names: Set[bytes] = set()
    for _, asked, reply_at, reply in pairs:
        if reply is None or reply_at > at:
            continue
        if reply.name == "HANDLE" and reply.fields[0] == handle:
            names = set()
        elif asked.name == "READDIR" and asked.fields[0] == handle and reply.name == "NAME":
            names |= {it[0] for it in reply.fields[0]}
    return names - {b".", b".."}


class Contradicted(NamedTuple):
    """What a refused reply was about: the request and its reply; its places; and if it is a listing, the names that it
    gave up to there."""

    asked: Packet
    reply: Packet
    paths: List[bytes]
    names: Optional[Set[bytes]]

    def is_of_attributes(self) -> bool:
        return self.asked.name in OF_ATTRIBUTES and is_of_directory(self.reply)


def contradicted(data: bytes, home: bytes, record: int, known: Known) -> Optional[Contradicted]:
    """What the reply with the number of a record was about; None if that is not known."""
    pairs = paired(list(records(data)))
    going = Reducing(Open(), home, known)
    for _, asked, reply_at, reply in pairs:
        if reply_at is not None and reply_at == record - 1:
            by_handle = LAYOUTS[asked.name][1].startswith("handle")
            paths = [going.handles[asked.fields[0]][0]] if by_handle and asked.fields[0] in going.handles else [
                it for text in paths_of(asked) for it in dict.fromkeys(going.ways(text))]
            names = listed_until(pairs, reply_at, asked.fields[0]) if asked.name == "READDIR" else None
            return Contradicted(asked, reply, paths, names) if paths else None
        going.note(asked, reply, False)
    return None


def places_of(one: Contradicted, children: Dict[bytes, bool]) -> List[Place]:
    """The places that a refused reply opens. Of a listing, these are the names of which the tree knows nothing, and at
    its end those that it did not give; and the directory as a whole, if it is none of these."""
    if one.names is None:
        return [Place(it, not one.is_of_attributes()) for it in one.paths]
    folder = one.paths[0].rstrip(b"/") + b"/"
    known = {it[len(folder):] for it in children}
    strange = one.names - known if one.reply.name == "NAME" else known - one.names
    return [Place(folder + it) for it in sorted(strange)] or [Place(one.paths[0])]
