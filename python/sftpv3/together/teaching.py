"""What READs tell of the order of appends.

Bytes that were appended stay where they are as long as nobody cuts the file. So the READs of one path, put together,
are a picture of the file in which the payloads of WRITEs with APPEND stand one behind the other: where a payload
stands, there the file ended when it was written. Of a payload that was shown in part, its first or its last bytes are
enough if no other one has them. A picture in which READs contradict each other tells nothing. What is told is a hint:
the search may find it wrong.
"""
from __future__ import annotations

from bisect import bisect_left, bisect_right
from os.path import commonprefix
from typing import Optional

from sftpv3.together.deeds import Deed
from sftpv3.together.outside import packets
from sftpv3.together.states import State

# The fewest bytes by which a payload is known.
LEAST = 8

# For each byte of a picture, how many bytes of payloads it may be compared with.
MOST_COMPARED = 64


class Picture:
    """A file as READs showed it: its bytes, and for each whether it was shown."""

    def __init__(self) -> None:
        self.content, self.is_known = bytearray(), bytearray()
        self.is_right = True

    def add(self, offset: int, data: bytes) -> None:
        end = offset + len(data)
        if end > len(self.content):
            self.content.extend(bytes(end - len(self.content)))
            self.is_known.extend(bytes(end - len(self.is_known)))
        known, old = self.is_known[offset:end], self.content[offset:end]
        count = known.find(0)
        if count < 0:
            self.is_right = self.is_right and old == data
            return
        rest = any(known[count:]) and any(seen and one != other for seen, one, other in zip(known, old, data))
        self.is_right = self.is_right and old[:count] == data[:count] and not rest
        self.content[offset:end] = data
        self.is_known[offset:end] = b"\1" * len(data)

    def next_known(self, at: int) -> int:
        """The next byte that was shown."""
        found = self.is_known.find(1, at)
        return len(self.content) if found < 0 else found

    def from_here(self, at: int, most: int) -> bytes:
        """What was shown from a byte on, without a gap."""
        end = self.is_known.find(0, at, at + most)
        return bytes(self.content[at:at + most if end < 0 else end])

    def reversed(self) -> "Picture":
        found = Picture()
        found.content, found.is_known = self.content[::-1], self.is_known[::-1]
        return found


class Payloads:
    """Texts, in their order, among which one that another text begins with is found."""

    def __init__(self, texts: set[bytes]):
        self.texts = sorted(texts)
        self.longest = max(map(len, texts), default=0)
        self.beginnings = {text[:LEAST] for text in texts}

    def begun_by(self, text: bytes) -> Optional[bytes]:
        """The longest one that a text begins with. Of a text that ends before the longest one could, the only one that
        begins with it, if there is one."""
        found = self.longest_in(text)
        if found is not None or len(text) >= self.longest or len(text) < LEAST:
            return found
        at = bisect_left(self.texts, text)
        fits = [it for it in self.texts[at:at + 2] if it.startswith(text)]
        return fits[0] if len(fits) == 1 else None

    def longest_in(self, text: bytes) -> Optional[bytes]:
        while text:
            at = bisect_right(self.texts, text) - 1
            if at < 0:
                return None
            found = self.texts[at]
            if text.startswith(found):
                return found
            text = commonprefix([found, text])
        return None


class Appends:
    """The WRITEs with APPEND to one path, by their payloads; and the picture of the file."""

    def __init__(self) -> None:
        self.writes: dict[bytes, list[Deed]] = {}
        self.picture = Picture()

    def teach(self) -> None:
        """Tells each payload that stands once where it stands."""
        if not self.picture.is_right:
            return
        found = self.places()
        size = len(self.picture.content)
        backward = Appends()
        backward.writes = {text[::-1]: deeds for text, deeds in self.writes.items()}
        backward.picture = self.picture.reversed()
        for deed, at in backward.places().items():
            found.setdefault(deed, size - at - len(deed.request.fields[2]))
        for deed, at in found.items():
            deed.rank = at if at >= 0 else None

    def places(self) -> dict[Deed, int]:
        """Where payloads stand, from the front on."""
        payloads, picture = Payloads(set(self.writes)), self.picture
        found: dict[Deed, int] = {}
        at, left = picture.next_known(0), MOST_COMPARED * len(picture.content)
        while at + LEAST <= len(picture.content) and left > 0:
            payload = None
            if bytes(picture.content[at:at + LEAST]) in payloads.beginnings:
                text = picture.from_here(at, payloads.longest)
                left -= len(text)
                payload = payloads.begun_by(text)
            if payload is None:
                at = picture.next_known(at + 1)
                continue
            if len(self.writes[payload]) == 1:
                found.setdefault(self.writes[payload][0], at)
            at += len(payload)
        return found


def teach(sessions: list[list[Deed]], state: State) -> None:
    """Gives appends their places."""
    files: dict[tuple[bytes, ...], Appends] = {}
    for deeds in sessions:
        opened: dict[bytes, tuple[Appends, bool]] = {}
        for deed in deeds:
            note(deed, files, opened, state)
    for file in files.values():
        if file.writes:
            file.teach()


def note(deed: Deed, files: dict[tuple[bytes, ...], Appends], opened: dict[bytes, tuple[Appends, bool]],
         state: State) -> None:
    """Notes what an OPEN, a READ or a WRITE of a session says."""
    name, fields, reply = deed.request.name, deed.request.fields, deed.reply
    if name == "OPEN" and reply is not None and reply.name == "HANDLE":
        file = files.setdefault(state.path(fields[0]).parts, Appends())
        opened[reply.fields[0]] = file, bool(fields[1] & packets.APPEND)
    elif name == "WRITE" and fields[0] in opened and opened[fields[0]][1]:
        deed.is_appended = True
        if len(fields[2]) >= LEAST and not deed.is_refused():
            opened[fields[0]][0].writes.setdefault(fields[2], []).append(deed)
    elif name == "READ" and fields[0] in opened and reply is not None and reply.name == "DATA":
        opened[fields[0]][0].picture.add(fields[1], reply.fields[0])
