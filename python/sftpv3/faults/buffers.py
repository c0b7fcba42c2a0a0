"""Faults that people make: READs through a buffer that others' changes do not reach, listings that are begun anew and
go on by index, and whole directories in one packet."""
from sftpv3 import codec
from sftpv3.codec import TRUNC
from sftpv3.faults.kinds import BLOCK, FAR, SETS, Asks, Fault, Writes, clean, data_of, refused, with_data, with_names


class Buffered(Asks, buffers=dict):
    """Small READs go through a buffer of each handle, which one behind it fills from its offset on, as that of a file
    object does. What is in the buffer is not read again, unless the file has another size by then."""

    # How many bytes the buffer has; from how many on a READ passes it by; and the requests of the handle itself behind
    # which it is filled anew.
    SIZE, SMALL, OWN = 8192, 512, ("WRITE", "FSETSTAT")

    def alter(self, asked):
        number = self.opener_number(asked)
        if asked.name in self.OWN:
            self.buffers.pop(number, None)
        if asked.name == "READ" and number is not None and asked.fields[1] < FAR and 0 < asked.fields[2] < self.SMALL:
            self.asked[asked.number].held = self.held(number, *asked.fields)

    def held(self, number, handle, offset, count):
        """What the buffer has of these bytes, which it is filled with first if it has none."""
        given = self.attributes_now("FSTAT", handle) or {}
        start, data, size = self.buffers.get(number, (0, b"", None))
        if size != given.get("size") or not start <= offset < start + len(data):
            start, data = offset, self.filled(handle, offset)
            self.buffers[number] = start, data, given.get("size")
        return data[offset - start:offset - start + count]

    def filled(self, handle, offset):
        """The bytes from this offset on, as many as the buffer takes."""
        found = b""
        while len(found) < self.SIZE:
            reply = self.now("READ", handle, offset + len(found), min(BLOCK, self.SIZE - len(found)))
            if reply[4] != codec.DATA:
                break
            found += data_of(reply)
        return found

    def answer(self, asked, reply):
        held = getattr(asked, "held", b"")
        if not held:
            return None
        data = data_of(reply) if reply[4] == codec.DATA else b""
        return [with_data(reply, held + data[len(held):])]


buffered_4k, buffered_8k, buffered_32k, buffered_64k = (
    Buffered.but(f"Small READs go through a buffer of {size} KiB, which no other handle's WRITE empties.",
                 SIZE=1024 * size)
    for size in (4, 8, 32, 64))
buffered_own = Buffered.but(
    "Small READs go through a buffer of 8 KiB, which not even a WRITE through the handle empties.", OWN=())


class buffered_by_path(Buffered):
    """Small READs go through a buffer of 8 KiB, which is emptied by what comes by its path, not by another name."""

    def alter(self, asked):
        if asked.name in ("WRITE", *SETS) or asked.name == "OPEN" and asked.fields[1] & TRUNC:
            for opener in self.openers():
                if clean(opener.fields[0]) == self.about(asked):
                    self.buffers.pop(opener.number, None)
        super().alter(asked)


# More names than any directory of a plan has.
ALL = 1 << 30


class Paged(Asks, places=dict):
    """Each READDIR of a directory with many names lists it anew, in the order of the names, and goes on by index."""

    # How many names one gives, and of how many on that is so.
    PAGE = LEAST = 100

    def alter(self, asked):
        opener = self.opener(asked)
        if asked.name != "READDIR" or opener is None or self.places.get(opener.number, 0) is None:
            return
        place = self.places.get(opener.number, 0)
        found = self.items_now(opener.fields[0]) if place < ALL else []
        if place == 0 and len(found) <= self.LEAST:
            self.places[opener.number] = None
        if self.places.get(opener.number, 0) is not None:
            self.asked[asked.number].page = found[place:place + self.PAGE]
            self.places[opener.number] = place + self.PAGE

    def items_now(self, path):
        """What a directory lists now, in the order of the names."""
        handle, found = codec.Reply(self.now("OPENDIR", path)).handle, []
        if handle is None:
            return []
        reply = self.now("READDIR", handle)
        while reply[4] == codec.NAME:
            found += codec.names_in(reply)
            reply = self.now("READDIR", handle)
        self.now("CLOSE", handle)
        return sorted(found, key=lambda item: item[0])

    def answer(self, asked, reply):
        page = getattr(asked, "page", None)
        return None if page is None else [with_names(reply, page)]


def paged(size):
    """Such a fault, with pages of so many names."""
    text = f"Each READDIR of more names lists them anew, and gives {size} from where the last one ended, by index."
    return Paged.but(text, PAGE=size, LEAST=size)


paged_by_17, paged_by_64, paged_by_100, paged_by_128 = map(paged, (17, 64, 100, 128))
whole_directory_at_once = Paged.but("The first READDIR of more than 400 names gives all of them in one packet.",
                                    PAGE=ALL, LEAST=400)


class group_alone_lost(Asks):
    """SETSTAT and FSETSTAT of an owner do nothing where the user is the same."""

    def alter(self, asked):
        if asked.name not in SETS or "owner" not in asked.fields[1]:
            return
        before = self.attributes_now("FSTAT" if asked.name == "FSETSTAT" else "STAT", asked.fields[0])
        if before and before["owner"][0] == asked.fields[1]["owner"][0]:
            del asked.fields[1]["owner"]


# Blocks of memory, where WRITEs of one byte are wrong.
EDGE = 4096


def at_edge(place):
    """A fault's function: a WRITE of one byte is lost at this place of a block."""
    return lambda self, asked, offset, data: len(data) == 1 and offset % EDGE == place and offset < FAR


byte_before_edge_lost = Writes.but("A WRITE of one byte is lost if that is the last of 4,096.", loses=at_edge(EDGE - 1))
byte_behind_edge_lost = Writes.but("A WRITE of one byte is lost behind each 4,096, but at the beginning of a file.",
                                   loses=lambda self, asked, offset, data: offset and at_edge(0)(self, asked, offset,
                                                                                                 data))


class none_is_usual(Fault):
    """MKDIR and OPEN with permissions of 0 make what is new as if they had none."""

    def alter(self, asked):
        if asked.name in ("MKDIR", "OPEN") and asked.fields[-1].get("permissions") == 0:
            del asked.fields[-1]["permissions"]


class third_piece_fails(Fault, numbers=set):
    """A request fails if it comes in more than two pieces."""

    pieces = 0

    def begun(self, left):
        self.pieces = self.pieces + 1 if left else 0

    def requests(self, packets):
        if packets and self.pieces > 1:
            self.numbers.add(codec.decode(packets[0]).number)
        self.pieces = 0 if packets else self.pieces
        return super().requests(packets)

    def ask(self, asked):
        return refused(asked) if asked.number in self.numbers else None


class head_behind_tail_fails(Fault, numbers=set):
    """A request fails if its beginning comes together with the end of the one before it, and its end does not."""

    is_behind = has_packets = False

    def begun(self, left):
        self.is_behind = bool(left) and self.has_packets
        self.has_packets = False

    def requests(self, packets):
        if packets and self.is_behind:
            self.numbers.add(codec.decode(packets[0]).number)
        self.has_packets = bool(packets)
        return super().requests(packets)

    def ask(self, asked):
        return refused(asked) if asked.number in self.numbers else None
