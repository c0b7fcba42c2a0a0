"""Files that are written where numbers of 31 and of 32 bits end, and have hardly any bytes. The probe's tree has no
room for such a file, and one that had would take as much memory. So what is done with it is judged as if all that is
around these places were some MB from the beginning: requests and replies say the same of the shorter file, as long as
each offset and each size is near one of these places, or before all that stands for them.

The name of such a file begins with `NAME`, so that a record tells by itself which files are meant. A request that was
to make it longer and that the server refused stays as it is: the tree refuses it, too."""
import posixpath
import re
from contextlib import suppress

from sftpv3 import codec

# What the names of such files begin with.
NAME = b"distant"

# The places, each with the one in its stead; how far around each of them offsets and sizes are meant; and for how many
# bytes a tree needs room.
PLACES = ((1 << 31, 3_000_017), (1 << 32, 6_000_029))
AROUND, ROOM = 100_000, 6_200_000

# The requests with an offset, those that make a file longer, and those whose replies show sizes of what they name.
WITH_OFFSET, LENGTHENING = ("READ", "WRITE"), ("WRITE", "SETSTAT", "FSETSTAT")
SHOWING = ("STAT", "LSTAT", "FSTAT")


def is_meant(path):
    """Whether a path, or None, is that of such a file."""
    return path is not None and posixpath.basename(path).startswith(NAME)


def other(number):
    """The number in the place of an offset or a size. It is told back by the same: none means two."""
    for far, near in PLACES:
        for one, stead in ((far, near), (near, far)):
            if abs(number - one) <= AROUND:
                return number - one + stead
    return number


def sized(given):
    """Attributes with the other size."""
    return {**given, "size": other(given["size"])} if "size" in given else given


def of_request(asked):
    """A request about such a file with the other offset and size."""
    fields = [sized(value) if isinstance(value, dict) else value for value in asked.fields]
    if asked.name in WITH_OFFSET:
        fields[1] = other(fields[1])
    return codec.Request(asked.number, asked.name, fields)


def of_reply(name, path, packet):
    """A reply with the other sizes, to a request of this name about this path; what is malformed stays as it is."""
    with suppress(codec.Malformed):
        if packet[4] == codec.ATTRS and name in SHOWING and is_meant(path):
            given = codec.attributes_in(packet)
            if sized(given) != given:
                return codec.packet(codec.ATTRS, packet[5:9] + codec.attributes(sized(given)))
        elif packet[4] == codec.NAME and name == "READDIR" and NAME in packet:
            items = codec.names_in(packet)
            shown = [(item, long, sized(given) if is_meant(item) else given) for item, long, given in items]
            if shown != items:
                return codec.packet(codec.NAME, packet[5:9] + codec.names(shown))
    return packet


class Records:
    """The records of a session as they are judged."""

    def __init__(self, records):
        self.found, self.asked, self.opened = list(records), {}, {}

    def all(self):
        for place, (side, packet) in enumerate(self.found):
            if place > 1 and side == codec.CLIENT:
                self.ask(place, codec.decode(packet))
            elif place > 1 and len(packet) >= 9:
                self.answer(place, packet)
        return self.found

    def ask(self, place, asked):
        path = self.opened.get(asked.handle()) if asked.handle() is not None else asked.fields[0]
        self.asked[asked.number] = place, asked, path
        if is_meant(path) and asked.name == "READ":
            self.put(place, codec.encode(of_request(asked)))

    def answer(self, place, packet):
        request, asked, path = self.asked.pop(codec.id_of(packet), (None, None, None))
        if asked is None:
            return
        with suppress(codec.Malformed):
            reply = codec.Reply(packet)
            if reply.handle is not None:
                self.opened[reply.handle] = path
            if is_meant(path) and asked.name in LENGTHENING and reply.code == codec.OK:
                self.put(request, codec.encode(of_request(asked)))
        self.put(place, of_reply(asked.name, path, packet))

    def put(self, place, packet):
        self.found[place] = self.found[place][0], packet


def has_any(records):
    """Whether a session has such a file."""
    return any(NAME in packet for _, packet in records)


def records(found):
    """The records as they are judged."""
    return Records(found).all() if has_any(found) else found


def told(text):
    """What an audit says of them, with the numbers that the server has."""
    return re.sub(r"\d+", lambda number: str(other(int(number[0]))), text)
