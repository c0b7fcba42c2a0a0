"""The steps of a plan: requests, with handles that stand for the replies that give them; those of a session that was
recorded, so that it can be played again against any server; and the bytes of the files that plans upload.

What a server says that it has room for, by `limits@openssh.com`, cuts the steps. The probe asks for it before the
session that is recorded: the answer changes nothing in the tree, and the plan stays the same.
"""
import copy
import random
import struct

from sftpv3 import codec
from sftpv3.codec.fields import LONGEST_HANDLE
from sftpv3.probe import features

# Contents are cut out of this text without order, at a place that the plan names, so that no two blocks of a file are
# alike, and a plan costs no more time and memory than its WRITEs. The length is a prime: no block of a file comes again
# where a number of bits or a block ends.
TEXT = random.Random(57).randbytes(1_000_003)


class Handle:
    """The handle that the reply to this step gives."""

    def __init__(self, step):
        self.step = step

    def of(self, given):
        """What is sent, if the reply gave this."""
        return given


class Unlike:
    """What no reply gave: the handle that the reply to this step gives, with a byte of 0 behind it, or another last
    byte where no handle is longer. It opens nothing in a plan."""

    def __init__(self, like):
        self.like = like

    def of(self, given):
        """What is sent, if the reply gave this."""
        return given + b"\0" if len(given) < LONGEST_HANDLE else given[:-1] + bytes([given[-1] ^ 0x80])


def renumbered(field, numbers):
    """A field, with the new number of the step of which it has the handle."""
    return type(field)(numbers[opener(field)]) if isinstance(field, (Handle, Unlike)) else field


def opener(handle):
    """The number of the step whose reply has the bytes that this one begins with, or None."""
    return getattr(handle, "step", getattr(handle, "like", None))


class Step(codec.Request):
    """A request of a plan. A handle in it is a `Handle`, an `Unlike`, or bytes. Its tags are what `--skip` may name."""

    # Whether it is asked once the server was started again on the files of the session; and the name of its scene.
    again, scene = False, None

    def __init__(self, number, name, fields, cause=None):
        super().__init__(number, name, fields)
        self.tags = {name} | ({cause} if cause else set()) | features.of_request(name, fields)

    def opened(self):
        return Handle(self.number)


def with_count(scene, count):
    """The function of a scene, with so many of what it makes in its name."""
    return with_word(scene, str(count))


def with_word(scene, word):
    """The function of a scene, with what it is about in its name."""
    scene.__name__ += f"_of_{word}"
    return scene


def steps_of(transcript):
    """The steps of a transcript: its requests, with handles that stand for the replies that gave them."""
    steps, given, asked = [], {}, {}
    for side, packet in codec.records(transcript)[2:]:
        if side == b"S":
            try:
                reply = codec.Reply(packet)
            except codec.Malformed:
                # it is kept since the reply is not right
                continue
            if reply.handle is not None and reply.number in asked:
                given[reply.handle] = asked[reply.number]
            continue
        request = codec.decode(packet)
        fields = list(request.fields)
        if request.handle() in given:
            fields[0] = given[request.handle()].opened()
        # numbers of their own, since a client may use an id again; odd ones stay odd, as two clients go by that
        number = steps[-1].number + 1 if steps else 1
        steps.append(Step(number + (number - request.number) % 2, request.name, fields))
        asked[request.number] = steps[-1]
    return steps


def asked_again(step, again=True):
    """The step, once the server was started again; or before."""
    found = copy.copy(step)
    found.again = again
    return found


def changed(step, number, fields):
    """The step with this id and these fields."""
    found = copy.copy(step)
    found.number, found.fields = number, fields
    return found


def started_again(steps, number):
    """These steps, with the server started again before the one with this place, from 1."""
    return [asked_again(step, place >= number) for place, step in enumerate(steps, 1)]


def parted(steps):
    """The steps before the server is started again, and those behind that."""
    return [step for step in steps if not step.again], [step for step in steps if step.again]


def part(start, count):
    """So many bytes from this place on, over and over if they are many."""
    start %= len(TEXT)
    found = TEXT[start:start + count]
    while len(found) < count:
        found += TEXT[:count - len(found)]
    return found


class Content:
    """What a file is to have: a text of its own, and its length. It is the same for the same random numbers."""

    def __init__(self, random_numbers, size):
        self.start, self.size = random_numbers.randrange(len(TEXT)), size

    def at(self, offset, count):
        return part(self.start + offset, count)


EXTENSION = b"limits@openssh.com"

# The id of the question, which no plan has.
NUMBER = 0x7FFFFFFF

# What a packet has besides the bytes of a WRITE or of DATA, at most; and the longest one that each server is to take
# (draft, section 3).
AROUND, EACH_TAKES = 1024, 34_000

# What no offset reaches, and no id.
OFFSETS = 1 << 64
IDS = 1 << 32


class Room:
    """The most bytes of a READ and of a WRITE, and the most handles; None where there is no limit. 0 is none."""

    def __init__(self, packet=0, read=0, write=0, handles=0):
        whole = [packet - AROUND] if packet > AROUND else []
        self.read = min(whole + [read] * (read > 0), default=None)
        self.write = min(whole + [write] * (write > 0), default=None)
        self.handles = handles or None

    def cut(self, steps):
        """These steps, with shorter READs and WRITEs in place of those that are too long, and without OPENs, and what
        is done through their handles, that are too many."""
        number, opened, refused, found = last_number(steps), set(), set(), []
        for step in steps:
            opener = getattr(step.handle(), "step", None)
            if step.name in ("OPEN", "OPENDIR") and self.handles is not None and len(opened) >= self.handles:
                refused.add(step.number)
            elif opener in refused:
                continue
            else:
                parts = self.parts(step, number)
                number += len(parts) - 1
                found += parts
                opened |= {step.number} if step.name in ("OPEN", "OPENDIR") else set()
                opened -= {opener} if step.name == "CLOSE" else set()
        return found

    def parts(self, step, number):
        """The step, or several in its place, which have the numbers behind this one but for the first."""
        if step.name == "READ" and self.read is not None and step.fields[2] > self.read:
            handle, offset, count = step.fields
            return many(step, number, [[handle, offset + begin, min(self.read, count - begin)]
                                       for begin in range(0, count, self.read)])
        if step.name == "WRITE" and self.write is not None and len(step.fields[2]) > self.write:
            handle, offset, data = step.fields
            return many(step, number, [[handle, offset + begin, data[begin:begin + self.write]]
                                       for begin in range(0, len(data), self.write)])
        return [step]


def last_number(steps):
    """The last of the steps' numbers, counted from that of the first one on, as 0 may come behind the last id."""
    first = steps[0].number if steps else 0
    return first + max(((step.number - first) % IDS for step in steps), default=0)


def many(step, number, of_parts):
    """Steps with these fields in place of a step: a handle, an offset, and what is read or written there. Parts behind
    the last offset that there is are left out."""
    return [changed(step, step.number if part == 0 else (number + part) % IDS, fields)
            for part, fields in enumerate(of_parts) if fields[1] < OFFSETS]


def question():
    """The packet that asks for the room."""
    return codec.request(NUMBER, "EXTENDED", EXTENSION, b"")


def answered(packet):
    """The room that a reply says, or None if it says none."""
    if packet[4] != codec.EXTENDED_REPLY or packet[5:9] != NUMBER.to_bytes(4, "big") or len(packet) < 9 + 32:
        return None
    return Room(*struct.unpack(">4Q", packet[9:9 + 32]))
