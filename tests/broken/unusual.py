"""Servers that keep to the draft, and are unusual: tests/test-probe-runs has the probe play against each of them.

    tests/stand-in unusual KIND COMMAND [ARGUMENT ...]

runs the command, a server without bugs, and stands between it and the client: KIND is the name of a class below, whose
text says what is unusual. Requests are passed on one at a time.
"""
import os
import random
import sys
import time
from contextlib import suppress

from broken import planted
from sftpv3 import codec
from sftpv3.faults.between import write
from sftpv3.probe import bytext, features, readonly

# The longest packet that the draft (section 3) asks each server to take, and how many handles may be open of few.
EACH_TAKES, FEW = 34_000, 20

# The seconds of a day, and those that a server takes to start, and to end.
DAY, STARTING, ENDING = 86_400, 3, 4


class Usual:
    """Nothing is unusual."""

    # The exit status.
    STATUS = 0

    def __init__(self, server):
        self.server, self.replies = server, packets_of(server.stdout.fileno())

    def pass_on(self, packet):
        """The reply of the server behind this one."""
        write(self.server.stdin.fileno(), packet)
        return next(self.replies)

    def version(self, packet):
        """What the client gets for this VERSION."""
        return packet

    def answer(self, asked, packet):
        """What the client gets for this request."""
        return self.reply(asked, self.pass_on(packet))

    def reply(self, _asked, packet):
        """What the client gets for this reply."""
        return packet

    def write(self, packet):
        write(1, packet)

    def end(self):
        """What is done once the input has ended, before the server behind it ends."""


class ends_at_long_packets(Usual):
    """It takes no packets that are longer than the draft asks for, and ends at one."""

    def answer(self, asked, packet):
        return super().answer(asked, packet) if len(packet) <= EACH_TAKES else self.too_long(asked)

    def too_long(self, asked):
        os._exit(1)


class hangs_at_long_packets(ends_at_long_packets):
    """The same, but it goes on without a reply."""

    def too_long(self, asked):
        time.sleep(600)


class refuses_long_packets(ends_at_long_packets):
    """The same, but it refuses such a request."""

    def too_long(self, asked):
        return codec.status(asked.number, codec.FAILURE)


class few_handles(Usual):
    """At most 20 handles are open at a time."""

    def __init__(self, server):
        super().__init__(server)
        self.open = 0

    def answer(self, asked, packet):
        if asked.name in ("OPEN", "OPENDIR") and self.open == FEW:
            return codec.status(asked.number, codec.FAILURE)
        return super().answer(asked, packet)

    def reply(self, asked, packet):
        is_closed = asked.name == "CLOSE" and codec.Reply(packet).code == codec.OK
        self.open += (packet[4] == codec.HANDLE) - is_closed
        return packet


class many_extensions(Usual):
    """VERSION has 300 further extensions, some of one name, some with much data or none."""

    def version(self, packet):
        number, pairs = codec.version_of(packet)
        more = [(b"unheard-of-%d@example.org" % (count // 2), b"\xff" * count) for count in range(300)]
        return codec.version(number, [*more, *pairs, (b"", b"")])


class one_name(Usual):
    """Each reply to READDIR has one name, in an order that changes each time."""

    def __init__(self, server):
        super().__init__(server)
        self.left = {}

    def answer(self, asked, packet):
        if asked.name == "CLOSE":
            # the handle may be given again
            self.left.pop(asked.handle(), None)
        if asked.name != "READDIR":
            return super().answer(asked, packet)
        found = self.left.setdefault(asked.handle(), [])
        if not found:
            reply = self.pass_on(packet)
            if reply[4] != codec.NAME:
                return reply
            found += codec.names_in(reply)
            random.shuffle(found)
        return codec.packet(codec.NAME, packet[5:9] + codec.names([found.pop()]))


class single_bytes(Usual):
    """It writes byte by byte what is not long."""

    def write(self, packet):
        pieces = [bytes([byte]) for byte in packet] if len(packet) < 1000 else [packet]
        for piece in pieces:
            super().write(piece)


class noisy(Usual):
    """It writes 1 kB to standard error for each request."""

    def reply(self, asked, packet):
        os.write(2, b"%s is answered, %s\n" % (asked.name.encode(), b"\xff\x1b" * 500))
        return packet


class failed_at_end(Usual):
    """Its exit status is 1."""

    STATUS = 1


class late(Usual):
    """It takes some seconds to start, and to put down what it has once its input has ended."""

    def version(self, packet):
        time.sleep(STARTING)
        return packet

    def end(self):
        time.sleep(ENDING)


class days_of_access(Usual):
    """Of a time of access it keeps the day, as FAT does."""

    def reply(self, asked, packet):
        if packet[4] == codec.ATTRS:
            return codec.packet(codec.ATTRS, packet[5:9] + codec.attributes(of_day(codec.attributes_in(packet))))
        if packet[4] == codec.NAME and asked.name == "READDIR":
            items = [(name, long, of_day(given)) for name, long, given in codec.names_in(packet)]
            return codec.packet(codec.NAME, packet[5:9] + codec.names(items))
        return packet


class even_seconds(Usual):
    """It keeps the even second before a time, as FAT does."""

    def reply(self, asked, packet):
        if packet[4] == codec.ATTRS:
            return codec.packet(codec.ATTRS, packet[5:9] + codec.attributes(in_twos(codec.attributes_in(packet))))
        if packet[4] == codec.NAME and asked.name == "READDIR":
            items = [(name, long, in_twos(given)) for name, long, given in codec.names_in(packet)]
            return codec.packet(codec.NAME, packet[5:9] + codec.names(items))
        return packet


class no_times(Usual):
    """It sets no times."""

    def answer(self, asked, packet):
        if asked.name in ("SETSTAT", "FSETSTAT") and "times" in asked.fields[1]:
            return codec.status(asked.number, codec.OP_UNSUPPORTED)
        return super().answer(asked, packet)


class one_owner(Usual):
    """It gives nothing to other users than its own, as in a container that has no others."""

    def answer(self, asked, packet):
        if asked.name in ("SETSTAT", "FSETSTAT") and asked.fields[1].get("owner", (0, 0)) != (0, 0):
            return codec.status(asked.number, codec.BAD_MESSAGE)
        return super().answer(asked, packet)


class few_owners(Usual):
    """It has no users and groups above 65,535, as in a container that maps as many."""

    def answer(self, asked, packet):
        is_refused = "large-owner" in features.of_request(asked.name, asked.fields)
        return codec.status(asked.number, codec.FAILURE) if is_refused else super().answer(asked, packet)


class bare_listings(Usual):
    """Its listings have names without attributes."""

    def reply(self, asked, packet):
        if asked.name != "READDIR" or packet[4] != codec.NAME:
            return packet
        items = [(name, long, {}) for name, long, _ in codec.names_in(packet)]
        return codec.packet(codec.NAME, packet[5:9] + codec.names(items))


class texts_alone(Usual):
    """Its names are UTF-8."""

    def answer(self, asked, packet):
        is_refused = "not-utf-8" in features.of_request(asked.name, asked.fields)
        return codec.status(asked.number, codec.FAILURE) if is_refused else super().answer(asked, packet)


class no_links(Usual):
    """It has no links and no further names."""

    def answer(self, asked, packet):
        if asked.name in ("SYMLINK", "READLINK", "HARDLINK"):
            return codec.status(asked.number, codec.OP_UNSUPPORTED)
        return super().answer(asked, packet)


class paths_by_text(Usual):
    """It resolves paths by their text, whatever is there."""

    def answer(self, asked, packet):
        return super().answer(asked, bytext.request(packet, link_first=False))


class read_only(Usual):
    """Nobody can change its files."""

    def answer(self, asked, packet):
        is_refused = readonly.is_change(asked)
        return codec.status(asked.number, codec.PERMISSION_DENIED) if is_refused else super().answer(asked, packet)


class read_only_but_removes(read_only):
    """Wrong: the same, but files can be removed."""

    def answer(self, asked, packet):
        return self.pass_on(packet) if asked.name == "REMOVE" else super().answer(asked, packet)


class links_leave(Usual):
    """Its root is a folder of the machine, so that links with absolute targets lead to what is not among its files."""

    def __init__(self, server):
        super().__init__(server)
        self.targets = {}

    def answer(self, asked, packet):
        if asked.name == "SYMLINK" and asked.fields[0][1:2] and asked.fields[0].startswith(b"/"):
            elsewhere = b"/\xff" + asked.fields[0][2:]
            self.targets[elsewhere] = asked.fields[0]
            packet = codec.request(asked.number, "SYMLINK", elsewhere, asked.fields[1])
        return super().answer(asked, packet)

    def reply(self, asked, packet):
        if asked.name != "READLINK" or packet[4] != codec.NAME:
            return packet
        (target, long, given), *_ = codec.names_in(packet)
        return codec.packet(codec.NAME, packet[5:9] + codec.names([(self.targets.get(target, target), long, given)]))


def of_day(given):
    """Attributes with the day of the time of access alone."""
    if "times" not in given:
        return given
    access, modification = given["times"]
    return {**given, "times": (access - access % DAY, modification)}


def in_twos(given):
    """Attributes with even seconds."""
    return {**given, "times": tuple(one & ~1 for one in given["times"])} if "times" in given else given


def packets_of(source):
    """The packets of a stream, until it ends."""
    left, piece = b"", os.read(source, 1 << 18)
    while piece:
        found, left = codec.split(left + piece)
        yield from found
        piece = os.read(source, 1 << 18)


def play(kind):
    """Passes on what the client asks, and what the server replies, until the client's input ends."""
    for packet in packets_of(0):
        if packet[4] == codec.INIT:
            kind.write(kind.version(kind.pass_on(packet)))
        else:
            kind.write(kind.answer(codec.decode(packet), packet))
    kind.end()


def main():
    chosen, command = planted.named(planted.classes(globals()))
    with planted.started(command) as server:
        with suppress(StopIteration, BrokenPipeError):
            play(chosen(server))
        server.stdin.close()
    sys.exit(server.returncode or chosen.STATUS)
