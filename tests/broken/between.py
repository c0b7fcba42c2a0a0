"""Servers with one fault each, for tests/test-walk and tests/test-nightly: a right server runs, and what stands
between it and the client has the fault.

    tests/stand-in between KIND COMMAND [ARGUMENT ...]

KIND is the name of a class or of a row of KINDS below, whose text says what goes wrong. Requests are passed on one at a
time.
"""
import os
import signal
import sys
import time

from broken import misbehaving, planted
from broken.misbehaving import Healthy, status
from sftpv3 import codec
from sftpv3.faults.between import write
from sftpv3.faults.kinds import data_of, with_data, with_names

TYPES, DIRECTORY, FILE, LINK, FIFO = 0o170000, 0o040755, 0o100644, 0o120777, 0o010644

# Which request has a fault that comes once.
ONCE = 9


class Listings(Healthy):
    """Gives other names in listings."""

    def reply(self, asked, packet):
        if asked.name != "READDIR" or packet[4] != codec.NAME:
            return packet
        return with_names(packet, self.items(codec.names_in(packet)))


class Reads(Healthy):
    """Gives other bytes to a READ that finds some."""

    def reply(self, asked, packet):
        return with_data(packet, self.data(data_of(packet))) if packet[4] == codec.DATA else packet


class Attributes(Healthy):
    """Tells other attributes of `f`."""

    meant = FILE

    def reply(self, asked, packet):
        if packet[4] != codec.ATTRS:
            return packet
        given = codec.attributes_in(packet)
        if given["permissions"] & TYPES != self.meant & TYPES:
            return packet
        return codec.packet(codec.ATTRS, packet[5:9] + codec.attributes(self.changed(given)))


class LinkAttributes(Attributes):
    """Tells other attributes of a link."""

    meant = LINK


class Once(Healthy):
    """Changes one reply."""

    def reply(self, asked, packet):
        return self.once(asked, packet) if self.count == ONCE else packet


class cut_reply(Once):
    """The server ends in the middle of a reply."""

    def once(self, asked, packet):
        write(1, packet[:-3])
        os._exit(0)


class stops_in_reply(Once):
    """The server sends a part of a reply, and nothing more."""

    def once(self, asked, packet):
        write(1, packet[:-3])
        time.sleep(600)


class trickles(Once):
    """A reply comes a byte at a time, ten of them a second."""

    def once(self, asked, packet):
        for place in range(len(packet)):
            write(1, packet[place:place + 1])
            time.sleep(0.1)
        return b""


class last_twice(Healthy):
    """The last reply comes once more when the input has ended."""

    last = b""

    def reply(self, asked, packet):
        self.last = packet
        return packet

    def end(self):
        return self.last


class crashes_at_end(Healthy):
    """The server crashes when the input has ended, and each request has its reply."""

    def end(self):
        os.kill(os.getpid(), signal.SIGSEGV)
        return b""


class stays_at_end(Healthy):
    """The server goes on when the input has ended."""

    def end(self):
        time.sleep(600)
        return b""


class denied(Healthy):
    """The user may not read `f`: no fault of the server."""

    def reply(self, asked, packet):
        is_meant = asked.name == "OPEN" and asked.fields[0].endswith(b"/f")
        return status(asked.number, codec.PERMISSION_DENIED) if is_meant else packet


class Meanwhile(Healthy):
    """Somebody changes the file before it is opened: no fault of the server."""

    def before(self, asked):
        if asked.name == "OPEN" and asked.fields[0].endswith(b"/f"):
            self.change(asked.fields[0])


class grows(Meanwhile):
    """The file gets more bytes."""

    def change(self, path):
        with open(path, "ab") as file:
            file.write(b"more")


def kinds(above, method, faults):
    """A class below this one for each fault: its name, what goes wrong, and what this method does."""
    return {name: type(name, (above,), {"__doc__": text, method: staticmethod(act)}) for name, text, act in faults}


KINDS = {
    **kinds(Listings, "items", [
        ("name_left_out", "No listing has `f`.", lambda found: [it for it in found if it[0] != b"f"]),
        ("name_twice", "A listing has its first name twice.",
         lambda found: found + [it for it in found if it[0] not in (b".", b"..")][:1]),
        ("name_invented", "A listing has a name of nothing.", lambda found: [*found, (b"invented", b"", {})]),
        ("listed_size", "A listing shows a byte more than a file has.",
         lambda found: [(name, text, {**given, "size": given["size"] + 1}) for name, text, given in found])]),
    **kinds(Reads, "data", [
        ("read_lacks_last", "A READ gives a byte less than there are.", lambda found: found[:-1]),
        ("read_more", "A READ gives a byte more than was asked for.", lambda found: found + b"x"),
        ("read_other", "A READ gives bytes of 0.", lambda found: bytes(len(found)))]),
    **kinds(Attributes, "changed", [
        ("size_more", "A file has a byte more than it has.", lambda given: {**given, "size": given["size"] + 1}),
        ("size_less", "A file has a byte less than it has, if it has some.",
         lambda given: {**given, "size": max(0, given["size"] - 1)}),
        ("no_size", "A file has no size.", lambda given: {it: given[it] for it in given if it != "size"}),
        ("file_as_directory", "A file is a directory.", lambda given: {**given, "permissions": DIRECTORY}),
        ("file_as_fifo", "A file is a FIFO.", lambda given: {**given, "permissions": FIFO})]),
    **kinds(LinkAttributes, "changed", [
        ("link_as_file", "A link is a file.", lambda given: {**given, "permissions": FILE})]),
    **kinds(Healthy, "reply", [
        ("listing_fails", "A listing does not end, but fails.",
         lambda asked, packet: status(asked.number, codec.FAILURE)
         if asked.name == "READDIR" and packet[4] == codec.STATUS else packet),
        ("read_ends_early", "A READ that does not begin at 0 finds the end.",
         lambda asked, packet: status(asked.number, codec.EOF)
         if packet[4] == codec.DATA and asked.fields[1] else packet),
        ("read_empty_at_end", "A READ at the end gives DATA of no bytes.",
         lambda asked, packet: with_data(packet, b"")
         if asked.name == "READ" and packet[4] == codec.STATUS else packet),
        ("target_other", "A link leads elsewhere.",
         lambda asked, packet: with_names(packet, [(b"elsewhere", b"", {})]) if asked.name == "READLINK" else packet),
        ("target_twice", "A link has two targets.",
         lambda asked, packet: with_names(packet, codec.names_in(packet) * 2) if asked.name == "READLINK" else packet),
        ("handle_again", "All that is open has one handle.",
         lambda asked, packet: codec.packet(codec.HANDLE, packet[5:9] + codec.string(bytes(4)))
         if packet[4] == codec.HANDLE else packet),
        ("close_fails", "CLOSE fails.",
         lambda asked, packet: status(asked.number, codec.FAILURE) if asked.name == "CLOSE" else packet)]),
    **kinds(Once, "once", [
        ("other_id", "A reply has an id that no request has.",
         lambda asked, packet: packet[:5] + (asked.number + 5000).to_bytes(4, "big") + packet[9:]),
        ("reply_twice", "A reply comes twice.", lambda _, packet: packet * 2),
        ("second_version", "A VERSION comes before a reply.", lambda _, packet: codec.version(3, []) + packet),
        ("unknown_type", "A packet of a type that SFTP does not have comes before a reply.",
         lambda _, packet: codec.packet(150, packet[5:9]) + packet),
        ("long_reply", "A reply is longer than one may be.", lambda _, packet: codec.packet(
            codec.STATUS, packet[5:9] + bytes(4) + codec.string(b"x" * 300_000) + bytes(4))),
        ("byte_behind_fields", "A reply has a byte more than its fields have.",
         lambda _, packet: codec.packet(packet[4], packet[5:] + b"\0")),
        ("cut_field", "A reply ends within a field.",
         lambda _, packet: codec.packet(packet[4], packet[5:9] + b"\0")),
        ("empty_packet", "A packet of no bytes comes before a reply.", lambda _, packet: bytes(4) + packet),
        ("dies", "The server ends.", lambda *_: os._exit(0))]),
    **kinds(Healthy, "end", [
        ("last_words", "Bytes that are no packet come when the input has ended.", lambda: b"bye\n"),
        ("last_half", "Half of a packet comes when the input has ended.", lambda: status(7, codec.OK)[:9]),
        ("fails_at_end", "The server ends with status 7 when the input has ended.", lambda: sys.exit(7))]),
    **kinds(Meanwhile, "change", [
        ("shrinks", "The file loses bytes.", lambda path: os.truncate(path, 1)),
        ("goes_away", "The file is removed.", os.remove)]),
}


def main():
    misbehaving.play_one(planted.classes({**globals(), **KINDS}))
