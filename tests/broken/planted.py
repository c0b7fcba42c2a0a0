"""Servers with a bug, for tests/test-probe.

    tests/stand-in planted BUG COMMAND [ARGUMENT ...]

runs the command, a server without bugs, and stands between it and the client: BUG is a name below, whose text says what
goes wrong.
"""
import itertools
import os
import subprocess
import sys
import textwrap
import threading

from sftpv3 import codec
from sftpv3.codec.fields import LONGEST_HANDLE
from sftpv3.faults.between import Bug, changed, fault, pass_on, request


class longest_handles(Bug, handles=dict):
    """Right: handles have as many bytes as the draft allows."""

    def request(self, asked, packet):
        if asked.handle() is None:
            return packet
        asked.fields[0] = self.handles.get(asked.handle(), b"none")
        return codec.encode(asked)

    def changed(self, _name, packet):
        handle = codec.Reply(packet).handle
        if handle is None:
            return packet
        longest = handle.ljust(LONGEST_HANDLE, b".")
        self.handles[longest] = handle
        return codec.packet(codec.HANDLE, packet[5:9] + codec.string(longest))


wrong_byte = changed(
    "The last byte of DATA of five bytes or more is another.", lambda self, name, packet:
    packet[:-1] + bytes([packet[-1] ^ 1]) if packet[4] == codec.DATA and len(packet) >= 18 else packet)


class Showing(Bug):
    """Replies show other attributes."""

    def changed(self, name, packet):
        if packet[4] == codec.ATTRS:
            given = self.shown(codec.attributes_in(packet))
            return codec.packet(codec.ATTRS, packet[5:9] + codec.attributes(given))
        if packet[4] == codec.NAME:
            items = [(path, long, given and self.shown(given)) for path, long, given in codec.names_in(packet)]
            return codec.packet(codec.NAME, packet[5:9] + codec.names(items))
        return super().changed(name, packet)

    def shown(self, given):
        return given


def open_to_all(given):
    return {**given, "permissions": given["permissions"] & 0o170000 | 0o777}


shown = fault("shown", Showing)

fixed_owners = shown("All things have one owner.", lambda self, given: {**given, "owner": (65534, 65534)})
fixed_permissions = shown("All things have the permissions 0777.", lambda self, given: open_to_all(given))
fixed_sizes = shown("The same, and 7 bytes each.", lambda self, given: {**open_to_all(given), "size": 7})
no_owners = fault("shown", Showing, wrong_byte)(
    "Attributes have no owner; and the last byte of DATA of five bytes or more is another.",
    lambda self, given: {name: value for name, value in given.items() if name != "owner"})


@request
def lost_write(self, asked, packet):
    """A WRITE behind the first byte is not done, but said to be."""
    if asked.name != "WRITE" or asked.fields[1] == 0:
        return packet
    asked.fields[2] = b""
    return codec.encode(asked)


@request
def far_write_lost(self, asked, packet):
    """A WRITE at 2^32 or behind is not done, but said to be, and goes to the last 32 bits of its offset."""
    if asked.name != "WRITE" or not 1 << 32 <= asked.fields[1] < 1 << 33:
        return packet
    asked.fields[1] -= 1 << 32
    return codec.encode(asked)


sizes_of_32_bits = shown("Sizes have 32 bits.", lambda self, given: {**given, "size": given["size"] % (1 << 32)})


@changed
def missing_name(self, name, packet):
    """A listing lacks its last name, if it has two or more."""
    fields = codec.Fields(packet[9:])
    if name != "READDIR" or packet[4] != codec.NAME or fields.uint32() < 2:
        return packet
    ends = []
    while fields.place < len(fields.data):
        fields.string(), fields.string(), fields.attributes()
        ends.append(fields.place)
    body = packet[5:9] + (len(ends) - 1).to_bytes(4, "big") + packet[13:9 + ends[-2]]
    return codec.packet(codec.NAME, body)


@changed
def name_twice(self, name, packet):
    """A reply of a listing gives its first name twice."""
    if name != "READDIR" or packet[4] != codec.NAME:
        return packet
    items = codec.names_in(packet)
    return codec.packet(codec.NAME, packet[5:9] + codec.names(items + items[:1]))


def in_place_of_failure(code, packet):
    """The reply, with this code if it has the code of FAILURE."""
    return packet[:9] + code.to_bytes(4, "big") + packet[13:] if packet[9:13] == b"\0\0\0\4" else packet


wrong_code = changed("RMDIR that fails is said to be denied.", lambda self, name, packet: in_place_of_failure(
    codec.PERMISSION_DENIED, packet) if name == "RMDIR" else packet)
told_done = changed("RENAME that fails is said to be done.", lambda self, name, packet: in_place_of_failure(
    codec.OK, packet) if name == "RENAME" else packet)
done_extension = changed(
    "An extension that nobody knows is said to be done.", lambda self, name, packet:
    codec.packet(codec.STATUS, packet[5:9] + bytes(12)) if name == "EXTENDED" else packet)
malformed = changed(
    "The reply to READLINK has a byte more than it should.", lambda self, name, packet:
    codec.packet(packet[4], packet[5:] + b"\0") if name == "READLINK" else packet)


@request
def crash(self, asked, packet):
    """A path with a byte of 0 ends the server."""
    if any(isinstance(value, bytes) and b"/f\0" in value for value in asked.fields):
        os._exit(7)
    return packet


class overtaking(Bug):
    """A READ that came together with the WRITE before it is done first."""

    def requests(self, packets):
        packets = super().requests(packets)
        for place in range(1, len(packets)):
            first, second = (codec.decode(packet) for packet in packets[place - 1:place + 1])
            if (first.name, second.name) == ("WRITE", "READ") and self.are_meant(first, second):
                packets[place - 1], packets[place] = packets[place], packets[place - 1]
        return packets

    def are_meant(self, _first, _second):
        return True


overtaking_elsewhere = fault("are_meant", overtaking)(
    "A READ that came together with the WRITE before it is done first, if both have handles of their own.",
    lambda self, first, second: first.handle() != second.handle())


def ended(packet):
    """EOF in place of a reply."""
    return codec.packet(codec.STATUS, packet[5:9] + b"\0\0\0\1" + bytes(8))


class append_read(Bug, opens=set, handles=set, reads=set):
    """A READ through a handle that is open with APPEND finds nothing."""

    def request(self, asked, packet):
        if asked.name == "OPEN" and asked.fields[1] & codec.APPEND:
            self.opens.add(asked.number)
        if asked.name == "READ" and asked.handle() in self.handles:
            self.reads.add(asked.number)
        return packet

    def reply(self, packet):
        reply = codec.Reply(packet)
        if reply.handle is not None and reply.number in self.opens:
            self.handles.add(reply.handle)
        elif reply.handle is not None:
            self.handles.discard(reply.handle)
        return ended(packet) if reply.number in self.reads and reply.kind == codec.DATA else packet


class moved_listing(Bug, paths=dict, places=dict, moved=set, lost=set):
    """A listing of a directory that was given another name by its own path has ended."""

    def request(self, asked, packet):
        if asked.name == "OPENDIR":
            self.paths[asked.number] = asked.fields[0]
        if asked.name in ("RENAME", "POSIX-RENAME"):
            self.moved |= {handle for handle, path in self.places.items() if path == asked.fields[0]}
        if asked.name == "READDIR" and asked.handle() in self.moved:
            self.lost.add(asked.number)
        return packet

    def reply(self, packet):
        reply = codec.Reply(packet)
        if reply.handle is not None:
            self.moved.discard(reply.handle)
            self.places[reply.handle] = self.paths.get(reply.number)
        return ended(packet) if reply.number in self.lost and reply.kind == codec.NAME else packet


rename_over = request(
    "RENAME replaces what is at the new place, as posix-rename does.", lambda self, asked, packet:
    codec.request(asked.number, "POSIX-RENAME", *asked.fields) if asked.name == "RENAME" else packet)


@fault("opening", Bug)
def further_extension(self, packet):
    """No bug: VERSION has an extension more."""
    number, pairs = codec.version_of(packet)
    return codec.version(number, pairs + [(b"statvfs@openssh.com", b"2")])


def named(kinds, names=""):
    """The kind of server that the command line names, and the command behind it. `names` says where the names are."""
    script, name, *command = [*sys.argv, ""] if len(sys.argv) == 1 else sys.argv
    found = kinds.get(name.replace("_", "-"))
    if found and command:
        return found, command
    why = f"{name}: the command is missing" if found else f"there is no {name}" if name else "the name is missing"
    names = names or "the names are " + ", ".join(kinds)
    print(f"usage: {script} NAME COMMAND [ARGUMENT ...]",
          textwrap.fill(f"{os.path.basename(script)}: {why}; {names}", 120, break_on_hyphens=False),
          sep="\n", file=sys.stderr)
    sys.exit(2)


def classes(module):
    """The classes of a module by their names, as the command line has them."""
    return {name.replace("_", "-"): found for name, found in module.items() if isinstance(found, type)}


def run(bug, command):
    """Runs a server, and passes packets on through a bug until both are done. Ends as it did."""
    os._exit(passed(bug, command))


def started(command):
    """The server, with pipes. If it cannot be run, a line says so, and the status is that of a shell."""
    try:
        return subprocess.Popen(command, stdin=subprocess.PIPE, stdout=subprocess.PIPE, bufsize=0)
    except OSError as error:
        print(f"{os.path.basename(sys.argv[0])}: cannot run {command[0]}: {error.strerror}", file=sys.stderr)
        sys.exit(127)


def passed(bug, command):
    """The same, and gives the server's exit status."""
    server = started(command)
    asked = os.dup(server.stdin.fileno())
    server.stdin.close()
    bug.pipe = asked

    def requests(packets):
        first = [packet for packet in packets if packet[4] == codec.INIT]
        return itertools.chain(first, bug.requests([packet for packet in packets if packet[4] != codec.INIT]))

    threading.Thread(target=pass_on, args=(0, asked, requests, bug.begun), daemon=True).start()
    pass_on(server.stdout.fileno(), os.dup(1), bug.replies)
    return server.wait()


def main():
    kind, words = named(classes(globals()))
    run(kind(), words)
