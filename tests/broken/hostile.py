"""Servers that mean harm to whoever walks through them.

    tests/stand-in hostile KIND

is a server with a few entries below `/`, of which KIND, the name of a class or of a row of KINDS below, says what is
wrong.
"""
import os
import sys
import time

from sftpv3 import codec

DIRECTORY, FILE, LINK, FIFO = 0o040755, 0o100644, 0o120777, 0o010644
BOLD = b"\x1b[1m"


def status(code):
    return codec.STATUS, code.to_bytes(4, "big") + codec.string(BOLD + b"no\n") + codec.string(b"")


def names(*found):
    return codec.NAME, codec.names([(name, BOLD, given) for name, given in found])


def data(found):
    return codec.DATA, codec.string(found)


class Right:
    """Nothing is wrong: a directory `d` with a link, and a file `f` of ten bytes."""

    content = b"0123456789"
    size = 10

    def __init__(self):
        self.left = {}

    def entries(self, path):
        """The names in a directory, with their permissions."""
        return {b"/": [(b"d", DIRECTORY), (b"f", FILE)], b"/d": [(b"l", LINK)]}.get(path, [])

    def permissions(self, path):
        if path == b"/":
            return DIRECTORY
        above, _, name = path.rpartition(b"/")
        return dict(self.entries(above or b"/")).get(name)

    def attributes(self, permissions):
        size = {FILE: self.size, LINK: 4}.get(permissions, 0)
        return {"size": size, "owner": (0, 0), "permissions": permissions, "times": (1, 1)}

    def realpath(self, path):
        return names((b"/", {}))

    def lstat(self, path):
        found = self.permissions(path)
        if found is None:
            return status(codec.NO_SUCH_FILE)
        return codec.ATTRS, codec.attributes(self.attributes(found))

    def stat(self, path):
        return self.lstat(b"/f" if path == b"/d/l" else path)

    def readlink(self, path):
        return names((b"../f", {}))

    def opendir(self, path):
        handle = path[-200:]
        self.left[handle] = [(name, self.attributes(found)) for name, found in self.entries(path)]
        return codec.HANDLE, codec.string(handle)

    def readdir(self, handle):
        found, self.left[handle] = self.left.get(handle), []
        return names(*found) if found else status(codec.EOF)

    def open(self, path, *_):
        return codec.HANDLE, codec.string(path)

    def read(self, handle, offset, length):
        found = self.content[offset:offset + length]
        return data(found) if found else status(codec.EOF)

    def close(self, handle):
        return status(codec.OK)


class endless_listing(Right):
    """There is always one name more."""

    count = 0

    def permissions(self, path):
        return DIRECTORY if path in (b"/", b"/live") else FILE

    def readdir(self, handle):
        endless_listing.count += 2000
        return names(*((b"%0200d" % number, {}) for number in range(self.count, self.count + 1000)))


class long_names(Right):
    """A listing of names that no directory has."""

    count = 0

    def permissions(self, path):
        return DIRECTORY if path.count(b"/") == 1 else FILE

    def readdir(self, handle):
        long_names.count += 1
        return names((b"%09d" % self.count + b"n" * 200_000, {}))


class long_lines(Right):
    """A listing with a name in each reply, and much to show of it."""

    count = 0

    def permissions(self, path):
        return FILE if path.rpartition(b"/")[2].isdigit() else DIRECTORY

    def readdir(self, handle):
        long_lines.count += 1
        return codec.NAME, codec.names([(b"%d" % self.count, b"-" * 260_000, {})])


class ring(Right):
    """A link that leads to itself."""

    def readlink(self, path):
        return names((b"/d/l", {}))

    def stat(self, path):
        return status(codec.FAILURE) if path.endswith(b"/l") else super().stat(path)


class fifo(Right):
    def entries(self, path):
        return [(BOLD + b"pipe", FIFO), (b"f", FILE)] if path == b"/" else []

    def open(self, path, *_):
        if path != b"/f":
            time.sleep(600)
        return super().open(path)


class long_requests(Right):
    """A listing so deep that to look at each of its names takes a request of 16,000 bytes, and a few of the server."""

    def permissions(self, path):
        return DIRECTORY if path == b"/" or path.endswith(b"d") else FIFO

    def opendir(self, path):
        deep = path.count(b"/") == 62
        self.left[path[-200:]] = [b"%d" % number for number in range(60_000)] if deep else [b"d" * 255]
        return codec.HANDLE, codec.string(path[-200:])

    def readdir(self, handle):
        found, self.left[handle] = self.left[handle][:1000], self.left[handle][1000:]
        return names(*((name, {}) for name in found)) if found else status(codec.EOF)


# The servers above whose REALPATH gives a path that no tree file has, and what is said of it.
PATHS = {
    "long_realpath": b"has 40,201 bytes, more than the 4,096 of any path",
    "longest_realpath": b"has 1,000,000 bytes, more than the 4,096 of any path",
    "winding_realpath": b"has 500,000 bytes, more than the 4,096 of any path",
    "deep_realpath": b"has 65 names, more than the 64 of any tree file",
}


class denied(Right):
    def opendir(self, path):
        return super().opendir(path) if path == b"/" else status(codec.PERMISSION_DENIED)

    def open(self, path, *_):
        return status(codec.PERMISSION_DENIED)


class marks_and_hangs(Right):
    """When it hangs, the file of $MARK is there."""

    def opendir(self, path):
        with open(os.environ["MARK"], "wb"):
            time.sleep(600)


class marks_and_waits(Right):
    """It waits for a second with its reply, and then the file of $MARK is there."""

    def opendir(self, path):
        with open(os.environ["MARK"], "wb"):
            time.sleep(1)
        return super().opendir(path)


class marks_and_hangs_at_start(Right):
    def realpath(self, path):
        with open(os.environ["MARK"], "wb"):
            time.sleep(600)


class hangs_at_removal(Right):
    """Each directory is there for its user alone, and the removal of one that was listed does not end. Then the file of
    $MARK is there."""

    listed = False

    def permissions(self, path):
        return DIRECTORY & ~0o077

    def mkdir(self, path, given):
        return status(codec.OK)

    def opendir(self, path):
        self.listed = True
        return super().opendir(path)

    def rmdir(self, path):
        if self.listed:
            with open(os.environ["MARK"], "wb"):
                time.sleep(600)
        return status(codec.OK)


class ends(Right):
    def opendir(self, path):
        sys.stderr.write("\x1b[1mout of order\n")
        sys.stderr.flush()
        os._exit(5)


class many_replies(Right):
    """A thousand replies to nothing."""

    def lstat(self, path):
        for number in range(1000):
            os.write(1, codec.packet(codec.STATUS, (1 << 31 | number).to_bytes(4, "big") + bytes(12)))
        return super().lstat(path)


class long_packet(Right):
    def lstat(self, path):
        os.write(1, b"\x7f\xff\xff\xff")
        return super().lstat(path)


class greeting(Right):
    def lstat(self, path):
        os.write(1, b"\r\nWelcome\r\n")
        return super().lstat(path)


# Servers of which a few members are other ones.
KINDS = {
    "slash_in_name": {"entries": lambda *_: [(b"../../etc/" + BOLD + b"passwd", FILE)]},
    "empty_name": {"entries": lambda *_: [(b"", FILE)]},
    "long_name": {"entries": lambda *_: [(b"n" * 300, FILE)]},
    # the names of a directory lead above it where a byte of 0 ends them
    "ends_above": {
        "entries": lambda *_: [(b"..\0x", DIRECTORY), (b"f", FILE)],
        "permissions": lambda _, path: DIRECTORY if path.count(b"/") == 1 or b"\0" in path else FILE},
    "repeating_listing": {
        "permissions": lambda _, path: FILE if path.endswith(b"f") else DIRECTORY,
        "readdir": lambda self, _: names((b"f", self.attributes(FILE)))},
    "idle_listing": {"permissions": lambda *_: DIRECTORY, "readdir": lambda *_: names()},
    # each directory has another one
    "deep": {"entries": lambda *_: [(b"d", DIRECTORY)], "permissions": lambda *_: DIRECTORY},
    "huge_size": {"size": 1 << 62},
    # larger than --max-bytes, and a file of a tree may be so large
    "wide_size": {"size": 60_000_000},
    "grows": {"size": 5},
    "shrinks": {"size": 70_000},
    # a READ gives one byte
    "short_reads": {
        "size": 1_000_000,
        "read": lambda self, _, offset, __: data(b"x") if offset < self.size else status(codec.EOF)},
    "empty_reads": {"read": lambda *_: data(b"")},
    # a READ gives more than was asked for
    "too_much": {"read": lambda *fields: data(bytes(fields[-1] + 1))},
    # each request through a handle has as many bytes
    "long_handle": {"opendir": lambda *_: (codec.HANDLE, codec.string(b"h" * 200_000))},
    # attributes without permissions
    "no_kinds": {"attributes": lambda *_: {"size": 1}},
    "relative_realpath": {"realpath": lambda *_: names((BOLD + b"home", {}))},
    "no_realpath": {"realpath": lambda *_: status(codec.OP_UNSUPPORTED)},
    "long_realpath": {"realpath": lambda *_: names((b"/" + b"n" * 200 + b"/a" * 20_000, {}))},
    # as long as one packet has it
    "longest_realpath": {"realpath": lambda *_: names((b"/a" * 500_000, {}))},
    # half of it takes the other half back
    "winding_realpath": {"realpath": lambda *_: names((b"/a" * 100_000 + b"/.." * 100_000, {}))},
    "deep_realpath": {"realpath": lambda *_: names((b"/a" * 65, {}))},
    "hang": {"opendir": lambda *_: time.sleep(600)},
    # what is asked to be removed is
    "removes": {"rmdir": lambda *_: status(codec.OK), "remove": lambda *_: status(codec.OK)},
    # NAME says that it has four billion names
    "counts_wrong": {"readdir": lambda *_: (codec.NAME, b"\xff\xff\xff\xff" + bytes(20))},
    # each reply is DATA
    "wrong_type": {"lstat": lambda *_: data(b"abc")},
}


def answer(server, asked):
    act = getattr(server, asked.name.lower(), None)
    kind, body = act(*asked.fields) if act else status(codec.OP_UNSUPPORTED)
    return codec.packet(kind, asked.number.to_bytes(4, "big") + body)


def main():
    kind, source = sys.argv[1], sys.stdin.buffer
    server = type(kind, (Right,), KINDS[kind])() if kind in KINDS else globals()[kind]()
    while True:
        head = source.read(4)
        if len(head) < 4:
            return
        packet = head + source.read(int.from_bytes(head, "big"))
        reply = codec.version(3, []) if packet[4] == codec.INIT else answer(server, codec.decode(packet))
        sys.stdout.buffer.write(reply)
        sys.stdout.buffer.flush()
