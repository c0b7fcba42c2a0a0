"""Whether a session asked for any change. If it did not, the tree at its end is that of its start, and none has to be
written: a night costs what its sessions did."""
import mmap
import struct

from sftpv3.codec import CLIENT
from sftpv3.codec.packets import EXTENDED, EXTENSIONS, REQUESTS
from sftpv3.nights.causes import CHANGING, LOOKING
from sftpv3.recorder.packets import OPENING

# What precedes the fields of a record's packet: the side, and the packet's length; then its type and its number.
FRONT, ABOUT, LENGTH = struct.Struct(">cI"), struct.Struct(">BI"), struct.Struct(">I")
# Requests that change nothing, whatever the server answers; and those that may change something by their fields.
LOOKERS = {REQUESTS[it][0] for it in ("CLOSE", "READ", "LSTAT", "FSTAT", "OPENDIR", "READDIR", "REALPATH", "STAT",
                                      "READLINK")}
OPEN = REQUESTS["OPEN"][0]
LOOKING_EXTENSIONS = LOOKING | {EXTENSIONS["FSYNC"], EXTENSIONS["LIMITS"]}


def string_at(data, at: int, end: int) -> bytes:
    """The string that begins at a place of what ends at another one."""
    length = LENGTH.unpack_from(data, at)[0] if at + LENGTH.size <= end else end
    return bytes(data[at + LENGTH.size:min(end, at + LENGTH.size + length)])


def is_look(data, at: int, end: int) -> bool:
    """Whether the packet of a client from one place to another asks for no change."""
    if end - at < ABOUT.size:
        return False
    kind, _ = ABOUT.unpack_from(data, at)
    fields = at + ABOUT.size
    if kind == EXTENDED:
        return string_at(data, fields, end) in LOOKING_EXTENSIONS
    if kind != OPEN:
        return kind in LOOKERS
    flags = fields + LENGTH.size + len(string_at(data, fields, end))
    return flags + LENGTH.size <= end and not LENGTH.unpack_from(data, flags)[0] & CHANGING


def changes_nothing(name: str) -> bool:
    """Whether the session of a transcript asked for no change, as far as its records are whole."""
    with open(name, "rb") as file:
        try:
            data = mmap.mmap(file.fileno(), 0, access=mmap.ACCESS_READ)
        except ValueError:
            return False
        with data:
            at, count = len(OPENING), 0
            while at + FRONT.size <= len(data):
                side, length = FRONT.unpack_from(data, at)
                at, end, count = at + FRONT.size, at + FRONT.size + length, count + 1
                if side == CLIENT and count > 1 and not is_look(data, at, min(end, len(data))):
                    return False
                at = end
    return True
