"""One direction of a session: a stream of bytes as packets, which are held until they are recorded.

With --plain its client sees no extension that the auditor does not judge. The recorder reads VERSION by itself: a
session waits for its start, which the modules of `codec` would make longer.
"""
import os
import struct

# The opening of a transcript, as `codec` has it. Each session waits for the recorder's start, which does without.
OPENING = b"SFTPTR01"

# The longest packet that is recorded, its length field included: OpenSSH's server takes 262,144 bytes behind the length
# field, and some more bytes do no harm. What is longer is passed on, never held.
LONGEST = 4 + 262_144 + 1024

# A buffer's size, and with how much in it that the target has not taken no more is read.
SIZE = 1 << 20
FULL = 1 << 18
# Least room for a read.
ROOM = 1 << 17

length_at = struct.Struct(">I").unpack_from


class Flow:
    """One direction: what was read from the source, and the target has not taken.

    The bytes before `ready` are recorded and may be passed on, those before `whole` are whole packets.
    """

    def __init__(self, side, source, target, change=None):
        self.side, self.source, self.target, self.change = side, source, target, change
        self.buffer = memoryview(bytearray(SIZE))
        self.start = self.ready = self.whole = self.filled = 0
        self.ended = False
        self.packets = 0
        self.too_long = None

    def has_room(self):
        return not self.ended and self.ready - self.start < FULL

    def is_empty(self):
        return self.start == self.filled

    def take(self):
        """Reads what there is. Returns the number of bytes, 0 at the end of the stream or if it is not there yet."""
        if SIZE - self.filled < ROOM:
            self.move()
        try:
            count = os.readv(self.source, [self.buffer[self.filled:]])
        except BlockingIOError:
            return 0
        except OSError:
            count = 0
        self.ended = count == 0
        self.filled += count
        return count

    def move(self):
        """Moves what is held to the front of the buffer."""
        by = self.start
        self.buffer[:self.filled - by] = self.buffer[by:self.filled]
        self.start, self.ready, self.whole, self.filled = 0, self.ready - by, self.whole - by, self.filled - by

    def split(self):
        """Returns the packets that have become whole. After one that is too long there are none any more."""
        if self.change and self.filled > 4:
            self.change_first()
        buffer, place, filled, found = self.buffer, self.whole, self.filled, []
        while filled - place >= 4:
            end = place + 4 + length_at(buffer, place)[0]
            if end > filled:
                if end - place > LONGEST:
                    self.too_long = end - place - 4
                break
            if end - place > LONGEST:
                self.too_long = end - place - 4
                break
            found.append(buffer[place:end])
            place = end
        self.whole = place
        self.packets += len(found)
        return found

    def behind_packets(self):
        """What is held behind the last whole packet."""
        return self.buffer[self.whole:self.filled]

    def change_first(self):
        """Changes the first packet, once it is whole, into one that is not longer."""
        end = self.start + 4 + length_at(self.buffer, self.start)[0]
        if end > self.filled:
            if end > LONGEST:
                self.change = None
            return
        packet = self.change(bytes(self.buffer[self.start:end]))
        rest = bytes(self.buffer[end:self.filled])
        self.filled = self.start + len(packet) + len(rest)
        self.buffer[self.start:self.filled] = packet + rest
        self.change = None

    def release(self):
        """What is whole may be passed on."""
        self.ready = self.whole

    def release_all(self):
        """All that is held may be passed on, recorded or not."""
        self.ready = self.whole = self.filled

    def give(self):
        """Writes what may be passed on, as much as the target takes. Returns the number of bytes, -1 if it broke."""
        count = 0
        if self.start < self.ready:
            try:
                count = os.write(self.target, self.buffer[self.start:self.ready])
            except BlockingIOError:
                pass
            except OSError:
                return -1
        self.start += count
        if self.start == self.filled:
            self.start = self.ready = self.whole = self.filled = 0
        return count

    def drop(self):
        """Nothing is read or passed on any more."""
        self.ended = True
        self.start = self.ready = self.whole = self.filled = 0


# The extensions that the auditor judges, as `codec` has them.
JUDGED = (b"posix-rename@openssh.com", b"hardlink@openssh.com", b"fsync@openssh.com", b"limits@sftpv3.test")

# Of a packet: its length and its type; and behind these, in a VERSION, the version.
HEAD, PAIRS = 5, 9


def string_at(packet, place):
    """The string at a place, and the place behind it; ValueError where it is not whole."""
    end = place + 4 + int.from_bytes(packet[place:place + 4], "big")
    if place + 4 > len(packet) or end > len(packet):
        raise ValueError
    return packet[place + 4:end], end


def plain(packet):
    """A VERSION without the extensions that the auditor does not judge. Any other packet stays as it is."""
    if packet[HEAD - 1:HEAD] != b"\2" or len(packet) < PAIRS:
        return packet
    kept, place = packet[HEAD - 1:PAIRS], PAIRS
    try:
        while place < len(packet):
            name, behind = string_at(packet, place)
            _, end = string_at(packet, behind)
            kept += packet[place:end] if name in JUDGED else b""
            place = end
    except ValueError:
        return packet
    return len(kept).to_bytes(4, "big") + kept
