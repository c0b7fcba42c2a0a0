"""Servers that keep what they take, and one with little room: no reply shows that."""
import os
import struct

from sftpv3 import codec
from sftpv3.faults.kinds import Fault, refused


class Taken(Fault, taken=list):
    """What is taken for each request of a name is never given back. Where there is none left, the request fails."""

    NAME = "OPENDIR"

    def ask(self, asked):
        if asked.name == self.NAME:
            try:
                self.taken.append(self.take())
            except OSError:
                return refused(asked)
        return None

    def take(self):
        return os.open(os.devnull, os.O_RDONLY)


descriptor_leaks_by_listing = Taken.but("Each OPENDIR takes a descriptor that nothing gives back.")
descriptor_leaks_by_file = Taken.but("Each OPEN takes a descriptor that nothing gives back.", NAME="OPEN")


class MemoryLeaks(Taken):
    """Each OPENDIR takes 4 MiB of memory that nothing gives back: no difference, but it is told."""

    def take(self):
        return os.urandom(1 << 22)


class SmallRoom(Fault):
    """No fault: VERSION has limits@openssh.com, with less than most servers take; whoever asks for more is cut off."""

    LIMITS = (20000, 9000, 10000, 30)

    def opening(self, packet):
        number, pairs = codec.version_of(packet)
        return codec.version(number, pairs + [(b"limits@openssh.com", b"1")])

    def ask(self, asked):
        if asked.name == "READ" and asked.fields[2] > self.LIMITS[1] \
                or asked.name == "WRITE" and len(asked.fields[2]) > self.LIMITS[2] \
                or asked.name in ("OPEN", "OPENDIR") and len(self.opened) >= self.LIMITS[3]:
            os._exit(9)

    def answer(self, asked, reply):
        if asked.name == "EXTENDED" and asked.fields[0] == b"limits@openssh.com":
            return [codec.packet(codec.EXTENDED_REPLY, reply[5:9] + struct.pack(">4Q", *self.LIMITS))]
        return None
