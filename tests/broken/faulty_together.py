"""Servers whose fault only two clients at once show, for tests/test-together.

    tests/stand-in faulty_together FAULT COMMAND [ARGUMENT ...]

runs the command, a sound server on files that others change, too, and stands between it and its client. Each session
keeps what it knows of the files, until it changes something itself. So with one client no reply is other than right.
"""
import collections

from broken import planted
from sftpv3 import codec
from sftpv3.faults.between import Bug

# Requests that change nothing.
LOOKERS = {"STAT", "LSTAT", "FSTAT", "READLINK", "REALPATH", "READ", "OPENDIR", "READDIR", "CLOSE"}


class sound(Bug, asked=dict, keys=dict, known=dict, paths=dict):
    """Right: nothing is kept."""

    # It knows what each request is known by, and what was replied to those that are alike; and the paths of handles.

    # requests whose replies are kept
    KEPT: tuple = ()

    def requests(self, packets):
        for packet in packets:
            asked = codec.decode(packet)
            self.asked[asked.number] = asked
            if asked.name not in LOOKERS and not (asked.name == "OPEN" and asked.fields[1] == codec.READ):
                self.known.clear()
            if asked.name in self.KEPT:
                handle = asked.handle()
                fields = asked.fields if handle is None else [self.paths.get(handle), *asked.fields[1:]]
                self.keys[asked.number] = (asked.name, *fields)
        return packets

    def reply(self, packet):
        reply = codec.Reply(packet)
        asked = self.asked.pop(reply.number)
        if reply.handle is not None:
            self.paths[reply.handle] = asked.fields[0]
        key = self.keys.pop(reply.number, None)
        known = packet if key is None else self.known.setdefault(key, packet)
        return known[:5] + packet[5:9] + known[9:]


attributes_kept = sound.but(
    "STAT and LSTAT of a path give what they gave before, until the session itself changes something.",
    KEPT=("STAT", "LSTAT"))
bytes_kept = sound.but(
    "A READ gives what one of the same path and place gave before, until the session itself changes something.",
    KEPT=("READ",))
links_kept = sound.but("READLINK of a path gives what it gave before, until the session itself changes something.",
                       KEPT=("READLINK",))


class names_kept(sound, turns=collections.Counter):
    """A listing of a path gives what an earlier one gave, until the session itself changes something."""

    # It counts how many replies each listing had.

    KEPT = ("READDIR",)

    def requests(self, packets):
        super().requests(packets)
        for packet in packets:
            asked = codec.decode(packet)
            if asked.name == "READDIR":
                self.keys[asked.number] += (self.turns[asked.handle()],)
                self.turns[asked.handle()] += 1
            elif asked.name == "CLOSE":
                self.turns.pop(asked.handle(), None)
        return packets


class absence_kept(sound):
    """What STAT and LSTAT did not find, they do not find, until the session itself changes something."""

    KEPT = ("STAT", "LSTAT")

    def reply(self, packet):
        reply = codec.Reply(packet)
        key = self.keys.pop(reply.number, None)
        if key is not None and reply.code == codec.NO_SUCH_FILE:
            self.known[key] = packet
        if key in self.known:
            return self.known[key][:5] + packet[5:9] + self.known[key][9:]
        return super().reply(packet)


def main():
    fault, words = planted.named(planted.classes(globals()))
    planted.run(fault(), words)
