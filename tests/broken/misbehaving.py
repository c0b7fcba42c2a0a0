"""Servers that misbehave as programs do, for tests/test-probe-runs: they end, hang, are late, write no packets.

    tests/stand-in misbehaving KIND COMMAND [ARGUMENT ...]

runs the command, a server without bugs, and stands between it and the client: KIND is a name below, whose text says
what goes wrong. Requests are passed on one at a time.
"""
import os
import signal
import sys
import time

from broken import planted
from sftpv3 import codec
from sftpv3.faults.between import fault, write

# The flag of an owner among attributes.
OWNER = 2


def status(number, code):
    return codec.packet(codec.STATUS, number.to_bytes(4, "big") + code.to_bytes(4, "big") + bytes(8))


def is_done(packet):
    return packet[4] == codec.STATUS and packet[9:13] == bytes(4)


def is_refusal(packet):
    return packet[4] == codec.STATUS and packet[9:13] != bytes(4)


def say(text):
    """Writes to standard error."""
    sys.stderr.write(text)
    sys.stderr.flush()


class Healthy:
    """Nothing goes wrong."""

    # which request it is, from 1
    count = 0

    def version(self, packet):
        """What the client gets for this VERSION."""
        return packet

    def before(self, asked):
        """What is done before a request is passed on."""

    def request(self, asked, packet):
        """What the server gets for this request."""
        return packet

    def reply(self, asked, packet):
        """What the client gets for this reply."""
        return packet

    def end(self):
        """What the client gets when its input has ended."""
        return b""


# What makes servers that do one of these in another way.
version, before, request, reply, end = (fault(hook, Healthy) for hook in (
    "version", "before", "request", "reply", "end"))


class fifth_refusal(Healthy):
    """Each fifth refusal is answered with OK."""

    refusals = 0

    def reply(self, asked, packet):
        self.refusals += is_refusal(packet)
        return status(asked.number, codec.OK) if is_refusal(packet) and self.refusals % 5 == 0 else packet


one_unanswered = reply("The 20th request has no reply.",
                       lambda self, asked, packet: b"" if self.count == 20 else packet)
looks_unanswered = reply(
    "No STAT, LSTAT, FSTAT or REALPATH has a reply.",
    lambda self, asked, packet: b"" if asked.name in ("STAT", "LSTAT", "FSTAT", "REALPATH") else packet)
hang = before("Nothing is done from the 7th request on.", lambda self, asked: time.sleep(600 if self.count == 7 else 0))
hang_at_start = version("There is no VERSION.", lambda self, packet: time.sleep(600))


@before
def crash(self, asked):
    """The server is ended by a signal at the 7th request, and says why."""
    if self.count == 7:
        say("going on\nassertion failed: seven\n")
        os.kill(os.getpid(), signal.SIGSEGV)


@version
def exit_at_start(self, packet):
    """The server ends with a status before VERSION, and says why."""
    say("no configuration was found\n")
    os._exit(9)


@before
def close_output(self, asked):
    """The server closes its output at the 7th request, and goes on."""
    if self.count == 7:
        os.close(1)
        time.sleep(600)


garbage = reply("The reply to the 7th request is no packet.", lambda self, asked, packet:
                b"Segmentation fault (core dumped)\n" if self.count == 7 else packet)


@reply
def flood(self, asked, packet):
    """From the 7th request on there is no end of bytes that are no packet."""
    while self.count == 7:
        os.write(1, b"\xff" * 65536)
    return packet


garbage_at_start = version("A line comes before VERSION, as from a shell's start file.",
                           lambda self, packet: b"Welcome to this host\n" + packet)
version_six = version("VERSION has another number.", lambda self, packet: codec.version(6, []))
short_version = version("VERSION is shorter than it should be.",
                        lambda self, packet: codec.packet(codec.VERSION, b"\0\0"))
reads_nothing = before("The server reads nothing from the 5th request on; what it does not read fills the pipe.",
                       lambda self, asked: time.sleep(600 if self.count == 5 else 0))


class loud(Healthy):
    """The server writes 1 MB to standard error, and the 30th request gets a wrong reply."""

    def version(self, packet):
        say("".join(f"line {number:08} of the log\n" for number in range(40000)))
        return packet

    def reply(self, asked, packet):
        return status(asked.number, 4) if self.count == 30 else packet


slow = before("Each of the first 50 replies takes 100 ms.",
              lambda self, asked: time.sleep(0.1 if self.count <= 50 else 0))
slow_removal = before("Each reply to REMOVE and RMDIR takes a second.",
                      lambda self, asked: time.sleep(1 if asked.name in ("REMOVE", "RMDIR") else 0))


@before
def waits_once(self, asked):
    """The 9th reply takes a second, and then the file of $MARK is there."""
    if self.count == 9:
        with open(os.environ["MARK"], "wb"):
            time.sleep(1)


wrong_id = reply(
    "The 9th reply has an id that no request has.", lambda self, asked, packet:
    packet[:5] + (asked.number + 5000).to_bytes(4, "big") + packet[9:] if self.count == 9 else packet)


class swapped_ids(Healthy):
    """Of two requests that are in flight together, two STATUS get each other's id, where they differ."""

    kept = None

    def reply(self, asked, packet):
        if self.kept is None and is_refusal(packet):
            self.kept = packet
            return b""
        if self.kept and packet[4] == codec.STATUS and packet[9:13] != self.kept[9:13]:
            first, self.kept = self.kept, b""
            return first[:5] + packet[5:9] + first[9:] + packet[:5] + first[5:9] + packet[9:]
        return packet


twice = reply("The 9th reply comes twice.", lambda self, asked, packet: packet * 2 if self.count == 9 else packet)
to_nothing = reply("A reply that nobody asked for comes before the 9th.",
                   lambda self, asked, packet: status(900000, 0) + packet if self.count == 9 else packet)
short_packet = reply("The last three bytes of the 9th reply do not come, and the server hangs.",
                     lambda self, asked, packet:
                     packet[:-3] if self.count == 9 else packet if self.count < 9 else b"")
cut_reply = reply("The 9th reply is a packet that ends inside a field.", lambda self, asked, packet:
                  codec.packet(packet[4], packet[5:9] + b"\0") if self.count == 9 else packet)
tiny_packet = reply("The 9th reply is a packet of one byte.",
                    lambda self, asked, packet: b"\0\0\0\1\x65" if self.count == 9 else packet)
huge_packet = reply("The 9th reply says that it has 4 GB.",
                    lambda self, asked, packet: b"\xff\xff\xff\xff" + packet[4:] if self.count == 9 else packet)
second_version = reply("The 9th reply is a VERSION.",
                       lambda self, asked, packet: codec.version(3, []) if self.count == 9 else packet)


@reply
def handles(self, asked, packet):
    """A request that opens nothing is answered with a HANDLE, if it is refused."""
    if is_refusal(packet) and asked.name not in ("OPEN", "OPENDIR"):
        return codec.packet(codec.HANDLE, packet[5:9] + codec.string(b"0000"))
    return packet


data_for_all = reply("Each reply that is OK is DATA.", lambda self, asked, packet: codec.packet(
    codec.DATA, packet[5:9] + codec.string(b"OK")) if is_done(packet) else packet)
link_first = request(
    "SYMLINK takes its paths in the order of the draft.", lambda self, asked, packet:
    codec.request(asked.number, asked.name, *asked.fields[::-1]) if asked.name == "SYMLINK" else packet)


@reply
def without_owners(self, asked, packet):
    """The attributes of things have no owner."""
    if packet[4] != codec.ATTRS:
        return packet
    flags = int.from_bytes(packet[9:13], "big") & ~OWNER
    return codec.packet(codec.ATTRS, packet[5:9] + flags.to_bytes(4, "big") + packet[13:21] + packet[29:])


@reply
def later_codes(self, asked, packet):
    """A handle that is none is refused with a code that later versions have."""
    is_refused = packet[4] == codec.STATUS and packet[9:13] == codec.FAILURE.to_bytes(4, "big")
    return status(asked.number, 9) if is_refused and asked.name == "CLOSE" else packet


class unknown_unanswered(Healthy):
    """Each second OPEN to write is refused, and a request through a handle that was never given has no reply."""

    opened = 0

    def reply(self, asked, packet):
        if b"never given" in (asked.handle() or b""):
            return b""
        self.opened += asked.name == "OPEN"
        return status(asked.number, codec.FAILURE) if asked.name == "OPEN" and self.opened % 2 == 0 else packet


long_texts = reply(
    "Each STATUS has a text of 250,000 bytes, which every reply may.", lambda self, asked, packet: codec.packet(
        codec.STATUS, packet[5:13] + codec.string(b"x" * 250_000) + codec.string(b""))
    if packet[4] == codec.STATUS else packet)
long_handles = reply("Each handle has 250,000 bytes.", lambda self, asked, packet: codec.packet(
    codec.HANDLE, packet[5:9] + codec.string(b"h" * 250_000)) if packet[4] == codec.HANDLE else packet)
last_words = end("Bytes come after the last reply.", lambda self: b"bye\n")
last_reply = end("A reply to nothing comes after the last.", lambda self: status(77777, 0))


@end
def end_by_signal(self):
    """The server is ended by a signal when its input has ended."""
    os.kill(os.getpid(), signal.SIGABRT)
    time.sleep(600)


@end
def no_end(self):
    """The server goes on when its input has ended, and SIGTERM does not end it."""
    signal.signal(signal.SIGTERM, signal.SIG_IGN)
    time.sleep(600)


class now_and_then(Healthy):
    """In each fifth session, the first after the probe's look at the root, the 12th request gets a wrong reply.
    MISBEHAVING_COUNT names the file of the count."""

    def version(self, packet):
        self.wrong = self.is_meant(sessions_before())
        return packet

    def is_meant(self, before):
        return before % 5 == 1

    def reply(self, asked, packet):
        return status(asked.number, 7) if self.wrong and self.count == 12 else packet


only_once = fault("is_meant", now_and_then)(
    "In the first session after the probe's look at the root, the 12th request gets a wrong reply.",
    lambda self, before: before == 1)


@version
def starts_at_times(self, packet):
    """Each third start fails. MISBEHAVING_COUNT names the file of the count."""
    if sessions_before() % 3 == 2:
        say("the port is taken\n")
        os._exit(1)
    return packet


@reply
def two_faults(self, asked, packet):
    """A READ that finds bytes lacks the last, and attributes of FSTAT have other permissions."""
    if packet[4] == codec.DATA and len(packet) > 14:
        return codec.packet(codec.DATA, packet[5:9] + codec.string(packet[13:-1]))
    if asked.name == "FSTAT" and packet[4] == codec.ATTRS:
        given = codec.attributes_in(packet)
        given["permissions"] ^= 0o7
        return codec.packet(codec.ATTRS, packet[5:9] + codec.attributes(given))
    return packet


def sessions_before():
    """How many sessions there were before this one, which is counted."""
    name = os.environ["MISBEHAVING_COUNT"]
    with open(name, "ab") as file:
        file.write(b".")
        return file.tell() - 1


def packets_of(source):
    """The packets of a stream, until it ends."""
    data = b""
    while True:
        while codec.length(data) is not None and codec.length(data) <= len(data):
            yield data[:codec.length(data)]
            data = data[codec.length(data):]
        more = os.read(source, 1 << 18)
        if not more:
            return
        data += more


def play(kind, server):
    """Passes on what the client asks, and what the server replies, until the client's input ends."""
    replies = packets_of(server.stdout.fileno())
    for packet in packets_of(0):
        asked = None if packet[4] == codec.INIT else codec.decode(packet)
        if asked:
            kind.count += 1
            kind.before(asked)
        write(server.stdin.fileno(), kind.request(asked, packet) if asked else packet)
        write(1, kind.reply(asked, next(replies)) if asked else kind.version(next(replies)))
    server.stdin.close()
    write(1, kind.end())


def play_one(kinds):
    """Runs the server whose class the command line names. If that ends first, or the client is gone, its status is that
    of this process."""
    chosen, command = planted.named(kinds)
    with planted.started(command) as server:
        try:
            play(chosen(), server)
            return
        except (StopIteration, BrokenPipeError):
            pass
    os._exit(server.returncode if server.returncode >= 0 else 128 - server.returncode)


def main():
    play_one(planted.classes(globals()))
