"""Plays a plan against a server, and records the session."""
import time
from collections import deque
from contextlib import suppress
from dataclasses import dataclass, field
from typing import List, Optional, Tuple

from sftpv3 import codec
from sftpv3.peer import pieces, resources, servers
from sftpv3.peer.servers import OPENING, TIMEOUT, WINDOW, NotStarted, Stopped, is_crash
from sftpv3.probe import plans
from sftpv3.walk import bounds


# After how many replies to nothing a session ends, and after how many bytes of replies beside those that READs ask for:
# a session is held, and so is each that has a difference of a new kind.
UNWANTED, REPLIES = 100, 1 << 26


@dataclass
class Session:
    """What happened. Without an `end` each request has its reply."""

    # The most requests without a reply.
    in_flight: int = 1
    # Pairs of `b"C"` or `b"S"` and a packet, in the order in which they passed. The last may not be whole.
    records: List[Tuple[bytes, bytes]] = field(default_factory=list)
    # For each record the seconds from the start of the server: of a request when it went to the pipe, of a reply when
    # it was there whole.
    times: List[float] = field(default_factory=list)
    # How the session ended before each request had its reply, or why it went no further.
    end: Optional[str] = None
    # How many requests had no reply at its end.
    unanswered: int = 0
    # How many requests of the plan were not asked. Those of extensions that VERSION does not announce do not count.
    unasked: int = 0
    # The last 64 KiB of what the server wrote to standard error.
    errors: bytes = b""
    # The server's exit status, below 0 for a signal; None if it did not end by itself and was stopped.
    status: Optional[int] = None
    # The tree file that it was judged by, where that was seen and not given.
    start: Optional[bytes] = None
    # Where requests went in pieces, the number that says which; else None.
    cut: Optional[int] = None
    # Whether two clients had it together, each on a connection of its own.
    is_together: bool = False
    # The place of the first record once the server was started again on the same files, or None if it was not.
    again: Optional[int] = None
    # What the server took of the system behind VERSION, and once each request had its reply; None if nobody knows.
    taken: Optional[Tuple[resources.Usage, resources.Usage]] = None

    def transcript(self):
        return codec.put_records(self.records)

    def silent(self):
        """Whether it ended since no reply came in time."""
        return bool(self.end) and "no reply" in self.end

    def ending(self):
        """How the server ended: `with status 0`, `by signal SIGSEGV`, `only when it was stopped`."""
        return servers.ending(self.status)

    @property
    def ended(self):
        """Whether the server ended, or closed its output, before each request had its reply."""
        return bool(self.end) and self.end.startswith("the server ")

    def crashed(self):
        """Whether a signal that says that a program is wrong ended the server after all was answered."""
        return self.end is None and is_crash(self.status)

    def is_over(self):
        """Whether each request has its reply, and the server ended then by itself, without a crash."""
        return self.end is None and self.status is not None and not self.crashed()

    def asked(self):
        """How many requests were asked."""
        return sum(side == b"C" for side, _ in self.records) - 1

    def told(self, why):
        """Why it was no session, how the server ended, and the last lines that it wrote to standard error."""
        how = "" if self.status is None else f"; it ended {self.ending()}"
        return "\n".join([why + how] + [f"  standard error: {line}" for line in self.last_words()])

    def last_words(self, count=5):
        """The last lines that the server wrote to standard error."""
        return self.errors.decode(errors="replace").splitlines()[-count:]


class Player:
    """Sends the steps, with up to `in_flight` of them unanswered, and records all that passes. Extensions that VERSION
    does not announce are left out, and with `only_given` those through handles that were never given. `stop` is an
    event that ends it. Handles that are `taken` by other things are recorded by names of their own."""

    # The names of handles in the record that are taken.
    NAME = b"again %d"

    def __init__(self, running, steps, in_flight, timeout, stop, cut=None, only_given=False, taken=frozenset()):
        self.running, self.in_flight, self.timeout, self.stop = running, in_flight, timeout, stop
        self.only_given = only_given
        self.waiting = deque(steps)
        self.session = Session(in_flight, cut=cut)
        self.unanswered, self.handles = {}, {}
        self.taken, self.named = taken, {}
        self.asked = self.unwanted = 0
        self.most = REPLIES + sum(min(it.fields[2], servers.LARGEST) for it in self.waiting if it.name == "READ")
        self.left = self.most
        self.streams = servers.Streams(running, None if cut is None else pieces.Cuts(cut))
        # when a reply came that was waited for, or what is waited for was asked
        self.heard, self.patience = self.streams.clock.now(), timeout * OPENING

    def record(self, side, packet):
        self.session.records.append((side, packet))
        self.session.times.append(time.monotonic() - self.running.started)

    def give(self, packet, recorded=None):
        """Sends a packet, and records it, or what stands for it."""
        self.record(b"C", recorded or packet)
        self.streams.give(packet)

    def opening(self):
        """Sends INIT and waits for VERSION 3."""
        self.give(codec.init())
        packet = None
        while packet is None:
            self.exchange()
            packet = self.next_packet()
            if packet is None and self.session.end:
                raise NotStarted(f"no VERSION came: {self.session.end}")
        self.record(b"S", packet)
        try:
            number, pairs = codec.version_of(packet)
        except codec.Malformed as error:
            raise NotStarted(f"the first packet is not right: {error}") from error
        if number != 3:
            raise NotStarted(f"the server speaks version {number}, not 3")
        self.patience, self.heard = self.timeout, self.streams.clock.now()
        announced = {name for name, _ in pairs}
        self.waiting = deque(step for step in self.waiting
                             if codec.EXTENSIONS.get(step.name) in announced | {None})
        if plans.EXTENSION in announced:
            self.waiting = deque(self.within_room(self.waiting))

    def within_room(self, steps):
        """The steps, within what the server says that it has room for. The question is not recorded, since no plan has
        it."""
        self.streams.give(plans.question())
        packet = self.next_packet()
        while packet is None:
            self.exchange()
            packet = self.next_packet()
            if packet is None and self.session.end:
                raise NotStarted(f"no reply to {plans.EXTENSION.decode()} came: {self.session.end}")
        found = plans.answered(packet)
        self.heard = self.streams.clock.now()
        return found.cut(steps) if found else steps

    def play(self):
        self.opening()
        process = self.running.process.pid
        before = resources.usage(process)
        self.run()
        after = resources.usage(process) if before and not self.session.end else None
        self.session.taken = (before, after) if after else None

    def run(self):
        """Asks all that waits, until each request has its reply."""
        while not self.session.end and (self.waiting or self.unanswered):
            self.ask()
            self.exchange()
            self.take_all()

    def ask(self):
        """Asks what may be asked now. A request is recorded before it is sent."""
        while self.waiting and len(self.unanswered) < self.in_flight and not self.far_behind():
            step = self.waiting[0]
            given, opener = step.fields, plans.opener(step.handle())
            if opener is not None:
                if opener in self.unanswered:
                    return
                if self.only_given and opener not in self.handles:
                    self.waiting.popleft()
                    continue
                known = self.handles.get(opener, b"never given %d" % opener)
                given = [step.handle().of(known)] + given[1:]
            self.waiting.popleft()
            if not self.unanswered:
                self.heard = self.streams.clock.now()
            self.asked += 1
            self.unanswered[step.number] = self.asked
            named = [self.named.get(given[0], given[0])] + given[1:] if opener is not None else given
            self.give(*(codec.request(step.number, step.name, *fields) for fields in (given, named)))

    def far_behind(self):
        return bool(self.unanswered) and self.asked - next(iter(self.unanswered.values())) >= WINDOW

    def exchange(self):
        """Writes what can be written, and reads what is there; waits until one of both can be done."""
        self.streams.clock.look()
        left = self.heard + self.patience - self.streams.clock.now()
        came = self.streams.exchange(min(left, 0.2))
        if self.stop and self.stop.is_set():
            raise Stopped()
        if came is None:
            self.session.end = "the server ended"
        elif not came and left <= 0 and not self.session.end:
            self.session.end = f"no reply within {self.patience:g} seconds"

    def next_packet(self):
        packet = self.streams.next_packet()
        self.session.end = self.session.end or self.streams.wrong
        return packet

    def take_all(self):
        packet = self.next_packet()
        while packet is not None:
            self.take(packet)
            packet = self.next_packet()

    def take(self, packet):
        """Records a reply, and keeps the handle in it. What is too much is not held, and so no reply."""
        self.left -= len(packet)
        if self.left < 0:
            self.session.end = self.session.end or f"the replies have more than {self.most:,} bytes"
            return
        self.record(b"S", self.recorded(packet))
        try:
            reply = codec.Reply(packet)
        except codec.Malformed:
            self.session.end = self.session.end or "a reply is malformed"
            return
        if self.unanswered.pop(reply.number, None):
            self.heard = self.streams.clock.now()
        else:
            self.unwanted += 1
            if self.unwanted > UNWANTED:
                self.session.end = self.session.end or f"{self.unwanted} replies are to no request"
        if reply.handle is not None and len(reply.handle) > bounds.HANDLE:
            # requests would have it, too
            self.session.end = self.session.end or f"a handle of the server has {len(reply.handle):,} bytes"
        elif reply.handle is not None:
            self.handles[reply.number] = reply.handle

    def is_taken(self, handle):
        """Whether the record has this handle for something else."""
        return handle in self.taken

    def recorded(self, packet):
        """A reply as it is recorded: a handle that is taken has another name."""
        with suppress(codec.Malformed):
            handle = codec.Reply(packet).handle
            if self.is_taken(handle):
                name = self.named.setdefault(handle, self.NAME % len(self.named))
                return codec.packet(codec.HANDLE, packet[5:9] + codec.string(name))
        return packet

    def part(self, seconds=servers.PARTING):
        """Lets the server end, for at most so many seconds, and records what it still writes."""
        session = self.session
        self.streams.selector.close()
        session.status = self.running.part(servers.SILENT_PARTING if session.silent() else seconds,
                                           self.streams.receive)
        self.take_all()
        if len(self.streams.arrived):
            self.record(b"S", self.streams.rest())
        session.errors = bytes(self.running.said)
        session.unanswered, session.unasked = len(self.unanswered), len(self.waiting)
        if session.end == "the server ended":
            session.end = f"the server ended {session.ending()}" if session.status is not None else \
                "the server closed its output"


def play(server, tree_file, steps, in_flight, timeout=TIMEOUT, stop=None, cut=None, parting=servers.PARTING,
         taken=frozenset()):
    """The session of these steps. `cut` is a number that says which of them go in pieces, or None. The server has so
    many seconds to end. Handles that are `taken` get other names in what is recorded."""
    running = server.start(tree_file, timeout * OPENING, stop)
    player = Player(running, map(server.in_order, steps), in_flight, timeout, stop, cut, server.only_given, taken)
    why = None
    try:
        player.play()
    except NotStarted as error:
        why = str(error)
    except BaseException:
        running.stop()
        raise
    finally:
        player.part(parting)
    if why:
        raise NotStarted(player.session.told(why), player.session)
    return player.session
