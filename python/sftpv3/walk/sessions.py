"""A session with a server: asks what tasks want, many requests at a time, and records all that passes; and what a reply
says."""
from collections import deque

from sftpv3 import codec
from sftpv3.codec import wording
from sftpv3.peer import servers
from sftpv3.walk import bounds
from sftpv3.walk.bounds import Misbehaves


# How many tasks there are at a time, each with at most one handle; and how many replies to nothing end the walk.
TASKS, UNWANTED = 16, 100

# How many times as long as for a reply it waits for VERSION.
OPENING = 12

# Seconds from a look at what may stop a session to the next.
GLANCE = 0.2

# How many requests there may be from the oldest unanswered one on, so that an audit judges the session.
WINDOW = 1000


class Task:
    """Steps that are a generator: it yields lists of requests, and gets their replies, in the same order."""

    def __init__(self, steps):
        self.steps, self.replies, self.missing = steps, [], 0

    def wait_for(self, count):
        self.replies, self.missing = [None] * count, count

    def take(self, place, reply):
        """Keeps a reply, and says whether all are there."""
        self.replies[place] = reply
        self.missing -= 1
        return self.missing == 0


class Session:
    """A session with a server that runs. `record` gets its packets, as spool.sinks.FileSink does; `timeout` is how
    many seconds it waits for a reply; `most` is how many bytes all that passes may have together, since a record
    keeps it. Once `stop` is set, it raises servers.Stopped. With `by_letter` it ends at a packet with which no program
    judges a record."""

    def __init__(self, running, record, timeout, in_flight, most=bounds.PASSED, stop=None, by_letter=False):
        self.running, self.record, self.in_flight, self.stop = running, record, in_flight, stop
        self.by_letter = by_letter
        self.streams = servers.Streams(running)
        self.waiting, self.unanswered = deque(), {}
        self.asked = self.unwanted = self.denied = self.tasks = self.passed = 0
        self.most = most
        self.ended = False
        # how the server ended, once it was let end: None if it had to be stopped
        self.status = None
        self.timeout, self.patience, self.heard = timeout, timeout * OPENING, self.streams.clock.now()
        record.begin(codec.OPENING)

    def give(self, packet):
        """A packet is recorded before it is sent."""
        self.count([packet])
        self.record.put_packets(b"C", [packet])
        self.streams.give(packet)

    def count(self, packets):
        """Counts what passes, before it is recorded: a server has each request as long as the paths that it told."""
        self.passed += sum(map(len, packets))
        if self.passed > self.most:
            raise Misbehaves(f"the requests and replies of the session have more than {self.most:,} bytes")

    def exchange(self):
        self.streams.clock.look()
        left = self.heard + self.patience - self.streams.clock.now()
        came = self.streams.exchange(min(left, GLANCE) if self.stop else left)
        if self.stop and self.stop.is_set():
            raise servers.Stopped()
        if came is None:
            self.ended = True
        elif not came and left <= 0:
            raise Misbehaves(f"the server did not reply within {self.patience:g} seconds")

    def packets(self):
        """The packets that have come, which are recorded. Raises Misbehaves if there are none and no more will come."""
        found, packet = [], self.streams.next_packet()
        while packet is not None:
            found.append(packet)
            packet = self.streams.next_packet()
        self.count(found)
        if found:
            self.record.put_packets(b"S", found)
        elif self.streams.wrong:
            raise Misbehaves(f"the server sent no packets: {self.streams.wrong}")
        elif self.ended:
            within = ", in the middle of a packet" if len(self.streams.arrived) else ""
            raise Misbehaves(f"the server ended, or closed its output{within}")
        return found

    def open(self):
        """Sends INIT and waits for VERSION 3."""
        self.give(codec.init())
        found = []
        while not found:
            self.exchange()
            found = self.packets()
        try:
            number, _ = codec.version_of(found[0])
            if self.by_letter:
                check(found[0])
        except codec.Malformed as error:
            raise Misbehaves(f"the first packet of the server is not right: {error}") from None
        if number != 3:
            raise Misbehaves(f"the server speaks version {number}, not 3")
        self.patience, self.heard = self.timeout, self.streams.clock.now()
        for packet in found[1:]:
            self.take(packet)

    def play(self, work):
        """Does all tasks of `work`, whose `next` gives the steps of one more, or None if there is none now."""
        while True:
            self.begin(work)
            self.ask()
            if not self.unanswered:
                break
            self.exchange()
            for packet in self.packets():
                self.take(packet)

    def begin(self, work):
        while self.tasks < TASKS:
            steps = work.next()
            if steps is None:
                break
            self.tasks += 1
            self.go_on(Task(steps), None)

    def go_on(self, task, replies):
        """Gives a task its replies, and takes what it wants to ask next."""
        wanted = []
        try:
            while not wanted:
                wanted = task.steps.send(replies)
                replies = []
        except StopIteration:
            self.tasks -= 1
            return
        task.wait_for(len(wanted))
        self.waiting += [(task, place, request) for place, request in enumerate(wanted)]

    def ask(self):
        while self.waiting and len(self.unanswered) < self.in_flight and not self.far_behind():
            task, place, request = self.waiting.popleft()
            if not self.unanswered:
                self.heard = self.streams.clock.now()
            self.asked += 1
            self.unanswered[self.asked] = task, place
            self.give(codec.request(self.asked, request.name, *request.fields))

    def far_behind(self):
        return bool(self.unanswered) and self.asked - next(iter(self.unanswered)) >= WINDOW

    def take(self, packet):
        try:
            self.hand_over(Reply(packet))
            # behind what it told, which may be a plainer reason to end
            if self.by_letter:
                check_reply(packet)
        except codec.Malformed as error:
            raise Misbehaves(f"a reply of the server is malformed: {error}") from None

    def hand_over(self, reply):
        """Gives a reply to the task that waits for it."""
        if reply.handle is not None and len(reply.handle) > bounds.HANDLE:
            raise Misbehaves(f"a handle of the server has {len(reply.handle):,} bytes")
        task, place = self.unanswered.pop(reply.number, (None, 0))
        if task is None:
            self.unwanted += 1
            if self.unwanted > UNWANTED:
                raise Misbehaves(bounds.to_no_request(self.unwanted))
            return
        self.heard = self.streams.clock.now()
        self.denied += reply.code == codec.PERMISSION_DENIED
        if task.take(place, reply):
            self.go_on(task, task.replies)

    def close(self):
        """Lets the server end, and gives the last lines that it wrote to standard error."""
        self.streams.selector.close()
        self.status = self.running.part(servers.PARTING, self.streams.receive)
        return bytes(self.running.said).decode(errors="replace").splitlines()[-5:]

    def take_last(self):
        """Takes what came while the server ended: after its last reply nothing should."""
        found = list(iter(self.streams.next_packet, None))
        self.count(found)
        if found:
            self.record.put_packets(b"S", found)
        for packet in found:
            self.take(packet)
        rest = len(self.streams.arrived)
        if rest:
            raise Misbehaves(f"the server sent {rest:,} bytes after its last reply that are no packet")


def check(packet):
    """Raises Malformed for what no packet of a server in a record may be."""
    if len(packet) > codec.LONGEST:
        raise codec.Malformed(f"it has {len(packet):,} bytes, more than the {codec.LONGEST:,} of any packet")
    codec.read(codec.SERVER, packet)


def check_reply(packet):
    """The same for what is behind VERSION."""
    if packet[4] == codec.VERSION:
        raise codec.Malformed("it is a VERSION")
    check(packet)


# The bits of the permissions that say what an entry is, and the kinds that a tree has.
TYPES, DIRECTORY, FILE, LINK = 0o170000, 0o040000, 0o100000, 0o120000


class Reply:
    """A reply: its id and its type; the code of a STATUS, the handle of a HANDLE, how many bytes DATA has, the names of
    NAME, the attributes of ATTRS. What it does not have is None. Raises codec.Malformed."""

    def __init__(self, packet):
        fields = codec.Fields(packet[4:])
        self.kind, self.number = fields.byte(), fields.uint32()
        self.code = fields.uint32() if self.kind == codec.STATUS else None
        self.handle = fields.string() if self.kind == codec.HANDLE else None
        self.count = len(fields.string()) if self.kind == codec.DATA else None
        self.attributes = fields.attributes() if self.kind == codec.ATTRS else None
        self.names = [name for name, _, _ in fields.names()] if self.kind == codec.NAME else None

    def why(self):
        """Why it is not what was asked for, in a few words."""
        return f"a reply of type {self.kind}" if self.code is None else wording.code_of(self.code)


def kind_of(attributes):
    """What an entry is by its attributes: DIRECTORY, FILE, LINK, another type, or None if they do not say it."""
    permissions = attributes.get("permissions")
    return permissions & TYPES or None if permissions is not None else None
