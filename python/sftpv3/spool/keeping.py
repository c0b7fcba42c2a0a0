"""The daemon that keeps records in a spool, where the users who are recorded cannot touch them.

A recorder connects and sends `SFTPSP01`, a byte with a length, and so many bytes of the client's address. The daemon
makes the record and replies with eight bytes 0. Then the recorder sends batches, each a length of four bytes and whole
records, and the daemon replies with the number of bytes written so far, eight bytes, once for all batches that it found
together. It closes the connection if it does not record (any further). A batch that does not come whole is not written.
Last may come a length whose first bit is set, and so many bytes, which say how the server ended: an attribute of the
record has them.

Beside each record is a file of times on the clock of the boot, which no user can write either: a batch is timed when it
has come, which is before the recorder passes on what is in it, so a request is no later there than at the server, and a
reply no earlier.

One user cannot hold up the others: a connection has one turn in each round, in which so much is read, so many batches
are written and one reply is sent, and each user has so many connections. Users without an account have none, since one
person may have thousands of them. shares.py counts what each user has of the spool, and descriptors.py closes the
connections by which descriptors came.
"""
import errno
import os
import select
import socket
import stat
import struct
import time

from sftpv3.spool.descriptors import Closing, received, refuse_descriptors
from sftpv3.spool.shares import Accounts, Refused, Shares
from sftpv3.spool.sinks import ENDING_BIT, LONGEST_ENDING, SPOOL_OPENING, note_ending, peer
from sftpv3.spool.timing import Times, boot
from sftpv3.system import naming, ways

# The longest batch: what a buffer of recorder/packets.py holds, and a byte for each of its packets.
LONGEST_BATCH = 2 << 20
# How many batches of a connection are written in one turn.
BATCHES = 256
# How long a recorder may take to say who the client is.
HELLO_SECONDS = 5
# How many connections there may be that have not said it, and in all.
CONNECTIONS = 1000
# How many may wait to be taken, and how many are taken in a round.
BACKLOG, TAKEN = 1024, 128
# How long no connection is taken when there are no descriptors left.
PAUSE = 0.5
# The first descriptor that systemd gives (sd_listen_fds).
FIRST_GIVEN = 3
# What is said of such users, whichever they are: there can be thousands.
NO_ACCOUNT = "this user has no account (--any-uid)"


class Unfit(Exception):
    """A spool or a socket that cannot be used."""


class Connection:
    """A recorder that is connected, and its record."""

    def __init__(self, link, daemon):
        self.link, self.shares, self.closing = link, daemon.shares, daemon.closing
        self.process, self.user = peer(link)
        self.since = time.monotonic()
        self.held, self.replies = bytearray(), b""
        self.file, self.name, self.written = None, None, 0
        self.times, self.boot = None, daemon.boot

    def fileno(self):
        return self.link.fileno()

    def events(self):
        # a recorder that does not read its replies is not read either
        return select.POLLOUT if self.replies else select.POLLIN

    def read(self):
        """Takes what there is, unless there is work left. Returns whether the connection goes on."""
        if not self.is_ready():
            try:
                data = received(self.link)
            except BlockingIOError:
                return True
            if not data:
                return False
            self.held += data
        self.work()
        return True

    def end_of_first(self):
        """Where the first thing that is held ends, the beginning or a batch; None if that is not known yet."""
        head = 9 if self.file is None else 4
        if len(self.held) < head:
            return None
        if self.file is None:
            if self.held[:8] != SPOOL_OPENING:
                raise Refused("it does not speak as a recorder")
            return head + self.held[8]
        length = int.from_bytes(self.held[:4], "big")
        if self.is_ending() and length - ENDING_BIT <= LONGEST_ENDING:
            return head + length - ENDING_BIT
        if not 0 < length <= LONGEST_BATCH:
            raise Refused("its batch is too long" if length else "its batch is empty")
        return head + length

    def is_ending(self):
        """Whether what is held first says how the server ended."""
        return self.file is not None and self.held[:1] >= b"\x80"

    def is_ready(self):
        """Whether something whole is held."""
        end = self.end_of_first()
        return end is not None and end <= len(self.held)

    def work(self):
        """Does what is held whole, as much as one turn allows."""
        if self.file is None and self.is_ready():
            end = self.end_of_first()
            address = bytes(self.held[9:end])
            del self.held[:end]
            self.begin(address)
            self.replies += bytes(8)
        batches = self.batches() if self.file is not None else []
        if batches:
            self.keep(batches)
            self.replies += struct.pack(">Q", self.written)
        if self.is_ending() and self.is_ready():
            end = self.end_of_first()
            note_ending(self.file, bytes(self.held[4:end]))
            del self.held[:end]
        self.write()

    def batches(self):
        """Takes the batches that are held whole."""
        found = []
        while len(found) < BATCHES and self.is_ready() and not self.is_ending():
            end = self.end_of_first()
            found.append(bytes(self.held[4:end]))
            del self.held[:end]
        return found

    def begin(self, address):
        date = time.strftime("%Y%m%dT%H%M%SZ", time.gmtime())
        address = naming.as_part(address.decode(errors="replace"))
        with self.shares.begin(self.user, f"{date}-{address}-{self.process}.transcript") as place:
            try:
                self.file, made = naming.open_anew(place)
            except OSError as error:
                raise Refused(f"cannot make a record: {error.strerror}") from None
            self.times = Times.beside(made, self.boot)
        self.name = made.path

    def keep(self, batches):
        data = b"".join(batches)
        view, count = memoryview(data), len(data)
        entries = self.times.entries(data) if self.times else b""
        self.shares.take(self.user, self.written, count, len(entries))
        try:
            while view:
                view = view[os.write(self.file, view):]
        except OSError as error:
            os.ftruncate(self.file, self.written)
            raise Refused(f"cannot write {self.name}: {error.strerror}") from None
        self.written += count
        if self.times and not self.times.put(entries):
            self.times = None

    def write(self):
        try:
            while self.replies:
                self.replies = self.replies[self.link.send(self.replies):]
        except BlockingIOError:
            pass

    def close(self):
        self.closing.close(self.link)
        if self.file is not None:
            if not self.written:
                self.shares.take_back(self.user, self.name)
            if self.times:
                self.times.close()
            os.close(self.file)


def listening_at(place):
    """A socket of this name, to which all can connect, and which one it is. It has the name only once it listens."""
    found = place.state()
    if found and not stat.S_ISSOCK(found.st_mode):
        raise OSError(errno.EEXIST, "it is something else")
    listener, new = socket.socket(socket.AF_UNIX), place.beside(".sftpv3-")
    before = os.umask(0o111)
    try:
        listener.bind(new.by_descriptor())
    finally:
        os.umask(before)
    refuse_descriptors(listener)
    listener.listen(BACKLOG)
    made = identity(new.state())
    new.rename_to(place)
    return listener, made


def given_by_systemd():
    """The sockets that systemd opened for this process: one for each root from which recorders connect."""
    is_ours = os.environ.get("LISTEN_PID") == str(os.getpid())
    count = int(os.environ.get("LISTEN_FDS", "0")) if is_ours else 0
    opened = [socket.socket(fileno=FIRST_GIVEN + it) for it in range(count)]
    for it in opened:
        refuse_descriptors(it)
    return opened


def identity(found):
    """Which socket it is: another one may get the number of one that is gone."""
    return found.st_ino, found.st_mtime_ns


class Daemon:
    """The loop over all connections."""

    def __init__(self, options, notices, signals):
        self.options, self.notices, self.signals = options, notices, signals
        self.shares = Shares(self.fit_spool(options.spool), os.path.abspath(options.spool), options)
        self.accounts, self.closing, self.boot = Accounts(), Closing(), boot()
        # where the socket is that was made here, and which one it is
        self.made = self.identity = None
        self.listeners = {it.fileno(): it for it in self.open_listeners(options.socket)}
        for it in self.listeners.values():
            it.setblocking(False)
        self.connections, self.counts = {}, {}
        # when connections are taken again, when the silent ones were looked for, what was said of a user and when
        self.paused = self.looked = 0.0
        self.said = {}

    def fit_spool(self, name):
        """Opens the spool, which no other user may write to or enter."""
        try:
            spool = ways.folder_of(name)
        except NotADirectoryError:
            raise Unfit(f"the spool {name} is no folder of this user that no other can write to") from None
        except OSError as error:
            raise Unfit(f"cannot use the spool {name}: {error.strerror}") from None
        found = os.fstat(spool)
        if found.st_uid != os.geteuid() or found.st_mode & 0o022:
            raise Unfit(f"the spool {name} is no folder of this user that no other can write to")
        if found.st_mode & 0o007:
            raise Unfit(f"the spool {name} can be entered by every user: chmod o= {name}")
        return spool

    def open_listeners(self, name):
        """The sockets that systemd opened, or one of this name."""
        opened = given_by_systemd()
        if opened:
            return opened
        if not name:
            raise Unfit("--socket is needed, unless systemd opens the socket")
        try:
            self.made = ways.location_of(name)
            listener, self.identity = listening_at(self.made)
            return [listener]
        except OSError as error:
            raise Unfit(f"cannot make the socket {name}: {error.strerror}") from None

    def remove_socket(self):
        """Removes the socket that was made here, unless another daemon has put its own there since."""
        try:
            found = self.made and self.made.state()
        except OSError:
            return
        if found and identity(found) == self.identity:
            self.made.remove()

    def accept(self, listener):
        """Takes the connections that wait there, as many as one round allows."""
        try:
            for _ in range(TAKEN):
                self.add(listener.accept()[0])
        except BlockingIOError:
            pass
        except OSError as error:
            if error.errno in (errno.EMFILE, errno.ENFILE, errno.ENOMEM, errno.ENOBUFS):
                self.paused = time.monotonic() + PAUSE

    def add(self, link):
        link.setblocking(False)
        refuse_descriptors(link)
        # else such a byte is dropped unseen, with its descriptors
        link.setsockopt(socket.SOL_SOCKET, socket.SO_OOBINLINE, 1)
        made = Connection(link, self)
        why = self.why_refused(made.user)
        if why:
            made.close()
            self.say_of(made, why)
            return
        self.counts[made.user] = self.counts.get(made.user, 0) + 1
        self.connections[link.fileno()] = made

    def why_refused(self, user):
        """Why a user gets no connection more, or None."""
        if self.counts.get(user, 0) >= self.options.sessions:
            return "this user has too many sessions"
        if len(self.connections) >= CONNECTIONS:
            return "there are too many sessions"
        return None if self.options.any_uid or self.accounts.has(user) else NO_ACCOUNT

    def say_of(self, connection, text):
        """Says something of a user's connection, the same text once in a second."""
        key, now = (connection.user if text != NO_ACCOUNT else None, text), time.monotonic()
        if now - self.said.get(key, -1.0) >= 1:
            self.said = {it: at for it, at in self.said.items() if now - at < 1}
            self.said[key] = now
            self.notices.say(f"user {naming.user_name(connection.user)}, process {connection.process}: {text}")

    def act(self, connection, events):
        try:
            goes_on = True
            if events & select.POLLOUT:
                connection.write()
            elif events:
                goes_on = connection.read()
        except Refused as error:
            self.say_of(connection, str(error))
            goes_on = False
        except OSError:
            goes_on = False
        if not goes_on:
            self.end(connection)

    def end(self, connection):
        del self.connections[connection.fileno()]
        self.counts[connection.user] -= 1
        if connection.written:
            self.notices.note(f"kept {connection.written} bytes in {connection.name}")
        connection.close()

    def end_silent_ones(self):
        now = time.monotonic()
        if now - self.looked < 1:
            return
        self.looked = now
        for it in list(self.connections.values()):
            if it.file is None and now - it.since > HELLO_SECONDS:
                self.end(it)

    def is_at_work(self, connection):
        """Whether a connection has work left from its last turn."""
        try:
            return not connection.replies and connection.is_ready()
        except Refused:
            # said in its next turn
            return True

    def step(self):
        """A round: a new connection, and a turn for each that has something to do."""
        looking = select.poll()
        looking.register(self.signals.ours, select.POLLIN)
        is_paused = time.monotonic() < self.paused
        for it in () if is_paused else self.listeners:
            looking.register(it, select.POLLIN)
        for it in self.connections.values():
            looking.register(it, it.events())
        left = [it for it in self.connections.values() if self.is_at_work(it)]
        found = dict(looking.poll(0 if left else 1000 * PAUSE if is_paused else 1000))
        for it in left:
            found.setdefault(it.fileno(), select.POLLIN)
        for file, events in found.items():
            if file in self.listeners:
                self.accept(self.listeners[file])
            elif file in self.connections:
                self.act(self.connections[file], events)
        self.end_silent_ones()
        self.closing.step()

    def run(self):
        """Keeps records until a signal comes. What connections have sent by then is kept."""
        while not self.signals.got:
            self.step()
        # not closed before this process ends, when no close lingers: descriptors may be with those who wait there
        for it in self.listeners.values():
            it.detach()
        self.remove_socket()
        for it in list(self.connections.values()):
            self.finish(it)
        return 0

    def finish(self, connection):
        """Keeps what a connection has sent, and ends it."""
        file = connection.fileno()
        self.act(connection, select.POLLIN)
        while file in self.connections and self.is_at_work(connection):
            self.act(connection, select.POLLIN)
        if file in self.connections:
            self.end(connection)
