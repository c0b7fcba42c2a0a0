"""Where records go: files, pipes, a spool. A sink that has not written all is busy, and then nothing is passed on. And
the file of times beside a transcript: when each record was there, as docs/FORMATS.md has it."""
import os
import select
import struct
import time

from sftpv3.system import ways

# How what is sent to a spool begins: spool/keeping.py has its form.
SPOOL_OPENING = b"SFTPSP01"
SPOOL_SECONDS = 5
# Who is at the other end of a socket: process, user, group.
PEER = struct.Struct("3i")
# How long a spool may take for a batch, lest a daemon that hangs holds up every session.
SPOOL_PATIENCE = 10

# A file of times of the second form says on which clock of which boot its times are.
TIMES_OPENING, BOOT_OPENING = b"SFTPTM01", b"SFTPTM02"
BOOT_ID, BOOT_BYTES = "/proc/sys/kernel/random/boot_id", 16
# How often the date is asked for, to have one between two close looks at the machine's own clock.
TRIES = 5

# The attribute of a record that says how its server ended, if that ended the session, and the most bytes of it. To a
# spool it is sent behind a length of which this bit is set.
ENDING, LONGEST_ENDING, ENDING_BIT = "user.sftpv3.ending", 255, 1 << 31

# How many pieces one call writes at most.
MOST_PIECES = 256


def peer(link):
    """The process and the user at the other end of a socket, as the system knows them."""
    import socket
    process, user, _ = PEER.unpack(link.getsockopt(socket.SOL_SOCKET, socket.SO_PEERCRED, PEER.size))
    return process, user


class Failed(Exception):
    """A sink that takes no more; why, in words."""


def note_ending(file, text):
    """Says of a record how its server ended, unless its file system has no attributes."""
    try:
        os.setxattr(file, ENDING, text[:LONGEST_ENDING])
    except OSError:
        pass


def ending_of(file):
    """What is said of a record so, or nothing."""
    try:
        return os.getxattr(file, ENDING)[:LONGEST_ENDING]
    except OSError:
        return b""


class FileSink:
    """A file or a pipe. A regular file that fails keeps what was written whole."""

    # whoever reads a pipe may take any time
    patience = None

    def __init__(self, opened):
        self.name, self.file, self.is_regular = opened.name, opened.file, opened.is_regular
        self.pending = b""
        # the bytes of whole batches in the file, and of one that is being written
        self.written = self.begun = 0
        self.events = select.POLLOUT

    def begin(self, opening):
        try:
            if self.is_regular:
                os.ftruncate(self.file, 0)
        except OSError as error:
            raise Failed(f"cannot write {self.name}: {error.strerror}") from None
        self.put(opening)

    def put(self, data):
        """Takes whole records. After Failed, none of them is in the file."""
        self.pending = data
        self.go_on()

    def put_packets(self, side, packets):
        """The same for packets of one side. Few large ones are not copied."""
        if not self.is_regular or 2 * len(packets) > MOST_PIECES:
            self.put(side.join([b"", *packets]))
            return
        pieces = [it for packet in packets for it in (side, packet)]
        try:
            count = os.writev(self.file, pieces)
        except OSError:
            # the next call says why
            count = 0
        if count == len(packets) + sum(map(len, packets)):
            self.written += count
        else:
            self.begun = count
            self.put(side.join([b"", *packets])[count:])

    def is_busy(self):
        return bool(self.pending)

    def fileno(self):
        return self.file

    def go_on(self):
        """Writes what is pending, as far as the system takes it."""
        data = memoryview(self.pending)
        place = 0
        try:
            while place < len(data):
                place += os.write(self.file, data[place:])
        except BlockingIOError:
            self.pending = bytes(data[place:])
            return
        except OSError as error:
            self.cut_back()
            raise Failed(f"cannot write {self.name}: {error.strerror}") from None
        self.written += self.begun + len(data)
        self.pending, self.begun = b"", 0

    def cut_back(self):
        """Removes the beginning of records that are not there whole."""
        self.pending = b""
        if self.is_regular:
            try:
                os.ftruncate(self.file, self.written)
            except OSError:
                pass

    def note_ending(self, text):
        if self.is_regular:
            note_ending(self.file, text)

    def close(self):
        try:
            os.close(self.file)
        except OSError:
            pass


class SpoolSink:
    """The socket of a daemon, which says how many bytes it has written."""

    patience = SPOOL_PATIENCE

    def __init__(self, name, claimed):
        """Connects, and waits until the daemon has made the record. `claimed` is the client's address."""
        self.name, self.written = name, 0
        self.pending = self.heard = b""
        self.sent = self.kept = 0
        import socket
        self.socket = socket.socket(socket.AF_UNIX)
        try:
            place, _ = ways.led_to(name)
            with place:
                self.connect(place)
                self.look_who_listens(place)
            text = claimed.encode(errors="replace")[:255]
            self.socket.sendall(SPOOL_OPENING + bytes([len(text)]) + text)
            first = self.socket.recv(8, socket.MSG_WAITALL)
        except OSError as error:
            raise Failed(f"cannot record into the spool {name}: {error.strerror or error}") from None
        if first != bytes(8):
            raise Failed(f"the spool {name} does not record this session")
        self.socket.setblocking(False)

    def connect(self, place):
        """Connects, and waits for a daemon that has much to do."""
        import socket
        self.socket.setsockopt(socket.SOL_SOCKET, socket.SO_SNDTIMEO, struct.pack("@ll", SPOOL_SECONDS, 0))
        try:
            self.socket.connect(place.by_descriptor())
        except FileNotFoundError:
            # there may be no /proc, as in a ChrootDirectory
            self.connect_from(place)
        self.socket.settimeout(SPOOL_SECONDS)

    def connect_from(self, place):
        """Connects from the folder of the socket, and goes back to where the process is."""
        here = os.open(".", ways.HELD)
        try:
            os.fchdir(place.folder)
            self.socket.connect(place.name)
        finally:
            os.fchdir(here)
            os.close(here)

    def look_who_listens(self, place):
        """Refuses a socket that another user could have made in place of the daemon's."""
        _, user = peer(self.socket)
        found = ways.fault([*place.above, (place.path, place.state(), False)], user)
        if not found and user not in (0, os.geteuid(), place.folder_state().st_uid):
            found = "it is of a user whom its folder does not belong to"
        if found:
            raise Failed(f"the spool {self.name} may be another user's: {found}")

    def begin(self, opening):
        self.put(opening)

    def put_packets(self, side, packets):
        self.put(side.join([b"", *packets]))

    def put(self, data):
        self.sent += len(data)
        self.pending += struct.pack(">I", len(data)) + data
        self.go_on()

    def is_busy(self):
        return self.kept < self.sent

    @property
    def events(self):
        return select.POLLIN | (select.POLLOUT if self.pending else 0)

    def fileno(self):
        return self.socket.fileno()

    def go_on(self):
        try:
            while self.pending:
                self.pending = self.pending[self.socket.send(self.pending):]
        except BlockingIOError:
            pass
        except OSError as error:
            raise Failed(f"the spool {self.name} takes no more: {error.strerror}") from None
        self.listen()

    def listen(self):
        try:
            while True:
                heard = self.socket.recv(4096)
                if not heard:
                    raise Failed(f"the spool {self.name} takes no more")
                self.heard += heard
        except BlockingIOError:
            pass
        except OSError as error:
            raise Failed(f"the spool {self.name} takes no more: {error.strerror}") from None
        count = len(self.heard) // 8
        if count:
            self.kept = struct.unpack(">Q", self.heard[8 * count - 8:8 * count])[0]
            self.heard = self.heard[8 * count:]

    def note_ending(self, text):
        """Sends how the server ended, as far as the socket takes it at once."""
        text = text[:LONGEST_ENDING]
        self.pending += struct.pack(">I", ENDING_BIT | len(text)) + text
        try:
            self.go_on()
        except Failed:
            pass

    def close(self):
        self.socket.close()


class TimesSink:
    """A file of times beside the records."""

    def __init__(self, opened, clock):
        self.sink, self.clock = FileSink(opened), clock
        self.start = None

    def begin(self, date):
        self.start = self.clock()
        self.sink.begin(times_opening(date))

    def put_count(self, count):
        self.sink.put(time_entries([self.clock() - self.start] * count))


class BootTimesSink(TimesSink):
    """The same of the second form, whose times can be compared with those of other sessions of the machine: all are of
    one clock, which counts from the boot on."""

    def __init__(self, opened, boot):
        super().__init__(opened, boot_clock)
        self.boot = boot

    def begin(self, _):
        date, self.start = date_and_zero(time.time_ns, self.clock)
        self.sink.begin(boot_times_opening(self.boot, date, self.start))


def boot_clock():
    """The nanoseconds since the machine started, also those in which it slept."""
    return time.clock_gettime_ns(time.CLOCK_BOOTTIME)


def date_and_zero(date, clock):
    """The date, and what the clock said then. A process may be put aside between any two looks, so the clock is asked
    before and after the date, and of some tries that with the least between them counts."""
    tries = []
    for _ in range(TRIES):
        before, now, after = clock(), date(), clock()
        tries.append((after - before, now, before))
    return min(tries)[1:]


def boot_id():
    """The 16 bytes that tell this boot of the machine from others; OSError or ValueError if the system does not say."""
    with open(BOOT_ID, encoding="ascii") as file:
        found = bytes.fromhex(file.read().strip().replace("-", ""))
    if len(found) != BOOT_BYTES:
        raise ValueError(f"{BOOT_ID} has no {BOOT_BYTES} bytes")
    return found


def times_opening(date):
    """The beginning of a file: the date of the start, in nanoseconds from 1970 on."""
    return TIMES_OPENING + struct.pack(">Q", date)


def boot_times_opening(boot, date, zero):
    """The beginning of a file of the second form: the boot, the date, and the clock of the boot at that moment."""
    return BOOT_OPENING + boot + struct.pack(">2Q", date, zero)


def time_entries(times):
    """An entry for each record: nanoseconds from the start on, by a clock that is never set."""
    return struct.pack(f">{len(times)}Q", *times)
