"""The transcripts of a user: which there are, when their sessions ran, and whether one still runs.

What users can write is in the spool: names, times and locks are believed no further than the one whose record it is.
So what is audited is a copy, which nobody but root can change.
"""
import calendar
import errno
import fcntl
import heapq
import itertools
import os
import re
import stat
import time
from contextlib import nullcontext, suppress

from sftpv3.codec import wording
from sftpv3.recorder.packets import OPENING
from sftpv3.spool.names import times_name
from sftpv3.spool.sinks import ending_of, note_ending
from sftpv3.system import mounted, naming, ways

# The names that recorders give: none of them reads like a part of a line.
PLAIN = re.compile(r"[A-Za-z0-9_.:@+%=-]+")
DATE = re.compile(r"[0-9]{8}T[0-9]{6}Z")
# sftpv3-recordd writes the date first; what comes behind it is the address that a client named.
DATE_OF_DAEMON = re.compile(r"([0-9]{8}T[0-9]{6}Z)-")
# The most records that are held at a time: their users can make as many as they like.
MOST = 10_000
# The bytes of a block, of which the system says how many a file has.
BLOCK = 512
# How many files that are not taken for records are named.
NAMED = 20
# How a recorder says that a signal ended the server.
CRASHED = "was ended by "
# A record this young, in seconds, may be one whose recorder has only just made it.
YOUNG = 1


class Failed(Exception):
    """Why nothing is judged."""


class Gone(Exception):
    """A file that is no longer there: its recorder took it back, or its user did."""


class NotTaken(Exception):
    """Why a file is not taken for a record."""


def seconds_of(date):
    """The seconds from 1970 on of a date, or None if there is no such day or time."""
    try:
        return calendar.timegm(time.strptime(date, "%Y%m%dT%H%M%SZ"))
    except ValueError:
        return None


def identity_of(state):
    return state.st_dev, state.st_ino


def shown(name):
    """A name as a part of a line: in quotes and escaped, unless it is one as recorders give."""
    return name if PLAIN.fullmatch(name) else wording.quoted(os.fsencode(name))


def check_form(state):
    """Raises NotTaken if no recorder made this file as it is. A file that others can write, and so move into the spool,
    is the user's, too."""
    if not stat.S_ISREG(state.st_mode):
        raise NotTaken("it is no regular file")
    if state.st_mode & 0o077:
        raise NotTaken(f"its group or others may use it, mode {stat.S_IMODE(state.st_mode):04o}")
    if state.st_nlink != 1:
        raise NotTaken(f"it has {state.st_nlink} names")


class Record:
    """A transcript in a folder that is open: its name, which file it is, when it began, and when the last was written
    to it."""

    def __init__(self, folder, name, state, date):
        self.folder, self.name, self.identity, self.owner = folder, name, identity_of(state), state.st_uid
        written, now = state.st_mtime_ns / 1e9, time.time()
        start = seconds_of(date) if date else None
        # by the clock that it had, which may have been fast
        self.told = written if start is None else min(start, written)
        self.end = min(written, now)
        self.start = min(self.told, now)
        self.file = None
        self.is_dated = start is not None
        # when it ran, once that was looked for, whether it still does, and how many bytes it has
        self.span, self.runs, self.size = None, False, 0
        # where what is not judged of it begins, if a part of it is; else None
        self.part = None
        # how its server ended, if its recorder says so
        self.ending = ""
        # whose session it is, and whether that is said with its name, since there are several users
        self.user, self.is_of_several = None, False

    def is_lost(self):
        """Whether there is no tree from which what is not judged of it could be."""
        return self.part is not None and self.part.is_lost

    def times_name(self):
        """The name of the file of times that a recorder makes beside it."""
        return times_name(self.name)

    def shown(self):
        return f"{self.user}/{shown(self.name)}" if self.is_of_several else shown(self.name)

    def order(self):
        """What comes first began first."""
        return self.told, self.end, self.name

    def open(self):
        """Opens it, if it still is the file that was found: its user may put another one there. Raises NotTaken if it
        is no longer as a recorder makes it."""
        try:
            self.file = mounted.open_at(self.name, self.folder, os.O_RDONLY | os.O_NONBLOCK)
        except FileNotFoundError:
            raise Gone() from None
        except OSError as error:
            raise Failed(f"{self.shown()}: {error.strerror}") from None
        found = os.fstat(self.file)
        if (identity_of(found), found.st_uid) != (self.identity, self.owner):
            raise Failed(f"{self.shown()}: it was replaced meanwhile")
        check_form(found)
        self.ending = ending_of(self.file).decode(errors="replace")

    def has_crashed_server(self):
        return self.ending.startswith(CRASHED)

    def open_times(self):
        """Opens its file of times; None if there is none that a recorder made for it."""
        try:
            file = mounted.open_at(self.times_name(), self.folder, os.O_RDONLY | os.O_NONBLOCK)
        except OSError:
            return None
        found = os.fstat(file)
        try:
            check_form(found)
            if found.st_uid == self.owner:
                return file
        except NotTaken:
            pass
        os.close(file)
        return None

    def is_young(self):
        return 0 <= time.time() - os.fstat(self.file).st_mtime < YOUNG

    def is_running(self):
        """Whether a recorder holds it, or may be about to. One that is young is looked at again."""
        if not self.is_held() and self.is_young():
            time.sleep(YOUNG)
        return self.is_held() or self.is_young()

    def is_held(self):
        """Whether a recorder holds it."""
        try:
            # NFS gives the other kind of lock only to who can write
            fcntl.flock(self.file, fcntl.LOCK_SH | fcntl.LOCK_NB)
        except BlockingIOError:
            return True
        except OSError as error:
            raise Failed(f"{self.shown()}: whether its session runs is not known: {error.strerror}") from None
        return False

    def remove(self):
        """Removes it and its file of times from its folder, unless something else has its name by now; a power failure
        does not bring it back."""
        with suppress(FileNotFoundError, mounted.OfAnother):
            found = mounted.state_at(self.name, self.folder)
            if identity_of(found) == self.identity:
                self.remove_times()
                os.unlink(self.name, dir_fd=self.folder)
                os.fsync(self.folder)

    def remove_times(self):
        with suppress(FileNotFoundError, mounted.OfAnother, IsADirectoryError):
            if mounted.state_at(self.times_name(), self.folder).st_uid == self.owner:
                os.unlink(self.times_name(), dir_fd=self.folder)

    def close(self):
        if self.file is not None:
            os.close(self.file)
            self.file = None


def found_in(folder):
    """What has the name of a record in a folder that is open: pairs of the name and its state. What another user
    mounted on a name of their own, or not even root may look at, is no record."""
    beside = mounted.number_of(folder)
    with os.scandir(folder) as entries:
        for entry in entries:
            with suppress(FileNotFoundError, PermissionError):
                if times_name(entry.name):
                    yield entry.name, mounted.state_at(entry.name, folder, beside)


def states_in(folder):
    """The states of the regular files in a folder that is open, or of none."""
    with os.scandir(folder) if folder is not None else nullcontext(()) as entries:
        for entry in entries:
            with suppress(FileNotFoundError, PermissionError):
                found = entry.stat(follow_symlinks=False)
                if stat.S_ISREG(found.st_mode):
                    yield found


def is_writable(state):
    """Whether others than the owner can make and rename files in the folder."""
    return bool(state.st_mode & (stat.S_IWGRP | stat.S_IWOTH))


class Strange:
    """What of the user's is in the spool and not taken for a record: lines on the first, and how many there are."""

    def __init__(self):
        self.first, self.count = [], 0

    def add(self, name, why):
        self.count += 1
        if self.count <= NAMED:
            self.first.append(f"{shown(name)} is not taken for a record: {why}")

    def lines(self):
        more = self.count - len(self.first)
        return self.first + ([f"{more} more are not taken for records"] if more else [])


class Spool:
    """Where the records of a user are: files of this user in the folder that all share, and those in the folder that
    sftpv3-recordd has for the user's name. `refused` says why the latter is not taken, with the status that comes of
    it, or is None; `strange` has what was passed over at the last look."""

    def __init__(self, path, number):
        self.path, self.user, self.number = path, naming.user_name(number), number
        self.shared, self.own, self.refused, self.strange = ways.folder_of(path), None, None, Strange()
        self.is_of_several = False

    def look(self):
        """Opens the folder of the user's name, if it is that of the daemon: nobody but the spool's owner made it."""
        self.refused = None
        if self.own is not None:
            return
        try:
            own = mounted.folder_at(self.user, self.shared)
        except FileNotFoundError:
            return
        except OSError as error:
            self.refuse(error.strerror)
            return
        spool, found = os.fstat(self.shared), os.fstat(own)
        if is_writable(spool):
            self.refuse(f"others can write to {wording.line(self.path)}")
        elif found.st_uid not in (0, spool.st_uid) or is_writable(found):
            self.refuse("others own it or can write to it")
        else:
            self.own = own
            return
        os.close(own)

    def refuse(self, why):
        """Takes no records from the user's folder. The status is 1, unless a stranger made what has its name, who can
        neither put records there nor take the daemon's folder away."""
        place = wording.line(os.path.join(self.path, self.user))
        self.refused = f"{place} is not taken for records: {why}", 0 if self.is_of_stranger() else 1

    def is_of_stranger(self):
        """Whether what has the user's name is of none whom the spool is, in a spool where all may make names, and none
        may take those of others away."""
        spool = os.fstat(self.shared)
        try:
            owner = mounted.state_at(self.user, self.shared).st_uid
        except FileNotFoundError:
            return False
        except PermissionError:
            owner = None
        return is_writable(spool) and spool.st_mode & stat.S_ISVTX and owner not in (0, spool.st_uid)

    def every(self):
        """All records, in no order, also those in the user's folder."""
        self.look()
        return self.found()

    def found(self):
        """The same, as far as the last look goes. What others own in the shared folder is theirs, whatever its name: it
        hides no record, since a recorder then takes another name."""
        for name, state in found_in(self.shared):
            if state.st_uid == self.number:
                date = DATE.search(name)
                yield from self.taken(Record(self.shared, name, state, date and date[0]), state)
        for name, state in found_in(self.own) if self.own is not None else ():
            date = DATE_OF_DAEMON.match(name)
            yield from self.taken(Record(self.own, name, state, date and date[1]), state)

    def bytes_on_disk(self):
        """The bytes that the user's files have on the disk: those in the folder that all share, and all in the
        user's."""
        shared = (it for it in states_in(self.shared) if it.st_uid == self.number)
        return sum(BLOCK * it.st_blocks for it in itertools.chain(shared, states_in(self.own)))

    def taken(self, record, state):
        """The record, if it is as a recorder makes it."""
        try:
            check_form(state)
        except NotTaken as why:
            self.strange.add(record.name, why)
        else:
            record.user, record.is_of_several = self.user, self.is_of_several
            yield record


class Spools:
    """The spools of several users, whose sessions are in one order."""

    def __init__(self, path, numbers):
        self.each = [Spool(path, number) for number in numbers]
        for it in self.each:
            it.is_of_several = len(numbers) > 1

    def every(self):
        """All records, in no order."""
        return itertools.chain.from_iterable(it.every() for it in self.each)

    def records(self):
        """The first records in the order of their starts."""
        for it in self.each:
            it.strange = Strange()
        return heapq.nsmallest(MOST, self.every(), key=Record.order)


# The bytes of a file of times of a boot before its entries, and of an entry.
TIMES_HEAD, TIME = 40, 8
# The folder of the copies until they are kept.
NEW = "records.new"
# The longest name under which a record is kept. A verdict has eight characters more, a file of times may have them, and
# a number may come behind all.
LONGEST_NAME = 200
# How many bytes precede a packet's fields: its side, its length and its type; and the type of INIT.
FRONT, INIT = 6, b"\x01"
# For how many names it is held how often they were taken.
MOST_NUMBERS = 1000
PIECE = 1 << 20
MADE = os.O_RDWR | os.O_CREAT | os.O_TRUNC | os.O_NOFOLLOW | os.O_CLOEXEC


def kept_name(name):
    """A name that no shell or terminal acts on."""
    return re.sub(r"[^A-Za-z0-9_.:@+%-]", "_", name)[:LONGEST_NAME]


def data_behind(file, at, size):
    """Where the next bytes of a file that are no hole begin and end."""
    try:
        start = os.lseek(file, at, os.SEEK_DATA)
        return start, min(os.lseek(file, start, os.SEEK_HOLE), size)
    except OSError as error:
        if error.errno != errno.ENXIO:
            raise
        return size, size


def copy_range(source, target, start, end, bounds, moved=0):
    """Copies bytes to their place, or so many bytes before it, within bounds."""
    at = start
    while at < end:
        bounds.check(min(PIECE, end - at))
        piece = os.pread(source, min(PIECE, end - at), at)
        if not piece:
            raise OSError(errno.EIO, "it became shorter while it was read")
        written = 0
        while written < len(piece):
            written += os.pwrite(target, piece[written:], at + written - moved)
        at += len(piece)


def copy(source, target, bounds, left_out=(0, 0)):
    """Copies the bytes of a file into a new one within bounds, but for those from one place to another. Holes stay
    holes, so it takes no more room than it did, where no bytes are shared with another file."""
    end = os.fstat(source).st_size
    first, at = left_out
    copy_range(source, target, 0, first, bounds)
    while at < end:
        begin, at = data_behind(source, at, end)
        copy_range(source, target, begin, at, bounds, left_out[1] - first)
    os.truncate(target, end - (left_out[1] - first))


class Numbers:
    """The numbers behind names that were taken, so that nobody's records are counted anew for each that has the name of
    others."""

    def __init__(self):
        self.last, self.promised = {}, set()

    def settle(self):
        """The names that were given are taken by now."""
        self.promised.clear()

    def free(self, place):
        """The name, or the first one with a number behind it that is not taken, nor given to another one."""
        number = self.last.get(place, 1)
        found = place if number == 1 else f"{place}.{number}"
        while found in self.promised or os.path.lexists(found):
            number += 1
            found = f"{place}.{number}"
        self.promised.add(found)
        if len(self.last) >= MOST_NUMBERS:
            self.last.clear()
        if number > 1:
            self.last[place] = number
        return found


def is_empty(file):
    """Whether a record ends within what each begins with, so that nothing was recorded: its disk was full, its recorder
    was killed, or the power failed."""
    head = os.pread(file, len(OPENING), 0)
    return head != OPENING and OPENING.startswith(head)


def end_of_silence(file):
    """Where a record ends in which nothing was asked, and which no audit takes: before INIT, or before VERSION. None if
    it goes on, or is cut within INIT."""
    head = os.pread(file, len(OPENING) + FRONT, 0)
    if head == OPENING:
        return "before INIT"
    front = head.removeprefix(OPENING)
    if len(front) != FRONT or front[:1] != b"C" or front[-1:] != INIT:
        return None
    ends = os.fstat(file).st_size == len(head) - 1 + int.from_bytes(front[1:-1], "big")
    return "before the server's VERSION: its client or the server went first" if ends else None


class Copy:
    """The copy of a record, and of its file of times if it has one, in a folder that only root can enter: under names
    of their own until they are kept. `stem` is what their names have in common there."""

    def __init__(self, record, numbers, bounds, stem="record", part=None):
        self.record, self.numbers, self.bounds, self.part = record, numbers, bounds, part
        # what is judged of it, if it is not all
        self.left = None
        os.makedirs(NEW, mode=0o700, exist_ok=True)
        self.place, self.times = os.path.join(NEW, f"{stem}.transcript"), os.path.join(NEW, f"{stem}.times")
        self.file = os.open(self.place, MADE, 0o600)
        try:
            copy(record.file, self.file, bounds, (part.head, part.at) if part else (0, 0))
            if record.ending:
                note_ending(self.file, record.ending.encode())
            os.fsync(self.file)
            self.has_times = self.copy_times()
        except BaseException:
            self.close()
            raise

    def copy_times(self):
        """Copies the file of times. Returns whether there is one."""
        source = self.record.open_times()
        if source is None:
            return False
        try:
            if os.fstat(source).st_size < self.times_left_out()[1]:
                return False
            target = os.open(self.times, MADE, 0o600)
            try:
                copy(source, target, self.bounds, self.times_left_out())
                os.fsync(target)
            finally:
                os.close(target)
        finally:
            os.close(source)
        return True

    def times_left_out(self):
        """Where in a file of times of a boot the times are of records that were judged before."""
        return (TIMES_HEAD + 2 * TIME, TIMES_HEAD + TIME * self.part.count) if self.part and self.part.head \
            else (0, 0)

    def cut(self, size, count):
        """Leaves out what comes behind so many bytes, or behind so many records."""
        os.ftruncate(self.file, size)
        os.fsync(self.file)
        if self.has_times and os.path.getsize(self.times) > TIMES_HEAD + TIME * count:
            os.truncate(self.times, TIMES_HEAD + TIME * count)

    def place_in(self, kind):
        """A name that is free in a folder of the state, which is made."""
        os.makedirs(kind, mode=0o700, exist_ok=True)
        return self.numbers.free(os.path.join(kind, kept_name(self.record.name)))

    def verdict(self):
        """Where its verdict is until it is kept."""
        return f"{self.place}.verdict"

    def moves_to(self, place):
        """Which files get which names, if the copy is kept there."""
        folder, name = os.path.split(place)
        times = os.path.join(folder, times_name(name) or f"{name}.times")
        return [(self.times, times)] * self.has_times + [(self.place, place)]

    def close(self):
        """Closes it. What is not kept is removed with the folder."""
        os.close(self.file)


def sync(folder):
    """Has the names of a folder on the disk."""
    file = os.open(folder, os.O_RDONLY | os.O_DIRECTORY | os.O_CLOEXEC)
    try:
        os.fsync(file)
    finally:
        os.close(file)
