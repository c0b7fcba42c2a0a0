"""What each user has of a spool: who may have records there at all, how many, and how long they are together."""
import os
import time
from contextlib import suppress

from sftpv3.spool.names import TIMES, times_name
from sftpv3.system import mounted, naming, ways

# How many files a file system has to have left for a new record.
FILES_LEFT = 64
# How long the count of a user who has all of their share stands, before the folder is looked at again; and whether a
# user has an account, and of how many users that is held.
STANDS, USERS = 10, 4096


class Refused(Exception):
    """A session that is not recorded (any further)."""


class Accounts:
    """Which users have an account. To look it up can take long, so it stands for a while."""

    def __init__(self):
        self.known = {}

    def has(self, user):
        """Whether a user has one, as of some seconds ago at most."""
        now = time.monotonic()
        found, looked = self.known.get(user, (False, -STANDS))
        if now - looked >= STANDS:
            if len(self.known) >= USERS:
                self.known.clear()
            found = naming.has_account(user)
            self.known[user] = found, now
        return found


class Share:
    """The records of one user: those of ended sessions, too, until somebody takes them out of the folder, which has
    this name in the spool."""

    def __init__(self, spool, name, most):
        self.spool, self.name, self.most = spool, name, most
        self.look()

    def open(self):
        """Opens the folder, which is made if it is not there."""
        try:
            os.mkdir(self.name, 0o700, dir_fd=self.spool)
        except FileExistsError:
            pass
        return os.open(self.name, mounted.FOLDER, dir_fd=self.spool)

    def look(self):
        """Counts what is in the folder, no more than as many records as there may be."""
        self.records = self.used = 0
        held = self.open()
        try:
            self.count_in(held)
        finally:
            os.close(held)
        self.looked = time.monotonic()

    def count_in(self, folder):
        with os.scandir(folder) as found:
            for it in found:
                self.records += TIMES not in it.name
                self.used += it.stat(follow_symlinks=False).st_size
                if self.records >= self.most:
                    break

    def allows(self, holds):
        """Whether a limit holds, by the count, or else by a new one."""
        if holds(self):
            return True
        if time.monotonic() - self.looked < STANDS:
            return False
        self.look()
        return holds(self)


class Shares:
    """The users of a spool that is open, as far as they came since the daemon's start."""

    def __init__(self, spool, path, options):
        self.spool, self.path, self.options = spool, path, options
        self.by_user = {}

    def share_of(self, user):
        if user not in self.by_user:
            name = naming.user_name(user)
            self.by_user[user] = Share(self.spool, name, self.options.records_per_user)
        return self.by_user[user]

    def begin(self, user, name):
        """Takes room for a record. Returns where it is to be."""
        try:
            share = self.share_of(user)
            if not share.allows(lambda it: it.records < self.options.records_per_user):
                raise Refused("this user has too many records")
            self.check_free(0)
            place = ways.Location(share.open(), name, os.path.join(self.path, share.name, name))
        except OSError as error:
            raise Refused(f"cannot look at the records: {error.strerror}") from None
        share.records += 1
        return place

    def take_back(self, user, path):
        """Removes a record of this user in which nothing was written."""
        share = self.share_of(user)
        try:
            folder = share.open()
        except OSError:
            # somebody put the folder away, with all that is in it
            return
        try:
            name = os.path.basename(path)
            with suppress(FileNotFoundError):
                os.unlink(times_name(name), dir_fd=folder)
            os.unlink(name, dir_fd=folder)
            share.records -= 1
        except OSError:
            # somebody took it out of the folder
            pass
        finally:
            os.close(folder)

    def take(self, user, written, count, beside=0):
        """Takes room for so many bytes more of a record, and of its file of times."""
        share = self.by_user[user]
        if written + count > self.options.per_session:
            raise Refused("the record is too long")
        count += beside
        if not share.allows(lambda it: it.used + count <= self.options.per_user):
            raise Refused("the records of this user are too long")
        self.check_free(count)
        share.used += count

    def check_free(self, count):
        found = os.fstatvfs(self.spool)
        # a file system without a number of files of its own says 0 of all
        if found.f_bavail * found.f_frsize - count < self.options.keep_free or \
                found.f_files and found.f_favail < FILES_LEFT:
            raise Refused("the spool is full")
