"""Files that are replaced whole: what is new is written beside them, for its user alone, under a name that nobody can
foresee, and then takes their name. The folder is open from the start, so that nobody puts the file elsewhere."""
from __future__ import annotations

import errno
import os
import stat

from sftpv3.system import ways

# What the names of new files begin with.
PREFIX = ".sftpv3-"
# Why a file takes no more.
NO_ROOM = (errno.ENOSPC, errno.EFBIG, errno.EDQUOT)


def is_replaced(found: os.stat_result | None) -> bool:
    """Whether what has a name may be replaced: a file, a link, nothing."""
    return found is None or stat.S_ISREG(found.st_mode) or stat.S_ISLNK(found.st_mode)


class Replacing:
    """A new file that is to take a name: `file` is open for it. `with` removes it, unless it has the name by then.
    Raises OSError if the name is that of something else than a file or a link, or if a link of another user is on the
    way to it."""

    def __init__(self, name: str):
        self.target = ways.location_of(name)
        try:
            if ways.is_inherited(name) or not is_replaced(self.target.state()):
                raise OSError(errno.EINVAL, "not a regular file", name)
            self.fresh = self.target.beside(PREFIX)
            self.file = open(self.fresh.make(), "w+b")
        except BaseException:
            self.target.close()
            raise

    def __enter__(self) -> "Replacing":
        return self

    def __exit__(self, _kind, error, _trace):
        if isinstance(error, OSError) and error.errno in NO_ROOM and error.filename is None:
            error.filename = self.target.path
        is_kept = self.fresh is None
        if not is_kept:
            self.fresh.remove()
        self.target.close()
        try:
            self.file.close()
        except OSError:
            # of what is not kept, nothing that is left to be written is wanted
            if is_kept:
                raise

    def sync(self, mode: int = 0o600):
        """Gives the file these permissions, and has it on the disk."""
        self.file.flush()
        os.fchmod(self.file.fileno(), mode)
        os.fsync(self.file.fileno())

    def keep(self):
        """Gives the file its name, and has that on the disk."""
        self.fresh.rename_to(self.target)
        self.fresh = None
        self.target.sync()
