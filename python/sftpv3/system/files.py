"""Files that are written where another user may have put something in the way.

A file is made under a name that nobody can foresee, for its user alone, and then gets its name: no link is followed
there, and none of another user on the way.
"""
import fcntl
import functools
import itertools
import os
import stat

from sftpv3.system import mounted, naming, ways
from sftpv3.system.replacing import Replacing


def write(name, data):
    """Writes a file, which replaces the one of that name whole. A pipe or a device is written to."""
    with naming.place_of(name) as place:
        if naming.is_stream(place):
            write_stream(naming.open_stream(place, lambda: True), data, name)
            return
    with Replacing(name) as new:
        new.file.write(data)
        new.file.flush()
        new.keep()


def write_stream(opened, data, name):
    """Writes to an open pipe or device, and closes it. An error names it."""
    try:
        with open(opened, "wb") as file:
            os.set_blocking(file.fileno(), True)
            file.write(data)
    except OSError as error:
        raise OSError(error.errno, error.strerror, name) from None


def write_text(name, text):
    write(name, text.encode("utf-8", "backslashreplace"))


def folder(name):
    """Makes a folder for its user alone, with those above it, or takes one of this user that no other can write to."""
    os.close(ways.own_folder(name))


@functools.cache
def held(name):
    """Makes a folder so, which no other process holds, and holds it until the end: NAME, or NAME.2, NAME.3, .., since
    two that write at once would mix what they keep. Returns its name."""
    for number in itertools.count(1):
        place = name if number == 1 else f"{name.rstrip('/')}.{number}"
        made = ways.own_folder(place)
        try:
            fcntl.flock(made, fcntl.LOCK_EX | fcntl.LOCK_NB)
        except BlockingIOError:
            os.close(made)
            continue
        except OSError:
            # a file system without locks
            pass
        return place


def is_foreign(name):
    """Whether something is there that `folder` does not take, which is better known before all is played."""
    try:
        with ways.location_of(name.rstrip("/")) as place:
            held = mounted.hold(place.name, place.folder)
    except OSError:
        return False
    try:
        found = os.fstat(held)
        return not (stat.S_ISDIR(found.st_mode) and ways.is_own(held, found))
    finally:
        os.close(held)
