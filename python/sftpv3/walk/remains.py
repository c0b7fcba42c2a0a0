"""What `sftpv3` has of a file while it writes it: `FILE.new-` and 16 digits in the same folder, which is then renamed.
If the program is ended meanwhile, it stays."""
import fcntl
import os
import re
from contextlib import contextmanager, suppress
from typing import Iterator, Set

from sftpv3.system.ways import end_of


def unfinished(place: str) -> Set[str]:
    """The files that are there now, as far as the folder can be listed."""
    try:
        folder, name = os.path.split(end_of(place)[0])
        pattern = re.compile(re.escape(name) + r"\.new-[0-9a-f]{16}")
        return {os.path.join(folder, found) for found in os.listdir(folder) if pattern.fullmatch(found)}
    except OSError:
        return set()


def is_left(name: str) -> bool:
    """Whether no process has the file open: only then the system gives its owner a lease of it. A file system that has
    no leases says so of no file."""
    file = os.open(name, os.O_RDONLY | os.O_NOFOLLOW | os.O_NONBLOCK | os.O_CLOEXEC)
    try:
        fcntl.fcntl(file, fcntl.F_SETLEASE, fcntl.F_WRLCK)
        fcntl.fcntl(file, fcntl.F_SETLEASE, fcntl.F_UNLCK)
        return True
    finally:
        os.close(file)


@contextmanager
def removed(place: str) -> Iterator[None]:
    """If the block is left by an exception, those that came in it are removed, unless another process writes them: it
    makes the same tree file at the same time."""
    before = unfinished(place)
    try:
        yield
    except BaseException:
        for name in unfinished(place) - before:
            with suppress(OSError):
                if is_left(name):
                    os.remove(name)
        raise
