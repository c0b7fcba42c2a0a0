"""`-` as the name of a file that is read: it stands for standard input. Commands read files more than once, and have
others read them, so standard input is copied into a file without a name."""
from __future__ import annotations

import functools
import os
import shutil
import sys
import tempfile

from sftpv3.system import temporary

# The word on a command line, and how messages and pages name what it stands for.
WORD, SHOWN = "-", "standard input"


def place_of(name: str) -> str:
    """By what name this process, and those that it starts, can open a file as often as they like."""
    return copied() if name == WORD else name


@functools.cache
def copied() -> str:
    """The name of the copy of standard input, which is there as long as this process. Raises OSError if there is no
    room for it."""
    file = tempfile.TemporaryFile(dir=temporary.folder())
    try:
        shutil.copyfileobj(sys.stdin.buffer, file)
        file.flush()
        held = os.dup(file.fileno())
    except OSError as error:
        raise OSError(error.errno, error.strerror, f"the copy of {SHOWN} (TMPDIR)") from None
    finally:
        file.close()
    return f"/proc/{os.getpid()}/fd/{held}"


def shown(text: str) -> str:
    """A text in which the copy has the name of what it is."""
    return text.replace(copied(), SHOWN) if copied.cache_info().currsize else text
