"""The folder for temporary files: that of TMPDIR, unless another user could put something in their place there. It is
looked up one name at a time, and what it is called then is a whole path without links."""
from __future__ import annotations

import os

from sftpv3.system import ways

USUAL = "/tmp"
# Those that name it, the first one first.
VARIABLES = ("TMPDIR", "TEMP", "TMP")


class Unfit(OSError):
    """No temporary files can be made there, and why, in a line."""


def named() -> str:
    return next(filter(None, map(os.environ.get, VARIABLES)), USUAL)


def place(prefix: str) -> ways.Location:
    """A name in it that nobody can foresee, in the folder that is open."""
    name = named()
    try:
        found, _ = ways.led_to(os.path.join(name, prefix + os.urandom(8).hex()))
    except OSError as error:
        raise Unfit(f"{name}: {error.strerror} (TMPDIR)") from None
    if fault := ways.fault([*found.above, (found.path, None, False)]):
        found.close()
        raise Unfit(f"{fault}, who can replace temporary files (TMPDIR)")
    return found


def folder() -> str:
    """What it is called, if a file can be written there."""
    with place(".sftpv3-") as found:
        try:
            with open(found.make(), "wb") as file:
                file.write(b"x")
        except OSError as error:
            raise Unfit(f"{named()}: {error.strerror} (TMPDIR)") from None
        finally:
            found.remove()
        return os.path.dirname(found.path)
