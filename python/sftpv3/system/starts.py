"""What the recorder and sftpv3-serve start: the program that was installed with them, whether a process has ended, and
why a command cannot run; and pipes that hold more."""
from __future__ import annotations

import os

# F_SETPIPE_SZ of Linux, which Python 3.9 has not.
SET_PIPE_SIZE = 1031


def program_beside() -> str:
    """The program of which this is lib/sftpv3/sftpv3/system/starts.py; else one of PATH."""
    prefix, installed, _ = os.path.realpath(__file__).rpartition("/lib/sftpv3/sftpv3/")
    name = f"{prefix}/bin/sftpv3"
    return name if installed and os.path.exists(name) else "sftpv3"


def widen(pipe: int, room: int):
    """Makes a pipe one that holds so much, as far as the system allows it."""
    try:
        import fcntl
        fcntl.fcntl(pipe, SET_PIPE_SIZE, room)
    except OSError:
        pass


def exit_code(process: int) -> int | None:
    """How a process has ended, or None while it runs."""
    ended, status = os.waitpid(process, os.WNOHANG)
    return os.waitstatus_to_exitcode(status) if ended else None


# Why this command of sshd_config cannot run behind another one.
INTERNAL = "internal-sftp", "it is a part of sshd; name the file of its server, such as /usr/lib/openssh/sftp-server"


class NotStarted(Exception):
    """A command that cannot run, and the status for it, as shells have it."""

    def __init__(self, command: str, error: Exception):
        why = INTERNAL[1] if command == INTERNAL[0] else getattr(error, "strerror", error)
        super().__init__(f"cannot run {command}: {why}")
        self.status = 127 if isinstance(error, (FileNotFoundError, NotADirectoryError)) else 126
