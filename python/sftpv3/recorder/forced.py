"""What ForceCommand put the recorder in the place of: a client may have asked for a shell, for scp's older protocol, or
for a command, and would wait for ever. A client may also name a server of SFTP of its own, whose name tells nothing."""
import os
import select

from sftpv3.system.notices import write_error

# For how many seconds a client that asked for a command may be silent: one that speaks SFTP begins at once.
SILENT = 5
# How scp's older protocol tells its client of an error: this byte, and a line.
SCP_ERROR = b"\1"


def other(environment):
    """What the client may have asked for instead of SFTP, or None."""
    asked = environment.get("SSH_ORIGINAL_COMMAND")
    if asked is None:
        return Shell() if "SSH_TTY" in environment and os.isatty(0) else None
    names = [os.path.basename(it) for it in asked.split()]
    if names[:1] == ["scp"]:
        return Scp()
    return None if any("sftp" in it for it in names) else Command()


class Shell:
    """A shell, on a terminal: no SFTP goes through one."""

    def is_refused(self):
        """Whether it is refused before a session begins."""
        self.refuse()
        return True

    def refuse(self):
        write_error("sftpv3-record: only SFTP is served here, no shell and no command\n")


class Scp(Shell):
    """scp's older protocol."""

    def refuse(self):
        os.write(1, SCP_ERROR + b"scp: only SFTP is served here: use scp without -O, or sftp\n")


class Command(Shell):
    """A command, which is no server of SFTP if its client says nothing."""

    def is_refused(self):
        if is_silent():
            self.refuse()
            return True
        return False


def is_silent():
    """Whether nothing comes of the client for some seconds, or its end."""
    if not select.select([0], [], [], SILENT)[0]:
        return True
    import fcntl
    import sys
    import termios
    count = bytearray(4)
    try:
        fcntl.ioctl(0, termios.FIONREAD, count)
    except OSError:
        return False
    return int.from_bytes(count, sys.byteorder) == 0
