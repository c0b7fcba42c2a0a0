"""Lines to standard error, to a log, to syslog."""
import errno
import os
import select
import syslog
import time

from sftpv3.system import ways


def printable(text):
    """A text without line feeds and other characters that a terminal acts on."""
    return "".join(chr(it) if 0x20 <= it <= 0x7e else f"\\x{it:02x}" for it in text.encode("utf-8", "surrogateescape"))


def write_error(line):
    """Writes a line to standard error, unless nobody takes it."""
    try:
        looking = select.poll()
        looking.register(2, select.POLLOUT)
        if looking.poll(0):
            os.write(2, line.encode())
    except OSError:
        pass


class Notices:
    """Where the recorder's own lines go. What they are about is said in the log and in syslog."""

    def __init__(self, name, about=""):
        self.name, self.about = name, printable(about)
        self.log = self.log_name = None
        self.is_syslog = False

    def open_syslog(self):
        syslog.openlog(self.name, syslog.LOG_PID, syslog.LOG_AUTH)
        self.is_syslog = True

    def open_log(self, path):
        """Opens the log to append to it. No link of another user is followed on the way, and none at its end, and
        nothing of another user but root is taken."""
        with ways.location_of(path) as place:
            log = place.open(os.O_WRONLY | os.O_CREAT | os.O_APPEND | os.O_NONBLOCK)
        if os.fstat(log).st_uid not in (0, os.geteuid()):
            os.close(log)
            raise OSError(errno.EPERM, "it belongs to another user")
        self.log, self.log_name = log, path

    def say(self, text):
        """Says it everywhere."""
        write_error(f"{self.name}: {printable(text)}\n")
        self.note(text, syslog.LOG_WARNING)

    def note(self, text, level=syslog.LOG_INFO):
        """Says it in the log and in syslog, where there are such."""
        line = f"{self.about}: {printable(text)}" if self.about else printable(text)
        if self.is_syslog:
            syslog.syslog(level, line)
        if self.log is not None:
            date = time.strftime("%Y-%m-%dT%H:%M:%SZ", time.gmtime())
            self.append(f"{date} {self.name}[{os.getpid()}] {line}\n".encode())

    def append(self, data):
        """Writes a line to the log. If a full disk takes only a part of it, the second call says so."""
        try:
            count = os.write(self.log, data)
            if count < len(data):
                os.write(self.log, data[count:])
        except OSError as error:
            self.lose_log(error.strerror)

    def lose_log(self, why):
        os.close(self.log)
        self.log = None
        self.say(f"cannot write the log {self.log_name}: {why}")
