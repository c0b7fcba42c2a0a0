"""The module `signal` without its enumerations, whose import takes as long as all of the recorder's own modules."""
import os

try:
    import _signal as known
    from _signal import (SIG_BLOCK, SIG_DFL, SIG_IGN, SIG_SETMASK, SIG_UNBLOCK, SIGCHLD, SIGHUP, SIGINT, SIGKILL,
                         SIGPIPE, SIGTERM, SIGXFSZ, default_int_handler, getsignal, pthread_sigmask, set_wakeup_fd,
                         signal)
except ImportError:
    import signal as known
    from signal import (SIG_BLOCK, SIG_DFL, SIG_IGN, SIG_SETMASK, SIG_UNBLOCK, SIGCHLD, SIGHUP, SIGINT, SIGKILL,
                        SIGPIPE, SIGTERM, SIGXFSZ, default_int_handler, getsignal, pthread_sigmask, set_wakeup_fd,
                        signal)

__all__ = ["SIG_BLOCK", "SIG_DFL", "SIG_IGN", "SIG_SETMASK", "SIG_UNBLOCK", "SIGCHLD", "SIGHUP", "SIGINT", "SIGKILL",
           "SIGPIPE", "SIGTERM", "SIGXFSZ", "Waking", "default_int_handler", "getsignal", "name_of", "pthread_sigmask",
           "signal"]


def name_of(number):
    """The name of a signal, SIGSEGV; a number if it has none."""
    names = (it for it in dir(known) if it.startswith("SIG") and it[3:4] != "_" and getattr(known, it) == number)
    return next(names, f"signal {number}")


class Waking:
    """A pipe by which signals wake a loop that waits for `ours`."""

    def __init__(self):
        self.ours, self.theirs = os.pipe2(os.O_NONBLOCK | os.O_CLOEXEC)

    def wake(self):
        """From now on signals that have a handler do."""
        set_wakeup_fd(self.theirs, warn_on_full_buffer=False)

    def drain(self):
        try:
            while os.read(self.ours, 4096):
                pass
        except BlockingIOError:
            pass
