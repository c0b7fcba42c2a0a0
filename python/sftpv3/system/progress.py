"""How far a command is, said on standard error while it works."""
import sys
import time
from contextlib import suppress

# Seconds between two lines where standard error is no terminal.
PAUSE = 10


class Progress:
    """A line on a terminal that is always the latest; elsewhere a line every ten seconds. With `silent`, nothing is
    said in so many seconds from the start, and on a terminal not more often than twice a second."""

    def __init__(self, name, stream=None, pause=PAUSE, silent=0):
        self.name, self.stream, self.silent = name, stream or sys.stderr, silent
        self.terminal = self.stream.isatty()
        self.pause = (0.5 if silent else 0) if self.terminal else pause
        # the first line comes once nothing more has to be waited for
        self.last = time.monotonic() + (silent - self.pause if silent else 0)

    def is_due(self):
        """Whether a line would be said now."""
        return time.monotonic() - self.last >= self.pause

    def say(self, text):
        if self.is_due():
            self.last = time.monotonic()
            self.put(f"\r\x1b[K{text}" if self.terminal else f"{self.name}: {text}\n")

    def clear(self):
        if self.terminal:
            self.put("\r\x1b[K")

    def put(self, text):
        # a terminal may be gone, and what is said here is not missed
        with suppress(OSError):
            print(text, end="", file=self.stream, flush=True)
