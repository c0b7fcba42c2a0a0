"""How long something took that a script waited for, without the time in which the machine was paused."""
from __future__ import annotations

import time

# The most seconds that the system is asked to wait at a time: so it is seen whether this process was stopped meanwhile.
AT_ONCE = 1
# How many seconds a process may be late before it is taken for one that was stopped meanwhile.
LATE = 1


class Clock:
    """The seconds in which this process could run: not those in which it was stopped, and maybe what it waits for with
    it, as by a container that is paused."""

    def __init__(self):
        self.away, self.seen = 0.0, time.monotonic()

    def look(self, waited=0):
        """To be called when something was waited for, at most so many seconds, and before: what it took longer, the
        process was stopped."""
        now = time.monotonic()
        late = now - self.seen - waited
        self.away += late if late > LATE else 0
        self.seen = now

    def now(self):
        return time.monotonic() - self.away
