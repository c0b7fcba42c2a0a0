"""Packets that go to a server in two pieces, as a connection may cut them: the first ends in the four bytes of the
length, or a little behind them, and the second goes once the server has taken the first, or some time later. A few go
byte by byte."""
import array
import fcntl
import termios
import time

# Of so many packets one is cut, by its id; and the bytes that the first pieces have.
EACH, COUNTS = 4, (1, 2, 3, 4, 5, 7, 9, 13)

# Of so many of these one begins with so many single bytes.
EACH_BY_BYTE, BYTES = 40, 24

# After how many seconds nobody waits any longer. Most servers take a piece at once: so many looks come first, so many
# seconds apart, and then replies are taken, too.
PATIENCE, LOOKS, GLANCE = 0.02, 5, 0.0001


class Cuts:
    """Which packets of a session come in pieces; other seeds cut others."""

    def __init__(self, seed):
        self.seed, self.deadline = seed, None

    def counts(self, packet):
        """How many bytes of a packet go alone in each piece before the last."""
        number = int.from_bytes(packet[5:9], "big")
        if (number + self.seed) % EACH:
            return []
        if number // EACH % EACH_BY_BYTE == self.seed % EACH_BY_BYTE:
            return [1] * min(BYTES, len(packet) - 1)
        count = COUNTS[number // EACH % len(COUNTS)]
        return [count] if count < len(packet) else []

    def begin(self):
        """A first piece goes now."""
        self.deadline = time.monotonic() + PATIENCE

    def is_held(self, pipe):
        """Whether the second piece still has to wait, after a few looks."""
        for _ in range(LOOKS if self.deadline is not None else 0):
            if time.monotonic() >= self.deadline or not waiting(pipe):
                self.deadline = None
                break
            time.sleep(GLANCE)
        return self.deadline is not None


def waiting(pipe):
    """How many bytes a pipe has that nobody has taken."""
    found = array.array("i", [0])
    fcntl.ioctl(pipe, termios.FIONREAD, found)
    return found[0]
