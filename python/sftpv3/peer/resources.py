"""What a server takes of the system while it runs: descriptors and memory of its processes, as /proc has them."""
import os
from contextlib import suppress
from dataclasses import dataclass


@dataclass
class Usage:
    """The descriptors that are open in all processes of a server, and the bytes of memory that they have."""

    descriptors: int
    memory: int


def children(process):
    """The processes that this one started, and that run."""
    found = []
    with suppress(OSError):
        for task in os.listdir(f"/proc/{process}/task"):
            with suppress(OSError), open(f"/proc/{process}/task/{task}/children", encoding="ascii") as file:
                found += map(int, file.read().split())
    return found


def memory(process):
    """The bytes that a process has in memory."""
    with open(f"/proc/{process}/statm", encoding="ascii") as file:
        return int(file.read().split()[1]) * os.sysconf("SC_PAGE_SIZE")


def usage(process):
    """What a process and all that it started use, or None if the system does not say."""
    found, waiting = Usage(0, 0), [process]
    while waiting:
        one = waiting.pop()
        waiting += children(one)
        try:
            found.descriptors += len(os.listdir(f"/proc/{one}/fd"))
            found.memory += memory(one)
        except FileNotFoundError:
            # it has just ended
            continue
        except OSError:
            return None
    return found
