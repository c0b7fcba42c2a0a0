"""A process that a script starts and waits for: in a session of its own, and ended with all that it started; and the
limits of its memory, of which a lower one of the system is kept."""
import os
import resource
import signal
import subprocess
from contextlib import contextmanager, suppress
from typing import Iterator, Optional, Sequence, Tuple

from sftpv3.system import ending

# How many seconds one that was killed is waited for.
LEFT_BEHIND = 5


def bounded(limits: Tuple[int, int], most: int) -> Tuple[int, int]:
    """The soft and the hard limit of the system, with the soft one at most so high."""
    soft, hard = limits
    return most if soft == resource.RLIM_INFINITY else min(soft, most), hard


def lower_space(most: int) -> Optional[str]:
    """What is said of the system's limit on the address space, if it is lower than this; else None."""
    soft = resource.getrlimit(resource.RLIMIT_AS)[0]
    is_lower = soft != resource.RLIM_INFINITY and soft < most
    return f"the system's limit of {soft:,} bytes (ulimit -v)" if is_lower else None


@contextmanager
def child(words: Sequence[str], **options) -> Iterator[subprocess.Popen]:
    """Starts a command whose output is read. A terminal's SIGINT does not end it. It is killed if the block fails, or a
    signal ends the block."""
    with ending.put_off() as go_on:
        running = subprocess.Popen(words, stdin=subprocess.DEVNULL, stdout=subprocess.PIPE, start_new_session=True,
                                   **options)
        try:
            go_on()
            yield running
        except BaseException:
            kill(running)
            raise
        finally:
            for stream in filter(None, (running.stdout, running.stderr)):
                stream.close()


def kill(running: subprocess.Popen) -> None:
    """Ends a process, with what it started. One that the kernel does not let end, since a file system does not answer,
    is left behind."""
    with suppress(ProcessLookupError):
        os.killpg(running.pid, signal.SIGKILL)
    with suppress(subprocess.TimeoutExpired):
        running.wait(LEFT_BEHIND)
