"""Runs the program to its end, within bounds of memory."""
import resource
import subprocess
from contextlib import suppress

from sftpv3.peer.servers import Stopped
from sftpv3.system import children

# Seconds from a look at what may stop it to the next.
GLANCE = 0.2


def run(words, stop, space=None):
    """Runs a command to its end, in an address space of at most so many bytes; raises Stopped, and ends it, once `stop`
    is set."""
    # as Python itself it ignores SIGXFSZ, so that it says which file may not be longer
    with children.child(words, stderr=subprocess.PIPE, restore_signals=False) as running:
        bound(running.pid, space)
        while not (stop and stop.is_set()):
            with suppress(subprocess.TimeoutExpired):
                said, why = running.communicate(timeout=GLANCE)
                return subprocess.CompletedProcess(words, running.returncode, said, why)
        raise Stopped()


def bound(process, space):
    """Bounds the address space of a process that runs, as far as the system has no lower bound. None is no bound."""
    if space is not None:
        with suppress(ProcessLookupError):
            limits = children.bounded(resource.prlimit(process, resource.RLIMIT_AS), space)
            resource.prlimit(process, resource.RLIMIT_AS, limits)
