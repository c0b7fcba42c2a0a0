"""Connections by which others may pass descriptors.

A descriptor that a user passes may take long to close (SO_LINGER), so the daemon never drops the last reference to one.
Linux 6.16 refuses them. Elsewhere all that comes is looked at first; a connection with one is `Closing`'s.
"""
import os
import socket

from sftpv3.spool.shares import Refused

# What is taken of a connection in one turn.
READ = 1 << 18
# SO_PASSRIGHTS of Linux 6.16.
PASS_RIGHTS = 83
# How many processes may be at the close of connections.
CLOSERS = 16


def refuse_descriptors(link):
    """Has the kernel refuse descriptors that others pass, if it can. What has been sent before stays."""
    try:
        link.setsockopt(socket.SOL_SOCKET, PASS_RIGHTS, 0)
    except OSError:
        # `received` finds them
        pass


def received(link):
    """What has come, unless there is a descriptor with it: then all of it stays where it is."""
    data, _, flags, _ = link.recvmsg(READ, 0, socket.MSG_PEEK)
    if flags & socket.MSG_CTRUNC:
        raise Refused("it passes descriptors")
    return link.recv(len(data)) if data else data


def is_emptied(link):
    """Has no more come by a connection, and takes what came. Whether no descriptor is left in it."""
    try:
        link.shutdown(socket.SHUT_RDWR)
        while received(link):
            pass
    except Refused:
        return False
    except OSError:
        # the other side is gone, which is said when all has been taken
        pass
    return True


class Closing:
    """The connections with descriptors. They are closed by the end of other processes, for which nobody waits."""

    def __init__(self):
        self.waiting, self.processes = [], set()

    def close(self, link):
        if is_emptied(link):
            link.close()
        else:
            self.waiting.append(link.detach())

    def step(self):
        """Gives those that wait to a process, unless too many processes have not ended."""
        self.processes = {it for it in self.processes if os.waitpid(it, os.WNOHANG)[0] == 0}
        if not self.waiting or len(self.processes) >= CLOSERS:
            return
        mine, others = os.pipe()
        try:
            child = os.fork()
            if child == 0:
                self.end_last(mine, others)
            self.processes.add(child)
            for it in self.waiting:
                os.close(it)
            self.waiting = []
        except OSError:
            # no process can be made now
            pass
        finally:
            os.close(mine)
            os.close(others)

    def end_last(self, mine, others):
        """Ends this process once the daemon has closed what it has here, too."""
        try:
            os.close(others)
            os.read(mine, 1)
        finally:
            os._exit(0)
