"""A server without the machine around it: it sees, and so signals, only what it starts, and that ends with it; and it
has no network, no memory that processes share, and no keys but its own.

A server that clients/servers start has root as its user, and may signal every process of root that it sees, whatever
rights it gave up. So it runs in a namespace of processes of its own, below a keeper that is the first process there:
when the keeper ends, the system ends all that is left. Without the right to make namespaces, the system ends the server
with the script, and no more. What the system does not give, is said.

Keys belong to no namespace but that of users, and sockets that lead out of the machine whatever network a process has
(vsock) to none. A process may read the kernel's keys of its user and of its session, and so a server of root those of
root. So a filter (seccomp) denies the three calls that have to do with keys, sockets but for those of a network, and
io_uring, whose sockets no filter sees.
"""
import ctypes
import errno
import os
import resource
import signal
import struct

from sftpv3.servers import mounts

CLONE_NEWPID = 0x20000000
# What else a process has of the machine that no name leads to: abstract sockets and ports; memory and queues.
OTHERS = {0x40000000: "network", 0x08000000: "shared memory and queues"}
SET_DEATH_SIGNAL = 1

# What ends the keeper must not be what the server may handle: these go to all processes of a session.
PASSED_BY = (signal.SIGTERM, signal.SIGHUP, signal.SIGINT)

# For each machine, by what `uname` says: how a filter calls those whose programs it runs, their calls add_key,
# request_key, keyctl, io_uring_setup and, of i386, socketcall; and socket. x86_64 has a second table of calls.
SECOND = 0x40000000
CALLS = {"x86_64": {0xC000003E: ((248, 249, 250, 425, SECOND + 248, SECOND + 249, SECOND + 250, SECOND + 425),
                                 (41, SECOND + 41)),
                    0x40000003: ((286, 287, 288, 425, 102), (359,))},
         "aarch64": {0xC00000B7: ((217, 218, 219, 425), (198,)), 0x40000028: ((309, 310, 311, 425), (281,))},
         "riscv64": {0xC00000F3: ((217, 218, 219, 425), (198,))}}
# The families of sockets that a network of one's own holds: AF_UNIX, AF_INET, AF_INET6 and AF_NETLINK.
FAMILIES = (1, 2, 10, 16)

# The words of a filter: load from what is known of a call, where its number, its machine and its first argument are; go
# on behind so many words if it is equal, and if not; the verdict.
LOAD, IF_EQUAL, VERDICT = 0x20, 0x15, 0x06
NUMBER, MACHINE, FIRST = 0, 4, 16
ALLOW, DENY = 0x7FFF0000, 0x00050000 | errno.EPERM

SET_SECCOMP, BY_FILTER = 22, 2


class Filter(ctypes.Structure):
    """What prctl takes: how many words, and where they are."""
    _fields_ = [("count", ctypes.c_ushort), ("words", ctypes.c_char_p)]


def word(code, value, if_so=0, if_not=0):
    return struct.pack("=HBBI", code, if_so, if_not, value)


def part_for(machine, denied, sockets):
    """The words that deny these calls of a machine, and those for sockets of other families, and allow its others. For
    other machines, what is behind them is for."""
    to_sockets = [word(IF_EQUAL, call, len(sockets) - place) for place, call in enumerate(sockets)] + [
        word(VERDICT, ALLOW), word(LOAD, FIRST)]
    to_allow = [word(IF_EQUAL, family, len(FAMILIES) - place) for place, family in enumerate(FAMILIES)]
    rest = len(to_sockets) + len(to_allow)
    to_deny = [word(IF_EQUAL, call, len(denied) - 1 - place + rest) for place, call in enumerate(denied)]
    words = [word(LOAD, NUMBER), *to_deny, *to_sockets, *to_allow, word(VERDICT, DENY), word(VERDICT, ALLOW)]
    return [word(IF_EQUAL, machine, 0, len(words)), *words]


def filter_of(machines):
    """The words of a filter that denies calls of these machines, and all calls of others."""
    words = [word(LOAD, MACHINE)]
    for machine, calls in machines.items():
        words += part_for(machine, *calls)
    return words + [word(VERDICT, DENY)]


def deny_keys():
    """Denies this process these calls from now on, and those that it starts. It needs to have said that it gets
    no new privileges. Raises OSError where the system has no filters, or these calls are not known."""
    if os.uname().machine not in CALLS:
        raise OSError(errno.ENOSYS, os.strerror(errno.ENOSYS))
    words = filter_of(CALLS[os.uname().machine])
    given = Filter(len(words), b"".join(words))
    mounts.call("prctl", SET_SECCOMP, ctypes.c_ulong(BY_FILTER), ctypes.byref(given), ctypes.c_ulong(0),
                ctypes.c_ulong(0))


def leave_behind():
    """Leaves the machine's network, shared memory and keys. Gives the names of those that the system does not let it
    leave. No program gets new rights by its owner or its file from then on."""
    kept = []
    for space, name in OTHERS.items():
        try:
            mounts.call("unshare", space)
        except (OSError, AttributeError):
            kept.append(name)
    try:
        mounts.no_new_privileges()
        deny_keys()
    except (OSError, AttributeError):
        kept.append("keys")
    return kept


def step_aside():
    """Goes on, and returns, as a process that sees no other but the keeper. The one that called waits for it, and ends
    as it does. For a process that was forked to run a server."""
    if kept := leave_behind():
        os.write(2, f"the server has this machine's {', '.join(kept)}: the system gives no others\n".encode())
    try:
        mounts.call("unshare", CLONE_NEWPID)
    except (OSError, AttributeError):
        die_with_starter()
        return
    told, telling = os.pipe()
    keeper = os.fork()
    if keeper:
        os.close(telling)
        wait_for_keeper(keeper, told)
    server = os.fork()
    if server:
        keep(server, telling)


def die_with_starter():
    """Has the system kill this process when the one that started it ends."""
    mounts.call("prctl", SET_DEATH_SIGNAL, *map(ctypes.c_ulong, (signal.SIGKILL, 0, 0, 0)))


def stand_by(descriptor):
    """Leaves this process nothing but a descriptor. It dies with the one that started it. Returns the descriptor."""
    die_with_starter()
    for number in PASSED_BY:
        signal.signal(number, signal.SIG_IGN)
    os.dup2(descriptor, 3)
    os.closerange(4, resource.getrlimit(resource.RLIMIT_NOFILE)[0])
    nothing = os.open(os.devnull, os.O_RDWR)
    for file in range(3):
        os.dup2(nothing, file)
    os.close(nothing)
    return 3


def keep(server, telling):
    """The keeper: waits for the server, says how it ended, and ends."""
    try:
        telling = stand_by(telling)
        while True:
            ended, status = os.wait()
            if ended == server:
                os.write(telling, b"%d" % status)
                break
    finally:
        os._exit(0)


def wait_for_keeper(keeper, told):
    """Ends this process as the server did."""
    try:
        said = os.read(stand_by(told), 64)
        os.waitpid(keeper, 0)
        end_as(os.waitstatus_to_exitcode(int(said)) if said else -signal.SIGKILL)
    finally:
        os._exit(1)


def end_as(status):
    """Ends this process as another one ended, by its status as subprocess has it."""
    if status < 0:
        if -status not in (signal.SIGKILL, signal.SIGSTOP):
            signal.signal(-status, signal.SIG_DFL)
        resource.setrlimit(resource.RLIMIT_CORE, (0, 0))
        os.kill(os.getpid(), -status)
    os._exit(status)
