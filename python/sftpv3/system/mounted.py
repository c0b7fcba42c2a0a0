"""File systems that other users mounted (FUSE). What such a one says of owners, links and files is its user's word, and
it need not answer at all. So nothing of it is asked or opened: a name is held, for which the kernel asks no file system
that is mounted there, and then the number of its mount says whose that is."""
from __future__ import annotations

import errno
import os
import stat
import sys

# What is held need not be readable, and may be a link.
HELD = os.O_PATH | os.O_NOFOLLOW | os.O_CLOEXEC
FOLDER = os.O_RDONLY | os.O_DIRECTORY | os.O_NOFOLLOW | os.O_CLOEXEC
# What is mounted where. The words behind the first `-` of a line are the kind, the source and the options.
TABLE = "/proc/self/mountinfo"
KINDS = (b"fuse", b"fuseblk")
# The most that is said of an open file before the number of its mount.
LONGEST = 256
# Of the call statx: of the file that is open itself, of which no file system is asked; how much it says, and in it what
# it is that is said, which may be the number of the mount (Linux 5.8), and where that number is.
EMPTY_PATH, DONT_SYNC, SAID = 0x1000, 0x4000, 256
MASK, MOUNT, MOUNT_AT = 0, 0x1000, 144
# The call openat2 (Linux 5.6) by its number, which is one on all machines, and how it is told to enter no mount.
OPENAT2, NO_OTHER_MOUNT = 437, 1


class OfAnother(PermissionError):
    """Nothing is asked of this name, since another user mounted what is there."""

    def __init__(self, name: bytes | str):
        super().__init__(errno.EPERM, "a file system that another user mounted is there", name)


def number_of(file: int) -> bytes | None:
    """The number of the mount that an open file is on; None if the system does not say. Such a file counts as one's
    own, since nothing could be recorded else: without /proc there is no table either, and a Linux before 5.8 does not
    tell a process that is hidden (standard.py)."""
    try:
        said = told_of(file)
    except FileNotFoundError:
        return None
    except PermissionError:
        return number_by_call(file)
    place = said.find(b"mnt_id:")
    return None if place < 0 else said[place + 7:].split(None, 1)[0]


def told_of(file: int) -> bytes:
    with open(f"/proc/self/fdinfo/{file}", "rb", buffering=0) as found:
        return found.read(LONGEST) or b""


def number_by_call(file: int) -> bytes | None:
    """The same by a call, for which no file of /proc is read. What this user may not look at has a number that is in no
    table."""
    import ctypes
    said = ctypes.create_string_buffer(SAID)
    try:
        failed = ctypes.CDLL(None, use_errno=True).statx(file, b"", EMPTY_PATH | DONT_SYNC, 0, said)
    except AttributeError:
        return None
    if failed:
        return b"" if ctypes.get_errno() == errno.EACCES else None
    if not int.from_bytes(said[MASK:MASK + 4], sys.byteorder) & MOUNT:
        return None
    return b"%d" % int.from_bytes(said[MOUNT_AT:MOUNT_AT + 8], sys.byteorder)


def is_trusted(line: bytes, user: int) -> bool:
    """Whether a line of the table is of what root or this user mounted. Only of FUSE are there mounts of users."""
    kind, _, options = line.rstrip(b"\n").partition(b" - ")[2].split(b" ")[:3]
    owner = next((it[8:] for it in options.split(b",") if it.startswith(b"user_id=")), b"0")
    return kind.partition(b".")[0] not in KINDS or int(owner) in (0, user)


def trusted() -> set[bytes | None]:
    """The numbers of all mounts of root and this user. If the root folder is no mount, the table does not have what it
    is on."""
    with open(TABLE, "rb") as table:
        found: set[bytes | None] = {it.split(b" ", 1)[0] for it in table if is_trusted(it, os.geteuid())}
    top = os.open("/", HELD)
    try:
        return found | {number_of(top)}
    finally:
        os.close(top)


def is_of_another(file: int, beside: bytes | None = None) -> bool:
    """Whether an open file is on what another user mounted, or what was mounted and is no longer. The mount `beside` is
    that of no other."""
    number = number_of(file)
    return number is not None and number != beside and number not in trusted()


# The function `syscall` of the C library, once it was looked for; of what it says only a failure is known.
system_call: list = []
# What it is told for these flags.
told_for: dict[int, bytes] = {}


def find_system_call():
    """As standard.py finds a call, without the module ctypes."""
    try:
        from _ctypes import call_function, dlopen, dlsym
        place = dlsym(dlopen(None, 2), "syscall")
        system_call.append(lambda *words: call_function(place, words))
    except (ImportError, OSError):
        system_call.append(lambda *_: -1)


def opened_within(name: bytes | str, folder: int, flags: int) -> int | None:
    """Opens what is on the mount of an open folder. None if it is not there or cannot be opened, or is on another
    mount, of which nothing is asked; or if the system has no such call."""
    path = os.fsencode(name)
    if b"\0" in path:
        return None
    if not system_call:
        find_system_call()
    if flags not in told_for:
        told_for[flags] = b"".join(it.to_bytes(8, sys.byteorder) for it in (flags, 0, NO_OTHER_MOUNT))
    told = told_for[flags]
    file = system_call[0](OPENAT2, folder, path, told, len(told))
    return None if file < 0 else file


def hold(name: bytes | str, folder: int, beside: bytes | None = None) -> int:
    """Holds what has a name in an open folder, which is on the mount `beside`. Raises OfAnother if another user mounted
    it."""
    within = opened_within(name, folder, HELD)
    if within is not None:
        return within
    file = os.open(name, HELD, dir_fd=folder)
    try:
        if is_of_another(file, beside or number_of(folder)):
            raise OfAnother(name)
    except BaseException:
        os.close(file)
        raise
    return file


def state_at(name: bytes | str, folder: int, beside: bytes | None = None) -> os.stat_result:
    """What `lstat` says of a name in an open folder, which is on the mount `beside`."""
    file = hold(name, folder, beside)
    try:
        return os.fstat(file)
    finally:
        os.close(file)


def folder_at(name: bytes | str, folder: int) -> int:
    """Opens a directory of this name in an open folder, to read it."""
    within = opened_within(name, folder, FOLDER)
    if within is not None:
        return within
    file = hold(name, folder)
    try:
        return os.open(b".", FOLDER, dir_fd=file)
    finally:
        os.close(file)


def open_at(name: bytes | str, folder: int, flags: int, mode: int = 0o600) -> int:
    """Opens a name in an open folder, and no link. What is opened is what was held before, if anything was there."""
    flags |= os.O_NOFOLLOW | os.O_CLOEXEC
    if flags & os.O_EXCL:
        return os.open(name, flags, mode, dir_fd=folder)
    within = opened_within(name, folder, flags & ~os.O_CREAT)
    if within is not None:
        return within
    try:
        held = hold(name, folder)
    except FileNotFoundError:
        return opened_anew(name, folder, flags, mode)
    try:
        if stat.S_ISLNK(os.fstat(held).st_mode):
            raise OSError(errno.ELOOP, os.strerror(errno.ELOOP), name)
        return os.open(f"/proc/self/fd/{held}", flags & ~(os.O_NOFOLLOW | os.O_CREAT))
    finally:
        os.close(held)


def opened_anew(name: bytes | str, folder: int, flags: int, mode: int) -> int:
    """Opens a name that was not there; what has it meanwhile may be of another."""
    file = os.open(name, flags, mode, dir_fd=folder)
    if is_of_another(file, number_of(folder)):
        os.close(file)
        raise OfAnother(name)
    return file
