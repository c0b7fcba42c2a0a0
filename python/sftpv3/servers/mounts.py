"""Mounts in a namespace of this process's own, and rights that are given up, by the calls of Linux.

Without the right to mount, nothing is changed.
"""
import contextlib
import ctypes
import os
import struct

CLONE_NEWNS = 0x20000
MS_RDONLY, MS_NOSUID, MS_NODEV, MS_NOEXEC, MS_REMOUNT, MS_BIND = 0x1, 0x2, 0x4, 0x8, 0x20, 0x1000
MS_REC, MS_PRIVATE = 0x4000, 0x40000
MNT_DETACH = 0x2


def call(function, *arguments):
    """Calls a function of the C library; raises an OSError if it fails."""
    library = ctypes.CDLL(None, use_errno=True)
    if getattr(library, function)(*arguments) != 0:
        number = ctypes.get_errno()
        raise OSError(number, os.strerror(number))


def mount(source, target, flags):
    call("mount", os.fsencode(source), os.fsencode(target), None, ctypes.c_ulong(flags), None)


def own_namespace():
    """Gives this process mounts of its own, which nobody else sees and which end with it. Returns whether it could."""
    try:
        call("unshare", CLONE_NEWNS)
        mount("none", "/", MS_REC | MS_PRIVATE)
    except (OSError, AttributeError):
        return False
    return True


def without_set_id(folder):
    """Lets set-id bits and devices below the folder have no effect."""
    mount(folder, folder, MS_BIND)
    mount("none", folder, MS_REMOUNT | MS_BIND | MS_NOSUID | MS_NODEV)


# The calls of prctl, and what a server needs of root's rights: to give files owners and to reach and change them all.
DROP_FROM_BOUNDS, SET_NO_NEW_PRIVILEGES = 24, 38
KEPT = CHOWN, DAC_OVERRIDE, FOWNER, FSETID = 0, 1, 3, 4


def give_up_rights():
    """Leaves the program that this process runs next none of root's rights that lead out of a changed root: to change
    it again, to mount, to make devices, to trace other processes, to become another user, to signal those of others."""
    for right in range(64):
        if right not in KEPT:
            with contextlib.suppress(OSError):
                call("prctl", DROP_FROM_BOUNDS, *map(ctypes.c_ulong, (right, 0, 0, 0)))
    # version 3 of the call: 32 rights in each of two parts, those in effect, those permitted, those inherited
    kept = sum(1 << right for right in KEPT)
    call("capset", struct.pack("=Ii", 0x20080522, 0), struct.pack("=6I", kept, kept, 0, 0, 0, 0))
    no_new_privileges()


def no_new_privileges():
    """Lets no program that runs from now on get rights by its owner or its file."""
    call("prctl", SET_NO_NEW_PRIVILEGES, *map(ctypes.c_ulong, (1, 0, 0, 0)))


def bind(source, target):
    mount(source, target, MS_BIND)


def fix(target):
    """Lets nobody change the owner, the permissions or the times of what is mounted: a device can still be used."""
    mount("none", target, MS_REMOUNT | MS_BIND | MS_RDONLY | MS_NOSUID | MS_NOEXEC)


def unmount(target):
    call("umount2", os.fsencode(target), MNT_DETACH)
