"""Has the kernel refuse the writes of a process for want of memory: a filter of system calls (seccomp), which the
process gets before the program starts."""
from __future__ import annotations

import ctypes
import errno
import platform
import struct

NO_NEW_PRIVILEGES, SET_SECCOMP, FILTER = 38, 22, 2
LOAD, IS_EQUAL, RETURN = 0x20, 0x15, 0x06
ALLOW, REFUSE = 0x7FFF0000, 0x00050000 | errno.ENOMEM

# Where the number of the call, the machine and the first argument are.
NUMBER, MACHINE, STREAM = 0, 4, 16

# The machine's number, and those of `write` and `writev` there.
MACHINES = {"x86_64": (0xC000003E, 1, 20), "aarch64": (0xC00000B7, 64, 66)}


def step(code: int, value: int, if_equal: int = 0, otherwise: int = 0) -> bytes:
    return struct.pack("=HBBI", code, if_equal, otherwise, value)


def program(stream: int) -> bytes:
    """Returns the steps that refuse each `write` and `writev` to a stream, and allow all else."""
    machine, write, writev = MACHINES[platform.machine()]
    return b"".join([
        step(LOAD, MACHINE), step(IS_EQUAL, machine, 0, 5),
        step(LOAD, NUMBER), step(IS_EQUAL, write, 1, 0), step(IS_EQUAL, writev, 0, 2),
        step(LOAD, STREAM), step(IS_EQUAL, stream, 1, 0),
        step(RETURN, ALLOW), step(RETURN, REFUSE)])


class Refusal:
    """What a process calls, before it becomes the program, to have its writes to these streams refused."""

    def __init__(self, streams: list[int]):
        self.kernel = ctypes.CDLL(None, use_errno=True)
        self.steps = [ctypes.create_string_buffer(program(it)) for it in streams]
        # a count of steps, and where they are
        self.heads = [struct.pack("@HP", (len(it) - 1) // 8, ctypes.addressof(it)) for it in self.steps]

    def __call__(self) -> None:
        for head in self.heads:
            if self.kernel.prctl(NO_NEW_PRIVILEGES, 1, 0, 0, 0) or self.kernel.prctl(SET_SECCOMP, FILTER, head, 0, 0):
                raise OSError(ctypes.get_errno(), "the kernel filters no system calls")
