"""Servers with one fault each, for tests/test-probe.

    tests/stand-in faults FAULT COMMAND [ARGUMENT ...]

runs the command, a sound server, and stands between it and the client; `tests/stand-in faults` lists the
faults. docs/PROBE.md says what finds each.
"""
import sys

from broken import keeping, planted
from sftpv3.faults.models import MODELS
from sftpv3.faults.numbers import sentence

# The faults by their names, in the order of docs/PROBE.md: the models of the package, and those of a process.
FAULTS = {**MODELS, "descriptor-leaks-by-listing": keeping.descriptor_leaks_by_listing,
          "descriptor-leaks-by-file": keeping.descriptor_leaks_by_file}

# What is no fault, or shows in no reply.
SOUND = {"small-room": keeping.SmallRoom, "memory-leaks": keeping.MemoryLeaks}


def main():
    if len(sys.argv) == 1:
        for name, fault in FAULTS.items():
            print(f"{name}: {sentence(fault)}")
        return
    fault, command = planted.named({**FAULTS, **SOUND}, "without arguments, it lists them")
    planted.run(fault(), command)
