"""The program that answers again, and the files that are kept of a trial that failed."""
import functools
import os
import shutil
import subprocess
from pathlib import Path

from sftpv3.system.program import TOP
from trials.processes import executable


@functools.cache
def again():
    """The program of SFTP_AGAIN, or `sftp_again`, which .ci/build proves and builds if it has to."""
    if "SFTP_AGAIN" in os.environ:
        return os.path.realpath(os.environ["SFTP_AGAIN"])
    folder = os.path.join(TOP, "out", "again")
    subprocess.run([os.path.join(TOP, ".ci", "build"), folder, "sftp_again"], stdout=subprocess.DEVNULL, check=True)
    return os.path.join(folder, "sftp_again")


def keep(name, command, why, files, copies=()):
    """Keeps these files and the command in a folder of out/fuzz, which is returned."""
    folder = os.path.join(TOP, "out", "fuzz", name)
    os.makedirs(folder, exist_ok=True)
    for copy in copies:
        shutil.copy(copy, folder)
    for file, data in files.items():
        Path(folder, file).write_bytes(data)
    return executable(os.path.join(folder, "repeat"),
                      f"#!/bin/sh\n# {why}\ncd \"$(dirname \"$0\")\" || exit\n{command}\n")
