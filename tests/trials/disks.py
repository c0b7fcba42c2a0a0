"""Disks of a trial: small ones, in memory, and how they are filled."""
import subprocess
from contextlib import contextmanager, suppress


@contextmanager
def small_disk(folder, size, *options):
    """A file system of this size in a new folder, while the block runs. Gives whether there can be one."""
    folder.mkdir(exist_ok=True)
    words = ["mount", "-t", "tmpfs", "-o", ",".join([f"size={size}", *options]), "none", folder]
    is_mounted = not subprocess.run(words, capture_output=True, check=False).returncode
    try:
        yield is_mounted
    finally:
        if is_mounted:
            subprocess.run(["umount", folder], check=True)


def fill(name):
    """Writes a file of as much as its disk has room for."""
    with open(name, "wb", 0) as file, suppress(OSError):
        while True:
            file.write(bytes(1024))
