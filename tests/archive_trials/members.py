"""What the trials of archives share: members as Python writes them, what a folder has, and runs of the program."""
import os
import shutil
import subprocess
import tarfile
import tempfile
from contextlib import contextmanager
from pathlib import Path

from sftpv3.system.program import program


def run(words, archive=b""):
    return subprocess.run(words, input=archive, capture_output=True, check=False)


def sftpv3(words, archive=b""):
    """Runs the program with these words."""
    return run([program(), *words], archive)


@contextmanager
def room():
    with tempfile.TemporaryDirectory() as name:
        yield Path(name)


def entry(name, kind=tarfile.REGTYPE, content=b"", link=""):
    """A member, as Python writes it. Its user can look into a directory."""
    info = tarfile.TarInfo(name)
    info.type = kind
    info.mode = 0o755 if kind == tarfile.DIRTYPE else 0o644
    info.size = len(content)
    info.linkname = link
    return info.tobuf(tarfile.PAX_FORMAT, errors="surrogateescape") + content + bytes(-len(content) % 512)


END = bytes(1024)

FILE = entry("a", content=b"abc")


def members_of(path):
    """What a folder has, as far as a tree keeps it."""
    found = {}
    for folder, folders, files in os.walk(os.fsencode(path)):
        for name in folders + files:
            whole = os.path.join(folder, name)
            status = os.lstat(whole)
            key = os.path.relpath(whole, os.fsencode(path))
            if os.path.islink(whole):
                found[key] = ("link", os.readlink(whole))
            elif os.path.isdir(whole):
                found[key] = ("dir", status.st_mode, status.st_uid, status.st_gid)
            else:
                with open(whole, "rb") as file:
                    found[key] = ("file", status.st_mode, status.st_uid, status.st_gid, status.st_nlink, file.read())
    return found


def times_of(top):
    """When each directory and file of a folder was changed last, in whole seconds."""
    found = {}
    for folder, folders, files in os.walk(os.fsencode(top)):
        for name in folders + files + [b"."]:
            whole = os.path.join(folder, name)
            if not os.path.islink(whole):
                found[os.path.relpath(whole, os.fsencode(top))] = os.lstat(whole).st_mtime_ns // 10**9
    return found


def extracted(place, archive):
    """What GNU tar extracts of an archive: contents, kinds, modes and owners; and times, those before 1970 as 0."""
    place.mkdir()
    run(["tar", "-C", place, "-x", "-p", "--numeric-owner", "--delay-directory-restore"], archive)
    found = members_of(place), {name: max(0, time) for name, time in times_of(place).items() if name != b"."}
    shutil.rmtree(place)
    return found
