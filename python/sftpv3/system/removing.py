"""Removes directories with all that they have, whoever made it, and however deep."""
import os

DIRECTORY = os.O_RDONLY | os.O_DIRECTORY | os.O_NOFOLLOW | os.O_CLOEXEC
OWN_RIGHTS = 0o700


def remove_directory(name, above=None):
    """Removes the directory of this name, below that of a descriptor, with all that it has, however deep it is, through
    descriptors and without following a link. Raises OSError if something of it stays, or if it is a link. Nothing may
    be mounted there.

    A server makes directories within each other as deep as it likes: more than a process may have open, and than a
    function may call itself. So what stands deep is moved up first. Two descriptors are open at a time."""
    top = opened(name, above)
    try:
        empty(top)
    finally:
        os.close(top)
    os.rmdir(name, dir_fd=above)


def empty(top):
    """Removes all that the directory of a descriptor has."""
    while directories := remove_files(top):
        move_all_up(top, directories)


def move_all_up(top, names):
    """Removes directories of another one, into which what they have of directories goes."""
    for name in names:
        move_up(top, name)
        os.rmdir(name, dir_fd=top)


def remove_files(directory):
    """Removes what is no directory, and gives the names of those that are."""
    with os.scandir(directory) as entries:
        found = [(entry.name, entry.is_dir(follow_symlinks=False)) for entry in entries]
    for name, is_directory in found:
        if not is_directory:
            os.unlink(name, dir_fd=directory)
    return [name for name, is_directory in found if is_directory]


def move_up(top, name):
    """Empties a directory of another one: what it has of directories goes into that one, under names of their own."""
    directory = opened(name, top)
    try:
        for below in remove_files(directory):
            os.rename(below, os.urandom(16).hex(), src_dir_fd=directory, dst_dir_fd=top)
    finally:
        os.close(directory)


def opened(name, above):
    """A descriptor of a directory that can be listed and changed. One that its owner may not enter is let."""
    try:
        found = os.open(name, DIRECTORY, dir_fd=above)
        if os.fstat(found).st_mode & OWN_RIGHTS != OWN_RIGHTS:
            os.fchmod(found, OWN_RIGHTS)
        return found
    except PermissionError:
        let_in(name, above)
        return os.open(name, DIRECTORY, dir_fd=above)


def let_in(name, above):
    """Gives the owner of a directory all rights in it."""
    place = os.open(name, os.O_PATH | os.O_DIRECTORY | os.O_NOFOLLOW | os.O_CLOEXEC, dir_fd=above)
    try:
        os.chmod(f"/proc/self/fd/{place}", OWN_RIGHTS)
    finally:
        os.close(place)
