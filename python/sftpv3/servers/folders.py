"""The folder of a tree file, for one session.

`sftpv3 export` reads the tree file, so what the program refuses is refused here. The folder is made through descriptors
of its directories, and no link is followed: whatever a tree has, nothing is made outside. It stands below a folder of
mode 0700, so that nobody else reaches it, and, where the system allows, on a mount of this process alone on which
set-id bits and devices have no effect; elsewhere set-id bits are left out. What a killed run left is removed by the
next.
"""
import contextlib
import fcntl
import os
import shutil
import stat
import subprocess
import sys
import tarfile
import time
from typing import NamedTuple

from sftpv3.servers import mounts
from sftpv3.system import mounted, program, temporary, ways
from sftpv3.system.removing import DIRECTORY, remove_directory

PREFIX, ROOT = "sftpv3-root-", "root"
SET_ID = stat.S_ISUID | stat.S_ISGID

# As an owner or a group, the system understands by the number behind this one that it stays as it was.
HIGHEST = 2 ** 32 - 2

# How old, in seconds, a folder is at least that is taken for one that a killed run left.
LEFT = 60

# How many bytes are free on the disk at least when a session begins: more than any plan of the probe writes.
ROOM = 1 << 26

NEW_FILE = os.O_WRONLY | os.O_CREAT | os.O_EXCL | os.O_NOFOLLOW


class Bad(Exception):
    """A tree that cannot be made into a folder."""


class NotOwn(Exception):
    """A folder that is not for the files of sessions alone."""


@contextlib.contextmanager
def closed_behind(descriptor):
    """A descriptor, for a block behind which it is closed."""
    try:
        yield descriptor
    finally:
        os.close(descriptor)


def tell(text):
    print(f"{os.path.basename(sys.argv[0])}: {text}", file=sys.stderr)


def check_room(root):
    """Refuses a disk, by the descriptor of a directory, on which the server would refuse what is right for want of
    room. Some file systems do not say what is free."""
    found = os.fstatvfs(root)
    free = found.f_bfree * found.f_frsize
    if found.f_blocks and free < ROOM:
        raise temporary.Unfit(f"{temporary.named()} has {free:,} bytes free, and a session needs {ROOM:,} (TMPDIR)")


class Owned(NamedTuple):
    """A directory whose owner and permissions are still to be set."""
    name: str
    uid: int
    gid: int
    mode: int


class Builder:
    """Makes entries below a root directory, which is given by its descriptor."""

    def __init__(self, root, with_set_id):
        self.root, self.with_set_id = root, with_set_id
        self.left_out = self.lowered = 0

    def open(self, names):
        """A descriptor of the directory of these names."""
        at = os.dup(self.root)
        for name in names:
            try:
                below = os.open(name, DIRECTORY, dir_fd=at)
            finally:
                os.close(at)
            at = below
        return at

    def names(self, path):
        names = [name for name in os.fsencode(path).split(b"/") if name not in (b"", b".")]
        if b".." in names:
            raise Bad(f"{path!r} leads out of the tree")
        return names

    def put(self, member, content):
        """Makes an entry as an archive's member has it; `content` is a file of its bytes."""
        names = self.names(member.name)
        if not names:
            return
        with closed_behind(self.open(names[:-1])) as parent:
            if member.isdir():
                os.mkdir(names[-1], 0o700, dir_fd=parent)
            elif member.issym():
                os.symlink(os.fsencode(member.linkname), names[-1], dir_fd=parent)
            elif member.islnk():
                self.link(self.names(member.linkname), parent, names[-1])
            else:
                self.put_file(parent, names[-1], member, content)

    def link(self, first, parent, name):
        with closed_behind(self.open(first[:-1])) as of_first:
            os.link(first[-1], name, src_dir_fd=of_first, dst_dir_fd=parent, follow_symlinks=False)

    def put_file(self, parent, name, member, content):
        with open(os.open(name, NEW_FILE, 0o600, dir_fd=parent), "wb") as file:
            shutil.copyfileobj(content, file)
            self.own(file.fileno(), member)

    def own(self, descriptor, member):
        """Gives a file or directory its owner and permissions."""
        permissions = member.mode & 0o7777
        if permissions & SET_ID and not self.with_set_id:
            permissions &= ~SET_ID
            self.left_out += 1
        self.lowered += max(member.uid, member.gid) > HIGHEST
        os.fchown(descriptor, min(member.uid, HIGHEST), min(member.gid, HIGHEST))
        os.fchmod(descriptor, permissions)

    def own_directory(self, member):
        with closed_behind(self.open(self.names(member.name))) as directory:
            self.own(directory, member)


def fill(builder, tree_file):
    # the program would take `-` for standard input, from which the client's requests come
    words = [program.program(), "export", "--", "./-" if tree_file == "-" else tree_file]
    with subprocess.Popen(words, stdin=subprocess.DEVNULL, stdout=subprocess.PIPE, stderr=subprocess.PIPE) as exported:
        source = {"fileobj": exported.stdout, "encoding": "utf-8", "errors": "surrogateescape"}
        try:
            with tarfile.open(mode="r|", **source) as members:
                directories = put_all(builder, members)
        except tarfile.ReadError:
            directories = None
        said = exported.stderr.read().decode(errors="replace").strip()
    if exported.returncode != 0 or directories is None:
        raise Bad(said or "what the program made of it is no archive")
    for member in reversed(directories):
        builder.own_directory(member)


def put_all(builder, members):
    """Makes the members of an archive, and gives those that are directories: they get their owners last."""
    directories = []
    while (member := members.next()) is not None:
        # tarfile would hold all of them
        members.members.clear()
        builder.put(member, members.extractfile(member) if member.isreg() else None)
        if member.isdir():
            directories.append(Owned(member.name, member.uid, member.gid, member.mode))
    return directories


def remove_left(room):
    """Removes what killed runs of this user left in the folder of a descriptor: folders that no run holds locked, and
    that have nothing but a root. What cannot be removed stays, and stops nothing; nothing is asked of what another user
    mounted there."""
    for name in names_left(room):
        with contextlib.suppress(OSError):
            if time.time() - mounted.state_at(name, room).st_mtime >= LEFT:
                remove_if_left(name, room)


def names_left(room):
    with contextlib.suppress(OSError), closed_behind(mounted.folder_at(".", room)) as readable:
        return [name for name in os.listdir(readable) if name.startswith(PREFIX)]
    return []


def remove_if_left(name, room):
    with closed_behind(mounted.folder_at(name, room)) as held:
        state = os.fstat(held)
        is_own = state.st_uid == os.geteuid() and stat.S_IMODE(state.st_mode) == 0o700
        if is_own and os.listdir(held) in ([], [ROOT]):
            fcntl.flock(held, fcntl.LOCK_EX | fcntl.LOCK_NB)
            remove_whole(held, name, room)


def remove_whole(held, name, room):
    """Removes the folder of a descriptor, which has this name in another one. Whatever ends this, the folder has no
    more than a root, so that the next run goes on."""
    with contextlib.suppress(FileNotFoundError):
        remove_directory(ROOT, held)
    os.rmdir(name, dir_fd=room)


class Folder:
    """The folder of a tree file, while it is needed, by its descriptor `root`. All names are looked up in folders that
    are open."""

    def __init__(self, tree_file):
        # what was opened before has no mounts of this process
        self.is_apart = mounts.own_namespace()
        self.lock = self.root = -1
        self.has_mount = False
        try:
            self.lock = self.locked()
            self.make(tree_file)
        except BaseException:
            self.remove()
            raise

    def locked(self):
        """Makes the folder. Gives a descriptor of it, which holds it locked."""
        self.place = temporary.place(PREFIX)
        remove_left(self.place.folder)
        os.mkdir(self.place.name, 0o700, dir_fd=self.place.folder)
        held = self.place.open(DIRECTORY)
        fcntl.flock(held, fcntl.LOCK_EX)
        return held

    def make(self, tree_file):
        """Makes what the tree has, unless an earlier session did."""
        is_new = ROOT not in os.listdir(self.lock)
        if is_new:
            fcntl.flock(self.lock, fcntl.LOCK_EX)
            os.mkdir(ROOT, 0o755, dir_fd=self.lock)
        if self.is_apart:
            mounts.without_set_id(self.mounted())
            self.has_mount = True
        self.root = os.open(ROOT, DIRECTORY, dir_fd=self.lock)
        if is_new:
            self.fill(tree_file)
            # other sessions may have what is there now at the same time
            fcntl.flock(self.lock, fcntl.LOCK_SH)
        check_room(self.root)

    def fill(self, tree_file):
        builder = Builder(self.root, self.has_mount)
        fill(builder, tree_file)
        if builder.left_out:
            tell(f"set-id bits left out: {builder.left_out} (this system gives no mounts of one's own)")
        if builder.lowered:
            tell(f"{builder.lowered} with the owner or group {HIGHEST + 1}, which no file has: here it is {HIGHEST}")

    def mounted(self):
        """A path of the root, which goes by the folder that is open."""
        return f"/proc/self/fd/{self.lock}/{ROOT}"

    def remove(self):
        if self.root >= 0:
            os.close(self.root)
        if self.has_mount:
            mounts.unmount(self.mounted())
        if self.lock >= 0:
            self.leave()
            os.close(self.lock)

    def leave(self):
        """Removes the folder."""
        try:
            remove_whole(self.lock, self.place.name, self.place.folder)
        except OSError as error:
            tell(f"{self.place.path} stays: {error.strerror}")
        self.place.close()

    def __enter__(self):
        return self

    def __exit__(self, *_):
        self.remove()


class Kept(Folder):
    """The folder of this name, which is the user's: made from the tree if it is empty, used as it is otherwise, and
    never removed."""

    def __init__(self, tree_file, name):
        self.name = name
        super().__init__(tree_file)

    def locked(self):
        """Gives a descriptor of the folder, which holds it locked. Raises NotOwn if it is not this user's alone, or if
        it has what no earlier session made, and OSError if it is a link, or if a link of another user is on the way."""
        with ways.location_of(self.name.rstrip("/") or self.name) as place:
            held = place.open(DIRECTORY)
        try:
            state, user = os.fstat(held), os.geteuid()
            if state.st_uid != user:
                raise NotOwn(f"{self.name} is a folder of user {state.st_uid}: name one that user {user}, as whom this "
                             "script runs, has made by mkdir -m 0700")
            fcntl.flock(held, fcntl.LOCK_SH)
            if foreign := [name for name in os.listdir(held) if name != ROOT]:
                raise NotOwn(f"{self.name} has {foreign[0]!r}, which no session of these servers made there")
            if stat.S_IMODE(state.st_mode) & 0o077:
                raise NotOwn(f"{self.name} is a folder that others can enter: chmod 0700 {self.name}")
        except BaseException:
            os.close(held)
            raise
        return held

    def leave(self):
        """The folder stays."""
