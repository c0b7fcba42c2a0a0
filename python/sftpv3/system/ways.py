"""The way to a file, one name at a time, each looked up in the folder before it, which is open: whatever others put
there meanwhile, no link is followed that was not looked at, and none that another user may have put there; and nothing
is asked of what another user mounted (mounted.py).

What is then done with the file is done by its name in the last folder, which stays open. A session waits for the start
of the recorder, so this imports little. Here is, too, whether others could put another file in
its place, and whether two names of a command line lead to one file.
"""
from __future__ import annotations

import errno
import grp
import os
import pwd
import stat

from sftpv3.system import mounted
from sftpv3.system.mounted import HELD

# The most links that lead to each other, as the system has it.
MOST_LINKS = 40
# What was seen of a folder on a way, or at its end: its whole path, what `fstat` says of it, or None, and whether
# others may write into it.
Seen = tuple[str, "os.stat_result | None", bool]


def is_trusted(link: int, folder: os.stat_result, user: int) -> bool:
    """Whether a link of this owner in this folder is the user's or root's, or nobody else writes to the folder."""
    return link in (user, 0) or folder.st_uid in (user, 0) and not folder.st_mode & 0o022


def names(path: bytes) -> tuple[bytes, ...]:
    return tuple(name for name in path.split(b"/") if name)


def text_of(place: tuple[bytes, ...]) -> str:
    """A place below the root as a path."""
    return os.fsdecode(b"/" + b"/".join(place))


class Step:
    """A directory, a file or a link on a way: its place, what `fstat` says of it, and a link's target."""

    def __init__(self, place: tuple[bytes, ...], state: os.stat_result, target: bytes = b""):
        self.place, self.state, self.target = place, state, target


class Way:
    """A way from the root on, or from where a relative path starts: the place to which it came, and each directory on
    it, open. `with` closes them. `given` is what errors name, by default the place where they occur; `is_led_on` says
    whether the last name was a link that was followed."""

    def __init__(self, start: bytes = b"/", given: str | None = None):
        self.place: tuple[bytes, ...] = ()
        self.given, self.links, self.is_led_on = given, 0, False
        self.held: list[int] = []
        self.begin(start)

    def __enter__(self) -> "Way":
        return self

    def __exit__(self, *_):
        self.close()

    def close(self):
        while self.held:
            os.close(self.held.pop())

    def begin(self, start: bytes):
        """Begins anew."""
        self.close()
        self.place = ()
        self.held.append(os.open(start, HELD))
        if start != b"/" and mounted.is_of_another(self.held[0]):
            raise self.of_another(())

    def lead(self, path: tuple[bytes, ...]):
        """Goes to where the path leads, and gives the directories and links on the way, and what is at its end."""
        left = list(path)
        while left:
            name = left.pop(0)
            if name == b"..":
                self.go_back()
            elif name != b".":
                step = self.go(name)
                yield step
                left = [*names(step.target), *left]

    def go_through(self, path: tuple[bytes, ...]):
        """The same, of which nothing is wanted but where it comes to."""
        for _ in self.lead(path):
            pass

    def lead_before_last(self, path: bytes, follows_last: bool) -> bytes:
        """Goes to the folder of what the path names, and gives the name in it; with `follows_last`, where that leads
        if it is a link."""
        while True:
            *above, last = names(path) or [b"."]
            self.go_through(tuple(above))
            if last in (b".", b".."):
                raise self.error(errno.EISDIR, os.strerror(errno.EISDIR), self.place)
            path = self.follow(last) if follows_last else b""
            if not path:
                return last
            self.is_led_on = True

    def go_back(self):
        """Goes to the directory before."""
        if self.place:
            self.place = self.place[:-1]
            os.close(self.held.pop())
        else:
            self.held.append(self.hold(b"..", ()))
            os.close(self.held.pop(0))

    def go(self, name: bytes) -> Step:
        """Goes on to a name. A link leads on from where it is, or from the root."""
        place = (*self.place, name)
        file = self.hold(name, place)
        state = os.fstat(file)
        if not stat.S_ISLNK(state.st_mode):
            self.place = place
            self.held.append(file)
            return Step(place, state)
        try:
            target = self.target_of(file, state, place)
        finally:
            os.close(file)
        if target.startswith(b"/"):
            self.begin(b"/")
        return Step(place, state, target)

    def follow(self, name: bytes) -> bytes:
        """Goes to where a link of this name leads on from, and gives what it says; nothing, if there is no link."""
        try:
            step = self.go(name)
        except FileNotFoundError:
            return b""
        if not step.target:
            self.go_back()
        return step.target

    def hold(self, name: bytes, place: tuple[bytes, ...]) -> int:
        """Holds a name in the directory to which it came."""
        try:
            return mounted.hold(name, self.held[-1])
        except mounted.OfAnother:
            raise self.of_another(place) from None
        except OSError as error:
            raise self.error(error.errno, error.strerror, place) from None

    def of_another(self, place: tuple[bytes, ...]) -> OSError:
        return self.error(errno.EPERM, "a file system that another user mounted is on the way", place)

    def open_folder(self, name: bytes, place: tuple[bytes, ...]) -> int:
        """Opens a directory in the one to which it came, to read it."""
        try:
            return mounted.folder_at(name, self.held[-1])
        except mounted.OfAnother:
            raise self.of_another(place) from None
        except OSError as error:
            raise self.error(error.errno, error.strerror, place) from None

    def target_of(self, link: int, state: os.stat_result, place: tuple[bytes, ...]) -> bytes:
        """What a link says that is open, unless another user may have put it there: that user chose what it says."""
        if not is_trusted(state.st_uid, os.fstat(self.held[-1]), os.geteuid()):
            raise self.error(errno.EPERM, "a symbolic link of another user is on the way", place)
        self.links += 1
        if self.links > MOST_LINKS:
            raise self.error(errno.ELOOP, os.strerror(errno.ELOOP), place)
        return os.readlink(b"", dir_fd=link)

    def seen(self) -> list[Seen]:
        """The directories on a way from the root on."""
        states = [(it, os.fstat(it)) for it in self.held]
        return [(text_of(self.place[:at]), state, is_writable(it, state, os.geteuid()))
                for at, (it, state) in enumerate(states)]

    def error(self, number: int, why: str, place: tuple[bytes, ...]) -> OSError:
        return OSError(number, why, text_of(place) if self.given is None else self.given)

    def open(self) -> int:
        """Opens the directory to which it came, to read it."""
        return self.open_folder(b".", self.place)

    def make(self, name: bytes):
        """Makes a directory for its user alone, if there is nothing of its name."""
        try:
            os.mkdir(name, 0o700, dir_fd=self.held[-1])
        except FileExistsError:
            pass
        except OSError as error:
            raise self.error(error.errno, error.strerror, (*self.place, name)) from None


def from_root(path: bytes) -> bytes:
    """The path from the root on. Only one that begins where the process is asks where that is: it may be gone."""
    return path if path.startswith(b"/") else os.path.join(here(os.fsdecode(path)), path)


def here(given: str) -> bytes:
    """The folder where the process is, from which this path leads on."""
    try:
        return os.getcwdb()
    except FileNotFoundError:
        raise OSError(errno.ENOENT, "the folder in which this was started is gone", given) from None


def way_of(path: bytes, given: str) -> Way:
    """The beginning of the way that a path has."""
    if not path:
        raise OSError(errno.ENOENT, os.strerror(errno.ENOENT), given)
    if path.startswith(b"/"):
        return Way(b"/", given)
    here(given)
    return Way(b".", given)


class Location:
    """A name in a folder that is open; and what the two are called. Of a whole path, `above` has the folders on the way
    to it."""
    is_inherited = False
    above: list[Seen] = []

    def __init__(self, folder: int | None, name: str, path: str):
        self.folder, self.name, self.path = folder, name, path

    def __enter__(self) -> "Location":
        return self

    def __exit__(self, *_):
        self.close()

    def close(self):
        if self.folder is not None:
            os.close(self.folder)
            self.folder = None

    def with_end(self, end: str) -> "Location":
        """The name with this behind it, in the same folder, which the first one closes."""
        return Location(self.folder, self.name + end, self.path + end)

    def beside(self, prefix: str) -> "Location":
        """A name that nobody can foresee, in the same folder, which the first one closes."""
        name = prefix + os.urandom(8).hex()
        return Location(self.folder, name, os.path.join(os.path.dirname(self.path), name))

    def state(self) -> os.stat_result | None:
        """What `lstat` says of what has the name, or None if nothing has."""
        try:
            return mounted.state_at(self.name, self.folder)
        except FileNotFoundError:
            return None

    def by_descriptor(self) -> str:
        """A path of it in this process, which goes by the folder that is open."""
        return f"/proc/self/fd/{self.folder}/{self.name}"

    def open(self, flags: int, mode: int = 0o600) -> int:
        """Opens it, and no link."""
        return mounted.open_at(self.name, self.folder, flags, mode)

    def make(self) -> int:
        """Makes a file of this name for its user alone, to be read and written. Nothing may have the name."""
        return self.open(os.O_RDWR | os.O_CREAT | os.O_EXCL)

    def remove(self):
        """Removes what has the name, if anything has and it can be removed."""
        try:
            os.unlink(self.name, dir_fd=self.folder)
        except OSError:
            pass

    def rename_to(self, other: "Location"):
        os.rename(self.name, other.name, src_dir_fd=self.folder, dst_dir_fd=other.folder)

    def link_to(self, other: "Location"):
        os.link(self.name, other.name, src_dir_fd=self.folder, dst_dir_fd=other.folder, follow_symlinks=False)

    def folder_state(self) -> os.stat_result:
        return os.fstat(self.folder)

    def sync(self):
        """Has the names of the folder on the disk, as far as the system can say."""
        try:
            folder = mounted.folder_at(".", self.folder)
        except OSError:
            return
        try:
            os.fsync(folder)
        except OSError:
            pass
        finally:
            os.close(folder)


def is_inherited(name: str) -> bool:
    """Whether it names a file that the process was given open. Only such a name may be a link."""
    return os.path.normpath(name).startswith(("/dev/fd/", "/dev/std", "/proc/self/fd/"))


class Inherited(Location):
    """The name of a file that the process was given open, which may be a link."""
    is_inherited = True

    def __init__(self, name: str):
        super().__init__(None, name, name)

    def state(self) -> os.stat_result | None:
        try:
            return os.stat(self.name)
        except OSError:
            return None

    def open(self, flags: int, mode: int = 0o600) -> int:
        """Opens a pipe or a device; of another file, no link."""
        found = self.state()
        is_file = found is None or stat.S_ISREG(found.st_mode)
        return os.open(self.name, flags | os.O_CLOEXEC | (os.O_NOFOLLOW if is_file else 0), mode)


def location_of(name: str) -> Location:
    """Where a name is, whose last part is never followed. Raises OSError if that is no name of a file, if its folder is
    not there, or if a link of another user is on the way."""
    with way_of(checked(name), name) as way:
        last = way.lead_before_last(os.fsencode(name), False)
        return Location(os.dup(way.held[-1]), os.fsdecode(last), name)


def led_to(name: str) -> tuple[Location, bool]:
    """So where a name leads, whose last part may be a link, too; and whether it is one. What is called so is a whole
    path without links."""
    with Way(given=name) as way:
        last = way.lead_before_last(from_root(checked(name)), True)
        found = Location(os.dup(way.held[-1]), os.fsdecode(last), text_of((*way.place, last)))
        found.above = way.seen()
        return found, way.is_led_on


def place_led_to(name: str) -> Location:
    """The same place alone, also of a file that the process was given open."""
    return Inherited(name) if is_inherited(name) else led_to(name)[0]


def checked(name: str) -> bytes:
    """A path that has a name of a file at its end."""
    path = os.fsencode(name)
    if not path or path.endswith(b"/"):
        number = errno.EISDIR if path else errno.ENOENT
        raise OSError(number, os.strerror(number), name)
    return path


def refuse_link_of_another(name: str):
    """Raises OSError if another user may have put a link on the way that this name leads, or at its end: before what it
    names is given to a program, which looks by itself."""
    try:
        led_to(name)[0].close()
    except (FileNotFoundError, NotADirectoryError):
        pass


def folder_of(name: str) -> int:
    """Opens the folder of this name."""
    path = os.fsencode(name)
    with way_of(path, name) as way:
        way.go_through(names(path))
        return way.open()


def own_folder(name: str) -> int:
    """Makes a folder for its user alone, with those above it, or takes one of this user that no other can write to, and
    opens it. Its last name may be no link."""
    path = os.fsencode(name)
    with way_of(path, name) as way:
        *above, last = names(path) or [b"."]
        for it in above:
            way.make(it)
            way.go_through((it,))
        way.make(last)
        held = way.open_folder(last, (*way.place, last))
    if not is_own(held, os.fstat(held)):
        os.close(held)
        raise OSError(errno.EPERM, "it belongs to another user, or others can write to it", name)
    return held


def is_own(folder: int, state: os.stat_result) -> bool:
    """Whether a folder that is open is this user's, and no other can write to it."""
    return state.st_uid == os.geteuid() and not is_writable(folder, state, os.geteuid())


def is_private(group, user):
    """Whether the group is that of this user alone: it has the user's name, and no other members."""
    try:
        found, name = grp.getgrgid(group), pwd.getpwuid(user).pw_name
    except KeyError:
        return False
    return found.gr_name == name and not set(found.gr_mem) - {name}


def has_list(folder: int) -> bool:
    """Whether an access list says who may use a folder that is open; the group's permissions are the most that it
    gives. Where nobody can say, as without /proc, it counts as one that has a list."""
    try:
        return bool(os.getxattr(f"/proc/self/fd/{folder}", "system.posix_acl_access"))
    except OSError as error:
        return error.errno not in (errno.ENODATA, errno.ENOTSUP)


def is_writable(folder: int, found: os.stat_result, user: int) -> bool:
    """Whether others than this user and the owner may write into the folder, which is open."""
    if found.st_mode & stat.S_IWOTH:
        return True
    if not found.st_mode & stat.S_IWGRP:
        return False
    return found.st_gid != 0 and not is_private(found.st_gid, user) or has_list(folder)


def looked_at(name: str) -> list[Seen]:
    """The folders on the way to a name, from the root on, and what has it; None is what is said of the first which is
    not there, or cannot be looked at. Raises OSError if a link of another user, or what another one mounted, is on the
    way."""
    with Way() as way:
        try:
            last = way.lead_before_last(from_root(os.fsencode(name)), False)
            held = way.hold(last, (*way.place, last))
            behind = text_of((*way.place, last)), os.fstat(held), False
            os.close(held)
        except OSError as error:
            if error.errno not in (errno.ENOENT, errno.ENOTDIR, errno.EACCES):
                raise
            behind = error.filename, None, False
        return [*way.seen(), behind]


def fault(seen, owner=None):
    """What is wrong with a folder on a way, or None: of what was seen there, the last of which is what it leads to. The
    last folder may belong to `owner`, too.

    What root and the process's user own is theirs to change. In a folder with the sticky bit, others cannot replace
    what belongs to those two.
    """
    trusted = {0, os.geteuid()}
    for at, (folder, found, is_open) in enumerate(seen[:-1]):
        behind = seen[at + 1][1]
        if found.st_uid not in trusted and not (found.st_uid == owner and at == len(seen) - 2):
            return f"the folder {folder} belongs to another user"
        is_kept = found.st_mode & stat.S_ISVTX and (behind is None or behind.st_uid in trusted)
        if is_open and not is_kept:
            return f"the folder {folder} is writable by others"
    return None


def is_one_file(one: str, other: str) -> bool:
    """Whether both names lead to one regular file, or to one that is not there yet. A device may be named twice, and a
    name that leads through a link of another user leads nowhere."""
    try:
        (place, found), (further, state) = end_of(one), end_of(other)
    except FileNotFoundError:
        # a folder is not there, of one name or where the process is
        return parts_of(one) == parts_of(other)
    except OSError:
        return False
    if found is None or state is None:
        return place == further
    return stat.S_ISREG(found.st_mode) and (found.st_dev, found.st_ino) == (state.st_dev, state.st_ino)


def parts_of(name: str) -> str:
    """A name as text says where it leads."""
    try:
        return os.path.abspath(name)
    except FileNotFoundError:
        return os.path.normpath(name)


def end_of(name: str) -> tuple[str, os.stat_result | None]:
    """Where a name leads, as a path without links, and the state of what is there, or None."""
    with place_led_to(name) as place:
        return place.path, place.state()


def is_link(name: str) -> bool:
    """Whether a name that can be looked at is a link."""
    try:
        with location_of(name) as place:
            found = place.state()
    except OSError:
        return False
    return found is not None and stat.S_ISLNK(found.st_mode)


def named_twice(names: list[tuple[str, str | None]], may_be_one: tuple[str, ...] = (),
                unfollowed: tuple[str, ...] = ()) -> tuple[str, str] | None:
    """The first two of these that name one file: pairs of what a name is for, and the name, if it is given. Those of
    `may_be_one` may name one file with each other, and of those of `unfollowed` a link leads nowhere."""
    given = [(what, name) for what, name in names if name and not (what in unfollowed and is_link(name))]
    for place, (what, name) in enumerate(given):
        for other, further in given[place + 1:]:
            if not (what in may_be_one and other in may_be_one) and is_one_file(name, further):
                return what, other
    return None
