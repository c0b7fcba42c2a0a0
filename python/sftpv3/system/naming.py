"""Names of transcripts, and how they are opened: made anew, and no link followed."""
import errno
import fcntl
import os
import pwd
import stat
import time

from sftpv3.system import ways

# How long a pipe may be without a reader.
PATIENCE = 5
# How many names are tried in turn, and how many with a random end: others may have taken those that can be foreseen.
IN_TURN, RANDOM = 9, 9
# The longest part of a name, in bytes: a user's name, an address.
LONGEST_PART = 100


class BadName(Exception):
    """A name with an unknown word behind a `%`."""


class NotMade(Exception):
    """A file that cannot be made or opened."""


def user_name(number):
    """What a user is called in messages and as a part of a file's name: by the account; without one by the number, and
    so that no account is, which may be named like a number."""
    try:
        return as_part(pwd.getpwuid(number).pw_name)
    except KeyError:
        return f"uid=={number}"


def has_account(number):
    """Whether a user is in the system's list of accounts. Those of user namespaces are in none as a rule: one person
    can have thousands (`/etc/subuid`)."""
    try:
        return bool(pwd.getpwuid(number))
    except (KeyError, OSError):
        return False


def as_part(text):
    """A text as a part of a file's name: without slashes and without what a shell or a terminal acts on, in their place
    the bytes in hexadecimal, as `=5c`. Of two texts each has a part of its own."""
    part = "".join(it if is_plain(it) else escaped(it) for it in text)
    if part.startswith("."):
        part = escaped(".") + part[1:]
    return part if 0 < len(part) <= LONGEST_PART else f"=={digest(text)}"


def is_plain(letter):
    return letter.isascii() and (letter.isalnum() or letter in "_.:@+%-")


def escaped(letter):
    return "".join(f"={it:02x}" for it in letter.encode("utf-8", "surrogateescape"))


def digest(text):
    """What stands for a text that is too long, or empty."""
    import hashlib
    return hashlib.sha256(text.encode("utf-8", "surrogateescape")).hexdigest()


def address(environment):
    """The client's address, as sshd has it in SSH_CONNECTION."""
    words = environment.get("SSH_CONNECTION", "").split()
    return as_part(words[0]) if words else "local"


def expand(name, environment=os.environ):
    """The name with %p (process), %u (user), %t (time of the start, UTC), %h (client's address), %% replaced."""
    words = {"p": lambda: str(os.getpid()), "u": lambda: user_name(os.getuid()),
             "t": lambda: time.strftime("%Y%m%dT%H%M%SZ", time.gmtime()), "h": lambda: address(environment),
             "%": lambda: "%"}

    parts, place = [], 0
    while "%" in name[place:]:
        at = name.index("%", place)
        letter = name[at + 1:at + 2]
        if letter not in words:
            raise BadName(f"{name}: %{letter} is none of %p, %u, %t, %h and %%")
        parts += [name[place:at], words[letter]()]
        place = at + 2
    return "".join(parts) + name[place:]


def folder_warning(name):
    """What is wrong with the folders of this name, or None: others could rename or replace what is in them."""
    try:
        found = ways.fault(ways.looked_at(name))
    except OSError as error:
        if error.errno not in (errno.EPERM, errno.ELOOP):
            return f"whether others can replace {name} is not known: {error.strerror}"
        found = f"a folder on the way to {name} was changed by others"
    return f"{found}, who can replace the record" if found else None


def place_of(name):
    """Where a name is: in a folder that stays open, so that nobody puts its file elsewhere."""
    return ways.Inherited(name) if ways.is_inherited(name) else ways.location_of(name)


def is_trusted(place, found):
    """Whether a pipe or a device is to be written to. Others could have put theirs where a transcript is expected."""
    return place.is_inherited or found.st_uid in (0, os.geteuid())


def is_stream(place):
    """Whether a pipe or a device is there, and the user or root made it."""
    found = place.state()
    return found is not None and is_of_stream(found) and is_trusted(place, found)


def is_of_stream(found):
    return stat.S_ISFIFO(found.st_mode) or stat.S_ISCHR(found.st_mode)


def open_stream(place, is_wanted):
    """Opens a pipe or a device. Waits for a reader for some seconds, as long as the session is wanted."""
    end = time.monotonic() + PATIENCE
    while True:
        try:
            file = place.open(os.O_WRONLY | os.O_NONBLOCK | os.O_NOCTTY)
            break
        except OSError as error:
            if error.errno != errno.ENXIO or time.monotonic() > end or not is_wanted():
                raise OSError(error.errno, error.strerror, place.path) from None
        time.sleep(0.02)
    found = os.fstat(file)
    if not (is_of_stream(found) and is_trusted(place, found)):
        os.close(file)
        raise OSError(errno.EPERM, "it belongs to another user")
    return file


def hold(file):
    """Locks a record for as long as its session runs: what reads records sees by this that it has not ended."""
    try:
        fcntl.flock(file, fcntl.LOCK_EX | fcntl.LOCK_NB)
    except BlockingIOError:
        os.close(file)
        raise OSError(errno.EBUSY, "another session records into it") from None
    except OSError:
        # a file system without locks
        pass
    return file


def names_of(place):
    """The names that are tried in turn: NAME, NAME.2, NAME.3, .., and then some that nobody can foresee."""
    yield place
    for number in range(2, IN_TURN + 1):
        yield place.with_end(f".{number}")
    for _ in range(RANDOM):
        yield place.with_end(f".{os.urandom(8).hex()}")


def open_anew(place):
    """Makes the file, by the first of its names that is not taken. Returns it and where it is."""
    for tried in names_of(place):
        try:
            return hold(tried.open(os.O_WRONLY | os.O_CREAT | os.O_EXCL)), tried
        except FileExistsError:
            pass
    raise OSError(errno.EEXIST, "all names are taken")


def open_over(place):
    """Opens a regular file that is to be replaced, or makes it. The old bytes stay until the session begins."""
    file = place.open(os.O_WRONLY | os.O_CREAT | os.O_NONBLOCK)
    found = os.fstat(file)
    if not stat.S_ISREG(found.st_mode):
        why = OSError(errno.EINVAL, "not a regular file")
    elif found.st_uid != os.geteuid():
        why = OSError(errno.EPERM, "it belongs to another user")
    else:
        return hold(file)
    os.close(file)
    raise why


def reason(error):
    return "it is a symbolic link" if error.errno == errno.ELOOP else error.strerror or str(error)


class Opened:
    """A file that is open for records: its descriptor, where it is, its name, whether it is regular, whether it was
    made here."""

    def __init__(self, name, overwrite, is_wanted):
        self.is_made = False
        try:
            self.place = place_of(name)
            self.is_regular = not is_stream(self.place)
            if not self.is_regular:
                self.file = open_stream(self.place, is_wanted)
            elif overwrite:
                self.is_made = self.place.state() is None
                self.file = open_over(self.place)
            else:
                self.file, self.place = open_anew(self.place)
                self.is_made = True
        except OSError as error:
            raise NotMade(f"cannot write {name}: {reason(error)}") from None
        self.name = self.place.path

    def take_back(self):
        """Closes it, and removes what was made, since there is no session."""
        os.close(self.file)
        self.remove()

    def remove(self):
        """Removes what was made."""
        if self.is_made:
            self.place.remove()

    def warning(self):
        return folder_warning(self.name) if self.is_regular else None
