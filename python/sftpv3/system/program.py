"""Finds the program `sftpv3`: in the repository, where ./sftpv3 builds it, or installed with this package."""
import functools
import itertools
import os
import shutil
import subprocess
import sys
from contextlib import suppress

from sftpv3.codec import wording
from sftpv3.system import inputs, temporary
from sftpv3.system.standard import Unread, is_unread

# The package: python/sftpv3 of the repository, whose clients/ starts the commands, or lib/sftpv3/sftpv3 beside them.
PACKAGE = os.path.dirname(os.path.dirname(os.path.realpath(__file__)))
TOP = os.path.dirname(os.path.dirname(PACKAGE))

# The program that was installed: lib is the folder above the commands then.
INSTALLED = os.path.join(os.path.dirname(TOP), "bin", "sftpv3")


# The most memory of an audit that a script starts, unless it is told otherwise.
MEMORY = 1 << 30


class NotBuilt(Exception):
    """./sftpv3 did not build the program, or the installed one is not there."""


def in_repository():
    return os.path.exists(os.path.join(TOP, ".ci", "build"))


def command(name):
    """The file that starts a command."""
    return os.path.join(TOP, "clients", name) if in_repository() else os.path.join(os.path.dirname(PACKAGE), name)


def only_helps():
    """Whether this script is asked for its help, before the words of another command."""
    return not {"-h", "--help"}.isdisjoint(itertools.takewhile(lambda word: word != "--", sys.argv[1:]))


@functools.cache
def program():
    """The program that SFTPV3 names, else the installed one, else the one that ./sftpv3 builds: nobody waits for that
    to be told what a script is for."""
    if "SFTPV3" in os.environ:
        return os.path.realpath(os.environ["SFTPV3"])
    if not in_repository():
        if not os.access(INSTALLED, os.X_OK):
            raise NotBuilt(f"there is no program {INSTALLED}")
        return INSTALLED
    built = os.path.join(TOP, "out", "sftpv3")
    if only_helps():
        return built
    done = subprocess.run([os.path.join(TOP, "sftpv3"), "--proved", "--version"], stdout=subprocess.DEVNULL,
                          check=False)
    if done.returncode != 0:
        raise NotBuilt(f"./sftpv3 did not build the program: it ended with status {done.returncode}")
    return built


def called(name):
    """What a command of clients/ is called: where it is installed, by its name there."""
    return f"clients/{name}" if in_repository() else f"sftpv3-{name}"


# The options of a profile, which are passed on if the program has them.
PROFILE_OPTIONS = ["--profile", "--umask", "--new-owner", "--allow", "--except", "--symlink"]


def profile_words(given):
    """The options of a profile that a command line has, and their values."""
    values = ((option, getattr(given, option[2:].replace("-", "_"))) for option in PROFILE_OPTIONS)
    return [word for option, value in values if value is not None for word in (option, value)]


# Why a name is none that the program takes.
NO_TEXT = "sftpv3 takes no name that is not UTF-8"


def takes(name):
    """Whether the program takes this name."""
    try:
        os.fsencode(name).decode()
    except UnicodeDecodeError:
        return False
    return True


def temporary_folder():
    """The folder for temporary files, if the program takes their names. Raises Unfit if not."""
    found = temporary.folder()
    if not takes(found):
        raise temporary.Unfit(f"{wording.line(found)}: {NO_TEXT} (TMPDIR)")
    return found


def say(text):
    """Prints a line that may have words of a server or of a file: no sign of it does anything to a terminal. The error
    of a standard output that does not take it names it. Where nobody reads it any more, the script ends."""
    put(lambda: print(wording.line(str(text)), flush=True))


def put_file(file):
    """Writes the bytes of an open file to standard output, as `say` prints a line."""
    def write():
        shutil.copyfileobj(file, sys.stdout.buffer)
        sys.stdout.buffer.flush()
    put(write)


def put(write):
    """Has something written to standard output."""
    try:
        write()
    except OSError as error:
        if is_unread(error):
            raise Unread from None
        raise OSError(error.errno, error.strerror, "standard output") from None


def tell(text):
    """Says such a line to standard error, unless nobody can be told."""
    with suppress(OSError):
        print(wording.line(inputs.shown(str(text))), file=sys.stderr, flush=True)


# How the program begins what it says of words that it does not take, and the line for those who typed them.
USAGE, HELP = "error: ", "For more information, "


def of_usage(said):
    """What the program says of words that it does not take, but for what it says of its own command line; or None if
    it says something else."""
    if not said.startswith(USAGE):
        return None
    lines = said[len(USAGE):].splitlines()
    return "\n".join(line for line in lines if line.strip() and not line.startswith((HELP, "Usage: ")))


def one_line(text):
    """What has several lines as one."""
    return "; ".join(line.strip() for line in str(text).splitlines())


def complain(name, why, status):
    """Says in a line why a command of clients/ ends, and gives the status."""
    tell(f"{os.path.basename(called(name))}: {why}")
    return status


def told(error):
    """Why something failed. Of a call of the system: the file that it names, in one line, and the reason in words."""
    if not isinstance(error, OSError) or not error.strerror:
        return str(error)
    name = error.filename if error.filename2 is None else error.filename2
    return error.strerror if name is None else f"{wording.line(os.fsdecode(name))}: {error.strerror}"
