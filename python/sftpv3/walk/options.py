"""The command line of a walk, and its exit statuses."""
import argparse
import os
import sys

from sftpv3.codec.trees import MOST
from sftpv3.peer import servers
from sftpv3.peer.options import flying, seconds
from sftpv3.system import program
from sftpv3.system.parsers import Parser
from sftpv3.system.ways import is_one_file
from sftpv3.walk import bounds, looking

# The exit statuses: the tree was written; no tree explains what the server told; wrong usage; it was not written.
WRITTEN, NO_TREE, BAD_USAGE, NOT_WRITTEN = range(4)

# How many requests are in flight, unless it is told otherwise.
IN_FLIGHT = 64

# The profile that says what a server may do, unless it is told otherwise, the word for none, and the profile by which
# it may deny what it likes.
PROFILE, STRICT, OF_USERS = "posix", "strict", "posix-user"


# The highest number of a user or group.
HIGHEST_OWNER = 2**32 - 1

# No process is given as much memory, and the system takes no bound of more than eight times as much.
MOST_MEMORY = 1 << 60


def count(text):
    if not (text.isascii() and text.isdigit()):
        raise argparse.ArgumentTypeError(f"{text!r} is no number")
    return int(text)


def memory(text):
    found = count(text)
    if found >= MOST_MEMORY:
        raise argparse.ArgumentTypeError(f"{text} is more memory than a process can have")
    return found


def entries(text):
    found = count(text)
    if not 1 <= found <= MOST[0]:
        raise argparse.ArgumentTypeError(f"{text} is not from 1 to {MOST[0]}, as many as a tree may have")
    return found


def owner(text):
    numbers = text.split(":")
    if len(numbers) != 2 or any(count(it) > HIGHEST_OWNER for it in numbers):
        raise argparse.ArgumentTypeError(f"{text!r} is not the numbers of a user and a group, as 1000:1000")
    return tuple(map(int, numbers))


def place(text):
    path = os.fsencode(text)
    if len(path) > bounds.PATH:
        raise argparse.ArgumentTypeError(f"a path of {len(path):,} bytes, more than {bounds.PATH:,}")
    return path


def parser(about):
    found = Parser(
        prog=program.called("walk"), usage=f"{program.called('walk')} [OPTIONS] -- COMMAND [ARGUMENT ...]",
        formatter_class=argparse.RawDescriptionHelpFormatter, description=about)
    add = found.add_argument
    add("--to", metavar="TREE", help="the tree file to write (standard output)")
    add("--below", metavar="PLACE", action="append", type=place,
        help="a place to look at, with all that is below it; may be given several times (where relative paths start)")
    add("--no-contents", action="store_true", help="read no files: they have bytes of 0 in the tree")
    add("--max-bytes", metavar="N", type=count, default=bounds.READ,
        help=f"the most bytes of files to read, all together; a line names each file that is left ({bounds.READ})")
    add("--max-entries", metavar="N", type=entries, default=bounds.ENTRIES,
        help=f"the most entries to look at; with more, the walk ends ({bounds.ENTRIES})")
    add("--owner", metavar="USER:GROUP", type=owner,
        help="whose the things are that later sessions make, by the numbers that the server shows (those of the "
             "directory where relative paths start, if it was looked at)")
    add("--session", metavar="FILE", help="keep the transcript of the session, which is made anew")
    add("--memory", metavar="BYTES", type=memory, default=looking.MEMORY,
        help=f"the most memory of `sftpv3 infer`, which takes twice the bytes of the record ({looking.MEMORY})")
    add("--in-flight", metavar="N", type=flying, default=IN_FLIGHT,
        help=f"the most requests without a reply ({IN_FLIGHT})")
    add("--timeout", metavar="S", type=seconds, default=servers.TIMEOUT,
        help=f"seconds to wait for a reply ({servers.TIMEOUT}), and {servers.OPENING} times as long for VERSION")
    add("--profile", metavar="WORD", default=PROFILE,
        help=f"for `sftpv3 infer`: a profile of `sftpv3 audit`, or {STRICT} for none ({PROFILE})")
    for option in program.PROFILE_OPTIONS:
        if option != "--profile":
            add(option, metavar="WORD", help=f"for `sftpv3 infer`, as of `sftpv3 audit {option}`")
    add("command", nargs="+", help=argparse.SUPPRESS)
    return found


def options(about):
    """The command line as it was given. Wrong usage ends the program."""
    found = parser(about)
    given = found.parse_args()
    if given.to is None and given.session is None and sys.stdout.isatty():
        found.error("--to or --session is needed, or a standard output that is no terminal")
    if given.to == "":
        found.error("--to names no file")
    if given.to is not None and given.session is not None and is_one_file(given.to, given.session):
        found.error("--to and --session name one file")
    if given.owner and given.profile == STRICT:
        found.error(f"--owner cannot be given with --profile {STRICT}, by which links show it")
    given.below = given.below or [b"."]
    given.infer_words = profile_words(given)
    return given


def profile_words(given):
    words = program.profile_words(given)
    return words[2:] if given.profile == STRICT else words
