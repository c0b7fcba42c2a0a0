"""Makes a tree file of a live folder, as the clients of its server see it: the start for an audit of their sessions.

    clients/tree [OPTIONS] FOLDER ...

Clients of a server that does not change its root see absolute paths. So the tree has each folder at its own place, and
the directories above them with their owners and permissions, but without other names. With --chroot, clients see the
one folder as the root. Sockets, FIFOs and devices, which no tree holds, are empty files in the tree, or as --special
says, with a line for each on standard error: `sftpv3 audit --allow special`, which is part of its profiles, accepts a
listing that shows them. The folder must not change meanwhile; if names, kinds or sizes are seen to change, no file is
written. Which permissions a session gives to what it makes is no part of the tree: `sftpv3 audit --umask` says it.

The exit status is 0 if the tree was written, 2 for bad usage, and 3 if it was not written; if SIGHUP, SIGINT or SIGTERM
ended it, it is 128 and the number of the signal.
"""
import os
import sys

from sftpv3.system.standard import begin

begin()
import argparse
import errno
import grp
import pwd
import tempfile
from contextlib import ExitStack, suppress

from sftpv3.codec import wording
from sftpv3.system import ending, program, temporary
from sftpv3.system.parsers import Parser, number_from, octal, one_of
from sftpv3.system.replacing import Replacing
from sftpv3.system.standard import end
from sftpv3.system.ways import Way
from sftpv3.tree.looking import Trouble, View, names
from sftpv3.tree.writing import Owner, Wanted, write

NAME = os.path.basename(program.called("tree"))


def place(text):
    """A place as clients see it."""
    if not text.startswith("/"):
        raise argparse.ArgumentTypeError(f"{ascii(text)} does not begin at the root, with a slash")
    return text


def options():
    about = __doc__.split("\n\n", 2)
    parser = Parser(prog=NAME, usage="%(prog)s [OPTIONS] FOLDER ...", description=about[0] + "\n\n" + about[2],
                    formatter_class=argparse.RawDescriptionHelpFormatter)
    add = parser.add_argument
    add("--out", metavar="TREE", help="the tree file to write, replaced whole (standard output)")
    add("--mode", metavar="OCTAL", type=octal, default=0o600, help="the permissions of the tree file (0600)")
    add("--chroot", action="store_true", help="the folder is the root that clients see")
    add("--without-mounts", action="store_true",
        help="leave out what is mounted below a folder; a mounted directory is there, and empty (what another user "
             "mounted is left out in any case)")
    add("--user", metavar="USER", help="whose sessions they are: the owner of what they make (yourself)")
    add("--group", metavar="GROUP", help="the group of what they make (that of the user)")
    add("--home", metavar="PLACE", type=place,
        help="where relative paths start, as clients see it (the user's home; with --chroot /, unless the folder has "
             "the home)")
    add("--limits", type=one_of("usual", "raised", "most", "fit"), default="fit", metavar="WHICH",
        help="the tree's limits: usual, raised, most, or fit: the lowest that hold it, none below the usual (fit)")
    add("--special", type=one_of("file", "skip", "refuse"), default="file", metavar="WHAT",
        help="sockets, FIFOs and devices, each of which is named: make each an empty file with its owner and "
             "permissions, skip them, or refuse the folder (file)")
    add("--most", metavar="BYTES", type=number_from(0), default=1 << 34,
        help="the most bytes of the tree file (paths, and files with their holes), and of the names that are held "
             "meanwhile (17179869184)")
    add("folders", metavar="FOLDER", nargs="+", help="a folder that clients see")
    given = parser.parse_args()
    if given.chroot and len(given.folders) != 1:
        parser.error("with --chroot there is one folder")
    if given.out is None and sys.stdout.isatty():
        parser.error("--out is needed, or a standard output that is no terminal")
    given.owner = owner_of(parser, given)
    return given


def number_of(parser, text, look_up, what):
    """The number of a user or group, by name or number."""
    if text.isdecimal() and int(text) < 2 ** 32:
        return int(text)
    try:
        return look_up(text)
    except KeyError:
        return parser.error(f"there is no {what} {ascii(text)[1:-1]}")


def owner_of(parser, given):
    """Whose sessions they are, from the options and the system's users."""
    user = os.getuid() if given.user is None else number_of(
        parser, given.user, lambda name: pwd.getpwnam(name).pw_uid, "user")
    group = home = None
    with suppress(KeyError):
        known = pwd.getpwuid(user)
        group, home = known.pw_gid, known.pw_dir
    if given.group is not None:
        group = number_of(parser, given.group, lambda name: grp.getgrnam(name).gr_gid, "group")
    home = given.home or home or ("/" if given.chroot else None)
    if group is None or home is None:
        parser.error(f"no user here has the number {user}: give --group and --home")
    # sshd goes to the home below the new root, or stays there
    is_sought = given.chroot and not given.home
    return Owner(b"/" + b"/".join(names(os.fsencode(home))), user, group, is_sought)


def write_into(given, file):
    with ExitStack() as stack:
        view = View(given.folders, given.chroot, stack, not given.without_mounts, given.most)
        return write(view, given.owner, Wanted(given.limits, given.most, given.special), file, tell)


def make(given):
    """Writes the file beside its place, and then gives it its name."""
    with Replacing(given.out) as new:
        written = write_into(given, new.file)
        new.sync(given.mode)
        ending.hold_off()
        new.keep()
    return written


def print_tree(given):
    """Writes the whole tree to standard output, or nothing."""
    with tempfile.TemporaryFile(dir=temporary.folder()) as file:
        written = write_into(given, file)
        file.seek(0)
        program.put_file(file)
    return written


def tell(text):
    program.tell(f"{NAME}: {text}")


def counted(count, one, many):
    return f"{count} {one if count == 1 else many}"


def tell_written(given, written):
    left_out = f"; {written.left_out} left out" if written.left_out else ""
    text = (f"{counted(written.count, 'entry', 'entries')}, {counted(written.bytes, 'byte', 'bytes')} in files"
            f"{left_out}")
    if given.out is None:
        tell(text)
    else:
        # what does not take this line is told at the end: the file is written
        print(wording.line(f"{given.out}: {text}"))


def way_to(name):
    """The names on the way that a path leads, from the root on."""
    return names(os.fsencode(name if os.path.isabs(name) else os.path.join(os.getcwd(), name)))


def is_within(name, folder):
    """Whether a file of this name would be below the folder. Where a name leads nowhere, that is said later."""
    try:
        with Way() as way:
            way.go_through(way_to(folder))
            found = os.fstat(way.held[-1])
        with Way() as way:
            way.go_through(way_to(os.path.dirname(name) or "."))
            return any(os.path.samestat(found, os.fstat(it)) for it in way.held)
    except OSError as error:
        if error.errno == errno.EMFILE:
            raise
        return False


def attempt(given):
    for folder in given.folders if given.out is not None else []:
        if is_within(given.out, folder):
            tell(f"{given.out} would be within {folder}: write it elsewhere")
            return 2
    tell_written(given, make(given) if given.out is not None else print_tree(given))
    return 0


def main():
    given = options()
    try:
        with ending.in_order():
            return attempt(given)
    except ending.Signalled as signal:
        tell(f"{signal}; no file is written")
        return signal.status
    except (Trouble, OSError) as error:
        # what standard output did not take is not written at the end
        os.dup2(os.open(os.devnull, os.O_WRONLY), sys.stdout.fileno())
        tell(f"{program.told(error)}; no file is written")
        return 3


def run():
    sys.exit(end(main, tell))
