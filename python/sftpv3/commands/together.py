"""Judges sessions that overlapped on one tree: whether one order of all their requests explains them all.

    clients/together [OPTIONS] DIR --tree FILE

DIR has NAME.transcript and NAME.times of each session, as `clients/record --times` writes them. An order explains the
sessions if it keeps each one's requests in the order asked; if it has no request behind one that was asked after its
reply was recorded; and if each reply is right where its request is done singly at its place, from the tree, each
session having handles of its own. A search looks for such an order, and `sftpv3 audit` judges the transcript of what it
found: the search itself never says that a set is accepted.

Somebody whom no session shows may have changed the files. With --others PATH the search may invent requests of such a
one, at PATH or below it, where a reply tells of them: a WRITE, SETSTAT, REMOVE, RMDIR, MKDIR or SYMLINK, or an OPEN
that makes a file. It has to be asked for, since it hides an update that the server lost: that looks the same. Each is
printed. They are as few as the search happens to need, not the fewest, and at most --most-others; without an order, the
verdict is `undecided` then.

`refused` is said only by a search that tried all orders. It names a reply that is right in none, and a request of
another session that contradicts it, if there is one. `undecided` is said if none was found within --steps.

The exit status is
  0  accepted
  1  refused
  2  bad usage, or files that are no set: a session without times, times of two boots, a malformed file
  3  a file could not be read or written, or the program `sftpv3` failed
  4  undecided
"""
import sys

from sftpv3.system.standard import begin

begin()
from sftpv3.system.standard import end
from sftpv3.together import command
from sftpv3.together.options import tell


def main():
    return command.main(__doc__.split("\n\n", 2)[2])


def run():
    sys.exit(end(main, tell))
