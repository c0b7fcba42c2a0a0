"""Audits the sessions of a user that were recorded since the last run, and checks whether they explain the folder.

    clients/nightly [OPTIONS] USER FOLDER ... [-- OPTION-OF-AUDIT ...]

The first run makes the tree of the folders with sftpv3-tree. Each later run audits the sessions that have ended since,
in the order of their starts, each from the tree in which the one before it ended, and then compares the last tree with
the folders as they are. Each record goes into the folder accepted, refused (with the verdict beside it) or unjudged of
the user's state. A session is unjudged if its audit takes more than --memory or --audit-seconds, or if there is no tree
to start from, as before the first run. Behind a refused or an unjudged session, the places that contradict the tree, or
that it may have changed, are open: the next sessions are judged without their requests there, until the folders are
compared. If nobody knows these places, the tree is made anew. A record of more than --most-copied bytes, or whose copy
takes more than --audit-seconds, stays in --records, and is named by each run. Sessions
that may have run at the same time are judged together, by sftpv3-together. A session that runs alone is judged as far
as it went; those that ended beside or behind it wait, and nothing is compared unless it is quiet. Nor is anything
compared once --night-seconds are over. Behind a refusal, a line has its cause.

A copy of each record that nobody else can change is audited and kept. A file is a record only if it is as a recorder
makes it: a regular file of the user's, with one name, that nobody else may use. A folder with the user's name in
--records is taken only if the spool's owner or root made it, and no other can write to the spool.

Options of `sftpv3 audit` follow `--`. They are added to `--profile posix-user` (`posix` if the program has no other),
`--cut` and `--new-owner posix`, as far as the program has these; a profile takes the place of all three.

The exit status is
  0  all sessions that have ended are accepted, none waits, and the folders are as they left them
  1  one is refused, or it or a part of it cannot be judged, a file of the user is not taken for a record, something
     else changed the folders, or nothing could be compared
  2  bad usage
  3  a file cannot be read or written, or the program or sftpv3-tree failed: nothing more is judged
If SIGHUP, SIGINT or SIGTERM ended the run, it is 128 and the number of the signal; what is left waits for the next run.
"""
import os
import sys

from sftpv3.system.standard import begin

begin()
import argparse

from sftpv3.nights.accounts import account
from sftpv3.nights.auditing import WrongOption
from sftpv3.nights.night import Night, Unsaid
from sftpv3.nights.records import Failed
from sftpv3.nights.summary import Summary
from sftpv3.system import ending, files, program, ways
from sftpv3.system.parsers import Parser, number_from
from sftpv3.system.replacing import Replacing
from sftpv3.system.standard import end

# How long an audit may take, to read the folders, and all audits of a run, in seconds. With the unit's 6 h the last
# audit and look come to their end.
AUDIT_SECONDS, LOOK_SECONDS, NIGHT_SECONDS = 600, 3600, 14400
# The most bytes of a record, which each user can make as long as the spool allows.
MOST_COPIED = 1 << 36


# No night has as many seconds, and no process is given as much memory: the system takes no bounds of much more.
MOST_TIME, MOST_MEMORY = 10**9, 1 << 60


def volatile_path(text):
    """A path of --volatile: from the root, as clients see it, and not the root itself."""
    if not text.startswith("/") or not text.strip("/") or {".", "..", ""} & set(text.strip("/").split("/")):
        raise argparse.ArgumentTypeError(f"invalid path from the root: {text!r}")
    return os.fsencode(text)


def options():
    about = __doc__.split("\n\n", 2)
    parser = Parser(prog=os.path.basename(program.called("nightly")),
                    usage="%(prog)s [OPTIONS] USER FOLDER ... [-- OPTION-OF-AUDIT ...]",
                    description=about[0] + "\n\n" + about[2], formatter_class=argparse.RawDescriptionHelpFormatter)
    add = parser.add_argument
    add("--records", metavar="DIR", default="/var/spool/sftp",
        help="where the recorder writes, or the spool of sftpv3-recordd (/var/spool/sftp)")
    add("--state", metavar="DIR", default="/var/lib/sftpv3",
        help="where the tree and the audited records of each user are kept (/var/lib/sftpv3)")
    add("--memory", metavar="BYTES", type=number_from(1, MOST_MEMORY), default=program.MEMORY,
        help=f"the most memory of an audit ({program.MEMORY}); the tree file of the folders may have a third of it")
    add("--audit-seconds", metavar="N", type=number_from(1, MOST_TIME, float), default=AUDIT_SECONDS,
        help=f"the most time of an audit ({AUDIT_SECONDS})")
    add("--most-copied", metavar="BYTES", type=number_from(1, MOST_MEMORY), default=MOST_COPIED,
        help=f"the most bytes of a record that is copied and judged ({MOST_COPIED})")
    add("--steps", metavar="N", type=number_from(1, MOST_TIME), default=0,
        help="the most steps of a search for an order of sessions that overlap, as of sftpv3-together")
    add("--look-seconds", metavar="N", type=number_from(1, MOST_TIME, float), default=LOOK_SECONDS,
        help=f"the most time in which the folders are read ({LOOK_SECONDS})")
    add("--night-seconds", metavar="N", type=number_from(0, MOST_TIME, float), default=NIGHT_SECONDS,
        help=f"after how much time no more audit is begun, and what is left waits for the next run ({NIGHT_SECONDS})")
    add("--longest", metavar="HOURS", type=number_from(0, MOST_TIME, float), default=0,
        help="for how long sessions that run may keep the folders from being compared, before the status is 1 (0)")
    add("--json", metavar="FILE", help="write a summary of the night as one line of JSON (- is standard output)")
    add("--metrics", metavar="FILE",
        help="write it for the textfile collector of Prometheus, as in /var/lib/node_exporter/sftpv3-USER.prom")
    add("--keep-days", metavar="N", type=number_from(0, MOST_TIME, float),
        help="remove accepted and unjudged records that were kept for more days")
    add("--keep-bytes", metavar="BYTES", type=number_from(0, MOST_MEMORY),
        help="keep no more bytes of records: first the oldest accepted ones go, then unjudged, then refused ones")
    add("--volatile", metavar="PATH", action="append", default=[], type=volatile_path,
        help="what a program of the machine writes: nothing is claimed of it, or of what is below it; each name of the "
             "path may have the signs * ? [] of a shell (repeatable)")
    add("--chroot", action="store_true", help="as of sftpv3-tree")
    add("--without-mounts", action="store_true", help="as of sftpv3-tree")
    add("--home", metavar="PLACE", help="as of sftpv3-tree")
    add("--group", metavar="GROUP", help="as of sftpv3-tree")
    add("--also", metavar="USER", action="append", default=[],
        help="a further user whose sessions change the folders: all are in one order (repeatable)")
    add("user", metavar="USER", help="whose sessions they are")
    add("folders", metavar="FOLDER", nargs="+", help="the folders that this user's clients see")
    words = sys.argv[1:]
    place = words.index("--") if "--" in words else len(words)
    given = parser.parse_args(words[:place])
    given.audit = words[place + 1:]
    given.accounts = [account_of(parser, name, given) for name in (given.user, *given.also)]
    if len({it.number for it in given.accounts}) < len(given.accounts):
        parser.error("--also: a user is named twice")
    if "/" in given.user:
        parser.error("a user's name has no slash")
    if given.metrics == "-":
        parser.error("--metrics: the collector reads a file")
    return given


def write_for_all(name, text):
    """Replaces a file by one that all may read: the collector runs as a user of its own."""
    with Replacing(name) as new:
        new.file.write(text.encode())
        new.sync(0o644)
        new.keep()


def account_of(parser, name, given):
    try:
        return account(name, given.group, given.home, given.folders[0] if given.chroot else "")
    except KeyError:
        return parser.error(f"there is no user {ascii(name)[1:-1]}")
    except ValueError as error:
        return parser.error(str(error))


def tell(text):
    program.complain("nightly", text, 3)


def judged(given, summary):
    """The status of a night."""
    try:
        with ending.in_order():
            return Night(given, summary).run()
    except ending.Signalled as signal:
        tell(f"{given.user}: {signal}; what is left waits for the next run")
        return signal.status
    except Unsaid:
        return 3
    except WrongOption as error:
        tell(f"behind --: {error}")
        return 2
    except (Failed, program.NotBuilt, OSError) as error:
        tell(f"{given.user}: {program.told(error)}")
        return 3


def written(given, summary, status):
    """The status, once the summary of the night is written: also of one that failed, so that nobody takes the last good
    one for it."""
    try:
        if given.json == "-":
            sys.stdout.write(summary.as_json(status))
        elif given.json:
            files.write_text(given.json, summary.as_json(status))
        if given.metrics:
            write_for_all(given.metrics, summary.as_metrics(status))
    except OSError as error:
        tell(f"{given.user}: {program.told(error)}")
        status = max(status, 3)
    return status


def main():
    for stream in (sys.stdout, sys.stderr):
        stream.reconfigure(errors="backslashreplace")
    given = options()
    os.umask(0o077)
    try:
        # the run goes into the folder of its state
        for name in ("json", "metrics"):
            if getattr(given, name) not in (None, "-"):
                setattr(given, name, os.fsdecode(ways.from_root(os.fsencode(getattr(given, name)))))
    except OSError as error:
        tell(f"{given.user}: {program.told(error)}")
        return 3
    summary = Summary(given.user)
    status = judged(given, summary)
    return status if status == 2 else written(given, summary, status)


def run():
    sys.exit(end(main, tell))
