"""The command lines of sftpv3-record and sftpv3-recordd: options, help and complaints, by argparse."""
import argparse

from sftpv3.recorder.words import AUDIT_FLAGS, AUDIT_MEMORY, AUDIT_VALUES, GRACE, NAME
from sftpv3.system.parsers import Parser, count, seconds, size

RECORD_NOTES = """\
In TRANSCRIPT and in the names of --times, --log, --tree and --out, %p is the recorder's process, %u the user, %t the
time of the start (20261127T124233Z), %h the client's address from SSH_CONNECTION, and %% a percent sign. A transcript
is made anew, with mode 0600, and never overwritten: if the name is taken, it is NAME.2, NAME.3, ... No link is
followed. A pipe or a device that exists is written to.

A request is recorded before the server gets it, and a reply before the client gets it. If the transcript cannot be
written, the session goes on without it, and a line on standard error says so, unless it is --required.

The exit status is the server's, and 128+N if signal N ended it or the recorder. It is 1 if --stop cut the session, 2
after wrong usage, 3 if a record that is required cannot be made or memory runs out, 126 if COMMAND cannot be run, and
127 if it does not exist."""

DAEMON_NOTES = """\
Started by systemd, it takes the socket that systemd opened; otherwise it makes SOCKET. The records of a user are in a
folder of that user's name, as TIME-ADDRESS-PROCESS.transcript, with a file of times beside each: the user and the
process are those that connected, as the system knows them; the address is what the recorder says. SIZE is a number of
bytes, or one that ends in K, M, G or T."""


def record_parser():
    parser = Parser(
        prog=NAME, allow_abbrev=False, formatter_class=argparse.RawDescriptionHelpFormatter, epilog=RECORD_NOTES,
        usage=f"{NAME} [OPTIONS] TRANSCRIPT COMMAND [ARGUMENT ...]\n"
              f"       {NAME} [OPTIONS] --spool SOCKET COMMAND [ARGUMENT ...]",
        description="Records a session of any SFTP server that speaks over standard input and output.")
    parser.add_argument("--plain", action="store_true",
                        help="give the client a VERSION without the extensions that the audit does not judge")
    parser.add_argument("--overwrite", action="store_true", help="replace a transcript of this name")
    parser.add_argument("--required", action="store_true",
                        help="no session without a record: end it if the record cannot be made or fails later")
    parser.add_argument("--times", metavar="FILE",
                        help="write the time of each record into FILE, made like a transcript")
    parser.add_argument("--boot-clock", action="store_true",
                        help="have --times write times that sftpv3-together can compare with those of other sessions "
                             "of this machine (SFTPTM02)")
    parser.add_argument("--spool", metavar="SOCKET", help="record into the spool of sftpv3-recordd, without TRANSCRIPT")
    parser.add_argument("--log", metavar="FILE", help="append what is said to FILE, and the verdict of --audit")
    parser.add_argument("--syslog", action="store_true", help="say it to syslog, too")
    parser.add_argument("--grace", metavar="SECONDS", type=seconds, default=GRACE,
                        help="how long a server that still works may go on after the session, or after the last reply "
                             "that the client still awaited, 30 by default")
    parser.add_argument("words", nargs=argparse.REMAINDER, help=argparse.SUPPRESS)
    group = parser.add_argument_group("options of an audit that reads along")
    group.add_argument("--audit", action="store_true", help="audit the session while it runs, from the tree of --tree")
    group.add_argument("--stop", action="store_true", help="cut the session where the audit refuses it")
    group.add_argument("--program", metavar="FILE", help="the program sftpv3, by default the one installed beside")
    for name, value in AUDIT_VALUES.items():
        usual = f", {AUDIT_MEMORY} by default" if name == "--memory" else ""
        group.add_argument(name, metavar=value, help=f"as of 'sftpv3 audit {name}'{usual}")
    for name in AUDIT_FLAGS:
        group.add_argument(name, action="store_true", help=f"as of 'sftpv3 audit {name}'")
    return parser


def daemon_parser():
    parser = Parser(
        prog="sftpv3-recordd", allow_abbrev=False, formatter_class=argparse.RawDescriptionHelpFormatter,
        epilog=DAEMON_NOTES, usage="sftpv3-recordd [OPTIONS] FOLDER",
        description="Keeps the records of sftpv3-record --spool where the users who are recorded cannot touch them.")
    parser.add_argument("--socket", metavar="SOCKET", help="the socket to make, which every user can connect to")
    parser.add_argument("--per-session", metavar="SIZE", type=size, default=1 << 34,
                        help="how long a record may be, 16G by default")
    parser.add_argument("--per-user", metavar="SIZE", type=size, default=1 << 37,
                        help="how long the records of a user may be together, 128G by default")
    parser.add_argument("--records-per-user", metavar="N", type=count, default=100_000,
                        help="how many records of a user there may be, 100,000 by default")
    parser.add_argument("--keep-free", metavar="SIZE", type=size, default=1 << 28,
                        help="how much of the file system stays free, 256M by default")
    parser.add_argument("--sessions", metavar="N", type=count, default=64,
                        help="how many sessions of a user are recorded at a time, 64 by default")
    parser.add_argument("--any-uid", action="store_true",
                        help="record users without an account, too, such as those in containers of users")
    parser.add_argument("--log", metavar="FILE", help="append what is said to FILE, too")
    parser.add_argument("--syslog", action="store_true", help="say it to syslog, too")
    parser.add_argument("spool", metavar="FOLDER",
                        help="the spool, a folder of the daemon's user that no other can enter")
    return parser
