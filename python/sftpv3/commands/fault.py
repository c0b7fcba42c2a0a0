"""Passes a session between a client and an SFTP server on, and lets something go wrong in it on purpose.

    clients/fault [OPTIONS] -- COMMAND [ARGUMENT ...]

It runs the command as the server, which speaks over standard input and output, and stands where that stood: in the
line Subsystem of sshd_config, or behind `sftp -D`. So a client's author sees what the client does on a bad day, as
often as wanted, with any server. Without an option all passes on as it is.

WHICH is N, the Nth request of this name in the session; N-M, the Nth to the Mth; or N-, each from the Nth on. The name
is one of docs/PROTOCOL.md, such as WRITE or POSIX-RENAME; EXTENDED is any extension but those four that have a name of
their own, and ANY counts requests of all names together. For --delay, --cut-after and --stall it may be INIT, whose
reply is VERSION. CODE is a number or a name, such as FAILURE or NO_SUCH_FILE, and never OK.

A request that fails by --fail is not done: the server does not get it, and the client gets its reply behind those to
all requests before it. Of several rules of --fail for one request the first one counts. If a CLOSE fails so, the
handle stays open at the server. With --cut-after and --stall the server gets the request and may do it, as where a
connection breaks: only its reply does not come.

At the end a line says how often each rule of --fail was met, and names each rule that was not. What the client sees is
not what the server did: to record the server, put sftpv3-record behind this command, and to record what the client saw,
in front.

The exit status is the server's, and 128+N if signal N ended it or this command. It is 2 after wrong usage, 3 if the log
cannot be written or memory runs out, 126 if COMMAND cannot be run, and 127 if it does not exist.
"""
import os
import sys

from sftpv3.system.standard import begin

begin()
import argparse

from sftpv3.proxy import rules, streams
from sftpv3.proxy.packets import Faults
from sftpv3.system import ending, program
from sftpv3.system.notices import Notices
from sftpv3.system.parsers import Parser
from sftpv3.system.standard import end
from sftpv3.system.starts import NotStarted

NAME = os.path.basename(program.called("fault"))


def parser():
    about = __doc__.split("\n\n", 2)
    found = Parser(prog=program.called("fault"), usage=f"{program.called('fault')} [OPTIONS] -- COMMAND [ARGUMENT ...]",
                   description=about[0] + "\n\n" + about[2],
                   formatter_class=argparse.RawDescriptionHelpFormatter, allow_abbrev=False)
    add = found.add_argument
    add("--fail", metavar="REQUEST:WHICH:CODE", type=rules.failing, action="append", default=[],
        help="these requests fail with this code; may be given several times")
    add("--delay", metavar="[REQUEST:WHICH:]SECONDS", type=rules.delay, action="append", default=[],
        help="the replies to these requests, or else all replies, come so much later, and hold up no others; may be "
             "given several times")
    add("--cut-after", metavar="PLACE", type=rules.place,
        help="end the session: with REQUEST:N in place of the reply to this request, with a number behind so many "
             "bytes of the server's stream")
    add("--stall", metavar="PLACE", type=rules.place,
        help="from there on pass nothing in either direction, until the client ends its input")
    add("--log", metavar="FILE", help="append what is said to FILE, too")
    add("command", metavar="COMMAND", nargs="+", help="the command that starts the server, and its arguments")
    return found


def attempt(given, notices):
    try:
        if given.log:
            notices.open_log(given.log)
        return streams.play(given.command, Faults(given.fail, given.delay, given.cut_after, given.stall), notices)
    except NotStarted as error:
        notices.say(str(error))
        return error.status
    except MemoryError:
        notices.say("out of memory")
    except OSError as error:
        notices.say(program.told(error))
    return 3


def main():
    given, notices = parser().parse_args(), Notices(NAME)
    ending.end_in_order()
    try:
        return attempt(given, notices)
    except ending.Signalled as signal:
        notices.say(f"{signal}; the session is ended")
        return signal.status


def run():
    sys.exit(end(main, lambda why: program.complain("fault", why, 3)))
