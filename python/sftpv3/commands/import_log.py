"""Makes text of a session from the log of OpenSSH's sftp-server, as far as the log tells it.

    clients/import-log [OPTIONS] LOG

LOG is what `sftp-server -l DEBUG3` wrote to syslog, or by `-e` to standard error; - is standard input. The text goes to
standard output, and `sftpv3 make` takes it. What the log does not say is named in a line `# not in the log: ...` before
the record, in which `?` or 0 stands for it: the bytes of files, the names in listings, the values of attributes, the
extensions of VERSION, and requests whose ids are not logged.

This is no record, and no evidence: a log has what a server said that it did, not what it sent. An audit of such a text
judges what is not known, too, and so refuses it as a rule. To audit sessions, record them (sftpv3-record).

The exit status is
  0  the text was printed
  2  bad usage; or the log has no session of sftp-server, or several, and --session does not choose one
  3  the log cannot be read, or the text cannot be printed
"""
import os
import sys

from sftpv3.system.standard import begin

begin()
import argparse

from sftpv3.codec import kinds, wording
from sftpv3.logs import messages, telling
from sftpv3.system import files, inputs, program
from sftpv3.system.parsers import Parser, count
from sftpv3.system.standard import end

HEAD = """# From a log of OpenSSH's sftp-server ({name}), by sftpv3-import-log. This is no record: a log has what
# a server said that it did, and not what it sent. Where a line says what is not in the log, ? or 0 stands for it.
"""


# What the file has to be.
LOG = "a log of sftp-server"


class Bad(Exception):
    """Why there is no text."""


def parser():
    about = __doc__.split("\n\n", 2)
    found = Parser(prog=program.called("import-log"), description=about[0] + "\n\n" + about[2],
                   formatter_class=argparse.RawDescriptionHelpFormatter)
    add = found.add_argument
    add("log", metavar="LOG", help="the log; - is standard input")
    add("--session", metavar="N", type=count, help="the session, where the log has several: 1 is the first")
    add("--process", metavar="PID", type=count, help="only sessions of this process")
    add("--list", action="store_true", help="list the sessions that the log has")
    add("--out", metavar="FILE", help="the file to write (standard output)")
    return found


def bytes_of(name):
    if name == inputs.WORD:
        return sys.stdin.buffer.read()
    with open(name, "rb") as file:
        return file.read()


def chosen(given, found, data):
    """The session that is asked for, of those that are found in a log of these bytes."""
    if not found:
        raise Bad(data and kinds.named(data, LOG) or "it has no session of sftp-server at the level DEBUG3")
    if given.session is None and len(found) > 1:
        raise Bad(f"it has {len(found):,} sessions: choose one by --session N, as --list has them")
    if given.session is not None and given.session > len(found):
        raise Bad(f"it has {len(found):,} session{'s' * (len(found) != 1)}, and no session {given.session}")
    return found[(given.session or 1) - 1]


def text_of(session):
    """The text, and how many requests and incomplete records it has."""
    teller, found = telling.Teller(), [HEAD.format(name=wording.line(session.name()))]
    for record in teller.records(session.said):
        found += [f"# not in the log: {why}\n" for why in record.unknown]
        found += [record.text + "\n"] if record.text else []
    return "".join(found), teller


def make(given):
    data = bytes_of(given.log)
    found = messages.sessions(data.splitlines())
    if given.process is not None:
        found = [it for it in found if it.process == str(given.process).encode()]
    if given.list:
        for number, session in enumerate(found, 1):
            program.say(f"{number}: {session.name()}")
        return
    text, teller = text_of(chosen(given, found, data))
    if given.out:
        files.write_text(given.out, text)
    else:
        program.put(lambda: print(text, end="", flush=True))
    program.tell(f"{os.path.basename(program.called('import-log'))}: {teller.requests:,} requests; in "
                 f"{teller.incomplete:,} places the log does not say all")


def main():
    given = parser().parse_args()
    try:
        make(given)
    except Bad as error:
        name = inputs.SHOWN if given.log == inputs.WORD else wording.line(given.log)
        return program.complain("import-log", f"{name}: {error}", 2)
    except OSError as error:
        return program.complain("import-log", program.told(error), 3)
    return 0


def run():
    sys.exit(end(main, lambda why: program.complain("import-log", why, 3), unread=0))
