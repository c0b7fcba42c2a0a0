"""Makes a page of a recorded session, or of a set of sessions that overlapped.

    clients/page [OPTIONS] SESSION|DIR

SESSION is a transcript, as `sftpv3-record`, `sftpv3 serve --record` and `sftpv3-probe` write it. Its page is a picture
in which time goes down, with a lane for each request in flight, and has figures. The page is one file of HTML that
needs nothing else. With --tree, `sftpv3 audit --explain` judges the session, and the request and the reply that it
refuses are marked. Of a session of more than 400 records, those around what is refused are shown, with those that
opened its handle or named its file; the others are counted.

DIR is a set, with NAME.transcript and NAME.times of each session, as `sftpv3-together` takes it. Its page has lanes for
each session, and a bar for each request, from the time when it was asked to its reply. With --tree, `sftpv3-together`
judges the set: each request has its number in the order that was found, or the two that contradict each other are
marked. Of a set of more than 400 requests, those around what is marked are shown, of at most 24 sessions; the others
are counted.

The exit status is 0 if the page was written, whatever the verdict is, 2 for bad usage or if SESSION, the set or the
tree file is malformed, and 3 if a file cannot be read or written or the program `sftpv3` cannot be run. If SESSION is
cut or damaged after its VERSION, the page has the records before that. SFTPV3 names the program.
"""
import os
import sys

from sftpv3.system.standard import begin

begin()
import argparse
import io
import resource
import tempfile

from sftpv3.codec import wording
from sftpv3.page import differing, document, exchanges, joint, sets
from sftpv3.probe import verdicts
from sftpv3.spool import clocks
from sftpv3.system import children, ending, inputs, program
from sftpv3.system.parsers import Parser, number_from
from sftpv3.system.standard import end
from sftpv3.system.ways import named_twice
from sftpv3.together.sets import Unfit


# The least that the memory of this process is bounded by, and more than any number that it is given.
LEAST, MOST = 1 << 28, 1 << 62


# The options and the argument that name files which are read.
READ = ("session", "tree", "times", "order")


def record(text):
    """A record, as its number, or as NAME:NUMBER in a set; the name is None of a session."""
    name, _, number = text.rpartition(":")
    return name or None, number_from(1, MOST)(number)


def parser():
    about = __doc__.split("\n\n", 2)
    found = Parser(prog=program.called("page"), usage=f"{program.called('page')} [OPTIONS] SESSION",
                   description=about[0] + "\n\n" + about[2], formatter_class=argparse.RawDescriptionHelpFormatter)
    add = found.add_argument
    add("session", metavar="SESSION",
        help="the transcript, or the folder of a set; - is standard input, as for each FILE that is read")
    add("--tree", metavar="FILE", help="the tree file that the session started from; the session is then audited")
    add("--times", metavar="FILE", help="the times of the records, as `sftpv3-record --times` writes them; a set has "
                                        "them in its folder")
    add("-o", "--out", metavar="FILE",
        help="the page (the name of SESSION and .html, in this folder; - for standard output)")
    add("--memory", metavar="BYTES", type=number_from(1, MOST), default=program.MEMORY,
        help=f"the most memory of the audit, and half of what the page may take ({program.MEMORY})")
    add("--record", metavar="N", type=record,
        help="show the records around this one, from 1; of a set NAME:N, record N of NAME.transcript")
    add("--around", metavar="N", type=number_from(0, MOST), default=exchanges.AROUND,
        help="how many records, or requests of a set, before and after are shown where not all are "
             f"({exchanges.AROUND})")
    for option in program.PROFILE_OPTIONS:
        add(option, metavar="WORD", help=f"as of `sftpv3 audit {option}`")
    for option, value in joint.OPTIONS:
        add(option, metavar=value, help="of a set, as of sftpv3-together")
    add("--order", metavar="FILE", help="the order of a set, as `sftpv3-together --write-order` writes it; no other is "
                                        "looked for")
    return found


def judged(given, records):
    """What is said of the session, and the difference: None if it is accepted."""
    with tempfile.TemporaryDirectory(prefix="sftpv3-page-", dir=program.temporary_folder()) as folder:
        auditor = verdicts.Auditor(program.program(), folder)
        auditor.options += ["--memory", str(given.memory)]
        auditor.options += program.profile_words(given)
        verdict = auditor.judge(given.tree, records)
    said = [("tree", shown(given.tree)), ("verdict", verdict.text)]
    if auditor.options[2:]:
        said.append(("options", " ".join(auditor.options[2:])))
    return said, None if verdict.accepted else of_refusal(records, verdict)


def of_refusal(records, verdict):
    request, reply = verdicts.concerned(records, verdict)
    place = request if request is not None else reply
    name = wording.kind_of(*records[place]) if place < len(records) else "the end"
    refusal = verdicts.Difference(0, None, name, verdict, records, None, request, reply)
    shown = differing.Shown("The session", records, None, request, reply)
    return differing.Difference(f"{name}: {verdict.kind} at record {verdict.record:,}", [], verdict.kind,
                                verdict.lines, refusal.expected, refusal.found, [shown])


def make(given):
    """Writes the page. Gives what is wrong with the transcript behind the records that it has, or None."""
    for name in READ:
        if getattr(given, name):
            setattr(given, name, inputs.place_of(getattr(given, name)))
    if given.tree:
        exchanges.check(given.tree)
    text, fault = (page_of_set(given), None) if sets.is_set(given.session) else page_of_session(given)
    if given.out == "-":
        program.put_file(io.BytesIO(text.encode("utf-8", "backslashreplace")))
        return fault
    document.write(given.out, text)
    if not fault:
        print(wording.line(f"wrote {given.out}"))
    return fault


def shown(name):
    """The name of a file, for the page."""
    return wording.line(inputs.shown(name))


def page_of_session(given):
    """The text of the page, and what is wrong behind the last of its records."""
    records, fault = exchanges.read(given.session, given.memory)
    name, number = given.record or (None, None)
    if name is not None:
        raise exchanges.Bad("it is one session, so --record takes a number")
    if number is not None and number > len(records):
        raise exchanges.Bad(f"it has {len(records):,} records, and no record {number:,}")
    times = times_of(given.times, len(records)) if given.times else None
    said, difference = judged(given, records) if given.tree else ([], None)
    centre = [number - 1] if number else []
    said += [("fault", fault)] if fault else []
    text = document.page_of_session(shown(given.session), records, said, difference, centre, given.around, times)
    return text, fault


def times_of(name, count):
    """The seconds of each record from the start of the session on, of a file of times."""
    exchanges.check(name)
    with open(name, "rb") as file:
        data = file.read()
    try:
        found = clocks.clock_of(data).times
    except clocks.Malformed as error:
        raise exchanges.Bad(str(error), name) from None
    if len(found) < count:
        raise exchanges.Bad(f"it has {len(found):,} times, and the session {count:,} records", name)
    return [time / 1e9 for time in found[:count]]


def page_of_set(given):
    """The text of the page of a set."""
    if sets.check(given.session) > given.memory:
        raise exchanges.TooLarge
    if given.order:
        exchanges.check(given.order)
    found = sets.Set(given.session)
    verdict, order = None, sets.read_order(given.order) if given.order else None
    words = program.profile_words(given) + joint.words(given)
    said = [("options", " ".join(words))] if words else []
    if given.tree:
        verdict, order = joint.judged(given.session, given.tree, given.order, words)
        said.insert(0, ("tree", shown(given.tree)))
    elif given.order:
        said.append(("order", f"{shown(given.order)}, which nothing judged"))
    why = found.put_order(order) if order else None
    said += [("the order", f"{why}; it is shown as far as that")] if why else []
    marks = joint.marks(found, verdict) if verdict else {}
    marks = {**around(given, found), **marks}
    return document.page_of_set(wording.line(given.session), found, verdict, said, marks, given.around)


def around(given, found):
    """The request that --record names, as one that is marked."""
    if given.record is None:
        return {}
    name, number = given.record
    if name is None:
        raise exchanges.Bad("it is a set, so --record takes NAME:N")
    row = found.row_of(name, number)
    if row is None:
        raise exchanges.Bad(f"it has no request or reply that is record {number:,} of {name}.transcript")
    return {row: ("odd", "--record")}


def bound_memory(most):
    """Has this process, and those that it starts, take no more than so many bytes. Gives the system's own limit, and by
    which command it is set, if it is lower; or None."""
    soft, hard = resource.getrlimit(resource.RLIMIT_DATA)
    space = resource.getrlimit(resource.RLIMIT_AS)[0]
    lower = [(it, name) for it, name in ((space, "ulimit -v"), (soft, "ulimit -d"))
             if it != resource.RLIM_INFINITY and it < most]
    resource.setrlimit(resource.RLIMIT_DATA, children.bounded((soft, hard), most))
    return min(lower, default=None)


def too_little(lower):
    """What is said where memory did not suffice, with a limit of the system that is lower than that of --memory."""
    if lower is None:
        return "it needs more than --memory allows"
    return f"it needs more memory than the system's limit of {lower[0]:,} bytes ({lower[1]})"


def options():
    """The command line as it was given. Wrong usage ends the program."""
    found = parser()
    given = found.parse_args()
    session = inputs.SHOWN.replace(" ", "-") if given.session == inputs.WORD else given.session
    given.out = given.out or f"{os.path.basename(os.path.normpath(session))}.html"
    names = [("SESSION", given.session), ("--tree", given.tree), ("--times", given.times), ("--order", given.order),
             ("-o", None if given.out == "-" else given.out)]
    if twice := named_twice(names, may_be_one=("SESSION", "--tree", "--times", "--order")):
        found.error(f"{twice[0]} and {twice[1]} name one file")
    is_set = sets.is_set(given.session)
    for option in ["--order", *(name for name, _ in joint.OPTIONS)] if not is_set else ["--times"]:
        if getattr(given, option[2:]) is not None:
            found.error(f"{option} is {'not ' * is_set}for a set of sessions")
    return given


def main():
    given = options()
    lower = bound_memory(max(2 * given.memory, LEAST))
    try:
        with ending.in_order():
            fault = make(given)
        if fault:
            raise exchanges.Bad(f"{fault}; the page has the records before it")
    except ending.Signalled as signal:
        return program.complain("page", signal, signal.status)
    except exchanges.Bad as error:
        return program.complain("page", f"{error.name or given.session}: {error}", 2)
    except Unfit as error:
        return program.complain("page", error, 2)
    except joint.Failed as error:
        return program.complain("page", error, error.status)
    except exchanges.TooLarge:
        return program.complain("page", f"{given.session}: {too_little(None)}", 3)
    except MemoryError:
        return program.complain("page", f"{given.session}: {too_little(lower)}", 3)
    except verdicts.Misused as error:
        return program.complain("page", program.one_line(error), 2)
    except verdicts.Trouble as error:
        return program.complain("page", program.one_line(error), error.status)
    except (program.NotBuilt, OSError) as error:
        return program.complain("page", program.told(error), 3)
    return 0


def run():
    sys.exit(end(main, lambda why: program.complain("page", why, 3), unread=0))
