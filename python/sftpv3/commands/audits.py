"""Audits many recordings, and merges the reports of several machines.

    clients/audits [OPTIONS] --tree FILE RECORDING ... [-- OPTION-OF-AUDIT ...]
    clients/audits [OPTIONS] --merge REPORT ...

A recording is a transcript, or a folder, of which all files NAME.transcript are audited, also those of folders below
it. `sftpv3 audit` judges each from the same tree, several at a time. A line for each says NAME and the verdict, or why
there is none, in the order of the names; the last line counts them. With --json each line is an object, and so is the
last. Options of `sftpv3 audit`, such as `--profile posix`, follow `--`.

With --share I/N, one of N machines audits its share of the recordings. `--merge` makes one report of those that several
runs printed with --json, and says what is missing: a run that did not end, or a share.

The exit status is the worst of
  0  all recordings are accepted
  1  one is refused
  2  one is malformed; or bad usage, a malformed tree file, or a file that is no report
  3  one could not be read or did not fit into --memory, a file could not be written, the program `sftpv3` failed, or
     something is missing in the reports
If SIGHUP, SIGINT or SIGTERM ended the run, it is 128 and the number of the signal; then there is no summary.
"""
import os
import sys

from sftpv3.system.standard import begin

begin()
import argparse

from sftpv3.audits import judging, merging, recordings, results
from sftpv3.system import ending, files, inputs, program
from sftpv3.system.progress import Progress
from sftpv3.system.parsers import Parser, count
from sftpv3.system.standard import end
from sftpv3.system.ways import named_twice

# The options of an audit that this command gives itself, or that make another verdict of it.
OWN = ("--tree", "--transcript", "--transcripts-from", "--json", "--explain", "--out", "--keep-going", "--most",
       "--progress")


def parser():
    about = __doc__.split("\n\n", 2)
    name = program.called("audits")
    found = Parser(prog=name, usage=f"{name} [OPTIONS] --tree FILE RECORDING ... [-- OPTION-OF-AUDIT ...]\n"
                   f"       {name} [OPTIONS] --merge REPORT ...", description=about[0] + "\n\n" + about[2],
                   formatter_class=argparse.RawDescriptionHelpFormatter)
    add = found.add_argument
    add("--tree", metavar="FILE", help="the tree file that all sessions started from")
    add("--transcripts-from", metavar="LIST", action="append", default=[],
        help="a file with the name of a recording in each line; - is standard input")
    add("--jobs", metavar="N", type=count, default=len(os.sched_getaffinity(0)),
        help="how many recordings are audited at a time (one for each processor)")
    add("--share", metavar="I/N", type=recordings.share,
        help="audit only the Ith of N shares of the recordings, as one of N machines")
    add("--progress", action="store_true",
        help="say how far the run is, also where standard error is no terminal")
    add("--json", action="store_true", help="print a line of JSON for each recording, and one that counts them")
    add("--junit", metavar="FILE", help="write a report in the form of JUnit, too")
    add("--merge", action="store_true", help="read reports of --json, and print one of all of them")
    add("names", metavar="RECORDING", nargs="*", help="a transcript, or a folder of transcripts; with --merge a report")
    return found


def options():
    """The command line as it was given. Wrong usage ends the program."""
    words = sys.argv[1:]
    place = words.index("--") if "--" in words else len(words)
    found = parser()
    given = found.parse_args(words[:place])
    given.options = words[place + 1:]
    if given.junit == "-":
        found.error("--junit: standard output has the verdicts, so - is no name for a report")
    if given.merge and (given.tree or given.transcripts_from or given.share or given.options):
        found.error("--merge reads reports: it takes no tree, no recordings, and no options of an audit")
    if not given.merge and not given.tree:
        found.error("the following arguments are required: --tree")
    own = [word for word in given.options if word.split("=")[0] in OWN]
    if own:
        found.error(f"behind --: {own[0]} is no option that can be given here")
    read = [("a report" if given.merge else "a recording", name) for name in given.names]
    twice = named_twice([("--junit", given.junit), ("--tree", given.tree)]) or next(
        (pair for pair in (named_twice([("--junit", given.junit), one]) for one in read) if pair), None)
    if given.junit and twice:
        found.error(f"{twice[0]} and {twice[1]} name one file")
    return given


# After how many seconds a run says how far it is.
SILENT = 2


class Report:
    """What is printed of results as they come, and what is written at the end."""

    def __init__(self, given, count):
        self.given, self.kept, self.summary, self.count = given, [], results.Summary(), count
        # lines on a terminal say themselves how far the run is
        is_seen = sys.stderr.isatty() and not sys.stdout.isatty()
        self.progress = Progress("audits", silent=SILENT) if given.progress or is_seen else None

    def add(self, result):
        self.summary.add(result)
        say(result.as_json() if self.given.json else result.line())
        if self.given.junit:
            self.kept.append(result)
        if self.progress:
            self.progress.say(f"{self.summary.count():,} of {self.count:,} recordings, {self.summary.others():,} of "
                              "them not accepted")

    def end(self):
        """Prints the summary, and writes the report. The status is the worst."""
        if self.progress:
            self.progress.clear()
        say(self.summary.as_json(self.given.share) if self.given.json else self.summary.text())
        if self.given.junit:
            files.write_text(self.given.junit, results.junit(self.kept, self.summary))
        return self.summary.status()


class Unsaid(Exception):
    """Standard output did not take what was printed, which the end of the script says."""


def say(text):
    try:
        program.say(text)
    except OSError:
        raise Unsaid from None


def audit(given):
    names = recordings.named(given.names, given.transcripts_from)
    if given.share:
        names = given.share.of(names)
    report = Report(given, len(names))
    if not names:
        # there are fewer recordings than shares
        report.end()
        return results.ACCEPTED
    for result in judging.each(judging.Judge(given.tree, given.options), names, given.jobs):
        report.add(result)
    return report.end()


def merge(given):
    merged = merging.Merged()
    for name in map(inputs.place_of, given.names):
        with open(name, "rb") as file:
            merged.read(name, file.read())
    report = Report(given, len(merged.results))
    for name in sorted(merged.results):
        report.add(merged.results[name])
    report.end()
    for fault in merged.faults():
        tell(fault)
    return merged.status()


def tell(why):
    program.complain("audits", why, 3)


def main():
    given = options()
    try:
        with ending.in_order():
            return merge(given) if given.merge else audit(given)
    except ending.Signalled as signal:
        return program.complain("audits", f"{signal}; the other recordings were not audited", signal.status)
    except Unsaid:
        return 3
    except (recordings.Unfit, merging.Bad) as error:
        return program.complain("audits", error, 2)
    except judging.Failed as error:
        return program.complain("audits", error, error.status)
    except (program.NotBuilt, OSError) as error:
        return program.complain("audits", program.told(error), 3)


def run():
    sys.exit(end(main, tell))
