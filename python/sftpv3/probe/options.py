"""The command line of the probe, and its exit statuses."""
import argparse
import itertools
import os
import re
import stat
import textwrap

from sftpv3 import codec
from sftpv3.codec import kinds, wording
from sftpv3.page import exchanges
from sftpv3.peer import servers
from sftpv3.peer.options import count, flying, pause, positive, seconds
from sftpv3.probe import bytext, features, lacking, plans, readonly, refusals, shrinking
from sftpv3.probe.workloads import WORKLOADS
from sftpv3.system import files, inputs, program
from sftpv3.system.parsers import Parser, names_among
from sftpv3.system.ways import Way, from_root, is_inherited, named_twice, names, text_of

# The exit statuses: all sessions were accepted; there are differences; the command line is wrong, or plans nothing; the
# server, the command of --reset or the program could not be started; no difference was found, and not all was played.
ACCEPTED, DIFFERENCES, BAD_USAGE, NOT_STARTED, NOT_FINISHED = range(5)

# By default, sessions of odd seeds have this many requests in flight, those of even seeds that many, and those of each
# tenth seed as many as OpenSSH's sftp.
ONE, MANY, MOST = 1, 16, 64

# By default, one of so many sessions has a fourth of its requests sent in pieces.
PIECES = 5

# The most servers side by side: each has a folder and a thread of its own from the start.
MOST_JOBS = 1000

# How many clients may play at once, and the requests of small scenes in a session without them.
MOST_CLIENTS, REQUESTS = 8, 60


# What the files of these options have to be.
READ = {"--tree": kinds.TREE, "--session": kinds.TRANSCRIPT}


class Wrong(Exception):
    """A file or folder of the command line cannot be used."""


SKIPPED = refusals.CAUSES | set(codec.REQUESTS) | set(features.FEATURES)


class Seeds:
    """Seeds, which may be more than there is memory for."""

    def __init__(self, ranges):
        self.ranges = ranges

    def __len__(self):
        return sum(map(len, self.ranges))

    def __iter__(self):
        return itertools.chain.from_iterable(self.ranges)


# Seeds on the command line: one, or the first and the last of several.
SEEDS = re.compile(r"([0-9]{1,15})(?:-([0-9]{1,15}))?")


def seeds(text):
    """The numbers of `A-B`, of `A`, or of several of these with commas between: at least one of each."""
    parts = [SEEDS.fullmatch(part) for part in text.split(",")]
    if not all(parts):
        raise argparse.ArgumentTypeError(f"{text!r} is no seed, such as 6, no range of them, such as 1-50, and no "
                                         "list of these with commas between")
    found = Seeds([range(int(part[1]), int(part[2] or part[1]) + 1) for part in parts])
    if not all(found.ranges):
        raise argparse.ArgumentTypeError(f"there is no seed in {text}")
    return found


# The seeds that are played unless others are named.
USUAL_SEEDS = seeds("1-50")


def side_by_side(text):
    number = positive(text)
    if number > MOST_JOBS:
        raise argparse.ArgumentTypeError(f"at most {MOST_JOBS:,} servers may run side by side")
    return number


# A limit of a server on the command line.
LIMIT = re.compile("(packet|handles)=([1-9][0-9]{0,8})")


def at_once(text):
    number = positive(text)
    if not 2 <= number <= MOST_CLIENTS:
        raise argparse.ArgumentTypeError(f"from 2 to {MOST_CLIENTS} clients may play at once")
    return number


def room(text):
    """What a server has room for that says `packet=34000,handles=20`, or one of both."""
    parts = [LIMIT.fullmatch(part) for part in text.split(",")]
    if not all(parts):
        raise argparse.ArgumentTypeError(f"{text!r} is no limit, such as packet=34000 or handles=20, and no list of "
                                         "these with a comma between")
    found = {part[1]: int(part[2]) for part in parts}
    longest = found.get("packet", plans.EACH_TAKES)
    if longest < plans.EACH_TAKES:
        raise argparse.ArgumentTypeError(f"the draft (section 3) asks each server to take packets of "
                                         f"{plans.EACH_TAKES:,} bytes")
    return plans.Room(write="packet" in found and longest - plans.AROUND, handles=found.get("handles", 0))


def processors():
    """How many processors this process may use."""
    return len(os.sched_getaffinity(0)) if hasattr(os, "sched_getaffinity") else os.cpu_count() or 1


def jobs(given):
    """How many servers run side by side: one for each processor, if each starts from a tree file or in a folder of its
    own, which --reset then fills."""
    if given.jobs:
        return given.jobs
    has_folder = any("{folder}" in word for word in given.command)
    alone = not (has_folder and "{folder}" in given.reset if given.reset else has_folder or
                 any("{tree}" in word for word in given.command))
    return 1 if alone else max(1, processors() // given.clients) if given.clients else processors()


def keeps_files(given):
    """Whether a server that is started again has the files that the session before left."""
    if given.look_first is not None or any("{folder}" in word for word in given.command):
        return True
    return given.reset is not None and not any("{tree}" in word for word in given.command)


def in_flight(given, number):
    """The most requests in flight in the session of a seed, or in this one of those that play a recorded session."""
    if features.TOGETHER in given.also:
        return ONE
    if given.in_flight:
        return given.in_flight
    if given.session:
        return ONE if number == 1 else MANY
    return ONE if number % 2 == 1 else MOST if number % 10 == 0 else MANY


def cut(given, number):
    """The number that says which requests of this session go in pieces, or None if they all go whole."""
    return number if given.pieces and number % given.pieces == given.pieces - 1 else None


def times(given):
    """How many times a recorded session is played: often, if replies may race."""
    return 1 if given.in_flight == 1 else shrinking.TRIES + 1


def parser(about):
    causes = ", ".join(sorted(refusals.CAUSES))
    names = f"names of requests, as in docs/FORMATS.md, of causes ({causes}), and of features:"
    known = [f"  {name:<15} {text}" for name, text in features.FEATURES.items()]
    found = Parser(
        prog=program.called("probe"), usage=f"{program.called('probe')} [OPTIONS] -- COMMAND [ARGUMENT ...]",
        formatter_class=argparse.RawDescriptionHelpFormatter, description=about,
        epilog="\n".join(textwrap.wrap("--skip takes " + names, 120) + known))
    add_of_plans(found.add_argument)
    add_of_run(found.add_argument)
    for option in program.PROFILE_OPTIONS:
        found.add_argument(option, metavar="WORD", help=f"as of `sftpv3 audit {option}`")
    found.add_argument("command", nargs="+", help=argparse.SUPPRESS)
    return found


def add_of_plans(add):
    add("--tree", metavar="FILE", help="the tree file to start from (else one of the probe's own)")
    add("--seeds", metavar="A-B,...", type=seeds, default=USUAL_SEEDS,
        help="the seeds to play: ranges, and single ones (1-50)")
    add("--requests", metavar="N", type=positive,
        help=f"requests of small scenes in a session ({REQUESTS}), or with --clients of each client (150)")
    add("--in-flight", metavar="K", type=flying,
        help=f"the most requests without a reply ({ONE} for odd seeds, {MANY} for even ones, {MOST} for each tenth)")
    add("--pieces", metavar="N", type=count, default=PIECES,
        help=f"send a fourth of the requests in pieces in each N-th session ({PIECES}); 0: in none")
    add("--skip", metavar="NAME,...", type=names_among(SKIPPED), default=[], help="what to leave out of the plans")
    add("--also", metavar="NAME,...", type=names_among(features.ALSO), default=[],
        help="what else to plan: large, long-target, for which a server may have room, and the tree not; and "
             "two-clients, which play each session together, one request at a time")
    add("--without", metavar="NAME,...", type=names_among(lacking.NAMES), default=[],
        help="what the server does not have: owners, permissions, access-times; none are set, and those that it shows "
             "not judged; listed-attributes, without which nothing is listed; and changes: nobody can change its files")
    add("--paths", metavar="HOW", choices=[bytext.TEXT],
        help="how the server resolves paths: text, so that `..` takes away the name before it, whatever is there")
    add("--limits", metavar="NAME=N,...", type=room, default=plans.Room(),
        help="what the server has room for, if it does not tell that itself (limits@openssh.com): packet=N, the bytes "
             f"of the longest packet that it takes, from {plans.EACH_TAKES} on, and handles=N, how many are open at a "
             "time")
    add("--session", metavar="FILE", help="play the requests of this transcript, not those of seeds")
    add("--start-again", metavar="N", type=positive,
        help="start the server again on the same files before the N-th request of --session")
    add("--clients", metavar="N", type=at_once,
        help=f"have so many clients (2 to {MOST_CLIENTS}) do the same things at once in one folder of the server, and "
             "judge their sessions together, as sftpv3-together does")
    add("--workloads", metavar="NAME,...", type=names_among(set(WORKLOADS)), default=[],
        help=f"what they do: {', '.join(sorted(WORKLOADS))} (all, in turn)")
    add("--look-first", metavar="PLACE", type=os.fsencode,
        help="play each session in a directory that it makes below this place and removes in the end, and judge it "
             "by the tree that was seen there")


def add_of_run(add):
    add("--reset", metavar="COMMAND", help="a shell command to run before each session")
    add("--jobs", metavar="N", type=side_by_side,
        help="servers side by side (as many as processors; 1 where sessions may share files: without {tree} or "
             "{folder} in the command, or with --reset and without {folder} in both)")
    add("--timeout", metavar="S", type=seconds, default=servers.TIMEOUT,
        help=f"seconds to wait for a reply ({servers.TIMEOUT}), and {servers.OPENING} times as long for VERSION")
    add("--patience", metavar="S", type=seconds, help="seconds after which no more is played (no limit)")
    add("--budget", metavar="S", type=pause, default=shrinking.BUDGET,
        help=f"seconds to shrink all differences, and as many to compare them with models of faults "
             f"({shrinking.BUDGET}); 0: neither")
    add("--first", action="store_true", help="play no more seeds once there is a difference")
    add("--max-kinds", metavar="N", type=positive, help="play no more seeds once there are N kinds of difference")
    add("--quick", action="store_true",
        help="a first run, of at most a minute: plain requests alone, each kind of difference shrunk and shown at once")
    add("--checks", action="store_true",
        help="list the scenes of the plans: how often each ran and how it went, or what left it out; in a report, too")
    add("--known", metavar="FILE",
        help="a report in JSON lines: its kinds of difference are expected, and only counted")
    add("--last-failed", action="store_true", help="play the seeds that differed in the last run with this --keep")
    add("--keep", metavar="FOLDER", default="probe-kept",
        help="where to keep shrunk sessions; while another run keeps some there, FOLDER.2, ... (probe-kept)")
    add("--report", metavar="FILE",
        help="write a report: a page if the name ends in .html, JUnit if in .xml, else JSON lines")


def read(option, name, reader):
    """What a file has that an option names. Of a pipe, that is so only if the process was given it open: nobody may
    write the others."""
    try:
        name = inputs.place_of(name)
        if not is_inherited(name):
            exchanges.check(name)
        with open(name, "rb") as file:
            data = file.read()
    except OSError as error:
        raise Wrong(f"{option}: {program.told(error)}") from error
    except exchanges.Bad as error:
        raise Wrong(f"{option}: {wording.line(inputs.shown(name))}: {error}") from error
    try:
        return reader(data)
    except codec.Malformed as error:
        why = kinds.named(data, READ[option]) or error
        raise Wrong(f"{option}: {wording.line(inputs.shown(name))}: {why}") from error


def is_writable_at(path, is_made):
    """Whether this user can write to the folder of a path; with `is_made`, to the last one that is there."""
    with Way() as way:
        for name in names(os.path.dirname(path)):
            place = (*way.place, name)
            try:
                way.go_through((name,))
            except FileNotFoundError as error:
                if not is_made or error.filename != text_of(place):
                    raise
                break
        held = way.held[-1]
        return stat.S_ISDIR(os.fstat(held).st_mode) and os.access(f"/proc/self/fd/{held}", os.W_OK)


def can_write(option, name):
    """Refuses what could not be written after all has been played."""
    try:
        is_fit = is_writable_at(from_root(os.fsencode(name.rstrip("/"))), option == "--keep")
    except (FileNotFoundError, NotADirectoryError):
        is_fit = False
    except OSError as error:
        raise Wrong(f"{option}: {name!r}: {error.strerror}") from None
    if not is_fit:
        raise Wrong(f"{option}: {name!r} cannot be written")
    if option == "--keep" and files.is_foreign(name):
        raise Wrong(f"{option}: {name!r} is no folder of this user that no other can write to")


def check_clients(found, given):
    """Refuses what --clients has no use for."""
    for option, value in (("--look-first", given.look_first), ("--session", given.session), ("--also", given.also),
                          ("--in-flight", given.in_flight), ("--quick", given.quick), ("--known", given.known),
                          ("--last-failed", given.last_failed), ("--max-kinds", given.max_kinds),
                          ("--checks", given.checks), ("--paths", given.paths)):
        if value:
            found.error(f"--clients excludes {option}")
    if given.report and given.report.endswith((".html", ".htm")):
        found.error("--clients makes no page: the report is JUnit if its name ends in .xml, else JSON lines")


def check_changes(found, given):
    """Refuses what needs a server whose files can be changed."""
    for option, value in (("--look-first", given.look_first), ("--clients", given.clients)):
        if value:
            found.error(f"{option} makes files on the server: it excludes --without {lacking.CHANGES}")


def options(about):
    """The command line as it was given. Wrong usage ends the program."""
    found = parser(about)
    given = found.parse_args()
    words = [word for word in ("{tree}", "{folder}") if any(word in one for one in given.command)]
    if given.look_first is not None and (given.reset or words):
        found.error("--look-first is for servers that start from files of their own: it excludes --reset, {tree} and "
                    "{folder}")
    if given.start_again and not given.session:
        found.error("--start-again names a request of --session")
    if given.clients:
        check_clients(found, given)
    if lacking.CHANGES in given.without:
        check_changes(found, given)
        given.skip = [*given.skip, *readonly.LEFT_OUT]
    wanted = (("--clients", given.clients), ("--start-again", given.start_again),
              ("two-clients", features.TOGETHER in given.also))
    option = next((name for name, is_given in wanted if is_given), None)
    if option and not keeps_files(given):
        found.error(f"{option} needs a server that has the same files when it is started once more: put {{folder}} "
                    "where it takes a folder, or give --reset or --look-first")
    if given.report == "-":
        found.error("--report: standard output has what the run prints, so - is no name for a report")
    for option in ("--quick", "--last-failed"):
        if given.session and getattr(given, option[2:].replace("-", "_")):
            found.error(f"--session excludes {option}")
    names = [("--tree", given.tree), ("--session", given.session), ("--report", given.report), ("--known", given.known)]
    if twice := named_twice(names, may_be_one=("--tree", "--session")):
        found.error(f"{twice[0]} and {twice[1]} name one file")
    return given
