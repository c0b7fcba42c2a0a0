"""The command line."""
from __future__ import annotations

import argparse
import os
import sys

from sftpv3.together import profiles
from sftpv3.together.deeds import Parts
from sftpv3.together.outside import Parser, called, meant, octal, one_of, shown, trees

# The exit statuses.
ACCEPTED, REFUSED, USAGE, FAILED, UNDECIDED = range(5)

# How many steps the search may take, and as many more for each request.
STEPS, STEPS_EACH = 1_000_000, 50

# Microseconds by which times of files without a boot may be wrong; a reading of two clocks lies between.
TOLERANCE_OF_DATES = 20

# How many changes of others an order may have.
MOST_OTHERS = 3

PARTS = ("names", "fields")
MOST_PIECE = 2**32 - 1


def tell(text: object) -> None:
    """Says a line to standard error."""
    print(f"{os.path.basename(called('together'))}: {shown(str(text))}", file=sys.stderr, flush=True)


def number(text: str) -> int:
    if not (text.isascii() and text.isdigit()):
        raise argparse.ArgumentTypeError(f"{text!r} is no number")
    return int(text)


def piece(text: str) -> int:
    found = number(text)
    if not 1 <= found <= MOST_PIECE:
        raise argparse.ArgumentTypeError(f"{text} is not from 1 to {MOST_PIECE}")
    return found


def parser(about: str) -> argparse.ArgumentParser:
    found = Parser(prog=called("together"), usage=f"{called('together')} [OPTIONS] DIR --tree FILE",
                   formatter_class=argparse.RawDescriptionHelpFormatter, description=about)
    add = found.add_argument
    add("folder", metavar="DIR", help="the folder with NAME.transcript and NAME.times of each session")
    add("--tree", metavar="FILE", required=True, help="the tree from which the sessions started")
    add("--profile", metavar="NAME", type=one_of(*sorted(profiles.PROFILES)),
        help=f"as of `sftpv3 audit --profile`: {' or '.join(sorted(profiles.PROFILES))} (none: strict)")
    add("--allow", metavar="NAME,...", action="append", default=[], help="departures to accept, too")
    add("--except", dest="but", metavar="NAME,...", action="append", default=[], help="departures not to accept")
    add("--umask", metavar="OCTAL", type=octal, default=profiles.UMASK, help="the umask of the server (022)")
    add("--new-owner", metavar="WHOSE", type=one_of(*profiles.OWNERS),
        help=f"whose the things are that sessions make: {' or '.join(profiles.OWNERS)}")
    add("--symlink", metavar="draft", type=one_of("draft"),
        help="the server takes the paths of SYMLINK in the order of the draft")
    add_more(add)
    return found


def add_more(add) -> None:
    """The options of the search, and of what it writes."""
    add("--parts", metavar="NAME,...",
        help="which requests may be done in parts: `names` (a READDIR name by name), `fields` (a SETSTAT field by "
             "field), or `none` (both with a profile, none without one)")
    add("--torn", metavar="BYTES", type=piece,
        help="a READ may be done in pieces that end at multiples of so many bytes, as 4096 or 1")
    add("--tolerance", metavar="US", type=number,
        help="microseconds by which times of two sessions may be wrong (0 if the files of times are of one boot, else "
             f"{TOLERANCE_OF_DATES})")
    add("--steps", metavar="N", type=number,
        help=f"the most steps of the search ({STEPS:,}, and {STEPS_EACH} for each request)")
    add("--order", metavar="FILE", help="judge this order; no search is made")
    add("--write-order", metavar="FILE", help="write the order that was found")
    add("--write-transcript", metavar="FILE", help="write the transcript of the order, which `sftpv3 audit` judges")
    add("--json", action="store_true", help="print the verdict as one line of JSON")
    add_others(add)


def add_others(add) -> None:
    """The options for changes that no session shows."""
    add("--others", metavar="PATH", action="append", default=[], type=os.fsencode,
        help="somebody whom no session shows may have changed what is at this path or below it, where a reply tells of "
             "it (repeatable); each such change is printed, and may hide an update that the server lost")
    add("--most-others", metavar="K", type=number, default=MOST_OTHERS,
        help=f"the most changes of others ({MOST_OTHERS})")
    add("--write-others", metavar="FILE",
        help="write these changes as a session, FILE.transcript and FILE.times; in DIR, it makes the set an ordinary "
             "one")


def options(about: str) -> argparse.Namespace:
    """The command line as it was given. Wrong usage ends the program."""
    found = parser(about)
    given = found.parse_args()
    try:
        given.by = profiles.profile_of(given)
    except ValueError as error:
        found.error(f"{error} is no departure{meant(str(error), profiles.ALL + profiles.OF_USERS)}")
    given.parts = parts(found, given)
    if given.order and given.write_order:
        found.error("--order and --write-order exclude each other")
    if given.order and given.others:
        found.error("--order and --others exclude each other: put what --write-others wrote into DIR")
    if given.write_others and not given.others:
        found.error("--write-others needs --others")
    for path in given.others:
        if not trees.is_good_path(path) or path[:1] != b"/" or b".." in path.split(b"/"):
            found.error(f"--others: {os.fsdecode(path)!r} is no absolute path of the tree")
    return given


def parts(found: argparse.ArgumentParser, given: argparse.Namespace) -> Parts:
    if given.parts is None:
        words = list(PARTS) if given.profile else []
    else:
        words = [] if given.parts == "none" else given.parts.split(",")
    for word in words:
        if word not in PARTS:
            found.error(f"{word!r} is no part of --parts")
    return Parts("names" in words, "fields" in words, given.torn or 0)
