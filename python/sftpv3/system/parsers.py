"""What all commands do with wrong words on their command line, and values of their options."""
import argparse
import os
import sys
from contextlib import suppress

from sftpv3.system.notices import printable
from sftpv3.system.standard import left_unsaid, print_or_end


# The version of all scripts, which is that of the program.
VERSION = "0.2.0"


class Version(argparse.Action):
    """Prints which version of a command this is."""

    def __init__(self, option_strings, dest):
        super().__init__(option_strings, argparse.SUPPRESS, nargs=0, help="print the version, and do nothing else")

    def __call__(self, parser, *_):
        name = os.path.basename(parser.prog)
        print_or_end(f"sftpv3-{name.removeprefix('sftpv3-')} {VERSION}\n", name)
        parser.exit(0)


class Parser(argparse.ArgumentParser):
    """A parser that knows --help and --version. Its complaints show what it was given as one line that does nothing to
    a terminal, and of an option that there is not, which one may be meant. If standard error fails, the status is the
    same; if the help cannot be printed, it is 3."""

    def __init__(self, **given):
        super().__init__(**given)
        self.add_argument("--version", action=Version)

    def parse_args(self, args=None, namespace=None):
        given, rest = self.parse_known_args(args, namespace)
        if rest:
            unknown = next((word for word in rest if word.startswith("-")), None)
            name, options = str(unknown).split("=")[0], list(self._option_string_actions)
            self.error(f"unrecognized arguments: {' '.join(rest)}" if unknown is None else
                       f"there is no option {name}{meant(name, options)}")
        return given

    def print_help(self, file=None):
        print_or_end(self.format_help(), os.path.basename(self.prog))

    def error(self, message):
        try:
            with suppress(OSError):
                super().error(printable(message))
        finally:
            left_unsaid(sys.stderr)
        self.exit(2)


def meant(word, known):
    """Asks at the end of a message whether the most similar of the words was meant, if one is similar."""
    # only wrong words need this module
    from difflib import get_close_matches
    found = get_close_matches(word, known, 1)
    return f"; did you mean {found[0]}?" if found else ""


def one_of(*known):
    """Reads one of these words."""
    def word(text):
        if text not in known:
            raise argparse.ArgumentTypeError(f"{text!r} is none of {', '.join(known)}{meant(text, known)}")
        return text
    # what completions offer
    word.known = known
    return word


def names_among(known):
    """Reads a list of names, with commas between, which have to be among these."""
    def names(text):
        found = [name for name in text.split(",") if name]
        unknown = [f"there is no {name}{meant(name, sorted(known))}" for name in found if name not in known]
        if unknown:
            raise argparse.ArgumentTypeError(f"{' '.join(unknown)} (--help lists what there is)")
        return found
    names.known = sorted(known)
    return names


def number_from(least, most=None, kind=int):
    """Reads numbers from `least` on, and below `most`, if there is one: whole ones, unless `kind` reads others."""
    noun = "whole number" if kind is int else "number"

    def number(text):
        try:
            found = kind(text)
        except ValueError:
            found = None
        if found is None or not found >= least:
            raise argparse.ArgumentTypeError(f"{text!r} is no {noun} from {least:,} on")
        if most is not None and not found < most:
            raise argparse.ArgumentTypeError(f"{text!r} is not below {most:,}")
        return found
    return number


def octal(text):
    """Permissions in octal digits, of a user, a group and others."""
    try:
        found = int(text, 8)
    except ValueError:
        found = -1
    if not 0 <= found <= 0o777:
        raise argparse.ArgumentTypeError(f"{text!r} is no number in octal digits up to 777")
    return found


def size(text):
    units = {"K": 10, "M": 20, "G": 30, "T": 40}
    number = text[:-1] if text[-1:] in units else text
    if not (number.isascii() and number.isdigit()):
        raise argparse.ArgumentTypeError(f"{text!r} is no size")
    return int(number) << units.get(text[-1:], 0)


def count(text):
    if not (text.isascii() and text.isdigit() and int(text)):
        raise argparse.ArgumentTypeError(f"{text!r} is no number from 1 on")
    return int(text)


def seconds(text):
    try:
        found = float(text)
    except ValueError:
        found = -1
    if not 0 <= found < 1e6:
        raise argparse.ArgumentTypeError(f"{text!r} is no number of seconds")
    return found
