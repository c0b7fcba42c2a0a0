"""What a run knows of runs before: the kinds of difference that are expected, and the seeds that differed last."""
import argparse
import json
import os

from sftpv3.codec import wording
from sftpv3.probe import options
from sftpv3.system import files

# The file below the folder of --keep that names the seeds which differed in the last run there.
LAST_FAILED = "seeds-that-differed.txt"

# What tells a kind, in a line of a report.
FIELDS = ("request", "causes", "expected", "found")


def key_in(line):
    """The kind that a line of a report tells, or None if it is of a seed or of what was looked at. Raises ValueError if
    it is neither."""
    told = json.loads(line)
    if not isinstance(told, dict):
        raise ValueError(line)
    if told.keys() & {"seed", "check", "reached"}:
        return None
    values = [told.get(name) for name in FIELDS]
    if not isinstance(values[1], list) or not all(isinstance(it, str) for it in (*values[1], *values[:1], *values[2:])):
        raise ValueError(line)
    return values[0], tuple(values[1]), values[2], values[3]


def kinds_in(name):
    """The kinds of a report in JSON lines, each with how often it came in this run. Raises Wrong."""
    found = {}
    for number, line in enumerate(options.read("--known", name, bytes.splitlines), 1):
        try:
            key = key_in(line.decode())
        except ValueError:
            raise options.Wrong(f"--known: {wording.line(name)}: line {number} is none of a report in JSON lines") \
                from None
        if key:
            found[key] = 0
    return found


def lines(kinds):
    """The lines of a report on these kinds, so that the next run knows them."""
    for (request, causes, expected, found), count in kinds.items():
        yield {"known": True, "request": request, "causes": list(causes), "expected": expected, "found": found,
               "count": count}


def summary(kinds):
    """What the last line of a run says of them."""
    came = [count for count in kinds.values() if count]
    return f"; {len(came)} of {len(kinds)} known kinds came, {sum(came)} times" if kinds else ""


def last_failed(given):
    """The seeds that differed in the last run that kept something in this folder; those that were asked for if none
    did. Raises Wrong if there was no such run."""
    name = os.path.join(given.keep, LAST_FAILED)
    if not os.path.exists(name):
        raise options.Wrong(f"--last-failed: there is no {name}, which a run with differences leaves")
    text = options.read("--last-failed", name, bytes.decode).strip()
    try:
        return options.seeds(text) if text else given.seeds
    except ValueError:
        raise options.Wrong(f"--last-failed: {wording.line(name)} has no seeds") from None
    except argparse.ArgumentTypeError as error:
        raise options.Wrong(f"--last-failed: {wording.line(name)}: {error}") from None


def keep_failed(given, seeds):
    """Notes the seeds that differed, if some did now or in the run before."""
    if given.session or not seeds and not os.path.exists(os.path.join(given.keep, LAST_FAILED)):
        return
    text = ",".join(map(str, sorted(seeds)))
    files.write_text(os.path.join(files.held(given.keep), LAST_FAILED), text + "\n")
