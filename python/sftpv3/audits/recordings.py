"""Which recordings are named: by files, by folders, by lists; and the share of one machine of several."""
from __future__ import annotations

import argparse
import os
import re
import stat
import sys
from collections.abc import Iterable

from sftpv3.codec import wording

# What the names of transcripts in folders end with; what a recorder puts behind it makes them differ.
TRANSCRIPT = re.compile(r".*\.transcript(\.[0-9a-f]+)?", re.DOTALL)


class Unfit(Exception):
    """Nothing is named that can be audited."""


class Share:
    """The recordings of one machine: of each `count` the one with this number, from 1 on."""

    def __init__(self, number: int, count: int):
        self.number, self.count = number, count

    def __str__(self) -> str:
        return f"{self.number}/{self.count}"

    def of(self, names: list[str]) -> list[str]:
        return names[self.number - 1::self.count]


def share(text: str) -> Share:
    found = re.fullmatch(r"([0-9]{1,9})/([0-9]{1,9})", text)
    if not found or not 1 <= int(found[1]) <= int(found[2]):
        raise argparse.ArgumentTypeError(f"{text!r} is no share, such as 1/4, 2/4, 3/4 and 4/4")
    return Share(int(found[1]), int(found[2]))


def waits(name: str) -> bool:
    """Whether an audit of this file would wait for who writes into it: a pipe, a socket or a device."""
    try:
        mode = os.stat(name).st_mode
    except OSError:
        # the audit says why
        return False
    return not (stat.S_ISREG(mode) or stat.S_ISDIR(mode))


def below(folder: str) -> list[str]:
    """The transcripts in a folder and in those below it, in the order of their names; no pipes, sockets or devices."""
    found = []
    for place, folders, names in os.walk(folder, onerror=fail):
        folders.sort()
        here = [os.path.join(place, name) for name in sorted(names) if TRANSCRIPT.fullmatch(name)]
        found += [name for name in here if not waits(name)]
    if not found:
        raise Unfit(f"{wording.line(folder)}: it has no file NAME.transcript")
    return found


def fail(error: OSError) -> None:
    raise error


def listed(name: str) -> list[str]:
    """The names in a list, one in a line; `-` is standard input."""
    if name == "-":
        data = sys.stdin.buffer.read()
    else:
        with open(name, "rb") as file:
            data = file.read()
    found = [os.fsdecode(line) for line in data.splitlines() if line]
    if not found:
        raise Unfit(f"{wording.line(name)}: it names no recording")
    return found


def named(words: Iterable[str], lists: Iterable[str]) -> list[str]:
    """All recordings that are named, in order, each once."""
    found: list[str] = []
    for word in words:
        found += below(word) if os.path.isdir(word) else [word]
    for name in lists:
        found += listed(name)
    if not found:
        raise Unfit("no recording is named")
    return list(dict.fromkeys(found))
