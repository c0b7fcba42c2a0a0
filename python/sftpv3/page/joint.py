"""`sftpv3-together` on a set: its verdict, the order that it found, and which requests it names."""
from __future__ import annotations

import json
import os
import subprocess
import tempfile
from dataclasses import dataclass
from typing import Any

from sftpv3.page import lanes, sets
from sftpv3.system import program
from sftpv3.together import orders
from sftpv3.together.options import ACCEPTED, REFUSED, UNDECIDED, USAGE

# The options of the search that are passed on, and what their values are called.
OPTIONS = (("--parts", "NAME,..."), ("--torn", "BYTES"), ("--tolerance", "US"), ("--steps", "N"))

VERDICTS = (ACCEPTED, REFUSED, UNDECIDED)


class Failed(Exception):
    """There is no verdict. `status` is that of a script which needs one."""

    def __init__(self, why: str, status: int):
        super().__init__(why)
        self.status = status


@dataclass
class Verdict:
    """A verdict: its word, its sentence, and all that was told as JSON."""

    word: str
    text: str
    told: dict[str, Any]


def words(given: Any) -> list[str]:
    """The options of the search that a command line has, and their values."""
    values = ((option, getattr(given, option[2:])) for option, _ in OPTIONS)
    return [word for option, value in values if value is not None for word in (option, value)]


def judged(folder: str, tree: str, order: str | None, given: list[str]) -> tuple[Verdict, orders.Order | None]:
    """The verdict, and the order: the one that was given, else that which was found, if one was."""
    with tempfile.TemporaryDirectory(prefix="sftpv3-page-", dir=program.temporary_folder()) as place:
        name = order or os.path.join(place, "order")
        command = [program.command("together"), folder, "--tree", tree, "--json",
                   "--order" if order else "--write-order", name, *given]
        done = subprocess.run(command, stdin=subprocess.DEVNULL, stdout=subprocess.PIPE, stderr=subprocess.PIPE,
                              check=False, env={**os.environ, "SFTPV3": program.program()})
        if done.returncode not in VERDICTS:
            raise Failed(why_failed(done), USAGE if done.returncode == USAGE else 3)
        told = json.loads(done.stdout)
        found = sets.read_order(name) if os.path.exists(name) else None
    return Verdict(told["verdict"], told["text"], told), found


def why_failed(done: subprocess.CompletedProcess) -> str:
    """What sftpv3-together said last, without its name."""
    lines = done.stderr.decode(errors="replace").strip().splitlines()
    if not lines:
        return f"sftpv3-together ended with status {done.returncode}"
    return lines[-1].partition(": ")[2] or lines[-1]


# What is said of the request that a verdict names, by its word; and of the one that contradicts it.
NAMED = {"refused": (lanes.WRONG, "refused"), "undecided": ("late", "the furthest")}
CONTRADICTS = (lanes.WRONG, "contradicts it")


def marks(found: sets.Set, verdict: Verdict) -> dict[sets.Row, tuple[str, str]]:
    """The requests that a verdict names, each with its word."""
    told = verdict.told
    named = [(told, NAMED.get(verdict.word)), (told.get("contradicts"), CONTRADICTS)]
    rows = [(found.row_of(one["transcript"], one["record"]), mark) for one, mark in named
            if one and mark and "record" in one]
    return {row: mark for row, mark in rows if row is not None}
