"""A case as far as it has gone, and its files."""
from __future__ import annotations

import os
from dataclasses import dataclass, field
from pathlib import Path

from runner import lines
from runner.runs import Asked, Came, Program, words_of
from runner.wanted import Wanted, bytes_that_differ, differences

# The trees at the start and at the end of a session; the same according to an audit of its record; the tree at the
# end without the request that a table asks behind the session; the transcript that is audited, or the record.
START, END, AUDITED, ALONE = "start.tree", "end.tree", "audited.tree", "alone.tree"
TRANSCRIPT = "session.transcript"


class Stop(Exception):
    """A block that is not in its form, and what should be there."""


@dataclass
class State:
    """What the blocks of a case have set up: the lines of the last `session`, `before` and `serve`; what the next run
    is given, and in which pieces; what came of the last run, what is wanted of it, and the line in which it was asked,
    until both are compared. `said` is what differs so far, and `line` that of the block."""
    program: Program
    session: list[str] = field(default_factory=list)
    before: list[str] = field(default_factory=list)
    served: list[str] = field(default_factory=list)
    asked: Asked = field(default_factory=Asked)
    size: int | None = None
    came: Came = field(default_factory=Came)
    wanted: Wanted = field(default_factory=Wanted)
    pending: int | None = None
    line: int = 0
    said: list[str] = field(default_factory=list)

    def say(self, words: str, line: int | None = None) -> None:
        self.said.append(f"  line {line or self.line}:\n    {words}")

    def run(self, words: str) -> Came:
        """Runs the program on the words of a line, with what was set up for the next run."""
        Path(END).unlink(missing_ok=True)
        asked, self.asked = self.asked, Asked()
        asked.size = self.size
        self.came = self.program.run(words_of(words), asked)
        return self.came

    def run_alone(self, words: str) -> Came:
        """Runs the program beside the runs of the case."""
        return self.program.run(words_of(words), Asked())

    def begin_run(self) -> None:
        self.settle()
        self.wanted = Wanted()

    def ask(self, words: str) -> Came:
        """Runs the program; the blocks behind say what is wanted."""
        came = self.run(words)
        self.pending = self.line
        return came

    def settle(self) -> None:
        """Compares what came of the last run with what is wanted, if that has not been done."""
        if self.pending is not None:
            for it in differences(self.wanted, self.came):
                self.say(it, self.pending)
        self.pending = None

    def expect_there(self, name: str, is_wanted: bool) -> None:
        if os.path.lexists(name) != is_wanted:
            self.say(f"{name} is {'not there' if is_wanted else 'there'}")

    def expect_file(self, name: str, wanted: bytes) -> None:
        if not os.path.exists(name):
            self.say(f"{name} is not there")
        elif (came := Path(name).read_bytes()) != wanted:
            self.say(bytes_that_differ(name, wanted, came))


def make_start() -> None:
    """Makes the files that a case begins with."""
    Path(START).write_bytes(lines.tree([]))


def are_same(name: str, other: str) -> bool:
    """Returns whether both files are there and have the same bytes."""
    return os.path.exists(name) and os.path.exists(other) and Path(name).read_bytes() == Path(other).read_bytes()
