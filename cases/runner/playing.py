"""Plays cases side by side, each in a folder of its own, and reports those that fail."""
from __future__ import annotations

import os
import sys
import tempfile
from collections.abc import Iterator
from concurrent.futures import ProcessPoolExecutor

from runner.blocks import Case
from runner.lines import Unread
from runner.runs import Late, Program
from runner.state import State, Stop, make_start
from runner.steps import take_step

# The program of this process, and how many bytes are printed of a case at most.
programs: list[Program] = []
LONGEST = 20_000


def begin(file: str) -> None:
    programs.append(Program(file))


def play_blocks(state: State, case: Case) -> None:
    """Plays a case up to a block that is not in its form."""
    try:
        make_start()
        for block in case.blocks:
            take_step(state, block)
        state.settle()
    except (Stop, Unread) as error:
        state.say(f"there should be {error}" if isinstance(error, Stop) else str(error))
    except OSError as error:
        state.say(f"a file cannot be used: {error}")
    except Late:
        state.say("the program does not end")


def play(case: Case) -> str:
    """Plays a case, and returns what is said of it: nothing if it passes."""
    state = State(programs[0])
    with tempfile.TemporaryDirectory(prefix="case-") as folder:
        os.chdir(folder)
        try:
            play_blocks(state, case)
        finally:
            os.chdir("/")
    if not state.said:
        return ""
    return f"{case.file}:{case.number}: {case.title}\n" + "\n".join(state.said)[:LONGEST]


def play_all(program: str, cases: list[Case], jobs: int) -> Iterator[str]:
    """Yields what is said of each case, in their order."""
    with ProcessPoolExecutor(jobs, initializer=begin, initargs=(program,)) as pool:
        yield from pool.map(play, cases)


def report(said: Iterator[str]) -> int:
    """Prints what is said of the cases that fail, and how many these are. Returns the exit status."""
    count = failed = 0
    for text in said:
        count, failed = count + 1, failed + bool(text)
        if text:
            print(text, flush=True)
    print(f"{failed} of {count} cases failed" if failed else "all cases passed" if count else "no cases")
    sys.stdout.flush()
    return 0 if count and not failed else 1


def report_passed(cases: list[Case], said: Iterator[str]) -> int:
    """Prints each case of which not is said what its title says, which has to fail. Returns the exit status."""
    wrong = [f"{case.file}:{case.number}: {case.title}\n  said is: {text.partition(chr(10))[2] or 'nothing'}"
             for case, text in zip(cases, said) if case.title not in text.partition("\n")[2]]
    print(*wrong, sep="\n", end="\n" if wrong else "")
    print(f"{len(wrong)} of {len(cases)} cases did not fail as they have to" if wrong or not cases
          else "all cases failed as they have to", flush=True)
    return 1 if wrong or not cases else 0
