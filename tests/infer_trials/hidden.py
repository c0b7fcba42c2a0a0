"""Sessions whose trees are hidden. models/model/starts draws the trees, of every kind that a tree file can hold, and
models/model/askers the sessions, with replies that the rules allow; neither asks the program for anything.

A seed says what there is more of, and how many requests there are. The program never saw the sessions of HELD_OUT while
it was made: they are for counting alone.
"""
import os
import tempfile
from collections import Counter
from dataclasses import dataclass
from pathlib import Path

from infer_trials import judging
from model.askers import draw_session
from model.audits import audit
from model.starts import EMPHASES, draw_tree
from sftpv3.system import program

# How many requests a session has.
COUNTS = (10, 25, 40, 80)

# The seeds that are tried, of which so many of 100 have to be found; those for looking closer; those for counting.
SEEDS, FOUND = range(1, 101), 75
SEEN, HELD_OUT = range(1, 401), range(10_001, 10_401)


@dataclass
class Tried:
    """A session that was tried: its seed, its emphasis, how many requests it has, whether a tree was found, and what
    was said."""

    seed: int
    emphasis: str
    count: int
    found: bool
    said: str


def attempt(folder, seed):
    """Draws the session of a seed, and judges it without its tree."""
    emphasis, count = EMPHASES[seed % len(EMPHASES)], COUNTS[seed // len(EMPHASES) % len(COUNTS)]
    tree = draw_tree(seed, emphasis)
    start = tree.bytes()
    records = draw_session(seed, emphasis, tree, count)
    if audit(start, records)[0] != f"accepted {count} requests":
        raise judging.Wrong(f"seed {seed}: the model refuses the session with its tree")
    transcript = os.path.join(tempfile.mkdtemp(dir=folder), "session.transcript")
    Path(transcript).write_bytes(records)
    found, said = judging.accepted_without(program.program(), transcript)
    if " contradicts " in said:
        raise judging.Wrong(f"seed {seed}: of a session that its tree explains it is said: {said}")
    if found and not audit(Path(f"{transcript}.inferred").read_bytes(), records)[0].startswith("accepted"):
        raise judging.Wrong(f"seed {seed}: the model refuses the session with the tree that was found")
    return Tried(seed, emphasis, count, found, said)


def counted(tried):
    """Lines with how many of these were found, of all and by kinds."""
    found, every = Counter(), Counter()
    for one in tried:
        for kind in ("all", one.emphasis, f"{one.count} requests"):
            every[kind] += 1
            found[kind] += one.found
    return [f"{kind}: {found[kind]} of {every[kind]}" for kind in every]
