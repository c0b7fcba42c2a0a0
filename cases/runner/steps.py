"""What the blocks of a case do, one after the other."""
from __future__ import annotations

import re
from collections.abc import Callable
from pathlib import Path

from runner import lines
from runner.blocks import Block
from runner.expanding import expand, number_of
from runner.runs import ERRORS, OUTPUT
from runner.serving import serve
from runner.state import END, START, TRANSCRIPT, State, Stop
from runner.tables import AUDIT, changes, play_table
from runner.wanted import FRONT, PACKETS, TEXT

UNWRITTEN = b"sftpv3: cannot write standard output\nsftpv3: reason: File too large (os error 27)\n"
STREAMS = {"output": OUTPUT, "errors": ERRORS}

# The bytes that the lines of a block stand for.
MAKERS: dict[str, Callable[[list[str]], bytes]] = {
    "tree": lines.tree, "end": lines.tree, "session": lines.session, "recorded": lines.session,
    "records": lines.transcript, "bytes": lines.bytes_of, "is": lines.bytes_of}

# The file that a block is about where it names none.
USUAL = {"tree": START, "end": END, "session": TRANSCRIPT, "records": TRANSCRIPT, "recorded": TRANSCRIPT}


def name_of(block: Block) -> str:
    name = block.words or USUAL.get(block.keyword)
    if not name:
        raise Stop("the name of a file")
    return name


def number_in(words: str) -> int:
    number = number_of(words)
    if number is None:
        raise Stop("a number of bytes")
    return number


# ==== Files.

def make_file(state: State, block: Block, text: list[str]) -> None:
    name = name_of(block)
    if block.keyword == "session":
        state.session = text
    Path(name).write_bytes(MAKERS[block.keyword](text))


def remove_file(state: State, block: Block, text: list[str]) -> None:
    Path(name_of(block)).unlink(missing_ok=True)


def compare_file(state: State, block: Block, text: list[str]) -> None:
    state.expect_file(name_of(block), MAKERS[block.keyword](text))


def compare_files(state: State, block: Block, text: list[str]) -> None:
    name, _, other = block.words.partition(" ")
    state.expect_file(name, Path(other).read_bytes())


def expect_none(state: State, block: Block, text: list[str]) -> None:
    state.expect_there(name_of(block), False)


def set_input(state: State, block: Block, text: list[str]) -> None:
    state.asked.input = lines.bytes_of(text)


def set_size(state: State, block: Block, text: list[str]) -> None:
    state.size = number_in(block.words)
    if state.size == 0:
        raise Stop("pieces that have bytes")


def set_before(state: State, block: Block, text: list[str]) -> None:
    state.before = text


def break_stream(state: State, block: Block, text: list[str]) -> None:
    name, _, when = block.words.partition(" ")
    if name not in STREAMS:
        raise Stop("`output` or `errors`")
    if when == "flush":
        state.asked.full.add(STREAMS[name])
    elif when == "closed":
        state.asked.unread.add(STREAMS[name])
    elif when == "memory":
        state.asked.refused.add(STREAMS[name])
    else:
        state.asked.room[STREAMS[name]] = number_in(when)


# ==== Runs.

def run(state: State, block: Block, text: list[str]) -> None:
    state.ask(block.words)


def run_full(state: State, block: Block, text: list[str]) -> None:
    """Runs the program with room for each number of bytes below the first word."""
    most, _, words = block.words.partition(" ")
    for room in range(number_in(most)):
        state.asked.room[OUTPUT] = room
        came = state.run(words)
        if (came.status, came.errors) != (3, UNWRITTEN):
            state.say(f"with room for {room} bytes: wanted status 3 and {UNWRITTEN!r},\n"
                      f"    came status {came.status} and {came.errors[:200]!r}")


def audit(state: State, block: Block, text: list[str]) -> None:
    state.wanted.output = text_of(text)
    state.wanted.status = 0 if state.wanted.output.startswith(b"accepted") else 1
    came = state.ask(f"{AUDIT} {block.words}")
    state.expect_there(END, came.status == 0)


def serve_new(state: State, block: Block, text: list[str]) -> None:
    state.served = text
    serve(state, block.words)


# ==== What is wanted of the last run.

def text_of(text: list[str]) -> bytes:
    return "".join(f"{it}\n" for it in text).encode()


def want_status(state: State, block: Block, text: list[str]) -> None:
    if not re.fullmatch("[0-9]{1,3}", block.words):
        raise Stop("a status")
    state.wanted.status = int(block.words)


def want_packets(state: State, block: Block, text: list[str]) -> None:
    state.wanted.output_form, state.wanted.output = PACKETS, lines.sides(text)[1]


def form_of(words: str, front: str) -> str:
    if words not in ("", front):
        raise Stop(f"`{front}`, or no word")
    return FRONT if words else TEXT


def want_output(state: State, block: Block, text: list[str]) -> None:
    state.wanted.output_form, state.wanted.output = form_of(block.words, "begins"), text_of(text)


def want_errors(state: State, block: Block, text: list[str]) -> None:
    state.wanted.errors_form, state.wanted.errors = form_of(block.words, "begin"), text_of(text)


# By keyword: what a block does, once the run before is judged, or is there.
STEPS: dict[str, Callable[[State, Block, list[str]], object]] = {
    "tree": make_file, "session": make_file, "records": make_file, "bytes": make_file, "absent": remove_file,
    "end": compare_file, "recorded": compare_file, "is": compare_file, "same": compare_files, "no": expect_none,
    "input": set_input, "pieces": set_size, "before": set_before, "broken": break_stream,
    "run": run, "full": run_full, "audit": audit, "serve": serve_new,
    "again": lambda state, block, _: serve(state, block.words),
    **dict.fromkeys(("replies", "codes", "answers"), lambda state, block, text: play_table(state, block.keyword, text)),
    "changes": lambda state, block, text: changes(state, block.words, text),
    "status": want_status, "packets": want_packets, "output": want_output, "errors": want_errors}
COMPARING = {"end", "recorded", "is", "same", "no"}
RUNNING = {"run", "full", "audit", "serve", "again", "replies", "codes", "answers", "changes"}
WANTING = {"status", "packets", "output", "errors"}


def take_step(state: State, block: Block) -> None:
    """Does what a block says; Stop if it is not in its form."""
    state.line = block.number
    if block.keyword not in STEPS:
        raise Stop("the keyword of a block")
    text = expand(block.lines, block.keyword in STREAMS)
    if block.keyword in COMPARING:
        state.settle()
    elif block.keyword in RUNNING:
        state.begin_run()
    elif block.keyword in WANTING and state.pending is None:
        raise Stop("a run before")
    STEPS[block.keyword](state, block, text)
