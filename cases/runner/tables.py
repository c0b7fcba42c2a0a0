"""The blocks that have a table: `replies`, `codes` and `changes`, which are audited; `answers`, which are served."""
from __future__ import annotations

import os
import re
from collections.abc import Callable
from pathlib import Path

from runner import lines
from runner.runs import Came
from runner.serving import audit_record, run_serve
from runner.state import ALONE, END, TRANSCRIPT, State, Stop, are_same
from runner.wanted import shown_packet

AUDIT = "sftpv3 audit --tree start.tree --transcript session.transcript --out end.tree --no-sync"


def parts_of(line: str) -> tuple[str, str]:
    """Returns what a line has before its first arrow, and behind it."""
    front, arrow, rest = line.partition(" => ")
    if not arrow:
        raise Stop("` => `")
    return front, rest


def is_accepted(came: Came) -> bool:
    return came.status == 0 and came.output.startswith(b"accepted ") and not came.errors


def is_refused(state: State) -> bool:
    """Returns whether an audit refused the reply behind a session because it is not allowed."""
    came = state.came
    refusal = f"refused record {len(state.session) + 4}: NotAllowed\n"
    return came.status == 1 and not came.errors and came.output == refusal.encode()


def expect_right(state: State, line: str, is_right: bool) -> None:
    """Says what an audit for a line printed, if that is not right."""
    if not is_right:
        printed = (state.came.output + state.came.errors).decode(errors="replace")
        state.say(f"{line}\n    came status {state.came.status}, {printed.rstrip()}")


def judge(state: State, *further: str) -> None:
    """Audits the session of the case with these records behind it."""
    Path(TRANSCRIPT).write_bytes(lines.session([*state.session, *further]))
    state.run(AUDIT)


def judge_reply(state: State, line: str) -> None:
    ask, rest = parts_of(line)
    answer, _, verdict = rest.partition(" => ")
    if verdict not in ("allowed", "NotAllowed"):
        raise Stop("`allowed` or `NotAllowed`")
    judge(state, ask, answer)
    expect_right(state, line, is_accepted(state.came) if verdict == "allowed" else is_refused(state))


def is_right_code(state: State, code: int, is_allowed: bool) -> bool:
    """Returns whether an audit judged a code as it has to. Those but 0 leave the tree as the session alone does."""
    if not is_allowed:
        return is_refused(state)
    return is_accepted(state.came) and (code == 0 or are_same(END, ALONE))


def id_of(ask: str) -> str:
    found = re.match("C ([0-9]+)", ask)
    if not found:
        raise Stop("a request")
    return found[1]


def judge_codes(state: State, line: str) -> None:
    """Judges the STATUS of each code from 0 to 9 for the request of a line."""
    ask, rest = parts_of(line)
    if not re.fullmatch("none|[0-9]( [0-9])*", rest):
        raise Stop("codes, or `none`")
    number, allowed = id_of(ask), set(rest.split(" "))
    for code in range(10):
        judge(state, ask, f"S {number} STATUS {code}")
        expect_right(state, line, is_right_code(state, code, str(code) in allowed))


def judge_alone(state: State) -> None:
    """Audits the session of the case alone, and keeps the tree at its end."""
    judge(state)
    expect_right(state, "the session alone", is_accepted(state.came))
    if os.path.exists(END):
        os.replace(END, ALONE)


def behind_packets(stream: bytes, count: int) -> bytes:
    """Returns what follows so many packets."""
    for _ in range(count):
        stream = lines.cut(stream)[1]
    return stream


def serve_line(state: State, line: str) -> None:
    """Serves a session of the records before and the request of a line, and audits what it has recorded."""
    ask, answer = parts_of(line)
    state.asked.input = lines.sides([*lines.GREETINGS, *state.before, ask])[0]
    wanted = lines.bytes_of([answer])
    came = run_serve(state, "")
    # before the reply come VERSION, and a reply to each request that is played first
    left = behind_packets(came.output, 1 + sum(it.startswith("C") for it in state.before))
    if (came.status, came.errors, left) != (0, b"", wanted):
        state.say(f"{line}\n    came status {came.status}, {shown_packet(left)}")
    audit_record(state, "")


# ==== Changes of a file.

def place_of(word: str, otherwise: int, most: int) -> int:
    """Returns the place that a word says, or else this one."""
    if not re.fullmatch("[0-9]*", word) or int(word or 0) > most:
        raise Stop("two places of the file")
    return int(word) if word else otherwise


def piece_of(file: bytes, piece: str) -> bytes:
    """Returns the bytes of a file from one place up to another, or bytes in hexadecimal digits."""
    start, dots, end = piece.partition("..")
    if not dots:
        return lines.bytes_of([piece])
    first, last = place_of(start, 0, len(file)), place_of(end, len(file), len(file))
    if first > last:
        raise Stop("two places of the file")
    return file[first:last]


def is_said(came: Came, verdict: str) -> bool:
    """Returns whether an audit said this and no more: a verdict on standard output, or what is wrong with a file on
    standard error, with a second line about that file."""
    if verdict.startswith(("accepted ", "refused ")):
        status = 0 if verdict.startswith("accepted ") else 1
        return (came.status, came.output, came.errors) == (status, f"{verdict}\n".encode(), b"")
    first, _, second = came.errors.partition(b"\n")
    return (came.status == 2 and not came.output and first == f"sftpv3: {verdict}".encode()
            and re.fullmatch(b"sftpv3: [^\n]*\n", second) is not None)


def judge_change(state: State, name: str, end: str, file: bytes, line: str) -> None:
    """Audits the session with the change of a line."""
    pieces, verdict = parts_of(line)
    Path(name).write_bytes(b"".join(piece_of(file, it) for it in pieces.split(" ")))
    came = state.run(AUDIT)
    has_end = are_same(END, end) if os.path.exists(END) else came.status != 0
    expect_right(state, line, is_said(came, verdict) and has_end and os.path.exists(END) == (came.status == 0))


def changes(state: State, words: str, table: list[str]) -> None:
    """Audits the session of the case with each change of a file, and leaves the file unchanged."""
    name, _, end = words.partition(" ")
    file = Path(name).read_bytes()
    for line in table:
        judge_change(state, name, end, file, line)
    Path(name).write_bytes(file)


LINES: dict[str, Callable[[State, str], None]] = {
    "replies": judge_reply, "codes": judge_codes, "answers": serve_line}


def play_table(state: State, keyword: str, table: list[str]) -> None:
    if not table:
        raise Stop("lines of a table")
    if keyword == "codes":
        judge_alone(state)
    for line in table:
        LINES[keyword](state, line)
