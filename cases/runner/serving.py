"""Sessions that the program serves, and the audits of what they record."""
from __future__ import annotations

import os

from runner import lines
from runner.runs import Came
from runner.state import AUDITED, END, TRANSCRIPT, State, are_same
from runner.wanted import FREE, PACKETS

SERVE = "sftpv3 serve --tree start.tree --save end.tree --record session.transcript --no-sync"
AUDIT_OF_RECORD = "sftpv3 audit --tree start.tree --transcript session.transcript --out audited.tree --no-sync"
DIFF_OF_ENDS = "sftpv3 diff audited.tree end.tree"


def run_serve(state: State, options: str) -> Came:
    """Serves a session whose input is that of the case."""
    return state.run(f"{SERVE} {options}")


def records_of(dialogue: list[str]) -> list[str]:
    """Returns the records of a dialogue, behind the usual ones if it has none of its own to begin with."""
    is_whole = "\n".join(dialogue).startswith(("C INIT", "C raw"))
    return [*([] if is_whole else lines.GREETINGS), *(it for it in dialogue if not it.startswith("accepted "))]


def serve(state: State, options: str) -> None:
    """Serves the dialogue of the last `serve` block, with these options, and audits what was recorded."""
    verdict = "".join(it for it in state.served if it.startswith("accepted "))
    state.asked.input, state.wanted.output = lines.sides(records_of(state.served))
    state.wanted.output_form = FREE if verdict else PACKETS
    run_serve(state, options)
    state.pending = state.line
    audit_record(state, verdict)


def audit_record(state: State, verdict: str) -> None:
    """Audits what a session has recorded, if it has recorded anything: the audit has to accept it, with the tree that
    was saved but for times, and to print this verdict if one is given."""
    is_empty = not os.path.exists(TRANSCRIPT) or os.path.getsize(TRANSCRIPT) == 0
    if is_empty and not verdict:
        return
    came = state.run_alone(AUDIT_OF_RECORD)
    printed = came.output.decode(errors="replace").rstrip()
    if came.status != 0 or verdict not in ("", printed):
        errors = came.errors.decode(errors="replace").rstrip()
        state.say(f"the audit of the record, which has to accept: status {came.status}, "
                  f"wanted {verdict or 'accepted'}, came {printed}{errors}")
    if not are_same(AUDITED, END) and state.run_alone(DIFF_OF_ENDS).status != 0:
        state.say("the tree of the audit is not the one that was saved")
