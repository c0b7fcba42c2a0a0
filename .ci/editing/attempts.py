"""The three ways to try edits in a copy of a crate: together, by the functions that they change; singly; and alone by
the gate's command."""
import os
import re
from collections.abc import Iterable, Iterator
from contextlib import contextmanager
from pathlib import Path

import toolchain
from editing import verdicts
from editing.blocks import Edit, EditsError
from editing.verdicts import Commands

# The toolchain's `rt`, which is quicker this way.
RT = str(Path(__file__).resolve().parents[1] / "rt")
# The edits that were refused, and why; or None if there was no time.
Refusals = dict[Edit, str] | None


def jobs() -> list[str]:
    return ["--jobs", os.environ["RT_JOBS"]] if "RT_JOBS" in os.environ else []


def groups(edits: Iterable[Edit], crate: Path) -> list[dict[str, Edit]]:
    """Returns lists of edits of different functions, with these functions."""
    found: list[dict[str, Edit]] = []
    for edit in edits:
        function = function_of(edit, crate)
        if function is None:
            continue
        group = next((it for it in found if function not in it), None)
        if group is None:
            group = {}
            found.append(group)
        group[function] = edit
    return found


@contextmanager
def applied(edits: Iterable[Edit], crate: Path) -> Iterator[dict[str, str]]:
    """Applies edits to the files of a crate, and takes them back. An edit that does not apply is left out."""
    texts: dict[str, str] = {}
    for edit in edits:
        try:
            texts |= edit.applied(lambda file: texts.get(file) or (crate / file).read_text())
        except EditsError:
            continue
    before = {file: (crate / file).read_bytes() for file in texts}
    try:
        for file, text in texts.items():
            (crate / file).write_text(text)
        yield texts
    finally:
        for file, data in before.items():
            (crate / file).write_bytes(data)


class Attempts:
    """Tries edits of a crate in a copy of the repository, until a time."""

    def __init__(self, commands: Commands, copy: Path, name: str, end: float | None):
        self.commands, self.copy, self.name, self.end = commands, copy, name, end
        self.crate = copy / "crates" / name

    def check(self, *words: str) -> list[str] | None:
        return self.commands.run_until([RT, "check", *jobs(), *words], self.crate, self.end)

    def together(self, group: dict[str, Edit]) -> Refusals:
        """Tries edits of different functions in one check."""
        with applied(group.values(), self.crate):
            lines = self.check(*(word for it in group for word in ("--only", verdicts.short(it))))
            broken = verdicts.broken_files(lines or [])
            if lines and not broken and not verdicts.is_tried(lines):
                # a name that does not fit one function alone
                lines = self.check()
        if lines is None:
            return None
        if broken:
            left = {function: edit for function, edit in group.items() if not broken & edit.files()}
            return self.together(left) if left and len(left) < len(group) else {}
        whys = {edit: verdicts.refused_in(lines, function) for function, edit in group.items()}
        return {edit: why for edit, why in whys.items() if why}

    def singly(self, edits: list[Edit]) -> Refusals:
        """Tries edits one by one, each in a check of the whole crate, which goes on from the one before. Without the
        edits the crate has to be proved, or none is tried."""
        found: dict[Edit, str] = {}
        lines = self.check()
        if lines is None:
            return None
        if not verdicts.is_proved(lines):
            return found
        for edit in edits:
            with applied([edit], self.crate) as texts:
                lines = self.check() if texts else []
            if lines is None:
                return None
            if why := verdicts.refused_by(lines):
                found[edit] = why
        return found

    def alone(self, edits: list[Edit]) -> Refusals:
        """Tries edits one by one by the gate's command."""
        folder = self.crate / "must-fail"
        folder.mkdir(exist_ok=True)
        for edit in edits:
            (folder / edit.file_name).write_text(edit.text)
        lines = self.commands.run_until([toolchain.found() or RT, "must-fail", self.name], self.copy, self.end)
        if lines is None:
            return None
        for line in lines:
            if ": refused, as it must be" not in line:
                print(line, flush=True)
        refused = verdicts.refused_alone(lines, self.name)
        return {edit: refused[edit.file_name] for edit in edits if edit.file_name in refused}


def function_of(edit: Edit, crate: Path) -> str | None:
    """Returns the last words of the prover's name of the function whose body has the edit, or None if none has."""
    found = {place_of(crate, it.file, it.old) for it in edit.changes}
    return found.pop() if len(found) == 1 else None


def place_of(crate: Path, file: str, old: str) -> str | None:
    function = function_with((crate / file).read_text().splitlines(), old)
    module = file.removeprefix("src/").removesuffix(".rt").replace("/", "::")
    return f"{module}::{function}" if function else None


def function_with(lines: Iterable[str], old: str) -> str | None:
    """Returns the name of the function whose body has this text, with its type for a method, or None. The prover knows
    the methods of a trait's impl by other names, so these are none."""
    # What stands before the name of a function here: nothing, a type, or None where its name is not known.
    prefix: str | None = None
    function: str | None = None
    indent, body = "", False
    for line in lines:
        begins = re.match(r"( *)(?:pub(?:\([a-z]+\))? )?(?:(?:const|unsafe) )*fn (\w+)", line)
        if line[:1].strip() and not line.startswith(("#", "}", "{", ")", "where", "/")):
            block = re.match(r"impl(?:<[^>]*>)? (\w+)[^{]*{", line)
            prefix = "" if begins else f"{block[1]}::" if block and " for " not in line else None
        if begins:
            function, indent = (None if prefix is None else f"{prefix}{begins[2]}"), begins[1]
            body = line.endswith("{")
        elif function and line == f"{indent}{{":
            body = True
        if old in line and not begins:
            return function if body else None
        if function and line == f"{indent}}}":
            function, body = None, False
    return None
