"""The edits of a crate, which are blocks of its file edits.txt, and the record at the head of that file; and whether
all edits can be read and apply to the sources as they are, those of the gate among them."""
import re
from collections.abc import Callable
from dataclasses import dataclass, field
from pathlib import Path

from crates import Crates


FILE = "edits.txt"
NAME = re.compile(r"[a-z0-9_]+")
RECORD = "refused: "


class EditsError(Exception):
    """A file of edits, or an edit, that is not as it has to be: the text says where, and what is wrong."""


@dataclass(frozen=True)
class Change:
    """A text of a source, on one line, and the text that takes its place."""

    file: str
    old: str
    new: str
    place: str


@dataclass(eq=False)
class Edit:
    """A bug that the prover has to refuse: its name, and the lines that the toolchain reads of a file NAME.edit."""

    crate: str
    name: str
    place: str
    lines: list[str] = field(default_factory=list)
    changes: list[Change] = field(default_factory=list)

    @property
    def file_name(self) -> str:
        return f"{self.name}.edit"

    @property
    def text(self) -> str:
        return "".join(f"{it}\n" for it in self.lines)

    def files(self) -> set[str]:
        return {it.file for it in self.changes}

    def applied(self, read: Callable[[str], str | None]) -> dict[str, str]:
        """Returns the new texts of the files that the edit changes, of which `read` gives the old ones, or None for a
        file that is not there. Each text to be replaced has to occur once in what the changes before it left."""
        texts: dict[str, str] = {}
        for it in self.changes:
            text = texts[it.file] if it.file in texts else read(it.file)
            if text is None:
                raise EditsError(f"{it.place}: {self.name}: the crate has no file {it.file}")
            count = text.count(it.old)
            if count != 1:
                raise EditsError(f"{it.place}: {self.name}: the old text occurs {count} times in {it.file}, not once")
            texts[it.file] = text.replace(it.old, it.new)
        return texts


class Reader:
    """Reads the lines of edits, one after the other. The place of a line is a file's name and a number."""

    def __init__(self, crate: str, name: str):
        self.crate, self.name, self.number = crate, name, 0
        self.edits: list[Edit] = []
        self.is_open = False
        self.file = self.old = ""

    @property
    def place(self) -> str:
        return f"{self.name}:{self.number}"

    def begin(self, name: str) -> None:
        if not NAME.fullmatch(name):
            raise EditsError(f"{self.place}: {name!r} is no name: lowercase letters, digits and _")
        same = [it.place for it in self.edits if it.name == name]
        if same:
            raise EditsError(f"{self.place}: there is an edit {name} already, at {same[0]}")
        self.edits.append(Edit(self.crate, name, self.place))
        self.is_open, self.file, self.old = True, "", ""

    def end(self) -> None:
        """Ends a block: it has changes, and each has both texts."""
        if self.is_open and (self.old or not self.edits[-1].changes):
            raise EditsError(f"{self.place}: the edit {self.edits[-1].name} ends without "
                             f"{'a line `new: `' if self.old else 'a change'}")
        self.is_open = False

    def add(self, line: str) -> None:
        """Takes a line of the open block."""
        edit, key, text = self.edits[-1], *line.split(":", 1)
        text = text.removeprefix(" ")
        if key == "file" and not self.old and re.match(r"(src|specs|proofs)/", text):
            self.file = text.strip()
        elif key == "old" and self.file and not self.old and text:
            self.old = text
        elif key == "new" and self.old == text:
            raise EditsError(f"{self.place}: {edit.name}: the new text is the old one")
        elif key == "new" and self.old:
            edit.changes.append(Change(self.file, self.old, text, self.place))
            self.old = ""
        else:
            raise EditsError(f"{self.place}: {edit.name}: this line is not expected here; an edit has `file: ` with a "
                             "file in src/, specs/ or proofs/, and then pairs of `old: ` and `new: `")
        edit.lines.append(line)

    def take(self, line: str) -> None:
        """Takes a line of a file of blocks."""
        self.number += 1
        if line.startswith("edit:"):
            self.end()
            self.begin(line.removeprefix("edit:").strip())
        elif not line.strip():
            self.end()
        elif self.is_open and re.match("(file|old|new):", line):
            self.add(line)
        elif not line.startswith("#") and (self.edits or not line.startswith(RECORD)):
            raise EditsError(f"{self.place}: this line is in no edit: one begins with `edit: NAME`, and ends before an "
                             "empty line; a line of your own begins with #")


def read_lines(file: Path) -> list[str]:
    try:
        return file.read_text(encoding="utf-8").splitlines()
    except UnicodeDecodeError as error:
        raise EditsError(f"{file}: not a text: {error}") from None


def read_blocks(crate: str, name: str, lines: list[str]) -> list[Edit]:
    """Returns the edits of a file of blocks with this name, by their names."""
    reader = Reader(crate, name)
    for line in lines:
        reader.take(line)
    reader.end()
    return sorted(reader.edits, key=lambda it: it.name)


def read_edit(crate: str, name: str, lines: list[str]) -> Edit:
    """Returns the edit of a file NAME.edit, as the toolchain has them in must-fail/."""
    reader = Reader(crate, name)
    reader.begin(Path(name).stem)
    for line in lines:
        reader.number += 1
        reader.add(line)
    reader.end()
    return reader.edits[0]


def edits_in(crate: str, folder: Path) -> list[Edit]:
    """Returns the edits of a crate that `./edits` tries."""
    file = folder / FILE
    return read_blocks(crate, f"crates/{crate}/{FILE}", read_lines(file)) if file.is_file() else []


def record_in(folder: Path) -> str:
    """Returns the hash under which the prover refused all edits the last time, or nothing if that never was."""
    file = folder / FILE
    lines = read_lines(file) if file.is_file() else []
    return next((it.split()[-1] for it in lines if it.startswith(RECORD)), "")


def write_record(folder: Path, date: str, count: int, hash: str) -> None:
    """Records that the prover refused all edits, at the head of their file."""
    file = folder / FILE
    lines = [it for it in read_lines(file) if not it.startswith(RECORD)]
    at = next((number for number, it in enumerate(lines) if not it.startswith("#")), len(lines))
    lines.insert(at, f"{RECORD}{count} edits on {date}, under the hash {hash}")
    file.write_text("\n".join([*lines, ""]))


def edits_of_gate(crate: str, folder: Path) -> list[Edit]:
    files = sorted(folder.glob("must-fail/*.edit"))
    return [read_edit(crate, f"crates/{crate}/must-fail/{it.name}", read_lines(it)) for it in files]


def unfit(edit: Edit, sources: dict[str, Path]) -> str:
    """Returns why an edit does not apply to these sources, or nothing."""
    try:
        edit.applied(lambda file: sources[file].read_text() if file in sources else None)
        return ""
    except EditsError as error:
        return str(error)


def wrong_edits(crates: Crates, name: str) -> list[str]:
    """Returns a line for each edit of a crate that does not apply, or for the first that cannot be read."""
    folder = crates.folders[name]
    sources = {path: file for file, path in crates.files(name)}
    if any(folder.glob("edits/*")):
        return [f"crates/{name}/edits: edits are blocks of crates/{name}/{FILE}, and not files of their own"]
    try:
        edits = [*edits_in(name, folder), *edits_of_gate(name, folder)]
    except EditsError as error:
        return [str(error)]
    return [why for it in edits if (why := unfit(it, sources))]
