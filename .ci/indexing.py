"""The index of the crates, which is made of what the sources say of themselves and of the words on clauses in
crates/promises.txt; and what is checked of these: that each function and each clause is there. Of a source its first
sentence counts, and its functions with their clauses."""
import re
import textwrap
from functools import cache

from crates import Crates
from texts import TOP

ITEM = re.compile(r"(?P<indent> *)(?P<pub>pub(?:\([a-z]+\))? )?(?:const )?fn (?P<name>\w+)")
OWNER = re.compile(r"(?:pub(?:\([a-z]+\))? )?(?:impl(?:<[^{]*?>)? (?:(?P<trait>[\w:]+)(?:<[^{]*>)? for )?&?(?:'\w+ )?"
                   r"|trait )(?P<type>\w+)")
CLAUSE = re.compile(r" *ensures\*?(?: (\w+))? \{")
LAW = re.compile(r"    ghost (\w+): \{")


class Function:
    """A function: its file, the type that it is of, its name, its comment, and its clauses with their comments."""

    def __init__(self, file, owner, name, is_public, comment):
        self.file, self.owner, self.name, self.is_public = file, owner, name, is_public
        self.comment, self.clauses = " ".join(comment), []

    def title(self):
        return f"{self.owner}::{self.name}" if self.owner else self.name

    def named_clauses(self):
        return {name for name, _ in self.clauses if name}


def sentence_of(text):
    """Returns the first sentence of a comment."""
    text = " ".join(text.split())
    found = re.match(r"(.*?[.:?])(?:\s+[A-Z`]|$)", text)
    return (found[1] if found else text).rstrip(".:")


def head_of(file):
    """Returns the first sentence of the comment that a source begins with."""
    lines = []
    for line in file.read_text().splitlines():
        found = re.match(r"(?://!|--) ?(.*)", line)
        if not found or not found[1]:
            break
        lines.append(found[1])
    return sentence_of(" ".join(lines))


def subjects_of(file):
    """Returns the first sentence of each further part of a source, which begins with a line `-- ==== `."""
    parts = re.findall(r"(?m)^-- ==== (.*(?:\n-- .*)*)", file.read_text())
    return [sentence_of(it.replace("\n-- ", " ")) for it in parts]


@cache
def functions_of(file):
    """Returns the functions of a source, with the clauses of each."""
    found, owner, is_trait, comment, said, function, end = [], "", False, [], [], None, ""
    for line in file.read_text().splitlines():
        item, clause = ITEM.match(line), CLAUSE.match(line)
        if line == "}":
            owner = ""
        elif line[:1] not in (" ", "") and (of := OWNER.match(line)):
            owner, is_trait = of["type"], "trait " in of[0]
        if is_trait and (law := LAW.match(line)):
            found.append(Function(file, owner, law[1], False, comment))
        if item:
            is_public = item["pub"] == "pub " or bool(owner) and is_trait
            function, end, comment = Function(file, owner, item["name"], is_public, comment), f"{item['indent']}{{", []
            found.append(function)
        elif function and clause:
            function.clauses.append((clause[1] or "", " ".join(said)))
            said = []
        elif function and line == end:
            function, said = None, []
        elif text := re.match(r" *// (.*)", line):
            said.append(text[1])
        elif text := re.match(r" */// ?(.*)", line):
            comment.append(text[1])
        elif not re.match(r" *#!?\[|.*\]$", line):
            comment, said = [], []
    return found


PROMISES = TOP / "crates/promises.txt"
HEAD = """# The files of the crates

Each file with the first sentence of its comment, and of those of its parts, and its public functions that have a
contract, with the names of their clauses; a function without names in brackets has one clause. Below a file stands what
clauses say where the comment of the function does not, behind their names in square brackets (`crates/promises.txt`).
The files of `specs` come in the order of `specs/Lib.antt`, and the subjects of the proofs, which are files and folders,
in that of `proofs/Lib.antt`: each builds on those before it. docs/ARCHITECTURE.md says how the crates stand on each
other, and docs/PROMISES.md what the promises come to.
"""
COLUMNS = 120


def crates_here():
    """Returns the crates of the gate, lowest first, with their folders."""
    return {name: folder for name, folder in Crates().folders.items() if folder.parent == TOP / "crates"}


def shown(functions):
    """Returns the public functions that promise something, each with its clauses."""
    words, owner = [], None
    for it in functions:
        if it.is_public and it.clauses:
            title = it.title() if it.owner != owner else it.name
            names = ", ".join(f"`{name}`" for name, _ in it.clauses if name)
            words.append(f"`{title}`{f' ({names})' if names else ''}")
            owner = it.owner
    return f" {', '.join(words)}." if words else ""


def wrapped(text, depth=0):
    return textwrap.wrap(text, COLUMNS, initial_indent=f"{'  ' * depth}- ", subsequent_indent="  " * (depth + 1),
                         break_long_words=False, break_on_hyphens=False)


def entry(file, folder, items=()):
    """Returns the lines of a file, and below it of the words on clauses of its functions."""
    functions = functions_of(file) if file.suffix == ".rt" else []
    head = head_of(file) or ", ".join(f"`{it}`" for it in modules_of(file))
    further = "".join(f" {it}." for it in subjects_of(file))
    lines = wrapped(f"`{file.relative_to(folder)}`: {head}.{further}{shown(functions)}")
    for it in items:
        if it.is_in(file, functions):
            lines += wrapped(it.text, 1)
    return lines


class Item:
    """Words on the clauses of some functions: the line where they begin, the crate, and the text, which begins with the
    names of the functions, up to a colon; the names of clauses are in brackets."""

    def __init__(self, number, crate, text):
        self.number, self.crate, self.text = number, crate, text
        head, _, said = text.partition(": ")
        self.names = re.findall(r"`([\w:]+)`", head)
        self.clauses = re.findall(r"\w+", " ".join(re.findall(r"\[([\w, ]+)\](?!\()", said)))

    def is_of(self, name, file, function):
        """Returns whether a name is that of the function: alone, or behind that of its type or its module."""
        owner, _, last = name.rpartition("::")
        return last in (function.name, function.owner) and owner in ("", function.owner or "", file.stem)

    def is_in(self, file, functions):
        """Returns whether the first function is in the file, below which the words then stand."""
        return any(self.is_of(self.names[0], file, it) for it in functions)


def items_of(text):
    """Yields the items of a text, in which a line without a space or a mark in front names the crate."""
    crate, first, words = "", 0, []
    for number, line in enumerate([*text.splitlines(), ""], 1):
        if words and not line.startswith("  "):
            yield Item(first, crate, " ".join(words))
            words = []
        if line.startswith("- "):
            first, words = number, [line[2:]]
        elif words:
            words.append(line.strip())
        elif line and not line.startswith("#"):
            crate = line


def modules_of(file):
    """Returns the modules that a file of definitions or proofs has below it, in its order."""
    names = re.findall(r"(?m)^pub mod (\w+)", file.read_text()) if file.is_file() else []
    return [it for it in names if it != "Imports"]


def files_of(folder):
    """Returns the sources of a crate: its code by name, then its definitions and the subjects of its proofs in the
    order of their lists, in which each builds on those before it."""
    listed = [folder / part / f"{name}.antt" for part in ("specs", "proofs")
              for name in modules_of(folder / part / "Lib.antt")]
    return [*sorted((folder / "src").rglob("*.rt")), *(it for it in listed if it.is_file())]


def index_of(names):
    """Returns the index of the crates of these names, or of all where there is none; lowest first. A name that is none
    of a crate is a KeyError."""
    folders, items = crates_here(), list(items_of(PROMISES.read_text()))
    for name in names:
        folders[name]
    lines = HEAD.splitlines()
    for name in [it for it in folders if not names or it in names]:
        lines += ["", f"## {name}", ""]
        for file in files_of(folders[name]):
            lines += entry(file, folders[name], [it for it in items if it.crate == name])
    return "\n".join(lines) + "\n"


def wrong_promises():
    """Finds functions and clauses in crates/promises.txt that no source of the crate has."""
    functions = {name: [(file, it) for file in files_of(folder) if file.suffix == ".rt" for it in functions_of(file)]
                 for name, folder in crates_here().items()}
    for item in items_of(PROMISES.read_text()):
        place, here = f"crates/promises.txt:{item.number}", []
        for name in item.names:
            found = [it for file, it in functions.get(item.crate, ()) if item.is_of(name, file, it)]
            here += found
            if not found:
                yield f"{place}: {item.crate} has no function {name}"
        clauses = {word for it in here for word in (it.name, *it.named_clauses())}
        for name in item.clauses:
            if name not in clauses:
                yield f"{place}: no clause {name} of {', '.join(item.names)}"
