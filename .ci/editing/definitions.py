"""The definitions that contracts lead to, as the crates' files hold them; and what crates above can see of a source:
its types, its traits, and the heads of its functions."""
import re
from collections.abc import Iterable, Iterator
from functools import cache
from pathlib import Path
from typing import NamedTuple

from crates import Crates

IMPORT = re.compile(r" *(?:(?:pub|unfoldable|ghost) )*use Rattle\.([^\s{;]+?)(?:\.\{(.*)\})?(?: as (\S+?))?;?")
FUNCTION = re.compile(r" *(?:pub(?:\([a-z]+\))? )?(?:(?:const|unsafe) )*fn (?P<name>\w+)?")
# A name of a function, or None for a type, a trait or an impl, and the text of the contract.
Contract = tuple[str | None, str]


def contracts_in(text: str) -> list[Contract]:
    """Returns what crates above can see of a source, in parts: a type, a trait or an impl of one, with its functions
    without their bodies; the flags of a type; or the name of a function or a method, and its head.

    Attributes of functions are left out: they are hints for the prover and the compiler.
    """
    parts: list[tuple[str | None, list[str]]] = []
    attributes: list[str] = []
    block, is_seen = "", False
    lines = iter(text.splitlines())
    for line in lines:
        if line.startswith("#["):
            attributes.append(line)
        elif line.lstrip().startswith("//") or (block.startswith("impl") and line.startswith("    #[")):
            continue
        elif begins := FUNCTION.match(line):
            attributes, head = [], function_head(line, lines)
            is_method = line.startswith(" ")
            if is_method and is_seen and (" for " in block or not block.startswith("impl")):
                parts[-1][1].extend(head)
            elif line.lstrip().startswith("pub fn "):
                parts.append((begins["name"], [block, *head] if is_method else head))
        else:
            if line.startswith("}"):
                is_seen = False
            elif line[:1].strip():
                block, is_seen = line, is_seen_above(line)
                if is_seen:
                    parts.append((None, [*attributes]))
                attributes = []
            if is_seen and line.strip() and not IMPORT.fullmatch(line):
                parts[-1][1].append(line)
    return [(name, "\n".join(it)) for name, it in parts if len(it) > 2 or not it[0].startswith("impl")]


def is_seen_above(line: str) -> bool:
    """Returns whether crates above can see the item that begins with this line, which is no function."""
    begins = line.startswith(("pub ", "impl", "bitflag_items!"))
    return begins and not line.startswith(("pub(", "pub use ", "pub mod "))


def function_head(first: str, lines: Iterator[str]) -> list[str]:
    """Takes the lines of a function, and returns those before its body.

    This relies on the layout of `rt fmt`: a body begins behind a brace that ends the first line, or a line at its
    indentation, and ends at a line with its closing brace alone.
    """
    indent = first[: len(first) - len(first.lstrip())]
    head = [first]
    while not (head[-1].endswith("{") and re.match(f"{indent}[^ ]", head[-1])):
        if head[-1].endswith((";", "{}")) or first.endswith("}"):
            return head
        head.append(next(lines))
    for line in lines:
        if line == f"{indent}}}":
            break
    return [line for line in head if not line.lstrip().startswith("//")]


KEYWORDS = {"abbrev", "unfoldable", "opaque", "pub", "data", "record", "ruleset", "mutual", "module", "_", "where", "|"}
# Parts of the standard library in which a name stands for one thing.
STANDARD = re.compile(r"std\.(?:specs\.Prelude|proofs\.Common|proofs\.lemmas\.\w+)\.(?=[^.]+$)")
# The first line of a block of data or of a module, whose lines below it define names.
OPENS = re.compile(r"(?:pub )?(?:data|module|mutual)\b")
# A name, and the path of what it stands for.
Imports = list[tuple[str, str]]


class Parts(NamedTuple):
    """What a file of a crate imports, what it passes on, and its other lines without comments."""

    imports: Imports
    passed: Imports
    rest: list[str]


def parts_of(file: Path) -> Parts:
    """Returns the parts of a source, of definitions or of proofs."""
    mark, found = "--" if file.suffix == ".antt" else "//", Parts([], [], [])
    for line in file.read_text().splitlines():
        it = IMPORT.fullmatch(line)
        if it:
            (found.passed if "pub use" in line else found.imports).extend(imported(*it.groups()))
        elif not line.lstrip().startswith(mark):
            found.rest.append(line)
    return found


def imported(path: str, names: str | None, alias: str | None) -> Imports:
    """Returns what an import brings."""
    if names is None:
        return [(alias or path.rpartition(".")[2], path)]
    pairs = [it.strip().partition(" as ") for it in names.split(",")]
    return [(alias or name, f"{path}.{name}") for name, _, alias in pairs]


@cache
def words_of(text: str) -> set[str]:
    """Returns the words of contracts, operators among them."""
    return {*re.findall(r"[^\s(){}\[\],.;:&<>]+", text)}


class Block(NamedTuple):
    """A block of a file of definitions or lemmas: a part between empty lines, with the indented ones behind it."""

    file: Path
    text: str


class Links(NamedTuple):
    """The text of a block, and the names in it, each with the blocks or the path that it leads to."""

    text: str
    led: list[tuple[str, list[Block] | str]]


@cache
def names_in(block: str) -> frozenset[str]:
    """Returns the names that a block defines, those of constructors and of a module's definitions among them."""
    found, depths = set(), [0]
    for line in block.splitlines():
        text = line.lstrip()
        depth = len(line) - len(text)
        while text and depths[-1] > depth:
            depths.pop()
        words = [it for it in text.split() if it not in KEYWORDS]
        if words and depth == depths[-1] and not text.startswith(("infix", "unfolding")):
            found.add(words[0])
        if OPENS.match(text):
            depths.append(depth + 2)
    return frozenset(found)


@cache
def names_used(text: str) -> frozenset[str]:
    """Returns the words of definitions or lemmas, without fields, which stand behind a dot."""
    return frozenset(re.findall(r"[^\s(){}\[\],;:.]+", re.sub(r"\.[^\s(){}\[\],;:.]+", "", text)))


def is_bound(name: str, text: str) -> bool:
    """Returns whether a text has a name for a parameter, or for something of its own behind `where`."""
    word = re.escape(name)
    parameter, variable = rf"\((?:\S+ )*{word}(?: [^\s:]+)* :", rf"λ \(?(?:[^\s.]+ )*{word}[ .]"
    return bool(re.search(rf"(?m){parameter}|{variable}|^ +{word} .*[:=]", text))


def is_used(name: str, text: str) -> bool:
    """Returns whether a text has a name, which may be an operator with places between its parts."""
    return {it for it in name.split("◌") if it} <= names_used(text)


class Files:
    """The crates' files as they are when each is first read."""

    def __init__(self, crates: Crates):
        self.crates = crates
        listed = [(name, *it) for name in crates.lines for it in crates.files(name, ("specs", "proofs"))]
        # The files of definitions and of proofs, by the paths that lead to them.
        self.modules = {".".join((name, *Path(path).with_suffix("").parts)): file for name, file, path in listed}
        # What is made of a file or a block is made once.
        for method in (self.parts, self.contracts, self.blocks, self.defined, self.links):
            setattr(self, method.__name__, cache(method))

    def parts(self, file: Path) -> Parts:
        return parts_of(file)

    def contracts(self, file: Path) -> list[Contract]:
        return contracts_in(file.read_text())

    def blocks(self, file: Path) -> list[Block]:
        """Returns the blocks of a file. The names of the files in its folder are in none."""
        text = "\n".join(it for it in self.parts(file).rest if not re.fullmatch(r"(pub )?mod \S+", it))
        texts = [it.strip("\n") for it in re.split(r"\n\s*\n(?=\S)", f"\n\n{text}")]
        return [Block(file, it) for it in texts if it]

    def defined(self, file: Path) -> dict[str, list[Block]]:
        """Returns the blocks of a file by the names that they define."""
        names: dict[str, list[Block]] = {}
        for block in self.blocks(file):
            for name in names_in(block.text):
                names.setdefault(name, []).append(block)
        return names

    def file_of(self, path: str) -> Path | None:
        """Returns the file of definitions or proofs in which a path of the repository's crates ends, or None."""
        while path and path not in self.modules:
            path = path.rpartition(".")[0]
        return self.modules.get(path)

    def led_to(self, path: str) -> list[Block]:
        """Returns the blocks that define what a path leads to, also by way of files that only pass it on. There are
        none if it leads elsewhere than to the crates' definitions, or to a whole file."""
        file, name = self.file_of(path), path.rpartition(".")[2]
        if file is None or path in self.modules:
            return []
        passed = [other for it, other in self.parts(file).passed if it == name]
        if name in self.defined(file) or not passed:
            return self.defined(file).get(name) or [it for it in self.blocks(file) if name in names_used(it.text)]
        return self.led_to(passed[0])

    def end_of(self, path: str) -> str:
        """Returns where a path leads to, beyond the files that only pass it on."""
        file, name = self.file_of(path), path.rpartition(".")[2]
        passed = [other for it, other in self.parts(file).passed if it == name] if file else []
        if passed and name not in self.defined(file):
            return self.end_of(passed[0])
        return STANDARD.sub("std.", path)

    def ends_of(self, path: str) -> list[Block] | str:
        """Returns what a path leads to: blocks, or a path that leads elsewhere. A whole file has none of its own."""
        end = self.end_of(path)
        return self.led_to(path) if self.file_of(end) else end

    def behind_modules(self, text: str, imports: Imports) -> tuple[str, Imports]:
        """Returns a text without the names of files before others, and the names behind these, with their paths."""
        found: Imports = []
        for name, module in imports:
            if module in self.modules and name in words_of(text):
                form = rf"(?<![^\s(){{}}\[\],;:]){re.escape(name)}\.([^\s(){{}}\[\],.;:]+)"
                behind = [it for it in re.findall(form, text) if it in self.defined(self.modules[module])]
                found += [(it, f"{module}.{it}") for it in behind]
                text = re.sub(form, lambda it: it[1] if it[1] in behind else it[0], text)
        return text, found

    def links(self, block: Block) -> Links:
        """Returns what the names in a block lead to, and its text without the names of files before those."""
        imports = self.parts(block.file).imports
        text, paths = self.behind_modules(block.text, imports)
        paths += [it for it in imports if is_used(it[0], text) and not is_bound(it[0], text)]
        found = [(path.rpartition(".")[2], self.ends_of(path)) for _, path in paths]
        found += [(name, its) for name, its in self.defined(block.file).items()
                  if block not in its and is_used(name, text) and not is_bound(name, text)]
        return Links(text, found)

    def reached(self, blocks: Iterable[Block]) -> set[Block]:
        """Returns these blocks, and all that the names in them lead to, and so on."""
        found, left = set(), [*blocks]
        while left:
            block = left.pop()
            if block not in found:
                found.add(block)
                left += [it for _, led in self.links(block).led if not isinstance(led, str) for it in led]
        return found
