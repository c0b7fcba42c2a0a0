"""The hash of all that the refusal of edits depends on."""
import hashlib
import re
from collections.abc import Iterable
from pathlib import Path

from crates import SOURCES, Crates

from editing.blocks import Edit
from editing.definitions import Block, Files, Imports, names_in, words_of

# Files of proofs that are of a function by their place.
ANSWERS = ("Answers.antt", "Invariants.antt")
# The path of a definition or a lemma in a source, and its name.
PATH = re.compile(r"\b(\w+::(?:specs|proofs)::(?:[^\s():,;]+::)*)([^\s():,;]+)")


class Own:
    """What a crate's own files hold, and the names by which they lead to other files.

    The sources and the answers are what they are by their places. Definitions and lemmas may be in any file.
    """

    def __init__(self, files: Files, name: str):
        self.placed: list[tuple[str, str]] = []
        self.free: list[Path] = []
        self.imports: Imports = []
        self.words: set[str] = set()
        for file, path in files.crates.files(name, SOURCES):
            own, passed, rest = files.parts(file)
            text = "\n".join(rest)
            for _, it in own + passed:
                self.words |= {*it.split(".")} if files.file_of(it) is None else {it.rpartition(".")[2]}
            if file.suffix == ".rt":
                paths = [re.sub(r"^crate\b", name, "".join(it)).replace("::", ".") for it in PATH.findall(text)]
                own = own + [(it.rpartition(".")[2], it) for it in paths]
                self.words |= {*re.findall(r"\w+", text)}
            if file.suffix == ".rt" or file.name.startswith(ANSWERS):
                whole, behind = files.behind_modules(PATH.sub(r"\2", text), own + passed)
                named = [it for it in own + passed if it[1] not in files.modules]
                names = sorted(it if to.startswith("sftp_") else f"{to} {it}" for it, to in named)
                self.placed.append((path, "\n".join([*names, whole])))
                self.imports += named + behind
            else:
                self.free.append(file)


def contracts_below(files: Files, name: str, words: set[str]) -> tuple[set[str], Imports]:
    """Returns the contracts of the crates below that a crate with these words sees, and what these contracts import."""
    below: set[str] = set()
    imports: Imports = []
    for other in files.crates.below(name):
        for file, _ in files.crates.files(other, ("src",)):
            seen = {text for function, text in files.contracts(file) if function is None or function in words}
            used = {it for text in seen for it in words_of(text)}
            _, behind = files.behind_modules("\n".join(seen), files.parts(file).imports)
            imports += [it for it in files.parts(file).imports if it[0] in used] + behind
            below |= seen
    return below, imports


def several_in(blocks: Iterable[Block]) -> set[str]:
    """Returns the names that more than one text defines."""
    found: dict[str, str] = {}
    return {name for it in blocks for name in names_in(it.text) if found.setdefault(name, it.text) != it.text}


def told(links: Iterable[tuple[str, list[Block] | str]], several: set[str]) -> list[str]:
    """Returns what names lead to, as far as the names do not tell it: those that several blocks define, and those of
    other repositories."""
    found = {f"{name}: {led}" for name, led in links if isinstance(led, str)}
    found |= {f"{name}: {it.text}" for name, led in links if name in several and not isinstance(led, str) for it in led}
    return sorted(found)


def hash_of(files: Files, name: str, edits: Iterable[Edit]) -> str:
    """Returns the hash of all that the refusal of these edits of a crate depends on. In which file a definition or a
    lemma is, and by way of which files a name is imported, is not part of it."""
    own = Own(files, name)
    below, imports = contracts_below(files, name, own.words)
    links = [(path.rpartition(".")[2], files.ends_of(path)) for _, path in own.imports + imports]
    free = {it for file in own.free for it in files.blocks(file)}
    reached = files.reached([*free, *(it for _, led in links if not isinstance(led, str) for it in led)])
    several = several_in(reached)
    blocks = {it for it in reached if it in free or "specs" in it.file.parts}
    texts = {"\n".join([files.links(it).text, *told(files.links(it).led, several)]) for it in blocks}
    parts = own.placed + [(it.file_name, it.text) for it in edits]
    parts += [("", it) for it in (*sorted(below), *sorted(texts), *told(links, several))]
    sum = hashlib.sha256()
    for label, text in parts:
        data = text.encode()
        sum.update(f"{label} {len(data)}\n".encode() + data)
    return sum.hexdigest()


def hash_now(crates: Crates, name: str, edits: Iterable[Edit]) -> str:
    """Returns the hash by what the files hold now, whatever was read of them before."""
    return hash_of(Files(crates), name, edits)
