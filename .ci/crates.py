"""The crates of the repository, what each stands on, and copies of some, for the scripts that prove in a copy."""
import os
import re
import shutil
from pathlib import Path

TOP = Path(__file__).resolve().parents[1]
# The lists of crates, each with its folder. Sources of programs that only measure or only try something end in .txt, so
# that the gate passes them by.
LISTS = [(TOP / "crates.txt", TOP / "crates"), (TOP / "bench" / "crates" / "list.txt", TOP / "bench" / "crates"),
         (TOP / "fuzz" / "crates" / "list.txt", TOP / "fuzz" / "crates")]
SOURCES = ("src", "specs", "proofs")
# What the gate runs a program on.
OF_PROGRAM = ("stdin", "stdout", "args", "status", "data")


class Crates:
    """The crates by name, lowest first: their lines in a list, their folders, and the crates that they name."""

    def __init__(self):
        self.lines, self.folders = {}, {}
        for file, folder in LISTS:
            for line in file.read_text().splitlines():
                name = re.match(r"(\w+):", line)
                if name:
                    self.lines[name[1]], self.folders[name[1]] = line, folder / name[1]
        self.named = {it: [n for n in line.split(":")[1].split() if n in self.lines] for it, line in self.lines.items()}

    def below(self, *names):
        """Returns the crates below these, each once, lowest first."""
        found = []
        for name in names:
            for other in self.named[name]:
                found += [it for it in [*self.below(other), other] if it not in found]
        return found

    def files(self, name, parts=SOURCES):
        """Returns the files of a crate in these parts, in order, each with its path in the crate."""
        folder = self.folders[name]
        files = [it for part in parts for it in [folder / part, *sorted((folder / part).rglob("*"))] if it.is_file()]
        return [(it, str(it.relative_to(folder)).removesuffix(".txt")) for it in files]

    def copy(self, names, to, parts=SOURCES):
        """Copies crates, with the list of them, to a folder where rt finds them."""
        (to / "crates.txt").write_text("".join(f"{self.lines[it]}\n" for it in names))
        shutil.copy(TOP / "HANDLES", to)
        for name in names:
            for file, path in self.files(name, parts):
                target = to / "crates" / name / path
                target.parent.mkdir(parents=True, exist_ok=True)
                shutil.copy(file, target)

    def copy_kept(self, name, to, part="out"):
        """Copies what rt keeps of a crate."""
        source = self.folders[name] / part
        if source.is_dir():
            shutil.copytree(source, to / "crates" / name / part, symlinks=True, copy_function=link_or_copy)


def link(source, target):
    """Shares a file that nobody changes in place, or copies it where there are no links."""
    try:
        return os.link(source, target)
    except OSError:
        return shutil.copy2(source, target)


def link_or_copy(source, target):
    """A check replaces a file of its kept proofs and never changes one, so a copy may share it."""
    return link(source, target) if source.endswith(".oantt") else shutil.copy2(source, target)
