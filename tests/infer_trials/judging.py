"""What `sftpv3 audit` says of a session with a tree, and `sftpv3 infer` without one; trees that a seed makes, and
sessions of `sftpv3 serve`, the strict model, from them."""
import os
import random
import re
import subprocess
import tempfile
from dataclasses import dataclass

from sftpv3.codec import trees
from sftpv3.peer import servers
from sftpv3.probe import planner, sessions
from sftpv3.system import program

# Seconds that either may take for one of these sessions.
PATIENCE = 120


class Wrong(Exception):
    """The program did what it must not do, whatever the session is."""


def run(program, words):
    try:
        done = subprocess.run([program, *words], stdin=subprocess.DEVNULL, capture_output=True, text=True,
                              errors="replace", timeout=PATIENCE, check=False)
    except subprocess.TimeoutExpired:
        raise Wrong(f"`{words[0]}` took more than {PATIENCE} seconds") from None
    if done.returncode not in (0, 1):
        raise Wrong(f"`{words[0]}` ended with status {done.returncode}: {done.stdout}{done.stderr}")
    return done.returncode == 0, done.stdout.strip(), done.stderr.strip()


def accepted_with(program, tree, transcript, options=()):
    """Whether the session is accepted with this tree, and what was said."""
    is_accepted, said, _ = run(program, ["audit", "--tree", tree, "--transcript", transcript, *options])
    return is_accepted, said


def accepted_without(program, transcript, options=(), tree=None):
    """Whether a tree is found with which the session is accepted, and what was said. A tree that is written, beside the
    transcript or as the one that is named, has to be one with which `audit` accepts it, and where none is found none
    may be written."""
    tree = tree or f"{transcript}.inferred"
    if os.path.exists(tree):
        os.remove(tree)
    is_found, said, why = run(program, ["infer", *options, "--transcript", transcript, tree])
    if not is_found:
        if not said.startswith("no tree found"):
            raise Wrong(f"`infer` ended with status 1, and said {said!r}")
        if os.path.exists(tree):
            raise Wrong("`infer` wrote a tree, and ended with status 1")
        return False, f"{said} {why}".strip()
    if not re.match(r"inferred \d+ entr(y|ies) from \d+ requests?; accepted", said):
        raise Wrong(f"`infer` ended with status 0, and said {said!r}")
    is_right, verdict = accepted_with(program, tree, transcript, options)
    if not is_right:
        raise Wrong(f"`infer` wrote a tree, and `audit` says with it: {verdict}")
    return True, said


NAMES = [b"a", b"b", b"docs", b"log", b"x y", b"caf\xc3\xa9", b"new", b"n", b"\xff", b"data.bin"]
MODES = {trees.DIRECTORY: [0o755, 0o700, 0o1777], trees.FILE: [0o644, 0o600, 0o755, 0o640]}


class Maker:
    """Draws the entries of a tree."""

    def __init__(self, seed):
        self.random = random.Random(f"start {seed}")
        self.entries, self.directories = {}, [b""]

    def place(self):
        """A place that is free, as a path."""
        while True:
            path = self.random.choice(self.directories) + b"/" + self.random.choice(NAMES)
            if path not in self.entries:
                return path

    def add(self, path, kind, content=b""):
        owner = self.random.choice([(0, 0), (0, 0), (1000, 1000), (7, 8)])
        self.entries[path] = trees.Entry(path, kind, content, *owner, self.random.choice(MODES.get(kind, [0])))

    def directory(self):
        path = self.place()
        if path.count(b"/") < 4:
            self.add(path, trees.DIRECTORY)
            self.directories.append(path)

    def file(self):
        size = self.random.choice([0, 1, 5, 26, 100, 3000])
        self.add(self.place(), trees.FILE, self.random.randbytes(size))

    def of_kind(self, kind):
        return [path for path, entry in self.entries.items() if entry.kind == kind]

    def link(self):
        """A link that leads to an entry, by its path or by its name alone, or to nothing."""
        found = list(self.entries)
        target = self.random.choice(found + [b"/nothing", b"n/m"])
        self.add(self.place(), trees.LINK, self.random.choice([target, target.rpartition(b"/")[2]]))

    def further_name(self):
        """One more name of a file. The first in the order of the tree has the bytes, the others lead to it."""
        files = self.of_kind(trees.FILE)
        if files:
            first, other = sorted([self.random.choice(files), self.place()], key=lambda path: path.split(b"/"))
            old = self.entries.pop(first, None) or self.entries.pop(other)
            lead = [entry for entry in self.entries.values()
                    if entry.kind == trees.FURTHER and entry.content == old.path]
            self.entries[first] = trees.Entry(first, trees.FILE, old.content, old.uid, old.gid, old.permissions)
            self.entries[other] = trees.Entry(other, trees.FURTHER, first)
            for entry in lead:
                entry.content = first


def start(seed, links, names):
    """The tree of a seed: with links, or with files of several names, or neither."""
    maker = Maker(seed)
    for _ in range(maker.random.randint(1, 4)):
        maker.directory()
    for _ in range(maker.random.randint(2, 7)):
        maker.file()
    for _ in range(maker.random.randint(1, 4) if links else 0):
        maker.link()
    for _ in range(maker.random.randint(1, 2) if names else 0):
        maker.further_name()
    home = maker.random.choice([b"/", b"/", maker.random.choice(maker.directories) or b"/"])
    return trees.Tree(maker.entries.values(), home)


# The seeds, of which each third has links, and each fifth files of several names; and the fewest and the most requests.
SEEDS, LINKS, SHARED, LEAST, MOST = range(1, 301), 3, 5, 10, 80


@dataclass
class Tried:
    """A session that was tried: its seed, what its tree has, whether it was accepted, and what was said."""

    seed: int
    links: bool
    names: bool
    accepted: bool
    said: str


def record(folder, tree, steps, seed, in_flight):
    """The session of these steps: its records, and the names of its tree file and of its transcript."""
    folder = tempfile.mkdtemp(dir=folder)
    tree_file, transcript = (os.path.join(folder, name) for name in ("start.tree", "session.transcript"))
    trees.write(tree, tree_file)
    words = ["--shuffle", str(seed)] if in_flight > 1 else []
    server = servers.Server([program.program(), "serve", "--tree", tree_file, *words])
    session = sessions.play(server, tree_file, steps, in_flight)
    with open(transcript, "wb") as file:
        file.write(session.transcript())
    return session.records, tree_file, transcript


def attempt(folder, seed):
    """Plays the session of a seed, and judges it without its tree."""
    links, names = seed % LINKS == 0, seed % SHARED == 0
    tree = start(seed, links, names)
    count = LEAST + seed * 37 % (MOST - LEAST + 1)
    steps = list(planner.Planner(seed, tree).small(count))
    _, tree_file, transcript = record(folder, tree, steps, seed, 16 if seed % 2 else 1)
    is_right, said = accepted_with(program.program(), tree_file, transcript)
    if not is_right:
        raise Wrong(f"seed {seed}: a session of serve is refused with its tree: {said}")
    return Tried(seed, links, names, *accepted_without(program.program(), transcript))
