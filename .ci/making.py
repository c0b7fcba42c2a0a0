"""What is checked of cases: that each text which a script in models/ prints is the one that models/made.txt has, so
that no case is lost; that a program passes these and those of cases/; and that those that have to fail do so."""
import concurrent.futures
import hashlib
import os
import re
import subprocess
import sys
import tempfile
from pathlib import Path

from texts import TOP

MODELS, DATA = TOP / "models", TOP / "cases"
TABLE = MODELS / "made.txt"
PASSED, FAILED = "all cases passed\n", "all cases failed as they have to\n"
SECONDS = 600
# How many lines are shown of what failed.
SHOWN = 60


class Made:
    """A line of the table: a file of cases, how many cases and lines it has, its hash, and the command that prints it.
    In place of the hash it has `stored` if the file is one of cases/."""

    def __init__(self, line):
        self.file, cases, lines, self.hash, self.script, *words = line.split()
        self.counts = int(cases), int(lines)
        self.is_stored = self.hash == "stored"
        self.command = [sys.executable, str(MODELS / self.script), *words]
        self.shown = " ".join([f"models/{self.script}", *words])

    def text(self):
        """Returns what the command prints, and its status."""
        ran = subprocess.run(self.command, stdin=subprocess.DEVNULL, stdout=subprocess.PIPE, timeout=SECONDS)
        return ran.stdout, ran.returncode


def lines_of_table():
    return [Made(it) for it in TABLE.read_text().splitlines() if it and not it.startswith("#")]


def hash_of(text):
    return hashlib.sha256(text).hexdigest()[:32]


def counts_of(text):
    """Returns how many cases and how many lines a text has."""
    return len(re.findall(rb"(?m)^case ", text)), text.count(b"\n")


def wrong_text(made, text, status):
    """Yields what is wrong with what a command printed."""
    counts, file = counts_of(text), DATA / made.file
    if status:
        yield f"{made.shown}: it ended with status {status}"
    elif counts != made.counts:
        yield "{}: it prints {} cases in {} lines, not {} in {}".format(made.shown, *counts, *made.counts)
    elif made.is_stored and (not file.is_file() or text != file.read_bytes()):
        yield f"{made.shown}: this is not what is in {file.relative_to(TOP)}"
    elif not made.is_stored and hash_of(text) != made.hash:
        yield f"{made.shown}: the hash of what it prints is {hash_of(text)}, not that of models/made.txt"


def wrong_table(table):
    """Yields scripts of which no cases are stored, so that nobody can read what they print."""
    scripts = {it.name for it in MODELS.iterdir() if it.is_file() and os.access(it, os.X_OK)}
    for script in sorted(scripts | {it.script for it in table}):
        if script not in scripts:
            yield f"models/made.txt: no script models/{script}"
        elif not any(it.script == script and it.is_stored for it in table):
            yield f"models/made.txt: no stored file of models/{script}"


def run_cases(program, words, wanted):
    """Runs cases/run with these words on a program. Returns a line for each mistake."""
    ran = subprocess.run([sys.executable, DATA / "run", *words], env={**os.environ, "SFTPV3": str(program)},
                         stdin=subprocess.DEVNULL, stdout=subprocess.PIPE, stderr=subprocess.STDOUT, timeout=SECONDS)
    printed = ran.stdout.decode(errors="replace")
    if (printed, ran.returncode) == (wanted, 0):
        return []
    return [f"cases/run {' '.join(words[:1])}: {program}: it ended with status {ran.returncode}",
            *(f"  {it}" for it in [*printed.splitlines()[:SHOWN], *printed.splitlines()[SHOWN:][-1:]])]


def wrong_runs(program, texts):
    """Runs all stored cases, and these texts by the names of their files, on a program; and those that have to fail."""
    with tempfile.TemporaryDirectory(prefix="cases-") as room:
        for name, text in texts.items():
            Path(room, f"printed-{name}").write_bytes(text)
        files = sorted(str(it) for it in [*DATA.glob("*.cases"), *Path(room).glob("*.cases")])
        return [*run_cases(program, files, PASSED), *run_cases(program, ["--must-fail"], FAILED)]


def wrong_cases(programs=()):
    """Has each script print its cases, and runs all cases with these builds of the program. Returns the mistakes, and
    what was done, in words."""
    table = lines_of_table()
    with concurrent.futures.ThreadPoolExecutor(os.cpu_count()) as pool:
        printed = list(pool.map(Made.text, table))
    found = [line for it, text in zip(table, printed) for line in wrong_text(it, *text)]
    made = {it.file: text for it, (text, _) in zip(table, printed) if not it.is_stored}
    found += [line for program in programs for line in wrong_runs(program, made)]
    count = sum(counts_of(it)[0] for it in made.values())
    stored = sum(counts_of(it.read_bytes())[0] for it in DATA.glob("*.cases"))
    return [*wrong_table(table), *found], (f"{stored} cases of cases/ and {count} of models/"
                                           f"{' passed' if programs and not found else ''}")
