"""Each script of clients/, tests/, fuzz/ and bench/ says what it is for when it is asked by `--help`, and does nothing
else. It says so if that cannot be printed, and a user's interrupt ends it without a traceback, also while it
imports."""
import os
import re
import signal
import subprocess
import sys
import tempfile
import unittest
from concurrent import futures
from pathlib import Path

TOP = Path(__file__).resolve().parents[2]

# The commands that are installed.
COMMANDS = ("audits", "fault", "import-log", "nightly", "page", "probe", "record", "recordd", "serve", "together",
            "tree", "walk")

# Seconds in which a script has to say what it is for, however busy the machine is.
LONG = 1800


def scripts() -> list[Path]:
    return sorted(it for folder in ("clients", "tests", "fuzz", "bench") for it in (TOP / folder).iterdir()
                  if it.is_file() and os.access(it, os.X_OK) and it.read_bytes().startswith(b"#!"))


def models() -> list[Path]:
    return [it for it in (TOP / "models").iterdir() if it.is_file() and os.access(it, os.X_OK)]


# Runs a script that gets SIGINT when it imports the Nth module behind system.standard, which every command begins
# with; with 0 it prints how many these are.
STRIKES = """
import os, runpy, signal, sys
number, script = int(sys.argv[1]), sys.argv[2]
signal.signal(signal.SIGINT, signal.default_int_handler)
class Finder:
    found = []
    def find_spec(self, name, path, target=None):
        self.found += [name] if self.found or name == "sftpv3.system.signals" else []
        if len(self.found) - 1 == number > 0:
            os.kill(os.getpid(), signal.SIGINT)
sys.meta_path.insert(0, Finder())
sys.argv = [script, "--help"]
try:
    runpy.run_path(script, run_name="__main__")
finally:
    if not number:
        os.write(2, str(len(Finder.found) - 1).encode())
"""


# Runs a script of which no module behind system.standard is there, or finds memory.
LACKS = """
import runpy, sys
script, kind = sys.argv[1:]
class Finder:
    found = []
    def find_spec(self, name, path, target=None):
        self.found += [name] if self.found or name == "sftpv3.system.signals" else []
        if len(self.found) > 1:
            raise {"MemoryError": MemoryError, "ImportError": ImportError}[kind]
sys.meta_path.insert(0, Finder())
sys.argv = [script, "--help"]
runpy.run_path(script, run_name="__main__")
"""

# What stands in a user's folder of modules: to import it is a mistake.
SPRUNG = """raise SystemExit("a module of the user's was run")\n"""

# Runs a script that gets SIGTERM behind its work, before the interpreter ends.
ENDS = """
import atexit, os, runpy, signal, sys
def strike():
    os.kill(os.getpid(), signal.SIGTERM)
    for _ in range(1000):
        pass
atexit.register(strike)
sys.argv[0] = {script!r}
runpy.run_path({script!r}, run_name="__main__")
"""

# Runs a script that gets SIGTERM when it has done its work, just before it holds signals off.
ENDS_WORK = """
import os, runpy, signal, sys
from sftpv3.system import ending
hold_off = ending.hold_off
def strike():
    ending.hold_off = hold_off
    os.kill(os.getpid(), signal.SIGTERM)
    for _ in range(1000):
        pass
    hold_off()
ending.hold_off = strike
sys.argv[0] = {script!r}
runpy.run_path({script!r}, run_name="__main__")
"""

# Runs a script in which something happens that it does not foresee.
FAILS = """
import runpy, sys
from sftpv3.system import ending
def fail():
    raise ValueError("unforeseen")
ending.end_in_order = fail
sys.argv[0] = {script!r}
runpy.run_path({script!r}, run_name="__main__")
"""

# Prints what a script says of a value that no option takes which reads its value.
READS = """
import argparse, runpy, sys
from sftpv3.system.parsers import Parser
def try_values(parser, *_):
    for action in parser._actions:
        if action.type and action.option_strings:
            try:
                parser._get_value(action, "x!y")
            except argparse.ArgumentError as error:
                print(error)
    raise SystemExit(0)
Parser.parse_args = Parser.parse_known_args = try_values
script = sys.argv[1]
sys.argv = [script, "--help"]
runpy.run_path(script, run_name="__main__")
"""

# A test script, and `.ci/pages`, that a user interrupts.
QUIET = """
import sys
import trials.steps
raise KeyboardInterrupt
"""
PAGES = """
import os, runpy, signal, subprocess, sys
# a shell has what it starts in the background ignore SIGINT
signal.signal(signal.SIGINT, signal.default_int_handler)
subprocess.run = lambda *_, **__: os.kill(os.getpid(), signal.SIGINT)
sys.argv = [".ci/pages"]
runpy.run_path(".ci/pages", run_name="__main__")
"""

# What each of these cannot do, and its status then.
FAILING = {
    "audits": (3, ["--tree", "ROOM/nowhere", "ROOM/nowhere"]),
    "fault": (127, ["--", "ROOM/nowhere"]),
    "import-log": (3, ["ROOM/nowhere"]),
    "nightly": (3, ["--records", "ROOM/nowhere", "--state", "ROOM/state", "root", "ROOM"]),
    "page": (2, ["examples/letters.tree", "-o", "ROOM/page.html"]),
    "probe": (3, ["--keep", "ROOM/kept", "--", "ROOM/nowhere", "{tree}"]),
    "record": (127, ["ROOM/t", "ROOM/nowhere"]),
    "recordd": (3, ["--socket", "ROOM/socket", "ROOM/nowhere"]),
    "serve": (127, ["--program", "ROOM/nowhere", "--tree", "ROOM/nowhere"]),
    "tree": (3, ["--out", "ROOM/tree", "ROOM/nowhere"]),
    "walk": (3, ["--session", "ROOM/s", "--", "ROOM/nowhere"]),
}

# What each of these does soon.
ENDING = {
    "nightly": ["--records", "ROOM", "--state", "ROOM/state", "root", "ROOM"],
    "page": ["examples/wrong-byte.transcript", "-o", "ROOM/page.html"],
    "tree": ["--out", "ROOM/tree", "bench/crates/sftp_bench/src"],
    "walk": ["--session", "ROOM/session", "--", "/bin/false"],
}


def servers() -> list[Path]:
    """The scripts that start a server which is installed everywhere."""
    return [TOP / "clients/servers" / it for it in ("any", "gesftpserver", "openssh")]


def commands() -> list[Path]:
    return [TOP / "clients" / it for it in COMMANDS]


def run(words: list, **options) -> subprocess.CompletedProcess:
    """Runs a script. It and what it starts get no program, so nothing is proved."""
    return subprocess.run(words, **{"cwd": TOP, "stdin": subprocess.DEVNULL, "stdout": subprocess.DEVNULL,
                                    "stderr": subprocess.PIPE, "timeout": LONG,
                                    "env": {**os.environ, "SFTPV3": "/bin/false"}, **options})


def run_code(code: str, *words: object) -> tuple[int, str]:
    """The status of Python that runs this code with these words, and what it says to standard error."""
    ran = run([sys.executable, "-B", "-c", code, *map(str, words)])
    return ran.returncode, ran.stderr.decode()


def to_full(script: Path) -> str:
    """Returns what is wrong with the answer of a script whose standard output is a full disk."""
    with open("/dev/full", "wb") as full:
        ran = run([script, "--help"], stdout=full)
    said = ran.stderr.decode()
    is_right = re.fullmatch("[a-z0-9-]+: .*(standard output|stdout): No space left on device\n", said)
    return "" if is_right and ran.returncode == 3 else f"status {ran.returncode}, {said[-200:]!r}"


def run_by(code: str, script: Path) -> tuple[int, str]:
    """The status of a script that this code runs, and what it says to standard error."""
    with tempfile.TemporaryDirectory() as room:
        return run_code(code.format(script=str(script)), *(it.replace("ROOM", room) for it in ENDING[script.name]))


def struck_at_end(script: Path) -> str:
    """Returns what is wrong with a script to which SIGTERM comes when it has done its work."""
    for code in (ENDS, ENDS_WORK):
        status, said = run_by(code, script)
        if status not in (0, 3, 128 + signal.SIGTERM) or "Traceback" in said:
            return f"status {status}, {said[-300:]!r}"
    return ""


def without_module(script: Path) -> str:
    """Returns what is wrong with a script whose modules cannot be read: that is no verdict."""
    for kind in ("ImportError", "MemoryError"):
        status, said = run_code(LACKS, script, kind)
        is_said = said == f"{script.name}: out of memory\n" if kind == "MemoryError" else "\nImportError\n" in said
        if status != 3 or not is_said:
            return f"{kind}: status {status}, {said[-300:]!r}"
    return ""


def failed(script: Path) -> str:
    """Returns what is wrong with a script in which something happens that it does not foresee: that is no verdict."""
    status, said = run_by(FAILS, script)
    return "" if status == 3 and "ValueError: unforeseen\n" in said else f"status {status}, {said[-300:]!r}"


def to_nobody(script: Path) -> str:
    """Returns what is wrong with a script that says what it is for, or its version, to a pipe that nobody reads."""
    reader, writer = os.pipe()
    os.close(reader)
    with os.fdopen(writer, "wb") as pipe:
        for word in ("--help", "--version"):
            ran = run([script, word], stdout=pipe)
            if ran.returncode or ran.stderr:
                return f"{word}: status {ran.returncode}, {ran.stderr[-200:]!r}"
    return ""


def values_said(script: Path) -> str:
    """What a script says of wrong values, a line for each option."""
    ran = run([sys.executable, "-B", "-c", READS, script], stdout=subprocess.PIPE)
    return ran.stdout.decode() + ran.stderr.decode()


def wrong_to_full(script: Path) -> str:
    """Returns what is wrong with the status of a script that got wrong words, and whose standard error is a full
    disk."""
    with open("/dev/full", "wb") as full:
        ran = run([script, "--wrong"], stdout=subprocess.PIPE, stderr=full)
    return "" if ran.returncode == 2 else f"status {ran.returncode}, {ran.stdout[-200:]!r}"


def interrupted(script: Path) -> str:
    """Returns what is wrong with a script that is interrupted at its first, its last and an import between them."""
    status, said = run_code(STRIKES, 0, script)
    if not said.isdecimal() or int(said) < 2:
        return f"it imports {said!r} behind system.standard, status {status}"
    for number in {1, (int(said) + 1) // 2, int(said)}:
        status, found = run_code(STRIKES, number, script)
        if status not in (-signal.SIGINT, 128 + signal.SIGINT) or found:
            return f"import {number} of {said}: status {status}, {found[-200:]!r}"
    return ""


def wrong(script: Path, **settings: str) -> str:
    """Returns what is wrong with the answer of a script to `--help`. What it starts gets no program, so nothing is
    proved."""
    started = subprocess.Popen([script, "--help"], stdin=subprocess.DEVNULL, stdout=subprocess.PIPE,
                               stderr=subprocess.PIPE, env={**os.environ, "SFTPV3": "/bin/false", **settings},
                               start_new_session=True)
    try:
        said, why = started.communicate(timeout=LONG)
    except subprocess.TimeoutExpired:
        os.killpg(started.pid, signal.SIGKILL)
        started.communicate()
        return f"it did not end within {LONG} seconds"
    if started.returncode or why or len(said.splitlines()) < 3:
        return f"status {started.returncode}, {said[:200]!r} {why[:200]!r}"
    return "" if b"ok: " not in said and b" passed" not in said else "it ran"


class Helps(unittest.TestCase):
    maxDiff = None

    def no_mistakes(self, judge, found):
        """Each of these scripts is right, as this function judges it."""
        with futures.ThreadPoolExecutor(8) as pool:
            told = dict(zip(found, pool.map(judge, found)))
        self.assertEqual({str(it.relative_to(TOP)): why for it, why in told.items() if why}, {})

    def test_each_script_says_what_it_is_for(self):
        self.assertGreater(len(scripts()), 30)
        self.no_mistakes(wrong, scripts())

    def test_each_command_says_its_version(self):
        number = re.search(r'(?m)^version = "(.*)"', (TOP / "pyproject.toml").read_text())[1]

        def mistake(script):
            ran = run([script, "--version"], stdout=subprocess.PIPE)
            name = f"{script.name} of sftpv3" if script in servers() else f"sftpv3-{script.name}"
            wanted = f"{name} {number}\n"
            if (ran.returncode, ran.stdout.decode(), ran.stderr) != (0, wanted, b""):
                return f"status {ran.returncode}, {ran.stdout!r} {ran.stderr[-200:]!r}"
            with open("/dev/full", "wb") as full:
                return "" if run([script, "--version"], stdout=full).returncode == 3 else "a full disk is not told"
        self.no_mistakes(mistake, commands() + servers())

    def test_help_builds_no_program(self):
        environment = {it: text for it, text in os.environ.items() if it != "SFTPV3"}
        with tempfile.TemporaryDirectory() as room:
            refusing = Path(room) / "rt"
            refusing.write_text("#!/bin/sh\nexit 3\n")
            refusing.chmod(0o755)
            environment["PATH"] = f"{room}:{environment['PATH']}"

            def mistake(script):
                ran = run([script, "--help"], env=environment, stdout=subprocess.PIPE)
                return "" if ran.returncode == 0 and not ran.stderr else f"{ran.returncode}, {ran.stderr[-200:]!r}"
            self.no_mistakes(mistake, scripts() + models())

    def test_settings_of_python_change_no_command(self):
        with tempfile.TemporaryDirectory() as room:
            for name in ("argparse", "os", "sftpv3", "subprocess", "tempfile"):
                (Path(room) / f"{name}.py").write_text(SPRUNG)
            settings = {"PYTHONOPTIMIZE": "2", "PYTHONPATH": room}
            self.no_mistakes(lambda it: wrong(it, **settings), commands() + servers())
            texts = run([TOP / "packaging/commands", room, *COMMANDS], env={**os.environ, **settings},
                        stdout=subprocess.PIPE, stderr=subprocess.STDOUT)
        self.assertEqual((texts.returncode, texts.stdout), (0, b""))

    def test_a_module_that_cannot_be_read_is_no_verdict(self):
        self.no_mistakes(without_module, commands() + servers())

    def test_each_script_says_that_it_cannot_print(self):
        self.no_mistakes(to_full, scripts() + servers())

    def test_no_command_says_that_nobody_reads_what_it_prints(self):
        self.no_mistakes(to_nobody, commands())

    def test_no_message_on_a_value_names_a_function(self):
        def mistake(script):
            said = values_said(script)
            return said if re.search("invalid .* value|Traceback", said) else ""
        self.no_mistakes(mistake, commands())
        # so that a test of nothing is none
        self.assertGreater(len(values_said(TOP / "clients/probe").splitlines()), 12)

    def test_an_interrupt_ends_each_command_while_it_imports(self):
        self.no_mistakes(interrupted, commands() + servers())

    def test_an_interrupt_ends_other_scripts_without_a_traceback(self):
        for code in (QUIET, PAGES):
            status, said = run_code(code)
            self.assertEqual((status in (-signal.SIGINT, 128 + signal.SIGINT), said), (True, ""), code)

    def test_the_status_is_the_same_where_standard_error_is_full(self):
        for name, (wanted, words) in FAILING.items():
            with tempfile.TemporaryDirectory() as room, open("/dev/full", "wb") as full, self.subTest(name):
                ran = run([TOP / "clients" / name, *(it.replace("ROOM", room) for it in words)], stderr=full)
                self.assertEqual(ran.returncode, wanted)

    def test_a_signal_at_the_end_does_no_harm(self):
        self.no_mistakes(struck_at_end, [TOP / "clients" / it for it in ENDING])

    def test_what_no_script_foresees_is_no_verdict(self):
        self.no_mistakes(failed, [TOP / "clients" / it for it in ENDING])

    def test_wrong_usage_has_its_status_where_standard_error_is_full(self):
        self.no_mistakes(wrong_to_full, commands())
