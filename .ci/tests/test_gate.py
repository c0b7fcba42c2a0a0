"""`bench/gate`: what it prints of costs, by hand; and what it sees of processes that take a known time."""
import os
import subprocess
import sys
import tempfile
import unittest
from pathlib import Path
from unittest import mock

sys.dont_write_bytecode = True
TOP = Path(__file__).resolve().parents[2]
import costs
from costs import Costs, table

# Uses a processor for so many seconds, in a child for as many again if there is a word `twice`.
BURN = """import subprocess, sys, time
until = time.process_time() + float(sys.argv[1])
while time.process_time() < until:
    pass
if "twice" in sys.argv:
    subprocess.run([sys.executable, "-c", sys.argv[-1], sys.argv[1]], check=True)
"""
RT = """#!{python}
import sys, time
if sys.argv[1:] == ["version"]:
    sys.exit(print("kit-of-the-test logic 1"))
until = time.process_time() + 0.3
while time.process_time() < until:
    pass
sys.exit({status})
"""


def burn(seconds: float, *words: str) -> str:
    """Returns a command for a shell."""
    quoted = " ".join(f"'{it}'" for it in words)
    return f"{sys.executable} -c \"$BURN\" {seconds} {quoted}"


class Seen(unittest.TestCase):
    def test_processes_by_crate_and_kind(self):
        with tempfile.TemporaryDirectory() as folder:
            edit = Path(folder, "rt-edit-1-x")
            edit.mkdir()
            commands = [burn(0.5, "build", "--crate-name", "one", "twice") + ' "$BURN"',
                        burn(0.5, "build", "--crate-name", "one", "--test"),
                        f"(cd {edit} && {burn(0.5, 'check', '--crate-name', 'two')})",
                        burn(0.5, "check", "--crate-name", "two", "--start", "no function"), burn(0.5, "fmt")]
            running, all_seen = subprocess.Popen(["sh", "-c", "; ".join(commands) + "; exit 5"],
                                                 env={**os.environ, "BURN": BURN}), Costs()
            with mock.patch.object(costs, "PAUSE", 0.05):
                running.returncode, used = all_seen.watch(running)
        self.assertEqual((running.returncode, sorted(all_seen.by_crate())), (5, ["one", "two"]))
        one, two = (all_seen.by_crate()[it] for it in ("one", "two"))
        for seconds, wanted in ((one["proof"], 1), (one["tests"], 0.5), (two["edits"], 0.5), (two["trial"], 0.5)):
            self.assertTrue(wanted - 0.3 < seconds < wanted + 0.3, (one, two))
        self.assertEqual((one["edits"], one["trial"], two["proof"], two["tests"]), (0, 0, 0, 0))
        self.assertTrue(3 <= used < 4.5, used)


class Printed(unittest.TestCase):
    def test_a_table(self):
        seen = Costs()
        seen.seen = {(1, 1): (("low", "proof"), 30.0), (2, 2): (("low", "edits"), 10.0),
                     (3, 3): (("high", "proof"), 60.0), (1, 4): (("low", "edits"), 5.0)}
        self.assertEqual(table(seen, 125.0, 20.0), [
            "                        units    proof    edits",
            "high                     3.00     3.00     0.00",
            "low                      2.25     1.50     0.75",
            "the rest                 1.00",
            "the whole                6.25     4.50     0.75"])

    def run_with(self, status: int, *words: str) -> tuple[int, str]:
        """Runs `bench/gate` with a toolchain whose example takes 0.3 seconds and ends with this status."""
        with tempfile.TemporaryDirectory() as folder:
            rt, example = Path(folder, "bin/rt"), Path(folder, "rattle/examples/worked/bikes")
            rt.parent.mkdir()
            rt.write_text(RT.format(python=sys.executable, status=status))
            rt.chmod(0o755)
            example.mkdir(parents=True)
            ran = subprocess.run([TOP / "bench/gate", *words], stdin=subprocess.DEVNULL, stdout=subprocess.PIPE,
                                 stderr=subprocess.STDOUT, text=True, check=False,
                                 env={**os.environ, "PATH": f"{rt.parent}:{os.environ['PATH']}", "BURN": BURN})
        return ran.returncode, ran.stdout

    def test_a_command_between_two_units(self):
        proof = burn(1.5, "build", "--crate-name", "one")
        status, said = self.run_with(0, "--", "sh", "-c", f"{proof}; echo done; exit 4")
        lines = said.splitlines()
        self.assertEqual((status, lines[0]), (4, "done"), said)
        self.assertRegex(said, r"\nthe unit: 0\.\d s of a processor before, 0\.\d s after \(kit-of-the-test logic 1\)")
        self.assertRegex(said, r"\none +\d\.\d\d +\d\.\d\d\nthe rest +-?\d\.\d\d\nthe whole +[1-6]\.\d\d +\d\.\d\d\n")
        self.assertRegex(lines[-1], r"^by the clock \d+\.\d\d units, \d+ s; status 4$")

    def test_no_unit(self):
        status, said = self.run_with(1, "--", "true")
        wanted = "gate: rt verdict of rattle/examples/worked/bikes ended with status 1: \n"
        self.assertEqual((status, said), (3, wanted))

    def test_wrong_words(self):
        self.assertEqual(self.run_with(0, "--all")[0], 2)


if __name__ == "__main__":
    unittest.main()
