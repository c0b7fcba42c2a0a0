"""How `./edits` tries edits, with a program in place of `rt` that refuses each in one way: in a check of functions,
in one of the whole crate, or by the gate's command. Its lines are those of the toolchain's guides."""
import contextlib
import io
import os
import sys
import tempfile
import time
import unittest
from pathlib import Path
from unittest import mock

sys.dont_write_bytecode = True
from crates import Crates
from editing import trying
from editing.blocks import record_in

SOURCE = """const WHOLE: u8 = 1;

fn first(x: u8) -> u8 {
    x
}

fn second(x: u8) -> u8 {
    x + 1
}
"""
EDITS = {
    "together": "edit: second_adds_two\nfile: src/lib.rt\nold: x + 1\nnew: x + 2\n",
    "singly": "edit: whole_is_two\nfile: src/lib.rt\nold: WHOLE: u8 = 1;\nnew: WHOLE: u8 = 2;\n",
    "alone": "edit: whole_is_three\nfile: src/lib.rt\nold: WHOLE: u8 = 1;\nnew: WHOLE: u8 = 3;\n",
    "never": "edit: whole_is_four\nfile: src/lib.rt\nold: WHOLE: u8 = 1;\nnew: WHOLE: u8 = 4;\n",
}
RT = """#!{python}
import os, sys, time
from pathlib import Path
with open("{calls}", "a") as calls:
    calls.write(" ".join(sys.argv[1:]) + "\\n")
time.sleep(float(os.environ.get("SECONDS_OF_RT", 0)))
no = "no proof: expected answers in ./proofs/second/Answers.antt; `search` did not prove `returns-clause-whole`"
if sys.argv[1] == "must-fail":
    for file in sorted(Path("crates/sftp_json/must-fail").iterdir()):
        said = "refused, as it must be: a goal" if "= 3;" in file.read_text() else "NOT REFUSED: it is proved"
        print(f"rt: must-fail sftp_json/{{file.name}}: {{said}}")
elif "--only" in sys.argv:
    print("only=1")
    print(f"fn sftp_json::lib::second: {{no if 'x + 2' in Path('src/lib.rt').read_text() else 'proved'}}")
elif "= 2;" in Path("src/lib.rt").read_text():
    print(f"fn sftp_json::lib::first: {{no}}")
else:
    print("logic=proved")
"""


class Trying(unittest.TestCase):
    def setUp(self):
        self.room = Path(self.enterContext(tempfile.TemporaryDirectory()))
        self.crates, self.folder, self.calls = Crates(), self.room / "crate", self.room / "calls"
        self.crates.folders["sftp_json"] = self.folder
        (self.folder / "src").mkdir(parents=True)
        (self.folder / "src/lib.rt").write_text(SOURCE)
        self.calls.write_text("")
        rt = self.room / "bin/rt"
        rt.parent.mkdir()
        rt.write_text(RT.format(python=sys.executable, calls=self.calls))
        rt.chmod(0o755)
        path = {"PATH": f"{rt.parent}:{os.environ['PATH']}", "RT_COPIES": "1", "SECONDS_OF_RT": "0"}
        self.enterContext(mock.patch.dict(os.environ, path))
        self.enterContext(mock.patch.object(trying, "TOP", self.room))
        os.environ.pop("RT_JOBS", None)

    def tried(self, *names: str, end: float | None = None) -> tuple[int, list[str]]:
        """Tries these edits. Returns the status and what is printed."""
        (self.folder / "edits.txt").write_text("# Head.\n\n" + "\n".join(EDITS[it] for it in names))
        printed = io.StringIO()
        with contextlib.redirect_stdout(printed):
            status = trying.try_all(self.crates, ["sftp_json"], end)
        return status, printed.getvalue().splitlines()

    def is_due(self) -> bool:
        with mock.patch.object(self.crates, "lines", {"sftp_json": self.crates.lines["sftp_json"]}):
            return bool(trying.due_crates(self.crates))

    def test_refuses_each_in_its_way(self):
        status, lines = self.tried("together", "singly", "alone")
        self.assertEqual((status, lines), (0, [
            "sftp_json/second_adds_two.edit: refused: not proved: `returns-clause-whole`",
            "sftp_json/whole_is_two.edit: refused: fn sftp_json::lib::first: no proof: expected answers in "
            "./proofs/second/Answers.antt; `search` did not prove `returns-clause-whole`",
            "sftp_json/whole_is_three.edit: refused: a goal",
            "3 edits refused, 0 not refused"]))
        self.assertFalse(self.is_due())
        self.assertEqual((self.folder / "src/lib.rt").read_text(), SOURCE)

    def test_records_nothing_while_one_is_let_through(self):
        status, lines = self.tried("together", "never")
        self.assertEqual((status, lines[1:]), (1, [
            "rt: must-fail sftp_json/whole_is_four.edit: NOT REFUSED: it is proved", "1 edits refused, 1 not refused"]))
        self.assertEqual(record_in(self.folder), "")
        self.assertTrue(self.is_due())
        # what was refused is kept: without the other no command has to run
        self.calls.write_text("")
        self.assertEqual(self.tried("together"), (0, ["1 edits refused, 0 not refused"]))
        self.assertEqual(self.calls.read_text(), "")
        self.assertFalse(self.is_due())

    def test_forgets_what_was_refused_in_other_code(self):
        self.tried("together")
        (self.folder / "src/lib.rt").write_text(SOURCE.replace("= 1;", "= 7;"))
        self.assertTrue(self.is_due())
        self.calls.write_text("")
        self.tried("together")
        self.assertIn("check --only lib::second", self.calls.read_text())

    def test_ends_in_time(self):
        with mock.patch.dict(os.environ, SECONDS_OF_RT="30"):
            begun = time.monotonic()
            status, lines = self.tried("together", end=begun + 1)
        self.assertEqual((status, lines), (3, ["edits: the time was over before all edits of sftp_json were tried",
                                               "0 edits refused, 0 not refused"]))
        self.assertEqual(self.tried("together", end=begun)[0], 3)
        self.assertLess(time.monotonic() - begun, 20)
        self.assertTrue(self.is_due())
