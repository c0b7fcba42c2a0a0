"""What `./edits` makes of right and wrong edits, without the prover. Expected values are written by hand."""
import shutil
import sys
import tempfile
import unittest
from pathlib import Path

sys.dont_write_bytecode = True
from crates import Crates
from editing.attempts import function_of
from editing.blocks import EditsError, read_blocks, read_edit, record_in, write_record, wrong_edits
from editing.definitions import Files, is_bound
from editing.hashes import hash_of

RIGHT = """# A comment at the head.
refused: 2 edits on 2026-11-27, under the hash 5a5a

# What its twin was.
edit: b_is_two
file: src/lib.rt
old: const B: u8 = 1;
new: const B: u8 = 2;

edit: a_forgets_all
file: src/lib.rt
old:     keep(all)
new:
old: all: u8
new: all: u16
"""
SOURCE = """const B: u8 = 1;

pub fn a(all: u8) {
    keep(all)
}

fn keep(one: u8) {
    drop(one)
}
"""
IMPORTS = "use Rattle.std.specs.Prelude.{ℕ, ◌+◌}\n\n"
TWICE = "-- a number, and again\nabbrev pub twice : ℕ → ℕ\ntwice n = n + n\n\n"
BOTH = "abbrev pub both : ℕ → ℕ\nboth n = sizes.twice n\n\n"
LAW = "use Rattle.sftp_json.specs.Sums.{both, twice}\n\npub law : (n : ℕ) → both n ≡ twice n\nlaw n = refl\n"
USER = """ghost use Rattle.sftp_json.specs.Sums.{both};

pub fn a(n: u8) -> u8
    ensures { result ≡ both n }
{
    n
}
"""


def read(text: str):
    return read_blocks("crate", "crates/crate/edits.txt", text.splitlines())


class Blocks(unittest.TestCase):
    def test_reads_in_the_order_of_the_names(self):
        first, second = read(RIGHT)
        self.assertEqual((first.name, second.name), ("a_forgets_all", "b_is_two"))
        block = "\nfile: src/lib.rt\nold: x\nnew: y\n\n"
        names = [it.name for it in read(f"edit: b{block}edit: a_b{block}edit: a{block}")]
        self.assertEqual(names, ["a", "a_b", "b"])
        self.assertEqual(second.text, "file: src/lib.rt\nold: const B: u8 = 1;\nnew: const B: u8 = 2;\n")
        self.assertEqual([(it.old, it.new) for it in first.changes], [("    keep(all)", ""), ("all: u8", "all: u16")])

    def test_tells_where_a_block_is_wrong(self):
        block = "edit: a\nfile: src/lib.rt\nold: x\nnew: y\n"
        for text, line, says in [
                ("old: x\n", 1, "in no edit"),
                (f"{block}\nold: x\nnew: y\n", 6, "in no edit"),
                (f"{block}and: more\n", 5, "in no edit"),
                (f"{block}\nrefused: 1 edits\n", 6, "in no edit"),
                ("edit:\nfile: src/lib.rt\n", 1, "no name"),
                ("edit: a b\n", 1, "no name"),
                (f"{block}\n{block}", 6, "an edit a already, at crates/crate/edits.txt:1"),
                ("edit: a\nold: x\nnew: y\n", 2, "not expected here"),
                ("edit: a\nfile: /etc/passwd\n", 2, "not expected here"),
                ("edit: a\nfile: src/lib.rt\nnew: y\n", 3, "not expected here"),
                ("edit: a\nfile: src/lib.rt\nold: x\nold: y\n", 4, "not expected here"),
                ("edit: a\nfile: src/lib.rt\nold: x\nnew: x\n", 4, "the new text is the old one"),
                ("edit: a\nfile: src/lib.rt\nold: x\n\n", 4, "a ends without a line `new: `"),
                ("edit: a\nfile: src/lib.rt\n", 2, "a ends without a change"),
                ("edit: a\nedit: b\n", 2, "a ends without a change")]:
            with self.subTest(text), self.assertRaises(EditsError) as raised:
                read(text)
            self.assertRegex(str(raised.exception), rf"^crates/crate/edits\.txt:{line}: .*{says}")

    def test_reads_a_file_of_the_gate(self):
        text = "file: src/lib.rt\nold: x\nnew: y\n"
        edit = read_edit("crate", "crates/crate/must-fail/a_is_y.edit", text.splitlines())
        self.assertEqual((edit.name, edit.file_name, edit.text), ("a_is_y", "a_is_y.edit", text))
        with self.assertRaisesRegex(EditsError, r"a_is_y\.edit:1: "):
            read_edit("crate", "crates/crate/must-fail/a_is_y.edit", ["and: more"])

    def test_writes_the_record_at_the_head(self):
        with tempfile.TemporaryDirectory() as room:
            file = Path(room, "edits.txt")
            file.write_text(RIGHT)
            write_record(Path(room), "2026-11-28", 3, "c0de")
            self.assertEqual(file.read_text(), RIGHT.replace("2 edits on 2026-11-27, under the hash 5a5a",
                                                             "3 edits on 2026-11-28, under the hash c0de"))
            self.assertEqual(record_in(Path(room)), "c0de")
            file.write_text("# Head.\n\nedit: a\n")
            self.assertEqual(record_in(Path(room)), "")
            write_record(Path(room), "2026-11-28", 1, "c0de")
            self.assertEqual(file.read_text(),
                             "# Head.\nrefused: 1 edits on 2026-11-28, under the hash c0de\n\nedit: a\n")


class Applied(unittest.TestCase):
    """Edits on the sources of a crate in a folder of its own."""

    def setUp(self):
        self.crates = Crates()
        self.folder = Path(self.enterContext(tempfile.TemporaryDirectory()))
        self.crates.folders["sftp_json"] = self.folder
        (self.folder / "src").mkdir()
        (self.folder / "src/lib.rt").write_text(SOURCE)

    def wrong(self, text: str) -> list[str]:
        (self.folder / "edits.txt").write_text(text)
        return wrong_edits(self.crates, "sftp_json")

    def test_changes_what_the_change_before_left(self):
        self.assertEqual(self.wrong(RIGHT), [])
        edit = read(RIGHT)[0]
        texts = edit.applied(lambda file: (self.folder / file).read_text())
        self.assertEqual(texts, {"src/lib.rt": SOURCE.replace("    keep(all)", "").replace("all: u8", "all: u16")})

    def test_changes_several_files(self):
        (self.folder / "src/more.rt").write_text("const C: u8 = 1;\n")
        more = "file: src/more.rt\nold: = 1\nnew: = 3\n"
        edit = read(f"edit: both\nfile: src/lib.rt\nold: = 1\nnew: = 2\n{more}")[0]
        texts = edit.applied(lambda file: (self.folder / file).read_text())
        self.assertEqual(texts["src/more.rt"], "const C: u8 = 3;\n")
        self.assertIn("const B: u8 = 2;", texts["src/lib.rt"])

    def test_tells_what_does_not_apply(self):
        for change, says in [
                ("src/lib.rt\nold: all\nnew: none", "the old text occurs 2 times in src/lib.rt, not once"),
                ("src/lib.rt\nold: gone\nnew: here", "the old text occurs 0 times in src/lib.rt, not once"),
                ("src/no.rt\nold: all\nnew: none", "the crate has no file src/no.rt")]:
            self.assertEqual(self.wrong(f"edit: a\nfile: {change}\n"), [f"crates/sftp_json/edits.txt:4: a: {says}"])

    def test_tells_what_it_cannot_read(self):
        self.assertRegex(self.wrong("hello\n")[0], r"^crates/sftp_json/edits\.txt:1: .*in no edit")
        (self.folder / "edits.txt").write_bytes(b"# \xff\n")
        self.assertRegex(wrong_edits(self.crates, "sftp_json")[0], r"edits\.txt: not a text: ")

    def test_looks_at_edits_of_the_gate(self):
        (self.folder / "must-fail").mkdir()
        (self.folder / "must-fail/a.edit").write_text("file: src/lib.rt\nold: gone\nnew: here\n")
        self.assertEqual(self.wrong(RIGHT), ["crates/sftp_json/must-fail/a.edit:3: a: the old text occurs 0 times in "
                                             "src/lib.rt, not once"])

    def test_knows_the_function(self):
        a_forgets_all, b_is_two = read(RIGHT)
        self.assertEqual(function_of(b_is_two, self.folder), None)
        self.assertEqual(function_of(a_forgets_all, self.folder), None)
        body = read("edit: a\nfile: src/lib.rt\nold: keep(all)\nnew: all\n")[0]
        self.assertEqual(function_of(body, self.folder), "lib::a")
        both = "edit: a\nfile: src/lib.rt\nold: keep(all)\nnew: all\nold: drop(one)\nnew: one\n"
        self.assertEqual(function_of(read(both)[0], self.folder), None)


class Hashes(unittest.TestCase):
    def hash(self, text: str) -> str:
        return hash_of(Files(self.crates), "sftp_json", read(text))

    def setUp(self):
        self.crates = Crates()

    def test_depends_on_names_and_texts_alone(self):
        first, second = RIGHT.index("edit: b_is_two"), RIGHT.index("edit: a_forgets_all")
        turned = f"{RIGHT[second:]}\n{RIGHT[first:second]}# Another comment.\n"
        self.assertEqual(self.hash(RIGHT), self.hash(turned))
        self.assertNotEqual(self.hash(RIGHT), self.hash(RIGHT.replace("= 2;", "= 3;")))
        self.assertNotEqual(self.hash(RIGHT), self.hash(RIGHT.replace("b_is_two", "b_is_not_one")))

    def test_depends_on_code_and_not_on_comments(self):
        with tempfile.TemporaryDirectory() as room:
            folder = Path(shutil.copytree(self.crates.folders["sftp_json"], Path(room, "crate"),
                                          ignore=shutil.ignore_patterns("out")))
            before = self.hash(RIGHT)
            self.crates.folders["sftp_json"] = folder
            self.assertEqual(self.hash(RIGHT), before)
            file = folder / "src/lib.rt"
            file.write_text("// A comment.\n" + file.read_text())
            self.assertEqual(self.hash(RIGHT), before)
            file.write_text(file.read_text() + "const MORE: u8 = 1;\n")
            self.assertNotEqual(self.hash(RIGHT), before)

    def hash_with(self, **texts: str) -> str:
        """Returns the hash of a crate with these texts of files in specs/ and proofs/, and with one source."""
        with tempfile.TemporaryDirectory() as room:
            self.crates.folders["sftp_json"] = Path(room)
            texts["src/lib.rt"] = texts.pop("source", USER)
            for path, text in texts.items():
                file = Path(room, path if "/" in path else f"specs/{path}.antt")
                file.parent.mkdir(exist_ok=True)
                file.write_text(text)
            return self.hash(RIGHT)

    def test_depends_on_definitions_and_not_on_their_places(self):
        sums = f"use Rattle.std.proofs.Common.{{ℕ}}\nuse Rattle.sftp_json.specs.Sizes as sizes\n\n{BOTH}"
        before = self.hash_with(Lib="pub mod Sizes\npub mod Sums\n", Sizes=IMPORTS + TWICE, Sums=sums)
        joined = IMPORTS + TWICE + "-- ==== Sums.\n\n" + BOTH.replace("sizes.", "")
        self.assertEqual(self.hash_with(Lib="pub mod Sums\n", Sums=joined), before)
        turned = IMPORTS + BOTH.replace("sizes.", "") + TWICE
        self.assertEqual(self.hash_with(Lib="pub mod Sums\n", Sums=turned), before)
        passed = USER.replace("Sums", "Passed")
        by_another = self.hash_with(Sums=joined, Passed="pub use Rattle.sftp_json.specs.Sums.{both}\n", source=passed)
        self.assertEqual(by_another, before)
        for other in (joined.replace("n + n", "n + n + n"), joined.replace("twice n\n", "twice (twice n)\n"),
                      joined.replace("Prelude", "Other"), joined.replace("twice", "double")):
            self.assertNotEqual(self.hash_with(Sums=other), before)

    def test_tells_variables_from_what_is_named_behind_them(self):
        for text in ("both = λ n. twice n", "both = λ n m. twice n", "row = λ t place. twice t.names place;"):
            self.assertFalse(is_bound("twice", text), text)
        for text in ("λ twice. twice", "λ n twice. n", "λ n. λ twice. n", "both : (n twice : ℕ) → ℕ"):
            self.assertTrue(is_bound("twice", text), text)

    def test_depends_on_which_of_two_definitions_is_meant(self):
        texts = {"Sizes": IMPORTS + TWICE, "Others": IMPORTS + TWICE.replace("n + n", "n")}
        sums = IMPORTS + "use Rattle.sftp_json.specs.Sizes.{twice}\n\n" + BOTH.replace("sizes.", "")
        before = self.hash_with(Sums=sums, **texts)
        self.assertNotEqual(self.hash_with(Sums=sums.replace("Sizes", "Others"), **texts), before)
        self.assertNotEqual(self.hash_with(Sums=sums, source=USER.replace("Sums.{both}", "Sizes.{twice}"), **texts),
                            self.hash_with(Sums=sums, source=USER.replace("Sums.{both}", "Others.{twice}"), **texts))

    def test_depends_on_lemmas_and_on_the_places_of_answers(self):
        texts = {"Sums": IMPORTS + TWICE + BOTH.replace("sizes.", ""), "proofs/Laws.antt": LAW,
                 "proofs/Answers.antt": "use Rattle.sftp_json.proofs.Laws.{law}\n\nreturns c = law c\n"}
        before = self.hash_with(**texts)
        moved = {it.replace("Laws", "Others"): text.replace("Laws", "Others") for it, text in texts.items()}
        self.assertEqual(self.hash_with(**moved), before)
        other = {"proofs/Laws.antt": LAW.replace("refl", "ap twice refl")}
        self.assertNotEqual(self.hash_with(**texts | other), before)
        moved = {it.replace("Answers", "Invariants"): text for it, text in texts.items()}
        self.assertNotEqual(self.hash_with(**moved), before)
