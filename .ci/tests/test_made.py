"""What `.ci/pages` finds in cases that are lost, in promises that nothing makes, and in counts
of definitions. Expected values are written by hand."""
import sys
import tempfile
import unittest
from pathlib import Path
from unittest import mock

sys.dont_write_bytecode = True
import believing
import indexing
import making
from indexing import functions_of, head_of

SOURCE = """//! Files that are counted, and
//! no more. A second sentence.

/// A count.
pub trait Counts: Drop {
    /// What is known.
    ghost known: { Self → ℕ };

    /// Counts one more: the count is one higher.
    fn count(&mut self)
        ensures counted { known self.new ≡ known self.old + 1 };
}

impl<'a> Files<'a> {
    /// How many files there are.
    #[inline]
    pub fn len(&self) -> u64
        requires { True }
        ensures { result ≡ length self }
    {
        ensures_nothing();
        self.len
    }

    pub(crate) fn hidden(&self)
        ensures kept { self.new ≡ self.old }
    {
    }
}

/// Reads.
pub fn read(bytes: &[u8]) -> Option<u8>
    // What is read is there.
    ensures found { IfSome result (λ it.
        it ∈ bytes) }
    ensures none { result ≡ None }
{
    bytes.first()
}
"""
CASES = b"# Made.\n\ncase one\n  C 1 CLOSE\n\ncase two\n"


class Sources(unittest.TestCase):
    def setUp(self):
        self.file = Path(self.enterContext(tempfile.TemporaryDirectory()), "counts.rt")
        self.file.write_text(SOURCE)

    def test_head_is_the_first_sentence(self):
        self.assertEqual(head_of(self.file), "Files that are counted, and no more")

    def test_functions_have_their_types_and_clauses(self):
        found = [(it.title(), it.is_public, [name for name, _ in it.clauses]) for it in functions_of(self.file)]
        self.assertEqual(found, [("Counts::known", False, []), ("Counts::count", True, ["counted"]),
                                 ("Files::len", True, [""]), ("Files::hidden", False, ["kept"]),
                                 ("read", True, ["found", "none"])])

    def test_words_stand_below_the_file_of_their_first_function(self):
        items = list(indexing.items_of("a_crate\n- `Counts::count`, `read`: [counted] how\n  many\n- `Files`: x\n"
                                       "- `gone`: y\n"))
        self.assertEqual(indexing.entry(self.file, self.file.parent, items)[1:],
                         ["  - `Counts::count`, `read`: [counted] how many", "  - `Files`: x"])

    def test_entry_names_public_functions_alone(self):
        self.assertEqual(indexing.entry(self.file, self.file.parent),
                         ["- `counts.rt`: Files that are counted, and no more. `Counts::count` (`counted`), "
                          "`Files::len`, `read` (`found`, `none`)."])


class Index(unittest.TestCase):
    def test_crates_that_are_named_are_in_the_index(self):
        heads = [it for it in indexing.index_of(["sftp_wire", "sftp_json"]).splitlines() if it.startswith("## ")]
        self.assertEqual(heads, ["## sftp_json", "## sftp_wire"])
        self.assertRaises(KeyError, indexing.index_of, ["sftp_absent"])

    def test_each_file_of_each_crate_is_in_the_index(self):
        index = indexing.index_of([])
        for name, folder in indexing.crates_here().items():
            _, _, part = index.partition(f"\n## {name}\n")
            for file in indexing.files_of(folder):
                self.assertIn(f"- `{file.relative_to(folder)}`: ", part.partition("\n## ")[0])

    def test_names_that_no_source_has_are_found(self):
        page = "\n".join(["# words", "", "sftp_wire", "- `front`: [exact, exacter] x;", "  [only] x [a link](there)",
                          "- `fronts`: x", ""])
        with tempfile.TemporaryDirectory() as room:
            file = Path(room, "promises.txt")
            file.write_text(page)
            with mock.patch.object(indexing, "PROMISES", file):
                found = list(indexing.wrong_promises())
        self.assertEqual(found, ["crates/promises.txt:4: no clause exacter of front",
                                 "crates/promises.txt:6: sftp_wire has no function fronts"])


class Cases(unittest.TestCase):
    def wrong(self, line, text=CASES, status=0):
        return list(making.wrong_text(making.Made(line), text, status))

    def test_cases_as_listed(self):
        self.assertEqual(self.wrong(f"a.cases 2 6 {making.hash_of(CASES)} lists 1"), [])

    def test_case_that_is_lost(self):
        self.assertEqual(self.wrong(f"a.cases 3 9 {making.hash_of(CASES)} lists 1 2"),
                         ["models/lists 1 2: it prints 2 cases in 6 lines, not 3 in 9"])

    def test_line_that_is_another(self):
        found = self.wrong(f"a.cases 2 6 {making.hash_of(CASES)} lists 1", CASES.replace(b"1", b"2"))
        self.assertEqual(len(found), 1)

    def test_stored_file_that_is_another(self):
        found = self.wrong("types.cases 2 6 stored types")
        self.assertEqual(found, ["models/types: this is not what is in cases/types.cases"])

    def test_script_that_fails(self):
        self.assertEqual(self.wrong("a.cases 2 6 00 lists", b"", 2), ["models/lists: it ended with status 2"])

    def test_script_without_stored_cases(self):
        table = [it for it in making.lines_of_table() if not (it.is_stored and it.script == "moves")]
        self.assertEqual(list(making.wrong_table(table)), ["models/made.txt: no stored file of models/moves"])

    def test_program_that_fails_is_reported(self):
        with tempfile.TemporaryDirectory() as room:
            file = Path(room, "a.cases")
            file.write_bytes(b"case one\nrun sftpv3 --version\noutput\n  sftpv3 1\n")
            found = making.run_cases("/bin/true", [str(file)], making.PASSED)
        self.assertEqual(found[0], f"cases/run {file}: /bin/true: it ended with status 1")
        self.assertEqual(found[-1], "  1 of 1 cases failed")


class Counts(unittest.TestCase):
    def wrong(self, old, new):
        page = believing.PAGE.read_text()
        self.assertIn(old, page)
        with mock.patch.object(believing, "PAGE") as changed:
            changed.read_text.return_value = page.replace(old, new, 1)
            return list(believing.wrong_counts())

    def test_finds_another_number_and_another_list(self):
        found = self.wrong(" files for `audit`", "0 files for `audit`")
        self.assertRegex(found[0], r"^docs/PROMISES\.md: the clauses reach \d,\d+ lines in \d\d files, ")
        self.assertEqual(len(found), 1)
        self.assertEqual(self.wrong("`Spelling`, `Reading`", "`Spelling`"),
                         ["docs/PROMISES.md: the list of both lacks Reading of sftp_packets"])
        self.assertEqual(self.wrong("alone: `Log` of", "alone: `Lots`, `Log` of"),
                         ["docs/PROMISES.md: the list of serve has Lots of sftp_transcript"])

    def test_counts_a_definition_with_its_comment(self):
        lines = ["-- ==== A part.", "", "-- a number", "abbrev pub one : N", "-- of one", "one = 1", "", "two = 2"]
        block = believing.Block(None, "abbrev pub one : N\none = 1")
        self.assertEqual([*believing.lines_of(block, lines)], [2, 3, 4, 5])
