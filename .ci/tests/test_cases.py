"""What cases/run makes of the text of cases, and what it says of runs, without the program. Expected values are written
by hand, from docs/CASES.md and docs/FORMATS.md. cases/must-fail/ tries the rest with the program."""
import sys
import unittest
from pathlib import Path

sys.dont_write_bytecode = True
TOP = Path(__file__).resolve().parents[2]
from runner import lines, tables
from runner.blocks import Unreadable, cases_of
from runner.expanding import expand
from runner.runs import Came, words_of
from runner.wanted import FRONT, PACKETS, Wanted, differences

CASE = """# a comment

case one
tree
  D "/a" 0 0 0755
  # another

case two
status 1
"""


class Texts(unittest.TestCase):
    def test_cases_have_blocks(self):
        one, two = cases_of("a.cases", CASE)
        self.assertEqual((one.number, one.title, two.number, two.title), (3, "one", 8, "two"))
        self.assertEqual([(it.number, it.keyword, it.words) for it in two.blocks], [(9, "status", "1")])
        self.assertEqual(expand(one.blocks[0].lines, False), ['D "/a" 0 0 0755'])

    def test_block_in_front_is_refused(self):
        with self.assertRaises(Unreadable):
            cases_of("a.cases", "status 1\n" + CASE)

    def test_what_is_short_is_written_out(self):
        found = expand(["  C 1 READ #2 0 4", "  C 2 CLOSE #1.3", '  "ab"*2"c" x', "        y", '  "open'], False)
        name = r'"\x00\x00\x00\x00\x00\x00\x00\x02\x00\x00\x00\x02"'
        other = r'"\x00\x00\x00\x00\x00\x00\x00\x01\x00\x00\x00\x03"'
        self.assertEqual(found, [f"C 1 READ {name} 0 4", f"C 2 CLOSE {other}", '"ababc" x y', ""])

    def test_lines_are_repeated(self):
        self.assertEqual(expand(["  repeat 2", "    C %5 #%1", "  z"], True), ["C 5 #1", "C 6 #2", "z"])

    def test_output_is_taken_unchanged(self):
        self.assertEqual(expand(['  "a"*2 #1', "          b"], True), ['"a"*2 #1', "        b"])

    def test_words(self):
        self.assertEqual(words_of('sftpv3 show "a b"  c ""'), ["sftpv3", "show", "a b", "c", ""])


class Bytes(unittest.TestCase):
    def refused(self, make, *words):
        with self.assertRaises(lines.Unread, msg=str(words)):
            make(*words)

    def test_records(self):
        self.assertEqual(lines.record_of("C INIT 3"), (b"C", bytes.fromhex("000000050100000003")))
        made = bytes.fromhex("0000000f" "0e" "00000001" "000000022f61" "00000000")
        self.assertEqual(lines.record_of('C 1 MKDIR "/a"'), (b"C", made))
        said = bytes.fromhex("00000011" "65" "00000003" "00000004" "00000000" "00000000")
        self.assertEqual(lines.record_of("S 3 STATUS 4"), (b"S", said))
        self.assertEqual(lines.record_of("S raw 0aff"), (b"S", b"\n\xff"))
        self.assertEqual(lines.record_of("S raw"), (b"S", b""))

    def test_fields(self):
        found = lines.record_of(
            r'C 9 OPEN "\x2f" READ|CREAT size=1 owner=2,3 permissions=0644 times=4,5 extended="k"="v"')
        self.assertEqual(found[1], bytes.fromhex(
            "0000003c" "03" "00000009" "000000012f" "00000009" "8000000f" "0000000000000001" "00000002" "00000003"
            "000001a4" "00000004" "00000005" "00000001" "000000016b" "0000000176"))
        self.assertEqual(lines.record_of('S 1 NAME "a" "b"; "c" ""')[1], bytes.fromhex(
            "00000024" "68" "00000001" "00000002" "0000000161" "0000000162" "00000000" "0000000163" "00000000"
            "00000000"))

    def test_records_that_are_refused(self):
        for it in ("X 1 CLOSE", "C 1 CLOSE", 'C 1 CLOSE "a" ', 'C 1 MKDIR "/a', 'C 1 MKDIR "\\xAB"', "C 1 FOO",
                   "C 4294967296 LIMITS", 'S 1 MKDIR "/a"', 'C 1 OPEN "/a" READ|READ', 'C 1 OPEN "/a" READ|',
                   "S raw 0", "S raw AB", "S 1 NAME x", 'C 1 MKDIR "/a" permissions=755', 'C 1 MKDIR "/a" owner=1'):
            self.refused(lines.record_of, it)

    def test_any_bytes(self):
        found = lines.bytes_of(['"a\\x00b"', "00 01ff", "C INIT 3"])
        self.assertEqual(found, bytes.fromhex("610062" "0001ff" "000000050100000003"))
        for it in ('"a" "b"', "0", "xy"):
            self.refused(lines.bytes_of, [it])

    def test_trees(self):
        head = bytes.fromhex("000000012f" "00000000" "00000000")
        blank = bytes.fromhex("00000000" "00000000" "00000000" "000001ed")
        self.assertEqual(lines.tree([]), b"SFTREE01" + head + blank)
        found = lines.tree(['F "/f" 0 0 0644 "abc"', 'H "/g" 1', 'L "/l" "f"'])
        self.assertEqual(found, b"SFTREE01" + head + bytes.fromhex(
            "00000003" "00000000" "00000000" "000001ed"
            "000000022f66" "46" "00000000" "00000000" "000001a4" "00000003616263"
            "000000022f67" "48" "00000001" "000000022f6c" "4c" "0000000166"))
        wide = lines.tree(['home "/" uid 0 gid 0 limits 65536 16777216 32768 256 67108864', 'd "/" 0 0 0755 0 1'])
        self.assertEqual(wide, b"SFTREE03" + head + bytes.fromhex(
            "00010000" "0000000001000000" "00008000" "00000100" "0000000004000000" "00000000" "64" "00000000" "00000000"
            "000001ed" "00000000" "00000001"))
        for it in (['d "/a" 0 0 0755 1 1'], ['D "/a" 0 0 755'], ['H "/a"'], ["X"], ['home "/" uid 0']):
            self.refused(lines.tree, it)


class Wants(unittest.TestCase):
    def test_what_differs_is_said(self):
        wanted = Wanted(1, b"a", b"b")
        self.assertEqual(list(differences(wanted, Came(1, b"a", b"b"))), [])
        for came in (Came(0, b"a", b"b"), Came(1, b"a\n", b"b"), Came(1, b"a", b""), Came(-11, b"a", b"b")):
            self.assertEqual(len(list(differences(wanted, came))), 1)

    def test_a_front_ends_with_one_line_feed(self):
        wanted = Wanted(output=b"a\n", output_form=FRONT)
        said = [len(list(differences(wanted, Came(0, it)))) for it in (b"a\n", b"a\nb\n", b"a\nb", b"a\n\n", b"b\n")]
        self.assertEqual(said, [0, 0, 1, 1, 1])

    def test_the_first_packet_that_differs(self):
        one, two = (lines.record_of(f"S 1 STATUS {it}")[1] for it in (0, 4))
        said = next(differences(Wanted(output=one + two, output_form=PACKETS), Came(0, one + one)))
        self.assertIn("packet 2 of the server", said)

    def test_verdicts_of_changes(self):
        accepted = Came(0, b"accepted 1 requests\n")
        fault = Came(2, b"", b"sftpv3: tree: entry 0: Short\nsftpv3: file: x\n")
        self.assertTrue(tables.is_said(accepted, "accepted 1 requests"))
        self.assertTrue(tables.is_said(fault, "tree: entry 0: Short"))
        for came, verdict in ((accepted, "accepted 2 requests"), (accepted, "refused 1 requests"),
                              (fault, "tree: entry 0: Magic"),
                              (Came(2, b"", fault.errors + b"x\n"), "tree: entry 0: Short"),
                              (Came(1, b"", fault.errors), "tree: entry 0: Short")):
            self.assertFalse(tables.is_said(came, verdict))
