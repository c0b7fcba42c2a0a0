"""What `.ci/pages` finds in scripts and documents that are broken on purpose, and what `packaging/` writes that does
not depend on the program."""
import os
import shutil
import sys
import tempfile
import unittest
from datetime import datetime, timezone
from pathlib import Path
from unittest import mock

sys.dont_write_bytecode = True
import mdoc
import scripts
import texts

SOURCE = 'const USAGE: &str = "0.1.0";\npub const VERSION: &str = "0.2.0";\n'


class Scripts(unittest.TestCase):
    def setUp(self):
        self.room = Path(self.enterContext(tempfile.TemporaryDirectory()))

    def script(self, text: str) -> list[str]:
        file = self.room / "script"
        file.write_text(text)
        return [str(file)]

    def test_reads_the_syntax_of_python(self):
        self.assertEqual(list(scripts.wrong_python(self.script("#!/usr/bin/env python3\nprint(1)\n"))), [])
        wrong = list(scripts.wrong_python(self.script("#!/usr/bin/env python3\nprint(1\n")))
        self.assertRegex("\n".join(wrong), r"^\S+/script:2: '\(' was never closed$")
        # no script
        self.assertEqual(list(scripts.wrong_python(self.script("print(1\n"))), [])

    def test_reads_what_is_installed_as_the_oldest_python_does(self):
        head = "#!/usr/bin/python3 -IS\n"
        for text, wanted in (("def f(x: int | None): pass\n", "script:2: a union in an annotation"),
                             ("x: int | None = 1\n", "script:2: a union in an annotation"),
                             ("match 1:\n    case 1: pass\n", "script:3: Pattern matching is only supported in"),
                             ("import fcntl\nfcntl.F_SETPIPE_SZ\n", "script:3: F_SETPIPE_SZ"),
                             ("from __future__ import annotations\ndef f(x: int | None): pass\ny = 1 | 2\n", "")):
            found = "\n".join(scripts.too_new(self.script(head + text)))
            self.assertTrue(wanted in found and bool(wanted) == bool(found), found)

    @unittest.skipUnless(scripts.reader(), "neither ruff nor pyflakes is installed")
    def test_reads_names_of_python(self):
        wrong = list(scripts.wrong_python(self.script("#!/usr/bin/env python3\nimport os\nprint(here)\n")))
        self.assertIn("os", wrong[0])
        self.assertTrue(any("here" in it for it in wrong))
        marked = self.script("#!/usr/bin/env python3\nimport os  # noqa: F401 (others have it from here)\n")
        self.assertEqual(list(scripts.wrong_python(marked)), [])

    def test_reads_the_syntax_of_shell(self):
        self.assertEqual(list(scripts.wrong_shell(self.script("#!/bin/sh\nif true; then echo; fi\n"))), [])
        wrong = self.script("#!/bin/sh\nif true; then echo\n")
        self.assertTrue(list(scripts.wrong_shell(wrong)))
        with mock.patch.object(shutil, "which", lambda _: None):
            self.assertTrue(list(scripts.wrong_shell(wrong)))

    @unittest.skipUnless(shutil.which("shellcheck"), "shellcheck is not installed")
    def test_reads_words_of_shell(self):
        wrong = list(scripts.wrong_shell(self.script("#!/bin/sh\nrm $1/*\n")))
        self.assertRegex("\n".join(wrong), r"/script:2:4: note: .*\[SC2086\]")

    def test_says_what_is_not_there(self):
        with mock.patch.object(shutil, "which", lambda _: None):
            self.assertEqual([it.partition(":")[0] for it in scripts.skipped()],
                             ["neither ruff nor pyflakes is installed", "mypy is not installed",
                              "shellcheck is not installed"])
            self.assertEqual(list(scripts.wrong_python(self.script("#!/usr/bin/env python3\nimport os\n"))), [])


class Version(unittest.TestCase):
    def wrong(self, changes: str, packaged: str = "0.2.0", said: str = "0.2.0") -> list[str]:
        files = {"CHANGELOG.md": changes, "crates/sftp_tool/src/lib.rt": SOURCE,
                 "pyproject.toml": f'[project]\nversion = "{packaged}"\n',
                 "python/sftpv3/system/parsers.py": f'VERSION = "{said}"\n'}
        with mock.patch.object(texts, "text", files.get):
            return list(texts.wrong_version())

    def test_heads_the_changes(self):
        for heading in "## 0.2.0, not released yet", "## 0.2.0, 28 November 2026", "## 0.2.0":
            self.assertEqual(self.wrong(f"# Changes\n\n{heading}\n\n- More.\n\n## 0.1.0\n"), [])

    def test_is_told_if_it_does_not(self):
        for changes in "## 0.3.0\n\n## 0.2.0\n", "## 0.2\n", "# Changes\n":
            self.assertRegex(self.wrong(changes)[0], r"^CHANGELOG\.md: .*0\.2\.0$")
        self.assertRegex(self.wrong("## 0.2.0\n", "0.1.0")[0], r"^pyproject\.toml: .*0\.2\.0$")
        self.assertRegex(self.wrong("## 0.2.0\n", said="0.1.0")[0], r"parsers\.py: .*0\.2\.0$")


class Dates(unittest.TestCase):
    def test_page_has_the_date_that_is_given(self):
        with mock.patch.dict(os.environ, SOURCE_DATE_EPOCH="90000"):
            self.assertEqual(mdoc.page_date(), "January 2, 1970")

    def test_page_has_the_date_of_the_changes_without_git(self):
        changed = datetime.fromtimestamp((mdoc.TOP / "CHANGELOG.md").stat().st_mtime, timezone.utc)
        with mock.patch.dict(os.environ, SOURCE_DATE_EPOCH="", PATH="/nowhere"):
            self.assertEqual(mdoc.page_date(), changed.strftime("%B %-d, %Y"))


class Sections(unittest.TestCase):
    def test_headings_paragraphs_and_items(self):
        text = "NOTES\n\nIt runs. It\nends.\n\nMore.\n\n- one\n  word\n- 'two'\n\nBehind.\n\nCAVEATS\n\n- three\n"
        self.assertEqual(mdoc.sections(text), [
            ".Sh NOTES", "It runs.", "It ends.", ".Pp", "More.", ".Bl -bullet", ".It", "one word", ".It",
            "\\&\\(aqtwo\\(aq", ".El", ".Pp", "Behind.", ".Sh CAVEATS", ".Bl -bullet", ".It", "three", ".El"])
