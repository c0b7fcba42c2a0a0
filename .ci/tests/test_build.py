"""What `.ci/build` says and leaves behind when crates cannot be proved. Expected values are written by hand."""
import contextlib
import importlib.machinery
import importlib.util
import io
import os
import shutil
import subprocess
import sys
import tempfile
import time
import unittest
from pathlib import Path
from types import SimpleNamespace
from unittest import mock

sys.dont_write_bytecode = True
FOLDER = Path(__file__).resolve().parents[1]


def build():
    """The script as a module."""
    loader = importlib.machinery.SourceFileLoader("build", str(FOLDER / "build"))
    module = importlib.util.module_from_spec(importlib.util.spec_from_loader("build", loader))
    loader.exec_module(module)
    return module


COMMANDS = {"one": ["false"], "two": ["false"], "long": ["sleep", "600"]}


def begin(work, name, *_):
    """Begins a command in place of a proof."""
    (work.rooms / f"{name}.log").write_text("")
    work.running[name] = subprocess.Popen(COMMANDS[name], start_new_session=True)


class Failing(unittest.TestCase):
    def test_two_that_fail_at_once(self):
        module = build()
        with tempfile.TemporaryDirectory() as folder, contextlib.redirect_stderr(io.StringIO()) as said, \
                mock.patch.object(sys, "argv", ["build", folder, "program"]), \
                mock.patch.object(module.Build, "begin", begin), \
                mock.patch.object(module.Build, "__init__", lambda *_: None):
            work = module.Build()
            work.names, work.programs, work.proved, work.running = list(COMMANDS), [], [], {}
            work.crates = SimpleNamespace(named={name: [] for name in COMMANDS})
            work.length, work.processors = dict.fromkeys(COMMANDS, 1), 3
            work.rooms, work.log, work.start = Path(folder), Path(folder, "log"), time.monotonic()
            work.begin_ready()
            time.sleep(0.5)
            long = work.running["long"]
            self.addCleanup(long.kill)
            self.assertFalse(work.all_proved())
        self.assertEqual(said.getvalue(), "program: one is not proved\n")
        self.assertEqual(long.poll(), -15)

    def test_without_the_toolchain(self):
        module = build()
        with tempfile.TemporaryDirectory() as folder, contextlib.redirect_stderr(io.StringIO()) as said, \
                mock.patch.object(sys, "argv", ["build", folder, "sftpv3"]), \
                mock.patch.dict(os.environ, {"PATH": "/nowhere"}):
            self.assertEqual(module.main([folder, "sftpv3"]), 3)
        self.assertEqual(said.getvalue(), "sftpv3: there is no rt in the PATH: the Rattle toolchain, which has it, "
                                          "proves and builds the program\n")

    def test_what_changes_during_the_build_is_newer_than_it(self):
        module = build()
        with tempfile.TemporaryDirectory() as folder, mock.patch.object(shutil, "which", return_value="rt"):
            built, changed = Path(folder, "sftpv3.built"), Path(folder, "changed.rt")

            def proved(*_):
                time.sleep(0.1)
                changed.write_text("")
                time.sleep(0.1)
                built.write_text("")
                return True
            with mock.patch.object(module, "build", proved):
                self.assertEqual(module.main([folder, "sftpv3"]), 0)
                self.assertLess(built.stat().st_mtime, changed.stat().st_mtime)
                with mock.patch.object(os, "utime", side_effect=PermissionError):
                    self.assertEqual(module.main([folder, "sftpv3"]), 0)


# A stand-in for `rt` whose crates are built on each other in three ways, and count how often a sum is taken.
RT = """#!/usr/bin/env python3
import os, sys
from sys import path
path.insert(0, os.path.dirname(os.path.realpath(__file__)))
import rtlib
def main(words):
    rtlib.TOP.stamp()
    rtlib.TOP.stamp()
    print(*words, *rtlib.taken)
    return 7
if __name__ == "__main__":
    sys.exit(main(sys.argv[1:]))
"""
RTLIB = """taken = []
class Crate:
    def __init__(self, name, *below):
        self.name, self.below = name, below
    def stamp(self):
        taken.append(self.name)
        return [it.stamp() for it in self.below]
LOW = Crate("low")
TOP = Crate("top", Crate("left", LOW), Crate("right", LOW))
"""


class Sums(unittest.TestCase):
    """`.ci/rt`, with scripts in place of the toolchain's."""

    def run_with(self, **files: str) -> tuple[int, str]:
        with tempfile.TemporaryDirectory() as folder:
            for name, text in files.items():
                Path(folder, name.replace("_", ".")).write_text(text)
            Path(folder, "rt").chmod(0o755)
            path = f"{folder}:{os.environ['PATH']}"
            ran = subprocess.run([FOLDER / "rt", "lib", "--jobs", "2"], env={**os.environ, "PATH": path}, text=True,
                                 stdin=subprocess.DEVNULL, stdout=subprocess.PIPE, check=False)
            return ran.returncode, ran.stdout

    def test_each_sum_is_taken_once(self):
        self.assertEqual(self.run_with(rt=RT, rtlib_py=RTLIB), (7, "lib --jobs 2 top left low right\n"))

    def test_an_rt_without_sums_runs_as_it_is(self):
        self.assertEqual(self.run_with(rt="#!/bin/sh\necho $0 $* | sed s,.*/,,\nexit 3\n"), (3, "rt lib --jobs 2\n"))
        unhashable = RTLIB.replace("class Crate:\n", "class Crate:\n    __hash__ = None\n")
        self.assertEqual(self.run_with(rt=RT, rtlib_py=unhashable)[1].count("low"), 4)
        nothing = "taken = ()\nclass Crate:\n    pass\nTOP = type('', (), {'stamp': lambda self: None})()\n"
        self.assertEqual(self.run_with(rt=RT, rtlib_py=nothing), (7, "lib --jobs 2\n"))


class Callers(unittest.TestCase):
    """`./sftpv3` and `./install`, with a script in place of `.ci/build`."""

    def status_of(self, name: str, status: int) -> int:
        """The status of the caller when the build ends with this one."""
        with tempfile.TemporaryDirectory() as folder:
            top = Path(folder)
            shutil.copy(FOLDER.parent / name, top)
            (top / "python/sftpv3").mkdir(parents=True)
            (top / ".ci").mkdir()
            (top / ".ci/build").write_text(f"#!/bin/sh\nexit {status}\n")
            (top / ".ci/build").chmod(0o755)
            environment = {key: value for key, value in os.environ.items() if key != "SFTPV3"}
            words = [top / name, *["--proved"] * (name == "sftpv3")]
            return subprocess.run(words, env=environment, stdin=subprocess.DEVNULL, check=False).returncode

    def test_status(self):
        for name in ("sftpv3", "install"):
            for status, wanted in ((1, 3), (3, 3), (127, 3), (129, 129), (130, 130), (143, 143)):
                with self.subTest(name, status=status):
                    self.assertEqual(self.status_of(name, status), wanted)

    def test_what_is_not_proved_is_not_installed(self):
        with tempfile.TemporaryDirectory() as folder:
            program, to = Path(folder, "sftpv3-not-proved"), Path(folder, "to")
            program.write_text("#!/bin/sh\necho 'sftpv3 0.2.0 (commit 1234, rattle-kit-13f) (not proved)'\n")
            program.chmod(0o755)
            deb = [[FOLDER.parent / "packaging/deb", to]] if shutil.which("dpkg-deb") else []
            for words in ([FOLDER.parent / "install", "--prefix", to], *deb):
                ran = subprocess.run(words, env={**os.environ, "SFTPV3": str(program)}, stdin=subprocess.DEVNULL,
                                     stdout=subprocess.DEVNULL, stderr=subprocess.PIPE, text=True, check=False)
                self.assertEqual((ran.returncode, ran.stderr, to.exists()), (
                    3, f"install: {program} is not proved: ./sftpv3 --proved proves and builds out/sftpv3\n", False))

    def test_a_source_of_an_old_date_is_built(self):
        with tempfile.TemporaryDirectory() as folder:
            top = Path(folder)
            shutil.copy(FOLDER.parent / "sftpv3", top)
            source = top / "crates/one/src/lib.rt"
            for it in (source, top / "crates.txt", top / "HANDLES", top / ".ci/build", top / "out/sftpv3"):
                it.parent.mkdir(parents=True, exist_ok=True)
                it.write_text("#!/bin/sh\necho $0 >&2\n")
                it.chmod(0o755)
            time.sleep(0.1)
            (top / "out/sftpv3.built").write_text("hash\none\n")
            for is_changed in (False, True):
                if is_changed:
                    # as `tar -x`, `cp -p` and `rsync -t` put another version there
                    (top / "new.rt").write_text("other")
                    os.utime(top / "new.rt", (1, 1))
                    os.replace(top / "new.rt", source)
                    os.utime(source.parent, (1, 1))
                ran = subprocess.run([top / "sftpv3", "--proved"], stdin=subprocess.DEVNULL, stderr=subprocess.PIPE,
                                     text=True, check=False)
                self.assertEqual(("/.ci/build\n" in ran.stderr, ran.stderr.endswith("/out/sftpv3\n")),
                                 (is_changed, True), ran.stderr)
