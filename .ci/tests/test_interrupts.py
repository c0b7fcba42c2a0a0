"""How `./edits` and `.ci/build` end behind a signal, with a program in place of `rt` that does not end: with the status
of the signal, without a traceback, and with nothing left that they started or made."""
import os
import signal
import subprocess
import sys
import tempfile
import time
import unittest
from contextlib import suppress
from pathlib import Path

sys.dont_write_bytecode = True
TOP = Path(__file__).resolve().parents[2]
LONG = 60
RT = """#!/bin/sh
echo $$ >>"{room}/running"
exec sleep 600
"""
WORDS = {"edits": [TOP / "edits", "sftp_json"], "build": [TOP / ".ci/build", "ROOM/out", "sftpv3"]}


def signalled(room: Path, words: list[str], number: signal.Signals) -> tuple[int, str]:
    """Starts a script, and sends it a signal when it has started `rt`. Returns its status and what it said."""
    rt = room / "bin/rt"
    rt.parent.mkdir()
    rt.write_text(RT.format(room=room))
    rt.chmod(0o755)
    (room / "tmp").mkdir()
    places = {"PATH": f"{rt.parent}:{os.environ['PATH']}", "TMPDIR": str(room / "tmp")}
    # a shell has what it starts in the background ignore SIGINT
    with subprocess.Popen(words, env={**os.environ, **places}, stdin=subprocess.DEVNULL, stdout=subprocess.PIPE,
                          stderr=subprocess.STDOUT, text=True, start_new_session=True,
                          preexec_fn=lambda: signal.signal(number, signal.SIG_DFL)) as script:
        until = time.monotonic() + LONG
        while not (room / "running").exists() and script.poll() is None and time.monotonic() < until:
            time.sleep(0.05)
        time.sleep(0.2)
        script.send_signal(number)
        try:
            said = script.communicate(timeout=LONG)[0]
        except subprocess.TimeoutExpired:
            script.kill()
            said = "it did not end\n" + script.communicate()[0]
    return script.returncode, said


def running(room: Path) -> list[int]:
    """Returns the processes that stand for `rt` and still run, which are ended."""
    found = []
    for number in (room / "running").read_text().split() if (room / "running").exists() else []:
        with suppress(ProcessLookupError):
            os.kill(int(number), signal.SIGKILL)
            found.append(int(number))
    return found


class Interrupts(unittest.TestCase):
    def try_each(self, name: str) -> None:
        for number in (signal.SIGINT, signal.SIGTERM, signal.SIGHUP):
            with self.subTest(number.name), tempfile.TemporaryDirectory() as folder:
                room = Path(folder)
                status, said = signalled(room, [str(it).replace("ROOM", folder) for it in WORDS[name]], number)
                self.assertTrue((room / "running").exists(), said)
                self.assertEqual((running(room), os.listdir(room / "tmp")), ([], []))
                self.assertEqual((status, "Traceback" in said), (128 + number, False), said)

    def test_edits(self):
        self.try_each("edits")

    def test_build(self):
        self.try_each("build")
