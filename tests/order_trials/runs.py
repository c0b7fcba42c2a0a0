"""Runs clients/together in a folder of a trial, and reads what it printed."""
import os
import subprocess
import sys
import tempfile
from contextlib import contextmanager

from order_trials.playing import CLIENTS

TOGETHER = os.path.join(CLIENTS, "together")

# Seconds after which a run is said to hang.
HUNG = 900


@contextmanager
def room():
    with tempfile.TemporaryDirectory(prefix="sftpv3-test-order-") as folder:
        yield folder


def together(folder, *words, tree="start.tree", records="set", program=None):
    """The status of a run on the set in a folder, and what it printed. The program is the usual one, unless one is
    given."""
    environment = os.environ if program is None else {**os.environ, "SFTPV3": program}
    done = subprocess.run([sys.executable, TOGETHER, os.path.join(folder, records), "--tree",
                           os.path.join(folder, tree), *words], stdin=subprocess.DEVNULL, stdout=subprocess.PIPE,
                          stderr=subprocess.STDOUT, timeout=HUNG, check=False, env=environment)
    return done.returncode, done.stdout.decode(errors="replace").strip()
