"""Runs the probe on a server, and reads what it printed."""
import contextlib
import os
import subprocess
import tempfile
import time
from concurrent import futures

from sftpv3.codec import trees
from sftpv3.probe import starting
from sftpv3.system.program import TOP

PROBE = os.path.join(TOP, "clients", "probe")

# After so many seconds, a probe is said not to end, however busy the machine is.
ENDLESS = 900


@contextlib.contextmanager
def room():
    """A folder for a trial, with the probe's own tree as `usual.tree`."""
    with tempfile.TemporaryDirectory(prefix="sftpv3-test-probe-runs-") as folder:
        trees.write(starting.usual(), os.path.join(folder, "usual.tree"))
        yield folder


def side_by_side(trial, arguments):
    """Makes a trial with each of these lists of arguments, some at once."""
    with futures.ThreadPoolExecutor(max(2, os.cpu_count() // 2)) as pool:
        tried = [pool.submit(trial, *one) for one in arguments]
    for one in tried:
        one.result()


def probe(*words, given=None, **options):
    """Runs the probe; gives its status, None if it did not end, what it printed, and how many seconds it took. The file
    `given` comes by a pipe."""
    start = time.monotonic()
    command = ["sh", "-c", f'cat {given} | exec "$@"', "sh", PROBE, *words] if given else [PROBE, *words]
    try:
        done = subprocess.run(command, stdin=subprocess.DEVNULL, capture_output=True, text=True, check=False,
                              timeout=ENDLESS, **options)
    except subprocess.TimeoutExpired as error:
        return None, f"no end within {ENDLESS} seconds: {error.stdout}", ENDLESS
    return done.returncode, done.stdout + done.stderr, time.monotonic() - start


def read(name):
    with open(name, encoding="utf-8", errors="replace") as file:
        return file.read()
