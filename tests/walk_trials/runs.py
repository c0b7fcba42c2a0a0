"""Runs clients/walk, within limits, in a folder of a trial, and reads what it printed."""
import os
import resource
import subprocess
import sys
import tempfile
from contextlib import contextmanager

from sftpv3.system.program import TOP, program
from sftpv3.walk.looking import can_infer

WALK = os.path.join(TOP, "clients", "walk")
HOSTILE, BETWEEN = ([sys.executable, os.path.join(TOP, "tests", "stand-in"), name]
                    for name in ("hostile", "between"))
POSIX = ["--profile", "posix"]

# Seconds of a processor after which a walk is said not to end, seconds after which it is said to hang, however busy the
# machine is, and the most bytes of memory that one may take.
ENDLESS, HUNG, MEMORY = 300, 1800, 1 << 30


def limit():
    resource.setrlimit(resource.RLIMIT_AS, (MEMORY, MEMORY))
    resource.setrlimit(resource.RLIMIT_CPU, (ENDLESS, ENDLESS))


def run(words, cwd, **options):
    """The status of a command of the repository, and what it printed on both streams; no status if it hangs."""
    try:
        done = subprocess.run(words, cwd=cwd, stdin=subprocess.DEVNULL, stdout=subprocess.PIPE,
                              stderr=subprocess.STDOUT, timeout=HUNG, check=False, **options)
    except subprocess.TimeoutExpired:
        return None, f"it did not end within {HUNG} seconds"
    return done.returncode, done.stdout.decode(errors="replace")


def walk(folder, options, command):
    return run([WALK, *options, "--", *command], folder, preexec_fn=limit)


@contextmanager
def room():
    with tempfile.TemporaryDirectory(prefix="sftpv3-test-walk-") as folder:
        yield folder


def no_trees(steps, _):
    steps.skip("the trees", "this program has no `infer`")


def needs_infer(*trials):
    """These trials, if the program has the `infer` that they need."""
    return trials if can_infer(program()) else (no_trees,)


def is_clean(said):
    """Whether a text has no traceback, and nothing that a terminal acts on."""
    return "Traceback" not in said and "\x1b" not in said


def make_live(folder, blocks=400):
    """A folder with two levels, a link to a file, and a file of so many blocks of 256 bytes, which takes several
    READs."""
    os.makedirs(os.path.join(folder, "d", "e"))
    for name, content in (("f", b"abc"), ("d/large", bytes(range(256)) * blocks), ("d/e/empty", b"")):
        with open(os.path.join(folder, name), "wb") as file:
            file.write(content)
    os.symlink("../f", os.path.join(folder, "d", "up"))
