"""What trials start: programs of a few lines, what they print and use, processes that are waited for, found and ended,
users of their own."""
import os
import resource
import signal
import subprocess
import sys
import time
from contextlib import suppress
from pathlib import Path

# How long, in seconds, is waited for what takes a moment, however busy the machine is; what has not happened by then
# does not happen.
SOON = 100


def wait_until(holds, seconds=SOON, pause=0.02):
    """Whether it holds within so many seconds."""
    until = time.monotonic() + seconds
    while not holds():
        if time.monotonic() > until:
            return False
        time.sleep(pause)
    return True


def ended(process, seconds=SOON):
    """The status of a process, or None if it has not ended within so many seconds."""
    try:
        return process.wait(seconds)
    except subprocess.TimeoutExpired:
        return None


def run(words, timeout=SOON, **options):
    """Runs a command to its end. What it prints, on either stream, is text of its `stdout`."""
    return subprocess.run(list(map(str, words)), stdout=subprocess.PIPE, stderr=subprocess.STDOUT, text=True,
                          timeout=timeout, check=False, **options)


def limited(kind, soft, hard=None):
    """What gives a child a limit of the system, as its `preexec_fn`. The hard one is the same, unless it is named."""
    return lambda: resource.setrlimit(kind, (soft, soft if hard is None else hard))


def worked():
    """How many seconds processors worked for all that was run, and has ended."""
    used = resource.getrusage(resource.RUSAGE_CHILDREN)
    return used.ru_utime + used.ru_stime


# A process begins with the memory of the one that started it, as Linux counts the most. So a small process starts the
# command, and writes what it used to a pipe.
MEASURE = """
import os, subprocess, sys
child = subprocess.Popen(sys.argv[2:])
_, ended, used = os.wait4(child.pid, 0)
child.returncode = os.waitstatus_to_exitcode(ended)
told = child.returncode, used.ru_utime + used.ru_stime, used.ru_maxrss * 1024
os.write(int(sys.argv[1]), b"%d %f %d" % told)
"""


def used_by(words, **options):
    """Runs a command. Returns its end, how many seconds processors worked for it, and its most memory in bytes."""
    source, target = os.pipe()
    with open(source, "rb") as told:
        try:
            done = subprocess.run([sys.executable, "-I", "-S", "-c", MEASURE, str(target), *map(str, words)],
                                  pass_fds=[target], check=False, **options)
        finally:
            os.close(target)
        status, seconds, memory = told.read().split()
    done.returncode = int(status)
    return done, float(seconds), int(memory)


def children_of(number):
    """The processes that this one started."""
    try:
        return [int(it) for it in Path(f"/proc/{number}/task/{number}/children").read_text().split()]
    except OSError:
        return []


def below_of(number):
    """The same, and those that these started."""
    found = children_of(number)
    return found + [it for child in found for it in below_of(child)]


def is_marked(number, mark):
    """Whether a process has this in its command line or its environment."""
    with suppress(OSError):
        return any(mark in Path(f"/proc/{number}/{it}").read_bytes() for it in ("cmdline", "environ"))
    return False


def processes_of(mark):
    """The processes that have this in their command line or their environment."""
    return [int(it) for it in os.listdir("/proc") if it.isdigit() and is_marked(it, os.fsencode(mark))]


def kill(number):
    """Kills a process, which may have ended before."""
    with suppress(ProcessLookupError):
        os.kill(number, signal.SIGKILL)


def executable(name, text):
    """Writes a program of this text, and returns its name."""
    Path(name).write_text(text, encoding="utf-8")
    os.chmod(name, 0o755)
    return name


def make_user(name):
    """Makes a user for a trial. Another program may hold the lock of the list of users for a moment."""
    words = ["useradd", "--create-home", "--password", "*", "--shell", "/bin/sh", name]
    if not wait_until(lambda: is_done(words), 10, 0.5):
        subprocess.run(words, check=True)


def remove_user(name):
    wait_until(lambda: is_done(["userdel", "--remove", name]), 10, 0.5)


def is_done(words):
    """Runs a command. Returns whether it ended well."""
    return not subprocess.run(words, stderr=subprocess.DEVNULL, check=False).returncode
