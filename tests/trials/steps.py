"""The steps of a test script: each is counted and has a line, and the last line counts them. Trials may be in parts:
each is a module with TRIALS, functions of the steps and of a room."""
import importlib
import os
import signal
import subprocess
import sys
import threading

from sftpv3.system.standard import print_or_end


def tell_fault(kind, error, trace):
    """Prints the traceback of what ends a test script, unless its user interrupted it."""
    if not issubclass(kind, KeyboardInterrupt):
        sys.__excepthook__(kind, error, trace)


sys.excepthook = tell_fault


class Steps:
    """Counts the steps, and prints a line for each. Several threads may have steps at once."""

    def __init__(self) -> None:
        self.passed = self.failed = self.skipped = 0
        self.lock = threading.Lock()
        # a shell has what it starts in the background ignore SIGINT, and nohup SIGHUP, and so what that starts
        signal.signal(signal.SIGINT, signal.default_int_handler)
        if signal.getsignal(signal.SIGHUP) == signal.SIG_IGN:
            signal.signal(signal.SIGHUP, lambda *_: None)

    def check(self, name: str, holds: object, why: object = "") -> object:
        """A step, which passed if it holds; if not, its line says why. Returns whether it holds."""
        with self.lock:
            self.passed += bool(holds)
            self.failed += not holds
            told = str(why)
            print(f"ok: {name}" if holds else f"FAILED: {name}{': ' if told else ''}{told}", flush=True)
        return holds

    def skip(self, name: str, why: object) -> None:
        """A step that cannot be tried here."""
        with self.lock:
            self.skipped += 1
            print(f"skipped: {name}: {why}", flush=True)

    def lacks_root(self, name: str, why: object = "it needs root") -> bool:
        """Whether this is not root. Then the step cannot be tried."""
        if os.geteuid() == 0:
            return False
        self.skip(name, why)
        return True

    def end(self) -> int:
        """Prints the line that counts the steps. Returns the exit status."""
        print(f"{self.passed} passed, {self.failed} failed, {self.skipped} skipped", flush=True)
        return 1 if self.failed else 0


# The words that ask a script what it is for.
HELP = {"-h", "--help"}

# What ends a trial, and not the script.
ENDS = (OSError, subprocess.SubprocessError, AssertionError, IndexError)


def attempt(steps, trial, room):
    """Tries this in a new room."""
    with room() as made:
        try:
            trial(steps, made)
        except ENDS as error:
            steps.check(f"{trial.__name__}: it can be tried to its end", False, f"{type(error).__name__}: {error}")


def answer_help():
    """Prints what the script says of itself, and ends it, if it is asked by `--help`."""
    if HELP & set(sys.argv[1:]):
        print_or_end(sys.modules["__main__"].__doc__.strip() + "\n", os.path.basename(sys.argv[0]))
        sys.exit(0)


def takes_no_words():
    """Ends the script if it got words: it knows none but `--help`."""
    answer_help()
    if sys.argv[1:]:
        print(sys.modules["__main__"].__doc__.strip(), file=sys.stderr)
        sys.exit(2)


def missing(*programs):
    """Which of these programs is not there, or `root` if that is what is missing; nothing if all is there."""
    absent = [it for it in programs if not os.access(it, os.X_OK)]
    return absent[0] if absent else "root" if os.geteuid() != 0 else ""


def run_parts(package, parts, room, usage, needed=""):
    """Tries the parts that the command line names, or else all; or says what is needed and missing. Returns the exit
    status."""
    answer_help()
    words = sys.argv[1:]
    if set(words) - set(parts):
        print(usage, file=sys.stderr)
        return 2
    if needed:
        print(f"skipped: it needs {needed}")
        return 0
    steps = Steps()
    for part in words or parts:
        for trial in importlib.import_module(f"{package}.{part}").TRIALS:
            attempt(steps, trial, room)
    return steps.end()
