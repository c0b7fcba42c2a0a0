"""How every script begins, whatever started it: with three standard descriptors, and with signals as they are usually;
and that other processes of the same user may neither trace it nor open its memory and files."""
from __future__ import annotations

import errno
import os
import sys

from sftpv3.system import signals


def begin():
    """To be called before all else, other imports too: a user's interrupt then ends the script without a traceback."""
    if signals.getsignal(signals.SIGINT) is signals.default_int_handler:
        signals.signal(signals.SIGINT, signals.SIG_DFL)
    open_standard_files()
    # where it is ignored, each process that the script starts seems to have ended with status 0
    signals.signal(signals.SIGCHLD, signals.SIG_DFL)
    signals.pthread_sigmask(signals.SIG_SETMASK, ())
    sys.excepthook = end_unforeseen


def open_standard_files():
    """Opens /dev/null in place of each that is closed, for the script and for what it starts. The next file to be
    opened would get the number of a closed one, and then what is meant for that. Where /dev/null is not there either,
    the script ends with status 3."""
    for number in range(3):
        try:
            os.fstat(number)
        except OSError:
            open_nothing()
    for name, number in (("stdin", 0), ("stdout", 1), ("stderr", 2)):
        # None is what Python has in place of a closed one
        if getattr(sys, name) is None:
            setattr(sys, name, open(number, "w" if number else "r", closefd=False))


def open_nothing():
    """Opens /dev/null by the lowest number that is free."""
    try:
        os.set_inheritable(os.open(os.devnull, os.O_RDWR), True)
    except OSError:
        os._exit(3)


def end_unforeseen(kind, error, trace):
    """Ends a script by an error that nothing in it awaits, such as a module that cannot be read: with status 3, since 1
    is a verdict."""
    if not issubclass(kind, Exception):
        sys.__excepthook__(kind, error, trace)
        return
    try:
        if issubclass(kind, MemoryError) or getattr(error, "errno", None) == errno.ENOMEM:
            sys.stderr.write(f"{os.path.basename(sys.argv[0])}: out of memory\n")
        else:
            sys.__excepthook__(kind, error, trace)
    finally:
        os._exit(3)


class Unread(SystemExit):
    """Nobody reads the pipe any more that standard output is. `end` gives the status."""


def end(main, tell, failed: int = 3, unread: int | None = None) -> int:
    """Calls the main function of a script, and gives the status that it gives or ends with. Where standard output did
    not take what was printed, `tell` gets why, and the status is `failed`; so it is where something happens that the
    script does not foresee, which is shown. A pipe that nobody reads any more is not told, since its reader has seen
    enough: the status is `unread`, or `failed`."""
    try:
        status = main()
    except Unread:
        status = failed if unread is None else unread
    except SystemExit as ended:
        status = ended.code
    except Exception:  # noqa: BLE001 (whatever it is, it is no verdict)
        show_mistake(tell)
        status = failed
    error = left_unsaid(sys.stdout)
    left_unsaid(sys.stderr)
    if is_unread(error):
        return failed if unread is None else unread
    if error:
        tell(f"standard output: {error.strerror}")
        left_unsaid(sys.stderr)
    return failed if error else status


def show_mistake(tell):
    """Shows the error that is being handled, for a report, unless nobody can be told."""
    import traceback
    try:
        traceback.print_exc()
    except OSError:
        pass
    tell("this is a mistake in the program itself: please report it")


def print_or_end(text: str, name: str) -> None:
    """Prints a text, such as what a script says of itself. Where standard output does not take it, says why, and ends
    the script of this name with status 3; or without a word, with status 0, where nobody reads it any more."""
    failure = None
    try:
        sys.stdout.write(text)
    except OSError as error:
        failure = error
    failure = left_unsaid(sys.stdout) or failure
    if not failure:
        return
    if is_unread(failure):
        raise SystemExit(0)
    try:
        sys.stderr.write(f"{name}: standard output: {failure.strerror}\n")
    except OSError:
        pass
    left_unsaid(sys.stderr)
    raise SystemExit(3)


def is_unread(error: OSError | None) -> bool:
    """Whether nobody reads the pipe any more that a stream is."""
    return isinstance(error, BrokenPipeError)


def left_unsaid(stream) -> OSError | None:
    """Why a stream did not take all that was printed, or None. What it did not take is not printed at the end."""
    try:
        stream.flush()
    except OSError as error:
        os.dup2(os.open(os.devnull, os.O_WRONLY), stream.fileno())
        return error
    return None


# PR_SET_DUMPABLE of Linux.
SET_DUMPABLE = 4


def hide():
    """Makes the process one that is not dumpable. Returns whether the system did."""
    try:
        # without the module ctypes, whose import takes longer than all else here
        from _ctypes import call_function, dlopen, dlsym
        prctl = dlsym(dlopen(None, 2), "prctl")
    except ImportError:
        try:
            import ctypes
            return ctypes.CDLL(None).prctl(SET_DUMPABLE, 0, 0, 0, 0) == 0
        except (ImportError, OSError, AttributeError, MemoryError):
            return False
    except OSError:
        return False
    return call_function(prctl, (SET_DUMPABLE, 0, 0, 0, 0)) == 0
