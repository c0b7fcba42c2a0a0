"""Values of options that commands have which speak with a server."""
import argparse

from sftpv3.peer.servers import WINDOW
from sftpv3.system.parsers import number_from

# A number from 1 on, and one that may be 0.
positive, count = number_from(1), number_from(0)


def seconds(text):
    """Seconds, more than none."""
    number = pause(text)
    if not number:
        raise argparse.ArgumentTypeError(f"{text!r} is no number above 0")
    return number


# Seconds, also none.
pause = number_from(0, 10**9, float)


def flying(text):
    number = positive(text)
    if number > WINDOW:
        raise argparse.ArgumentTypeError(f"at most {WINDOW} requests may be in flight")
    return number
