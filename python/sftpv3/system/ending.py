"""Signals that end a script in order: what it started is ended, and what it made for the time of its run is removed."""
import signal
from contextlib import contextmanager
from typing import Callable, Iterator

ENDING = (signal.SIGHUP, signal.SIGINT, signal.SIGTERM)


class Signalled(BaseException):
    """A signal came that ends the script. Until its end, no other one does."""

    def __init__(self, number: int):
        super().__init__(f"{signal.Signals(number).name} came")
        self.status = 128 + number


class Coming:
    """Whether a signal that comes is kept, and the number of the one that is kept, or 0."""
    is_kept, number = False, 0


def end_in_order() -> None:
    """From now on each of these signals raises Signalled, unless it was ignored at the start, as by `nohup`."""
    for number in ENDING:
        if signal.getsignal(number) != signal.SIG_IGN:
            signal.signal(number, come)


@contextmanager
def in_order() -> Iterator[None]:
    """Signals end the block in order, and do nothing behind it."""
    end_in_order()
    try:
        yield
    finally:
        hold_off()


def come(number: int, _: object) -> None:
    hold_off()
    Coming.number = number
    if not Coming.is_kept:
        go_on()


def go_on() -> None:
    """Signals are not kept any more; one that came meanwhile is raised."""
    Coming.is_kept = False
    if Coming.number:
        number, Coming.number = Coming.number, 0
        raise Signalled(number)


@contextmanager
def put_off() -> Iterator[Callable[[], None]]:
    """A signal that comes is kept until the block calls what it is given: once it knows what it has to undo."""
    Coming.is_kept = True
    try:
        yield go_on
    finally:
        go_on()


def hold_off() -> None:
    """From now on none of these signals does anything: the script is at its end. What it starts ignores none."""
    for number in ENDING:
        if signal.getsignal(number) != signal.SIG_IGN:
            signal.signal(number, lambda *_: None)
