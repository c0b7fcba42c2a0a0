"""Which requests a fault is for, and what becomes of them: the values of the options of sftpv3-fault."""
from __future__ import annotations

import argparse
from typing import NamedTuple, Optional, Union

from sftpv3.codec.packets import CODES, OK, REQUESTS
from sftpv3.system import parsers

# A name for any request, and the packet in front of all requests, whose reply is VERSION.
ANY, INIT = "ANY", "INIT"

CODES_BY_NAME = {name: code for code, name in CODES.items()}


class Which(NamedTuple):
    """Requests of a name: from the first of these numbers to the last, or to the end of the session. The first request
    of a name is 1; with ANY all requests are counted together."""
    name: str
    first: int
    last: Optional[int]

    def has(self, name: str, number: int) -> bool:
        """Whether the request of this name and this number is one of them."""
        return self.name == name and self.first <= number and (self.last is None or number <= self.last)


class Failing(NamedTuple):
    """Requests that the server does not get, and the code of the STATUS that the client gets for each."""
    which: Which
    code: int


class Delay(NamedTuple):
    """Replies that come so many seconds later: those to some requests, or all."""
    which: Optional[Which]
    seconds: float


# In place of the reply to the first of some requests, or behind so many bytes of the server's stream.
Place = Union[Which, int]


def which(text: str, names: tuple = ()) -> Which:
    """Reads NAME:N, NAME:N-M or NAME:N-. Raises ArgumentTypeError if it is none of them."""
    name, _, numbers = text.partition(":")
    name = name.upper()
    if name not in (ANY, *names, *REQUESTS):
        raise argparse.ArgumentTypeError(f"{text!r}: no request is called {name}; see docs/PROTOCOL.md for the names")
    first, is_span, last = numbers.partition("-")
    try:
        found = Which(name, parsers.count(first), parsers.count(last) if last else None if is_span else int(first))
    except (argparse.ArgumentTypeError, ValueError):
        raise argparse.ArgumentTypeError(f"{text!r}: {numbers!r} is neither N, N-M nor N-, from 1 on") from None
    if found.last is not None and found.last < found.first:
        raise argparse.ArgumentTypeError(f"{text!r}: {found.last} is before {found.first}")
    return found


def code(text: str) -> int:
    """The code of a STATUS, by its name or its number. Raises ArgumentTypeError if it is none, or OK."""
    found = CODES_BY_NAME.get(text.upper())
    if found is None and text.isascii() and text.isdigit() and int(text) < 1 << 32:
        found = int(text)
    if found is None:
        names = ", ".join(name for name in CODES_BY_NAME if name != "OK")
        raise argparse.ArgumentTypeError(f"{text!r} is no code: a number, or one of {names}")
    if found == OK:
        raise argparse.ArgumentTypeError("a request that fails is not answered OK")
    return found


def failing(text: str) -> Failing:
    """Reads REQUEST:WHICH:CODE."""
    front, _, last = text.rpartition(":")
    return Failing(which(front), code(last))


def delay(text: str) -> Delay:
    """Reads SECONDS or REQUEST:WHICH:SECONDS."""
    front, _, last = text.rpartition(":")
    return Delay(which(front, (INIT,)) if front else None, parsers.seconds(last))


def place(text: str) -> Place:
    """Reads REQUEST:N or a number of bytes."""
    if text.isascii() and text.isdigit():
        return int(text)
    found = which(text, (INIT,))
    if found.last != found.first:
        raise argparse.ArgumentTypeError(f"{text!r} is no place: REQUEST:N, or a number of bytes")
    return found
