"""A log as sessions: which process said what. A line is one of syslog, with the program and its process, or of the
standard error of `sftp-server -e`, which has the message alone."""
from __future__ import annotations

import re
from collections.abc import Iterable
from dataclasses import dataclass, field

# What syslog puts before a message: at its end the program and its process.
HEAD = re.compile(rb"(?:.*? )?(sftp-server|internal-sftp|sshd|sshd-session)(?:\[(\d+)\])?: (.*)", re.DOTALL)

# What begins a session, and the level that a message may begin with.
OPENED = re.compile(rb"session opened for local user (.*) from \[(.*)\]", re.DOTALL)
LEVEL = re.compile(rb"(?:debug[123]: |error: )?(.*)", re.DOTALL)

# What an escape stands for that is no octal number.
SIGNS = {b"\\": b"\\", b"n": b"\n", b"t": b"\t", b"r": b"\r", b"b": b"\b", b"a": b"\a", b"v": b"\v", b"f": b"\f",
         b"s": b" ", b"0": b"\0"}
ESCAPE = re.compile(rb"\\([0-7]{3}|[\\ntrbavfs0])")


@dataclass
class Said:
    """A message: the number of its line, and its bytes."""

    line: int
    text: bytes


@dataclass
class Session:
    """A session: its process, if the log says it, what opened it, and its messages."""

    process: bytes | None
    opened: bytes | None
    said: list[Said] = field(default_factory=list)

    def name(self) -> str:
        process = f"process {self.process.decode()}" if self.process else "one process"
        user = f", of {self.opened.decode(errors='replace')}" if self.opened else ""
        return f"line {self.said[0].line if self.said else 0}: {process}{user}"


def unescaped(text: bytes) -> bytes:
    """The bytes that the server escaped for its log."""
    def byte(found: re.Match) -> bytes:
        sign = found[1]
        return bytes([int(sign, 8) & 255]) if len(sign) == 3 else SIGNS[sign]
    return ESCAPE.sub(byte, text)


def sessions(lines: Iterable[bytes]) -> list[Session]:
    """The sessions of a log, in the order in which they begin."""
    found: list[Session] = []
    open_by: dict[bytes | None, Session] = {}
    for number, line in enumerate(lines, 1):
        head = HEAD.fullmatch(line.rstrip(b"\r\n"))
        process, text = (head[2], head[3]) if head else (None, line.rstrip(b"\r\n"))
        message = LEVEL.fullmatch(text)[1]
        opened = OPENED.fullmatch(message)
        session = None if opened else open_by.get(process)
        if session is None:
            session = open_by[process] = Session(process, opened[1] if opened else None)
            found.append(session)
        session.said.append(Said(number, message))
    return [session for session in found if any(it.text.startswith(b"request ") for it in session.said)]
