"""What is wanted of a run, and what is said where something else came."""
from __future__ import annotations

from collections.abc import Iterator
from dataclasses import dataclass

from runner.lines import cut
from runner.runs import Came
from sftpv3.codec.fields import Malformed
from sftpv3.codec.packets import SERVER, read

# How many bytes are shown at most.
SHOWN = 2000

# How a stream is compared: it is the same text or the same packets; it begins so, and ends with one line feed; it may
# be anything.
TEXT, PACKETS, FRONT, FREE = "text", "packets", "front", "free"


@dataclass
class Wanted:
    """The status of a run, and what it writes to its streams; without more, that it succeeds and writes nothing."""
    status: int = 0
    output: bytes = b""
    errors: bytes = b""
    output_form: str = TEXT
    errors_form: str = TEXT


def shown(data: bytes) -> str:
    text = "".join(chr(it) if 32 <= it < 127 else "\n      " if it == 10 else f"\\x{it:02x}" for it in data[:SHOWN])
    return f"({len(data)} bytes)\n      {text}"


def shown_packet(stream: bytes) -> str:
    """Returns the first packet of a stream as text."""
    if not stream:
        return "no more"
    data = cut(stream)[0]
    try:
        return str(read(SERVER, data))
    except Malformed as error:
        return f"{data[:SHOWN].hex()} ({error})"


def bytes_that_differ(name: str, wanted: bytes, came: bytes) -> str:
    return f"{name}:\n    wanted {shown(wanted)}\n    came {shown(came)}"


def packets_that_differ(wanted: bytes, came: bytes) -> str:
    """Says which is the first packet that differs."""
    number, pair = 1, (cut(wanted), cut(came))
    while wanted and came and pair[0][0] == pair[1][0]:
        wanted, came = pair[0][1], pair[1][1]
        number, pair = number + 1, (cut(wanted), cut(came))
    return f"packet {number} of the server:\n    wanted {shown_packet(wanted)}\n    came {shown_packet(came)}"


def is_as_wanted(form: str, wanted: bytes, came: bytes) -> bool:
    if form == FRONT:
        return came.startswith(wanted) and came.endswith(b"\n") and not came.endswith(b"\n\n")
    return form == FREE or came == wanted


def differences(wanted: Wanted, came: Came) -> Iterator[str]:
    """Says how what came of a run differs from what is wanted."""
    if came.status != wanted.status:
        yield f"status: wanted {wanted.status}, came {came.status}"
    if not is_as_wanted(wanted.output_form, wanted.output, came.output):
        yield (packets_that_differ(wanted.output, came.output) if wanted.output_form == PACKETS
               else bytes_that_differ("standard output", wanted.output, came.output))
    if not is_as_wanted(wanted.errors_form, wanted.errors, came.errors):
        yield bytes_that_differ("standard error", wanted.errors, came.errors)
