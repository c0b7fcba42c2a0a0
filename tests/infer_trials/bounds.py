"""Sessions that cost a search much for their length, and what `infer` took for each.

The memory is the most that the process had. It may be twice the bytes of the transcript, 1 KiB for each place that
replies tell of, what the program takes for a session of no requests, and the bytes of files whose size alone is told.
Where these are more than the program allows, or paths are, it has to say so and end with status 3.
"""
import os
import re
import subprocess
from collections.abc import Iterable
from dataclasses import dataclass

from infer_trials import judging
from sftpv3.codec.packets import CLIENT, SERVER, Packet, encode
from sftpv3.codec.transcripts import BEGUN, put_records
from trials.processes import used_by

# What the program takes for a session of no requests and what its facts may take in any; the seconds that a session may
# take beside those for its bytes.
BASE, SECONDS, BYTES_A_SECOND = 16 << 20, 10, 100_000

# The status of the program where a tree explains the session, where none is found, and where it would be too large.
FOUND, NOT_FOUND, TOO_LARGE = 0, 1, 3

# How it says the last, with --memory and without it.
LIMITED = re.compile(r"no tree: the files of the session have \d+ bytes in all\n"
                     r"sftpv3: out of memory: .* needs more than '--memory' allows\n")
EXCESS = re.compile(r"no tree: the (files of the session have \d+ bytes in all; more than 1 GiB needs "
                    r"'--memory'|paths that replies tell of have \d+ bytes in all)\nsftpv3: out of memory\n")

OWNER = (7, 8)
DIRECTORY, FILE, LINK = ({"size": size, "owner": OWNER, "permissions": kind} for size, kind in
                         ((0, 0o40755), (0, 0o100644), (8, 0o120777)))


@dataclass
class Costly:
    """A session: its requests, each with its reply; how many places replies tell of, with which statuses the program
    may end, how many bytes more it may take, and options that it is given."""

    exchanges: Iterable
    places: int
    statuses: tuple = (FOUND,)
    more: int = 0
    words: tuple = ()

    def records(self):
        """The records of a session in which each request has its reply at once."""
        found = [*BEGUN]
        for number, ((asked, *fields), (replied, *values)) in enumerate(self.exchanges):
            found += [(CLIENT, encode(Packet(number, asked, fields))),
                      (SERVER, encode(Packet(number, replied, values)))]
        return found


def status_of(code):
    return "STATUS", code, b"", b""


def listing(place, count, attributes, together=100):
    """A listing of a directory, so many names a reply."""
    names = names_of(count)
    yield ("OPENDIR", place), ("HANDLE", b"h")
    for first in range(0, count, together):
        yield ("READDIR", b"h"), ("NAME", [(name, name, attributes) for name in names[first:first + together]])
    yield ("READDIR", b"h"), status_of(1)
    yield ("CLOSE", b"h"), status_of(0)


def names_of(count):
    return [b"name%05d" % number for number in range(count)]


def links(count):
    """Links in a directory that was listed, which then lead nowhere."""
    yield from listing(b"/d", count, LINK)
    for name in names_of(count):
        yield ("STAT", b"/d/" + name), status_of(2)


def lonely(count):
    """Directories with one file each."""
    for name in names_of(count):
        yield ("STAT", b"/" + name + b"/file"), ("ATTRS", FILE)


def deep(count):
    """A home of many bytes, and directories there that refusals seem to say are not there, with a place below each."""
    home = b"".join(b"/" + bytes([97 + depth % 26]) * 60 for depth in range(60))
    yield ("REALPATH", b"."), ("NAME", [(home, home, {})])
    for name in names_of(count):
        yield ("STAT", name + b"/b"), status_of(2)
    yield from listing(b".", count, DIRECTORY)


def ambiguous(count):
    """Refusals with several reasons each, and then a contradiction."""
    for number in range(count):
        yield ("RENAME", b"/a%d" % number, b"/b%d" % number), status_of(4)
    yield ("RMDIR", b"/z"), status_of(0)
    yield ("STAT", b"/z"), ("ATTRS", FILE)


def at(place, data, is_written):
    """Bytes of a file that are written, or read."""
    if is_written:
        return ("WRITE", b"h", place, data), status_of(0)
    return ("READ", b"h", place, len(data)), ("DATA", data)


def scattered(count, is_written):
    """Single bytes of a file, far from each other."""
    yield ("OPEN", b"/f", 10 if is_written else 1, {}), ("HANDLE", b"h")
    for number in range(count):
        yield at(2 * number, b"x", is_written)


def sized(count, size):
    """Files of which the size alone is told."""
    for number in range(count):
        yield ("STAT", b"/f%d" % number), ("ATTRS", {**FILE, "size": size})


def grown(count, size):
    """Files that the session makes, and gives a size."""
    for number in range(count):
        yield ("OPEN", b"/f%d" % number, 26, {}), ("HANDLE", b"h")
        yield ("FSETSTAT", b"h", {"size": size}), status_of(0)
        yield ("CLOSE", b"h"), status_of(0)


def whole(count, is_written):
    """Files of 4 MiB that are read or written whole."""
    block = bytes(range(1, 129)) * 256
    for number in range(count):
        yield ("OPEN", b"/f%d" % number, 10 if is_written else 1, {}), ("HANDLE", b"h")
        for place in range(128):
            yield at(place * len(block), block, is_written)
        yield ("CLOSE", b"h"), status_of(0)


SESSIONS = {
    "a directory of 20,000 names": Costly(listing(b"/", 20_000, FILE), 20_000),
    "a directory of 100,000 names": Costly(listing(b"/", 100_000, FILE), 100_000),
    "50,000 directories of one file each": Costly(lonely(50_000), 100_000),
    "2,000 links of a directory, which lead nowhere": Costly(links(2_000), 2_000),
    "200 directories at a home of 3,660 bytes": Costly(deep(200), 400, (FOUND, NOT_FOUND)),
    "20,000 directories at a home of 3,660 bytes": Costly(deep(20_000), 40_000, (TOO_LARGE, NOT_FOUND)),
    "20,000 refusals with several reasons each": Costly(ambiguous(20_000), 20_000, (NOT_FOUND,)),
    "100,000 single bytes that are read": Costly(scattered(100_000, False), 1),
    "100,000 single bytes that are written": Costly(scattered(100_000, True), 1),
    "8 files of 16 MiB of which the size is told": Costly(sized(8, 16 << 20), 8, more=8 << 24),
    "a file of 80 MiB of which the size is told": Costly(sized(1, 80 << 20), 1, more=80 << 20),
    "a file of 5 GiB of which the size is told": Costly(sized(1, 5 << 30), 1, (TOO_LARGE,)),
    "a file of 2 TiB of which the size is told": Costly(sized(1, 2 << 40), 1, (NOT_FOUND,)),
    "8 files of 16 MiB with --memory for 7": Costly(sized(8, 16 << 20), 8, (TOO_LARGE,),
                                                    words=("--memory", str(7 << 24))),
    "100 files of 16 MiB of which the size is told": Costly(sized(100, 16 << 20), 100, (TOO_LARGE,)),
    "8 files that the session gives 16 MiB": Costly(grown(8, 16 << 20), 8, more=8 << 24),
    "100 files that the session gives 16 MiB": Costly(grown(100, 16 << 20), 100, (TOO_LARGE,)),
    "200 MiB that are read": Costly(whole(50, False), 50),
    "200 MiB that are written": Costly(whole(50, True), 50),
}


def measured(words):
    """The exit status of a command, the seconds of a processor and the most bytes of memory that it took, and what it
    said on standard output and on standard error. Raises Wrong if it does not end."""
    try:
        done, seconds, memory = used_by(words, stdin=subprocess.DEVNULL, capture_output=True, text=True,
                                        errors="replace", timeout=judging.PATIENCE)
        return done.returncode, seconds, memory, done.stdout, done.stderr
    except subprocess.TimeoutExpired:
        raise judging.Wrong(f"`infer` took more than {judging.PATIENCE} seconds") from None


def attempt(folder, program, name):
    """Has `infer` look for a tree of this session. Returns why that is wrong, or nothing, and what it took. Raises
    Wrong if it does not end."""
    session, transcript = SESSIONS[name], os.path.join(folder, "costly.transcript")
    with open(transcript, "wb") as file:
        size = file.write(put_records(session.records()))
    most = BASE + 2 * size + 1024 * session.places + session.more
    words = [program, "infer", "--no-sync", *session.words, "--transcript", transcript, transcript + ".tree"]
    status, seconds, memory, said, why = measured(words)
    wrong = []
    excess = LIMITED if "--memory" in session.words else EXCESS
    if status not in session.statuses or (status == TOO_LARGE) != (excess.fullmatch(why) is not None):
        wrong.append(f"status {status}, {said.strip()} {why.strip()}")
    if seconds > SECONDS + size / BYTES_A_SECOND:
        wrong.append(f"{seconds:.1f} seconds for {size:,} bytes")
    if memory > most:
        wrong.append(f"{memory:,} bytes of memory, and {most:,} are to be enough")
    return "; ".join(wrong), f"{size:,} bytes of transcript, {seconds:.1f} s, {memory / 1e6:,.0f} MB"
