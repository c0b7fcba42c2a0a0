"""Sessions that may have run at the same time, judged together by sftpv3-together: as a set of transcripts and files of
times, from one tree. It looks for an order of all requests and says what it found; `sftpv3 audit` then judges the
transcript of that order, and gives the tree in which the set ends."""
import mmap
import os
import shutil
import struct
import sys
from typing import Dict, List, NamedTuple, Sequence

from sftpv3.nights import accounts
from sftpv3.nights.records import Copy, kept_name
from sftpv3.nights.spans import ENTRY, HEAD, SECOND
from sftpv3.spool.names import TRANSCRIPT
from sftpv3.spool.sinks import BOOT_OPENING, TIMES_OPENING
from sftpv3.system import program

TOGETHER = program.command("together")
# The most sessions of a set. Its transcripts may have so much of the memory of an audit together.
MOST, SHARE = 100, 4
# What of a set is in the folder of the state while it is judged: a folder with links to its transcripts, and with its
# files of times; the transcript of the order; and the order.
FOLDER, MERGED, ORDER = "set.new", "set.transcript", "set.order"
# The statuses of sftpv3-together.
ACCEPTED, REFUSED, USAGE, FAILED, UNDECIDED = range(5)
# The options of an audit that say which departures a server may take, which sftpv3-together has as well.
SHARED = ("--profile", "--allow", "--except", "--umask", "--new-owner", "--symlink")
# What is before the fields of a record's packet: the side, and the packet's length.
FRONT = struct.Struct(">cI")

# What says which session of a set may be before which: their own times, the order of their starts, or nothing.
OWN, STARTS, NOTHING = "own", "starts", "nothing"


class Answer(NamedTuple):
    """What sftpv3-together says of a set: its status, and its line."""

    status: int
    line: str


# How the line of each verdict begins.
BEGINNINGS = {ACCEPTED: "accepted ", REFUSED: "refused: ", UNDECIDED: "undecided: ", USAGE: ""}


def answer_of(status: int, line: str) -> Answer:
    """What it says by its status and its last line, which have to be of one verdict: a script that fails has the status
    of a refusal."""
    line = line.removeprefix("sftpv3-").removeprefix("together: ")
    return Answer(status if line.startswith(BEGINNINGS.get(status, "\0")) else FAILED, line)


def shared(options: Sequence[str]) -> List[str]:
    """Those options of an audit that sftpv3-together has, too."""
    found: List[str] = []
    words = iter(options)
    for word in words:
        name, is_one, _ = word.partition("=")
        if name in SHARED:
            found += [word] if is_one else [word, next(words, "")]
        elif not is_one and name == "--memory":
            next(words, "")
    return found


def words(tree: str, options: Sequence[str], steps: int) -> List[str]:
    """The command that judges the set that is laid out."""
    bound = ["--steps", str(steps)] if steps else []
    return [sys.executable, "-IS", TOGETHER, *shared(options), *bound, "--tree", tree, "--write-transcript", MERGED,
            "--write-order", ORDER, FOLDER]


def stem_of(name: str, taken: Dict[str, None]) -> str:
    """What the names of a copy in a set have in common: the name of its record, as no terminal acts on it."""
    front = kept_name("".join(TRANSCRIPT.fullmatch(name).groups())) or "record"
    stem, count = front, 1
    while stem in taken:
        count += 1
        stem = f"{front}-{count}"
    taken[stem] = None
    return stem


def record_count(file: int) -> int:
    """How many records a transcript has, as far as they are whole."""
    at, count = len(TIMES_OPENING), 0
    size = os.fstat(file).st_size
    with mmap.mmap(file, 0, access=mmap.ACCESS_READ) as data:
        while at + FRONT.size <= size:
            at += FRONT.size + FRONT.unpack_from(data, at)[1]
            count += at <= size
    return count


def boot_in(name: str) -> bytes:
    """The boot whose clock a file of times has, or nothing."""
    with open(name, "rb") as file:
        head = file.read(HEAD.size)
    return HEAD.unpack(head)[1] if len(head) == HEAD.size and head.startswith(BOOT_OPENING) else b""


def boot_of(copy: Copy) -> bytes:
    """The boot whose clock says when each record of a copy was there; nothing if there is none that does."""
    if not copy.has_times:
        return b""
    is_whole = os.path.getsize(copy.times) == HEAD.size + ENTRY.size * record_count(copy.file)
    return boot_in(copy.times) if is_whole else b""


def are_of_one_clock(copies: Sequence[Copy]) -> bool:
    """Whether each record of these has a time on the clock of one boot."""
    boots = {boot_of(it) for it in copies}
    return len(boots) == 1 and boots != {b""}


def lay_out(copies: Sequence[Copy], by: str, homes: Sequence[bytes]) -> None:
    """Makes the folder of a set: links to the transcripts and to the files of times; or, if these do not count, files
    that have one time for all records of a session, so that the sessions come one after the other, or that no session
    has to be before another one. If sessions have homes of their own, their paths start at the root there."""
    shutil.rmtree(FOLDER, ignore_errors=True)
    os.mkdir(FOLDER, 0o700)
    for number, copy in enumerate(copies):
        transcript, times = (os.path.join(FOLDER, os.path.basename(it)) for it in (copy.place, copy.times))
        if homes or copy.left is not None:
            data = accounts.data_of(copy) if copy.left is None else copy.left
            with open(transcript, "wb") as file:
                file.write(accounts.rooted(data, homes[number]) if homes else data)
        else:
            os.symlink(os.path.abspath(copy.place), transcript)
        if by == OWN:
            os.symlink(os.path.abspath(copy.times), times)
            continue
        date = SECOND * (1 + number * (by == STARTS))
        with open(times, "wb") as file:
            file.write(TIMES_OPENING + struct.pack(">Q", date) + bytes(ENTRY.size * record_count(copy.file)))
