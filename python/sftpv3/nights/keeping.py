"""How long a night keeps copies of records: so many days, and so many bytes. What was accepted goes first, and what was
refused last, since it is what somebody may still have to look at."""
import os
import stat
import time
from typing import Iterator, List, NamedTuple, Optional

# The folders of kept records, in the order in which they are thinned out for their bytes; and those of which nothing is
# kept behind so many days.
KINDS, OF_DAYS = ("accepted", "unjudged", "refused"), ("accepted", "unjudged")
DAY = 86400


class Kept(NamedTuple):
    """A file of those that are kept: which folder it is in, when it was put there, its bytes and its name."""

    kind: str
    since: float
    count: int
    name: str


class Removed(NamedTuple):
    """How many files were removed, and how many bytes these had."""

    files: int
    count: int


def kept(kinds=KINDS) -> Iterator[Kept]:
    """The kept files of the folder of the state, which is where the run is."""
    for kind in kinds:
        try:
            entries = os.scandir(kind)
        except FileNotFoundError:
            continue
        with entries:
            for entry in entries:
                found = entry.stat(follow_symlinks=False)
                if stat.S_ISREG(found.st_mode):
                    yield Kept(kind, found.st_mtime, found.st_size, os.path.join(kind, entry.name))


def remove(files: List[Kept]) -> Removed:
    for it in files:
        os.unlink(it.name)
    return Removed(len(files), sum(it.count for it in files))


def older(days: float) -> List[Kept]:
    """What was kept for more than so many days, but for what was refused."""
    return [it for it in kept(OF_DAYS) if time.time() - it.since > days * DAY]


def beyond(most: int) -> List[Kept]:
    """What is to be removed so that no more than so many bytes are kept: of each folder the oldest first."""
    every = sorted(kept(), key=lambda it: (KINDS.index(it.kind), it.since, it.name))
    over, found = sum(it.count for it in every) - most, []
    for it in every:
        if over <= 0:
            break
        found.append(it)
        over -= it.count
    return found


def thin_out(days: Optional[float], most: Optional[int]) -> Iterator[str]:
    """Removes what is kept too long, or too much of it, and says so."""
    for wanted, option in ((older(days) if days is not None else [], "--keep-days"),
                           (beyond(most) if most is not None else [], "--keep-bytes")):
        if wanted:
            removed = remove(wanted)
            yield f"removed {removed.files} kept files, {removed.count:,} bytes ({option})"
