"""What a run decides of records is done as a whole: their copies get names among those that are kept, a tree becomes
that of the next session, and the records leave the spool. A journal has all of it on the disk before any of it is done,
so the next run finishes what one began that was ended meanwhile. All happens in the folder of the state, which is where
the run is."""
import json
import os
from contextlib import suppress
from typing import Dict, Iterable, List, Optional, Tuple

from sftpv3.nights import earlier
from sftpv3.nights.records import Record, Spools, sync

JOURNAL = "journal"
# The tree that sessions start from, the one in which an accepted session ends, and how far sessions that run are
# judged.
TREE, AFTER, PARTS, OPEN = "tree", "tree.after", "parts", "open"
# What becomes of the tree: the one behind the session comes next, it stays, or there is none any more.
NEXT, SAME, NONE = "next", "same", "none"


def named(record: Record) -> List:
    """What a record is known by, behind a restart, too: file systems may get other numbers by it. The system gives the
    number of a file that is gone to another one."""
    _, inode = record.identity
    return [record.name, inode]


class Decision:
    """What is to be done at once: which files get which names, which records leave the spool, and what becomes of the
    tree. `parts` has how far sessions that run are judged, or None: as far as before; and `open` which places are
    open, or None: the same as before. Where there is no tree, there are none."""

    def __init__(self, tree: str, parts: Optional[Dict] = None, open_places: Optional[List] = None):
        self.tree, self.parts, self.open = tree, parts, [] if tree == NONE else open_places
        self.moves: List[Tuple[str, str]] = []
        self.records: List[Record] = []

    def text(self) -> str:
        return json.dumps({"moves": self.moves, "records": [named(it) for it in self.records], "tree": self.tree,
                           "parts": self.parts, "open": self.open})


def write(name: str, text: str) -> None:
    """Makes a file, and has it on the disk. An error names it as a whole."""
    try:
        with open(name, "w", encoding="utf-8") as file:
            file.write(text)
            file.flush()
            os.fsync(file.fileno())
    except OSError as error:
        raise OSError(error.errno, error.strerror, os.path.abspath(name)) from None


def write_whole(name: str, text: str) -> None:
    """The same, and gives it its name only then."""
    write(f"{name}.new", text)
    os.replace(f"{name}.new", name)
    sync(".")


def carry_out(decision: Decision) -> None:
    """Does what was decided. If it fails before the journal is there, nothing has happened; if it fails behind that,
    the next run finishes it."""
    text = decision.text()
    commit(text)
    finish_noted(json.loads(text), decision.records)


def commit(text: str) -> None:
    write_whole(JOURNAL, text)


def finish_noted(noted: Dict, records: Iterable[Record]) -> None:
    """Does what a journal says, as far as it is not done, and removes the journal. The records are out of the spool,
    whatever comes later, before the next tree is used."""
    folders = {move(*names) for names in noted["moves"]}
    for folder in folders - {None}:
        sync(folder)
    for record in records:
        record.remove()
    if noted["tree"] == NEXT:
        with suppress(FileNotFoundError):
            os.replace(AFTER, TREE)
    elif noted["tree"] == NONE:
        with suppress(FileNotFoundError):
            os.remove(TREE)
    for name, held in (PARTS, noted["parts"]), (OPEN, noted.get("open")):
        if held:
            write_whole(name, json.dumps(held))
        elif held is not None:
            with suppress(FileNotFoundError):
                os.remove(name)
    sync(".")
    os.remove(JOURNAL)
    sync(".")


def move(source: str, target: str) -> Optional[str]:
    """Gives a file its name, unless it has it already. Returns the folder in which it is now."""
    if not os.path.lexists(source):
        return None
    os.rename(source, target)
    return os.path.dirname(target)


def finish(spool: Spools) -> None:
    """Finishes what a run began that was ended meanwhile."""
    noted = noted_last()
    if noted is None:
        earlier.finish(spool, TREE)
        return
    finish_noted(noted, [it for it in spool.every() if named(it) in noted["records"]] if noted["records"] else [])


def noted_last() -> Optional[Dict]:
    """The journal of a run that was ended, if there is one."""
    try:
        with open(JOURNAL, encoding="utf-8") as file:
            return json.load(file)
    except FileNotFoundError:
        return None


def link(name: str, other: str) -> None:
    """Gives a file a second name, in the place of what has it."""
    with suppress(FileNotFoundError):
        os.remove(other)
    os.link(name, other)


def open_places() -> List:
    """The places that are open: of each its path, in hexadecimal, and whether all below it is open, too."""
    try:
        with open(OPEN, encoding="utf-8") as file:
            return json.load(file)
    except FileNotFoundError:
        return []


def parts() -> Dict:
    """How far sessions that run are judged: of each record, by its name, where what is judged ends, and which file it
    is."""
    try:
        with open(PARTS, encoding="utf-8") as file:
            return json.load(file)
    except FileNotFoundError:
        return {}
