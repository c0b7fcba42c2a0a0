"""What a run of an earlier version left that was ended while it kept a record."""
import json
import os
from contextlib import suppress
from typing import List, Optional

from sftpv3.nights.records import Spools, sync

# The copy of a record until it was kept; the last tree of one that was being accepted, and the tree before one that was
# being put aside; which record it was, where it was to be, and its verdict.
NEW, NEXT, LAST, WHICH, VERDICT = "record.new", "tree.next", "tree.last", "record.which", "record.verdict"


def finish(spool: Spools, tree: str) -> None:
    """Finishes it: a copy that has its name was kept, and one without it never was."""
    if os.path.exists(NEW):
        replace(LAST, tree)
    else:
        which = noted()
        for record in spool.every() if which else ():
            if [record.name, record.identity[1]] == which[:2]:
                record.remove()
        replace(NEXT, tree)
        for place in which[2:] if which else ():
            replace(VERDICT, f"{place}.verdict")
            sync(os.path.dirname(place))
    for name in (WHICH, NEW, NEXT, LAST, VERDICT):
        with suppress(FileNotFoundError):
            os.remove(name)


def replace(name: str, target: str) -> None:
    with suppress(FileNotFoundError):
        os.replace(name, target)


def noted() -> Optional[List]:
    """Which record was being kept, and where, if one was. The file is empty if the power went before it was on the
    disk, when nothing else had happened."""
    try:
        with open(WHICH, encoding="utf-8") as file:
            return json.load(file)
    except (FileNotFoundError, ValueError):
        return None
