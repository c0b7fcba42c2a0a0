"""What the search's model leaves out. Where a set has some of it, that no order was found shows nothing."""
from __future__ import annotations

import argparse
from collections.abc import Iterator
from typing import Optional

from sftpv3.together.deeds import FIELDS, Deed
from sftpv3.together.outside import packets, trees
from sftpv3.together.searching import Search

# A request that copies bytes by two handles, which servers with `copy-data` know.
COPIES = b"copy-data"

# A server shows a WRITE in several steps if its bytes are in several pages of so many bytes.
PAGE = 4096
LOOKS_AT_FILES = {"STAT", "LSTAT", "FSTAT", "READ", "READDIR"}


def names_in(deed: Deed) -> Iterator[int]:
    """How many names each text of a request has, if it is a path."""
    return (field.count(b"/") + 1 for field in deed.request.fields if isinstance(field, bytes) and len(field) < 4097)


def left_out(tree: trees.Tree, deeds: list[list[Deed]], given: argparse.Namespace) -> Optional[str]:
    """What the set has that the model does not, in words; None if there is nothing."""
    asked = [deed for session in deeds for deed in session]
    if any(deed.request.name == "EXTENDED" and deed.request.fields[:1] == [COPIES] for deed in asked):
        return "what copy-data copies"
    if len(tree.limits) > 4 and tree.limits[4] != trees.NO_LIMIT_OF_ALL:
        return "the limit on the bytes of all files"
    deepest = max((len(entry.names()) for entry in tree.entries), default=0)
    moves = [deed for deed in asked if deed.request.name.endswith("RENAME")]
    most = max((count for deed in moves for count in names_in(deed)), default=0)
    if deepest + 2 * most > trees.DEEPEST:
        return "how deep a directory is that moves"
    if longest(tree, moves) > trees.LONGEST_PATH and (given.by.open_dir or given.by.listing):
        return "open directories at places of more than 4,096 bytes"
    return next(filter(None, (of_unanswered(session, given) for session in deeds)), None)


def longest(tree: trees.Tree, moves: list[Deed]) -> int:
    """The most bytes that the text of a place may come to have."""
    there = max((len(entry.path) for entry in tree.entries), default=0)
    return there + 2 * max((len(field) for deed in moves for field in deed.request.fields), default=0)


def of_unanswered(deeds: list[Deed], given: argparse.Namespace) -> Optional[str]:
    """What the model does not know of the requests of a session that got no reply: it leaves out or does each whole,
    and one that changes only what the session has open it leaves out."""
    handles: set[bytes] = set()
    for deed in deeds:
        name, fields = deed.request.name, deed.request.fields
        if deed.reply is not None:
            if packets.LAYOUTS[name][1].startswith("handle") and fields[0] in handles:
                return "what a CLOSE or a READDIR without a reply did"
        elif name in ("CLOSE", "READDIR"):
            handles.add(fields[0])
        elif name in ("SETSTAT", "FSETSTAT") and given.parts.fields and sum(it in fields[1] for it in FIELDS) > 1:
            return "which fields a SETSTAT without a reply set"
    return None


def met(search: Search, given: argparse.Namespace) -> Optional[str]:
    """What the search met that the model does not know, in words; None if there is nothing."""
    if search.state.is_beyond and (given.by.limits or given.by.extensions):
        return "what a server does beyond the limits of the tree, or for an extension"
    goal = search.furthest[1]
    if given.profile and goal is not None and goal.request.name in LOOKS_AT_FILES:
        writes = (deed for deeds in search.sessions for deed in deeds if deed.request.name == "WRITE")
        if any(overlaps(goal, deed) and is_torn(deed) for deed in writes):
            return "WRITEs in the steps of pages"
    return None


def overlaps(goal: Deed, deed: Deed) -> bool:
    return deed.session != goal.session and deed.asked <= goal.deadline and goal.asked <= deed.deadline


def is_torn(deed: Deed) -> bool:
    """Whether the bytes of a WRITE may be in several pages. Where one with APPEND wrote, only READs tell."""
    _, offset, data = deed.request.fields
    start = offset if deed.rank is None else deed.rank
    return bool(data) and (start // PAGE != (start + len(data) - 1) // PAGE or deed.is_appended and deed.rank is None)
