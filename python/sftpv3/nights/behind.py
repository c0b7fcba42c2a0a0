"""What a night knows behind a session that it refused or could not judge: the tree without the places of which nothing
is known any more. opening.py has these places, and how a session is judged without them."""
import os
import re
import subprocess
from typing import Dict, Iterator, List, NamedTuple, Optional, Sequence, Tuple

from sftpv3.codec import BEGUN, CLIENT, SERVER, Malformed, Packet, encode, put_records, wording
from sftpv3.nights import accounts, causes, journal, opening
from sftpv3.nights.journal import AFTER, TREE
from sftpv3.nights.opening import Contradicted, Known, Open, Pattern, Place, Reduced
from sftpv3.nights.records import Failed, sync

# A transcript without its requests at open places, one that removes such places or asks something alone, and the tree
# without them.
JUDGED, ASKED, WITHOUT = "open.transcript", "open.asked", "open.tree"
# An entry as `sftpv3 show` prints it: its kind, its path, and the target of a link.
ENTRY = re.compile(r'[0-9]+ ([A-Za-z]) "([^"]*)"(?: "([^"]*)"| ([0-9]+) ([0-9]+) ([0-7]{4})|).*')
# How many contradictions of a session are looked at, before all that it may have changed is open.
MOST_ROUNDS = 16
# How many places are named.
NAMED, NAMED_IN_EACH = 5, 2


class Entry(NamedTuple):
    """An entry of a tree: its kind, its path, the target if it is a link, and the owner, the group and the permissions
    if it is a directory or a file."""

    kind: str
    path: bytes
    target: bytes
    owner: Tuple[int, int, int]

    def is_directory(self) -> bool:
        return self.kind in "Dd"


def named(places: Sequence[bytes], most: int = NAMED) -> str:
    """The names of places, cut short."""
    more = f" and {len(places) - most} more" if len(places) > most else ""
    return ", ".join(map(wording.quoted, places[:most])) + more


class Behind:
    """The open places of a night, and the tree that its next session starts from, which has none of them."""

    def __init__(self, night, patterns: Sequence[bytes]) -> None:
        self.night, self.patterns = night, [Pattern(it) for it in patterns]
        self.open = Open([Place(bytes.fromhex(path), is_whole) for path, is_whole in journal.open_places()],
                         self.patterns)

    def places(self) -> List[bytes]:
        return [it.path for it in self.open.places]

    def note(self, decision, opened: Optional[Open]) -> None:
        """Something was decided by which these are open."""
        if decision.open == []:
            self.open = Open((), self.patterns)
        elif opened is not None:
            self.open = Open(opened.places, self.patterns)

    # trees

    def entries(self, tree: str) -> Iterator[Entry]:
        with subprocess.Popen([self.night.program, "show", tree], stdin=subprocess.DEVNULL,
                              stdout=subprocess.PIPE) as shown:
            for line in shown.stdout:
                found = ENTRY.fullmatch(line.decode(errors="surrogateescape").rstrip("\n"))
                if found:
                    owner = int(found[4] or 0), int(found[5] or 0), int(found[6] or "0", 8)
                    yield Entry(found[1], causes.unescaped(found[2]), causes.unescaped(found[3] or ""), owner)

    def known(self, given: Optional[Open] = None) -> Known:
        """What is known of the tree, where these places are open."""
        given, found = self.open if given is None else given, Known({}, {})
        for it in self.entries(TREE):
            if it.kind == "L":
                found.links[it.path] = it.target
            elif Place(it.path, False) in given.places:
                found.owners[it.path] = it.owner
        return found

    def children(self, folder: bytes) -> Dict[bytes, bool]:
        front = folder.rstrip(b"/") + b"/"
        return {it.path: it.is_directory() for it in self.entries(TREE)
                if it.path.startswith(front) and b"/" not in it.path[len(front):] and it.path != b"/"}

    def without(self, tree: str, given: Open) -> Optional[str]:
        """The tree without what is open: the same if it has none of that. The audit removes it. None if it cannot: the
        root itself is open, say."""
        found = [(it.path, it.is_directory()) for it in self.entries(tree) if given.has(it.path)] if given else []
        if not found:
            return tree
        if not all(path.strip(b"/") for path, _ in found):
            return None
        self.write(ASKED, opening.removals(found))
        status = self.night.run_program(1, "audit", *self.night.options, "--tree", tree, "--transcript", ASKED, "--out",
                                        WITHOUT).status
        return WITHOUT if status == 0 else None

    def leave_out_volatile(self) -> None:
        """Takes what --volatile names out of the tree, which has it if the option is new."""
        if not self.patterns or not os.path.exists(TREE):
            return
        tree = self.without(TREE, Open((), self.patterns))
        if tree is None:
            raise Failed("what --volatile names cannot be left out of the tree")
        if tree != TREE:
            os.replace(tree, TREE)
            sync(".")

    def write(self, name: str, data: bytes) -> None:
        with open(name, "wb") as file:
            file.write(data)

    # sessions

    def reduced(self, copy, given: Optional[Open] = None) -> Optional[Reduced]:
        """What is judged of a copy, if places are open; None if it is malformed, so that all of it is judged."""
        given = self.open if given is None else given
        try:
            return opening.reduced(accounts.data_of(copy), self.home(copy), given, self.known(given))
        except Malformed:
            return None

    def home(self, copy) -> bytes:
        return self.night.account(copy.record.user).home

    def firm(self) -> Open:
        """What is open, so that no session closes it."""
        return Open(self.open.places, self.open.patterns, is_firm=True)

    def all_reduced(self, copies, given: Optional[Open] = None) -> Optional[List[Reduced]]:
        """The same of sessions that may have run at the same time, none of which closes a place. What one of them opens
        is so for all."""
        given = self.firm() if given is None else given
        while True:
            found = [self.reduced(it, given) for it in copies]
            if None in found:
                return None
            before = len(given.places)
            given.open(place for it in found for place in it.open.places)
            if len(given.places) == before:
                return found

    # what is open behind a session

    def behind_refusal(self, copy, line: str) -> Optional[Open]:
        """What is open behind a refused session, with the tree behind it in AFTER: what contradicts the tree, one reply
        after the other; and if that does not come to an end, all that it may have changed. None if that is not
        known."""
        if os.fstat(copy.file).st_size > causes.MOST_BYTES:
            return None
        data, given = accounts.data_of(copy), self.open.copy()
        try:
            for _ in range(MOST_ROUNDS):
                found = self.contradiction(data, copy, line)
                if not found or not self.night.may_go_on():
                    break
                given.open(found)
                line, left = self.judged_without(data, copy, given)
                if left is not None:
                    return left
        except (Malformed, subprocess.TimeoutExpired):
            pass
        return self.behind_unjudged([copy])

    def places_behind(self, copy, line: str) -> List[Place]:
        """The same of a session of a set; none if that is not known."""
        try:
            return self.contradiction(accounts.data_of(copy), copy, line)
        except (Malformed, subprocess.TimeoutExpired):
            return []

    def is_accepted(self, tree: str, transcript: str) -> bool:
        """Whether the audit accepts a transcript from a tree; then AFTER has the tree of its end."""
        try:
            return self.night.run_program(1, "audit", *self.night.options, "--tree", tree, "--transcript", transcript,
                                          "--out", AFTER).status == 0
        except subprocess.TimeoutExpired:
            return False

    def contradiction(self, data: bytes, copy, line: str) -> List[Place]:
        """The places that the refusal of a record is about."""
        record, kind = causes.place_of_refusal(line)
        one = opening.contradicted(data, self.home(copy), record, self.known()) if kind == "NotAllowed" else None
        if one is None:
            return []
        if one.names is None:
            return opening.places_of(one, {})
        found = opening.places_of(one, self.children(one.paths[0]))
        return found if found != [Place(one.paths[0])] else self.wrong_entries(one) or found

    def wrong_entries(self, one: Contradicted) -> List[Place]:
        """The entries of a listing that the tree does not allow alone."""
        if one.reply.name != "NAME":
            return []
        folder = one.paths[0].rstrip(b"/") + b"/"
        wrong: List[Place] = []
        parts = [one.reply.fields[0]]
        while parts:
            part = parts.pop()
            if self.is_listed(one, part):
                continue
            if len(part) == 1:
                wrong.append(Place(folder + part[0][0]))
            else:
                parts += [part[:len(part) // 2], part[len(part) // 2:]]
            if len(wrong) > MOST_ROUNDS:
                return []
        return wrong

    def is_listed(self, one: Contradicted, part: List[Tuple]) -> bool:
        """Whether the tree allows a listing of these entries."""
        handle = one.asked.fields[0]
        pairs = (Packet(1, "OPENDIR", [one.paths[0]]), Packet(1, "HANDLE", [handle])), (
            Packet(2, "READDIR", [handle]), Packet(2, "NAME", [part]))
        self.write(ASKED, put_records([*BEGUN, *((side, encode(it)) for pair in pairs
                                                 for side, it in zip((CLIENT, SERVER), pair))]))
        return self.night.run_program(1, "audit", *self.night.options, "--tree", TREE, "--transcript",
                                      ASKED).status == 0

    def judged_without(self, data: bytes, copy, given: Open) -> Tuple[str, Optional[Open]]:
        """What an audit says of a session from the tree without open places; and if it accepts, what is open behind
        it, with the tree in AFTER."""
        tree = self.without(TREE, given)
        if tree is None:
            return "", None
        left = opening.reduced(data, self.home(copy), given, self.known(given))
        if left is None:
            return "", None
        self.write(JUDGED, left.data)
        found = self.night.run_program(1, "audit", *self.night.options, "--tree", tree, "--transcript", JUDGED, "--out",
                                       AFTER)
        return (found.lines() or [""])[0], left.open if found.status == 0 else None

    def behind_unjudged(self, copies) -> Optional[Open]:
        """What is open behind sessions of which nothing is known but what they may have changed, with the tree without
        it in AFTER; None if that is not known either."""
        given = self.open.copy()
        try:
            for copy in copies:
                places = self.changed(copy)
                if places is None:
                    return None
                given.open(places)
            tree = self.without(TREE, given)
        except subprocess.TimeoutExpired:
            return None
        if tree is None:
            return None
        if tree == TREE:
            journal.link(TREE, AFTER)
        else:
            os.replace(tree, AFTER)
        return given

    def changed(self, copy) -> Optional[List[Place]]:
        """The places that a session may have changed; None if these are not known. A SETSTAT of a directory changes its
        attributes alone."""
        if os.fstat(copy.file).st_size > causes.MOST_BYTES:
            return None
        try:
            found = opening.changed(accounts.data_of(copy), self.home(copy), self.known())
        except Malformed:
            return None
        if found is None:
            return None
        set_only = {path for path, is_of_attributes in found if is_of_attributes}
        directories = {it.path for it in self.entries(TREE) if it.is_directory() and it.path in set_only}
        return [Place(path, not (is_of_attributes and path in directories)) for path, is_of_attributes in found]

    # what is said

    def named_open(self) -> str:
        places = self.places()
        return f"{len(places)} open place{'s' * (len(places) != 1)} ({named(places, NAMED_IN_EACH)})"

    def but_for(self, count: int) -> str:
        """What is said of an accepted session of which so many requests were left out."""
        if not count:
            return ""
        which = self.named_open() if self.open.places else ""
        volatile = "what --volatile names" if self.patterns else ""
        return f" but for {' and '.join(filter(None, (which, volatile)))}, where {count} of them are"
