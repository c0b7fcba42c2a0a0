"""What was looked at: for each scene of the plans how often it ran against this server, and how it went; and how far
the sessions reached, so that what was never met is seen.

A scene passed in a session if each of its requests that was asked was judged, and none differs. Its sections are those
of the draft (draft-ietf-secsh-filexfer-02) on what it asks, or of OpenSSH's PROTOCOL.
"""
from collections import Counter
from dataclasses import dataclass, field, fields
from typing import Dict, Set

from sftpv3 import codec
from sftpv3.probe import features, lasting, planner

# The section on each request.
SECTIONS = {
    "6.3": ("OPEN", "CLOSE"), "6.4": ("READ", "WRITE"), "6.5": ("REMOVE", "RENAME"), "6.6": ("MKDIR", "RMDIR"),
    "6.7": ("OPENDIR", "READDIR"), "6.8": ("STAT", "LSTAT", "FSTAT"), "6.9": ("SETSTAT", "FSETSTAT"),
    "6.10": ("READLINK", "SYMLINK"), "6.11": ("REALPATH",), "8": ("EXTENDED", "LIMITS"),
    "PROTOCOL 4.3": ("POSIX-RENAME",), "PROTOCOL 4.5": ("HARDLINK",), "PROTOCOL 4.6": ("FSYNC",)}
SECTION_OF = {name: section for section, names in SECTIONS.items() for name in names}

# The types of the requests and replies that are counted, and the place of a handle in a request.
OPEN, CLOSE, READ, WRITE, OPENDIR, READDIR = (codec.REQUESTS[name][0] for name in (
    "OPEN", "CLOSE", "READ", "WRITE", "OPENDIR", "READDIR"))


@dataclass
class Reached:
    """The most of each in one session: pages of a listing, bytes of a packet, requests in flight, handles that were
    open, and READs just behind a WRITE of the same path through another handle."""

    pages: int = 0
    packet: int = 0
    in_flight: int = 0
    handles: int = 0
    foreign: int = 0

    def add(self, other):
        for one in fields(self):
            setattr(self, one.name, max(getattr(self, one.name), getattr(other, one.name)))

    def text(self):
        return (f"reached: pages of a listing {self.pages}, bytes of a packet {self.packet:,}, requests in flight "
                f"{self.in_flight}, handles {self.handles}, READs behind WRITEs through other handles {self.foreign}")


def handle_in(packet):
    """The handle that a request begins with, or that a reply gives."""
    return packet[13:13 + int.from_bytes(packet[9:13], "big")]


def reached(records):
    """How far a session reached."""
    found, asked, paths, pages, writers = Reached(), {}, {}, Counter(), {}
    for side, packet in records[2:]:
        found.packet = max(found.packet, len(packet))
        if side == codec.CLIENT:
            asked[packet[5:9]] = packet
            found.in_flight = max(found.in_flight, len(asked))
            found.foreign += is_foreign(packet, paths, writers)
            continue
        request = asked.pop(packet[5:9], b"\0" * 9)
        if packet[4] == codec.HANDLE:
            paths[handle_in(packet)] = handle_in(request)
            found.handles = max(found.handles, len(paths))
        elif request[4] == CLOSE:
            paths.pop(handle_in(request), None)
            pages.pop(handle_in(request), None)
        elif request[4] == READDIR and packet[4] == codec.NAME:
            pages[handle_in(request)] += 1
            found.pages = max(found.pages, pages[handle_in(request)])
    return found


def is_foreign(packet, paths, writers):
    """Whether a READ comes just behind a WRITE of its path through another handle. Notes WRITEs."""
    if packet[4] not in (READ, WRITE):
        return False
    handle = handle_in(packet)
    path = paths.get(handle)
    if packet[4] == WRITE:
        writers[path] = handle
        return False
    return path is not None and writers.pop(path, handle) != handle


@dataclass
class Looked:
    """What the sessions of a plan looked at: the scenes that ran, those that were judged whole, and those of which
    something differs; the requests of each; and how far they reached."""

    ran: Set[str] = field(default_factory=set)
    judged: Set[str] = field(default_factory=set)
    failed: Set[str] = field(default_factory=set)
    sections: Dict[str, Set[str]] = field(default_factory=dict)
    reached: Reached = field(default_factory=Reached)

    def take(self, steps, session, judged):
        """Takes a session with these steps in."""
        asked = {codec.id_of(packet) for side, packet in session.records[2:] if side == codec.CLIENT}
        differ = {one.number for one in judged.differences}
        whole, unsure = set(), set()
        for step in steps:
            name = scene_of(step)
            if step.number in asked:
                whole.add(name)
                self.sections.setdefault(name, set()).add(SECTION_OF[step.name])
            if step.number in differ:
                self.failed.add(name)
            if step.number in judged.unjudged_ids or step.number not in asked and session.unasked:
                unsure.add(name)
        self.ran |= whole
        self.judged |= whole - unsure
        self.reached.add(reached(session.records))


def scene_of(step):
    return step.scene or lasting.SCENE


@dataclass
class Check:
    """A scene, in how many sessions it ran, passed and failed, and the features for which it was left out."""

    name: str
    text: str
    ran: int = 0
    passed: int = 0
    failed: int = 0
    sections: Set[str] = field(default_factory=set)
    left_out: Set[str] = field(default_factory=set)

    def why(self):
        """By which option it was left out, or nothing."""
        also, skip = sorted(self.left_out & features.BEYOND), sorted(self.left_out - features.BEYOND)
        told = [f"--skip {','.join(skip)}"] if skip else []
        return " and ".join(told + ([f"not --also {','.join(also)}"] if also else []))

    def places(self):
        """Its sections, in their order."""
        return ", ".join(it for it in SECTIONS if it in self.sections)

    def as_dictionary(self):
        return {"check": self.name, "text": self.text, "sections": self.places(), "ran": self.ran,
                "passed": self.passed, "failed": self.failed, "skipped": self.why() or None}


class Checks:
    """All scenes, and how far the sessions reached."""

    def __init__(self):
        self.by_name = {name: Check(name, first_sentence(scene.__doc__)) for name, scene in planner.scenes().items()}
        self.by_name[lasting.SCENE] = Check(lasting.SCENE, lasting.TEXT)
        self.reached = Reached()

    def leave_out(self, left_out):
        for name, tags in left_out.items():
            self.by_name[name].left_out |= tags

    def add(self, looked):
        """Takes in what the sessions of one seed looked at."""
        self.reached.add(looked.reached)
        for name in looked.ran:
            check = self.by_name[name]
            check.ran += 1
            check.failed += name in looked.failed
            check.passed += name in looked.judged - looked.failed
            check.sections |= looked.sections[name]

    def all(self):
        return list(self.by_name.values())

    def lines(self):
        """A table, with a line for each scene, and one that counts them."""
        found = self.all()
        width = max(len(one.name) for one in found)
        rows = [f"{'check':{width}}  ran  passed  failed  sections"]
        for one in found:
            rows.append(f"{one.name:{width}} {one.ran:4} {one.passed:7} {one.failed:7}  {one.places() or '-'}: "
                        f"{one.text}" + (f" (skipped: {one.why()})" if one.why() else ""))
        ran, failed = sum(one.ran > 0 for one in found), sum(one.failed > 0 for one in found)
        return rows + [f"{len(found)} checks: {ran} ran, {failed} of them failed somewhere; {len(found) - ran} did not "
                       "run"]


def first_sentence(text):
    """The first sentence of a text, in one line."""
    text = " ".join(text.split())
    end = text.find(". ")
    return text if end < 0 else text[:end + 1]
