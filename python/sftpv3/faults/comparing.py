"""Compares the replies of a server with those of a model, each against those of the sound server.

A server may differ from the sound one where the draft leaves a choice. So replies are alike where they differ from the
sound one's in the same: at a reply that an audit refused in all that it refused; at others in what changes files, bytes
and names, or neither differs at all. The pages of listings are as long as each server likes, so a listing is compared
whole.
"""
from collections import Counter
from contextlib import suppress
from dataclasses import dataclass, field
from typing import Dict, FrozenSet, Optional, Set

from sftpv3 import codec
from sftpv3.faults.kinds import DIRECTORY, KIND, LINK

DONE, END, REFUSED = "done", "end", "refused"

# What says which files there are, and what is in them.
HARD = ("status", "data", "size")

DOTS = {b".", b".."}


def attributes(given):
    """What attributes show, without what each server may show as it likes."""
    found = {name: given[name] for name in ("size",) if name in given}
    if "owner" in given:
        found["user"], found["group"] = given["owner"]
    if "permissions" in given:
        found["kind"] = given["permissions"] & KIND
        if found["kind"] != LINK:
            found["permissions"] = given["permissions"] & 0o7777
        if found["kind"] in (DIRECTORY, LINK):
            found.pop("size", None)
    return found


def view(packet):
    """What a reply says, by names."""
    if packet is None:
        return {"status": "none"}
    with suppress(codec.Malformed):
        reply = codec.Reply(packet)
        if reply.kind == codec.STATUS:
            return {"status": {codec.OK: DONE, codec.EOF: END}.get(reply.code, REFUSED), "code": reply.code}
        if reply.kind == codec.HANDLE:
            return {"status": "handle"}
        if reply.kind == codec.DATA:
            return {"status": "data", "data": codec.string_in(packet)}
        if reply.kind == codec.ATTRS:
            return {"status": "attributes", **attributes(codec.attributes_in(packet))}
        if reply.kind == codec.NAME:
            return {"status": "path", "path": codec.names_in(packet)[0][0] if codec.names_in(packet) else b""}
    return {"status": "other", "data": packet[4:5] + packet[9:]}


def deviation(one, sound):
    """What one reply says otherwise than the sound one, by names; a code only where both refuse."""
    if one["status"] != sound["status"]:
        return {"status": REFUSED} if one["status"] == REFUSED else dict(one)
    return {name: one.get(name) for name in {*one, *sound} if one.get(name) != sound.get(name)}


def same_data(one, other, sound):
    """Whether two DATA differ from the sound one alike, where each server may give fewer bytes than were asked for."""
    if one == other:
        return True
    if sound is not None and (sound.startswith(one) or sound.startswith(other)):
        # one of them differs in its length alone
        return False
    count = min(len(one), len(other))
    return one[:count] == other[:count] and (sound is None or one[:count] != sound[:count])


@dataclass
class Listing:
    """What a server listed through one handle."""

    names: Counter = field(default_factory=Counter)
    shown: Dict[bytes, dict] = field(default_factory=dict)
    has_ended: bool = False
    fails: bool = False

    def take(self, packet):
        found = view(packet)
        self.has_ended = self.has_ended or found["status"] == END
        self.fails = self.fails or found["status"] not in (END, "path")
        if found["status"] == "path":
            for name, _, given in codec.names_in(packet):
                if name not in DOTS:
                    self.names[name] += 1
                    self.shown[name] = attributes(given)

    def against(self, sound, fields, is_refused):
        """How it differs from the sound one: names that it lacks, if both have ended, and has besides, if that has
        ended or what it gave was refused; names that come twice; whether it fails; and of these fields what it shows
        otherwise."""
        lacks = frozenset(sound.names.keys() - self.names.keys()) if self.has_ended and sound.has_ended else None
        more = frozenset(self.names.keys() - sound.names.keys()) if sound.has_ended or is_refused else None
        twice = frozenset(name for name, count in self.names.items() if count > 1)
        other = frozenset((name, what, self.shown[name].get(what)) for name in self.names.keys() & sound.names.keys()
                          for what in fields if self.shown[name].get(what) != sound.shown[name].get(what))
        return lacks, more, twice, self.fails, other


def listings(script, replies):
    """The listings of a play, by the ids of what opened them."""
    found = {}
    for number in script.listed:
        found.setdefault(script.openers[number][0], Listing()).take(replies.get(number))
    return found


@dataclass
class Refused:
    """What an audit said of a reply: the attributes that it refused, or None if that is all of it."""

    fields: Optional[FrozenSet[str]] = None


class Comparison:
    """Compares models with what a server did in a session. `refused` has what was refused, by ids; `unjudged` are the
    ids of replies of which an audit said nothing."""

    def __init__(self, script, theirs, sound, refused: Dict[int, Refused], unjudged: Set[int]):
        self.script, self.theirs, self.sound, self.refused = script, theirs, sound, refused
        self.numbers = [number for number in script.numbers() if number not in unjudged]
        self.sound_listings = listings(script, sound)
        self.first = next((place for place, number in enumerate(self.numbers) if number in refused), None)

    def alike(self, replies):
        """How many replies are alike with those of a model."""
        of_listings = self.alike_listings(replies)
        count = 0
        for place, number in enumerate(self.numbers):
            if number in of_listings:
                count += of_listings[number]
            else:
                count += self.is_alike(place, number, *(view(it.get(number))
                                                        for it in (self.theirs, replies, self.sound)))
        return count

    def is_alike(self, place, number, theirs, other, sound):
        if number in self.refused:
            return self.is_alike_refused(self.refused[number].fields, theirs, other, sound)
        has_begun = self.first is not None and place > self.first
        if deviation(other, sound).keys() <= {"code"} and not has_begun:
            return True
        return all(self.same(name, theirs, other, sound) for name in {*theirs, *other} - {"code"})

    @staticmethod
    def same(name, theirs, other, sound):
        """Whether two replies that were not refused say the same of this."""
        one, two = theirs.get(name), other.get(name)
        if name == "data" and one is not None and two is not None:
            count = min(len(one), len(two))
            return one[:count] == two[:count]
        return one == two or name not in HARD and two == sound.get(name)

    @staticmethod
    def is_alike_refused(fields, theirs, other, sound):
        def kept(found):
            return {name: value for name, value in found.items() if fields is None or name in fields
                    or name in ("status", "code")}
        theirs_is, other_is = kept(deviation(theirs, sound)), kept(deviation(other, sound))
        if "data" in theirs_is and "data" in other_is:
            if not same_data(theirs_is.pop("data"), other_is.pop("data"), sound.get("data")):
                return False
        return theirs_is == other_is

    def alike_listings(self, replies):
        """Whether each READDIR is alike, as its listing is."""
        found, of_model, of_server = {}, listings(self.script, replies), listings(self.script, self.theirs)
        for opener, sound in self.sound_listings.items():
            numbers = [number for number in self.script.listed if self.script.openers[number][0] == opener]
            refused = [self.refused[number] for number in numbers if number in self.refused]
            fields = set().union(*(one.fields or () for one in refused))
            theirs, other = (it[opener].against(sound, fields, bool(refused)) for it in (of_server, of_model))
            is_alike = all(one == two or one is None or two is None for one, two in zip(theirs, other))
            found.update(dict.fromkeys(numbers, is_alike and (not refused or any(other))))
        return found
