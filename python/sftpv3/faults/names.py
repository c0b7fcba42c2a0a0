"""Faults of servers in names: lost and doubled ones in listings, changed ones, and paths that are not found."""
import re

from sftpv3 import codec
from sftpv3.faults.kinds import (FAILED, MOVES, NOWHERE, Fault, Listings, answer, code_of, fault, leads_to, listed,
                                 listed_given, listed_name, refuses, spelled, status, told_done)

name_lost_by_count = listed(
    "A listing lacks its name number {COUNT}.", lambda self, asked, before, items:
    [item for number, item in enumerate(items, before + 1) if number != self.COUNT], COUNT=500)
name_lost_at_end = listed("A listing of more than {COUNT} names lacks the last of each reply.",
                          lambda self, asked, before, items: items[:-1] if before + len(items) > self.COUNT else items,
                          COUNT=40)
name_lost_by_length = listed_name("A listing lacks names of more than {LENGTH} bytes.",
                                  lambda self, name: name if len(name) <= self.LENGTH else None, LENGTH=200)
name_lost_hidden = listed_name("A listing lacks names that begin with a dot.",
                               lambda self, name: None if name.startswith(b".") and name not in (b".", b"..") else name)
listing_ends_at_1000 = listed(
    "A listing ends after {COUNT} names.", lambda self, asked, before, items:
    items if before + len(items) <= self.COUNT else items[:max(0, self.COUNT - before)], COUNT=1000)
listing_ends_at_4096 = listing_ends_at_1000.but(listing_ends_at_1000.__doc__, COUNT=4096)


@listed(last=dict)
def name_twice_between_replies(self, asked, before, items):
    """The last name of a reply is also the first of the next."""
    last = self.last.get(asked.handle()) if before else None
    self.last[asked.handle()] = items[-1]
    return ([last] if last else []) + items


name_twice_by_count = listed(
    "Name number {COUNT} of a listing is given twice.", lambda self, asked, before, items: [
        item for number, item in enumerate(items, before + 1) for _ in range(1 + (number == self.COUNT))], COUNT=90)
name_with_newline = listed_name("A newline in a name is listed as `?`.", lambda self, name: name.replace(b"\n", b"?"))
name_not_ascii = listed_name("A byte above 127 in a name of more than six bytes is listed as `?`.",
                             lambda self, name: bytes(63 if byte > 127 and len(name) > 6 else byte for byte in name))
name_without_blank = listed_name("Blanks at the end of a name are left out in a listing.",
                                 lambda self, name: name.rstrip(b" ") or None)
listed_size = listed_given("A listing shows the sizes of files modulo {MODULUS}.",
                           lambda self, given: {**given, "size": given["size"] % self.MODULUS}, MODULUS=65536)


@listed
def listed_permissions(self, asked, before, items):
    """A listing of more than 10 names shows no permissions of others for the last of a reply."""
    name, long, given = items[-1]
    if before + len(items) <= 10:
        return items
    return items[:-1] + [(name, long, {**given, "permissions": given["permissions"] & ~7})]


class renamed_listed_as_before(Listings, old=dict):
    """A listing shows what got another name in the same directory, by RENAME or posix-rename, by its old name."""

    def answer(self, asked, reply):
        if asked.name in MOVES and code_of(reply) == codec.OK:
            (top, _, old), (folder, _, name) = (path.rpartition(b"/") for path in asked.fields)
            if top == folder:
                self.old[folder, name] = old
        return super().answer(asked, reply)

    def listed(self, asked, _before, items):
        folder = (self.path(asked) or b"").rstrip(b"/")
        return [(self.old.get((folder, name), name), long, given) for name, long, given in items]


class removed_is_listed(Listings, gone=dict):
    """A listing still shows, as its first name, the name that was last removed from the directory."""

    def alter(self, asked):
        if asked.name == "REMOVE":
            folder, _, name = asked.fields[0].rpartition(b"/")
            self.gone[folder] = name

    def listed(self, asked, before, items):
        name = self.gone.get((self.path(asked) or b"").rstrip(b"/"))
        return items if before or not name else [(name, name, items[0][2])] + items


@answer(full=set)
def empty_listing_fails(self, asked, reply):
    """The listing of a directory without names fails in place of ending."""
    if asked.name == "READDIR" and reply[4] == codec.NAME:
        self.full.add(self.opener_number(asked))
    if asked.name == "READDIR" and self.opener_number(asked) not in self.full and code_of(reply) == codec.EOF:
        return [status(reply, FAILED)]


@refuses(made=int, COUNT=900)
def many_names_cannot_be_made(self, asked):
    """MKDIR and SYMLINK fail, and do nothing, behind {COUNT} that were done."""
    self.made += asked.name in ("MKDIR", "SYMLINK")
    return asked.name in ("MKDIR", "SYMLINK") and self.made > self.COUNT


class Links(Fault, links=set):
    """Treats a request of one kind in another way if its path is that of a link which the session made."""

    REQUEST = ""

    def ask(self, asked):
        if asked.name == "SYMLINK" or asked.name == "RENAME" and asked.fields[0] in self.links:
            self.links.add(asked.fields[1])
        return self.of_link(asked) if self.meant(asked) else None

    def meant(self, asked):
        return asked.name == self.REQUEST and asked.fields[0] in self.links

    def of_link(self, asked):
        """The requests that the server gets in place of one that is meant, or nothing, which leaves it as it is."""


of_link = fault("of_link", Links)

link_cannot_be_listed = fault("answer", Links)(
    "OPENDIR of a link fails.", lambda self, asked, reply:
    [status(reply, FAILED)] if self.meant(asked) and reply[4] == codec.HANDLE else None, REQUEST="OPENDIR")


@of_link(REQUEST="OPEN")
def link_cannot_be_opened(self, asked):
    """OPEN of a link fails."""
    if not asked.fields[1] & codec.CREAT:
        return [codec.Request(asked.number, "OPEN", [b"/", *asked.fields[1:]])]
    asked.fields[1] |= codec.EXCL


set_of_link_lost = of_link("SETSTAT of a link is told done, and is not.", lambda self, asked: told_done(asked),
                           REQUEST="SETSTAT")
removed_link_empties_file = of_link(
    "REMOVE of a link empties the file that it leads to.",
    lambda self, asked: [self.another("SETSTAT", asked.fields[0], {"size": 0}), asked], REQUEST="REMOVE")

deep_path_fails = leads_to(
    "A path of more than {COUNT} names leads nowhere.",
    lambda self, asked, place, path: NOWHERE if path.count(b"/") > self.COUNT and len(path) < 4096 else path, COUNT=20)
long_name_fails = leads_to(
    "A name of more than 250 bytes is cut there.",
    lambda self, asked, place, path: b"/".join(part[:250] if len(part) < 256 else part for part in path.split(b"/")))

percent_decoded = spelled(
    "`%` with two hexadecimal digits in a name is the byte of that number.", lambda self, name: re.sub(
        rb"%([2-7][0-9A-Fa-f])", lambda found: bytes([int(found[1], 16)]).replace(b"/", found[0]), name))
plus_is_blank = spelled("A plus in a name is a blank.", lambda self, name: name.replace(b"+", b" "))
angles_lost = spelled("`<` and `>` in names become `_`.", lambda self, name: re.sub(rb"[<>]", b"_", name))
signs_lost = spelled("The signs ``= , @ ^ ! ` { } ( )`` in names become `_`.",
                     lambda self, name: re.sub(rb"[=,@^!`{}()]", b"_", name))


@spelled
def colon_ends_name(self, name):
    """A colon inside a name ends it, as where it begins the name of a stream."""
    before, _, behind = name.partition(b":")
    return before if before and behind else name


dot_at_end_lost = spelled("Dots at the end of a name are left out.", lambda self, name: name.rstrip(b".") or name)
carriage_return_lost = spelled("A carriage return in a name is left out.",
                               lambda self, name: name.replace(b"\r", b"") or name)
