"""Faults of servers where requests meet on what is open: what is removed, renamed, replaced, cut, set or listed
meanwhile, and what is open by two handles."""
import posixpath

from sftpv3 import codec
from sftpv3.codec import APPEND, READ, TRUNC, WRITE
from sftpv3.faults.kinds import (END, FAR, MOVES, Attributes, Fault, Listings, Meets, Refuses, alter, clean, code_of,
                                 fault, opens, refused, refuses, set_to, sets_size, status, top_of, without)

open_directory_cannot_be_removed = refuses(
    "RMDIR of a directory that is open fails.",
    lambda self, asked: asked.name == "RMDIR" and self.numbers_at(asked.fields[0], "OPENDIR"))


@refuses(removed=dict)
def directory_of_open_cannot_be_removed(self, asked):
    """RMDIR of a directory fails while a file that was in it and was removed is open."""
    if asked.name == "REMOVE":
        self.removed.update((number, top_of(asked.fields[0])) for number in self.numbers_at(asked.fields[0]))
    still = {self.removed.get(opener.number) for opener in self.openers()}
    return asked.name == "RMDIR" and clean(asked.fields[0]) in still


listings_run_out = refuses(
    "OPENDIR fails while {COUNT} directories are open.",
    lambda self, asked: asked.name == "OPENDIR" and len(self.openers("OPENDIR")) >= self.COUNT, COUNT=16)


class listings_leak(Refuses):
    """OPENDIR fails behind {COUNT} that were done."""

    COUNT, done = 250, 0

    def answer(self, asked, reply):
        self.done += asked.name == "OPENDIR" and reply[4] == codec.HANDLE

    def refuses(self, asked):
        return asked.name == "OPENDIR" and self.done >= self.COUNT


@alter
def listings_share_place(self, asked):
    """With ten directories open, READDIR through a handle goes to the first that is open of the same directory."""
    opened = [(handle, opener) for handle, opener in list(self.opened.items()) if opener.name == "OPENDIR"]
    if asked.name == "READDIR" and len(opened) >= 10 and asked.handle() in dict(opened):
        asked.fields[0] = next(handle for handle, opener in opened if clean(opener.fields[0]) == self.about(asked))


@fault("ask", Meets)
def append_to_own_end(self, asked):
    """What is written with APPEND goes behind what the file had at OPEN and what was written through the handle."""
    if opens(asked, APPEND) and opens(asked, WRITE):
        opener, empties = self.asked[asked.number], asked.fields[1] & TRUNC
        opener.end = 0
        asked.fields[1] &= ~APPEND

        def known(given):
            opener.end = given["size"] if given and not empties else 0
        return [self.look(known, "STAT", asked.fields[0]), asked]
    opener = self.opener(asked) if asked.name == "WRITE" else None
    if hasattr(opener, "end"):
        asked.fields[1] = opener.end
        opener.end += len(asked.fields[2])


append_while_open_fails = refuses(
    "OPEN with APPEND of a file that is open fails.",
    lambda self, asked: opens(asked, APPEND) and self.numbers_at(asked.fields[0]))
set_needs_write = refuses(
    "FSETSTAT of permissions or times through a handle that is open to read fails.", lambda self, asked:
    asked.name == "FSETSTAT" and self.flags(asked) == READ and "size" not in asked.fields[1])
set_of_open_lost = set_to(
    "SETSTAT of the permissions of a file that is open by the path is told done, and is not.",
    lambda self, asked, given: without(given, "permissions") if self.numbers_at(asked.fields[0]) else given,
    NAMES=("SETSTAT",), WHAT="permissions")
size_of_open_lost = set_to(
    "SETSTAT of the size of a file that is open by the path is told done, and is not.", lambda self, asked, given:
    without(given, "size") if given["size"] < FAR and self.numbers_at(asked.fields[0]) else given,
    NAMES=("SETSTAT",), WHAT="size")


class permissions_of_open_kept(Meets, Attributes):
    """FSTAT shows the permissions that the file had at OPEN, until they are set through the handle."""

    def ask(self, asked):
        if asked.name == "OPEN":
            opener = self.asked[asked.number]

            def known(given):
                if given:
                    opener.mode = given["permissions"]
            return [self.look(known, "STAT", asked.fields[0]), asked]
        opener = self.opener(asked) if asked.name == "FSETSTAT" else None
        if hasattr(opener, "mode") and self.flags(asked) & WRITE:
            del opener.mode
        return None

    def seen(self, asked, given):
        mode = getattr(self.opener(asked), "mode", None) if asked.name == "FSTAT" else None
        return given if mode is None else {**given, "permissions": mode}


class Removed(Fault, removed=set):
    """Treats what is asked through a handle whose file was removed by the path that it was opened by."""

    def ask(self, asked):
        if asked.name == "REMOVE":
            self.removed |= self.numbers_at(asked.fields[0])
        return self.of_removed(asked) if self.opener_number(asked) in self.removed else None

    def of_removed(self, asked):
        """The requests in place of one through such a handle, or nothing, which leaves it as it is."""


class ToRemade(Removed):
    """Such a request goes to the file that was made anew by the path."""

    REQUEST = ""

    def of_removed(self, asked):
        handles = [handle for handle, opener in list(self.opened.items()) if opener.number not in self.removed
                   and opens(opener, READ) and opens(opener, WRITE) and clean(opener.fields[0]) == self.about(asked)]
        if asked.name == self.REQUEST and handles:
            asked.fields[0] = handles[-1]


of_removed = fault("of_removed", Removed)

write_to_remade = ToRemade.but(
    "A WRITE through the handle of a removed file goes to the file that was made anew by the path.", REQUEST="WRITE")
read_of_remade = ToRemade.but(
    "A READ through the handle of a removed file goes to the file that was made anew by the path.", REQUEST="READ")
removed_cannot_be_synced = of_removed("FSYNC through the handle of a removed file fails.",
                                      lambda self, asked: refused(asked) if asked.name == "FSYNC" else None)


@of_removed
def removed_cannot_be_cut(self, asked):
    """FSETSTAT of a size through the handle of a removed file is told done, and is not."""
    if sets_size(asked):
        asked.fields[1].pop("size")


@fault("ask", Meets)(instead=dict)
def write_to_replacing(self, asked):
    """A WRITE through a handle whose path posix-rename gave to another file goes to that one."""
    numbers = self.numbers_at(asked.fields[1]) if asked.name == "POSIX-RENAME" else ()
    if numbers:
        def known(packet):
            handle = codec.Reply(packet).handle
            self.instead.update((number, handle) for number in numbers if handle is not None)
        return [asked, self.question(known, "OPEN", asked.fields[1], READ | WRITE, {})]
    if asked.name == "WRITE":
        asked.fields[0] = self.instead.get(self.opener_number(asked), asked.fields[0])


@refuses(moved=set)
def renamed_cannot_be_cut(self, asked):
    """FSETSTAT of a size through a handle fails once the file got another name by the path that it was opened by."""
    if asked.name in MOVES:
        self.moved |= self.numbers_at(asked.fields[0])
    return sets_size(asked) and self.opener_number(asked) in self.moved


@refuses(names_of=dict)
def renamed_cannot_be_removed(self, asked):
    """REMOVE of a file that got its name while it was open fails until it is closed."""
    if asked.name in MOVES:
        self.names_of.update((number, clean(asked.fields[1])) for number in self.numbers_at(asked.fields[0]))
    still = {self.names_of.get(opener.number) for opener in self.openers()}
    return asked.name == "REMOVE" and clean(asked.fields[0]) in still


class end_stays(Fault, ends=dict):
    """Where a READ found the end, the READs through the handle find it until the handle itself is written through."""

    def alter(self, asked):
        if asked.name in ("WRITE", "FSETSTAT"):
            self.ends.pop(self.opener_number(asked), None)

    def answer(self, asked, reply):
        number = self.opener_number(asked) if asked.name == "READ" else None
        if number is None or self.flags(asked) != READ:
            return None
        if code_of(reply) == codec.EOF:
            self.ends[number] = min(asked.fields[1], self.ends.get(number, FAR))
        return [status(reply, END)] if asked.fields[1] >= self.ends.get(number, 2 ** 64) else None


class size_of_log_stays(Meets, Attributes):
    """STAT of a file that is open with APPEND shows the size that it had at OPEN."""

    def ask(self, asked):
        if opens(asked, APPEND) and not opens(asked, TRUNC):
            opener = self.asked[asked.number]
            opener.size = 0

            def known(given):
                opener.size = (given or {"size": 0})["size"]
            return [self.look(known, "STAT", asked.fields[0]), asked]
        return None

    def seen(self, asked, given):
        sizes = [opener.size for opener in self.openers_at(asked.fields[0]) if hasattr(opener, "size")] \
            if asked.name == "STAT" else []
        return {**given, "size": sizes[0]} if sizes else given


class removed_is_listed_while_open(Listings, gone=dict):
    """A file that was removed while it was open is listed until it is closed."""

    def alter(self, asked):
        if asked.name == "REMOVE":
            self.gone.update((number, clean(asked.fields[0])) for number in self.numbers_at(asked.fields[0]))

    def listed(self, asked, before, items):
        names, top = {item[0] for item in items}, clean(self.path(asked) or b"/")
        gone = {self.gone.get(opener.number, b"/") for opener in self.openers()}
        still = {posixpath.basename(path) for path in gone if posixpath.dirname(path) == top} - names - {b""}
        return items + [(name, name, items[0][2]) for name in still if not before]
