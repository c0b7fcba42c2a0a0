"""Faults of servers where something takes a place: names that are taken or lack a directory, directories that are
emptied, what was seen of a place before, requests that come together, and files that were there at the start."""
import posixpath

from sftpv3 import codec
from sftpv3.codec import CREAT, EXCL, READ, TRUNC, WRITE
from sftpv3.faults.kinds import (DIRECTORY, FILE, LINK, LOOKS, MOVES, NOWHERE, After, Asks, Fault, Refuses, Statuses,
                                 alter_now, answer, clean, code_of, data_of, fault, is_below, leads_to, listed_name,
                                 opens, paths_of, refuses, top_of, with_attributes, with_data)
from sftpv3.faults.places import KnownAbsent, Overlooks, beside, overlooks, remade_directory_is_full
from sftpv3.faults.stores import of_made


def is_of_one_place(asked):
    """Whether both paths of a request are the same."""
    return clean(asked.fields[0]) == clean(asked.fields[1])


class rename_of_link_replaces(Asks):
    """RENAME of a link replaces a file or a link at the new place."""

    OLD, NEW = LINK, (FILE, LINK)

    def alter(self, asked):
        if asked.name == "RENAME" and not is_of_one_place(asked) and self.kind_now(asked.fields[0]) == self.OLD \
                and self.kind_now(asked.fields[1]) in self.NEW:
            asked.name = "POSIX-RENAME"


rename_of_directory_replaces = rename_of_link_replaces.but(
    "RENAME of a directory replaces one without names at the new place.", OLD=DIRECTORY, NEW=(DIRECTORY,))


@alter_now
def rename_goes_inside(self, asked):
    """RENAME of a directory to the place of another directory puts it into that, as `mv` does."""
    if asked.name == "RENAME" and not is_of_one_place(asked) \
            and {self.kind_now(path) for path in asked.fields} == {DIRECTORY}:
        asked.fields[1] = clean(asked.fields[1]) + b"/" + posixpath.basename(clean(asked.fields[0]))


@alter_now
def rename_to_itself_done(self, asked):
    """RENAME of something to its own place is told done."""
    if asked.name == "RENAME" and is_of_one_place(asked) and self.kind_now(asked.fields[0]) is not None:
        asked.name = "POSIX-RENAME"


class rename_makes_parents(Asks):
    """RENAME makes the directories that its new path lacks."""

    NAME = "RENAME"

    def ask(self, asked):
        if asked.name != self.NAME:
            return None
        top, made = top_of(asked.fields[1]), []
        while top != b"/" and self.kind_now(top) is None:
            made.insert(0, self.another("MKDIR", top, {}))
            top = posixpath.dirname(top)
        return (made if self.kind_now(top) == DIRECTORY else []) + [asked]


replacing_makes_parents = rename_makes_parents.but(
    "posix-rename makes the directories that its new path lacks.", NAME="POSIX-RENAME")

directories_do_not_count = overlooks(
    "RMDIR removes a directory in which only directories without names are, with them.",
    lambda self, path: self.kind_now(path) == DIRECTORY and self.names_now(path) == [])


class further_names_do_not_count(Overlooks, further=set):
    """RMDIR removes a directory in which only names that HARDLINK made are, with them."""

    def alter(self, asked):
        if asked.name == "HARDLINK":
            self.further.add(clean(asked.fields[1]))
        super().alter(asked)

    def overlooks(self, path):
        return path in self.further


class moved_out_still_counts(Refuses, Asks, full=set):
    """RMDIR of a directory fails once RENAME took a directory out of it."""

    NAME, KINDS = "RENAME", (DIRECTORY,)

    def refuses(self, asked):
        if asked.name == self.NAME and not beside(asked) and self.kind_now(asked.fields[0]) in self.KINDS:
            self.full.add(top_of(asked.fields[0]))
        return asked.name == "RMDIR" and clean(asked.fields[0]) in self.full


replacing_out_still_counts = moved_out_still_counts.but(
    "RMDIR of a directory fails once posix-rename took something out of it.",
    NAME="POSIX-RENAME", KINDS=(FILE, LINK, DIRECTORY))


@leads_to(parents=dict)
def parent_stays(self, asked, place, path):
    """`..` in a directory that RENAME put into another one leads to where it was."""
    if asked.name == "RENAME" and place == 0 and not beside(asked):
        self.parents[clean(asked.fields[1])] = top_of(asked.fields[0])
    before, dots, behind = path.partition(b"/../")
    parent = self.parents.get(clean(before)) if dots and asked.name != "SYMLINK" else None
    return path if parent is None else parent + b"/" + behind


system_files_unlisted = listed_name(
    "A listing lacks names that systems hide: `.DS_Store`, `Thumbs.db`, `desktop.ini` and those of `._x`.",
    lambda self, name: None if name.startswith(b"._") or name in (b".DS_Store", b"Thumbs.db", b"desktop.ini") else name)
whiteouts_cannot_be_made = refuses(
    "OPEN and MKDIR of a name that begins with `.wh.` or `.nfs` fail.", lambda self, asked:
    asked.name in ("OPEN", "MKDIR") and posixpath.basename(asked.fields[0]).startswith((b".wh.", b".nfs")))


@of_made
def moved_directory_loses_names(self, asked):
    """RENAME of a directory moves a thousand names in it: the others are lost."""
    if asked.name in MOVES:
        old, new = paths_of(asked)
        inside = sorted(path for path in self.made if posixpath.dirname(path) == old)
        return [asked] + [self.another("RMDIR" if self.made[path] == "MKDIR" else "REMOVE", new + path[len(old):])
                          for path in inside[1000:]]


class found_nothing_before(Fault, absent=set):
    """OPEN to read finds nothing at a path at which it found nothing before, whatever made something there since."""

    # the requests that make it look again
    FORGETTING: tuple = ()

    def alter(self, asked):
        if asked.name in self.FORGETTING and (asked.name != "OPEN" or opens(asked, CREAT)):
            self.absent -= set(paths_of(asked))
        if asked.name == "OPEN" and asked.fields[1] == READ and clean(asked.fields[0]) in self.absent:
            asked.fields[0] = NOWHERE

    def answer(self, asked, reply):
        if asked.name == "OPEN" and asked.fields[1] == READ and code_of(reply) == codec.NO_SUCH_FILE:
            self.absent.add(clean(asked.fields[0]))


found_nothing_before_rename = found_nothing_before.but(
    "OPEN to read finds nothing at a path at which it found nothing before, if RENAME put something there.",
    FORGETTING=("OPEN", "SYMLINK", "HARDLINK", "POSIX-RENAME"))
absent_behind_directory = KnownAbsent.but(
    "LSTAT finds nothing at a path at which it found nothing before, if only MKDIR made something since.",
    KNOWN=("OPEN", "SYMLINK", "HARDLINK", *MOVES))


def in_place_of(reply, other):
    """Another reply in place of this one, with its id."""
    return other[:5] + reply[5:9] + other[9:]


@answer(kept=dict)
def real_path_kept(self, asked, reply):
    """REALPATH of a path gives what it gave before, also where a link is another one since."""
    if asked.name == "REALPATH" and reply[4] == codec.NAME:
        return [in_place_of(reply, self.kept.setdefault(asked.fields[0], reply))]


class known_by_spelling(Fault, known=dict):
    """STAT and LSTAT of a path that is not spelled in the plainest way, as with a doubled slash or a dot, show what
    they showed before, unless something else was asked by this spelling."""

    def alter(self, asked):
        if asked.name not in LOOKS and asked.handle() is None:
            for path in asked.fields[:2]:
                self.known.pop(path if isinstance(path, bytes) else None, None)

    def answer(self, asked, reply):
        if reply[4] != codec.ATTRS or asked.name not in LOOKS or clean(asked.fields[0]) == asked.fields[0]:
            return None
        return [with_attributes(reply, self.known.setdefault(asked.fields[0], codec.attributes_in(reply)))]


class ThroughLinks(Fault, links=lambda: {b"/to-d", b"/to-e"}, kept=dict):
    """Keeps something of paths through links that the session made, until something is changed by such a path."""

    def alter(self, asked):
        if asked.name == "SYMLINK" and clean(asked.fields[1]) != b"/":
            self.links.add(clean(asked.fields[1]))
        if asked.name in ("READ", "READDIR", "OPENDIR", *codec.LOOKERS) \
                or asked.name == "OPEN" and asked.fields[1] == READ:
            return
        paths = paths_of(asked) if asked.handle() is None else [self.about(asked) or b"/"]
        if any(map(self.is_through, paths)):
            self.kept = {}

    def is_through(self, path):
        return any(path == link or is_below(path, link) for link in self.links)


@fault("answer", ThroughLinks)
def listing_by_link_kept(self, asked, reply):
    """A listing by a path through a link gives what the first one by this path gave, unless something was changed by
    such a path."""
    path = self.about(asked) or b"/" if asked.name == "READDIR" else b"/"
    if self.is_through(path):
        number = self.opener_number(asked)
        first, replies = self.kept.setdefault(path, (number, []))
        if first != number:
            return [in_place_of(reply, replies[min(self.count_through(asked), len(replies)) - 1])]
        replies.append(reply)


@fault("answer", ThroughLinks)
def bytes_by_link_kept(self, asked, reply):
    """A READ by a path through a link gives what an earlier one of the same offset and length gave, unless something
    was changed by such a path."""
    path = self.about(asked) or b"/" if asked.name == "READ" else b"/"
    if self.is_through(path):
        return [in_place_of(reply, self.kept.setdefault((path, *asked.fields[1:]), reply))]


class AtOnce(Fault, second=set):
    """Looks whether a place is free, or taken, before the request that came just before was done. It keeps the numbers
    of requests that came just behind one of their kind at the same place."""

    NAMES: tuple = ()

    def requests(self, packets):
        packets = list(packets)
        asked = [codec.decode(packet) for packet in packets]
        self.second |= {second.number for first, second in zip(asked, asked[1:])
                        if first.name == second.name and first.name in self.NAMES
                        and paths_of(first)[-1] == paths_of(second)[-1]}
        return super().requests(packets)


@fault("alter", AtOnce)(NAMES=("RENAME",))
def both_renamed_at_once(self, asked):
    """Of two RENAMEs to one place that come together, the second replaces what the first put there."""
    if asked.number in self.second:
        asked.name = "POSIX-RENAME"


@fault("alter", AtOnce)(NAMES=("OPEN",))
def both_opened_at_once(self, asked):
    """Of two OPENs with EXCL of one path that come together, both give a handle."""
    if asked.number in self.second:
        asked.fields[1] &= ~EXCL


both_made_at_once = fault("code", AtOnce, Statuses)(
    "Of two MKDIRs of one path that come together, both are told done.",
    lambda self, asked, code: codec.OK if asked.number in self.second else code, NAMES=("MKDIR",))
both_removed_at_once = both_made_at_once.but(
    "Of two REMOVEs or RMDIRs of one path that come together, both are told done.", NAMES=("REMOVE", "RMDIR"))


@fault("ask", AtOnce)(NAMES=("SYMLINK",))
def both_linked_at_once(self, asked):
    """Of two SYMLINKs of one path that come together, the second replaces the first."""
    return [self.another("REMOVE", asked.fields[1]), asked] if asked.number in self.second else None


class OfStart(After, made=set):
    """Knows the paths of what the session made or moved."""

    def kind_of_start(self, path):
        """The kind of what was at a path at the start, and still is, or None."""
        return None if any(path == one or is_below(path, one) for one in self.made) else self.kind_now(path)

    def note(self, asked):
        if asked.name in ("MKDIR", "SYMLINK", "HARDLINK", *MOVES) \
                or opens(asked, CREAT) and self.kind_now(asked.fields[0]) is None:
            self.made.add(paths_of(asked)[-1])


class directory_of_start_comes_back(OfStart, remade_directory_is_full):
    """MKDIR at the path of a directory that was there at the start, and was removed, brings back the first name that
    was removed from it."""

    def alter(self, asked):
        if asked.name in ("REMOVE", "RMDIR") and self.kind_of_start(clean(asked.fields[0])) is not None:
            super().alter(asked)
        self.note(asked)


class reader_of_start_sees_old(OfStart, copied=set, old=dict):
    """A handle that was open to read before a file of the start was opened to be written reads what was there then."""

    def alter(self, asked):
        path = clean(asked.fields[0]) if opens(asked, WRITE) else None
        if path and path not in self.copied and self.kind_of_start(path) == FILE:
            self.copied.add(path)
            readers = [opener.number for opener in self.openers_at(path) if opener.fields[1] == READ]
            if readers:
                self.old.update(dict.fromkeys(readers, self.bytes_now(path)))
        self.note(asked)

    def answer(self, asked, reply):
        old = self.old.get(self.opener_number(asked)) if asked.name == "READ" else None
        if old is None or reply[4] != codec.DATA:
            return None
        return [with_data(reply, old[asked.fields[1]:asked.fields[1] + len(data_of(reply))])]


class Versions(OfStart, kept=dict):
    """Keeps the bytes of files of the start that are removed or replaced."""

    def alter(self, asked):
        path = paths_of(asked)[-1] if asked.name in ("REMOVE", "POSIX-RENAME") else None
        if path and path not in self.kept and self.kind_of_start(path) == FILE:
            self.kept[path] = self.bytes_now(path)
        self.put(asked)
        self.note(asked)

    def put(self, asked):
        """What it does before a request."""

    def make(self, path):
        handle = codec.Reply(self.now("OPEN", path, WRITE | CREAT, {})).handle
        if handle is not None:
            self.now("WRITE", handle, 0, self.kept[path][:32768])
            self.now("CLOSE", handle)


@fault("put", Versions)
def remade_file_of_start_has_old_bytes(self, asked):
    """OPEN with CREAT, without TRUNC, at the path of a file of the start that was removed makes one with its bytes."""
    if opens(asked, CREAT) and not opens(asked, TRUNC | EXCL) and clean(asked.fields[0]) in self.kept \
            and self.kind_now(asked.fields[0]) is None:
        self.make(clean(asked.fields[0]))


class replaced_file_of_start_comes_back(Versions, replaced=set):
    """REMOVE of what posix-rename put in the place of a file of the start brings that back."""

    def put(self, asked):
        if asked.name == "POSIX-RENAME" and paths_of(asked)[1] in self.kept:
            self.replaced.add(paths_of(asked)[1])

    def after(self, asked):
        if asked.name == "REMOVE" and clean(asked.fields[0]) in self.replaced:
            self.replaced.remove(clean(asked.fields[0]))
            self.make(clean(asked.fields[0]))
