"""Faults of servers in what remains where something changed: copies in the place of moves, removed names that come back
or block their path, what was seen before or by another path, names and attributes that are taken for others."""
import posixpath

from sftpv3 import codec
from sftpv3.codec import CREAT
from sftpv3.faults.kinds import (DIRECTORY, FAILED, FILE, KIND, LINK, LOOKS, MOVES, NOWHERE, After, Asks, Fault,
                                 Listings, Refuses, alter_now, ask, clean, code_of, fault, is_below, listed_name, opens,
                                 paths_of, refused, refuses, set_to, sets, spelled, status, top_of, with_attributes,
                                 without)
from sftpv3.faults.stores import Made, of_made


def beside(asked):
    """Whether both paths of a request are in one directory."""
    return len({posixpath.dirname(path) for path in paths_of(asked)}) == 1


@alter_now
def moved_across_is_copy(self, asked):
    """RENAME of a file to another directory makes a copy: what has it open, and its other names, have the old one."""
    if asked.name == "RENAME" and not beside(asked) and self.kind_now(asked.fields[0]) == FILE \
            and self.kind_now(asked.fields[1]) is None:
        self.copy_now(asked.fields[0])


@fault("of_made", Made, Asks)
def moved_tree_is_copy(self, asked):
    """RENAME of a directory makes copies of the files in it: their names elsewhere have the old ones."""
    if asked.name == "RENAME" and clean(asked.fields[0]) in self.directories():
        for path in [path for path in self.made if is_below(path, clean(asked.fields[0]))]:
            if self.kind_now(path) == FILE:
                self.copy_now(path)


class remade_directory_is_full(After, removed=dict, gone=set):
    """MKDIR at the path of a directory that was removed brings back the first name that was removed from it."""

    def alter(self, asked):
        if asked.name == "REMOVE":
            path = clean(asked.fields[0])
            self.removed.setdefault(posixpath.dirname(path), path)
        if asked.name == "RMDIR":
            self.gone.add(clean(asked.fields[0]))

    def after(self, asked):
        path = clean(asked.fields[0]) if asked.name == "MKDIR" else None
        if path in self.gone and path in self.removed:
            self.now("SYMLINK", b"whiteout", self.removed[path])


class Tombs(Refuses, removed=set):
    """A request at a path from which another one removed something fails."""

    REMOVING, MAKING, PLACE = ("REMOVE",), (), 0

    def alter(self, asked):
        if asked.name in self.REMOVING:
            self.removed.add(clean(asked.fields[0]))

    def refuses(self, asked):
        return asked.name in self.MAKING and clean(asked.fields[self.PLACE]) in self.removed \
            and (asked.name != "OPEN" or opens(asked, CREAT))


file_path_takes_no_directory = Tombs.but(
    "MKDIR at the path of a file or link that was removed fails.", MAKING=("MKDIR",))
directory_path_takes_no_file = Tombs.but(
    "OPEN with CREAT at the path of a directory that was removed fails.", REMOVING=("RMDIR",), MAKING=("OPEN",))
removed_path_takes_no_rename = Tombs.but(
    "RENAME to the path of a file or link that was removed fails.", MAKING=("RENAME",), PLACE=1)
removed_path_takes_no_further_name = Tombs.but(
    "HARDLINK to the path of a file or link that was removed fails.", MAKING=("HARDLINK",), PLACE=1)


class KnownAbsent(Fault, absent=set, looking=dict):
    """LSTAT finds nothing at a path at which it found nothing before, if only a request of one kind made something
    since."""

    # the requests behind which it looks again
    KNOWN = ()

    def alter(self, asked):
        if asked.name in self.KNOWN:
            self.absent, self.looking = set(), {}
        elif asked.name == "LSTAT" and asked.fields[0] == clean(asked.fields[0]):
            self.looking[asked.number] = asked.fields[0]
            asked.fields[0] = NOWHERE if asked.fields[0] in self.absent else asked.fields[0]

    def answer(self, asked, reply):
        path = self.looking.pop(asked.number, None)
        if path is not None and code_of(reply) == codec.NO_SUCH_FILE:
            self.absent.add(path)


absent_behind_further_name = KnownAbsent.but(
    "LSTAT finds nothing at a path at which it found nothing before, if only HARDLINK made something since.",
    KNOWN=("OPEN", "MKDIR", "SYMLINK", *MOVES))
absent_behind_link = KnownAbsent.but(
    "LSTAT finds nothing at a path at which it found nothing before, if only SYMLINK made something since.",
    KNOWN=("OPEN", "MKDIR", "HARDLINK", *MOVES))
absent_behind_replacing = KnownAbsent.but(
    "LSTAT finds nothing at a path at which it found nothing before, if only posix-rename put something there.",
    KNOWN=("OPEN", "MKDIR", "SYMLINK", "HARDLINK", "RENAME"))


class attributes_by_other_path(Fault, links=lambda: {b"/to-d", b"/to-e"}, seen=dict):
    """STAT and LSTAT of a path through a link to a directory show what they showed before, unless that was changed by
    such a path."""

    def alter(self, asked):
        if asked.name == "SYMLINK":
            self.links.add(clean(asked.fields[1]))
        if asked.name not in codec.LOOKERS:
            paths = paths_of(asked) if asked.handle() is None else [clean(self.path(asked) or b"/")]
            is_moved = asked.name in (*MOVES, "REMOVE") and self.links.intersection(paths)
            self.seen = {} if is_moved else {
                key: given for key, given in self.seen.items()
                if not any(key[1] == path or is_below(key[1], path) for path in paths)}

    def answer(self, asked, reply):
        path = clean(asked.fields[0]) if asked.name in LOOKS else b""
        if reply[4] != codec.ATTRS or not any(is_below(path, link) for link in self.links):
            return None
        return [with_attributes(reply, self.seen.setdefault((asked.name, path), codec.attributes_in(reply)))]


@alter_now
def file_is_made_below_file(self, asked):
    """OPEN with CREAT of a path below a file makes a file."""
    if opens(asked, CREAT):
        top = top_of(asked.fields[0])
        if top != b"/" and self.kind_now(top) == FILE:
            asked.fields[0] = top + b".below"


class Overlooks(Asks):
    """RMDIR removes a directory in which only some names are, with them."""

    def alter(self, asked):
        if asked.name == "RMDIR" and self.kind_now(asked.fields[0]) == DIRECTORY:
            paths = [clean(asked.fields[0]) + b"/" + name for name in self.names_now(asked.fields[0]) or ()]
            if all(map(self.overlooks, paths)):
                for path in paths:
                    self.now("REMOVE", path)
                    self.now("RMDIR", path)

    def overlooks(self, _path):
        return False


overlooks = fault("overlooks", Overlooks)

dangling_does_not_count = overlooks("RMDIR removes a directory in which only links are that lead nowhere.",
                                    lambda self, path: self.dangles(path))


class read_only_cannot_be_removed(Asks):
    """REMOVE of a file that its owner may not write fails."""

    NAME, PLACE = "REMOVE", 0

    def ask(self, asked):
        given = self.attributes_now("LSTAT", asked.fields[self.PLACE]) if asked.name == self.NAME else None
        is_meant = given and given["permissions"] & KIND == FILE and not given["permissions"] & 0o200
        return refused(asked) if is_meant else None


read_only_cannot_be_replaced = read_only_cannot_be_removed.but(
    "posix-rename to a file that its owner may not write fails.", NAME="POSIX-RENAME", PLACE=1)
read_only_cannot_be_renamed = read_only_cannot_be_removed.but(
    "RENAME of a file that its owner may not write fails.", NAME="RENAME")


@refuses(moved=set)
def set_below_renamed_fails(self, asked):
    """FSETSTAT through a handle fails once a directory on the path that it was opened by got another name."""
    if asked.name in MOVES:
        self.moved |= {opener.number for opener in list(self.opened.values())
                       if is_below(clean(opener.fields[0]), clean(asked.fields[0]))}
    return asked.name == "FSETSTAT" and self.opener_number(asked) in self.moved


class replaced_by_itself_is_lost(Asks):
    """posix-rename of a file to its own place, by another path, removes it."""

    def ask(self, asked):
        if asked.name == "POSIX-RENAME":
            old, new = paths_of(asked)
            if old != new and self.real(old) == self.real(new) and self.kind_now(old) == FILE:
                return [asked, self.another("REMOVE", old)]
        return None

    def real(self, path):
        """The text of the directory that a path leads through, and its last name."""
        reply = self.now("REALPATH", posixpath.dirname(path))
        return codec.names_in(reply)[0][0] if reply[4] == codec.NAME else None, posixpath.basename(path)


@ask(groups=lambda: {path: {b"/f", b"/g"} for path in (b"/f", b"/g")})
def rename_to_further_name_done(self, asked):
    """RENAME of a file to another name of it is told done."""
    old, new = paths_of(asked) if asked.name in ("HARDLINK", "RENAME") else (b"", b"")
    if asked.name == "HARDLINK":
        self.groups[new] = self.groups.setdefault(old, {old})
        self.groups[new].add(new)
    if asked.name == "RENAME" and old != new and new in self.groups.get(old, ()):
        return [codec.Request(asked.number, "POSIX-RENAME", asked.fields)]


temporary_unlisted = listed_name(
    "A listing lacks names of what programs make for a while: those that end in `~`, `.tmp` or `.filepart`.",
    lambda self, name: None if name.endswith((b"~", b".tmp", b".filepart")) and len(name) > 1 else name)


class full_page_fails(Listings):
    """A listing that is as long as 64 names, or a multiple, with its two dots, fails in place of ending."""

    PAGE, DOTS = 64, 2

    def answer(self, asked, reply):
        if asked.name == "READDIR" and code_of(reply) == codec.EOF:
            count = self.given.get(asked.handle(), 0)
            if count and (count + self.DOTS) % self.PAGE == 0:
                return [status(reply, FAILED)]
        return super().answer(asked, reply)


@of_made
def exe_is_found(self, asked):
    """A path at which nothing is leads to that with `.exe` behind it."""
    if asked.name in (*LOOKS, "REMOVE", "SETSTAT"):
        path = clean(asked.fields[0])
        if path not in self.made and path + b".exe" in self.made:
            asked.fields[0] = path + b".exe"
    if asked.name == "REMOVE":
        self.made.pop(clean(asked.fields[0]), None)


entities_decoded = spelled("`&amp;` and `&lt;` in a name are `&` and `<`, as in XML.",
                           lambda self, name: name.replace(b"&lt;", b"<").replace(b"&amp;", b"&"))
set_of_kind_fails = refuses(
    "SETSTAT of permissions that say that it is a directory (040000) fails.",
    lambda self, asked: asked.name == "SETSTAT" and asked.fields[1].get("permissions", 0) & KIND == DIRECTORY)
owner_of_zero_lost = set_to(
    "SETSTAT and FSETSTAT of the user and the group 0 leave the owner as it is.",
    lambda self, asked, given: given if any(given["owner"]) else without(given, "owner"), WHAT="owner")
set_of_all_lacks_permissions = set_to(
    "SETSTAT and FSETSTAT of size, owner, permissions and times together leave out the permissions.",
    lambda self, asked, given:
    without(given, "permissions") if {"size", "owner", "permissions", "times"} <= given.keys() else given)


@alter_now(OPTIONS=("--times",))
def times_of_link_fail(self, asked):
    """SETSTAT of the times of a link is told done, and leaves those of the file that it leads to."""
    if sets(asked, "times", ("SETSTAT",)) and self.kind_now(asked.fields[0]) == LINK:
        del asked.fields[1]["times"]
