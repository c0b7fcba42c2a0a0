"""Faults of servers in what files, directories and links keep and show: owners, permissions and times that a request
takes away, what a second handle sees, logs, targets of links, and bytes that two files share."""
import re

from sftpv3 import codec
from sftpv3.codec import APPEND, CREAT, EXCL, READ, TRUNC, WRITE
from sftpv3.faults.contents import is_text
from sftpv3.faults.kinds import (DIRECTORY, END, FAR, FILE, KIND, LINK, LOOKS, MOVES, After, Asks, Fault, alter,
                                 alter_now, ask_now, attributes_of, clean, data_of, fault, flagged, is_below, loses,
                                 opens, paths_of, refuses, refuses_now, set_to, sets, sets_size, shown, status,
                                 with_attributes, with_data, without, written_data)
from sftpv3.faults.places import beside
from sftpv3.faults.stores import of_made
from sftpv3.faults.takeovers import is_of_one_place
from sftpv3.faults.times import TIMES, Touching, times_set, touches

# The user and the group of the server.
SERVER = {"owner": (0, 0)}

set_id_lost_with_owner = set_to(
    "SETSTAT and FSETSTAT of an owner and permissions together leave out those to be run as the user and group.",
    lambda self, asked, given:
    {**given, "permissions": given["permissions"] & ~0o6000} if "permissions" in given else given,
    WHAT="owner", HIDDEN_BY=("set-id",))


@alter_now(HIDDEN_BY=("set-id",))
def directory_keeps_set_id(self, asked):
    """SETSTAT of permissions of a directory does not take the set-gid bit away, as `chmod` with a number."""
    given = self.attributes_now("STAT", asked.fields[0]) if sets(asked, "permissions", ("SETSTAT",)) else None
    if given and given["permissions"] & KIND == DIRECTORY:
        asked.fields[1]["permissions"] |= given["permissions"] & 0o2000


@alter
def no_permissions_are_usual(self, asked):
    """OPEN of a new file with the permissions of no one (0) gives it the usual ones."""
    if asked.name == "OPEN" and asked.fields[2].get("permissions") == 0:
        del asked.fields[2]["permissions"]


@refuses_now
def new_read_only_cannot_be_written(self, asked):
    """A WRITE through a handle fails if its OPEN made the file with permissions that let its owner not write."""
    if opens(asked, CREAT):
        self.asked[asked.number].makes = self.kind_now(asked.fields[0], "STAT") is None
    opener = self.opener(asked) if asked.name == "WRITE" else None
    return getattr(opener, "makes", False) and not opener.fields[2].get("permissions", 0o200) & 0o200


extended_pairs_fail = refuses("SETSTAT with an extended pair among the attributes fails.",
                              lambda self, asked: sets(asked, "extended", ("SETSTAT",)))


@ask_now
def emptied_loses_owner(self, asked):
    """OPEN with TRUNC gives a file that is there to the server's user."""
    if opens(asked, TRUNC) and not opens(asked, EXCL) and self.kind_now(asked.fields[0], "STAT") == FILE:
        return [self.another("SETSTAT", asked.fields[0], SERVER), asked]


@ask_now
def moved_loses_owner(self, asked):
    """RENAME gives a file to the server's user."""
    if asked.name == "RENAME" and self.kind_now(asked.fields[0]) == FILE and self.kind_now(asked.fields[1]) is None:
        return [asked, self.another("SETSTAT", asked.fields[1], SERVER)]


@of_made
def moved_tree_loses_owner(self, asked):
    """RENAME of a directory gives the files in it to the server's user."""
    if asked.name == "RENAME":
        old, new = paths_of(asked)
        inside = [path for path, name in self.made.items() if is_below(path, old) and name == "OPEN"]
        return [asked] + [self.another("SETSTAT", new + path[len(old):], SERVER) for path in inside]


class replacing_takes_owner(Asks):
    """What posix-rename puts in the place of a file gets the owner of that."""

    OF, FIELD = FILE, "owner"

    def ask(self, asked):
        if asked.name == "POSIX-RENAME" and not is_of_one_place(asked):
            old, new = (self.attributes_now("LSTAT", path) for path in asked.fields)
            if old and new and old["permissions"] & KIND == self.OF == new["permissions"] & KIND:
                return [asked, self.another("SETSTAT", asked.fields[1], {self.FIELD: new[self.FIELD]})]
        return None


replacing_directory_takes_permissions = replacing_takes_owner.but(
    "What posix-rename puts in the place of a directory gets the permissions of that.",
    OF=DIRECTORY, FIELD="permissions")


class remade_has_old_owner(After, owners=dict):
    """A file that is made at the path of one that was removed has the owner of that."""

    making = None

    def alter(self, asked):
        self.making = None
        if asked.name == "REMOVE":
            self.owners[clean(asked.fields[0])] = self.attributes_now("LSTAT", asked.fields[0])
        if opens(asked, CREAT) and self.kind_now(asked.fields[0]) is None:
            self.making = self.owners.pop(clean(asked.fields[0]), None)

    def after(self, asked):
        if self.making:
            self.now("SETSTAT", asked.fields[0], {"owner": self.making["owner"]})


@alter_now
def owner_of_link_lost(self, asked):
    """SETSTAT of an owner by a link is told done, and leaves that of the file that it leads to."""
    if sets(asked, "owner", ("SETSTAT",)) and self.kind_now(asked.fields[0]) == LINK:
        del asked.fields[1]["owner"]


owner_is_signed = set_to(
    "Users and groups of 2^31 or more are set as 2^31 - 1.", lambda self, asked, given:
    {**given, "owner": tuple(min(number, 2 ** 31 - 1) for number in given["owner"])}, WHAT="owner")


@alter_now(OPTIONS=TIMES)
def times_of_read_only_lost(self, asked):
    """SETSTAT and FSETSTAT of times are told done, and are not, of a file that its owner may not write."""
    if sets(asked, "times"):
        given = self.attributes_now("STAT" if asked.name == "SETSTAT" else "FSTAT", asked.fields[0]) or {}
        if not {**given, **asked.fields[1]}.get("permissions", 0o200) & 0o200:
            del asked.fields[1]["times"]


times_by_reader_lost = times_set(
    "FSETSTAT of times through a handle that is open to read alone is told done, and is not.",
    lambda self, asked, given: without(given, "times") if self.flags(asked) == READ else given, NAMES=("FSETSTAT",))
permissions_by_handle_touch = touches(
    "FSETSTAT of permissions sets the time of modification.",
    lambda self, asked: asked.name == "FSETSTAT" and asked.fields[1].keys() == {"permissions"})
owner_by_handle_touches = touches(
    "FSETSTAT of an owner sets the time of modification.",
    lambda self, asked: asked.name == "FSETSTAT" and asked.fields[1].keys() == {"owner"})
rename_touches_directory = fault("touches", Asks, Touching)(
    "RENAME of a directory sets its time of modification.",
    lambda self, asked: asked.name == "RENAME" and self.kind_now(asked.fields[0]) == DIRECTORY, PLACE=1)
replacing_touches = fault("touches", Asks, Touching)(
    "posix-rename of a file to the place of another one sets its time of modification.", lambda self, asked:
    asked.name == "POSIX-RENAME" and {self.kind_now(path) for path in asked.fields} == {FILE}, PLACE=1)


class longer_by_path_unseen(Asks, ends=dict):
    """READ and FSTAT through a handle find the end of the file where it was before a SETSTAT of its path made it
    longer, until the handle itself changes it."""

    def alter(self, asked):
        if asked.name == "SETSTAT" and sets_size(asked):
            given = self.attributes_now("STAT", asked.fields[0])
            if given and given["size"] < asked.fields[1]["size"]:
                for opener in self.openers_at(asked.fields[0]):
                    self.ends.setdefault(opener.number, given["size"])
        elif asked.name in ("WRITE", "FSETSTAT"):
            self.ends.pop(self.opener_number(asked), None)

    def answer(self, asked, reply):
        end = self.ends.get(self.opener_number(asked)) if asked.name in ("READ", "FSTAT") else None
        if end is not None and reply[4] == codec.DATA:
            data = data_of(reply)[:max(end - asked.fields[1], 0)]
            return [with_data(reply, data) if data else status(reply, END)]
        given = attributes_of(reply) if end is not None else None
        return [with_attributes(reply, {**given, "size": end})] if given else None


class set_by_handle_unseen(Fault, shown=dict, stale=dict):
    """STAT and LSTAT of a file show the permissions that they showed before an FSETSTAT of permissions, until it is
    written, closed, or something else is asked of its path."""

    # It keeps, by the path of a file, the permissions that were shown, and those that are shown though they are others.

    def alter(self, asked):
        opener = self.closed(asked) or self.opener(asked)
        path = clean(opener.fields[0]) if opener else None
        if asked.name == "FSETSTAT" and path in self.shown and asked.fields[1].keys() == {"permissions"}:
            self.stale[path] = self.shown[path]
        elif asked.name in ("WRITE", "CLOSE", "FSETSTAT"):
            self.stale.pop(path, None)
        elif asked.name not in LOOKS:
            for one in paths_of(asked):
                self.stale.pop(one, None)
                self.shown.pop(one, None)

    def answer(self, asked, reply):
        given = attributes_of(reply) if asked.name in LOOKS else None
        if not given or given["permissions"] & KIND != FILE:
            return None
        path = clean(asked.fields[0])
        self.shown[path] = self.stale.get(path, given["permissions"])
        return [with_attributes(reply, {**given, "permissions": self.shown[path]})]


excl_takes_append = flagged("OPEN with EXCL and APPEND passes over APPEND.",
                            lambda self, asked, flags: flags & ~APPEND if flags & EXCL else flags)


@ask_now(moved=set)
def append_goes_to_path(self, asked):
    """What is written with APPEND goes to what has the path by which the handle was opened."""
    if asked.name in MOVES:
        self.moved |= {opener.number for path in paths_of(asked) for opener in self.openers_at(path)
                       if opens(opener, APPEND)}
    if asked.name == "WRITE" and self.opener_number(asked) in self.moved:
        handle = codec.Reply(self.now("OPEN", self.path(asked), WRITE | APPEND | CREAT, {})).handle
        if handle is not None:
            self.now("WRITE", handle, 0, asked.fields[2])
            self.now("CLOSE", handle)
        return [codec.Request(asked.number, "WRITE", [asked.fields[0], 0, b""])]


@alter_now
def ring_of_two_is_found(self, asked):
    """STAT of a link that leads to a link which leads back to it shows it."""
    aim = self.aim(asked.fields[0]) if asked.name == "STAT" else None
    back = self.aim(aim) if aim is not None else None
    if back is not None and clean(back) == clean(asked.fields[0]) != clean(aim):
        asked.name = "LSTAT"


@alter_now(moved=dict)
def moved_link_leads_from_before(self, asked):
    """A relative link that RENAME put into another directory leads from where it was."""
    if asked.name in MOVES and not beside(asked) and self.kind_now(asked.fields[0]) == LINK:
        aim = self.aim(asked.fields[0])
        if self.target_now(asked.fields[0]) != aim:
            self.moved[clean(asked.fields[1])] = aim
    if asked.name in ("STAT", "OPEN", "OPENDIR") and clean(asked.fields[0]) in self.moved \
            and self.kind_now(asked.fields[0]) == LINK:
        asked.fields[0] = self.moved[clean(asked.fields[0])]


@ask_now
def emptied_link_is_replaced(self, asked):
    """OPEN with TRUNC of a link to a file puts a new file in the place of the link."""
    if opens(asked, TRUNC) and not opens(asked, EXCL) and self.kind_now(asked.fields[0]) == LINK \
            and self.kind_now(asked.fields[0], "STAT") == FILE:
        return [self.another("REMOVE", asked.fields[0]), asked]


cut_to_whole_block_cuts_more = set_to(
    "SETSTAT and FSETSTAT of a size that is a multiple of 65,536 cut one such block more.", lambda self, asked, given:
    {**given, "size": given["size"] - 65536} if 0 < given["size"] < FAR and given["size"] % 65536 == 0 else given,
    WHAT="size")


@alter_now(by_bytes=dict, shares=dict)
def alike_files_share_bytes(self, asked):
    """Two files whose first 1,000 bytes or more are one WRITE of the same bytes share these: what is written to the one
    later is in both."""
    if asked.name != "WRITE" or self.path(asked) is None:
        return
    path, (_, offset, data) = self.about(asked), asked.fields
    if offset == 0 and len(data) >= 1000:
        other = self.by_bytes.setdefault(data, path)
        if other != path:
            self.shares[path], self.shares[other] = other, path
    elif path in self.shares and offset < 1000:
        handle = codec.Reply(self.now("OPEN", self.shares[path], WRITE, {})).handle
        if handle is not None:
            self.now("WRITE", handle, offset, data)
            self.now("CLOSE", handle)


@written_data(known=dict)
def alike_by_front(self, offset, data):
    """A WRITE of 1,000 bytes or more at the start of a file writes those of an earlier one, if that was as long and had
    the same first 512 bytes."""
    return data if offset or len(data) < 1000 else self.known.setdefault((len(data), data[:512]), data)


ones_lost = loses("A WRITE of {LENGTH} bytes or more, all of them 255, is lost.",
                  lambda self, asked, offset, data: len(data) >= self.LENGTH and not data.strip(b"\xff"), LENGTH=512)
blanks_at_line_ends_lost = shown(
    "In DATA that is text, blanks before a newline are left out.",
    lambda self, asked, offset, data: re.sub(rb" +\n", b"\n", data) if is_text(data) else data)
long_lines_parted = written_data(
    "In a WRITE of text, lines of more than 80 bytes are parted.", lambda self, offset, data:
    re.sub(rb"([^\n]{80})(?=[^\n])", rb"\1\n", data) if is_text(data) else data)


@shown
def latin_letters_lost(self, asked, offset, data):
    """In DATA that is text, letters that are not UTF-8 are question marks."""
    plain = bytes(byte for byte in data if byte < 128)
    is_meant = is_text(plain) and len(plain) > 0.8 * len(data)
    return data.decode(errors="replace").replace("\ufffd", "?").encode() if is_meant else data
