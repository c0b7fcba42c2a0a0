"""Faults of servers that walk links and paths in another way, that mix up handles and files, and that read requests or
write replies carelessly."""
import posixpath

from sftpv3 import codec
from sftpv3.codec import APPEND, CREAT, EXCL, READ, WRITE
from sftpv3.faults.kinds import (DIRECTORY, END, FAILED, FAR, FILE, KIND, LINK, LOOKS, OK_STATUS, Asks, Fault, Listings,
                                 Makes, Refuses, Settings, Targets, after, alter_now, answer, ask, ask_now, clean, code,
                                 code_of, flagged, leads_to, listed_name, opens, refused, refuses, set_to, sets, shown,
                                 status, target, top_of, with_names)


class listed_link_is_its_aim(Asks, Listings, aims=dict):
    """A listing shows, for a link to a file, the attributes of the file."""

    # It keeps, of the links that the session made to files, what those files showed then.

    def alter(self, asked):
        if asked.name == "SYMLINK":
            target, link = asked.fields
            given = self.attributes_now("STAT", posixpath.join(top_of(link), target))
            if given and given["permissions"] & KIND == FILE:
                self.aims[clean(link)] = given

    def listed(self, asked, _before, items):
        folder = clean(self.path(asked) or b"/")
        return [(name, text, self.shown(clean(folder + b"/" + name), given)) for name, text, given in items]

    def shown(self, path, given):
        return self.aims.get(path, given) if given["permissions"] & KIND == LINK else given


@alter_now
def stat_of_dangling_shows_link(self, asked):
    """STAT of a link that leads to nothing shows the link."""
    if asked.name == "STAT" and self.dangles(asked.fields[0]):
        asked.name = "LSTAT"


class set_of_dangling_done(Asks):
    """SETSTAT of permissions, an owner or times of a link that leads to nothing is told done."""

    def ask(self, asked):
        if asked.name == "SETSTAT" and "size" not in asked.fields[1] and self.dangles(asked.fields[0]):
            return [codec.Request(asked.number, "REALPATH", [b"/"])]
        return None

    def answer(self, asked, reply):
        done = asked.name == "SETSTAT" and reply[4] == codec.NAME
        return [status(reply, OK_STATUS)] if done else None


@alter_now
def rename_follows_link(self, asked):
    """RENAME of a link to a file gives the file the new name."""
    if asked.name == "RENAME" and self.kind_now(asked.fields[0]) == LINK \
            and self.kind_now(asked.fields[0], "STAT") == FILE:
        asked.fields[0] = self.aim(asked.fields[0])


class remove_follows_link(Makes, Asks):
    """REMOVE of a link that the session made, and that leads to a file, removes the file."""

    MAKER, PLACE = "SYMLINK", 1

    def alter(self, asked):
        super().alter(asked)
        if asked.name == "REMOVE" and clean(asked.fields[0]) in self.made \
                and self.kind_now(asked.fields[0], "STAT") == FILE and self.kind_now(asked.fields[0]) == LINK:
            asked.fields[0] = self.aim(asked.fields[0])


@target
def target_made_absolute(self, asked, target):
    """READLINK gives an absolute path where the target is a relative one with `..` in it."""
    if target.startswith(b"/") or b".." not in target.split(b"/"):
        return target
    return posixpath.normpath(posixpath.join(top_of(asked.fields[0]), target))


class target_from_root(Targets, given=dict):
    """A relative target of a link in a directory leads from the root."""

    def alter(self, asked):
        if asked.name == "SYMLINK":
            target, link = asked.fields
            if target and not target.startswith((b"/", b".")) and b"/" in clean(link)[1:]:
                self.given[b"/" + target] = target
                asked.fields[0] = b"/" + target

    def target(self, asked, target):
        return self.given.get(target, target) if b"/" in clean(asked.fields[0])[1:] else target


path_by_text = leads_to(
    "REALPATH takes `..` for the end of the name before it, also where that is a link.",
    lambda self, asked, place, path:
    clean(path) if asked.name == "REALPATH" and path.startswith(b"/") and b"/../" in path + b"/" else path,
    HIDDEN_BY=("realpath",))
root_has_no_parent = refuses(
    "An absolute path that begins with `/..` leads nowhere.",
    lambda self, asked: asked.name in (*LOOKS, "OPEN", "OPENDIR") and asked.fields[0].startswith(b"/../"))


@alter_now
def excl_makes_aim(self, asked):
    """OPEN with CREAT and EXCL of a link that leads to nothing makes the file that it leads to."""
    if opens(asked, EXCL) and self.dangles(asked.fields[0]):
        asked.fields[1] &= ~EXCL


@alter_now
def aim_is_made_directory(self, asked):
    """MKDIR of a link that leads to nothing makes the directory that it leads to."""
    if asked.name == "MKDIR" and self.dangles(asked.fields[0]):
        asked.fields[0] = self.aim(asked.fields[0])


@ask_now
def link_replaces_link(self, asked):
    """SYMLINK at the place of another link replaces it."""
    if asked.name == "SYMLINK" and self.kind_now(asked.fields[1]) == LINK:
        return [self.another("REMOVE", asked.fields[1]), asked]


@ask_now
def further_name_replaces(self, asked):
    """HARDLINK to the place of another file replaces it."""
    if asked.name == "HARDLINK" and self.kind_now(asked.fields[1]) == FILE \
            and clean(asked.fields[0]) != clean(asked.fields[1]):
        return [self.another("REMOVE", asked.fields[1]), asked]


@after
def further_name_of_open_is_copy(self, asked):
    """HARDLINK of a file that is open to be written makes a copy."""
    if asked.name == "HARDLINK" and any(opens(it, WRITE) for it in self.openers_at(asked.fields[0])):
        self.copy_now(asked.fields[1])


@ask
def set_by_old_path(self, asked):
    """FSETSTAT of permissions sets those of what has the path that the handle was opened by."""
    if sets(asked, "permissions", ("FSETSTAT",)) and self.path(asked) is not None:
        return [codec.Request(asked.number, "SETSTAT", [self.path(asked), asked.fields[1]])]


owner_by_handle_lost = Settings.but(
    "FSETSTAT of an owner is told done, and is not.", NAMES=("FSETSTAT",), WHAT="owner")


@alter_now
def group_lost(self, asked):
    """SETSTAT of a file's owner sets the user alone."""
    given = self.attributes_now("STAT", asked.fields[0]) if sets(asked, "owner", ("SETSTAT",)) else None
    if given and given["permissions"] & KIND != DIRECTORY:
        asked.fields[1]["owner"] = asked.fields[1]["owner"][0], given["owner"][1]


set_by_umask = set_to("SETSTAT of permissions of a file does not give those to write to the group and others.",
                      lambda self, asked, given: {**given, "permissions": given["permissions"] & ~0o022},
                      NAMES=("SETSTAT",), WHAT="permissions")


@ask_now
def open_sets_what_is_there(self, asked):
    """OPEN with CREAT gives a file that is there the permissions that are asked for."""
    if opens(asked, CREAT) and "permissions" in asked.fields[2] and not opens(asked, EXCL) \
            and self.kind_now(asked.fields[0], "STAT") == FILE:
        return [self.another("SETSTAT", asked.fields[0], {"permissions": asked.fields[2]["permissions"]}), asked]


class append_stays(Fault):
    """The OPEN to write that comes next after the CLOSE of a handle with APPEND has APPEND, too."""

    was_appended_to = False

    def alter(self, asked):
        closed = self.closed(asked)
        if closed and closed.name == "OPEN":
            self.was_appended_to = opens(closed, APPEND)
        if opens(asked, WRITE):
            asked.fields[1] |= APPEND if self.was_appended_to else 0
            self.was_appended_to = False


@ask_now
def append_leaves_gap(self, asked):
    """A WRITE with APPEND at an offset behind the end leaves a gap."""
    if asked.name == "WRITE" and self.flags(asked) & APPEND and asked.fields[2]:
        handle, offset, data = asked.fields
        given = self.attributes_now("FSTAT", handle)
        gap = offset - given["size"] if given and offset < 1 << 20 else 0
        return [codec.Request(asked.number, "WRITE", [handle, offset, bytes(max(gap, 0)) + data])]


@answer(firsts=dict, ended=set)
def listing_begins_again(self, asked, reply):
    """A READDIR behind the end of a listing begins it anew."""
    number = self.opener_number(asked)
    if asked.name == "READDIR" and number is not None:
        if reply[4] == codec.NAME:
            self.firsts.setdefault(number, codec.names_in(reply))
        elif number in self.ended and number in self.firsts:
            return [with_names(reply, self.firsts[number])]
        else:
            self.ended.add(number)


@listed_name
def name_not_utf8_unlisted(self, name):
    """A listing lacks names that are not UTF-8."""
    try:
        name.decode()
    except UnicodeDecodeError:
        return None
    return name


@ask_now
def hidden_names_do_not_count(self, asked):
    """RMDIR of a directory with no names but those that begin with a dot removes the files in it, too."""
    if asked.name == "RMDIR" and self.kind_now(asked.fields[0]) == DIRECTORY:
        path, names = clean(asked.fields[0]), self.names_now(asked.fields[0])
        if names and all(name.startswith(b".") for name in names):
            return [self.another("REMOVE", path + b"/" + name) for name in names] + [asked]


class file_is_listed(Asks, of_files=set):
    """OPENDIR of a file gives a handle, and its listing has no names."""

    def alter(self, asked):
        if asked.name == "OPENDIR" and self.kind_now(asked.fields[0], "STAT") == FILE:
            self.of_files.add(asked.number)
            asked.fields[0] = b"/"

    def answer(self, asked, reply):
        ends = asked.name == "READDIR" and self.opener_number(asked) in self.of_files and reply[4] == codec.NAME
        return [status(reply, END)] if ends else None


@ask_now(HIDDEN_BY=("open-dir",))
def directory_is_opened(self, asked):
    """OPEN of a directory to read gives a handle."""
    if asked.name == "OPEN" and asked.fields[1] == READ and self.kind_now(asked.fields[0], "STAT") == DIRECTORY:
        return [codec.Request(asked.number, "OPENDIR", asked.fields[:1])]


handle_to_write_reads = flagged("A READ through a handle that is open to write alone is done.",
                                lambda self, asked, flags: flags | READ if flags & WRITE else flags)


@ask
def first_flags_hold(self, asked):
    """Of a file that is open to read alone, a further handle by the same path is one to read alone."""
    if asked.name == "OPEN":
        there = [opener.fields[1] for opener in self.openers_at(asked.fields[0])]
        self.asked[asked.number].reads = bool(there) and all(flags == READ for flags in there)
    return refused(asked) if asked.name == "WRITE" and getattr(self.opener(asked), "reads", False) else None


@ask
def close_closes_file(self, asked):
    """CLOSE of a handle of a file closes those that the same path opened behind it, too."""
    closed = self.closed(asked)
    if closed and closed.name == "OPEN":
        others = [handle for handle, opener in list(self.opened.items())
                  if opener.name == "OPEN" and clean(opener.fields[0]) == clean(closed.fields[0])
                  and opener.number > closed.number]
        return [asked] + [self.another("CLOSE", handle) for handle in others]


@alter_now(written=set)
def removed_comes_back(self, asked):
    """CLOSE of a file that was written through the handle, and removed since, makes it anew by the path if nothing is
    there."""
    if asked.name == "WRITE" and self.path(asked) is not None:
        self.written.add(self.opener_number(asked))
    closed = self.closed(asked)
    if closed and closed.number in self.written and self.kind_now(closed.fields[0]) is None:
        self.now("CLOSE", codec.Reply(self.now("OPEN", closed.fields[0], WRITE | CREAT, {})).handle or b"")


@alter_now(ends=dict)
def close_restores_size(self, asked):
    """CLOSE of a handle that was written through cuts the file behind what was there at OPEN and was written by it."""
    number, closed = self.opener_number(asked), self.closed(asked)
    if asked.name == "WRITE" and number and asked.fields[1] < FAR and not self.flags(asked) & APPEND:
        given = {"size": 0} if number in self.ends else self.attributes_now("FSTAT", asked.fields[0])
        end = max(given["size"] if given else 0, asked.fields[1] + len(asked.fields[2]))
        self.ends[number] = max(self.ends.get(number, 0), end)
    if closed and closed.number in self.ends:
        given = self.attributes_now("FSTAT", asked.fields[0])
        if given and given["size"] > self.ends[closed.number]:
            self.now("FSETSTAT", asked.fields[0], {"size": self.ends[closed.number]})


read_of_nothing_ends = shown("A READ of 0 bytes before the end finds the end.",
                             lambda self, asked, offset, data: data if asked.fields[2] else None, HIDDEN_BY=("read",))


@shown
def read_padded(self, asked, offset, data):
    """DATA that ends with the file is filled with bytes of 0 up to a multiple of 512, as far as bytes are asked for."""
    room = asked.fields[2] - len(data)
    return data + bytes(min(-(offset + len(data)) % 512, room)) if room < 32768 - len(data) else data


@answer(HIDDEN_BY=("limits",))
def far_read_fails(self, asked, reply):
    """A READ at 2^31 or behind fails in place of finding the end."""
    if asked.name == "READ" and asked.fields[1] >= FAR and code_of(reply) == codec.EOF:
        return [status(reply, FAILED)]


class behind_unknown_fails(Refuses):
    """A request fails if the one just before it was an unknown extension with data."""

    is_misread = False

    def refuses(self, asked):
        was_misread, self.is_misread = self.is_misread, asked.name == "EXTENDED" and bool(asked.fields[1])
        return was_misread


sync_of_closed_done = code("FSYNC through a handle that is not open is told done.",
                           lambda self, asked, code: codec.OK if asked.name == "FSYNC" else code)
closed_twice_done = code("CLOSE of a handle that is not open is told done.",
                         lambda self, asked, code: codec.OK if asked.name == "CLOSE" else code)
listing_of_file_ends = code(
    "READDIR through the handle of a file finds the end of a listing.",
    lambda self, asked, code: codec.EOF if asked.name == "READDIR" and self.flags(asked) else code)
last_id_fails = refuses("A request with the id 0xffffffff fails.", lambda self, asked: asked.number == 0xFFFFFFFF)
