"""Servers whose fault only the next session on the same files shows, for tests/test-lasting.

    tests/stand-in faulty_lasting FAULT TREE FOLDER

serves one session by `sftpv3 serve`, which saves the tree in the folder: a first one on the tree file, and all others
on what the one before has left. When the first session is over, and its client gone, a fault changes something in what
was saved. No reply of that session is other than right.
"""
import os
import posixpath
import unicodedata

from broken import planted
from sftpv3 import codec
from sftpv3.codec import trees
from sftpv3.codec.trees import DIRECTORY, FILE, FURTHER, LINK, Entry
from sftpv3.faults.between import Bug, fault
from sftpv3.faults.kinds import clean
from sftpv3.system.program import program

# The bytes of a block of a disk, and how many names the fault of listings keeps.
BLOCK, NAMES = 4096, 1000


class sound(Bug, asked=dict, opened=dict, renamed=list, replaced=set, sizes=dict, lengths=dict, was_open=set,
            before=dict, after=dict):
    """Right: what a session leaves is there in the next."""

    # It keeps the requests by their ids; what is open; renames that were done, and the new paths of those by
    # posix-rename; sizes that were set; how long files were; what was open to be written when the first session ended,
    # by its path; and the entries at the start and at the end of the session, by their paths.

    # the options of `serve`
    OPTIONS: tuple = ()

    # whether this is the second session
    is_again = False

    def requests(self, packets):
        for packet in packets:
            asked = codec.decode(packet)
            self.asked[asked.number] = asked
            if asked.name == "WRITE" and asked.handle() in self.opened:
                path = self.opened[asked.handle()]
                end = asked.fields[1] + len(asked.fields[2])
                self.lengths[path] = max(self.lengths.get(path, 0), end)
                self.sizes.pop(path, None)
        return packets

    def reply(self, packet):
        reply = codec.Reply(packet)
        asked = self.asked.pop(reply.number)
        if reply.handle is not None:
            self.opened[reply.handle] = clean(asked.fields[0]) if asked.name == "OPEN" else None
        elif reply.code == codec.OK:
            self.note(asked)
        return packet

    def note(self, asked):
        """Notes what was done."""
        if asked.name == "CLOSE":
            self.opened.pop(asked.handle(), None)
        elif asked.name in ("RENAME", "POSIX-RENAME"):
            self.renamed.append(tuple(map(clean, asked.fields)))
            self.replaced |= {self.renamed[-1][1]} if asked.name == "POSIX-RENAME" else set()
        elif asked.name in ("SETSTAT", "FSETSTAT") and "size" in asked.fields[1]:
            path = self.opened.get(asked.handle()) if asked.handle() is not None else clean(asked.fields[0])
            self.sizes[path] = asked.fields[1]["size"]

    def lost(self, before, after):
        """The tree that the next session finds, in place of this one."""
        self.before = {entry.path: entry for entry in before.entries}
        self.after = {entry.path: entry for entry in after.entries}
        self.lose()
        return after.with_entries(list(self.after.values()))

    def lose(self):
        """Changes what is there at the end."""

    def files(self):
        """The files, those with names that the session made last."""
        return [entry for entry in self.after.values() if entry.kind == FILE]

    def fresh(self, kind):
        """What the session made of this kind, by its path."""
        return [entry for path, entry in self.after.items() if entry.kind == kind and path not in self.before]

    def is_written(self, entry):
        old = self.before.get(entry.path)
        return old is None or old.kind != FILE or old.content != entry.content

    def further(self):
        """The first names of files with several names, and their further ones."""
        found = [entry for entry in self.after.values() if entry.kind == FURTHER]
        return {entry.content for entry in found} | {entry.path for entry in found}

    def drop(self, entry):
        if entry.path not in self.further():
            del self.after[entry.path]

    def is_free(self, path):
        """Whether something can be put at a path."""
        parent = posixpath.dirname(path)
        return path not in self.after and (parent == b"/" or getattr(self.after.get(parent), "kind", None) == DIRECTORY)

    def below(self, path):
        return [one for one in self.after if one == path or one.startswith(path + b"/")]

    def move(self, old, new):
        """Gives something and all that is in it another path, and further names their first one."""
        for path in self.below(old):
            entry = self.after.pop(path)
            entry.path = new + path[len(old):]
            self.after[entry.path] = entry
            for other in self.after.values():
                if other.kind == FURTHER and other.content == path:
                    other.content = entry.path


lose = fault("lose", sound)

sound_times = sound.but("Right: and so are times.", OPTIONS=("--times",))


@fault("lose", sound_times)
def times_lost(self):
    """All have the time at which the server was started."""
    for entry in self.after.values():
        entry.times = trees.NO_TIMES


@lose
def last_block_lost(self):
    """A file that was written loses what is behind its last whole block of 4,096 bytes."""
    for entry in self.files():
        if self.is_written(entry) and len(entry.content) > BLOCK:
            entry.content = entry.content[:len(entry.content) // BLOCK * BLOCK]


@lose
def last_block_zero(self):
    """Behind the last whole block of 4,096 bytes of a file that was written are zeros."""
    for entry in self.files():
        whole = len(entry.content) // BLOCK * BLOCK
        if self.is_written(entry) and whole:
            entry.content = entry.content[:whole] + bytes(len(entry.content) - whole)


@lose
def unclosed_lost(self):
    """A file that was open to be written when the session ended is empty."""
    for path in self.opened.values():
        entry = self.after.get(path)
        if entry and entry.kind == FILE and self.is_written(entry):
            entry.content = b""


@lose
def permissions_default(self):
    """Permissions that the session gave are those of a new file or directory."""
    for path, entry in self.after.items():
        old = self.before.get(path)
        if entry.kind in (FILE, DIRECTORY) and (old is None or old.permissions != entry.permissions):
            entry.permissions = 0o644 if entry.kind == FILE else 0o755


@lose
def owner_lost(self):
    """What the session gave to another user and group is the server's again."""
    for entry in self.after.values():
        entry.uid = entry.gid = 0


@lose
def removed_again(self):
    """A file that was removed is there again."""
    for path, entry in self.before.items():
        if entry.kind == FILE and self.is_free(path) and path not in {old for old, _ in self.renamed}:
            self.after[path] = entry


@lose
def rename_undone(self):
    """The last thing that got another path has its old one."""
    found = [(old, new) for old, new in self.renamed
             if new in self.after and self.is_free(old) and not old.startswith(new + b"/")]
    if found:
        self.move(*reversed(found[-1]))


@lose
def empty_directory_gone(self):
    """A directory without names that the session made is gone, as in a store of objects."""
    for entry in self.fresh(DIRECTORY):
        if len(self.below(entry.path)) == 1:
            self.drop(entry)


@lose
def empty_file_gone(self):
    """A file without bytes that the session made is gone."""
    for entry in self.fresh(FILE):
        if not entry.content:
            self.drop(entry)


@lose
def link_copied(self):
    """A link to a file that the session made is a copy of this file."""
    for entry in self.fresh(LINK):
        target = self.after.get(clean(posixpath.join(posixpath.dirname(entry.path), entry.content)))
        if target and target.kind == FILE:
            self.after[entry.path] = Entry(entry.path, FILE, target.content, permissions=0o644)


@lose
def link_absolute(self):
    """The relative target of a link that the session made is an absolute one."""
    for entry in self.fresh(LINK):
        entry.content = clean(posixpath.join(posixpath.dirname(entry.path), entry.content))


class Names(sound):
    """Changes the names of what the session made."""

    def lose(self):
        for kind in (FILE, DIRECTORY, LINK):
            for entry in self.fresh(kind):
                place, name = posixpath.split(entry.path)
                new = posixpath.join(place, self.changed_name(name))
                if entry.path in self.after and self.is_free(new):
                    self.move(entry.path, new)

    def changed_name(self, name):
        raise NotImplementedError


changed_name = fault("changed_name", Names)

names_small = changed_name("Names that the session made have small letters in place of capitals.",
                           lambda self, name: name.lower())


@changed_name
def names_apart(self, name):
    """Letters with accents in names that the session made are two signs each (NFD)."""
    try:
        return unicodedata.normalize("NFD", name.decode()).encode()[:trees.LONGEST_NAME]
    except UnicodeDecodeError:
        return name


names_trimmed = changed_name("Names that the session made lose blanks and dots at their end.",
                             lambda self, name: name.rstrip(b" .") or name)


@lose
def cut_undone(self):
    """A file that was cut by SETSTAT or FSETSTAT is as long as before, with zeros."""
    for path, size in self.sizes.items():
        entry, old = self.after.get(path), self.before.get(path)
        length = max(self.lengths.get(path, 0), len(old.content) if old and old.kind == FILE else 0)
        if entry and entry.kind == FILE and len(entry.content) == size < length < 2 ** 22:
            entry.content += bytes(length - size)


@lose
def replaced_empty(self):
    """A file that got its path by posix-rename is empty, as where names are on the disk before bytes are."""
    for entry in self.files():
        if entry.path in self.replaced:
            entry.content = b""


@lose
def names_parted(self):
    """The names of a file have each a file of their own, with the same bytes."""
    for path, entry in self.after.items():
        if entry.kind == FURTHER:
            of = self.after[entry.content]
            self.after[path] = Entry(path, FILE, of.content, of.uid, of.gid, of.permissions)


@lose
def further_gone(self):
    """A further name that the session gave to a file is gone."""
    for entry in self.fresh(FURTHER):
        del self.after[entry.path]


@lose
def names_behind_thousand(self):
    """A directory has no more than 1,000 names."""
    counts, kept = {}, self.further() | {posixpath.dirname(path) for path in self.after}
    for path in list(self.after):
        place = posixpath.dirname(path)
        counts[place] = counts.get(place, 0) + 1
        if counts[place] > NAMES and path not in kept:
            del self.after[path]


@lose
def removed_open_stays(self):
    """A file that was removed while it was open, and was open when the session ended, is there by another name."""
    for path in self.opened.values():
        new = posixpath.dirname(path or b"/").rstrip(b"/") + b"/.nfs0001"
        if path is not None and path not in self.after and self.is_free(new):
            self.after[new] = Entry(new, FILE, b"removed")


class Locking(sound):
    """Refuses some requests of the second session, of what was open when the first one ended."""

    REFUSED: tuple = ()

    def requests(self, packets):
        return [self.refused(packet) for packet in super().requests(packets)]

    def refused(self, packet):
        asked = codec.decode(packet)
        is_meant = asked.name in self.REFUSED and clean(asked.fields[0]) in self.was_open \
            and not (asked.name == "OPEN" and not asked.fields[1] & codec.WRITE)
        return codec.request(asked.number, "MKDIR", b"/", {}) if is_meant else packet

    def lose(self):
        """Nothing is lost."""


left_open_not_written = Locking.but(
    "A file that was open to be written when the session ended cannot be opened to be written.", REFUSED=("OPEN",))
left_open_not_moved = Locking.but(
    "RENAME of a file that was open to be written when the session ended fails.", REFUSED=("RENAME",))


@fault("refused", Locking)
def nothing_is_made(self, packet):
    """MKDIR fails once the server was started again."""
    asked = codec.decode(packet)
    return codec.request(asked.number, "MKDIR", b"/", {}) if asked.name == "MKDIR" and self.is_again else packet


@lose
def all_lost(self):
    """Nothing that the session changed is kept."""
    self.after = self.before


def main():
    chosen, words = planted.named(planted.classes(globals()))
    tree, folder = words
    saved = os.path.join(folder, "saved.tree")
    is_first, names = not os.path.exists(saved), os.path.join(folder, "open")
    server = chosen()
    server.is_again = not is_first
    if not is_first:
        with open(names, "rb") as file:
            server.was_open = set(file.read().split(b"\0"))
    status = planted.passed(server, [program(), "serve", "--tree", tree if is_first else saved, "--save", saved,
                                     "--no-sync", *chosen.OPTIONS])
    if is_first:
        with open(tree, "rb") as before, open(saved, "rb") as after:
            left = server.lost(trees.get(before.read()), trees.get(after.read()))
        trees.write(left, saved)
        with open(names, "wb") as file:
            file.write(b"\0".join(path for path in server.opened.values() if path))
    os._exit(status)
