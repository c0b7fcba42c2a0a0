"""Faults of servers whose files are no files of a system, such as stores of objects, and of file systems that know less
than others: directories that are no more than names, names that are alike, copies in place of further names."""
import posixpath
import unicodedata

from sftpv3.codec import CREAT, READ
from sftpv3.faults.kinds import (MOVES, NOWHERE, Fault, aim_of, alter, alter_now, clean, fault, is_below, leads_to,
                                 paths_of, refused, refuses, spelled, top_of)


class Made(Fault, made=dict):
    """Knows the paths of what the session made, each with the request that made it."""

    MAKING = ("OPEN", "MKDIR", "SYMLINK", "HARDLINK")

    def ask(self, asked):
        found = self.of_made(asked)
        if asked.name in self.MAKING and (asked.name != "OPEN" or asked.fields[1] & CREAT):
            self.made[paths_of(asked)[-1]] = asked.name
        if asked.name in MOVES:
            self.move(*paths_of(asked))
        return found

    def move(self, old, new):
        for path in [path for path in self.made if path == old or is_below(path, old)]:
            self.made[new + path[len(old):]] = self.made.pop(path)

    def of_made(self, asked):
        """The requests in place of one, before it is done, or nothing, which leaves it as it is."""

    def directories(self):
        return [path for path, name in self.made.items() if name == "MKDIR"]

    def directories_below(self, top):
        return [path for path in self.directories() if is_below(path, top)]


of_made = fault("of_made", Made)


@of_made
def renamed_alike_too(self, asked):
    """RENAME of a directory also gives the names beside it that begin with its name the new beginning."""
    if asked.name == "RENAME" and clean(asked.fields[0]) in self.directories():
        old, new = paths_of(asked)
        alike = [path for path in self.made if path.startswith(old) and path != old and not is_below(path, old)
                 and posixpath.dirname(path) == posixpath.dirname(old)]
        return [asked] + [self.another("RENAME", path, new + path[len(old):]) for path in alike]


@of_made
def empty_directory_is_not_moved(self, asked):
    """RENAME of a directory loses the empty directories in it."""
    if asked.name in MOVES:
        old, new = paths_of(asked)
        inside = sorted(self.directories_below(old), key=len, reverse=True)
        return [asked] + [self.another("RMDIR", new + path[len(old):]) for path in inside]


@of_made
def inside_is_reset(self, asked):
    """RENAME of a directory gives the directories in it the permissions 0755."""
    if asked.name in MOVES:
        old, new = paths_of(asked)
        return [asked] + [self.another("SETSTAT", new + path[len(old):], {"permissions": 0o755})
                          for path in self.directories_below(old)]


@alter_now
def open_file_moved_apart(self, asked):
    """RENAME of a file that is open to be read makes a copy of it under the new name."""
    if asked.name == "RENAME" and any(opener.fields[1] == READ for opener in self.openers_at(asked.fields[0])):
        self.copy_now(clean(asked.fields[0]))


@spelled(first=dict)
def forms_are_alike(self, name):
    """Names that differ only in their form of Unicode are one."""
    try:
        form = unicodedata.normalize("NFC", name.decode()).encode()
    except UnicodeDecodeError:
        form = name
    return self.first.setdefault(form, name)


long_names_are_alike = spelled(
    "Names of 255 bytes that differ only in the last two are one.",
    lambda self, name: self.first.setdefault(name[:253] if len(name) == 255 else name, name), first=dict)


@spelled
def hash_ends_name(self, name):
    """What is behind a `#` or a `?` inside a name is left out, as in a URL."""
    return name[:min([place for place in (name.find(b"#"), name.find(b"?")) if place > 0], default=len(name))]


@spelled
def version_ends_name(self, name):
    """A semicolon with digits behind it ends a name."""
    before, _, behind = name.rpartition(b";")
    return before if before and behind.isdigit() else name


@spelled
def blanks_are_one(self, name):
    """Two blanks or more inside a name are one."""
    while b"  " in name:
        name = name.replace(b"  ", b" ")
    return name


backslash_is_slash = spelled(
    "A backslash inside a name is a slash.",
    lambda self, name: name[:1] + name[1:-1].replace(b"\\", b"/") + name[-1:] if len(name) > 2 else name)
two_dots_fail = refuses(
    "A path with a name that ends in two dots fails, if it is longer.", lambda self, asked:
    any(len(part) > 3 and part.endswith(b"..") for path in paths_of(asked) for part in path.split(b"/")))


@refuses
def device_cannot_be_made(self, asked):
    """OPEN and MKDIR of a name that is `con`, `aux` or `nul` up to a dot inside fail."""
    if asked.name in ("OPEN", "MKDIR"):
        name, dot, _ = posixpath.basename(paths_of(asked)[0]).partition(b".")
        return dot and name.lower() in (b"con", b"aux", b"nul")


home_of_tilde = leads_to(
    "A relative path that begins with `~` begins at the home directory behind that.", lambda self, asked, place, path:
    b"/" + path[1:].lstrip(b"/") if path.startswith(b"~") and asked.name != "SYMLINK" else path)


@of_made
def star_removes_all(self, asked):
    """REMOVE of `*` removes all files beside it that the session made."""
    top, name = posixpath.split(clean(asked.fields[0])) if asked.name == "REMOVE" else (b"", b"")
    if name == b"*":
        return [asked] + [self.another("REMOVE", path) for path in self.made if posixpath.dirname(path) == top]


@leads_to(links=set)
def text_takes_link_away(self, asked, place, path):
    """`..` behind a link that the session made leads to the directory of the link."""
    if asked.name == "SYMLINK":
        self.links.add(clean(asked.fields[1]))
    elif b"/.." in path and clean(path.split(b"/..")[0]) in self.links:
        return top_of(path.split(b"/..")[0]).rstrip(b"/") + path.split(b"/..", 1)[1] or b"/"
    return path


@alter(lengths_of=dict)
def long_chain_leads_nowhere(self, asked):
    """A link that leads to a file by more than seven other links leads nowhere."""
    if asked.name == "SYMLINK":
        link, aim = clean(asked.fields[1]), aim_of(asked)
        self.lengths_of[link] = self.lengths_of.get(aim, 0) + 1 if aim != link else 0
    if asked.name in ("STAT", "OPEN", "OPENDIR") and self.lengths_of.get(clean(asked.fields[0]), 0) > 8:
        asked.fields[0] = NOWHERE


target_loses_slash = leads_to(
    "SYMLINK leaves out slashes at the end of a target.", lambda self, asked, place, path:
    path.rstrip(b"/") or path if asked.name == "SYMLINK" and place == 0 else path)


@of_made(aims=dict)
def directory_of_link_removed(self, asked):
    """RMDIR of a link fails, and removes the directory that it leads to if that is empty."""
    if asked.name == "SYMLINK":
        self.aims[clean(asked.fields[1])] = aim_of(asked)
    aim = self.aims.get(clean(asked.fields[0])) if asked.name == "RMDIR" else None
    return [asked] + [self.another("RMDIR", aim)] * (aim is not None)


slash_cannot_be_renamed_to = refuses(
    "RENAME to a path that ends in a slash fails.", lambda self, asked:
    asked.name in MOVES and asked.fields[1].endswith(b"/") and asked.fields[1].strip(b"/"), HIDDEN_BY=("slash",))


@of_made
def full_directory_replaces_none(self, asked):
    """posix-rename of a directory that has names to the path of another directory fails."""
    if asked.name == "POSIX-RENAME":
        old, new = paths_of(asked)
        is_full = any(is_below(path, old) for path in self.made)
        return refused(asked) if is_full and new in self.directories() and new != old else None
