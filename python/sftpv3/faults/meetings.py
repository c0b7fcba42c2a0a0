"""Faults of servers where requests meet on one place: on what was there before, is taken, absent or a link, and on what
a request has to leave as it is."""
from sftpv3 import codec
from sftpv3.codec import APPEND, CREAT, EXCL, READ, TRUNC, WRITE
from sftpv3.faults.kinds import (ABSENT, DIRECTORY, FAILED, FAR, KIND, LOOKS, MOVES, NOWHERE, Attributes, Fault, Makes,
                                 Meets, aim_of, alter, answer, ask, clean, code_of, fault, flagged, in_flight, leads_to,
                                 opens, refuses, set_to, sets, status, target, top_of, with_names)


@refuses(looked=set)
def listed_cannot_be_removed(self, asked):
    """RMDIR of a directory that was listed fails."""
    if asked.name == "OPENDIR":
        self.looked.add(clean(asked.fields[0]))
    return asked.name == "RMDIR" and clean(asked.fields[0]) in self.looked


@refuses
def unusual_cannot_be_removed(self, asked):
    """REMOVE and RMDIR of a name with a quote, a newline, a backslash, a star or a bracket fail."""
    name = asked.fields[0].rpartition(b"/")[2] if asked.name in ("REMOVE", "RMDIR") else b""
    return any(byte in b"'\"\n\\*[" for byte in name)


@answer(LENGTH=16384)
def long_listing_cut(self, asked, reply):
    """A reply of a listing that would have more than {LENGTH} bytes lacks its last names."""
    items = codec.names_in(reply) if asked.name == "READDIR" and reply[4] == codec.NAME else []
    while len(reply) > self.LENGTH and items:
        items.pop()
        reply = with_names(reply, items)
    return [reply]


class stays_absent(Fault, absent=set):
    """STAT and LSTAT find nothing at a path at which they found nothing before, if RENAME put something there."""

    def alter(self, asked):
        if asked.name in ("OPEN", "MKDIR", "SYMLINK", "HARDLINK"):
            self.absent -= {clean(path) for path in asked.fields[:2] if isinstance(path, bytes)}

    def answer(self, asked, reply):
        path = clean(asked.fields[0]) if asked.name in LOOKS else None
        if path and code_of(reply) == codec.NO_SUCH_FILE:
            self.absent.add(path)
        return [status(reply, ABSENT)] if path in self.absent else None


append_keeps_truncated = flagged(
    "OPEN with APPEND passes over TRUNC.",
    lambda self, asked, flags: flags & ~TRUNC if flags & APPEND and flags & WRITE else flags)
open_to_write_makes = flagged(
    "OPEN to write makes a file without CREAT.",
    lambda self, asked, flags: flags | CREAT if flags & WRITE and not flags & ~(READ | WRITE | APPEND) else flags)


@ask
def open_makes_directory(self, asked):
    """OPEN with CREAT makes the directory that it lacks."""
    if opens(asked, CREAT) and opens(asked, WRITE):
        return [self.another("MKDIR", top_of(asked.fields[0]), {}), asked]


@ask
def refused_open_empties(self, asked):
    """OPEN with EXCL and TRUNC of a file that is there fails, and empties it."""
    if asked.name == "OPEN" and asked.fields[1] == WRITE | CREAT | EXCL | TRUNC:
        return [self.another("SETSTAT", asked.fields[0], {"size": 0}), asked]


@fault("ask", Makes)
def directory_replaces_file(self, asked):
    """posix-rename of a directory that the session made takes the place of a file."""
    if asked.name == "POSIX-RENAME" and clean(asked.fields[0]) in self.made:
        return [self.another("REMOVE", asked.fields[1]), asked]


slash_cannot_be_made = refuses(
    "MKDIR of a path that ends in a slash fails.", lambda self, asked:
    asked.name == "MKDIR" and asked.fields[0].endswith(b"/") and asked.fields[0].strip(b"/"), HIDDEN_BY=("slash",))
empty_path_leads_nowhere = leads_to(
    "A path of no bytes leads nowhere.",
    lambda self, asked, place, path: path if path or place or asked.name == "SYMLINK" else NOWHERE,
    HIDDEN_BY=("slash",))


@leads_to(LENGTH=280)
def long_path_fails(self, asked, place, path):
    """A path of more than {LENGTH} bytes, and less than 1,024, leads nowhere."""
    is_long = self.LENGTH < len(path) < 1024 and all(len(part) < 256 for part in path.split(b"/"))
    return NOWHERE if is_long and asked.name != "SYMLINK" else path


large_read_fails = refuses("A READ of more than {LENGTH} bytes fails.",
                           lambda self, asked: asked.name == "READ" and asked.fields[2] > self.LENGTH, LENGTH=2 ** 18)
set_size_alone = set_to(
    "SETSTAT and FSETSTAT of a size and more set the size alone.",
    lambda self, asked, given: {"size": given["size"]} if given["size"] < FAR else given, WHAT="size")
set_id_lost = set_to("SETSTAT of permissions leaves out those to be run as the file's user and group.",
                     lambda self, asked, given: {**given, "permissions": given["permissions"] & ~0o6000},
                     NAMES=("SETSTAT",), WHAT="permissions", HIDDEN_BY=("set-id",))


class further_name_set_apart(Meets, Attributes, modes=dict):
    """What HARDLINK made shows the permissions of that time, whatever SETSTAT sets by the old name."""

    def ask(self, asked):
        if asked.name == "HARDLINK":
            def known(given):
                if given:
                    self.modes[clean(asked.fields[1])] = given["permissions"]
            return [self.look(known, "LSTAT", asked.fields[0]), asked]
        if asked.name in ("REMOVE", *MOVES, "OPEN", "SETSTAT"):
            for path in asked.fields[:2]:
                self.modes.pop(clean(path) if isinstance(path, bytes) else None, None)
        return None

    def seen(self, asked, given):
        mode = self.modes.get(clean(asked.fields[0])) if asked.name in LOOKS else None
        return given if mode is None else {**given, "permissions": mode}


target_cut = target("READLINK gives at most {LENGTH} bytes.", lambda self, asked, target:
                    target if len(target) <= self.LENGTH else target[:self.LENGTH], LENGTH=255)
target_not_ascii = target(
    "READLINK gives `?` for a byte above 127 of a target of more than ten bytes.",
    lambda self, asked, target: bytes(63 if byte > 127 and len(target) > 10 else byte for byte in target))


@alter(links=set, chains=set)
def link_to_link_leads_nowhere(self, asked):
    """A link that the session made, and that leads to one that it made, leads nowhere."""
    if asked.name == "SYMLINK":
        link, aim = clean(asked.fields[1]), aim_of(asked)
        self.links.add(link)
        self.chains |= {link} if aim in self.links and aim != link else set()
    if asked.name in ("STAT", "OPEN", "OPENDIR") and clean(asked.fields[0]) in self.chains:
        asked.fields[0] = NOWHERE


@refuses(gone=set)
def link_again_fails(self, asked):
    """SYMLINK at a path that was removed, or got another name, fails."""
    if asked.name in ("REMOVE", "RMDIR", *MOVES):
        self.gone.add(clean(asked.fields[0]))
    return asked.name == "SYMLINK" and clean(asked.fields[1]) in self.gone


@fault("ask", Makes)(MAKER="HARDLINK", PLACE=1)
def further_name_emptied_apart(self, asked):
    """OPEN with TRUNC of a name that HARDLINK made makes a new file there."""
    if opens(asked, TRUNC) and opens(asked, CREAT) and not opens(asked, EXCL) and clean(asked.fields[0]) in self.made:
        self.made.discard(clean(asked.fields[0]))
        return [self.another("REMOVE", asked.fields[0]), asked]


@ask
def sets_what_is_there(self, asked):
    """MKDIR of what is there fails, and sets its permissions."""
    if sets(asked, "permissions", ("MKDIR",)):
        return [self.another("SETSTAT", asked.fields[0], {"permissions": asked.fields[1]["permissions"]}), asked]


@fault("ask", Makes)
def renamed_directory_is_reset(self, asked):
    """RENAME of a directory that the session made gives it the permissions 0755."""
    if asked.name == "RENAME" and clean(asked.fields[0]) in self.made:
        return [self.another("SETSTAT", asked.fields[0], {"permissions": 0o755}), asked]


kind_cannot_be_made = refuses(
    "MKDIR with permissions that say that it is a directory (040000) fails.",
    lambda self, asked: asked.name == "MKDIR" and asked.fields[1].get("permissions", 0) & KIND == DIRECTORY)
large_owner_cut = set_to(
    "The numbers of users and groups that are set are taken modulo 65,536.",
    lambda self, asked, given: {**given, "owner": tuple(number % 65536 for number in given["owner"])}, WHAT="owner")
id_of_zero_fails = refuses("A request with the id 0 fails.", lambda self, asked: asked.number == 0)
large_id_fails = refuses("A request with an id of 2^31 or more fails.", lambda self, asked: asked.number >= 2 ** 31)
failure_in_much_flight = in_flight(
    "With 40 or more requests unanswered, OK is told as FAILURE.",
    lambda self, asked, reply, count: [status(reply, FAILED)] if count >= 40 and code_of(reply) == codec.OK else None)
