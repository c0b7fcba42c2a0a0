"""Faults of servers that keep what they knew: attributes, names, targets and bytes that have changed since; and of
gateways that put off what they do."""
from sftpv3 import codec
from sftpv3.codec import APPEND, CREAT, EXCL, TRUNC
from sftpv3.faults.kinds import (ABSENT, BLOCK, FAR, LOOKS, MOVES, Asks, Fault, Listings, Meets, Reads, Writes, aim_of,
                                 alter, clean, code_of, data_of, fault, paths_of, refused, seen, sets_size, status,
                                 top_of)


@alter(aims=dict, stale=dict)
def link_replaced_unseen(self, asked):
    """STAT, OPEN and OPENDIR of a link that posix-rename replaced by another lead where the old one led."""
    if asked.name == "SYMLINK":
        self.aims[clean(asked.fields[1])] = aim_of(asked)
    if asked.name in MOVES:
        old, new = paths_of(asked)
        if asked.name == "POSIX-RENAME" and old in self.aims and new in self.aims:
            self.stale[new] = self.stale.get(new, self.aims[new])
        if old in self.aims:
            self.aims[new] = self.aims.pop(old)
    if asked.name in ("REMOVE", "RENAME"):
        self.stale.pop(clean(asked.fields[0]), None)
    if asked.name in ("STAT", "OPEN", "OPENDIR"):
        asked.fields[0] = self.stale.get(clean(asked.fields[0]), asked.fields[0])


@alter(listed=set, moved=dict, anew=set)
def listing_of_renamed_kept(self, asked):
    """OPENDIR of a path that was listed opens what was there then, though that was renamed and a MKDIR came since."""
    path = clean(asked.fields[0]) if asked.name in ("OPENDIR", "MKDIR") else None
    if asked.name in MOVES and paths_of(asked)[0] in self.listed:
        self.moved[paths_of(asked)[0]] = paths_of(asked)[1]
    if asked.name == "MKDIR" and path in self.moved:
        self.anew.add(path)
    if asked.name == "OPENDIR":
        self.listed.add(path)
        asked.fields[0] = self.moved[path] if path in self.anew else asked.fields[0]


class stays_absent_below(Fault, absent=set, put=set):
    """STAT and LSTAT find nothing at a path at which they found nothing before, if RENAME of a directory put something
    there."""

    def alter(self, asked):
        if asked.name in ("OPEN", "MKDIR", "SYMLINK", "HARDLINK", *MOVES):
            self.put |= set(paths_of(asked))
            self.absent -= self.put

    def answer(self, asked, reply):
        path = clean(asked.fields[0]) if asked.name in LOOKS else None
        if path and code_of(reply) == codec.NO_SUCH_FILE and path not in self.put:
            self.absent.add(path)
        return [status(reply, ABSENT)] if path in self.absent else None


class ReadAhead(Asks, Reads, ahead=dict):
    """A READ that goes on where the last one ended gives what was there at that time."""

    # the requests through the handle itself after which the server reads anew
    CHANGES = ()

    def alter(self, asked):
        number = self.opener_number(asked)
        if asked.name in self.CHANGES:
            self.ahead.pop(number, None)
        if asked.name == "READ" and asked.fields[1] < FAR and 0 < asked.fields[2] <= BLOCK and number is not None:
            handle, offset, count = asked.fields
            known = self.ahead.get(number)
            self.asked[asked.number].known = known[1] if known and known[0] == offset else b""
            reply = self.now("READ", handle, offset + count, count)
            self.ahead[number] = offset + count, data_of(reply) if reply[4] == codec.DATA else b""

    def shown(self, asked, _offset, data):
        known = getattr(asked, "known", b"")[:len(data)]
        return known + data[len(known):]


read_ahead_kept = ReadAhead.but(
    "A READ that goes on where the last one ended gives the bytes that were there at that time, whatever was written "
    "since.")
read_ahead_of_other = ReadAhead.but(
    "A READ that goes on where the last one ended gives the bytes that were there at that time, unless the handle "
    "itself was written through since.", CHANGES=("WRITE", "FSETSTAT"))


@seen(known=dict)
def path_known_by_front(self, asked, given):
    """STAT and LSTAT of a path of more than 255 bytes show what the last one of a path with the same first 255 bytes
    showed."""
    if asked.name not in LOOKS or len(asked.fields[0]) <= 255:
        return given
    return self.known.setdefault(asked.fields[0][:255], given)


class RemovedOpen(Fault, removed=dict):
    """Knows the directories that were removed while they were open, and still are, by their paths."""

    def ask(self, asked):
        if asked.name == "RMDIR":
            path = clean(asked.fields[0])
            self.removed.update((number, path) for number in self.numbers_at(path, "OPENDIR"))
        pending = {self.removed.get(opener.number) for opener in self.openers("OPENDIR")}
        return self.of_path(asked) if paths_of(asked) and paths_of(asked)[0] in pending else None

    def of_path(self, asked):
        """The requests in place of one of the path of such a directory, or nothing, which leaves it as it is."""


of_path = fault("of_path", RemovedOpen)

removed_directory_is_there = of_path(
    "STAT and LSTAT find a directory that was removed while it was open, until it is closed.",
    lambda self, asked: [codec.Request(asked.number, asked.name, [b"/"])] if asked.name in LOOKS else None)
removed_directory_keeps_path = of_path(
    "MKDIR at the path of a directory that was removed while it was open fails until it is closed.",
    lambda self, asked: refused(asked) if asked.name == "MKDIR" else None)


@fault("ask", Meets)(fresh=dict)
def new_cannot_be_removed(self, asked):
    """REMOVE of a file that OPEN made fails until it is closed."""
    if asked.name == "OPEN" and asked.fields[1] & CREAT and asked.fields[1] & (EXCL | TRUNC):
        def known(packet):
            if packet[4] == codec.STATUS:
                self.fresh[asked.number] = clean(asked.fields[0])
        return [self.question(known, "LSTAT", clean(asked.fields[0])), asked]
    still = {self.fresh.get(opener.number) for opener in self.openers()}
    return refused(asked) if asked.name == "REMOVE" and clean(asked.fields[0]) in still else None


class gap_keeps_cut_bytes(Asks, Writes, before=dict):
    """A WRITE behind the end leaves in the gap the bytes that SETSTAT or FSETSTAT of a size cut off."""

    def alter(self, asked):
        if sets_size(asked):
            path = self.about(asked) or b"/"
            self.before[path] = self.bytes_now(path) or self.before.get(path, b"")

    def written(self, asked, handle, offset, data):
        before, given = self.before.get(self.about(asked) or b"/", b""), self.attributes_now("FSTAT", handle)
        if not given or not before or not data or self.flags(asked) & APPEND:
            return None
        old = before[given["size"]:offset] if given["size"] < offset < FAR else b""
        return [self.another("WRITE", handle, given["size"], old)] * bool(old) + [asked]


class name_lost_behind_removal(Listings, skips=set):
    """A listing of a directory that was opened before a REMOVE in it lacks the first name of its next reply."""

    def alter(self, asked):
        if asked.name in ("REMOVE", "RMDIR"):
            self.skips |= self.numbers_at(top_of(asked.fields[0]), "OPENDIR")

    def listed(self, asked, before, items):
        number = self.opener_number(asked)
        lacks = before and number in self.skips
        self.skips.discard(number)
        return items[1:] if lacks else items
