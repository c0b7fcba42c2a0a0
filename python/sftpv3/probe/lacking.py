"""What a server does not have, as `--without` names it: owners, or permissions. No request sets it, the tree has
the same of everything, and each reply is judged as if it showed that. So sizes, kinds, names and bytes are judged of
servers that show no owners, the same one always, or permissions that nobody can change: those of stores of
objects, of what is in memory only, of exFAT. What is kept of a session is what was judged.

Times of access are set together with those of modification, and so they are set, but not compared: file systems keep
the day alone, as FAT, or none. Where names are listed without attributes, nothing is listed: what they would show,
nobody but the audit knows. Of a server that changes nothing readonly.py judges what would change something."""
import copy
from contextlib import suppress

from sftpv3 import codec
from sftpv3.codec import trees

OWNERS, PERMISSIONS, ACCESS, LISTED, CHANGES = NAMES = (
    "owners", "permissions", "access-times", "listed-attributes", "changes")

# The attributes of requests that are left out.
FIELDS = {OWNERS: "owner", PERMISSIONS: "permissions"}

# What differs in replies of a server that lacks it, by the words of `groups.FIELDS`.
SHOWN = {OWNERS: {"user", "group"}, PERMISSIONS: {"permissions"}}

# The requests whose replies show attributes that are judged.
SHOWING = ("STAT", "LSTAT", "FSTAT", "READDIR")

# The bits that say what something is, and those of a directory and of a link.
KIND, DIRECTORY, LINK = 0o170000, 0o040000, 0o120000


class Lacking:
    """What is put in the place of what a server does not have: the owner of all, and the permissions of a file and of a
    directory, those that a new one has by the umask."""

    def __init__(self, given=(), owner=(0, 0), umask=0o22):
        self.given, self.owner = frozenset(given), owner
        self.of_file, self.of_directory = 0o666 & ~umask, 0o777 & ~umask

    def has_permissions(self):
        return PERMISSIONS not in self.given

    def has_access_times(self):
        return ACCESS not in self.given

    def has_changes(self):
        return CHANGES not in self.given

    def tree(self, tree):
        """The tree as this server has it."""
        found = tree.with_entries([self.entry(entry) for entry in tree.entries])
        found.root = self.entry(tree.root)
        return found

    def entry(self, entry):
        found = copy.copy(entry)
        if OWNERS in self.given:
            found.uid, found.gid = self.owner
        if PERMISSIONS in self.given:
            found.permissions = self.of_directory if entry.kind == trees.DIRECTORY else self.of_file
        return found

    def steps(self, steps):
        """The steps of a plan, without those that set nothing else, and those that list what shows nothing."""
        return [step for step in map(self.step, steps) if step is not None]

    def step(self, step):
        """A step that does not set it, or None if nothing is left to be set or shown."""
        if LISTED in self.given and step.name == "READDIR":
            return None
        names = {FIELDS.get(name) for name in self.given}
        fields = [{key: one for key, one in value.items() if key not in names} if isinstance(value, dict) else value
                  for value in step.fields]
        if fields == step.fields:
            return step
        if step.name in ("SETSTAT", "FSETSTAT") and not fields[1]:
            return None
        found = copy.copy(step)
        found.fields = fields
        return found

    def records(self, records):
        """The records as they are judged."""
        if not self.given:
            return records
        asked, found = {}, list(records[:2])
        for side, packet in records[2:]:
            if side == codec.CLIENT:
                asked[packet[5:9]] = codec.decode(packet).name
            found.append((side, self.reply(packet) if side == codec.SERVER and
                          asked.get(packet[5:9]) in SHOWING else packet))
        return found

    def reply(self, packet):
        """A reply that shows it as the tree has it; what is malformed stays as it is."""
        with suppress(codec.Malformed):
            said = codec.read(codec.SERVER, packet)
            if said.name == "ATTRS":
                said.fields = [self.shown(said.fields[0])]
            elif said.name == "NAME":
                said.fields = [[(name, long, self.shown(one)) for name, long, one in said.fields[0]]]
            return codec.encode(said)
        return packet

    def shown(self, given):
        """The attributes of a reply. What does not say what it is has no permissions here, either."""
        found = dict(given)
        if OWNERS in self.given:
            found["owner"] = self.owner
        if PERMISSIONS in self.given and "permissions" in given:
            kind = given["permissions"] & KIND
            found["permissions"] = kind | (self.of_directory if kind == DIRECTORY else
                                           0o777 if kind == LINK else self.of_file)
        return found
