"""What ends a walk, and what no tree file has: docs/TREE.md has the limits."""
from sftpv3.codec import wording

# The most bytes of a file, bytes of a name, and names from the root to an entry, of any tree; and the most bytes of a
# path in a request.
LARGEST, NAME, DEPTH, PATH = 1 << 40, 255, 64, 4096

# The most entries that a walk takes, since it holds them, unless --max-entries says otherwise.
ENTRIES = 1 << 20

# For each of these entries: how many bytes all names together may have, since they are held until they are looked at,
# and all requests and replies together, without those of files.
NAME_BYTES, PASSED_BYTES = 256, 512
PASSED = ENTRIES * PASSED_BYTES

# The most bytes of a handle, by the draft.
HANDLE = 256

# How many replies to READDIR without a new name, and how many READs of fewer than LITTLE bytes that are not the end of
# a file, there may be in a directory or a file.
IDLE, SHORT, LITTLE = 100, 100, 256

# The most bytes of files that are read, unless --max-bytes says otherwise.
READ = 1 << 28

# How many notes are printed.
NOTES = 20


class Misbehaves(Exception):
    """The walk cannot go on: what the server did."""


def shown(path):
    return wording.quoted(path, 200)


def to_no_request(count):
    replies, are = ("reply", "is") if count == 1 else ("replies", "are")
    return f"{count:,} {replies} of the server {are} to no request"


class Notes:
    """What was not looked at, or cannot be in a tree file, and why. The first of them are printed at once."""

    def __init__(self, tell):
        self.tell, self.count = tell, 0

    def add(self, path, why):
        self.count += 1
        if self.count <= NOTES:
            self.tell(f"{shown(path)} {why}")

    def end(self):
        if self.count > NOTES:
            self.tell(f"and {self.count - NOTES} further places")
