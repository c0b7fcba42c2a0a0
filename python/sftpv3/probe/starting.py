"""The tree that a probe starts from, if it is given none."""
from sftpv3.codec.trees import DIRECTORY, FILE, FURTHER, HIGHEST, LINK, USUAL, Entry, Tree

# What one READ gives is not raised, since servers give 32,768 bytes as a rule.
ROOMY = (*HIGHEST[:2], USUAL[2], HIGHEST[3])


def usual():
    """Directories, files with one name and with two, links that lead to a file, to a directory, nowhere and round in a
    ring, and a directory of 130 names. It has room for what plans make, as a server has."""
    letters = bytes(range(ord("a"), ord("z") + 1))
    entries = [
        Entry(b"/d", DIRECTORY),
        Entry(b"/d/e", DIRECTORY, permissions=0o700),
        Entry(b"/d/e/f", FILE, b"abcdefghij", permissions=0o644),
        Entry(b"/d/g", FILE, b"", permissions=0o600),
        Entry(b"/d/up", LINK, b"../f"),
        Entry(b"/empty", DIRECTORY, permissions=0o711),
        Entry(b"/f", FILE, letters, permissions=0o644),
        Entry(b"/g", FURTHER, b"/f"),
        Entry(b"/large", FILE, letters * 3000, permissions=0o640),
        Entry(b"/many", DIRECTORY),
        Entry(b"/nowhere", LINK, b"n/m"),
        Entry(b"/ring", LINK, b"ring"),
        Entry(b"/soon", LINK, b"d/new"),
        Entry(b"/to-d", LINK, b"d"),
        Entry(b"/to-e", LINK, b"/d/e"),
    ]
    many = [Entry(b"/many/%03d" % number, FILE, b"", permissions=0o644) for number in range(130)]
    return Tree(entries + many, limits=ROOMY)


# The kinds of entries that a server has only if it does this request.
MADE_BY = {LINK: "SYMLINK", FURTHER: "HARDLINK"}


def without(tree, skip):
    """A tree of the probe without what no session is to make."""
    return tree.with_entries([entry for entry in tree.entries if MADE_BY.get(entry.kind) not in skip and
                              not ("absolute-links" in skip and is_absolute(entry))])


def is_absolute(entry):
    """Whether this is a link whose target begins at the root."""
    return entry.kind == LINK and entry.content.startswith(b"/")


def few():
    """The same with few entries, for sessions that make them."""
    return Tree([entry for entry in usual().entries if not entry.path.startswith(b"/many/")])
