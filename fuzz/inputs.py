"""Random requests, trees, and changes of bytes, each by a given source of random numbers; and what
`serve` has to say of a stream, by the documents alone."""
from __future__ import annotations

from sftpv3.codec import (CLIENT, INIT, OPENING, Malformed, Request, encode, front, id_of, put_records, string, uint32,
                          uint64, until_fault)
from sftpv3.codec.packets import LONGEST
from sftpv3.codec.trees import (DIRECTORY, FILE, FURTHER, HIGHEST, LEAST_OF_ALL, LINK, MOST, NO_TIMES, USUAL, Entry,
                                Tree, put, text_of)

NAMES = [b"a", b"b", b"c", b"d", b"l", b"m"]
STEPS = [*NAMES, b"..", b".", b"", b"\xff\x01"]
NUMBERS = [0, 1, 2, 4, 5, 9, 64, 0x100, 0x101, 0x400, 0x401, 0x1000, 0x8000, 0x8001, 0x10000, 0x10001, 0x3FFFC, 0x3FFFD,
           0x100000, 0x100001, 0x1000000, 0x1000001, 0x4000000, 0x4000001, 0x7FFFFFFF, 0x80000000, 0xFFFFFFFF]
OFFSETS = [0, 0, 0, 1, 2, 3, 5, 10, 100, 32_768, 65_536, 16_777_215, 16_777_216, 67_108_864, 2**32, 2**63, 2**64 - 1]
WEIGHTS = {"OPEN": 12, "CLOSE": 4, "READ": 10, "WRITE": 10, "LSTAT": 3, "FSTAT": 4, "SETSTAT": 4, "FSETSTAT": 4,
           "OPENDIR": 6, "READDIR": 9, "REMOVE": 4, "MKDIR": 9, "RMDIR": 3, "REALPATH": 4, "STAT": 4, "RENAME": 5,
           "READLINK": 3, "SYMLINK": 6, "EXTENDED": 11}


def bad_path(rng):
    return rng.choice([b"", b"/", b"a\0b", b"x" * 255, b"x" * 256, b"./" * 2_047 + b"a", b"/" * 4_096, b"/" * 4_097,
                       b"/a" * 64, b"/a" * 65, b"/.." * 1_000, bytes(range(1, 256)), b"/l/" + b"l/" * 41])


def path(rng):
    if rng.random() < 0.04:
        return bad_path(rng)
    weights = [8] * len(NAMES) + [1] * (len(STEPS) - len(NAMES))
    steps = rng.choices(STEPS, weights, k=rng.choice([0, 1, 1, 1, 1, 2, 2, 3]))
    return b"/" * (rng.random() < 0.8) + b"/".join(steps)


def some_attrs(rng):
    if rng.random() < 0.5:
        return {}
    given = {}
    if rng.random() < 0.5:
        given["size"] = rng.choice(OFFSETS)
    if rng.random() < 0.5:
        given["owner"] = rng.choice(NUMBERS), rng.choice(NUMBERS)
    if rng.random() < 0.5:
        given["permissions"] = rng.choice([0, 0o644, 0o7777, 0o100777, 0xFFFFFFFF])
    if rng.random() < 0.2:
        given["times"] = 1, 2
    if rng.random() < 0.2:
        given["extended"] = [(b"k", b"v")] * rng.choice([0, 1, 3])
    return given


class Handles:
    """The handles that the server gave, as a client knows them: of files and of listings."""

    def __init__(self):
        self.files, self.listings = [], []

    def closed(self, handle):
        for it in (self.files, self.listings):
            if handle in it:
                it.remove(handle)


def handle(rng, handles):
    """One of these handles, mostly."""
    if handles and rng.random() < 0.95:
        return rng.choice(handles[-6:])
    return rng.choice([b"", b"h", bytes(12), uint64(1) + bytes(4), uint64(2**64 - 1) + bytes(4), b"h" * 256])


def extension(rng, handles):
    """A name of an extension and what comes behind it."""
    name = rng.choice([b"posix-rename@openssh.com", b"posix-rename@openssh.com", b"hardlink@openssh.com",
                       b"fsync@openssh.com", b"limits@sftpv3.test", b"statvfs@openssh.com", b""])
    if name.startswith((b"posix", b"hard")):
        return [name, string(path(rng)) + string(path(rng))]
    if name.startswith(b"limits"):
        return [name, b""]
    return [name, string(handle(rng, handles.files)) if name.startswith(b"fsync") else rng.randbytes(rng.randint(0, 9))]


def of_handle(rng, name, handles):
    """The fields of a request that has a handle alone."""
    known = handles.files if rng.random() < (0.95 if name == "FSTAT" else 0.05) else handles.listings
    it = handle(rng, rng.choice([handles.files, handles.listings]) if name == "CLOSE" else known)
    if name == "CLOSE" and rng.random() < 0.8:
        handles.closed(it)
    return [it]


def of_open(rng):
    flags = rng.choice([1, 1, 3, 3, 9, 0xB, 0xB, 0xA, 0x1B, 0x2B, 0xE, 0x1A, rng.randrange(64), rng.choice(NUMBERS)])
    return [rng.choice([path(rng), b"/" + rng.choice(NAMES)]), flags, some_attrs(rng)]


def of_read(rng, handles):
    at = rng.choice(OFFSETS[:10] if rng.random() < 0.8 else OFFSETS)
    return [handle(rng, handles.files), at, rng.choice(NUMBERS)]


def of_write(rng, handles):
    data = rng.randbytes(rng.choice([0, 1, 3, 10, 10, 100, 1_000, 32_768, rng.choice([65_536, 200_000])]))
    offset = rng.choice(OFFSETS if rng.random() < 0.1 else OFFSETS[:10])
    return [handle(rng, handles.files), offset, data]


def fields(rng, name, handles):
    if name == "OPEN":
        return of_open(rng)
    if name in ("CLOSE", "FSTAT", "READDIR"):
        return of_handle(rng, name, handles)
    if name == "READ":
        return of_read(rng, handles)
    if name == "WRITE":
        return of_write(rng, handles)
    if name in ("SETSTAT", "MKDIR"):
        return [path(rng), some_attrs(rng)]
    if name == "FSETSTAT":
        return [handle(rng, handles.files), some_attrs(rng)]
    if name in ("RENAME", "SYMLINK"):
        return [path(rng), path(rng)]
    return extension(rng, handles) if name == "EXTENDED" else [path(rng)]


def request(rng, id, handles):
    name = rng.choices([*WEIGHTS], [*WEIGHTS.values()])[0]
    known = handles.listings if name == "READDIR" else handles.files
    if name in ("CLOSE", "READ", "WRITE", "FSTAT", "FSETSTAT", "READDIR") and not known and rng.random() < 0.9:
        name = rng.choice(["MKDIR", "OPEN", "OPENDIR"])
    return encode(Request(id, name, fields(rng, name, handles)))


def owner(rng):
    return rng.choice(NUMBERS), rng.choice(NUMBERS), rng.choice([0, 0o644, 0o755, 0o7777])


def some_limits(rng):
    """The limits of a tree: the usual ones, the highest, the most, or others, also with one on all files."""
    pick = rng.random()
    if pick < 0.4:
        return USUAL
    if pick < 0.55:
        return HIGHEST
    if pick < 0.65:
        return MOST
    if pick < 0.8:
        four = tuple(rng.choice([*it, rng.randint(*it)]) for it in zip(USUAL, MOST))
        return (*four, rng.choice([LEAST_OF_ALL, rng.randint(LEAST_OF_ALL, 2**40)])) if pick < 0.75 else four
    return tuple(rng.choice([*it, rng.randint(*it)]) for it in zip(USUAL, HIGHEST))


def some_times(rng, has_times):
    if not has_times or rng.random() < 0.5:
        return NO_TIMES
    return rng.choice([(0, 1), (1, 0), (2**32 - 1, 2**32 - 1), (rng.choice(NUMBERS), rng.choice(NUMBERS))])


def some_places(rng):
    """Up to 40 places, and the directories among them."""
    places, directories = set(), [()]
    for _ in range(rng.randint(1, 40)):
        place = rng.choice(directories) + (rng.choice(NAMES + [b"x" * 255, b"\xff", b"!"]),)
        if place not in places:
            places.add(place)
            if len(place) < 60 and rng.random() < 0.4:
                directories.append(place)
    return sorted(places), directories


def some_entry(rng, place, directories, files, has_times):
    """An entry there. `files` has the paths of the files so far."""
    pick, it = rng.random(), text_of(place)
    if place in directories or pick < 0.1:
        return Entry(it, DIRECTORY, b"", *owner(rng), some_times(rng, has_times))
    if pick < 0.35:
        return Entry(it, LINK, path(rng) or b"a" if pick < 0.2 else rng.choice(NAMES))
    if pick < 0.6 and files:
        return Entry(it, FURTHER, rng.choice(files))
    data = rng.randbytes(rng.choice([0, 1, 3, 10, 1_000, 40_000, 100_000 if pick > 0.95 else 5]))
    files.append(it)
    return Entry(it, FILE, data, *owner(rng), some_times(rng, has_times))


def some_tree(rng, has_times=False):
    """A tree file: without entries, or with up to 40, of which files have up to some 100,000 bytes; perhaps with
    times."""
    root = Entry(b"/", DIRECTORY, times=some_times(rng, has_times))
    if rng.random() < 0.2:
        return put(Tree([], root=root, limits=some_limits(rng)))
    places, directories = some_places(rng)
    files = []
    entries = [some_entry(rng, place, directories, files, has_times) for place in places]
    home = b"/" + b"/".join(rng.choices(NAMES, k=rng.randint(0, 2)))
    return put(Tree(entries, home, rng.choice(NUMBERS), rng.choice(NUMBERS), root, some_limits(rng)))


def change_bytes(rng, data):
    """The bytes with a change at a place."""
    at = rng.randint(0, len(data))
    pick = rng.randrange(7)
    if pick == 0:
        return data[:at]
    if pick == 1:
        return data[:at] + rng.randbytes(rng.randint(1, 4)) + data[at:]
    if pick == 2:
        return data[:at] + data[at + rng.randint(1, 4):]
    if pick == 3:
        return data[:at] + data[at:at + rng.randint(1, 40)] + data[at:]
    if pick == 4:
        return data[:at] + uint32(rng.choice(NUMBERS)) + data[at + 4:]
    if pick == 5:
        return data[:at] + bytes([rng.randrange(256)]) + data[at + 1:]
    return data[:at] + bytes([data[at] ^ 1 << rng.randrange(8)]) + data[at + 1:] if at < len(data) else data


def change_records(rng, data):
    found, _ = until_fault(data)
    if len(found) < 3:
        return change_bytes(rng, data)
    first, second = rng.randrange(2, len(found)), rng.randrange(2, len(found))
    pick = rng.randrange(5)
    if pick == 0:
        found[first], found[second] = found[second], found[first]
    elif pick == 1:
        del found[first]
    elif pick == 2:
        found.insert(first, found[second])
    elif pick == 3:
        side, it = found[first]
        found[first] = side, it[:5] + found[second][1][5:9] + it[9:]
    else:
        side, it = found[first]
        at = rng.randint(9, max(9, len(it) - 1))
        found[first] = side, it[:at] + bytes([rng.choice([0, 1, 2, 3, 4, 5, 8, 255])]) + it[at + 1:]
    return put_records(found)


def changed(rng, data):
    """The bytes with one to three changes."""
    for _ in range(rng.choice([1, 1, 1, 2, 3])):
        of_records = data.startswith(OPENING) and rng.random() < 0.6
        data = change_records(rng, data) if of_records else change_bytes(rng, data)
    return data


def pieces(rng, data):
    """The bytes in pieces: one, some, or many."""
    count = rng.choice([0, 0, 1, 3, 10, 100])
    cuts = sorted(rng.randint(0, len(data)) for _ in range(min(count, len(data))))
    return [data[start:end] for start, end in zip([0, *cuts], [*cuts, len(data)]) if start < end]


def session_end(sent: bytes, taken: list[bytes]) -> str | None:
    """The message of `serve` after it took these packets of a stream, IdInUse aside; None for none."""
    place = sum(map(len, taken))
    rest = sent[place:]
    try:
        found = front(CLIENT, rest)
    except Malformed as error:
        return f"{error.fault} at {place}"
    if found is None:
        return "BadInit" if not taken else f"Cut at {place}" if rest else None
    if rest[4] == INIT or not taken:
        return "BadInit"
    return f"IdInUse {id_of(rest)}"


def limits_told(tree: Tree) -> bytes:
    """What a session on a tree tells of its limits: packets, READ, WRITE, and open handles."""
    _, _, read_bytes, handles = tree.limits[:4]
    return uint64(LONGEST, read_bytes, read_bytes, handles)
