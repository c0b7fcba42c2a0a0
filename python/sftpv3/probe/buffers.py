"""Scenes for what people get wrong who write a server: READs through a buffer, and what is at the edges of blocks. Each
has names of its own, as those of transfers.py have."""
from itertools import combinations

from sftpv3.probe.dating import owner, times
from sftpv3.probe.renewals import filled
from sftpv3.probe.transfers import CREAT, EXCL, READ, TRUNC, WRITE

# How far behind a small READ something changes: within buffers of 4, 8, 32 and 64 KiB, and behind the next smaller.
REACHES = (1000, 5000, 20_000, 50_000)

# Blocks of memory and of many file systems.
EDGE = 4096


def reading_near(p):
    """Small READs through a handle, each with a change behind it of what a buffer around it has: by another handle, by
    another name of the file, by the handle itself, and by a link; and a small READ of what changed."""
    path, content, step = yield from filled(p, b"near", 70_000)
    reader, further, link = p.ask("OPEN", path, READ, {}), p.blank(b"near.too"), p.blank(b"near.link")
    yield reader
    writers = [(step, step), (reader, step)]
    for name, made in (("HARDLINK", further), ("SYMLINK", link)):
        yield p.ask(name, path, made)
        opened = p.ask("OPEN", made, WRITE, {})
        yield opened
        writers.append((reader, opened))
    base = 15_000
    for reads, writes in writers:
        for reach in REACHES:
            yield p.ask("READ", reads.opened(), base, 10)
            yield p.ask("WRITE", writes.opened(), base + reach, content.at(base, 6))
            yield p.ask("READ", reads.opened(), base + reach - 3, 12)
            base -= 100
    yield p.ask("READ", reader.opened(), 100, 10)
    for cut in ({"size": 150}, {"size": 400}):
        yield p.ask("SETSTAT", further, cut)
        yield p.ask("READ", reader.opened(), 100, 100)
    for one in {it.number: it for pair in writers for it in pair}.values():
        yield p.ask("CLOSE", one.opened())


def at_edges(p):
    """Single bytes that are written and read at the edges of blocks, into the file and at its end."""
    path, content, step = yield from filled(p, b"edges", 3 * EDGE)
    for place in (EDGE - 1, EDGE, 2 * EDGE - 1, 2 * EDGE, 3 * EDGE - 1, 3 * EDGE):
        yield p.ask("WRITE", step.opened(), place, content.at(place + 777, 1))
        yield p.ask("READ", step.opened(), place - 2, 5)
    yield p.ask("FSTAT", step.opened())
    for size in (2 * EDGE, EDGE + 1):
        yield p.ask("FSETSTAT", step.opened(), {"size": size})
        yield p.ask("READ", step.opened(), size - 1, 1)
        yield p.ask("READ", step.opened(), size, 1)
    yield p.ask("CLOSE", step.opened())


def granting_nothing(p):
    """A directory and a file that are made with permissions of 0, and get some later."""
    if p.skip & {"denying", "new-permissions"}:
        return
    path, folder = p.blank(b"nothing"), p.blank(b"nothing.d")
    yield p.ask("MKDIR", folder, {"permissions": 0})
    yield p.ask("LSTAT", folder)
    step = p.ask("OPEN", path, WRITE | CREAT | EXCL, {"permissions": 0})
    yield step
    yield p.ask("FSTAT", step.opened())
    yield p.ask("WRITE", step.opened(), 0, b"what nobody may read")
    yield p.ask("CLOSE", step.opened())
    yield p.ask("LSTAT", path)
    yield p.ask("SETSTAT", path, {"permissions": 0o600})
    yield p.ask("LSTAT", path)
    yield p.ask("SETSTAT", folder, {"permissions": 0o700})
    yield p.ask("RMDIR", folder)


def changing_group(p):
    """A group that changes while the user stays, and a user while the group stays, by a path and by a handle."""
    path = p.blank(b"group")
    step = p.ask("OPEN", path, WRITE | CREAT | TRUNC, {})
    yield step
    for numbers in ((5, 6), (5, 7), (8, 7), (8, 9)):
        yield p.ask("SETSTAT", path, owner(p, *numbers))
        yield p.ask("LSTAT", path)
    for numbers in ((8, 3), (4, 3)):
        yield p.ask("FSETSTAT", step.opened(), owner(p, *numbers))
        yield p.ask("FSTAT", step.opened())
    yield p.ask("CLOSE", step.opened())


def setting_pairs(p):
    """Each two attributes that SETSTAT and FSETSTAT set together, and times alone: both are set, and nothing else.
    Those with a size come last."""
    path, _, step = yield from filled(p, b"paired", 500)
    pairs = [("times",), *combinations(("times", "permissions", "owner", "size"), 2)]
    for turn, pair in enumerate(sorted(pairs, key=lambda one: "size" in one)):
        for number, (name, thing) in enumerate((("SETSTAT", path), ("FSETSTAT", step.opened())), 2 * turn):
            given = {"permissions": 0o604 + 8 * number, "size": 480 - 20 * number, **owner(p, 5 + number, 6 + number),
                     **times(p)}
            yield p.ask(name, thing, {field: given[field] for field in pair if field in given})
            yield p.ask("STAT", path)
        yield p.ask("FSTAT", step.opened())
    yield p.ask("READ", step.opened(), 0, 600)
    yield p.ask("CLOSE", step.opened())


# Each comes each so many seeds, first with that seed, as in `planner.PERIODS`.
PERIODS = [
    ("transfers", reading_near, 5, 1),
    ("transfers", at_edges, 7, 4),
    ("transfers", granting_nothing, 7, 1),
    ("transfers", changing_group, 7, 6),
    ("transfers", setting_pairs, 9, 4),
]
