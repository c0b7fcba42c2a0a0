"""A scene that writes where numbers of 31 and of 32 bits end, to a file that has hardly any bytes: what a server does
there that has room for it is judged as faults/distant.py says. It has names of its own, as those of transfers.py have.
"""
from sftpv3.faults import distant
from sftpv3.probe.plans import Content
from sftpv3.probe.transfers import CREAT, READ, TRUNC, WRITE, listing

# Where numbers of 31 and of 32 bits end; the bytes at the beginning of the file, to which an offset without its upper
# bits leads; and what is written, by how far it begins behind such a place, and its length.
PLACES, FIRST, PARTS = (1 << 31, 1 << 32), 3000, ((-40, 30), (-7, 20), (500, 10))


def writing_far(p):
    """A file that is written before, across and behind 2^31 and 2^32: what is around these places and at its beginning,
    what its size is by handle, by path and in a listing, and what is left of it once it is cut there, and near its
    beginning. The scene removes it, as it takes some GiB where nothing keeps gaps without bytes."""
    if p.model.largest < distant.ROOM:
        return
    folder = p.blank(distant.NAME)
    path, content = folder + b"/" + distant.NAME, Content(p.random, FIRST)
    yield p.ask("MKDIR", folder, {})
    step = p.ask("OPEN", path, READ | WRITE | CREAT | TRUNC, {})
    yield step
    yield p.ask("WRITE", step.opened(), 0, content.at(0, FIRST))
    for place in PLACES:
        for behind, count in PARTS:
            yield p.ask("WRITE", step.opened(), place + behind, content.at(place + behind, count))
            yield p.ask("READ", step.opened(), place + behind - 10, count + 30)
        yield p.ask("FSTAT", step.opened())
        yield p.ask("READ", step.opened(), place - 100, 700)
        yield p.ask("READ", step.opened(), 0, FIRST + 100)
        yield p.ask("STAT", path)
    yield from listing(p, folder, 1)
    yield from cutting_far(p, path, step)
    yield p.ask("CLOSE", step.opened())
    yield p.ask("REMOVE", path)


def cutting_far(p, path, step):
    """Sizes at these places, set by handle and by path, and one near the beginning."""
    for size in (PLACES[1] + 600, PLACES[1] - 3, PLACES[1] + 2):
        yield p.ask("FSETSTAT", step.opened(), {"size": size})
        yield p.ask("FSTAT", step.opened())
        yield p.ask("READ", step.opened(), PLACES[1] - 20, 100)
    for size in (PLACES[1] + 9, PLACES[0] + 3, FIRST - 100):
        yield p.ask("SETSTAT", path, {"size": size})
        yield p.ask("LSTAT", path)
        yield p.ask("READ", step.opened(), PLACES[0] - 20, 100)
    yield p.ask("READ", step.opened(), 0, FIRST)


# It comes each so many seeds, first with that seed, as in `planner.PERIODS`. A server that keeps files in memory takes
# some GiB meanwhile.
PERIODS = [("transfers", writing_far, 25, 13)]
