"""Scenes with directories of many names of which many come, go and change while they are listed. Each has names of its
own, as those of transfers.py have."""
from sftpv3.probe.plans import with_count
from sftpv3.probe.transfers import NAMES_AT_ONCE


def paging_of(count, length):
    """A scene with a directory of so many names of so many bytes. While it is listed, it loses every second of them,
    then every second of the others gets another name, and then as many new ones come, in front and at the end. One
    listing begins before each of these, and one behind them."""
    def paging(p):
        """A directory of many names that loses half, gives half of the others another name and gets as many while it is
        listed."""
        if not p.has_room(count + count // 4):
            return
        top = p.blank(b"page")
        paths = [top + b"/" + name_of(b"n", number, length) for number in range(count)]
        yield p.ask("MKDIR", top, {})
        for path in paths:
            yield p.ask("MKDIR", path, {})
        listings, changes = [], [removing(p, paths), renaming(p, paths), adding(p, top, count // 4, length)]
        for change in changes:
            step = p.ask("OPENDIR", top)
            yield step
            listings.append(step)
            for one in listings:
                yield p.ask("READDIR", one.opened())
            yield from change
        last = p.ask("OPENDIR", top)
        yield last
        for one in (*listings, last):
            for _ in range(count // NAMES_AT_ONCE + 2):
                yield p.ask("READDIR", one.opened())
            yield p.ask("CLOSE", one.opened())
    return with_count(paging, count)


def name_of(letter, number, length):
    """A name of so many bytes that begins with this letter."""
    return (letter + b"%04d" % number).ljust(length, b"-")


def removing(p, paths):
    """Every second of these directories goes."""
    for path in paths[::2]:
        yield p.ask("RMDIR", path)


def renaming(p, paths):
    """Every second of the others gets another name, behind all in the order of names."""
    for path in paths[1::4]:
        yield p.ask("RENAME", path, path.replace(b"/n", b"/r"))


def adding(p, top, count, length):
    """So many come, before all others in the order of names or behind."""
    for number in range(count):
        yield p.ask("MKDIR", top + b"/" + name_of(p.random.choice([b"a", b"z"]), number, length), {})


# Each comes each so many seeds, first with that seed, as in `planner.PERIODS`. The names of the last are more than one
# packet has room for.
PERIODS = [
    ("crowds", paging_of(90, 40), 15, 2),
    ("crowds", paging_of(150, 200), 15, 7),
    ("crowds", paging_of(250, 200), 25, 11),
    ("crowds", paging_of(1000, 200), 49, 23),
]
