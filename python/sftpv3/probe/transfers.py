"""Scenes that move files as clients do: uploads and downloads in blocks, and what follows them on the same files; and
scenes with many names, unusual names, deep paths and many handles. Each scene has names of its own, directly below the
root, so that no other scene meets them; `p.blank` makes one."""
from sftpv3 import codec
from sftpv3.probe.model import DIRECTORY
from sftpv3.probe.plans import Content, with_count


READ, WRITE, APPEND, CREAT, TRUNC, EXCL = (
    codec.READ, codec.WRITE, codec.APPEND, codec.CREAT, codec.TRUNC, codec.EXCL)

KIB = 1024

# What clients send and ask for at a time: old clients 4 and 32 KiB, OpenSSH's sftp 32 and 255 KiB.
BLOCKS = (4 * KIB, 32 * KIB, 64 * KIB, 255 * KIB)

# The sizes around the block that all servers take, those of pictures and texts, and those of some MB.
EDGES = (0, 1, 32 * KIB - 1, 32 * KIB, 32 * KIB + 1)
MIDDLE = (150_000, 262_144, 300_000, 300_001, 327_680, 333_333)
LARGE = (1_048_576, 1_200_001, 1_600_000, 2_097_153, 3_300_000)

# What clients set at the end of an upload: `put -p` the third.
SET_BY_PUT = ({"permissions": 0o640}, {"times": (1, 2)}, {"permissions": 0o600, "times": (1, 2)})

# The most bytes that are asked for in larger blocks than one READ gives: a server that gives them gives them often.
MOST_LONG_READ = 400_000


def blocks(p, size, block, stride=None):
    """The offsets and lengths of the blocks of a file, in order or not. Other blocks than the last begin so far apart
    as `stride` says, else one behind the other."""
    found = [(offset, min(block, size - offset)) for offset in range(0, size, stride or block)]
    if p.random.random() < 0.4 and not p.skip & {"gap"}:
        p.random.shuffle(found)
    return found


def block_of(p, size):
    """A length of blocks: no more than 100 of them."""
    return p.random.choice([block for block in BLOCKS if size <= 100 * block])


def new_attributes(p):
    """What OPEN asks for a new file: mostly nothing."""
    asked = p.random.choice([{}, {}, {"permissions": 0o644}, {"permissions": 0o100600}])
    return {} if "new-permissions" in p.skip else asked


def upload(p, path, content, flags=WRITE | CREAT | TRUNC):
    """OPEN, WRITEs of all blocks, and CLOSE, as `put` does; `put -p` sets attributes, too, and some clients the size
    that the file has by then."""
    step = p.ask("OPEN", path, flags, new_attributes(p))
    yield step
    for offset, count in blocks(p, content.size, block_of(p, content.size)):
        yield p.ask("WRITE", step.opened(), offset, content.at(offset, count))
    if p.random.random() < 0.3:
        yield p.ask("FSETSTAT", step.opened(), p.random.choice([*SET_BY_PUT, {"size": content.size}]))
    if p.random.random() < 0.6:
        yield p.ask("FSTAT", step.opened())
    if p.random.random() < 0.3:
        yield p.ask("STAT", path)
    if p.random.random() < 0.3:
        yield p.ask("FSYNC", step.opened())
    yield p.ask("CLOSE", step.opened())


def download(p, path, size):
    """STAT, OPEN, READs of all blocks and of what is behind the end, and CLOSE, as `get` does."""
    yield p.ask("STAT", path)
    step = p.ask("OPEN", path, READ, {})
    yield step
    yield from read_all(p, step.opened(), size)
    yield p.ask("CLOSE", step.opened())


def read_all(p, handle, size):
    """READs of all blocks, and one behind the end. Where a block is more than one READ has to give, the next READ
    begins where that may have ended."""
    long = size <= MOST_LONG_READ and "long-read" not in p.skip
    block = p.random.choice([block for block in BLOCKS if size <= 100 * block and (long or block <= p.most_read)])
    for offset, _ in blocks(p, size, block, min(block, p.most_read)):
        yield p.ask("READ", handle, offset, block)
    yield p.ask("READ", handle, size + p.random.choice([0, 0, 1, 5000]), block)


def read_around(p, handle, offset, before=10, count=64):
    """A READ of some bytes before a place, and behind it."""
    yield p.ask("READ", handle, max(offset - before, 0), before + count)


def transferring(p):
    """A file that is uploaded and downloaded."""
    path, content = p.blank(b"put"), Content(p.random, p.random.choice(MIDDLE))
    yield from upload(p, path, content, WRITE | CREAT | p.random.choice([TRUNC, EXCL]))
    yield from download(p, path, content.size)


def transferring_edges(p):
    """Files of sizes around one block, and a file without bytes that is made by an OPEN to read."""
    for size in p.random.sample(EDGES, len(EDGES)):
        path = p.blank(b"edge")
        yield from upload(p, path, Content(p.random, size))
        yield from download(p, path, size)
        yield from reading_parts(p, path, size)
    path = p.blank(b"touched")
    yield from reading_parts(p, path, 0, READ | CREAT)
    yield p.ask("LSTAT", path)


def reading_parts(p, path, size, flags=READ):
    """READs from inside a file up to its end, over it, and behind it."""
    step = p.ask("OPEN", path, flags, {})
    yield step
    middle, last = size // 2, max(size - 1, 0)
    for offset, count in ((middle, max(size - middle, 1)), (max(size - 100, 0), 4 * KIB), (last, 1), (size, 1)):
        yield p.ask("READ", step.opened(), offset, count)
    yield p.ask("CLOSE", step.opened())


def transferring_much(p):
    """A file of some MB, which gets another name, is read at places behind 2^20, and is uploaded again."""
    path, content = p.blank(b"much"), Content(p.random, p.random.choice(LARGE))
    yield from upload(p, path, content)
    new = p.blank(b"more")
    yield p.ask("RENAME", path, new)
    yield p.ask("STAT", new)
    step = p.ask("OPEN", new, READ | WRITE, {})
    yield step
    for offset in (2 ** 20 - 5, 2 ** 20, content.size - 100, content.size // 2):
        yield from read_around(p, step.opened(), offset, count=p.random.choice([64, 32 * KIB]))
    for offset in (2 ** 20 - 7, content.size // 2 + 1, content.size - 1):
        yield p.ask("WRITE", step.opened(), offset, content.at(offset + 77, p.random.choice([10, 9000])))
        yield from read_around(p, step.opened(), offset)
    yield p.ask("CLOSE", step.opened())


def transferring_several(p):
    """Several files that are uploaded at once, and downloaded at once."""
    paths, contents = [], []
    for _ in range(p.random.randint(3, 5)):
        paths.append(p.blank(b"one"))
        contents.append(Content(p.random, p.random.choice([5000, 40_000, 100_000, 140_001])))
    yield from at_once(p, [upload(p, path, content) for path, content in zip(paths, contents)])
    yield from at_once(p, [download(p, path, content.size) for path, content in zip(paths, contents)])


def at_once(p, scenes):
    """The steps of several scenes, mixed."""
    while scenes:
        scene = p.random.choice(scenes)
        step = next(scene, None)
        if step is None:
            scenes.remove(scene)
        else:
            yield step


def replacing_upload(p):
    """An upload under a new name that then takes the place of the old file, as editors, rclone and sftp do."""
    path, size = p.blank(b"text"), p.random.choice([1, 5000, 40_000, 270_000, 300_000])
    yield from upload(p, path, Content(p.random, size))
    yield p.ask("SETSTAT", path, {"permissions": p.random.choice([0o600, 0o755, 0o777])})
    yield p.ask("STAT", path)
    for _ in range(2):
        part, size = p.blank(b"text.part"), p.random.choice([0, 10, 5000, 40_000, 290_000])
        yield from upload(p, part, Content(p.random, size))
        yield p.ask("SETSTAT", part, {"permissions": 0o640})
        if p.random.random() < 0.7:
            yield p.ask("POSIX-RENAME", part, path)
        else:
            yield p.ask("RENAME", path, p.blank(b"text.old"))
            yield p.ask("RENAME", part, path)
        yield p.ask("LSTAT", part)
        yield from download(p, path, size)
    yield from replacing_itself(p, path)


def replacing_itself(p, path):
    """A posix-rename of one name of a file to another: both stay."""
    other = p.blank(b"text.other")
    yield p.ask("HARDLINK", path, other)
    yield p.ask("POSIX-RENAME", other, path)
    yield p.ask("LSTAT", other)
    yield p.ask("LSTAT", path)
    yield p.ask("REMOVE", other)


def renaming_open(p):
    """A file that gets another name while it is written, by RENAME or posix-rename, and one that is replaced while it
    is read; what is looked at and set through their handles then."""
    path, new = p.blank(b"log"), p.blank(b"log.1")
    content, kind = Content(p.random, 100_000), p.random.choice(["RENAME", "POSIX-RENAME", "POSIX-RENAME"])
    yield from upload(p, new if kind == "POSIX-RENAME" else p.blank(b"log.2"), Content(p.random, 50_000))
    reading = p.ask("OPEN", new, READ, {}) if kind == "POSIX-RENAME" else None
    if reading:
        yield reading
    step = p.ask("OPEN", path, READ | WRITE | CREAT | TRUNC, {})
    yield step
    yield p.ask("WRITE", step.opened(), 0, content.at(0, 32 * KIB))
    yield p.ask(kind, path, new)
    yield p.ask("WRITE", step.opened(), 32 * KIB, content.at(32 * KIB, 32 * KIB))
    yield p.ask("WRITE", step.opened(), 50, content.at(7, 3000))
    yield p.ask("FSETSTAT", step.opened(), {"permissions": 0o640})
    yield p.ask("FSETSTAT", step.opened(), {"size": 70_000})
    yield p.ask("FSYNC", step.opened())
    yield p.ask("FSTAT", step.opened())
    yield from read_all(p, step.opened(), 70_000)
    if reading:
        yield p.ask("FSTAT", reading.opened())
        yield from read_all(p, reading.opened(), 50_000)
        yield p.ask("CLOSE", reading.opened())
    yield p.ask("CLOSE", step.opened())
    yield from download(p, new, 70_000)


def rewriting(p):
    """A file of which parts are overwritten, also over the ends of blocks and the end of the file, and read again, now
    and then through another handle."""
    path, content = p.blank(b"base"), Content(p.random, p.random.choice(MIDDLE))
    yield from upload(p, path, content)
    step = p.ask("OPEN", path, READ | WRITE, {})
    yield step
    readers = [step]
    if p.random.random() < 0.2 and "two-handles" not in p.skip:
        readers.append(p.ask("OPEN", path, READ, {}))
        yield readers[1]
    places = [(0, 10), (32 * KIB - 1, 2), (64 * KIB - 5, 32 * KIB + 10), (100_000, 5000), (99_999, 1), (4096, 4096),
              (content.size - 100, 300), (content.size // 2, 70_000), (content.size - 1, 1)]
    for offset, count in p.random.sample(places, 6):
        yield p.ask("WRITE", step.opened(), offset, content.at(offset + 1234, count))
        if p.random.random() < 0.5:
            yield p.ask("WRITE", step.opened(), offset + count // 2, content.at(offset + 4321, count))
        handle = p.random.choice(readers).opened()
        yield from read_around(p, handle, offset)
        yield from read_around(p, handle, offset + count, count=2000)
    yield p.ask("FSTAT", step.opened())
    for reader in readers:
        yield p.ask("CLOSE", reader.opened())


def cutting(p):
    """A file that is cut and made longer, by handle, by path and by OPEN, and written in between."""
    path, content = p.blank(b"cut"), Content(p.random, p.random.choice(MIDDLE))
    yield from upload(p, path, content)
    step = p.ask("OPEN", path, READ | WRITE, {})
    yield step
    size = content.size
    for _ in range(3):
        short, long = p.random.choice([4097, 32 * KIB, 40_001, 100_001]), p.random.choice([110_000, 200_000, 1_100_001])
        yield from sized(p, p.ask("FSETSTAT", step.opened(), {"size": short}), step, short)
        yield p.ask("WRITE", step.opened(), p.random.choice([short, short - 50, 0]), content.at(size, 100))
        yield from sized(p, p.ask("FSETSTAT", step.opened(), {"size": long}), step, long)
        yield from read_around(p, step.opened(), short, count=3000)
        size = long
    yield p.ask("CLOSE", step.opened())
    for size in (p.random.choice([50_000, 99_999]), p.random.choice([100_000, 150_000]), p.random.choice([1, 4096])):
        yield p.ask("SETSTAT", path, {"size": size})
        yield from download(p, path, size)
    again = p.ask("OPEN", path, WRITE | CREAT | TRUNC, {})
    yield again
    yield p.ask("CLOSE", again.opened())
    yield p.ask("STAT", path)
    yield from upload(p, path, Content(p.random, p.random.choice([10, 70_000])))
    yield from upload(p, path, Content(p.random, p.random.choice([5, 60_000])))


def sized(p, setting, step, size):
    """A request that sets the size of what this step opened, and what is there then."""
    yield setting
    yield p.ask("FSTAT", step.opened())
    yield from read_around(p, step.opened(), size, before=200)
    yield p.ask("READ", step.opened(), size, 100)


def sparse(p):
    """A file with WRITEs far behind its end, READs before, across and behind them, a WRITE of no bytes behind all, and
    READs where numbers of 31 and 32 bits end."""
    path, content = p.blank(b"holes"), Content(p.random, 4 * 2 ** 20)
    step = p.ask("OPEN", path, READ | WRITE | CREAT | TRUNC, {})
    yield step
    yield p.ask("WRITE", step.opened(), 0, content.at(0, p.random.choice([1, 100, 5000])))
    places = [100_001, 2 ** 20 + 5, p.random.choice([2 ** 21 - 3, 3 * 2 ** 20])]
    for offset in p.random.sample(places, 3):
        yield p.ask("WRITE", step.opened(), offset, content.at(offset, p.random.choice([1, 500, 9000, 40_000])))
        yield from read_around(p, step.opened(), offset, before=20, count=32 * KIB)
    yield p.ask("WRITE", step.opened(), 4 * 2 ** 20, b"")
    yield p.ask("FSTAT", step.opened())
    for offset in (0, 50_000, 99_990, 500_000, 2 ** 20 - 20):
        yield p.ask("READ", step.opened(), offset, 32 * KIB)
    if "huge" not in p.skip:
        yield p.ask("READ", step.opened(), p.random.choice([2 ** 31, 2 ** 32, 2 ** 32 + 2 ** 20 + 5]), 100)
    yield p.ask("CLOSE", step.opened())


def appending_blocks(p):
    """A log that gets longer by blocks, whatever their offsets are."""
    path, content = p.blank(b"journal"), Content(p.random, 200_000)
    yield from upload(p, path, Content(p.random, p.random.choice([0, 10, 33_000])))
    size = p.model.sizes[p.model.at((path[1:],)).number]
    for _ in range(2):
        step = p.ask("OPEN", path, WRITE | APPEND | p.random.choice([0, CREAT]), {})
        yield step
        for _ in range(p.random.randint(2, 4)):
            count = p.random.choice([1, 100, 4 * KIB, 32 * KIB, 64 * KIB])
            yield p.ask("WRITE", step.opened(), p.random.choice([0, 0, 7, size, 100_000]), content.at(size, count))
            size += count
        yield p.ask("FSTAT", step.opened())
        yield p.ask("CLOSE", step.opened())
    yield from download(p, path, size)


# The fewest names that a server gives to one READDIR, as far as servers are known.
NAMES_AT_ONCE = 32

# Names that programs get wrong: long and short ones, and those with bytes that a shell or a line takes for more.
NAMES = [
    b"s", b"l" * 255, b"\xc3\xa9" * 127, b"caf\xc3\xa9 cr\xc3\xa8me", b"cafe\xcc\x81 creme", b"\xf0\x9f\x90\x9f",
    b"two words", b" before", b"behind ", b" ", b"-rf", b"--", b"two\nlines", b"\n", b"tab\there", b"'", b'"', b"\\",
    b"\\n", b"*", b"?", b"[a-z]", b"~", b"$HOME", b"#", b";", b"&", b"|", b"%s%n", b".hidden", b"...", b"..a", b"Upper",
    b"upper", b"\xff\xfe\x80", b"\xc3", b"\x01\x7f", b"C:", b"nul", b"\xe2\x80\xae", b"50%41", b"a+b", b"<x>",
    b"k=v,@^!`{}()", b"cr\rhere", b"host:port", b"dot.",
]

# How many of them a scene makes, so that there are others to rename to.
MADE = 34


def listing(p, path, count):
    """A directory of about so many names that is listed up to its end, and beyond."""
    step = p.ask("OPENDIR", path)
    yield step
    for _ in range(count // NAMES_AT_ONCE + 2):
        yield p.ask("READDIR", step.opened())
    yield p.ask("CLOSE", step.opened())


def making(p, path, first):
    """Something new: mostly a file."""
    kind = p.random.choice(["OPEN", "OPEN", "MKDIR", "MKDIR", "SYMLINK", "HARDLINK"])
    if kind == "OPEN":
        step = p.ask("OPEN", path, WRITE | CREAT | p.random.choice([EXCL, TRUNC]), {})
        yield step
        yield p.ask("CLOSE", step.opened())
    elif kind == "MKDIR":
        yield p.ask("MKDIR", path, {})
    else:
        yield p.ask(kind, b"target" if kind == "SYMLINK" else first, path)


def crowd_of(count):
    """A scene with a directory of so many names, of which some change and go once it was listed."""
    def crowd(p):
        """A directory of many names, of which some change and go once it was listed."""
        if not p.has_room(count + 20):
            return
        place, first = p.blank(b"crowd"), p.blank(b"first")
        yield p.ask("MKDIR", place, {})
        yield from upload(p, first, Content(p.random, 100))
        paths = [place + b"/%04d" % number + LONG * (count > KEYS) for number in range(count)]
        for path in paths:
            yield from making(p, path, first)
        yield from listing(p, place, count)
        for path in p.random.sample(paths, min(count // 3, 12)):
            yield from changing(p, path)
        if count > KEYS:
            new = p.blank(b"crowd.new")
            yield p.ask("RENAME", place, new)
            place = new
        yield from listing(p, place, count)
        if count in LOSING:
            yield from losing(p, place, count)
    return with_count(crowd, count)


# How many keys a store of objects lists at a time: a directory of more names gets another name, too. Its names end so
# that no packet has room for all of them.
KEYS, LONG = 1000, b"-of-a-directory-with-many"

# How many names the directories have that lose some while they are listed, and how many at most. Servers give 32 names
# at a time, 100 or 128: what goes has to be among those that are still to be given.
LOSING, MOST_LOST = (100, 1000), 12


def losing(p, place, count):
    """A directory that is listed, and loses a name before each further reply."""
    names = sorted(p.model.names_in((place[1:],)))
    step = p.ask("OPENDIR", place)
    yield step
    for name in p.random.sample(names, min(count // NAMES_AT_ONCE + 1, MOST_LOST)):
        yield p.ask("READDIR", step.opened())
        is_directory = p.model.at((place[1:], name)).kind == DIRECTORY
        yield p.ask("RMDIR" if is_directory else "REMOVE", place + b"/" + name)
    yield p.ask("READDIR", step.opened())
    yield p.ask("CLOSE", step.opened())


def changing(p, path):
    """What is at a path gets another name, is removed, or is looked at."""
    place = tuple(name for name in path.split(b"/") if name)
    entry = p.model.at(place)
    remove = "RMDIR" if entry and entry.kind == "directory" else "REMOVE"
    yield p.random.choice([p.ask("RENAME", path, path + b".new"), p.ask(remove, path), p.ask("LSTAT", path)])


def few_names(p):
    """Directories of no name, of one and of 20."""
    for count in (0, 1, 20):
        yield from crowd_of(count)(p)


def unusual_names(p):
    """Names that programs get wrong: each is made, listed, found, and some get the names of others."""
    top = p.blank(b"names")
    yield p.ask("MKDIR", top, {})
    names = p.random.sample(NAMES, len(NAMES))
    for name in names[:MADE]:
        path = top + b"/" + name
        if p.random.random() < 0.25:
            yield p.ask("MKDIR", path, {})
        else:
            yield from upload(p, path, Content(p.random, p.random.choice([0, 3, 50])))
        yield p.ask(p.random.choice(["STAT", "LSTAT", "REALPATH"]), path)
    yield from listing(p, top, len(names))
    for old, new in zip(names[:MADE:3], names[MADE:]):
        yield p.ask(p.random.choice(["RENAME", "POSIX-RENAME"]), top + b"/" + old, top + b"/" + new)
        yield p.ask("LSTAT", top + b"/" + old)
        yield p.ask("LSTAT", top + b"/" + new)
    yield from listing(p, top, len(names))


def following_links(p):
    """A file and a directory that requests meet through links, which are the last names of paths, and the links."""
    top, to_file, to_top = p.blank(b"aim"), p.blank(b"to-file"), p.blank(b"to-top")
    file = top + b"/file"
    yield p.ask("MKDIR", top, {})
    yield from upload(p, file, Content(p.random, 300))
    yield p.ask("SYMLINK", p.random.choice([file, file[1:]]), to_file)
    yield p.ask("SYMLINK", p.random.choice([top, b"." + top]), to_top)
    yield from through_file_link(p, to_file, file)
    yield from through_directory_link(p, to_top, top)
    moved = p.blank(b"link")
    yield p.ask("RENAME", to_file, moved)
    yield from download(p, moved, 200)
    for link in p.random.sample([moved, to_top], 2):
        yield p.ask("REMOVE", link)
        yield p.ask("LSTAT", to_top)
    yield from download(p, file, 200)
    yield from listing(p, top, 1)


def through_file_link(p, link, file):
    """What is read, written and set through a link to a file of 300 bytes, which has 200 at the end."""
    yield from download(p, link, 300)
    step = p.ask("OPEN", link, READ | WRITE | p.random.choice([0, CREAT]), {})
    yield step
    yield p.ask("WRITE", step.opened(), 250, b"through the link")
    yield p.ask("FSTAT", step.opened())
    yield p.ask("CLOSE", step.opened())
    yield p.ask("SETSTAT", link, {"permissions": 0o600})
    yield p.ask("LSTAT", file)
    yield p.ask("SETSTAT", link, {"size": 200})
    for name, path in (("LSTAT", file), ("STAT", link), ("LSTAT", link), ("REALPATH", link), ("READLINK", link)):
        yield p.ask(name, path)
    yield p.ask("OPEN", link, WRITE | CREAT | EXCL, {}, cause="Exists")


def through_directory_link(p, link, top):
    """What is listed, set and made through a link to a directory of one name."""
    yield from listing(p, link, 1)
    yield p.ask("SETSTAT", link, {"permissions": 0o711})
    yield p.ask("STAT", top)
    yield p.ask("MKDIR", link + b"/inside", {})
    yield p.ask("LSTAT", top + b"/inside")
    yield p.ask("RMDIR", link, cause="NotDir")
    yield p.ask("MKDIR", link, {}, cause="Exists")
    yield p.ask("RMDIR", link + b"/inside")
    yield p.ask("REALPATH", link)


def deep(p):
    """A path of 30 names with a file at its end, whose first name changes."""
    top, new = p.blank(b"deep"), p.blank(b"deeper")
    below = b"".join(b"/n%02d" % number for number in range(1, 29))
    yield p.ask("MKDIR", top, {})
    for end in range(4, len(below) + 1, 4):
        yield p.ask("MKDIR", top + below[:end], {})
    content = Content(p.random, p.random.choice([10, 40_000]))
    yield from upload(p, top + below + b"/file", content)
    yield p.ask("REALPATH", top + below)
    yield p.ask("STAT", top + below + b"/../" + below.split(b"/")[-1] + b"/file")
    yield from listing(p, top + below, 1)
    yield from listing(p, top + below[:40], 1)
    reading = p.ask("OPEN", top + below + b"/file", READ, {})
    yield reading
    yield p.ask("RENAME", top, new)
    yield from read_all(p, reading.opened(), content.size)
    yield p.ask("CLOSE", reading.opened())
    yield p.ask("STAT", top + below + b"/file")
    yield from download(p, new + below + b"/file", content.size)
    yield p.ask("RENAME", new + below + b"/file", new + b"/up")
    yield p.ask("RMDIR", new + below)
    yield from download(p, new + b"/up", content.size)


def many_handles(p):
    """A hundred files that are open at a time, each with bytes of its own, and listings among them."""
    top, count = p.blank(b"open"), 100
    yield p.ask("MKDIR", top, {})
    opened = []
    for number in range(count):
        step = p.ask("OPEN", top + b"/%02d" % number, READ | WRITE | CREAT | TRUNC, {})
        yield step
        opened.append(step)
        content = Content(p.random, p.random.choice([5, 50, 2000]))
        yield p.ask("WRITE", step.opened(), 0, content.at(0, content.size))
        if number % 10 == 0:
            yield from with_oldest(p, opened)
    listed = p.ask("OPENDIR", top)
    yield listed
    for step in p.random.sample(opened, count):
        yield p.ask("READ", step.opened(), 0, 32768)
    yield p.ask("READDIR", listed.opened())
    while opened:
        step = opened.pop(p.random.randrange(len(opened)))
        yield p.ask("CLOSE", step.opened())
        if opened and len(opened) % 4 == 0:
            yield from with_oldest(p, opened)
    yield p.ask("READDIR", listed.opened())
    yield p.ask("CLOSE", listed.opened())


def with_oldest(p, opened):
    """READ and FSTAT of what was opened first, and of what was opened last."""
    for step in (opened[0], opened[-1]):
        yield p.random.choice([p.ask("READ", step.opened(), 0, 100), p.ask("FSTAT", step.opened())])
