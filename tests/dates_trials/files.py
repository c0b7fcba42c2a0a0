"""Times that tree files carry from one session to the next, and to and from folders by GNU tar."""
import os
import shutil
import subprocess

from dates_trials.rooms import OLD, OLDER, PROGRAM, Server
from sftpv3 import codec
from sftpv3.codec import trees

# Times that a session gives, of access and of modification.
GIVEN = (1_100_000_000, 1_200_000_000)
# The names of a folder with their times of modification. Each is accessed as many seconds before.
FOLDER = {"d": OLD + 1, "d/g": OLD + 2, "e": OLD + 3, "e/inner": OLD + 4, "f": OLD + 5, "untouched": OLD + 6}
DIRECTORIES = ("d", "e", "e/inner")
AHEAD = 100


def accessed(modified):
    return modified - AHEAD


def make_folder(folder):
    """A folder with a link and a file of two names, too."""
    folder.mkdir()
    for name in FOLDER:
        if name in DIRECTORIES:
            (folder / name).mkdir()
        else:
            (folder / name).write_text("some bytes")
    os.symlink("f", folder / "link")
    os.link(folder / "f", folder / "second")
    for name, modified in [*reversed(FOLDER.items()), ("", OLD)]:
        os.utime(folder / name, (accessed(modified), modified))


def run(room, words, **more):
    return subprocess.run(list(map(str, words)), cwd=room.folder, check=True, **more)


def imported(room, *more):
    """Makes the tree from the folder, with the times of access that an archive of the pax format has."""
    make_folder(room.folder / "folder")
    run(room, ["tar", "--format=pax", "--owner=0", "--group=0", "-C", "folder", "-cf", "folder.tar", "."])
    with open(room.folder / "folder.tar", "rb") as file:
        run(room, [PROGRAM, "import", *more, "t"], stdin=file)


def exported(room):
    """The times of modification of what GNU tar makes of the tree, by their names; links are left out."""
    folder = room.folder / "out"
    shutil.rmtree(folder, ignore_errors=True)
    folder.mkdir()
    with open(room.folder / "out.tar", "wb") as file:
        run(room, [PROGRAM, "export", "t"], stdout=file)
    run(room, ["tar", "-C", "out", "-xf", "out.tar"])
    names = [path for path in (folder, *folder.rglob("*")) if not path.is_symlink()]
    return {"" if path == folder else str(path.relative_to(folder)): int(path.stat().st_mtime) for path in names}


def in_file(room, name="t"):
    """The times of access and of modification of the entries of a tree file that has some, by their paths."""
    tree = trees.read(room.folder / name)
    return {it.path: it.times for it in (tree.root, *tree.entries) if it.times != trees.NO_TIMES}


def session(room, *more):
    """A session on the tree, which it saves."""
    return Saving(room.command(*more))


class Saving:
    """A server, which has ended well behind the block."""

    def __init__(self, words):
        self.server = Server(words)

    def __enter__(self):
        return self.server

    def __exit__(self, kind, *_):
        status = self.server.end()
        if kind is None and status != 0:
            raise AssertionError(f"the server ended with status {status}")
        return False


def whole(room, begun):
    """Whether a time is that of the trial."""
    return lambda moment: begun <= moment <= room.now()


def through_a_session(steps, room):
    """A folder comes in, a session changes some of it, and what comes out has its times."""
    imported(room)
    found = in_file(room)
    steps.check("import has the times of modification", {path: times[1] for path, times in found.items()} == {
        b"/": OLD, **{b"/" + os.fsencode(name): modified for name, modified in FOLDER.items()}}, found)
    begun = room.now()
    with session(room, "--times") as server:
        shown = {path: server.times(path) for path in found}
        steps.check("a session shows the times of its tree file", shown == found, shown)
        steps.check("and lists them", server.listing(b"/e") == {b"inner": found[b"/e/inner"]})
        server.ask("SETSTAT", b"/f", {"times": GIVEN})
        handle = server.open(b"/d/g", codec.WRITE)
        server.ask("WRITE", handle, 0, b"other")
        server.ask("CLOSE", handle)
        server.ask("RENAME", b"/e", b"/d/x")
        server.ask("MKDIR", b"/new", {"times": GIVEN})
        server.ask("CLOSE", server.open(b"/new/file", codec.WRITE | codec.CREAT))
        ended = {path: server.times(path) for path in (b"/", b"/d", b"/d/g", b"/new", b"/new/file")}
    now = whole(room, begun)
    expected = {b"/": (found[b"/"][0], None), b"/d": (found[b"/d"][0], None), b"/d/g": (found[b"/d/g"][0], None),
                b"/d/x": found[b"/e"], b"/d/x/inner": found[b"/e/inner"], b"/f": GIVEN, b"/new": (GIVEN[0], None),
                b"/new/file": (None, None), b"/untouched": found[b"/untouched"]}
    saved = in_file(room)
    alike = saved.keys() == expected.keys() and all(
        now(one) if known is None else one == known
        for path in expected for one, known in zip(saved[path], expected[path]))
    steps.check("the saved tree has the times of what was changed, and those of the start", alike, saved)
    steps.check("those that the session showed last", all(saved[path] == ended[path] for path in ended), ended)
    names = {os.fsdecode(path[1:]): times[1] for path, times in saved.items()}
    out = exported(room)
    steps.check("tar makes what has these times", out == {**names, "second": names["f"]}, out)


def kept_as_it_is(steps, room):
    """A session that changes nothing leaves the file as it is."""
    imported(room)
    before, times = (room.folder / "t").read_bytes(), in_file(room)
    with session(room, "--times") as server:
        server.listing(b"/")
        server.ask("CLOSE", server.open(b"/f", codec.READ))
    steps.check("a session that changes nothing saves the same bytes", (room.folder / "t").read_bytes() == before)
    with session(room, "--times") as server:
        server.ask("CLOSE", server.open(b"/n", codec.WRITE | codec.CREAT))
        server.ask("REMOVE", b"/n")
        server.ask("SETSTAT", b"/", {"times": times[b"/"]})
    steps.check("and so does one that takes back what it did", (room.folder / "t").read_bytes() == before)
    with session(room) as server:
        server.listing(b"/")
    steps.check("a session without times saves none", in_file(room) == {}, in_file(room))


def without_times(steps, room):
    """What had no times gets none by being saved."""
    imported(room, "--no-times")
    before = (room.folder / "t").read_bytes()
    begun = room.now()
    with session(room, "--times") as server:
        now = whole(room, begun)
        steps.check("what has no times shows those of the session's start",
                    all(now(moment) for path in (b"/", b"/f", b"/d/g") for moment in server.times(path)))
    steps.check("and is saved without", (room.folder / "t").read_bytes() == before and before.startswith(trees.OPENING))
    with session(room, "--times") as server:
        server.ask("SETSTAT", b"/d/g", {"times": GIVEN})
        server.ask("SETSTAT", b"/second", {"times": (OLDER, OLD)})
    steps.check("what was touched alone has times, a file with its first name", in_file(room) == {
        b"/d/g": GIVEN, b"/f": (OLDER, OLD)}, in_file(room))
    with session(room, "--times") as server:
        server.ask("SETSTAT", b"/d/g", {"times": (0, 0)})
        server.ask("REMOVE", b"/f")
        server.ask("SETSTAT", b"/", {"times": (0, 0)})
    steps.check("two zeros are none, and times go with the file to its next name", in_file(room) == {
        b"/second": (OLDER, OLD)}, in_file(room))


def in_an_audit(steps, room):
    """The auditor judges no times, and its tree has none."""
    imported(room)
    shutil.copy(room.folder / "t", room.folder / "start")
    with session(room, "--times", "--record", str(room.folder / "r")) as server:
        server.ask("SETSTAT", b"/f", {"times": GIVEN, "size": 3})
        server.ask("MKDIR", b"/new", {})
    run(room, [PROGRAM, "audit", "--tree", "start", "--transcript", "r", "--out", "end"], stdout=subprocess.DEVNULL)
    steps.check("the tree of an audit has no times", in_file(room, "end") == {}, in_file(room, "end"))
    same = subprocess.run([PROGRAM, "diff", "end", "t"], cwd=room.folder, stdout=subprocess.PIPE, check=False)
    steps.check("and is else the one that was saved", same.returncode == 0, same.stdout)


TRIALS = (through_a_session, kept_as_it_is, without_times, in_an_audit)
