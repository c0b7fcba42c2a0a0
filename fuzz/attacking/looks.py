"""Attacks between two looks at a name: whatever a script sees of it first, what it sees next may be another thing, such
as a FIFO in the place of the file of --record. And attacks by a server on whoever walks through it, or plays sessions
below a place that it tells."""
import itertools
import os
import resource
import signal
import subprocess
import sys
import time
from contextlib import ExitStack, contextmanager, suppress
from pathlib import Path
from unittest import mock

from attacking.ground import CLIENTS, attack, script
from attacking.saving import HELLO
from attacking.sessions import MEBI
from broken import hostile
from sftpv3.serve import saving
from sftpv3.system import mounted, naming
from sftpv3.system.program import program
from sftpv3.tree.looking import Trouble, View
from trials.processes import limited

LOOKS = ("lstat", "stat", "readlink")
# What else a script does by names.
CALLS = (*LOOKS, "open", "fstat", "mkdir", "makedirs", "rename", "replace", "link", "unlink", "remove", "chmod",
         "listdir", "scandir", "access")
# More looks than a script takes.
MOST = 200


@contextmanager
def acting_before(number, act, watched=LOOKS):
    """In this block, `act` is called before the look of this number. Yields a list of the looks at what is there."""
    looks, places = [], [(os, it) for it in watched] + [(mounted, "opened_within")] * ("open" in watched)

    def looking(look):
        def at(*words, **options):
            looks.append(words)
            if len(looks) == number:
                act()
            return look(*words, **options)
        return at

    with ExitStack() as stack:
        for place, name in places:
            stack.enter_context(mock.patch.object(place, name, looking(getattr(place, name))))
        yield looks


def made(path, data):
    Path(path).write_bytes(data)
    return path


class Scene:
    """A folder of all with a name of the other user, which becomes a link to a file of root."""

    def __init__(self, field, number):
        self.shared, self.theirs = field.shared(f"shared-{number}", 0o1777), field.shared(f"of-root-{number}", 0o700)
        self.victim = made(os.path.join(self.theirs, "victim"), b"of root")
        self.name = field.theirs(made(os.path.join(self.shared, "x"), b""))
        os.symlink(self.victim, os.path.join(self.shared, ".link"))
        field.theirs(os.path.join(self.shared, ".link"))

    def swap(self):
        with suppress(OSError):
            os.rename(os.path.join(self.shared, ".link"), self.name)

    def is_whole(self):
        return Path(self.victim).read_bytes() == b"of root" and os.listdir(self.theirs) == ["victim"]


def save(scene, tree):
    """What a session does with the file of --save, from its start to its end."""
    held = saving.Saving(scene.name, tree, None, False)
    try:
        os.replace(made(os.path.join(scene.shared, "made"), b"a tree"), held.side.path)
        if held.is_saved():
            held.place()
    finally:
        held.discard()


@attack("user")
def a_link_appears_between_two_looks_of_a_session(field):
    """At whichever look of sftpv3-serve a file of another user in /tmp becomes a link, root's file stays."""
    tree = field.blank()
    for number in range(1, MOST):
        scene = Scene(field, number)
        with acting_before(number, scene.swap, CALLS) as looks, suppress(saving.Unfit):
            save(scene, tree)
        if not scene.is_whole():
            yield f"look {number}: root's folder has {os.listdir(scene.theirs)}"
        if len(looks) < number:
            break
    if not 5 < number < MOST - 1:
        yield f"{number} looks"


class Ways:
    """A folder of the other user whose directory `way` becomes a link, also one to a folder of root that has a link of
    root. Each leads to a secret of root."""

    def __init__(self, field, number, target):
        self.home, theirs = field.path(f"home-{number}"), field.path(f"of-root-{number}")
        for it in (f"{theirs}/below/files", f"{self.home}/way/below/files"):
            os.makedirs(it, 0o700)
        made(os.path.join(theirs, "below/files/secret"), b"")
        made(os.path.join(self.home, "way/below/files/own"), b"")
        os.mkdir(f"{theirs}/linked")
        os.symlink(f"{theirs}/below", f"{theirs}/linked/below")
        os.symlink(os.path.join(theirs, target), f"{self.home}/.link")
        for it in (self.home, f"{self.home}/way", f"{self.home}/way/below", f"{self.home}/.link"):
            field.theirs(it)

    def swap(self):
        os.rename(f"{self.home}/way", f"{self.home}/gone")
        os.rename(f"{self.home}/.link", f"{self.home}/way")

    def swap_back(self):
        os.rename(f"{self.home}/way", f"{self.home}/.link")
        os.rename(f"{self.home}/gone", f"{self.home}/way")

    def names(self, is_root):
        with ExitStack() as stack:
            view = View([f"{self.home}/way/below/files"], is_root, stack)
            return [entry.place[-1] for entry in view.entries()]


@attack("user")
def a_link_appears_on_the_way_to_a_folder(field):
    """At whichever look of sftpv3-tree a directory on the way becomes a link of a user, and at whichever it is one no
    more, nothing behind it is read."""
    watched = (*LOOKS, "open", "fstat")
    for number, (target, is_root) in enumerate(itertools.product((".", "linked"), (False, True))):
        scene, found = Ways(field, number, target), []
        for first in range(1, MOST):
            for last in (first + 1, first + 2, MOST):
                with acting_before(first, scene.swap, watched) as looks, suppress(OSError, Trouble), \
                        acting_before(last, scene.swap_back, watched):
                    found += scene.names(is_root)
                if os.path.lexists(f"{scene.home}/gone"):
                    scene.swap_back()
            if len(looks) < first:
                break
        if not 5 < first < MOST - 1:
            yield f"{target}, {is_root}: {first} looks"
        if b"secret" in found or b"own" not in found:
            yield f"{target}, {is_root}: {set(found)}"


@attack("user")
def a_folder_of_a_user_is_a_link(field):
    """Where a user puts a link in place of a folder, or of one on the way, root's sftpv3-tree reads nothing behind it.
    Links of root are followed."""
    user, theirs = field.user.pw_uid, field.path("of-root")
    os.makedirs(os.path.join(theirs, "below"), 0o700)
    made(os.path.join(theirs, "below", "secret"), b"the secret of root")
    home = field.shared("home", 0o755, user)
    for owner, wanted in ((user, 3), (0, 0)):
        for target, place in ((f"{theirs}/below", "files"), (theirs, "way")):
            os.symlink(target, f"{home}/{place}-{owner}")
            os.lchown(f"{home}/{place}-{owner}", owner, owner)
        for place in (f"files-{owner}", f"way-{owner}/below"):
            for words in ([], ["--chroot"]):
                done = field.call("tree", "--user", str(user), "--home", "/", *words, os.path.join(home, place))
                if done.returncode != wanted or (b"the secret" in done.stdout) != (wanted == 0):
                    yield f"{place} {words}: status {done.returncode}, {len(done.stdout)} bytes {done.stderr[-200:]!r}"
                if wanted and b"a symbolic link of another user is on the way" not in done.stderr:
                    yield f"{place} {words}: {done.stderr[-200:]!r}"


HOSTILE = [sys.executable, os.path.join(CLIENTS, "../tests/stand-in"), "hostile"]
LOOSE = [sys.executable, os.path.join(os.path.dirname(os.path.realpath(__file__)), "loose_server.py")]
PROBE = ["--seeds", "1", "--requests", "20", "--skip", "crowds", "--budget", "0", "--jobs", "1", "--look-first", "."]
# The most memory of a script, and how many seconds it has to find out that a path is none.
MEMORY, PROMPT = 256 * MEBI, 10
# The most bytes that a walk records, of a server without files.
RECORD = 512 * MEBI


@attack(is_small=True)
def a_server_tells_a_path_without_end(field):
    """A path of REALPATH that no tree file has ends a walk and a probe at once, with a line, however long it is."""
    for kind, said in hostile.PATHS.items():
        for name, words in (("walk", ["--session", "record"]), ("probe", PROBE)):
            start = time.monotonic()
            done = field.call(name, *words, "--", *HOSTILE, kind, preexec_fn=limited(resource.RLIMIT_AS, MEMORY))
            took = time.monotonic() - start
            if done.returncode != 3 or said not in done.stderr or b"Traceback" in done.stderr or took > PROMPT:
                yield f"{name}, {kind}: status {done.returncode}, {took:.0f} seconds: {done.stderr[-300:]!r}"


@attack()
def a_server_fills_the_disk_by_requests(field):
    """A server has each request name a long path. The record has no more bytes than it may."""
    done = field.call("walk", "--max-bytes", "0", "--session", "record", "--", *HOSTILE, "long_requests")
    size = os.path.getsize(field.path("record"))
    if done.returncode != 3 or b"the requests and replies of the session have more than" not in done.stderr:
        yield f"status {done.returncode}: {done.stderr[-300:]!r}"
    # each record has a byte besides its packet
    if size > RECORD + RECORD // 16:
        yield f"the record has {size // MEBI} MiB"


def probed(field, kind, *words):
    """A run of the probe on a loose server, and what that was asked: the name, the path and the permissions of each
    request."""
    field.put("log", b"")
    done = field.call("probe", *PROBE, *words, "--", *LOOSE, field.path("log"), kind, program(), field.blank())
    lines = [line.split(" ") for line in field.read("log").decode().splitlines()]
    return done, [(name, bytes.fromhex(path), int(mode, 8)) for name, path, mode in lines]


@attack(is_small=True)
def a_server_makes_a_directory_that_others_enter(field):
    """Where MKDIR gives more than was asked for, the directory is set to be its user's before anything is made in it;
    where that does nothing, the run ends."""
    done, found = probed(field, "loose")
    plans = [place for place, (name, path, _) in enumerate(found) if name == "MKDIR" and path.endswith(b"/plan")]
    for place in plans:
        if ("SETSTAT", found[place][1][:-len(b"/plan")], 0o700) not in found[:place]:
            yield f"the place of a plan is made before the directory is its user's: {found[:place + 1]}"
    if not plans or done.returncode not in (0, 1):
        yield f"no plan is played: status {done.returncode}, {done.stderr[-300:]!r}"
    for kind in ("deaf", "later"):
        done, found = probed(field, kind, "--seeds", "1-3")
        if done.returncode != 3 or b"none that only the server's user can enter" not in done.stderr:
            yield f"{kind}: status {done.returncode}, {done.stderr[-300:]!r}"
        inside = [it for it in found if it[1].count(b"/") > 1 or it[0] not in ("MKDIR", "SETSTAT")]
        if inside or not found:
            yield f"{kind}: it is asked for more: {inside[:3]}"


@attack("user")
def a_link_is_a_folder_again_when_it_is_read(field):
    """At whichever look a user's link on the way becomes a directory, what asks where a name leads gets an answer."""
    tree = script("tree")
    asks = (lambda name: tree.is_within("/x", name), lambda name: tree.is_within(f"{name}/x", "/nowhere"),
            naming.folder_warning)
    for what, ask in enumerate(asks):
        for number in range(1, MOST):
            scene = Ways(field, f"{what}-{number}", ".")
            scene.swap()
            with acting_before(number, scene.swap_back, CALLS) as looks:
                try:
                    ask(f"{scene.home}/way/below")
                except OSError as error:
                    yield f"{what}, look {number}: {error}"
            if len(looks) < number:
                break


# How long the program is held at a call, in microseconds, and how long it may take, in seconds.
HELD, PATIENCE = 700_000, 30
# The calls before which the FIFO comes: all that name the file until it is open, each with its number among its kind.
HELD_CALLS = [("statx", it) for it in range(1, 5)] + [("openat", it) for it in range(1, 3)]


class FifoScene:
    """A folder with the file of a record, or without one, and a FIFO of the other user, with a reader if that user is
    to get the record."""

    def __init__(self, field, number, kind):
        owner, mode, of_file, has_reader = kind
        self.folder = field.shared(f"folder-{number}", mode, owner)
        self.name, self.pipe = os.path.join(self.folder, "record"), os.path.join(self.folder, "pipe")
        if of_file is not None:
            made(self.name, b"old")
            os.chown(self.name, of_file, of_file)
        os.mkfifo(self.pipe)
        os.chmod(self.pipe, 0o666)
        field.theirs(self.pipe)
        self.reader = os.open(self.pipe, os.O_RDONLY | os.O_NONBLOCK) if has_reader else None

    def swap(self, user):
        """What the other user does, where the system lets that user."""
        os.seteuid(user)
        try:
            with suppress(PermissionError):
                os.rename(self.pipe, self.name)
        finally:
            os.seteuid(0)

    def got(self):
        """What came through the FIFO."""
        if self.reader is None:
            return b""
        try:
            return os.read(self.reader, 1000)
        except BlockingIOError:
            return b""
        finally:
            os.close(self.reader)


def is_held(log, number):
    """Whether the program is held at its call of this number, by the lines of strace."""
    with suppress(FileNotFoundError), open(log, "rb") as file:
        *calls, begun = file.read().split(b"\n")
        return bool(begun) and len(calls) == number - 1
    return False


def record(field, scene, call):
    """Records a session while the FIFO takes the file's place before a call that names it. Returns the status, standard
    output, standard error, and whether there was such a call; nothing, if the program hangs."""
    log, (name, number), is_swapped = f"{scene.folder}.log", call, False
    words = ["strace", "-f", "-qq", "-o", log, "-P", scene.name, "-e", f"trace={name}", "-e",
             f"inject={name}:delay_enter={HELD}:when={number}", program(), "serve", "--tree",
             field.path("start.tree"), "--record", scene.name]
    with subprocess.Popen(words, stdin=subprocess.PIPE, stdout=subprocess.PIPE, stderr=subprocess.PIPE,
                          start_new_session=True) as running:
        running.stdin.write(HELLO)
        running.stdin.close()
        running.stdin, until = None, time.monotonic() + PATIENCE
        while running.poll() is None and time.monotonic() < until:
            if not is_swapped and is_held(log, number):
                scene.swap(field.user.pw_uid)
                is_swapped = True
            time.sleep(0.01)
        if running.poll() is None:
            os.killpg(running.pid, signal.SIGKILL)
            return None
        out, said = running.communicate()
    return running.returncode, out, said, is_swapped


def wrong(ran, scene):
    """What is wrong with a run during which the FIFO came."""
    if ran is None:
        yield "the program hangs"
        return
    status, out, said, _ = ran
    if status not in (0, 3) or (status == 3) != bool(said):
        yield f"status {status}: {said[-200:]!r}"
    if status == 3 and out:
        yield "a session is served that is not recorded"
    if scene.got():
        yield "the other user gets the record"


@attack("user", "strace")
def a_pipe_takes_the_place_of_a_record(field):
    """At whichever look of the program another user puts a FIFO where the file of --record is or is to be, in a folder
    of all or of that user, with a reader or without: the program ends with a line or goes on, and gives nothing away.
    """
    field.blank()
    user = field.user.pw_uid
    for kind in ((user, 0o755, 0, False), (user, 0o755, 0, True), (user, 0o755, None, False),
                 (0, 0o1777, user, False), (0, 0o1777, None, True)):
        swaps = 0
        for name, number in HELD_CALLS:
            scene = FifoScene(field, f"{'-'.join(map(str, kind))}-{name}-{number}", kind)
            ran = record(field, scene, (name, number))
            yield from (f"{kind}, {name} {number}: {it}" for it in wrong(ran, scene))
            swaps += ran is None or ran[3]
        if swaps < 3:
            yield f"{kind}: the FIFO came {swaps} times"
