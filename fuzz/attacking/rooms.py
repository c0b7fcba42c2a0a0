"""Attacks on the temporary folders of scripts that root runs, where TMPDIR leads to what another user can change."""
import itertools
import os
import re
import struct
import subprocess
import tempfile
from contextlib import suppress

from attacking.ground import CLIENTS, SECONDS, attack, environment
from attacking.looks import CALLS, MOST, acting_before
from attacking.scripts import DIFFERING, ordinary
from sftpv3.codec import init, trees
from sftpv3.codec.trees import FILE, Entry, Tree
from sftpv3.system import files, ways
from sftpv3.system.program import TOP, program

from sftpv3.servers import folders  # noqa: E402 (its folder is not searched before)


class Scene:
    """A folder of the other user that TMPDIR names, or in which it names one of root. By `swap` the user puts a link to
    a folder of root in the place of what was made there, or of what is on the way to it."""

    def __init__(self, field, number, is_below, has_root):
        self.theirs, self.user = field.path(f"of-root-{number}"), field.user.pw_uid
        for it in ("below", "root")[:1 + has_root]:
            os.makedirs(f"{self.theirs}/{it}")
        self.home = self.room = field.shared(f"home-{number}", 0o755, self.user)
        if is_below:
            self.room = f"{self.home}/way/below"
            os.makedirs(self.room, 0o700)
            field.theirs(f"{self.home}/way")
        self.before = self.state()

    def swap(self):
        for name in os.listdir(self.home):
            with suppress(OSError):
                os.rename(f"{self.home}/{name}", f"{self.home}/gone-{name}")
                os.symlink(self.theirs, f"{self.home}/{name}")
                os.lchown(f"{self.home}/{name}", self.user, self.user)

    def state(self):
        """All that root's folder has."""
        return sorted(os.path.join(place, it) for place, below, names in os.walk(self.theirs) for it in below + names)


def looks_of(scene, tree, number, is_checked):
    """Makes the folder of a tree below TMPDIR, in a process that is gone before it removes anything; or so as if all
    were well with TMPDIR. Returns how many looks that took; before the one of this number the user acts."""
    child = os.fork()
    if child:
        return os.waitstatus_to_exitcode(os.waitpid(child, 0)[1])
    looks = []
    try:
        os.environ["TMPDIR"], tempfile.tempdir = scene.room, None
        if not is_checked:
            ways.fault = lambda *_: None
        with acting_before(number, scene.swap, CALLS) as looks, suppress(OSError, folders.Bad):
            folders.Folder(tree)
    finally:
        os._exit(min(len(looks), MOST))


@attack("user")
def a_name_in_the_folder_of_TMPDIR_becomes_a_link(field):
    """At whichever look of clients/servers what they made in a folder of a user becomes a link, nothing of a tree is
    made behind it. Where TMPDIR is not looked at, they go on in the folders that they hold open."""
    tree = field.put("of-a-user.tree", trees.put(Tree([Entry(b"/x", FILE, b"of a user", 0, 0, 0o644)])))
    for of_all in itertools.product((False, True), repeat=3):
        for number in range(1, MOST):
            scene = Scene(field, f"{''.join(str(int(it)) for it in of_all)}-{number}", *of_all[:2])
            looks = looks_of(scene, tree, number, of_all[2])
            if scene.state() != scene.before:
                yield f"{of_all}, look {number}: root's folder has {scene.state()}"
                break
            if looks < number:
                break
        if not (3 if of_all[2] else 20) < number < MOST - 1:
            yield f"{of_all}: {number} looks"


def let_write(folder, user):
    """Lets a user write into a folder by an access list: then the group's permissions are the most that it gives."""
    entries = ((1, 7, -1), (2, 7, user), (4, 5, -1), (16, 7, -1), (32, 5, -1))
    os.setxattr(folder, "system.posix_acl_access", struct.pack("<I", 2) + b"".join(
        struct.pack("<HHi", *it) for it in entries))


def rooms(field):
    """Yields folders that TMPDIR may name, and whether temporary files may be made there."""
    user, group = field.user.pw_uid, field.user.pw_gid
    for what, owner, mode, is_taken in (
            ("a user's", (user, group), 0o755, False), ("a user's with the sticky bit", (user, group), 0o1777, False),
            ("one of all", (0, 0), 0o777, False), ("one of a group", (0, group), 0o775, False),
            ("listed", (0, 0), 0o755, False), ("one of all with the sticky bit", (0, 0), 0o1777, True),
            ("root's", (0, 0), 0o700, True)):
        path = field.path(what)
        os.makedirs(f"{path}/below/it", 0o700)
        for it in (f"{path}/below/it", f"{path}/below"):
            os.chmod(it, 0o755)
        os.chown(path, *owner)
        os.chmod(path, mode)
        if what == "listed":
            let_write(path, user)
        yield path, is_taken
        yield f"{path}/below/it", is_taken
    for what, owner in (("a user's link", user), ("root's link", 0)):
        link = field.path(f"one of all with the sticky bit/{what}")
        os.symlink(field.path("root's"), link)
        os.lchown(link, owner, owner)
        yield link, not owner


def takers(field):
    """The words of each script that makes a folder below TMPDIR."""
    lines = ordinary(field)
    serving = [program(), *"serve --tree start.tree".split()]
    yield [os.path.join(CLIENTS, "page"), *lines["page"], "-o", "page"]
    yield [os.path.join(CLIENTS, "walk"), *lines["walk"]]
    yield [os.path.join(CLIENTS, "probe"), *DIFFERING, *serving]
    yield [os.path.join(CLIENTS, "servers/any"), "start.tree", program(), "help"]
    yield [os.path.join(TOP, "packaging/room")]


def wrong_of(field, words, room, is_taken):
    """What is wrong with how a script takes or refuses this folder."""
    done = subprocess.run(words, cwd=field.folder, input=init(), capture_output=True, timeout=SECONDS,
                          env=environment(TMPDIR=room, DESTDIR=field.path("of-install")))
    is_said = b"who can replace temporary files (TMPDIR)" in done.stderr or b"link of another user" in done.stderr
    if is_said == is_taken or is_said and done.returncode != 3 or b"Traceback" in done.stderr:
        yield f"{os.path.basename(words[0])}, {os.path.basename(room)}: {done.returncode} {done.stderr[-300:]!r}"


@attack("user")
def a_temporary_folder_is_another_user_s(field):
    """Where others could put something in the place of a script's temporary folder, none is made, and a line says so.
    Where they cannot, the script goes on."""
    lines = list(takers(field))
    for room, is_taken in rooms(field):
        for words in lines:
            yield from wrong_of(field, words, room, is_taken)
    with suppress(OSError):
        os.close(ways.own_folder(field.path("listed")))
        yield "a folder that others can write by a list is kept"
    for words in (["install"], ["packaging/deb", field.path("packages")]):
        yield from wrong_of(field, [os.path.join(TOP, words[0]), *words[1:]], field.path("a user's"), False)


@attack("user")
def a_listed_folder_is_exchanged_behind_a_look(field):
    """Whether others can write by a list is asked of the folder that is open, whatever has its name by then."""
    listed = field.shared("listed")
    let_write(listed, field.user.pw_uid)
    with acting_before(0, None, ("getxattr",)) as asked:
        if not files.is_foreign(listed):
            yield "a probe keeps its findings in a folder that others can write by a list"
        found = ways.looked_at(os.path.join(listed, "x"))
        os.rename(listed, field.path("gone"))
        os.mkdir(listed)
        if ways.fault(found) is None:
            yield "a recorder has nothing to say of a folder that others can write by a list"
    by_name = [words[0] for words in asked if not re.fullmatch(r"/proc/self/fd/\d+", str(words[0]))]
    if by_name or not asked:
        yield f"asked by a name: {by_name}, of {len(asked)}"
