"""Attacks by symbolic links on the way to a file that is written: whose they are says whether they are followed."""
import os
import subprocess
import time
from contextlib import suppress
from pathlib import Path

from attacking.ground import CLIENTS, SECONDS, attack, environment, wrong_status
from attacking.saving import HELLO, OPENED, write, writing
from attacking.scripts import DIFFERING, ordinary
from sftpv3.system.program import program
from trials.processes import wait_until

SAID = b"a symbolic link of another user"
FOLDERS = (0o1777, 0o777, 0o755)


def link(target, path, owner):
    os.symlink(target, path)
    os.lchown(path, owner, owner)


def planted(field, folder):
    """Names in this folder that lead through a link of the other user to files of root, which are made anew."""
    target = field.shared(f"of-root-{os.path.basename(folder)}", 0o700)
    victim = os.path.join(target, "victim")
    user = field.user.pw_uid
    link(victim, os.path.join(folder, "x"), user)
    link("x", os.path.join(folder, "own"), 0)
    link(target, os.path.join(folder, "way"), user)
    names = [os.path.join(folder, it) for it in ("x", "own", "way/victim", "way/new", "way/../x")]
    return target, victim, names


@attack("user")
def a_link_of_another_user_says_what_root_writes(field):
    """A link of another user leads nothing that root writes anywhere, wherever that user may have put it."""
    runs = writing(field)
    for number, mode in enumerate(FOLDERS):
        owner = field.user.pw_uid if mode == 0o755 else 0
        folder = field.shared(f"shared-{number}", mode, owner)
        target, victim, names = planted(field, folder)
        for run, given in runs.items():
            for name in names:
                field.put(victim, b"of root")
                before = os.stat(victim)
                done = write(field, given, name)
                yield from (f"{run} {name}: {it}" for it in wrong_status(done, 3))
                if SAID not in done.stderr or done.stdout:
                    yield f"{run} {name}: says {done.stderr[-200:]!r}, prints {done.stdout[:20]!r}"
                if (field.read(victim), os.stat(victim).st_ino) != (b"of root", before.st_ino):
                    yield f"{run} {name}, mode {mode:o}: root's file is replaced"
                if os.listdir(target) != ["victim"]:
                    yield f"{run} {name}, mode {mode:o}: root's folder has {os.listdir(target)}"


@attack("user")
def a_link_of_another_user_says_what_a_user_writes(field):
    """So for a user who is not root, who follows links of root and of their own."""
    runs = writing(field)
    folder = field.shared("shared", 0o1777)
    own = field.shared("own", 0o700, field.user.pw_uid)
    for owner, wanted in ((65534, 3), (0, 0), (field.user.pw_uid, 0)):
        for run, given in runs.items():
            saved = field.theirs(field.put(os.path.join(own, f"{run}-{owner}"), b""))
            name = os.path.join(folder, f"{run}-{owner}")
            link(saved, name, owner)
            done = write(field, given, name, as_user=True)
            yield from (f"{run}, link of {owner}: {it}" for it in wrong_status(done, wanted))
            if (os.path.getsize(saved) > 0) != (wanted == 0) or not os.path.islink(name):
                yield f"{run}, link of {owner}: {os.path.getsize(saved)} bytes"


@attack("unshare")
def a_mount_point_cuts_its_own_name(field):
    """What stands beside a mounted directory is in the tree, whatever bytes its name has."""
    mounted = 'mount -t tmpfs none "$1" && shift && exec "$@"'
    for byte in "\x0b\x0c\r\x85":
        top = field.path(f"live-{ord(byte)}")
        point = os.path.join(top, "up", f"{byte}x")
        os.makedirs(point)
        field.put(os.path.join(top, "up", "beside"), b"hidden")
        made = subprocess.run(["unshare", "--mount", "sh", "-c", mounted, "sh", point, os.path.join(CLIENTS, "tree"),
                               "--without-mounts", "--chroot", "--out", field.path("made.tree"), top],
                              env=environment(), capture_output=True)
        if made.returncode != 0 or b'"/up/beside"' not in field.run("show", "made.tree").stdout:
            yield f"{byte!r}: status {made.returncode}, {made.stderr!r}: what stands beside it is not there"


@attack("user")
def a_link_that_nobody_can_have_planted(field):
    """A link of another user in a folder that only root can write is followed: nobody else put it there."""
    folder = field.shared("of-root")
    for run, given in writing(field).items():
        saved, name = field.put(os.path.join(folder, f"{run}.tree"), b""), os.path.join(folder, f"{run}.link")
        link(f"{run}.tree", name, field.user.pw_uid)
        yield from wrong_status(write(field, given, name), 0)
        if os.path.getsize(saved) == 0 or not os.path.islink(name):
            yield f"{run}: nothing is saved"


@attack("user")
def a_file_is_planted_for_what_root_writes(field):
    """What root writes onto a file that another user made in a folder of all is root's, and a record is refused. In a
    folder of that user's own, the file stays that user's."""
    for run, given in writing(field).items():
        for mode, owner, wanted in ((0o1777, 0, 0), (0o755, field.user.pw_uid, field.user.pw_uid)):
            folder = field.shared(f"{run}-{mode:o}", mode, owner)
            name = field.theirs(field.put(os.path.join(folder, "planted"), b"", 0o666))
            is_refused = run == "--record" and wanted == 0
            yield from (f"{run}, {mode:o}: {it}" for it in wrong_status(write(field, given, name), 3 * is_refused))
            found = os.stat(name)
            if is_refused:
                if found.st_size:
                    yield f"{run}, {mode:o}: {found.st_size} bytes are in a file of {found.st_uid}"
            elif (found.st_uid, found.st_mode & 0o777) != (wanted, 0o666 if wanted else 0o600) or not found.st_size:
                yield f"{run}, {mode:o}: uid {found.st_uid}, mode {found.st_mode:o}, {found.st_size} bytes"


@attack("user")
def a_file_is_planted_for_a_session(field):
    """So for the script, which saves by itself."""
    field.blank()
    field.shared("shared", 0o1777)
    name = field.theirs(field.put("shared/planted", b""))
    done = field.call("serve", "--program", program(), "--tree", "start.tree", "--save", name, input=HELLO)
    yield from wrong_status(done, 0)
    found = os.stat(name)
    if (found.st_uid, found.st_mode & 0o777) != (0, 0o600) or not found.st_size:
        yield f"uid {found.st_uid}, mode {found.st_mode:o}, {found.st_size} bytes"


def by_scripts(field):
    """What the scripts write, as words with SAVED for the name."""
    server = [program(), "serve", "--tree", "start.tree"]
    return [("tree", ["--chroot", "--out", "SAVED", "live"]),
            ("page", ["--tree", "start.tree", "-o", "SAVED", "opened"]),
            ("walk", ["--to", "SAVED", "--", *server]), ("walk", ["--session", "SAVED", "--", *server]),
            ("record", ["SAVED", *server]), ("record", ["--overwrite", "SAVED", *server]),
            ("record", ["--log", "SAVED", "own", *server]), ("record", ["--times", "SAVED", "own", *server]),
            ("record", ["--audit", "--tree", "start.tree", "--program", program(), "--out", "SAVED", "own", *server]),
            ("serve", ["--program", program(), "--tree", "start.tree", "--save", "SAVED"]),
            ("serve", ["--program", program(), "--tree", "start.tree", "--record", "SAVED"]),
            ("serve", ["--program", program(), "--tree", "start.tree", "--log", "SAVED"]),
            ("probe", ["--report", "SAVED", *DIFFERING, *server]), ("probe", ["--keep", "SAVED", *DIFFERING, *server])]


@attack("user")
def a_link_of_another_user_says_what_a_script_writes(field):
    """So for the scripts: none leads what root writes by them anywhere."""
    ordinary(field)
    field.put("opened", OPENED)
    folder = field.shared("shared", 0o1777)
    target, victim, names = planted(field, folder)
    for script, words in by_scripts(field):
        for name in names:
            if not os.path.islink(os.path.join(folder, "x")):
                # what is replaced under its own name is written where it was asked for
                os.remove(os.path.join(folder, "x"))
                link(victim, os.path.join(folder, "x"), field.user.pw_uid)
            field.put(victim, b"of root")
            done = field.call(script, *[name if it == "SAVED" else it for it in words], input=HELLO)
            if field.read(victim) != b"of root" or os.listdir(target) != ["victim"]:
                yield f"{script} {words[0]} {name}: root's folder has {os.listdir(target)}"
            if "way" in name and SAID not in done.stderr:
                yield f"{script} {words[0]} {name}: status {done.returncode}, {done.stderr[-200:]!r}"
            for it in os.listdir(target):
                if it != "victim":
                    subprocess.run(["rm", "-r", os.path.join(target, it)], check=True)


def take_turns(folder, victim):
    """Lets a name be a file and a link to the victim in turns."""
    os.chdir(folder)
    while True:
        with suppress(OSError):
            os.symlink(victim, ".link")
            os.rename(".link", "x")
            Path(".file").touch()
            os.chmod(".file", 0o666)
            os.rename(".file", "x")


@attack("user")
def a_link_appears_after_the_look(field):
    """In a folder with the sticky bit, where a user's name is a file and a link in turns, root's file stays."""
    runs = writing(field)
    folder, victim = field.shared("shared", 0o1777), field.put("victim", b"of root", 0o600)
    name, inode = os.path.join(folder, "x"), os.stat(victim).st_ino
    with field.beside(take_turns, folder, victim):
        wait_until(lambda: os.path.lexists(name))
        for run in ("blank", "--record"):
            seen = set()
            until = time.monotonic() + 15
            while len(seen) < 2 and time.monotonic() < until or len(seen) == 2 and time.monotonic() < until - 8:
                seen.add(write(field, runs[run], name).returncode)
                if os.lstat(name).st_uid == 0:
                    # what root saved is root's, and the user goes on where it is gone
                    os.remove(name)
                if field.read("victim") != b"of root" or os.stat(victim).st_ino != inode:
                    yield f"{run} wrote root's file"
                    return
            if seen - {0, 3}:
                yield f"{run}: status {seen}"


@attack(is_small=True)
def an_own_link_is_not_followed(field):
    """A user's own links are followed, in each part of a name, and stay; what they lead to is replaced."""
    runs = writing(field)
    os.makedirs(field.path("a/b/c"))
    os.symlink("a/b", field.path("down"))
    os.symlink(field.path("a"), field.path("absolute"))
    os.symlink("down/c/..//kept", field.path("far"))
    os.symlink("far", field.path("farther"))
    for run, given in runs.items():
        for name in ("far", "farther", "down/kept", "down/../b/kept", "absolute/b/kept", "down//kept", "./down/./kept",
                     field.path("down/kept")):
            kept = field.put("a/b/kept", b"")
            yield from (f"{run} {name}: {it}" for it in wrong_status(write(field, given, name), 0))
            if os.path.getsize(kept) == 0 or os.listdir(field.path("a/b")) not in (["kept", "c"], ["c", "kept"]):
                yield f"{run} {name}: {os.path.getsize(kept)} bytes, {os.listdir(field.path('a/b'))}"
        yield from wrong_status(write(field, given, "down/made"), 0)
        os.remove(field.path("a/b/made"))
    if not all(os.path.islink(field.path(it)) for it in ("down", "absolute", "far", "farther")):
        yield "a link is replaced"


@attack(is_small=True)
def links_without_an_end(field):
    """Forty links are followed, as the system does. More, and links that lead to each other, end with status 3."""
    field.put("file-0", b"")
    for number in range(45):
        os.symlink(f"file-{number}", field.path(f"file-{number + 1}"))
    os.symlink("loop", field.path("loop"))
    os.symlink("around/around", field.path("around"))
    for run, given in writing(field).items():
        for name, wanted in (("file-40", 0), ("file-41", 3), ("loop", 3), ("loop/x", 3), ("around", 3),
                             ("file-1/x", 3)):
            yield from (f"{run} {name}: {it}" for it in wrong_status(write(field, given, name), wanted))


@attack(is_small=True)
def a_record_into_an_open_pipe(field):
    """A pipe that the caller opened has a name and no path: a session is recorded in it, and a tree in none."""
    start = field.blank()
    reader, writer = os.pipe()
    try:
        done = field.run("serve", "--tree", start, "--record", f"/dev/fd/{writer}", input=HELLO, pass_fds=[writer])
        yield from wrong_status(done, 0)
        if not os.read(reader, 8) == b"SFTPTR01":
            yield "the record is not in the pipe"
        yield from wrong_status(field.run("blank", f"/dev/fd/{writer}", pass_fds=[writer]), 3)
    finally:
        os.close(reader)
        os.close(writer)
    for words in (["blank", "/dev/stdout"], ["serve", "--tree", start, "--save", "/dev/stdout"]):
        with open(field.path("out"), "wb") as out:
            done = subprocess.run([program(), *words], cwd=field.folder, input=HELLO, stdout=out, timeout=SECONDS,
                                  stderr=subprocess.PIPE)
        yield from wrong_status(done, 0)
        if os.path.getsize(field.path("out")) == 0:
            yield f"{words[0]}: nothing in the file that standard output is"
