"""The words for people in replies: the texts of refusals, and long names beside what `ls -l` shows of the same tree."""
import errno
import os
import subprocess

from serve_trials import steps as trials
from serve_trials.steps import PROGRAM
from sftpv3 import codec
from trials.clients import Mount, ServerOfLftp, has
from trials.processes import run

LINES = ['D "/" 0 0 0755', 'D "/d" 1000 1001 0700', 'F "/d/f" 1 2 0644 "hello"', 'F "/empty" 0 0 0000 ""',
         'L "/link" "d/f"', 'D "/open" 12345678 4294967294 01777', 'F "/set" 0 0 06755 "s"',
         'F "/sticky" 0 0 01640 "t"']

# What is asked on the tree of LINES, and what the system has for the same.
REFUSED = [
    ("STAT", [b"/no"], errno.ENOENT), ("STAT", [b"/d/f/x"], errno.ENOTDIR), ("MKDIR", [b"/d", {}], errno.EEXIST),
    ("OPEN", [b"/d", codec.READ, {}], errno.EISDIR), ("REMOVE", [b"/d"], errno.EISDIR),
    ("RMDIR", [b"/d"], errno.ENOTEMPTY), ("RENAME", [b"/d", b"/link"], errno.EEXIST), ("RMDIR", [b"/no"], errno.ENOENT),
]


def make(room, lines=None, name="t"):
    """Makes the tree t of these lines."""
    lines = LINES if lines is None else lines
    head = f'home "/" uid 0 gid 0 entries {len(lines) - 1}'
    subprocess.run([PROGRAM, "make", room.folder / name], input="\n".join([head, *lines]) + "\n", text=True, check=True)


def command(room, *words):
    """The command of a server that saves nothing, since lftp does not wait for its end."""
    return " ".join(trials.command("--tree", f"{room.folder}/t", *words))


def opened(room, *words, tree="t"):
    server = room.serve(*words, tree=tree)
    if not server.open():
        raise AssertionError(f"no session: {server.status()}")
    return server


def said(server, name, *fields):
    """The code, the message and the language of a STATUS, or nothing of another reply."""
    packet = codec.read(codec.SERVER, server.ask(name, *fields))
    return tuple(packet.fields) if packet.name == "STATUS" else None


def with_texts(steps, room):
    make(room)
    server = opened(room)
    for name, fields, number in REFUSED:
        found = said(server, name, *fields)
        steps.check(f"{name} of {fields[0].decode()}: {os.strerror(number)}", found is not None and
                    found[1:] == (os.strerror(number).encode(), b"en"), found)
    handle = server.handle("OPENDIR", b"/d")
    found = said(server, "READ", handle, 0, 10)
    steps.check("READ of a directory's handle: the text says so", found and b"handle of a directory" in found[1], found)
    steps.check("CLOSE: OK has no text", said(server, "CLOSE", handle) == (0, b"", b""))
    server = opened(room, "--no-texts")
    steps.check("--no-texts: a refusal has no text", said(server, "STAT", b"/no") == (2, b"", b""))
    server = opened(room, "--texts")
    steps.check("--texts given to the script, too: it has", said(server, "STAT", b"/no")[1:] ==
                (os.strerror(errno.ENOENT).encode(), b"en"))


def is_limit(found, *words):
    return found is not None and found[0] == codec.FAILURE and all(it in found[1].decode() for it in words)


def at_limits(steps, room):
    """Each limit of README.md, at the usual one and, where it can be raised, at the highest."""
    make(room, ['D "/" 0 0 0755', *(f'F "/{number:06}" 0 0 0644 ""' for number in range(65_536))])
    server = opened(room)
    for name, fields in (("MKDIR", [b"/d", {}]), ("OPEN", [b"/f", trials.WRITTEN, {}]), ("SYMLINK", [b"f", b"/l"]),
                         ("HARDLINK", [b"/000000", b"/h"])):
        found = said(server, name, *fields)
        steps.check(f"{name} in a tree of 65,536 entries: the text says so, and how to raise it",
                    is_limit(found, "65536 entries", "sftpv3 raise", "1048576"), found)
    make(room, ['D "/" 0 0 0755', 'F "/f" 0 0 0644 ""'])
    subprocess.run([PROGRAM, "raise", room.folder / "t", room.folder / "high"], check=True)
    for tree, most, way in (("t", 256, "allows 1024"), ("high", 1024, "--to most TREE FILE' allows 65536")):
        server = opened(room, tree=tree)
        given = [server.handle("OPEN", b"/f", codec.READ, {}) for _ in range(most)]
        for name, fields in (("OPEN", [b"/f", codec.READ, {}]), ("OPENDIR", [b"/"])):
            found = said(server, name, *fields)
            steps.check(f"{name} with {most} open handles: the text says so", None not in given and
                        is_limit(found, f"{most} open handles", way), found)
    for tree, most, way in (("t", 2**24, "allows 67108864"),
                            ("high", 2**26, "--to most TREE FILE' allows 1099511627776")):
        server = opened(room, tree=tree)
        handle = server.create("/g")
        for name, fields in (("WRITE", [handle, most, b"x"]), ("SETSTAT", [b"/g", {"size": most + 1}]),
                             ("FSETSTAT", [handle, {"size": most + 1}])):
            found = said(server, name, *fields)
            steps.check(f"{name} beyond {most} bytes: the text says so", is_limit(found, f"{most} bytes", way), found)
    place = b""
    for _ in range(64):
        place += b"/d"
        server.ask("MKDIR", place, {})
    for name, fields in (("MKDIR", [place + b"/d", {}]), ("RENAME", [b"/f", place + b"/f"])):
        found = said(server, name, *fields)
        steps.check(f"{name} to a place of 65 names: the text says so", is_limit(found, "64 names", "every tree"),
                    found)


def rows(text):
    """What lines of `ls -l` have without the count of names and the date: mode, owner, group, size, name."""
    found = []
    for line in text.splitlines():
        words = line.split()
        if len(words) > 8 and len(words[0]) == 10:
            # a link has where it leads behind its name, which only the system's ls shows; directories have sizes of
            # their own on each file system
            size = 0 if line.startswith("d") else int(words[4])
            found.append((words[0], words[2], words[3], size, words[8].rpartition("/")[2]))
    return sorted(found)


def unpacked(room):
    """The tree as a folder, and what `ls -ln` shows of it and of one folder below."""
    folder = room.folder / "unpacked"
    folder.mkdir()
    data = subprocess.run([PROGRAM, "export", room.folder / "t"], stdout=subprocess.PIPE, check=True).stdout
    subprocess.run(["tar", "-C", folder, "-x", "-p", "--numeric-owner"], input=data, check=True)
    return {place: rows(run(["ls", "-lnA", f"{folder}{place}"], env=dict(os.environ, LC_ALL="C")).stdout)
            for place in ("/", "/d")}


def with_long_names(steps, room):
    """Long names beside the system's `ls -ln`, of a folder that tar made of the same tree."""
    make(room)
    if steps.lacks_root("long names beside ls -ln", "tar gives files to other users as root alone"):
        return
    expected = unpacked(room)
    sftp = ["sftp", "-q", "-b", "-", "-D"]
    for place, lines in expected.items():
        ran = run([*sftp, command(room), "server"], cwd=room.folder, input=f"cd {place}\nls -l\n")
        steps.check(f"sftp, ls -l in {place}: {len(lines)} lines, as ls -ln has them", rows(ran.stdout) == lines,
                    f"{rows(ran.stdout)}, not {lines}")
    ran = run([*sftp, command(room, "--no-long-names"), "server"], cwd=room.folder, input="cd /d\nls -l\n")
    steps.check("sftp, --no-long-names: ls -l has the bare name", ran.stdout.splitlines()[-1:] == ["f"], ran.stdout)
    with_lftp(steps, room, expected)


def with_lftp(steps, room, expected):
    if not has(steps, "lftp"):
        return
    server = ServerOfLftp(room.folder, command(room))
    ran = run(["lftp", "-c", "; ".join([*server.settings(), "ls /", "bye"])], cwd=room.folder)
    steps.check(f"lftp, ls: {len(expected['/'])} lines, as ls -ln has them", rows(ran.stdout) == expected["/"],
                f"{rows(ran.stdout)}, not {expected['/']}")
    server.wait()
    ran = run(["lftp", "-c", "; ".join([*server.settings(), "mkdir /d", "bye"])], cwd=room.folder)
    server.wait()
    steps.check("lftp, mkdir of what is there: it shows the text", os.strerror(errno.EEXIST) in ran.stdout, ran.stdout)


def with_sshfs(steps, room):
    """What a mount shows is in the attributes: words for people change none of it."""
    if not has(steps, "sshfs") or not os.path.exists("/dev/fuse") or os.geteuid() != 0:
        return
    make(room)
    expected = unpacked(room)
    for words in ([], ["--no-texts", "--no-long-names"]):
        server = room.serve(*words)
        with Mount(room.folder / "mount", server.input, server.input) as mount:
            shown = {place: rows(run(["ls", "-lnA", f"{mount}{place}"], env=dict(os.environ, LC_ALL="C")).stdout)
                     for place in expected}
            said_by_mkdir = run(["mkdir", mount / "d"]).stdout
        told = " ".join(words) or "with words"
        steps.check(f"sshfs, {told}: ls -ln as in the folder", shown == expected, f"{shown}, not {expected}")
        steps.check(f"sshfs, {told}: mkdir says that it is there", os.strerror(errno.EEXIST) in said_by_mkdir,
                    said_by_mkdir)


TRIALS = (with_texts, at_limits, with_long_names, with_sshfs)
