"""Files of --save: several sessions, folders, full disks, links, permissions, other users."""
import errno
import os
import resource
import signal
import subprocess

from serve_trials.steps import IS_PLAIN, PROGRAM, SIGNALS, Server
from trials.disks import fill, small_disk
from trials.processes import limited, make_user, remove_user

USER = "sftpv3-served"


def finish(server):
    server.close_input()
    return server.status()


def one_after_the_other(steps, room):
    for it in "abc":
        server = room.saving()
        server.make(f"/{it}")
        finish(server)
    steps.check("three sessions, one after the other: one file with all", room.names() == ["/a", "/b", "/c"] and
                room.left() == ["t"], f"{room.left()}")


def two_at_once(steps, room):
    servers = [room.saving() for _ in "abc"]
    for server, it in zip(servers, "abc"):
        server.make(f"/{it}")
    statuses = [finish(it) for it in servers]
    steps.check("three sessions at once: status 0", statuses == [0, 0, 0], f"{statuses}")
    found = [room.names(it) for it in ("t", "t.2", "t.3")]
    steps.check("three sessions at once: each has its tree", found == [["/a"], ["/b"], ["/c"]], f"{found}")
    said = servers[1].errors()
    steps.check("three sessions at once: a line says where", "t.2" in said and "t " in said, said)
    steps.check("three sessions at once: none is said of the first", servers[0].errors() == "")
    steps.check("three sessions at once: nothing else is left", room.left() == ["t", "t.2", "t.3"], f"{room.left()}")


def many_that_end_at_once(steps, room):
    count = 12
    for round_number in range(3):
        servers = [room.saving() for _ in range(count)]
        for number, server in enumerate(servers):
            server.make(f"/r{round_number}-{number}")
        for number, server in enumerate(servers):
            server.process.send_signal(SIGNALS[number % 3])
        statuses = [it.status(20) for it in servers]
        found = sorted(room.names(it)[-1] for it in room.left())
        mine = sorted(f"/r{round_number}-{it}" for it in range(count))
        steps.check(f"{count} sessions that end at once: status 0", statuses == [0] * count, f"{statuses}")
        steps.check(f"{count} sessions that end at once: each tree is there, once", found == mine, f"{found}")
        for it in room.left():
            if it != "t":
                (room.folder / it).unlink()
        subprocess.run([PROGRAM, "blank", room.folder / "t"], check=True)


def another_file(steps, room):
    """A file of --save that is not that of --tree, made new or replaced."""
    first, second = room.saving(save="end"), room.saving(save="end")
    first.make("/a"), second.make("/b")
    finish(first), finish(second)
    steps.check("two sessions that make one file: each has its tree",
                room.names("end") == ["/a"] and room.names("end.2") == ["/b"], f"{room.left()}")
    steps.check("a file that is made is for its user alone", (room.folder / "end").stat().st_mode & 0o777 == 0o600)
    server = room.saving("--mode", "0644", save="open")
    finish(server)
    steps.check("--mode 0644 makes it for all", (room.folder / "open").stat().st_mode & 0o777 == 0o644)
    (room.folder / "end").chmod(0o640)
    if os.geteuid() == 0:
        os.chown(room.folder / "end", 1234, 2345)
    server = room.saving(save="end")
    server.make("/c")
    finish(server)
    found = (room.folder / "end").stat()
    steps.check("a file that is replaced keeps its permissions and owner", room.names("end") == ["/c"] and
                found.st_mode & 0o777 == 0o640 and (os.geteuid() != 0 or (found.st_uid, found.st_gid) == (1234, 2345)),
                f"{found}")


def changed_meanwhile(steps, room):
    server = room.working()
    (room.folder / "t").write_bytes((room.folder / "t").read_bytes() + b"x")
    finish(server)
    steps.check("a file that was changed in place is not replaced", room.names("t.2") == ["/a"] and
                (room.folder / "t").read_bytes().endswith(b"x"), f"{room.left()}")
    server = room.saving(tree="t.2", save="t.2")
    (room.folder / "t.2").unlink()
    finish(server)
    steps.check("a file that was removed is made again", room.names("t.2") == ["/a"], f"{room.left()}")
    server = room.saving(tree="t.2", save="t.2")
    (room.folder / "t.2").chmod(0o604)
    finish(server)
    steps.check("permissions that were changed meanwhile stay", (room.folder / "t.2").stat().st_mode & 0o777 == 0o604,
                f"{room.left()}")


def plant(link, target):
    """Makes a link of another user."""
    link.symlink_to(target)
    os.chown(link, 65534, 65534, follow_symlinks=False)


def links(steps, room):
    (room.folder / "d").mkdir()
    (room.folder / "t").rename(room.folder / "d/real")
    (room.folder / "t").symlink_to("d/real")
    server = room.working()
    finish(server)
    steps.check("a link: the file that it leads to is replaced", (room.folder / "t").is_symlink() and
                room.names("d/real") == ["/a"] and os.listdir(room.folder / "d") == ["real"])
    if os.geteuid() == 0:
        plant(room.folder / "theirs", "t")
        (room.folder / "through").symlink_to("theirs")
        plant(room.folder / "way", "d")
        for mode, names in ((0o1777, ("theirs", "through", "way/real")), (0o755, ())):
            room.folder.chmod(mode)
            for words in (it for name in names for it in (["--save", name], ["--record", name])):
                server = room.serve(*words)
                steps.check(f"{' '.join(words)}: a link of another user: status 3 before the session",
                            not server.open() and server.status() == 3 and
                            "a symbolic link of another user" in server.errors())
        server = room.serve("--save", "through")
        server.open()
        finish(server)
        steps.check("a link of another user that only root can have put there is followed", server.status() == 0)
        (room.folder / "way").unlink()
    (room.folder / "none").symlink_to("absent")
    server = room.serve("--save", "none")
    steps.check("a link to no file: status 3 before the session", not server.open() and server.status() == 3)
    steps.check("a link to no file: it is said", "cannot write" in server.errors())


def no_files(steps, room):
    os.mkfifo(room.folder / "fifo")
    for save in (".", "fifo", "/dev/null", "absent/t", "t/t"):
        server = room.serve("--save", save)
        steps.check(f"--save {save}: status 3 before the session", not server.open() and server.status() == 3)
        said = server.errors()
        steps.check(f"--save {save}: a line, and no traceback", "cannot write" in said and "Traceback" not in said,
                    said)
    steps.check("and nothing is made", room.left() == ["fifo", "t"], f"{room.left()}")


def full_disk(steps, room):
    if steps.lacks_root("a full disk"):
        return
    small = room.folder / "small"
    with small_disk(small, "1m") as is_there:
        if not is_there:
            steps.skip("a full disk", "there can be no mounts here")
            return
        try:
            on_a_full_disk(steps, room, small)
        finally:
            # a disk in use stays
            room.end_servers()


def on_a_full_disk(steps, room, small):
    before = (room.folder / "t").read_bytes()
    (small / "t").write_bytes(before)
    (small / "filling").write_bytes(bytes((1 << 20) - 8192))
    fill(small / "rest")
    server = room.serve("--save", "small/t", "--log", "log")
    steps.check("a full disk: status 3 before the session", not server.open() and server.status() == 3)
    said = (room.folder / "log").read_text() if (room.folder / "log").exists() else server.errors()
    steps.check("a full disk: the log says so", "No space left" in said, said)
    (small / "filling").unlink()
    server = room.saving(save="small/t")
    handle = server.create("/f")
    server.ask("WRITE", handle, 0, bytes(30_000))
    fill(small / "filling")
    status = finish(server)
    said = server.errors()
    steps.check("a disk that fills up meanwhile: status 3, and why", status == 3 and "No space left" in said,
                f"{status}: {said}")
    steps.check("a disk that fills up meanwhile: the file is unchanged", (small / "t").read_bytes() == before)
    steps.check("a disk that fills up meanwhile: nothing else is left",
                sorted(os.listdir(small)) == ["filling", "rest", "t"], f"{os.listdir(small)}")


def other_users(steps, room):
    """Folders that another user cannot write, and files of others in a folder of all."""
    if steps.lacks_root("folders and files of other users", "they need root"):
        return
    make_user(USER)
    try:
        os.chmod(room.folder, 0o755)
        more = {"user": USER, "group": USER, "extra_groups": []}
        server = room.serve("--save", "t", **more)
        steps.check("a folder that cannot be written: status 3 before the session",
                    not server.open() and server.status() == 3)
        steps.check("a folder that cannot be written: it is said", "Permission denied" in server.errors())
        os.chmod(room.folder, 0o1777)
        server = room.serve("--save", "t", "--log", "log", **more)
        steps.check("a file of another user in a folder of all: status 3 before the session",
                    not server.open() and server.status() == 3)
        said = (room.folder / "log").read_text() if (room.folder / "log").exists() else ""
        steps.check("a file of another user in a folder of all: the log says so", "cannot write" in said, said)
        os.chmod(room.folder, 0o777)
        server = room.working(**more)
        status = finish(server)
        steps.check("a file of another user that may be replaced: it is", status == 0 and room.names() == ["/a"] and
                    room.left() == ["log", "t"], f"{status} {room.left()}")
        mode = (room.folder / "t").stat().st_mode & 0o777
        steps.check("the new file is not the other user's: nobody else can read it", mode == 0o600, f"{mode:o}")
        (room.folder / "t").chmod(0o600)
        os.chown(room.folder / "t", 0, 0)
        server = room.serve("--save", "t", **more)
        steps.check("a tree that cannot be read: status 3, and nothing is left", not server.open() and
                    server.status() == 3 and room.left() == ["log", "t"], f"{room.left()}")
        steps.check("a tree that cannot be read: it is said", "Permission denied" in server.errors())
    finally:
        # a user with processes cannot be removed
        room.end_servers()
        remove_user(USER)


def lost_folder(steps, room):
    (room.folder / "d").mkdir()
    server = room.working(save="d/t")
    (room.folder / "d").rename(room.folder / "e")
    status = finish(server)
    said = server.errors()
    steps.check("a folder that was moved: status 3, and it is said", status == 3 and "cannot write" in said,
                f"{status}: {said}")


def held_lock(steps, room):
    """Another process that holds the file's lock does not keep a session from ending."""
    server = room.working()
    holds = ["flock", room.folder / "t", "sh", "-c", "echo held; exec sleep 1000"]
    with subprocess.Popen(holds, stdout=subprocess.PIPE) as holder:
        holder.stdout.readline()
        status = server.end_by(signal.SIGTERM)
        subprocess.run(["pkill", "-P", str(holder.pid)])
        holder.kill()
    steps.check("a lock that another process holds: the tree goes beside", status == 0 and
                room.names("t.2") == ["/a"] and room.names() == [], f"{status} {room.left()}")


# Runs the script as on a file system without hard links, which says so by this error.
WITHOUT_LINKS = """
import os, runpy, sys
def link(*_, **__):
    raise OSError({number}, os.strerror({number}))
os.link = link
sys.argv[:1] = []
runpy.run_path(sys.argv[0], run_name="__main__")
"""


def without_links(steps, room):
    """A tree gets a new name also where there are no hard links, and replaces nothing."""
    if IS_PLAIN:
        return
    for number in (errno.EPERM, errno.EOPNOTSUPP, errno.ENOSYS):
        name, said = f"new-{number}", f"{os.strerror(number)} of hard links"
        words = ["/usr/bin/python3", "-ISc", WITHOUT_LINKS.format(number=number), *room.serve_words("--save", name)]
        servers = [Server(words, "sockets", room.folder) for _ in "ab"]
        room.servers += servers
        for server, it in zip(servers, "ab"):
            steps.check(f"{said}: a session begins", server.open() and server.make(f"/{it}"))
        statuses = [finish(it) for it in servers]
        found = [room.names(it) for it in (name, f"{name}.2")]
        is_tidy = not [it for it in room.left() if "serve-" in it]
        steps.check(f"{said}: both trees are saved, and nothing else is left", statuses == [0, 0] and is_tidy and
                    found == [["/a"], ["/b"]], f"{statuses} {found} {room.left()}")


def malformed(steps, room):
    (room.folder / "bad").write_text("no tree")
    server = room.serve("--save", "t", tree="bad")
    steps.check("a malformed tree: status 2, and nothing is left", not server.open() and server.status() == 2 and
                room.left() == ["bad", "t"], f"{room.left()}")
    for name, words, status in (("--record that is --save", ["--save", "t", "--record", "t"], 2),
                                ("--record in no folder", ["--save", "t", "--record", "absent/r"], 3)):
        server = room.serve(*words)
        steps.check(f"{name}: status {status} before the session", not server.open() and server.status() == status)
        steps.check(f"{name}: nothing is left", room.left() == ["bad", "t"] and room.names() == [], f"{room.left()}")


def few_descriptors(steps, room):
    """Where the system does not let a session begin, nothing is left beside the file of --save."""
    for count in range(5, 16):
        server = room.serve("--save", "saved", "--log", "log", kind="pipes",
                            preexec_fn=limited(resource.RLIMIT_NOFILE, count))
        server.close_input()
        status, said = server.status(), server.errors()
        begun = ["saved"] if status in (0, 1) else []
        (room.folder / "log").unlink(missing_ok=True)
        steps.check(f"{count} descriptors: a session, or status 3, and no file beside", status in (0, 1, 3) and
                    room.left() == [*begun, "t"] and "Traceback" not in said, f"{status}: {said} {room.left()}")
        (room.folder / "saved").unlink(missing_ok=True)
        room.end_servers()


TRIALS = (one_after_the_other, two_at_once, many_that_end_at_once, another_file, changed_meanwhile, links, no_files,
          full_disk, other_users, lost_folder, held_lock, without_links, malformed, few_descriptors)
