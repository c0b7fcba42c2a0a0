"""What clients do in a session with the sshd of the loopback. Each act returns whether its work is done, and what was
printed. Editors save below a mount of sshfs: each replaces the first line of a file in its own way."""
import os
import pty
import select
import time
from pathlib import Path

from trials import sshd
from trials.processes import run

LARGE = bytes(range(256)) * 4000
OPTIONS = sshd.options("/root/key")


class Where:
    """The user of a session, the folder as clients see it, and as it is on the server; a room for the client."""

    def __init__(self, user, seen, real, room):
        self.user, self.seen, self.real, self.room = user, seen, Path(real), room
        self.large = room / "large"
        self.large.write_bytes(LARGE)

    def batch(self, *commands):
        return run(["sftp", "-q", *OPTIONS, "-b", "-", f"{self.user}@127.0.0.1"],
                   input="\n".join([f"cd {self.seen}", *commands]), cwd=self.room)

    def mounted(self, act):
        """A session of sshfs, in which act does its work below the mount."""
        mount = self.room / "mount"
        mount.mkdir(exist_ok=True)
        ran = run(["sshfs", *OPTIONS, f"{self.user}@127.0.0.1:{self.seen}", mount])
        if ran.returncode:
            return False, ran.stdout
        try:
            return act(mount)
        finally:
            # what the system still has to write or to close goes before the end of the session
            os.sync()
            time.sleep(0.5)
            run(["fusermount3", "-u", mount])

    def shell(self, script):
        """A session of sshfs, in which a shell runs below the mount."""
        def act(mount):
            ran = run(["sh", "-e", "-c", script], cwd=mount, env={**os.environ, "ROOM": str(self.room)})
            return ran.returncode == 0, ran.stdout
        return self.mounted(act)


def with_sftp(where):
    ran = where.batch("mkdir d", f"put {where.large} d/large", "get d/large back", "rename d/large d/moved",
                      "chmod 600 d/moved", "ls -la", "-rm absent", "symlink d/moved link")
    return ran.returncode == 0 and (where.room / "back").read_bytes() == LARGE, ran.stdout


def with_scp(where):
    ran = run(["scp", "-q", *OPTIONS, where.large, f"{where.user}@127.0.0.1:{where.seen}/copied"])
    return ran.returncode == 0 and (where.real / "copied").read_bytes() == LARGE, ran.stdout


def with_sshfs(where):
    def act(mount):
        (mount / "made").mkdir()
        (mount / "made/file").write_bytes(LARGE)
        (mount / "made/file").rename(mount / "made/other")
        return (mount / "made/other").read_bytes() == LARGE, ""
    return where.mounted(act)


def with_lftp(where):
    program = " ".join(["ssh", "-a", "-x", *OPTIONS])
    script = (f"set sftp:connect-program '{program}'; set cmd:fail-exit yes; set net:max-retries 1; "
              f"open -u {where.user},x sftp://127.0.0.1; cd {where.seen}; put {where.large} -o by-lftp; ls; bye")
    ran = run(["lftp", "-c", script])
    return ran.returncode == 0 and (where.real / "by-lftp").read_bytes() == LARGE, ran.stdout


CLIENTS = (("sftp", with_sftp), ("scp", with_scp), ("sshfs", with_sshfs), ("lftp", with_lftp))


# How long an editor may take to show what a key did, and to end, in seconds.
QUIET, PATIENCE = 0.4, 20

SYNCED = """
import os
with open("text.new", "w") as file:
    file.write("1\\ntwo\\n")
    file.flush()
    os.fsync(file.fileno())
os.rename("text.new", "text")
folder = os.open(".", os.O_RDONLY)
os.fsync(folder)
"""


def typed(words, keys, folder):
    """Runs a program on a terminal, in a folder, and types keys whenever it has been quiet. Returns its status."""
    child, ours = pty.fork()
    if child == 0:
        os.chdir(folder)
        os.execvpe(words[0], words, {**os.environ, "TERM": "xterm"})
    left, end = list(keys), time.monotonic() + PATIENCE
    while time.monotonic() < end:
        if select.select([ours], [], [], QUIET)[0]:
            try:
                os.read(ours, 65536)
            except OSError:
                # nobody has the terminal any more
                return os.waitstatus_to_exitcode(os.waitpid(child, 0)[1])
        elif left:
            os.write(ours, left.pop(0))
    os.kill(child, 9)
    os.waitpid(child, 0)
    return 137


def by_words(name, command):
    """An editor that takes its commands without a terminal."""
    def act(where):
        return where.shell(f"printf 'one\\ntwo\\n' >{name} && {command} && printf '1\\ntwo\\n' | cmp - {name}")
    return act


def by_nano(where):
    def act(mount):
        (mount / "by-nano").write_text("one\ntwo\n")
        # ^K cuts the first line; ^O and Enter save, ^X ends
        status = typed(["nano", "--ignorercfiles", "by-nano"], [b"\x0b", b"1\r", b"\x0f", b"\r", b"\x18"], mount)
        return status == 0 and (mount / "by-nano").read_text() == "1\ntwo\n", f"status {status}"
    return where.mounted(act)


def by_sync(where):
    def act(mount):
        program = ["/usr/bin/python3", "-I", "-c", SYNCED]
        status = typed(program, [], mount)
        return status == 0 and (mount / "text").read_text() == "1\ntwo\n", f"status {status}"
    return where.mounted(act)


VIM = "vim -N -u NONE -i NONE -es"

# A name, the program that it needs, and the act.
EDITORS = (("vim saves", "vim", by_words("by-vim", f"{VIM} -c '%s/one/1/' -c wq by-vim")),
           ("vim saves by a rename, with a backup and fsync", "vim", by_words(
               "by-vim-too", f"{VIM} -c 'set fsync swapfile backup backupcopy=no' -c '%s/one/1/' -c wq by-vim-too")),
           ("nano saves", "nano", by_nano),
           ("ed saves", "ed", by_words("by-ed", "printf ',s/one/1/\\nw\\nq\\n' | ed -s by-ed")),
           ("sed -i", "sed", by_words("by-sed", "sed -i s/one/1/ by-sed")),
           ("a new file, fsync and a rename", "python3", by_sync))
