"""Sessions of real clients with OpenSSH's server, on the probe's own tree, as far as both are installed; and the kept
sessions of other servers in examples/servers, by the verdicts of `--profile posix` with their tree and without."""
import os
import random
import shutil
import subprocess
import tempfile
import time
from dataclasses import dataclass

from infer_trials import judging
from sftpv3.codec import trees
from sftpv3.probe import starting
from sftpv3.system import program
from trials import other_servers
from trials.clients import Mount, NotMounted, ServerOfLftp, on_socket, paramiko_words, python_with_paramiko
from trials.processes import ended

POSIX = ["--profile", "posix"]
# Seconds for a client.
PATIENCE = 60

SFTP = (
    "put {large} /large-one\nget /large-one {back}\nls -la /\nls /d\nmkdir /made\nput {small} /made/small\n"
    "rename /made/small /made/other\nsymlink /made/other /made/link\nls -l /made\nchmod 600 /made/other\n"
    "get /made/link {back}\nrm /made/link\nrm /made/other\nrmdir /made\nrm /large-one\n",
    "cd /d\nls -l\nget e/f {back}\nput {small} e/f\nget e/f {back}\nrm g\nls -l\n",
    "get /f {back}\nget /g {back}\nput {small} /g\nget /f {back}\n-rm /absent\n-mkdir /d\nls -l /empty\n",
    "ln /f /third\nget /third {back}\nrm /f\nls -l /\nget /third {back}\n",
    "get -r /d {back}-folder\nls -l /to-d\nls -la /to-e\n-get /nowhere {back}\n-get /ring {back}\n",
    "ls /many\nrm /many/000\nls /many\nput {small} /many/000\nls -l /many\n",
    "put {small} /d/g\nreput {large} /d/g\nget /large {back}\nchmod 755 /large\nchown 7 /large\nls -l /large\ndf /\n",
)

LFTP = (
    "mkdir /m; put {large} -o /m/large; ls /m; get /m/large -o {back}; mv /m/large /m/moved; rm /m/moved; rmdir /m",
    "cls -l /; cat /f; cat /g; cd /d; ls; put {small} -o /d/g; cat /d/g; chmod 600 /d/g; ls",
    "mirror /d {back}-mirror; ls /to-d; rm /f; ls /",
)

PARAMIKO = (
    "c.mkdir('/p'); f = c.open('/p/f', 'w+'); f.write(b'x' * 50000); f.seek(3); f.write(b'yy'); f.seek(0); f.read(); "
    "f.close(); c.stat('/p/f'); c.posix_rename('/p/f', '/f'); c.listdir('/'); c.truncate('/f', 7); c.stat('/f')",
    "c.listdir_attr('/d'); c.open('/large').read(); c.readlink('/to-e'); c.stat('/to-e'); c.lstat('/to-e'); "
    "c.symlink('f', '/new-link'); c.open('/new-link').read(); c.chmod('/f', 0o600); c.utime('/f', (1, 2)); "
    "c.stat('/g')",
    "f = c.open('/log', 'a'); f.write(b'one'); f.write(b'two'); f.close(); c.open('/log').read(); c.remove('/log'); "
    "c.rename('/d/g', '/d/h'); c.listdir('/d'); c.rmdir('/empty'); c.normalize('.'); c.listdir('/')",
)
# What is run in front of each of these, and behind it.
BEGUN, ENDED = "c = client\n", "\nc.close()\nserver.wait(20)\n"

SSHFS = (
    "mkdir m && cp f m/copy && cat m/copy && mv m/copy m/moved && ls -l m && rm m/moved && rmdir m",
    "cat f g >new && ls -l d/e && truncate -s 5 new && cat new && ln -s new to-new && cat to-new && chmod 600 new",
    "ls -l d/e many && cat d/e/f && echo more >>d/e/f && cat d/e/f && ln f again && rm f && cat again",
)


class Room:
    """A folder for a session: its tree file, its transcript, the client's files."""

    def __init__(self, folder):
        self.folder = tempfile.mkdtemp(dir=folder)
        self.tree, self.transcript, self.back, self.large, self.small = (
            os.path.join(self.folder, name) for name in ("start.tree", "session.transcript", "back", "large", "small"))
        trees.write(starting.usual(), self.tree)
        for name, size in ((self.large, 600_000), (self.small, 7)):
            with open(name, "wb") as file:
                file.write(random.Random(size).randbytes(size))

    def server(self):
        """The command of the server, recorded."""
        clients = os.path.join(program.TOP, "clients")
        return [os.path.join(clients, "record"), self.transcript, os.path.join(clients, "servers", "openssh"),
                self.tree]

    def filled(self, text):
        return text.format(large=self.large, small=self.small, back=self.back)


def run(words, room, **options):
    done = subprocess.run(words, cwd=room.folder, stdout=subprocess.PIPE, stderr=subprocess.STDOUT, timeout=PATIENCE,
                          check=False, **options)
    if done.returncode:
        raise judging.Wrong(f"{words[0]} ended with status {done.returncode}: {done.stdout!r}")


def with_sftp(room, text):
    run(["sftp", "-q", "-b", "-", "-D", " ".join(room.server())], room, input=room.filled(text).encode())


def with_lftp(room, text):
    server = ServerOfLftp(room.folder, " ".join(room.server()))
    run(["lftp", "-c", "; ".join([*server.settings(), room.filled(text), "bye"])], room)
    server.wait()


def with_paramiko(room, text):
    run(paramiko_words(BEGUN + text + ENDED, room.server()), room)


def with_sshfs(room, text):
    server, ours = on_socket(room.server())
    with ours:
        mount = Mount(os.path.join(room.folder, "mount"), ours, ours)
    with mount as folder:
        run(["sh", "-e", "-c", f"cd {folder}; {text}"], room)
        # what the system still has to close goes before the end of the session
        os.sync()
        time.sleep(0.5)
    ended(server, 10)


CLIENTS = (("sftp", with_sftp, SFTP, lambda: shutil.which("sftp")),
           ("lftp", with_lftp, LFTP, lambda: shutil.which("lftp")),
           ("paramiko", with_paramiko, PARAMIKO, python_with_paramiko),
           ("sshfs", with_sshfs, SSHFS, lambda: shutil.which("sshfs") and os.path.exists("/dev/fuse")))


def attempt(folder, client, text):
    """Whether a session is accepted with its tree and without it, and what was said."""
    room = Room(folder)
    try:
        client(room, text)
    except NotMounted as error:
        raise judging.Wrong(str(error)) from None
    is_right, said = judging.accepted_with(program.program(), room.tree, room.transcript, POSIX)
    if not is_right:
        return False, False, said
    return True, *judging.accepted_without(program.program(), room.transcript, POSIX)


@dataclass
class Judged:
    """A session: its name, its verdict with the tree and without it, and what was said."""

    name: str
    with_tree: str
    without: str
    said: str


def attempt_kept(folder, session):
    options, transcript = session.options(), session.write(program.program(), folder)
    inferred = os.path.join(folder, session.name.replace("/", "-"))
    said = [judging.accepted_with(program.program(), other_servers.TREE, transcript, options),
            judging.accepted_without(program.program(), transcript, options, inferred)]
    words = ["accepted" if is_accepted else "refused" for is_accepted, _ in said]
    return Judged(session.name, *words, said[1][1])
