"""The real clients with which trials have sessions: which of them are installed, and how each gets a server that speaks
over its standard streams. Those that speak SSH themselves are in ssh.py."""
import fcntl
import os
import shlex
import shutil
import socket
import subprocess
import sys
from contextlib import suppress

from sftpv3.system.program import TOP
from trials.processes import executable, wait_until

# Commands that succeed where a client is installed that is a library.
LIBRARIES = {"asyncssh": ["/usr/bin/python3", "-W", "ignore", "-c", "import asyncssh"],
             "paramiko": [sys.executable, "-c", "import paramiko"],
             "Net::SFTP::Foreign": ["perl", "-MNet::SFTP::Foreign", "-e1"]}
GO_SOURCES = "/usr/share/gocode"


def succeeds(words):
    """Whether a command is there and ends well."""
    with suppress(FileNotFoundError):
        return not subprocess.run(words, capture_output=True, check=False).returncode
    return False


def is_installed(client):
    """Whether a client is installed: a program, a library of LIBRARIES, or pkg/sftp."""
    if client == "pkg/sftp":
        return shutil.which("go") is not None and os.path.isdir(f"{GO_SOURCES}/src/github.com/pkg/sftp")
    return succeeds(LIBRARIES[client]) if client in LIBRARIES else shutil.which(client) is not None


def has(steps, *names):
    """Whether these clients are installed. The first that is not is a step that cannot be tried."""
    missing = next((it for it in names if not is_installed(it)), None)
    if missing:
        steps.skip(missing, "it is not installed")
    return missing is None


def built_of_go(source, folder):
    """Builds a program of pkg/sftp in this folder, from Debian's sources, and returns its name."""
    built = os.path.join(folder, "by_go")
    where = dict(os.environ, GO111MODULE="off", GOPATH=GO_SOURCES, GOCACHE=os.path.join(folder, "cache"))
    subprocess.run(["go", "build", "-o", built, source], env=where, check=True)
    return built


def on_socket(words):
    """Starts a server on one end of a pair of sockets. Returns it and the other end."""
    ours, theirs = socket.socketpair()
    with theirs:
        return subprocess.Popen(words, stdin=theirs, stdout=theirs), ours


class Channel(socket.socket):
    """A socket in place of a channel of paramiko, which has a name for its log."""

    def get_name(self):
        return "sftpv3"


# Runs code in a session of paramiko.
OF_PARAMIKO = os.path.join(TOP, "tests", "with-paramiko")


def python_with_paramiko():
    """A Python that has paramiko, or None."""
    return next((it for it in ("/usr/bin/python3", sys.executable) if succeeds([it, "-c", "import paramiko"])), None)


def paramiko_words(code, server):
    """The command of a session of paramiko, by this code, with the server that these words start."""
    return [python_with_paramiko(), OF_PARAMIKO, code, *server]


class NotMounted(OSError):
    """sshfs did not mount the tree of a server."""


class Mount:
    """A folder on which sshfs shows what the server has from whose stream it reads, and to whose it writes."""

    def __init__(self, folder, source, target, *options):
        self.folder = folder
        os.makedirs(folder, exist_ok=True)
        self.sshfs = subprocess.Popen(["sshfs", "-f", "-o", ",".join(["passive", *options]), ":/", folder],
                                      stdin=source, stdout=target, stderr=subprocess.PIPE, text=True)

    def __enter__(self):
        wait_until(lambda: os.path.ismount(self.folder) or self.sshfs.poll() is not None, 20)
        if not os.path.ismount(self.folder):
            self.sshfs.kill()
            raise NotMounted(f"the tree is not mounted: {self.sshfs.communicate()[1].strip()}")
        return self.folder

    def __exit__(self, *_):
        """A folder that is still in use, or a server that does not answer, is let go all the same."""
        words = ["fusermount3", "-u", self.folder]
        if not succeeds(words):
            succeeds([*words, "-z"])
        with suppress(subprocess.TimeoutExpired):
            self.sshfs.wait(20)
        self.sshfs.kill()
        self.sshfs.wait()
        self.sshfs.stderr.close()


def under_serve(words):
    """The command of `sftpv3 serve`, which these words start, under clients/serve, which saves when a signal comes."""
    return shlex.join([f"{TOP}/clients/serve", "--program", words[0], *words[2:]])


class ServerOfLftp:
    """The script by which lftp starts a server, with options, the host and the name of the subsystem behind it. At its
    `bye` lftp sends a signal to what it started, and does not wait for it: the script holds a lock while the server
    runs."""

    def __init__(self, folder, command):
        """A server that this command of the shell starts; the script is in this folder."""
        self.lock = os.path.join(folder, "lftp.lock")
        self.script = executable(os.path.join(folder, "lftp.server"),
                                 f"#!/bin/sh\nexec 9>{shlex.quote(self.lock)} && flock 9 && exec {command}\n")

    def settings(self):
        """The commands by which lftp starts it."""
        return ["set net:max-retries 1", "set net:timeout 60", "set cmd:fail-exit yes", "set xfer:clobber yes",
                "set sftp:auto-confirm yes", f"set sftp:connect-program {self.script}",
                "open -u user,pass sftp://server/"]

    def wait(self):
        with open(self.lock, "ab") as lock:
            fcntl.flock(lock, fcntl.LOCK_EX)
