"""A copy of the whole system for one trial: all that is written is above the system's files, in memory, and is thrown
away. It has mounts, processes and a network of its own, so sshd has port 22 of its own loopback, and the lines of a
page can be run as they are."""
import os
import signal
import subprocess
import sys
import tempfile

from sftpv3.system import temporary
from trials import processes

INSIDE = "SFTPV3_GROUND"
SPACES = ["unshare", "--mount", "--net", "--pid", "--fork", "--kill-child", "--propagation", "private"]


# Where the program is in the copy that SFTPV3 names outside.
PROGRAM = "/root/program"


class NotMade(Exception):
    """Why there can be no copy here."""


def run(*words):
    done = processes.run(words, timeout=None)
    if done.returncode:
        raise NotMade(f"{words[0]} {words[1]}: {done.stdout.strip()}")


def is_inside():
    return INSIDE in os.environ


def again(words):
    """Runs these words on a new ground. Returns their status."""
    signal.signal(signal.SIGTERM, lambda *_: sys.exit(143))
    with tempfile.TemporaryDirectory(prefix="sftpv3-ground-", dir=temporary.folder()) as room:
        with subprocess.Popen([*SPACES, sys.executable, *words], env={**os.environ, INSIDE: room},
                              stdin=subprocess.DEVNULL) as trial:
            try:
                return trial.wait()
            except BaseException:
                # and with it all that it started
                trial.kill()
                raise


def lay_over(folder):
    """Makes a copy of the system below a folder, with all that is written above its files in memory, with processes and
    a loopback of its own. Returns its root."""
    run("mount", "-t", "tmpfs", "-o", "mode=755", "none", folder)
    for name in ("above", "work", "root"):
        os.mkdir(f"{folder}/{name}")
    root = f"{folder}/root"
    run("mount", "-t", "overlay", "none", "-o", f"lowerdir=/,upperdir={folder}/above,workdir={folder}/work", root)
    run("mount", "-t", "proc", "none", f"{root}/proc")
    run("mount", "-t", "tmpfs", "-o", "mode=755", "none", f"{root}/run")
    run("ip", "link", "set", "lo", "up")
    return root


def enter():
    """Makes the copy below the room, and goes into it."""
    root = lay_over(os.environ[INSIDE])
    run("mount", "--rbind", "/dev", f"{root}/dev")
    keep(os.environ["SFTPV3"], root + PROGRAM)
    os.chroot(root)
    os.chdir("/")
    go_on_in_child()


def go_on_in_child():
    """The first process of a space of processes has to take in those whose parents ended; the trial is its child."""
    trial = os.fork()
    if trial == 0:
        return
    while True:
        ended, status = os.wait()
        if ended == trial:
            os._exit(os.waitstatus_to_exitcode(status) & 0xff)


def keep(path, place):
    """Takes a file with it that may be where the copy has another folder."""
    with open(path, "rb") as source, open(place, "wb") as target:
        target.write(source.read())
    os.chmod(place, 0o755)
