"""A copy of the whole system in which systemd is the first process, and one trial its service; tests/test-units runs
there. It has mounts, processes, control groups and a network of its own, and is thrown away with all of them."""
import os
import subprocess
import sys
import tempfile

from record_trials.steps import TOP
from sftpv3.system import temporary
from sshd_trials.ground import INSIDE, PROGRAM, NotMade, keep, lay_over, run

SYSTEMD = "/lib/systemd/systemd"
SPACES = ["unshare", "--mount", "--pid", "--fork", "--kill-child", "--net", "--uts", "--ipc", "--cgroup",
          "--propagation", "private"]
DEVICES = ("null", "zero", "full", "random", "urandom", "tty")
LINKS = {"fd": "/proc/self/fd", "stdin": "fd/0", "stdout": "fd/1", "stderr": "fd/2"}
SECONDS = 900
SAID = "/said"
# Where the repository is in the copy, whose /tmp is emptied.
SOURCES = "/mnt/sources"

UNIT = """[Unit]
After=multi-user.target
SuccessAction=exit-force
FailureAction=exit-force

[Service]
Type=oneshot
WorkingDirectory=/root
Environment={inside}=trial SFTPV3={program} HOME=/root
Environment=PATH=/usr/local/sbin:/usr/local/bin:/usr/sbin:/usr/bin:/sbin:/bin
ExecStart={script}
StandardOutput=append:{said}
StandardError=append:{said}
"""


def boot(script):
    """Runs a script below systemd. Returns its status, and what it printed."""
    with tempfile.TemporaryDirectory(prefix="sftpv3-booted-", dir=temporary.folder()) as room:
        os.mkdir(f"{room}/root")
        said = f"{room}/said"
        open(said, "w", encoding="utf-8").close()
        with open(f"{room}/log", "w", encoding="utf-8") as log:
            try:
                status = subprocess.run([*SPACES, sys.executable, script], env={**os.environ, INSIDE: room}, stdout=log,
                                        stdin=subprocess.DEVNULL, stderr=log, timeout=SECONDS, check=False).returncode
            except subprocess.TimeoutExpired:
                status = 124
        with open(said, encoding="utf-8") as one, open(f"{room}/log", encoding="utf-8") as other:
            return status, one.read() or f"{other.read().strip()}\n"


def make_devices(root):
    """A folder of devices of its own, since systemd writes into it."""
    run("mount", "-t", "tmpfs", "-o", "mode=755", "none", f"{root}/dev")
    for name in DEVICES:
        open(f"{root}/dev/{name}", "w", encoding="utf-8").close()
        run("mount", "--bind", f"/dev/{name}", f"{root}/dev/{name}")
    for name, target in LINKS.items():
        os.symlink(target, f"{root}/dev/{name}")
    for name in ("pts", "shm"):
        os.mkdir(f"{root}/dev/{name}")
    run("mount", "-t", "devpts", "-o", "newinstance,ptmxmode=0666", "none", f"{root}/dev/pts")
    os.symlink("pts/ptmx", f"{root}/dev/ptmx")
    run("mount", "-t", "tmpfs", "none", f"{root}/dev/shm")


def make_groups(root):
    """The control groups: one hierarchy, or beside those of the first version one with systemd's name."""
    groups = f"{root}/sys/fs/cgroup"
    run("mount", "-t", "sysfs", "none", f"{root}/sys")
    if os.path.exists("/sys/fs/cgroup/cgroup.controllers"):
        run("mount", "-t", "cgroup2", "none", groups)
        return
    run("mount", "-t", "tmpfs", "-o", "mode=755", "none", groups)
    os.mkdir(f"{groups}/systemd")
    run("mount", "-t", "cgroup", "-o", "none,name=systemd", "none", f"{groups}/systemd")


def make_system(room):
    """The copy below the room, with the repository, and the file in which the trial says what it found."""
    root = lay_over(f"{room}/root")
    make_devices(root)
    make_groups(root)
    open(root + SAID, "w", encoding="utf-8").close()
    run("mount", "--bind", f"{room}/said", root + SAID)
    os.makedirs(root + SOURCES)
    run("mount", "--bind", TOP, root + SOURCES)
    run("mount", "-o", "remount,bind,ro", root + SOURCES)
    return root


def enter(script):
    """Makes the copy, and becomes its systemd, which runs the script as a service. Nothing else is started."""
    root = make_system(os.environ[INSIDE])
    keep(os.environ["SFTPV3"], root + PROGRAM)
    units = f"{root}/etc/systemd/system"
    for folder in os.listdir(units):
        if folder.endswith((".wants", ".requires")):
            run("rm", "-r", f"{units}/{folder}")
    with open(f"{units}/trial.service", "w", encoding="utf-8") as file:
        file.write(UNIT.format(inside=INSIDE, program=PROGRAM, said=SAID,
                               script=f"{SOURCES}/{os.path.relpath(script, TOP)}"))
    with open(f"{root}/etc/machine-id", "w", encoding="utf-8") as file:
        file.write(f"{'5' * 32}\n")
    os.chroot(root)
    os.chdir("/")
    os.execve(SYSTEMD, [SYSTEMD, "--system", "--unit=trial.service", "--show-status=no", "--log-target=console",
                        "--log-level=notice"], {"container": "sftpv3", "PATH": os.environ["PATH"]})


__all__ = ["NotMade", "boot", "enter"]
