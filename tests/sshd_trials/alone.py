"""An account with SFTP alone, by the lines of docs/OPERATORS.md: through sshd its user reaches no socket of the machine
and makes no file that other programs look for in a home, and no systemd of the user's runs what a client writes."""
import select
import socket
import subprocess
from pathlib import Path

from sshd_trials import page
from sshd_trials.clients import OPTIONS, Where, run
from sshd_trials.days import CONFIG, reload
from trials.processes import SOON, wait_until
from trials.sessions import Client

# The type of the reply that has a handle, and what OPEN is asked for: to read and to write.
HANDLE, BOTH = 102, 3

MADE = """
useradd --create-home --password '*' --shell /bin/sh w
mkdir -m 700 /home/w/.ssh
cp /root/key.pub /home/w/.ssh/authorized_keys
chown -R w:w /home/w
"""


def is_reached(user, room):
    """Whether a socket of the machine is reached through one that ssh forwards to it."""
    far, near = Path("/home") / user / "far", room / "near"
    with socket.socket(socket.AF_UNIX) as listener, socket.socket(socket.AF_UNIX) as client:
        listener.bind(str(far))
        far.chmod(0o666)
        listener.listen()
        words = ["ssh", "-N", *OPTIONS, "-L", f"{near}:{far}", f"{user}@127.0.0.1"]
        with subprocess.Popen(words, stdin=subprocess.DEVNULL) as ssh:
            wait_until(lambda: near.exists() or ssh.poll() is not None)
            client.connect(str(near))
            # where sshd refuses, ssh closes what came to the near one
            found = listener in select.select([listener, client], [], [], SOON)[0]
            ssh.terminate()
    for it in (far, near):
        it.unlink()
    return found


def opened(user):
    """The processes of a user in a session, and those of them whose memory the session's client opens to write."""
    words = ["ssh", *OPTIONS, f"{user}@127.0.0.1", "-s", "sftp"]
    with subprocess.Popen(words, stdin=subprocess.PIPE, stdout=subprocess.PIPE, bufsize=0) as ssh:
        client = Client(ssh.stdin.fileno(), ssh.stdout.fileno())
        client.greet()
        # the recorder is Python by then
        there = run(["pgrep", "-u", user, "-a"]).stdout.splitlines()
        found = [it for it in there
                 if client.ask("OPEN", f"/proc/{it.split()[0]}/mem".encode(), BOTH, {})[4] == HANDLE]
        ssh.kill()
    return there, found


def try_account(steps, room):
    before = CONFIG.read_text()
    run(["sh", "-e", "-c", MADE])
    was_reached = is_reached("w", room)
    status, said = page.run(page.for_user(page.lines_of("alone"), "w", "/home/w"))
    steps.check("the page's lines for SFTP alone", status == 0, said)
    reload()
    steps.check("SFTP alone: no socket is reached by forwarding, as it was before", was_reached and
                not is_reached("w", room))
    there, found = opened("w")
    steps.check("SFTP alone: a client opens the memory of no process to write", len(there) > 2 and not found,
                f"{found} of {there}")
    where = Where("w", "/home/w", "/home/w", room)
    ran = where.batch("-mkdir .config", "-rename .ssh mine", "-rm .profile", f"put {where.large} files/large")
    steps.check("SFTP alone: a session does its work, in its folder and not in the home", ran.returncode == 0 and
                ran.stdout.count("ermission denied") == 3 and (where.real / "files/large").exists(), ran.stdout)
    CONFIG.write_text(before)
    reload()


# What systemd needs for sessions by sshd, and that of a user for each of them.
STARTED = """
ssh-keygen -q -t ed25519 -N '' -f /root/key
rm -f /etc/ssh/sshd_not_to_be_run
systemctl start dbus.socket systemd-logind systemd-user-sessions ssh
"""
# What the systemd of w does at its end, by a file that w can write.
AT_END = "[Service]\nExecStart=\nExecStart=/usr/bin/touch /home/w/by-systemd\n"


def is_run(room):
    """Whether the systemd of w runs what a client of w writes. It ends some seconds after the session; here at once."""
    made = Path("/home/w/by-systemd")
    (room / "at-end.conf").write_text(AT_END)
    number = run(["id", "-u", "w"]).stdout.strip()
    units = f"/run/user/{number}/systemd/user"
    ran = Where("w", "/home/w", "/home/w", room).batch(f"-mkdir {units}", f"-mkdir {units}/systemd-exit.service.d",
                                                       f"-put at-end.conf {units}/systemd-exit.service.d/")
    run(["systemctl", "stop", f"user@{number}.service"])
    found = made.exists()
    made.unlink(missing_ok=True)
    return found, ran


def try_systemd(steps, room):
    """By the page's line an account has no systemd. It needs the real one."""
    room.mkdir()
    ran = run(["sh", "-e", "-c", STARTED + MADE])
    (was_run, _), (status, said) = is_run(room), page.run(page.for_user(page.lines_of("mask"), "w", "/home/w"))
    is_still, last = is_run(room)
    steps.check("SFTP alone: no systemd of the user runs what a client writes, as it did before", was_run and
                status == 0 and last.returncode == 0 and not is_still, f"{was_run} {is_still} {ran} {said} {last}")
