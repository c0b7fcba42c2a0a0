"""Attacks by a user who has SFTP alone, and is recorded into a spool: to get out of it, or past the record.

They go through a real sshd, whose user has the shell and the server that docs/OPERATORS.md names.
"""
import os
import re
import shutil
import subprocess
import time
from contextlib import contextmanager
from pathlib import Path

from attacking import ground
from attacking.ground import SECONDS, attack, words_of
from attacking.recorders import daemon
from attacking.saving import TOP
from attacking.sessions import Session
from sftpv3.system.program import program
from trials.other_servers import SFTP_SERVER
from trials.sshd import Sshd

SETTINGS = """UsePAM {pam}
DisableForwarding yes
PermitTTY no
Subsystem sftp {server}
ForceCommand exec {record} --required --log {folder}/said --spool {socket} {server}
"""

# What /etc/pam.d/sshd of Debian 12 has for the environment.
PAM = b"""auth required pam_deny.so
account required pam_permit.so
session required pam_env.so
session required pam_env.so user_readenv=1 envfile=/etc/default/locale
"""
# Runs a command that finds this folder in place of /etc/pam.d.
WITH_PAM = ["unshare", "--mount", "sh", "-c", 'mount --bind "$1" /etc/pam.d && shift && exec "$@"', "sh"]


class Account:
    """A user with SFTP alone: a home, and the words of ssh that start a session."""

    def __init__(self, name, options, spool):
        self.name, self.options, self.spool = name, options, spool
        self.home = f"/home/{name}"

    def session(self):
        return Session(["ssh", *self.options, "-s", f"{self.name}@127.0.0.1", "sftp"])

    def sftp(self, lines):
        return subprocess.run(["sftp", *self.options, "-b", "-", f"{self.name}@127.0.0.1"], input=lines, text=True,
                              capture_output=True, timeout=SECONDS)

    def recorded(self):
        """What `sftpv3 show` says of the last record of this user."""
        folder = os.path.join(self.spool, self.name)
        last = max((os.path.join(folder, it) for it in os.listdir(folder)), key=os.path.getmtime)
        return subprocess.run([program(), "show", last], capture_output=True).stdout


@contextmanager
def account(field, shell, pam=None):
    """A user with this login shell, an sshd and a daemon; sshd goes by the files of PAM in a folder, or by none."""
    name = f"sftpv3-{os.getpid()}u"
    subprocess.run(["useradd", "--create-home", "--password", "*", "--shell", shell, name], check=True)
    try:
        with daemon(field) as (socket, spool):
            field.put("said", b"", 0o666)
            settings = SETTINGS.format(pam="yes" if pam else "no", folder=field.folder, server=SFTP_SERVER,
                                       socket=socket, record=field.script("record"))
            with Sshd(field.folder, settings, [*WITH_PAM, pam] if pam else []) as sshd:
                yield Account(name, sshd.options(), spool)
    finally:
        subprocess.run(["userdel", "--remove", name], stderr=subprocess.DEVNULL)


@attack("user", "sshd", "ssh", "nm")
def the_recorder_is_opened_through_proc(field):
    """The memory and the streams of the recorder, and the server's input, cannot be opened through /proc."""
    with account(field, "/bin/sh") as user:
        for act in (ground.recorders_stream, ground.servers_own_stream, ground.recorders_memory):
            mark = os.path.join(user.home, "mark")
            shutil.chown(field.put("mark", b""), user.name)
            shutil.copy(field.path("mark"), mark)
            shutil.chown(mark, user.name)
            client = user.session()
            try:
                process = client.recorder()
                if process is None and act is not ground.servers_own_stream:
                    # its files cannot even be listed
                    process = max(int(it) for it in os.listdir("/proc") if it.isdigit() and
                                  any(word.endswith(b"/record") for word in words_of(it)))
                act(client, process, mark.encode())
            except (EOFError, OSError, StopIteration, TypeError):
                pass
            client.process.kill()
            client.process.wait()
            time.sleep(0.5)
            if not os.path.exists(mark) and b" C REMOVE " not in user.recorded():
                yield f"{act.__name__}: the file is gone, and the record does not say so"


@attack("user", "sshd", "ssh", "sftp")
def what_is_uploaded_runs_before_the_recorder(field):
    """Files of the home that a shell reads at its start do nothing, if the login shell is sh. Of bash, a line warns."""
    for shell in ("/bin/sh", "/bin/bash"):
        with account(field, shell) as user:
            mark = os.path.join(user.home, "mark")
            script = field.put("script", f"id >{mark}\n".encode())
            names = (".bashrc", ".profile", ".bash_profile", ".shrc", ".kshrc", ".zshenv", ".ssh/rc")
            lines = "mkdir .ssh\n" + "".join(f"put {script} {it}\n" for it in names)
            first = user.sftp(lines)
            if first.returncode:
                yield f"the upload failed: {first.stderr}"
            if shell == "/bin/bash" and b"reads files of the user" not in field.read("said"):
                yield "no warning of bash"
            user.sftp("pwd\n")
            if shell == "/bin/sh" and os.path.exists(mark):
                yield "a command of the user ran"
        for key in ("host", "host.pub", "key", "key.pub"):
            os.remove(field.path(key))


@attack("user", "sshd", "ssh", "sftp", "unshare")
def what_is_uploaded_sets_variables_of_the_recorder(field):
    """~/.pam_environment sets nothing for the shell and the recorder, where PAM is set as the documents have it."""
    page = Path(TOP, "docs/OPERATORS.md").read_text(encoding="utf-8")
    said = re.search(r"(?m)^sed -i '(.*)' /etc/pam.d/sshd$", page)
    os.mkdir(field.path("pam"))
    changed = field.put("pam/sshd", PAM)
    if said:
        subprocess.run(["sed", "-i", said[1], changed], check=True)
    with account(field, "/bin/sh", field.path("pam")) as user:
        variables = f"LD_DEBUG DEFAULT=files\nLD_DEBUG_OUTPUT DEFAULT={user.home}/mark\n"
        first = user.sftp(f"put {field.put('variables', variables.encode())} .pam_environment\n")
        if first.returncode:
            yield f"the upload failed: {first.stderr}"
        user.sftp("pwd\n")
        if any(it.startswith("mark") for it in os.listdir(user.home)):
            yield "variables that the user uploaded are set"
