"""The clients that speak SSH themselves. The session of each is a program of clients/running, which has an sshd of its
own that starts the server."""
import os
import subprocess

from sftpv3.system.program import TOP

RUNNING = os.path.join(TOP, "clients/running")

# A client's program, its packages, and words of the shell that succeed if these are installed.
CLIENTS = {"curl": ("by_curl", "curl", "curl --version | grep -qw sftp"),
           "psftp": ("by_psftp", "putty-tools", "command -v psftp && command -v puttygen"),
           "net-sftp": ("by_ruby", "ruby-net-sftp", "ruby -e 'require \"net/sftp\"'"),
           "fsspec": ("by_fsspec", "python3-fsspec python3-paramiko", "/usr/bin/python3 -c 'import fsspec, paramiko'")}
# Options that a client needs of the server: without times fsspec believes that no file is there.
OPTIONS = {"fsspec": ["--times"]}
# Clients that fail if replies come in another order than their requests (docs/CLIENTS.md).
IN_ORDER = {"fsspec"}


def words(client):
    """The command of the client's session, but for the folder and the server's command."""
    return [f"{RUNNING}/over_ssh", f"{RUNNING}/{CLIENTS[client][0]}"]


def is_installed(client):
    """Whether the client is installed, and sshd."""
    test = ["sh", "-c", f"test -x /usr/sbin/sshd && {CLIENTS[client][2]}"]
    return not subprocess.run(test, capture_output=True, check=False).returncode
