"""An sshd on the loopback for a trial, with its keys and its settings in a folder of its own."""
import os
import socket
import subprocess

from trials.processes import children_of, wait_until

SSHD = "/usr/sbin/sshd"
# What stands behind the settings of a trial: sshd takes the first of two.
CONFIG = """Port {port}
ListenAddress 127.0.0.1
HostKey {folder}/host
AuthorizedKeysFile {folder}/key.pub
PidFile none
StrictModes no
UsePAM no
PermitRootLogin yes
"""


def options(key):
    """What ssh and its kin are told for a user with this key: they believe any server, and say no more than faults."""
    told = (f"IdentityFile={key}", "IdentitiesOnly=yes", "StrictHostKeyChecking=no", "UserKnownHostsFile=/dev/null",
            "LogLevel=ERROR")
    return [word for it in told for word in ("-o", it)]


def is_free(port):
    with socket.socket() as probe:
        return probe.connect_ex(("127.0.0.1", port)) != 0


def free_port():
    with socket.socket() as probe:
        probe.bind(("127.0.0.1", 0))
        return probe.getsockname()[1]


class Sshd:
    """An sshd with these settings, started behind these words; it ends with the block."""

    def __init__(self, folder, settings, before=()):
        self.folder, self.port = folder, free_port()
        for name in ("host", "key"):
            subprocess.run(["ssh-keygen", "-q", "-t", "ed25519", "-N", "", "-f", f"{folder}/{name}"], check=True)
        os.makedirs("/run/sshd", exist_ok=True)
        with open(f"{folder}/config", "w", encoding="utf-8") as file:
            file.write(settings + CONFIG.format(port=self.port, folder=folder))
        self.process = subprocess.Popen([*before, SSHD, "-D", "-f", f"{folder}/config", "-E", f"{folder}/sshd.log"])

    def __enter__(self):
        wait_until(lambda: not is_free(self.port))
        return self

    def __exit__(self, *_):
        self.process.terminate()
        self.process.wait()

    def options(self):
        """What ssh and its kin are told for a session."""
        return ["-o", f"Port={self.port}", *options(f"{self.folder}/key")]

    def of_connections(self):
        """The processes of sshd for the connections that are there."""
        return children_of(self.process.pid)
