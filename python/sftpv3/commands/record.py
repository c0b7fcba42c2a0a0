"""Records a session of any SFTP server that speaks over standard input and output.

    clients/record [OPTIONS] TRANSCRIPT COMMAND [ARGUMENT ...]

runs the command as the server, passes every packet on, both ways, and writes each into the transcript as it passes: a
request before the server gets it, a reply before the client gets it. `clients/record --help` has the options. So in
sshd_config, or behind `sftp -D`, a server is recorded by putting this in front of its command.
"""
import os

from sftpv3.system.standard import begin, hide

begin()
hide()
from sftpv3.recorder.options import record


def run():
    # there is nothing left to be cleaned up, and the client waits for the end
    os._exit(record())
