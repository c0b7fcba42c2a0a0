"""Serves a session of `sftpv3 serve` that a signal ends as if the client had left.

    clients/serve [OPTIONS] --tree FILE [--save FILE] [OPTION OF SERVE ...]

starts `sftpv3 serve` with the same options, and keeps SIGTERM, SIGHUP and SIGINT from it. Such a signal ends the
server's input: it answers what has come, saves its tree and ends. `clients/serve --help` has the options.
"""
import os
import sys

from sftpv3.system.standard import begin

begin()
from sftpv3.serve.sessions import serve


def run():
    # there is nothing left to be cleaned up, and the client waits for the end
    os._exit(serve(sys.argv[1:]))
