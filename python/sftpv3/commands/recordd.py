"""Keeps the records of `clients/record --spool SOCKET` in a folder that the users who are recorded cannot touch.

    clients/recordd [OPTIONS] FOLDER

`clients/recordd --help` has the options.
"""
import sys

from sftpv3.system.standard import begin, hide

begin()
hide()
from sftpv3.recorder.options import recordd


def run():
    sys.exit(recordd())
