"""asyncssh's SFTP server on standard input and output, without SSH, in the folder where it is started.

    /usr/bin/python3 tests/order_trials/asyncssh_server.py

clients/servers/asyncssh starts it on files of its own for one session; here several are in one folder.
"""
import asyncio
import logging
import os
import sys
import warnings

warnings.simplefilter("ignore")
import asyncssh
from asyncssh import sftp
from asyncssh.logging import logger


class Ends:
    """An SSH channel and its streams, as the server asks for them, of a client that gives SYMLINK's paths in OpenSSH's
    order."""

    logger = logger

    def __init__(self, stream):
        self.readexactly = stream.readexactly

    def get_connection(self):
        return self

    def get_extra_info(self, name, default=None):
        return "SSH-2.0-OpenSSH_9.2" if name == "client_version" else default

    def write(self, data):
        while data:
            data = data[os.write(1, data):]

    def close(self):
        pass


async def session():
    stream = asyncio.StreamReader()
    await asyncio.get_running_loop().connect_read_pipe(lambda: asyncio.StreamReaderProtocol(stream), sys.stdin)
    ends = Ends(stream)
    await sftp.run_sftp_server(asyncssh.SFTPServer(ends), ends, ends, 3)


if __name__ == "__main__":
    logging.disable(logging.CRITICAL)
    asyncio.run(session())
