"""asyncssh's client with a server over pipes, without SSH."""
import asyncio
import logging
import warnings
from contextlib import asynccontextmanager

warnings.filterwarnings("ignore")
import asyncssh
from asyncssh.sftp import SFTPClient, SFTPClientHandler

logging.disable(logging.CRITICAL)


class Ends:
    """The pipes of the server, as asyncssh's reader and writer of a channel."""

    def __init__(self, server):
        self.server = server
        self.logger = asyncssh.logging.logger.get_child("pipes")
        self.channel = self
        self.write, self.readexactly = server.stdin.write, server.stdout.readexactly

    def get_extra_info(self, name, usual=None):
        # By it asyncssh knows that SYMLINK has its target first.
        return "OpenSSH" if name == "server_version" else usual

    def write_eof(self):
        self.server.stdin.close()

    close = write_eof

    async def wait_closed(self):
        await self.server.wait()


@asynccontextmanager
async def session_with(words):
    """A session with the server that these words start. Gives the client and the server, which has ended behind the
    block."""
    pipe = asyncio.subprocess.PIPE
    server = await asyncio.create_subprocess_exec(*words, stdin=pipe, stdout=pipe)
    ends = Ends(server)
    handler = SFTPClientHandler(asyncio.get_running_loop(), ends, ends, 3)
    await handler.start()
    receiving = asyncio.create_task(handler.recv_packets())
    yield SFTPClient(handler, "utf-8", "strict"), server
    ends.write_eof()
    await server.wait()
    receiving.cancel()
