"""The client's end of a session: what it sends to a server, and the packets that come."""
import os

from sftpv3 import codec
from sftpv3.faults.between import write


def receive(source, count):
    """So many bytes, or fewer where the stream ends."""
    data = b""
    while len(data) < count:
        try:
            piece = os.read(source, count - len(data))
        except ConnectionResetError:
            break
        if not piece:
            break
        data += piece
    return data


class Client:
    """A client with a request at a time, by the descriptors of a server's input and output."""

    def __init__(self, input, output):
        self.input, self.output, self.number = input, output, 0

    def send(self, data):
        write(self.input, data)

    def receive(self, count):
        return receive(self.output, count)

    def packet(self):
        """The next packet, or what there is of it where the stream ends."""
        head = self.receive(4)
        return head + self.receive(int.from_bytes(head, "big"))

    def greet(self):
        """Sends an INIT. Returns the packet that answers it."""
        self.send(codec.init())
        return self.packet()

    def ask(self, name, *fields):
        """Sends a request. Returns the packet that comes next."""
        self.number += 1
        self.send(codec.request(self.number, name, *fields))
        return self.packet()
