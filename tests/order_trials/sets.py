"""Sets of records and times, made by hand."""
from __future__ import annotations

import os
import struct

from sftpv3.codec import CLIENT, SERVER, Packet, Request, encode, init, put_records, trees, version

BOOT, OTHER_BOOT = bytes(range(16)), bytes(16)

# When a session of a set begins, in nanoseconds since the boot, and when its INIT and VERSION were there.
BEGIN, GREETED = 5_000_000_000, [0, 0]


def status(code):
    return "STATUS", code, b"", b""


OK, ABSENT, FAILURE = status(0), status(2), status(4)


class Session:
    """A session: requests with replies and their times, in microseconds from the beginning of the set on."""

    def __init__(self):
        self.events = []

    def ask(self, asked, answered, request, reply):
        """A request, as its name and its fields, and its reply; without one if `answered` is None."""
        number = 1 + sum(side == CLIENT for _, side, _ in self.events)
        self.events.append((asked, CLIENT, encode(Request(number, request[0], list(request[1:])))))
        if answered is not None:
            self.events.append((answered, SERVER, encode(Packet(number, reply[0], list(reply[1:])))))
        return self

    def transcript(self):
        events = sorted(self.events, key=lambda it: it[0])
        return put_records([(CLIENT, init()), (SERVER, version(3, [])), *((side, data) for _, side, data in events)])

    def times(self, boot=BOOT):
        at = GREETED + sorted(1000 * it[0] for it in self.events)
        head = b"SFTPTM01" + struct.pack(">Q", BEGIN) if boot is None else (
            b"SFTPTM02" + boot + struct.pack(">2Q", 1, BEGIN))
        return head + struct.pack(f">{len(at)}Q", *at)


def put(folder, sessions, boots=None, entries=()):
    """Writes a set into `folder/set`: sessions by their names, and the boots of some. The tree of the start is in
    `folder/start.tree`."""
    records = os.path.join(folder, "set")
    os.makedirs(records, exist_ok=True)
    for name, session in sessions.items():
        write(os.path.join(records, name + ".transcript"), session.transcript())
        write(os.path.join(records, name + ".times"), session.times((boots or {}).get(name, BOOT)))
    trees.write(trees.Tree(list(entries)), os.path.join(folder, "start.tree"))


def write(name, data):
    with open(name, "wb") as file:
        file.write(data)


def read(name):
    with open(name, "rb") as file:
        return file.read()
