"""A server with a fault: it passes packets between a client and a right server, and does one thing wrong now and then.

    tests/stand-in overlapping FAULT SEED [--first-of FOLDER] COMMAND [ARGUMENT ...]

It says on a line of the file that ORDER_ACTED names, if that is set, how often the fault acted. With --first-of only
the first of the servers that are started with this folder has the fault; it adds its line to the file, if its client
asked as much as a client of a set.
"""
import os
import random
import subprocess
import sys
import threading
import time

from sftpv3.codec import EXCL, OK, SERVER, Packet, Request, decode, encode, read, status

# The end of the name of a file that stands beside a folder which a server had.
HAD = ".had"

# From so many requests on, a session is that of a client of a set.
MUCH = 50

# How long what is late waits, in seconds, and one of how many chances is taken.
LATE, ONE_OF = 0.03, 6


class Between:
    """A client, and the right server behind. `asked` has the requests that were passed on, by their ids."""

    def __init__(self, fault, seed, words, is_first=False):
        self.is_first, self.fault, self.choice = is_first, fault, random.Random(f"{fault} {seed}")
        self.server = subprocess.Popen(words, stdin=subprocess.PIPE, stdout=subprocess.PIPE)
        self.out, self.to_server = threading.Lock(), threading.Lock()
        self.asked, self.shown, self.own = {}, {}, {}
        self.acted = self.count = 0

    def acts(self):
        """Whether the fault acts now."""
        does = self.choice.randrange(ONE_OF) == 0
        self.acted += does
        return does

    def reply(self, data):
        with self.out:
            sys.stdout.buffer.write(data)
            sys.stdout.buffer.flush()

    def pass_on(self, data):
        with self.to_server:
            self.server.stdin.write(data)
            self.server.stdin.flush()

    # what comes from the client

    def from_client(self, data):
        if data[4] == 1:
            self.pass_on(data)
            return
        request = decode(data)
        self.count += 1
        self.asked[request.number] = request
        act = ON_REQUEST.get(self.fault)
        if act is None or not act(self, request, data):
            self.pass_on(data)

    def answer_at_once(self, request, data):
        """Says OK to what is done a while later."""
        self.own[request.number] = None
        self.reply(status(request.number, OK))
        threading.Timer(LATE, self.pass_on, [data]).start()
        return True

    # what comes from the server

    def from_server(self, data):
        if data[4] == 2:
            self.reply(data)
            return
        reply = read(SERVER, data)
        if reply.number in self.own:
            waiting = self.own.pop(reply.number)
            if waiting is not None:
                waiting(reply)
            return
        act = ON_REPLY.get(self.fault)
        self.reply(encode(act(self, self.asked.pop(reply.number), reply)) if act else data)

    def copy_replies(self):
        while True:
            data = packet_of(self.server.stdout)
            if data is None:
                return
            self.from_server(data)

    def run(self):
        replies = threading.Thread(target=self.copy_replies)
        replies.start()
        while True:
            data = packet_of(sys.stdin.buffer)
            if data is None:
                break
            self.from_client(data)
        self.say()
        time.sleep(2 * LATE)
        self.server.stdin.close()
        replies.join()
        return self.server.wait()

    def say(self):
        """Says how often the fault acted, before anybody may lose patience."""
        name = os.environ.get("ORDER_ACTED")
        if name and (self.count >= MUCH or not self.is_first):
            with open(name, "a" if self.is_first else "w", encoding="ascii") as file:
                print(self.acted, file=file)


def packet_of(stream):
    head = stream.read(4)
    return head + stream.read(int.from_bytes(head, "big")) if len(head) == 4 else None


def lost(name):
    """Says OK to a request of this name, and does nothing."""
    def act(between, request, _):
        if request.name != name or not between.acts():
            return False
        between.reply(status(request.number, OK))
        return True
    return act


def late(name):
    def act(between, request, data):
        return request.name == name and between.acts() and between.answer_at_once(request, data)
    return act


def not_exclusive(between, request, _):
    """Passes on an OPEN without EXCL."""
    if request.name != "OPEN" or not request.fields[1] & EXCL or not between.acts():
        return False
    path, flags, given = request.fields
    between.pass_on(encode(Request(request.number, "OPEN", [path, flags & ~EXCL, given])))
    return True


def lost_update(between, request, _):
    """Writes more than was asked for: what is around is written as it was a while before."""
    if request.name != "WRITE" or not between.acts():
        return False
    handle, offset, data = request.fields
    start, number = max(0, offset - 64), request.number

    def write_back(reply):
        time.sleep(LATE / 6)
        old = reply.fields[0] if reply.name == "DATA" else b""
        whole = old[:offset - start].ljust(offset - start, b"\0") + data + old[offset - start + len(data):]
        between.pass_on(encode(Request(number, "WRITE", [handle, start, whole])))
    between.own[number] = write_back
    between.pass_on(encode(Request(number, "READ", [handle, start, len(data) + 128])))
    return True


def stale(name):
    """Answers as it answered the same request before."""
    def act(between, request, reply):
        key = (request.name, repr(request.fields))
        before = between.shown.get(key)
        if request.name != name or reply.name not in ("DATA", "ATTRS"):
            return reply
        between.shown[key] = reply
        if before is None or before.fields == reply.fields or not between.acts():
            return reply
        return Packet(reply.number, before.name, before.fields)
    return act


def wrong_byte(between, request, reply):
    if reply.name != "DATA" or not reply.fields[0] or not between.acts():
        return reply
    data = bytearray(reply.fields[0])
    data[between.choice.randrange(len(data))] ^= 1
    return Packet(reply.number, "DATA", [bytes(data)])


def short_list(between, request, reply):
    names = reply.fields[0] if reply.name == "NAME" and request.name == "READDIR" else []
    others = [it for it in names if it[0] not in (b".", b"..")]
    if not others or not between.acts():
        return reply
    left = between.choice.choice(others)
    return Packet(reply.number, "NAME", [[it for it in names if it is not left]])


ON_REQUEST = {"lost-write": lost("WRITE"), "lost-remove": lost("REMOVE"), "late-write": late("WRITE"),
              "late-rename": late("POSIX-RENAME"), "excl": not_exclusive, "lost-update": lost_update}
ON_REPLY = {"stale-read": stale("READ"), "stale-stat": stale("STAT"), "wrong-byte": wrong_byte,
            "short-list": short_list}


def is_first_of(folder):
    """Whether no server was started with this folder before."""
    try:
        with open(folder + HAD, "x", encoding="ascii"):
            return True
    except FileExistsError:
        return False


def main():
    fault, seed, *words = sys.argv[1:]
    is_first = words[0] == "--first-of"
    if is_first:
        folder, words = words[1], words[2:]
        if not is_first_of(folder):
            os.execvp(words[0], words)
        above = os.path.dirname(folder)
        seed = f"{seed} {sum(name.endswith(HAD) for name in os.listdir(above))}"
    sys.exit(Between(fault, seed, words, is_first).run())
