"""Plays a session once more, on `sftpv3 serve` behind a model: the same requests, as many of them together, each once
the replies that it came behind are there. Only the replies may be others. `link_first` says that the session has the
paths of SYMLINK in the order of the draft.

What a model does with requests and replies can also be seen without a server, from the replies of the sound one, as
long as it asks nothing itself: most models change nothing in a session, and need not be played.
"""
import hashlib
import os
import queue
import subprocess
import threading
from contextlib import suppress
from dataclasses import dataclass, field
from typing import List, Optional

from sftpv3 import codec
from sftpv3.faults import between
from sftpv3.peer import pieces

# Seconds to wait for a reply of `serve`, and for its end.
PATIENCE, PARTING = 5, 2

# How a model fails with a number that makes no sense for it, such as a modulus of 0.
FAILS = (ArithmeticError, LookupError)


class NoReply(Exception):
    """What stands before `serve`, or `serve` itself, gave no reply in time, or ended."""


class NeedsServer(Exception):
    """The model asks the server something itself."""


@dataclass
class Round:
    """Requests that went together, and the ids of the replies that came before the next ones."""

    asked: List[bytes] = field(default_factory=list)
    answered: List[int] = field(default_factory=list)


class Script:
    """What the client of a session did. `cut` says which requests went in pieces, as a session has it."""

    def __init__(self, records, cut=None, link_first=False):
        self.rounds, self.cut, self.link_first = [], pieces.Cuts(cut) if cut is not None else None, link_first
        # for each request through a handle, the number of the one that opened it, and what is behind the handle; and
        # the numbers of READDIRs through handles that were given
        self.openers, self.listed = {}, []
        opened = {}
        for side, packet in records[2:]:
            if side == codec.CLIENT:
                self.ask(packet, opened)
            elif len(packet) >= 9 and self.rounds:
                self.rounds[-1].answered.append(codec.id_of(packet))
                with suppress(codec.Malformed):
                    reply = codec.Reply(packet)
                    if reply.handle is not None:
                        opened[reply.handle] = reply.number

    def ask(self, packet, opened):
        if not self.rounds or self.rounds[-1].answered:
            self.rounds.append(Round())
        request = codec.decode(packet)
        if request.name == "SYMLINK" and self.link_first:
            # `serve` takes the paths in the order of OpenSSH
            packet = codec.request(request.number, request.name, *reversed(request.fields))
        self.rounds[-1].asked.append(packet)
        handle = request.handle()
        if handle is None:
            return
        if handle in opened:
            self.openers[request.number] = opened[handle], b""
            self.listed += [request.number] * (request.name == "READDIR")
        elif handle[:-1] in opened and handle.endswith(b"\0"):
            self.openers[request.number] = opened[handle[:-1]], b"\0"

    def numbers(self):
        """The ids of the requests that had a reply, in the order of the replies."""
        return [number for one in self.rounds for number in one.answered]


class Given:
    """The replies of one play, by their ids, and the requests as they were sent."""

    def __init__(self, script):
        self.script, self.replies, self.handles, self.sent = script, {}, {}, {}

    def take(self, packet):
        reply = codec.Reply(packet)
        self.replies.setdefault(reply.number, packet)
        if reply.handle is not None:
            self.handles[reply.number] = reply.handle

    def own(self, packet):
        """A request of the script with the handle that this play gave."""
        request = codec.decode(packet)
        opener = self.script.openers.get(request.number)
        if opener is not None:
            handle = self.handles.get(opener[0], b"never given %d" % opener[0])
            request.fields[0] = handle + opener[1]
            packet = codec.encode(request)
        self.sent[request.number] = packet
        return packet


def chunks(packets, cuts):
    """The bytes of packets as they come: all together, or in pieces."""
    found = b""
    for packet in packets:
        for count in cuts.counts(packet) if cuts else ():
            yield found + packet[:count]
            found, packet = b"", packet[count:]
        found += packet
    yield found


def through(model, packets, cuts):
    """What the server gets in place of these requests of a client."""
    left = b""
    for chunk in chunks(packets, cuts):
        found, left = between.packets_of(left + chunk)
        yield from model.requests(found)
        model.begun(left)


class Replay:
    """Plays a script on `sftpv3 serve`. `command` is what starts it on the tree of the session."""

    def __init__(self, command, script):
        self.command, self.script = command, script

    def play(self, model: Optional[between.Bug] = None) -> Given:
        """The replies, with a model in between or with none. Raises NoReply."""
        model = model or between.Bug()
        # an option may be given once
        words = [*self.command, *(it for it in getattr(model, "OPTIONS", ()) if it not in self.command)]
        with subprocess.Popen(words, stdin=subprocess.PIPE, stdout=subprocess.PIPE, stderr=subprocess.DEVNULL,
                              bufsize=0) as server:
            came = queue.SimpleQueue()
            model.pipe, model.PATIENCE = server.stdin.fileno(), PATIENCE
            reader = threading.Thread(target=listen, args=(server.stdout.fileno(), model, came), daemon=True)
            reader.start()
            try:
                return self.exchange(model, model.pipe, came)
            except (OSError, queue.Empty, *FAILS) as error:
                raise NoReply(str(error)) from None
            finally:
                server.stdin.close()
                with suppress(subprocess.TimeoutExpired):
                    server.wait(PARTING)
                server.kill()
                reader.join(PARTING)

    def exchange(self, model, pipe, came):
        given = Given(self.script)
        between.write(pipe, codec.init())
        if came.get(timeout=PATIENCE) is None:
            raise NoReply("there is no VERSION")
        for one in self.script.rounds:
            for packet in through(model, list(map(given.own, one.asked)), self.script.cut):
                between.write(pipe, packet)
            while not given.replies.keys() >= set(one.answered):
                packet = came.get(timeout=PATIENCE)
                if packet is None:
                    raise NoReply("the server ended")
                given.take(packet)
        return given


def listen(source, model, came):
    """Passes replies on through a model until the server ends, or the model fails; None is the end."""
    left = b""
    with suppress(OSError, codec.Malformed, *FAILS):
        piece = os.read(source, 1 << 18)
        while piece:
            found, left = between.packets_of(left + piece)
            for packet in model.replies(found):
                came.put(packet)
            piece = os.read(source, 1 << 18)
    came.put(None)


def no_server(*_asked):
    raise NeedsServer()


def digest(script: Script, sound: Given, model: between.Bug) -> Optional[bytes]:
    """What a model makes of a session with the replies of the sound server, as a digest; None if it changes nothing.
    Raises NeedsServer if that cannot be said without the server."""
    model.now = no_server
    found, is_changed = hashlib.sha256(), False
    for one in script.rounds:
        asked = [sound.sent[codec.id_of(packet)] for packet in one.asked]
        sent = list(through(model, asked, script.cut))
        replies = [sound.replies[number] for number in one.answered if number in sound.replies]
        shown = model.replies(replies)
        is_changed = is_changed or sent != asked or shown != replies
        for packet in (*sent, *shown):
            found.update(packet)
    return found.digest() if is_changed else None
