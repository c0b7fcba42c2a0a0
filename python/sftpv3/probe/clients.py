"""Clients that play a workload at once: each has a server of its own, which the command starts on the files of the
first, and all are in one folder that the first one makes. Each record has its time on the machine's own clock: of a
request before it is sent, of a reply once it is there whole."""
import random
import threading
from contextlib import suppress

from sftpv3 import codec
from sftpv3.peer import pieces, servers
from sftpv3.probe import plans, sessions
from sftpv3.probe.workloads import WORKLOADS
from sftpv3.spool import sinks

# What the folder is called, below the place where relative paths start.
FOLDER = b"clients"

# The fields of requests that are paths of the folder. The target of a link is one that the folder resolves.
IN_FOLDER = ("path", "new_path", "link")


class Over(Exception):
    """The session has ended, or goes no further."""


class Client:
    """A session of a workload. It records in `session` what passes, and the times in `at`. What `asks` does not pass on
    is answered here, as by a server that does not have it."""

    def __init__(self, running, timeout, stop, asks, cut=None):
        self.running, self.timeout, self.stop, self.asks = running, timeout, stop, asks
        self.streams = servers.Streams(running, None if cut is None else pieces.Cuts(cut))
        self.session, self.at = sessions.Session(cut=cut), []
        self.asked, self.waiting, self.announced = 0, {}, set()

    def record(self, side, packet):
        self.at.append(sinks.boot_clock())
        self.session.records.append((side, packet))

    def give(self, packet):
        self.record(codec.CLIENT, packet)
        self.streams.give(packet)

    def end(self, why):
        self.session.end = self.session.end or why
        raise Over(why)

    def next_packet(self, patience):
        """The next packet of the server, which is waited for. Raises Over if none comes."""
        clock = self.streams.clock
        clock.look()
        deadline = clock.now() + patience
        while True:
            packet = self.streams.next_packet()
            if packet is not None:
                self.record(codec.SERVER, packet)
                return packet
            if self.streams.wrong:
                self.end(self.streams.wrong)
            if self.stop.is_set():
                raise sessions.Stopped()
            if self.streams.exchange(min(deadline - clock.now(), 0.2)) is None:
                self.end("the server ended")
            if clock.now() >= deadline:
                self.end(f"no reply within {patience:g} seconds")

    def begin(self):
        """Sends INIT, and waits for VERSION 3. Raises NotStarted if there is none."""
        self.give(codec.init())
        try:
            number, announced = codec.version_of(self.next_packet(self.timeout * servers.OPENING))
        except Over as error:
            raise sessions.NotStarted(f"no VERSION came: {error}") from None
        except codec.Malformed as error:
            raise sessions.NotStarted(f"the first packet is not right: {error}") from None
        if number != 3:
            raise sessions.NotStarted(f"the server speaks version {number}, not 3")
        self.announced = {name for name, _ in announced}

    def ask(self, name, *fields):
        return self.ask_all([(name, *fields)])[0]

    def ask_all(self, requests):
        """The replies to requests that are sent at once, in the order of the requests."""
        numbers, found = [], {}
        for name, *fields in requests:
            self.asked += 1
            numbers.append(self.asked)
            step = self.step(name, fields)
            if step is None:
                found[self.asked] = codec.Packet(self.asked, "STATUS", [codec.OP_UNSUPPORTED, b"", b""])
                continue
            self.waiting[self.asked] = step
            self.give(codec.encode(step))
        while self.waiting:
            reply = self.reply()
            found[reply.number] = reply
        return [found[number] for number in numbers]

    def step(self, name, fields):
        """The request as it is asked, in the folder, or None if it is left out."""
        layout = codec.REQUESTS[name][1].split()
        inside = [FOLDER + b"/" * (field != b".") + field.lstrip(b".") if kind in IN_FOLDER else field
                  for kind, field in zip(layout, fields)]
        if codec.EXTENSIONS.get(name) in self.announced | {None}:
            return self.asks(plans.Step(self.asked, name, inside))
        return None

    def reply(self):
        try:
            reply = codec.read(codec.SERVER, self.next_packet(self.timeout))
        except codec.Malformed:
            self.end("a reply is malformed")
        if self.waiting.pop(reply.number, None) is None:
            self.end("a reply is to no request")
        return reply

    def handle(self, name, *fields):
        """The handle that an OPEN or OPENDIR gives, or None."""
        reply = self.ask(name, *fields)
        return reply.fields[0] if reply.name == "HANDLE" else None

    def part(self):
        """Lets the server end."""
        session = self.session
        self.streams.selector.close()
        session.status = self.running.part(servers.SILENT_PARTING if session.silent() else servers.PARTING,
                                           self.streams.receive)
        session.errors, session.unanswered = bytes(self.running.said), len(self.waiting)
        if session.end == "the server ended":
            session.end = f"the server ended {session.ending()}" if session.status is not None else \
                "the server closed its output"


class Played:
    """A set: the clients' sessions, the times of their records, and the name of the workload."""

    def __init__(self, workload, clients):
        self.workload, self.sessions = workload, [client.session for client in clients]
        self.at = [client.at for client in clients]

    def asked(self):
        return sum(session.asked() for session in self.sessions)


def play(server, tree_file, workload, seed, count, requests, timeout, stop, asks, cut=None):
    """A set of so many clients, each with so many requests."""
    found = []
    try:
        for number in range(count):
            one = server if number == 0 else server.again()
            found.append(Client(one.start(tree_file, timeout * servers.OPENING, stop), timeout, stop, asks, cut))
            found[-1].begin()
        with suppress(Over):
            found[0].ask("MKDIR", b".", {})
            at_once(found, workload, seed, requests)
    except sessions.NotStarted as error:
        found[-1].part()
        raise sessions.NotStarted(found.pop().session.told(str(error))) from None
    finally:
        for client in found:
            client.part()
    return Played(workload, found)


def at_once(clients, workload, seed, requests):
    """All play the workload, each in a thread of its own. Raises what was raised in one of them."""
    wrong, start = [], threading.Barrier(len(clients))

    def run(number, client):
        start.wait()
        try:
            with suppress(Over):
                WORKLOADS[workload](client, number, random.Random(f"{workload} {seed} {number}"), requests)
        except BaseException as error:  # noqa: BLE001 (it is raised again where the set is played)
            wrong.append(error)
    threads = [threading.Thread(target=run, args=one) for one in enumerate(clients)]
    for thread in threads:
        thread.start()
    for thread in threads:
        thread.join()
    if wrong:
        raise wrong[0]
