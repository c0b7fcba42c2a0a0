"""Clients of a workload at once, each behind a recorder of its own, and the set of records that they leave."""
from __future__ import annotations

import os
import random
import signal
import subprocess
import sys
from multiprocessing import get_context

from sftpv3.probe.workloads import WORKLOADS
from sftpv3.codec import SERVER, Request, encode, init, read, trees
from sftpv3.system.program import TOP

CLIENTS = os.path.join(TOP, "clients")
RECORD = os.path.join(CLIENTS, "record")
FAULTY = [sys.executable, os.path.join(TOP, "tests", "stand-in"), "overlapping"]
SFTP_SERVER = "/usr/lib/openssh/sftp-server"

# How long a set may take.
SECONDS = 600


class Client:
    """A session: requests with their replies, one at a time or several."""

    def __init__(self, words):
        self.process = subprocess.Popen(words, stdin=subprocess.PIPE, stdout=subprocess.PIPE)
        self.asked = 0
        self.send(init())
        self.packet()

    def send(self, data):
        self.process.stdin.write(data)
        self.process.stdin.flush()

    def packet(self):
        head = self.process.stdout.read(4)
        return read(SERVER, head + self.process.stdout.read(int.from_bytes(head, "big")))

    def ask(self, name, *fields):
        return self.ask_all([(name, *fields)])[0]

    def ask_all(self, requests):
        """The replies to requests that are sent at once, in the order of the requests."""
        numbers = range(self.asked + 1, self.asked + 1 + len(requests))
        self.asked += len(requests)
        self.send(b"".join(encode(Request(number, name, list(fields)))
                           for number, (name, *fields) in zip(numbers, requests)))
        found = {reply.number: reply for reply in (self.packet() for _ in requests)}
        return [found[number] for number in numbers]

    def handle(self, name, *fields):
        """The handle that an OPEN or OPENDIR gives, or None."""
        reply = self.ask(name, *fields)
        return reply.fields[0] if reply.name == "HANDLE" else None

    def end(self):
        self.process.stdin.close()
        self.process.wait()


def play(workload, number, seed, count, words, start):
    """One client, which begins when all do."""
    signal.alarm(SECONDS)
    client = Client(words)
    start.wait()
    WORKLOADS[workload](client, number, random.Random(f"{workload} {seed} {number}"), count)
    client.end()


def server(folder, fault=None, seed=0):
    """The words that start a server in a folder, right or with a fault: OpenSSH's, or, if ORDER_SERVER says `asyncssh`,
    that of asyncssh, or the program that it names."""
    name = os.environ.get("ORDER_SERVER")
    own = ["/usr/bin/python3", os.path.join(TOP, "tests", "order_trials", "asyncssh_server.py")]
    words = ["env", "-C", folder, *(own if name == "asyncssh" else [name])] if name else [SFTP_SERVER, "-d", folder]
    return words if fault is None else [*FAULTY, fault, str(seed), *words]


def make_set(folder, workload, seed, clients, count, fault=None):
    """Plays a workload in `folder/live`, the first client before a server with a fault, if one is named. The set is in
    `folder/set`, and the tree of the start in `folder/start.tree`."""
    live, records = os.path.join(folder, "live"), os.path.join(folder, "set")
    os.makedirs(live)
    os.makedirs(records)
    trees.write(start_tree(live), os.path.join(folder, "start.tree"))
    context = get_context("fork")
    start = context.Barrier(clients)
    running = []
    for number in range(clients):
        name = os.path.join(records, f"s{number}")
        words = [RECORD, "--boot-clock", "--times", name + ".times", name + ".transcript",
                 *server(live, fault if number == 0 else None, seed)]
        running.append(context.Process(target=play, args=(workload, number, seed, count, words, start)))
    for it in running:
        it.start()
    for it in running:
        it.join()
    return records


def start_tree(folder):
    """The tree with the way to an empty folder, where the server starts."""
    names = folder.encode().strip(b"/").split(b"/")
    places = [b"/" + b"/".join(names[:count]) for count in range(1, len(names) + 1)]
    return trees.Tree([trees.Entry(place, trees.DIRECTORY) for place in places], home=folder.encode(),
                      uid=os.geteuid(), gid=os.getegid())
