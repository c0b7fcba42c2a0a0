"""What trials of the probe and of audits share: servers with a fault each, the groups of a report, and plans of their
own."""
import json
import os
import subprocess
import sys

from sftpv3.probe.plans import Step
from sftpv3.system.program import TOP, program
from trials.processes import run


def serve(*options):
    """The command of the server whose place those with a fault take."""
    return [program(), "serve", *options, "--tree", "{tree}"]


SERVE = serve()


def stand_in(module, name, server=SERVE):
    """The command of a server that a module of `broken` makes wrong as one of its names says."""
    return [sys.executable, os.path.join(TOP, "tests", "stand-in"), module, name, *server]


def misbehaving(name, server=SERVE):
    return stand_in("misbehaving", name, server)


def planted(name):
    return stand_in("planted", name)


def faulty_before(name, server):
    return stand_in("faults", name, server)


def faulty(name, *options):
    """The same, with the options that the server behind it needs."""
    return faulty_before(name, serve(*options))


def run_probe(*words):
    """Runs the probe to its end. What it prints, on either stream, is text of its `stdout`."""
    return run([os.path.join(TOP, "clients", "probe"), *words], timeout=None, stdin=subprocess.DEVNULL)


def groups_of(report):
    with open(report, encoding="utf-8") as file:
        return [line for line in map(json.loads, file) if "kind" in line]


class Plan:
    """The steps of a session, as they are asked."""

    def __init__(self):
        self.steps = []

    def ask(self, name, *fields):
        """Adds a request. Returns what stands for the handle that it may open."""
        self.steps.append(Step(len(self.steps) + 1, name, list(fields)))
        return self.steps[-1].opened()
