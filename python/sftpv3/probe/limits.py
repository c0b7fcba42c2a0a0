"""What ends a run early: a signal, a difference with --first, a time that is over; what was played, and how far the
probe is; and workers, each of which plays and judges one session at a time, side by side with the others."""
import errno
import os
import queue
import signal
import threading
import time
from collections import Counter, deque
from concurrent import futures
from dataclasses import dataclass, field
from typing import List

from sftpv3.codec import trees
from sftpv3.probe import restarts, sessions, verdicts
from sftpv3.probe.sessions import Session


class Halt:
    """Set once, with the reason; or set when another limit is."""

    def __init__(self, other=None):
        self.event, self.why, self.other = threading.Event(), None, other

    def set(self, why):
        if not self.event.is_set():
            self.why = why
            self.event.set()

    def is_set(self):
        return self.event.is_set() or bool(self.other and self.other.is_set())

    def on_signals(self):
        """SIGINT and SIGTERM set it, and SIGHUP, unless that was ignored at the start, as by `nohup`."""
        for number in (signal.SIGHUP, signal.SIGINT, signal.SIGTERM):
            if number != signal.SIGHUP or signal.getsignal(number) != signal.SIG_IGN:
                signal.signal(number, lambda which, _: self.set(signal.Signals(which).name))


class Late:
    """Set so many seconds after another limit is first seen to be set: what is begun can still be put in order."""

    def __init__(self, other, seconds):
        self.other, self.seconds, self.deadline = other, seconds, None

    def is_set(self):
        if self.deadline is None and self.other.is_set():
            self.deadline = time.monotonic() + self.seconds
        return self.deadline is not None and time.monotonic() >= self.deadline


class Until:
    """Set when another limit is, or when so many seconds are over. None is no limit."""

    def __init__(self, other, seconds=None):
        self.other = other
        self.deadline = None if seconds is None else time.monotonic() + seconds

    def is_set(self):
        return self.other.is_set() or self.left() <= 0

    def left(self):
        """How many seconds are left, at least 0."""
        return max(0, self.deadline - time.monotonic()) if self.deadline is not None else float("inf")


# For each worker, how many tasks are begun before the first of them is asked for its result.
AHEAD = 8


class Worker:
    """Plays and judges sessions, one at a time, in a folder of its own."""

    def __init__(self, folder, server, auditor, timeout, again):
        self.folder, self.server, self.timeout, self.again = folder, server, timeout, again
        self.auditor = auditor.in_folder(folder)
        # the server's own file of the tree, which it may change, and the file that the audit reads
        self.tree_file, self.kept_tree = (os.path.join(folder, name) for name in ("start.tree", "judged.tree"))
        self.tree = self.data = None

    def write_tree(self, tree):
        if tree is not self.tree:
            self.tree, self.data = tree, trees.put(tree)
            self.write(self.kept_tree)
        self.write(self.tree_file)

    def write(self, name):
        with open(name, "wb") as file:
            file.write(self.data)

    def play(self, tree, steps, in_flight, seed, stop, timeout=None, cut=None):
        """The session of these steps, and what is judged of it. Raises Stopped once `stop` is set, unless there is a
        difference by then."""
        self.write_tree(tree)
        with self.server.with_folder(self.folder) as server:
            session = restarts.play(server, self.tree_file, steps, in_flight, timeout or self.timeout, stop, cut,
                                    self.again)
        return session, verdicts.judge(self.auditor, self.kept_tree, session, seed, stop)

    def begins_anew(self, session, stop):
        """Whether the server, once it was started again, had the files of the start: nothing of a session lasts."""
        records = session.records[:2] + session.records[session.again:]
        return self.auditor.judge(self.kept_tree, records, stop).accepted


class Pool:
    """Workers side by side. A task is called with a worker; once `stop` is set, no more are begun."""

    def __init__(self, workers):
        self.jobs, self.idle = len(workers), queue.SimpleQueue()
        for worker in workers:
            self.idle.put(worker)
        self.executor = futures.ThreadPoolExecutor(self.jobs)

    def run(self, task, stop):
        worker = self.idle.get()
        try:
            return None if stop.is_set() else task(worker)
        except sessions.Stopped:
            return None
        finally:
            self.idle.put(worker)

    def begun(self, task, stop):
        """A task that is to be run. Raises OSError if the system starts no further thread."""
        try:
            return self.executor.submit(self.run, task, stop)
        except RuntimeError as error:
            # the task waits all the same, for a thread that runs
            self.executor.shutdown(cancel_futures=True)
            raise OSError(errno.EAGAIN, str(error)) from None

    def in_order(self, tasks, stop, tick):
        """Gives what the tasks return, in their order, whichever ends first; None for those that were stopped. `tick`
        is called now and then. All have ended when this ends."""
        tasks, begun = iter(tasks), deque()
        try:
            while True:
                while len(begun) < AHEAD * self.jobs and not stop.is_set():
                    task = next(tasks, None)
                    if task is None:
                        break
                    begun.append(self.begun(task, stop))
                if not begun:
                    return
                while not futures.wait([begun[0]], timeout=0.5).done:
                    tick()
                tick()
                yield begun.popleft().result()
        finally:
            for one in begun:
                one.cancel()
            futures.wait(begun)


def not_started(error, in_flight, seed):
    """The difference of a server that started before, and did not start now."""
    session = error.session or Session(in_flight)
    verdict = verdicts.Verdict(False, str(error), None, "NotStarted",
                               {"expected": "VERSION 3", "found": str(error).splitlines()[0]})
    return verdicts.Difference(seed, None, "INIT", verdict, session.records, session, None, None)


@dataclass
class Played:
    """The session of a seed, and how it went."""

    # The seed, or the number where a recorded session is played.
    seed: int
    # The most requests in flight.
    in_flight: int
    # How many seconds it took, with the audits, and without waiting for a processor's turn.
    seconds: float
    # How many requests the plan has, and how many of them no verdict was given on: those behind a difference of which
    # nobody knows what it changed, and those that were not asked.
    requests: int
    unjudged: int
    # The groups of its differences, each once, in the order in which they came.
    groups: List = field(default_factory=list)
    # How many of those without a verdict had replies that show no owner.
    ownerless: int = 0
    # How many bytes of memory more the server had at the end than what it may have stored takes.
    memory: int = 0

    def vain(self):
        """Whether nothing at all was judged: then it does not count as accepted."""
        return not self.groups and self.unjudged >= self.requests


# How many seeds that were not played are each told.
EACH = 10_000


class Tally:
    """All sessions, in the order of their seeds. `numbers` are the seeds that were to be played, in order."""

    def __init__(self, numbers=range(0)):
        self.numbers, self.played = numbers, []
        self.stopped = None
        # what the server's VERSION says
        self.version = None

    def add(self, played):
        self.played.append(played)

    @property
    def sessions(self):
        """How many sessions there were in which something was judged."""
        return sum(not one.vain() for one in self.played)

    @property
    def requests(self):
        return sum(one.requests for one in self.played)

    @property
    def unjudged(self):
        return sum(one.unjudged for one in self.played)

    @property
    def ownerless(self):
        return sum(one.ownerless for one in self.played)

    @property
    def differing(self):
        """How many sessions differ."""
        return sum(bool(one.groups) for one in self.played)

    def seeds_that_differ(self):
        return [one.seed for one in self.played if one.groups]

    @property
    def planned(self):
        """How many sessions were to be played."""
        return len(self.numbers)

    @property
    def left(self):
        """How many sessions were not played."""
        return self.planned - len(self.played)

    def unplayed(self):
        """The first seeds that were not played, at most as many as are each told."""
        played, left = Counter(one.seed for one in self.played), min(self.left, EACH)
        for seed in self.numbers:
            if left == 0:
                return
            if played[seed]:
                played[seed] -= 1
            else:
                left -= 1
                yield seed

    def skipped(self):
        """What counts as neither accepted nor different, with the reason: seeds, and `further` for all that are not
        told each."""
        yield from ((f"seed-{one.seed}", one.seed, "no request was judged") for one in self.played if one.vain())
        why = f"not played: {self.stopped or 'the run ended'}"
        yield from ((f"seed-{seed}", seed, why) for seed in self.unplayed())
        if self.left > EACH:
            yield "further", None, f"{self.left - EACH} further seeds {why}"

    @property
    def judged(self):
        """The sessions of which something was judged."""
        return [one for one in self.played if not one.vain()]
