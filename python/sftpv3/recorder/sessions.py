"""The loop that passes packets on, and how a session ends.

One thread waits for all pipes. Nothing is passed on before every sink has it, and while a sink is busy nothing is read.
Whatever ends first ends the session: the other pipes are closed, and a server that is idle then gets SIGTERM after
IDLE seconds and SIGKILL after KILL more. One that still works, or whose replies a client still awaits, has `grace`
seconds from the last of these that came or that the client took. What nobody asked for gives it no time.
"""
import os
import select
import time

from sftpv3.recorder.packets import Flow
from sftpv3.spool.sinks import Failed
from sftpv3.system import signals
from sftpv3.system.greetings import text_at
from sftpv3.system.pauses import Clock
from sftpv3.system.starts import widen


IDLE = 0.4
KILL = 0.3
# How long a server may outlive SIGKILL, as in a call that waits for a disk.
LOST = 1.0
TICK = 0.05
# How long a sink that is busy is waited for at a time.
BUSY = 1

# How much a pipe from the client is to hold. One to the client is as quick as it is.
PIPE = 1 << 18

OWN_FAILURE = 3
AUDIT_REFUSED = 1

BROKEN = select.POLLERR | select.POLLHUP | select.POLLNVAL


class Signals(signals.Waking):
    """The signals that end a session, and the ends of processes: they wake the loop."""

    def __init__(self):
        super().__init__()
        self.got = None
        self.has_child_ended = False
        self.wake()
        signals.signal(signals.SIGCHLD, self.note_child)
        for number in (signals.SIGTERM, signals.SIGHUP, signals.SIGINT):
            # what was ignored at the start stays ignored, as SIGINT below sftp
            if signals.getsignal(number) != signals.SIG_IGN:
                signals.signal(number, self.note)

    def note(self, number, _):
        self.got = self.got or number

    def note_child(self, *_):
        self.has_child_ended = True


class Ends:
    """The client's two ends, as descriptors of our own, so that they can be closed. 0 and 1 lead nowhere then."""

    def __init__(self):
        self.input, self.output = os.dup(0), os.dup(1)
        nothing = os.open(os.devnull, os.O_RDWR)
        os.dup2(nothing, 0)
        os.dup2(nothing, 1)
        os.close(nothing)
        self.were_blocking = {it: os.get_blocking(it) for it in (self.input, self.output)}
        for it in self.were_blocking:
            os.set_blocking(it, False)
        # sshd's pipes hold 64 KiB, and sshd waits for us
        widen(self.input, PIPE)

    def close(self, file):
        if file in self.were_blocking:
            os.set_blocking(file, self.were_blocking.pop(file))
            os.close(file)


class Session:
    """A session between the client's ends and a server."""

    def __init__(self, server, signals, notices, options, change=None):
        self.server, self.signals, self.notices = server, signals, notices
        self.is_required, self.is_stopped, self.grace = options.required, options.stop, options.grace
        self.ends = Ends()
        self.asked = Flow(b"C", self.ends.input, server.input)
        self.replied = Flow(b"S", server.output, self.ends.output, change)
        self.awaiting = Awaiting(self.asked, self.replied, self.is_read)
        self.record = None
        self.times = None
        self.audit = None
        # a direction whose last packets are not yet recorded, and since when
        self.waiting, self.waited = None, 0.0
        self.clock = Clock()
        self.status = None
        self.has_input = self.has_output = self.has_client_input = self.has_client_output = True
        self.ending = None
        # what the server did that ended the session, if it was the first
        self.first = None
        self.moved = self.worked = 0.0
        self.killing = []
        self.given_up = False
        self.poll, self.registered = select.poll(), {}

    # what is recorded

    def sinks(self):
        return [it for it in (self.record, self.times and self.times.sink) if it]

    def begin_record(self, record, times, opening):
        """The beginnings of the files, before anything is passed."""
        self.record, self.times = record, times
        self.into(record, lambda: record.begin(opening))
        if times:
            self.into(times, lambda: times.begin(time.time_ns()))
        if self.audit:
            self.audit.put(opening)

    def into(self, sink, act):
        """Does something with a sink. If that fails, the session goes on without it, or ends if it is required."""
        try:
            act()
        except Failed as error:
            if sink is self.record:
                self.lose_record(str(error))
            else:
                self.notices.say(f"{error}; the times are not recorded any further")
                self.times.sink.close()
                self.times = None

    def lose_record(self, why):
        if self.record:
            self.record.close()
            self.record = None
        if self.is_required:
            self.notices.say(f"{why}; the session ends, since its record is required")
            self.cut(OWN_FAILURE)
        else:
            self.notices.say(f"{why}; the session is not recorded any further")

    def is_read(self):
        """Whether packets are looked for: an audit goes on if its record cannot be written any more."""
        return self.record or self.audit and self.audit.is_fed

    def add(self, flow):
        """Records what has become whole, and passes it on unless a sink is busy."""
        packets = flow.split() if self.is_read() else []
        if packets:
            self.put(flow.side, packets)
        if flow.too_long is not None and self.is_read():
            self.lose_packets(flow)
        self.waiting, self.waited = flow, self.clock.now()
        self.pass_on_if_recorded()

    def lose_packets(self, flow):
        """A packet is too long to be held, and those behind it cannot be told apart."""
        text = text_at(flow.behind_packets())
        what = f"text in place of a packet, {text}" if text else f"a packet of length {flow.too_long}"
        why = f"the {'client' if flow is self.asked else 'server'} sent {what}"
        if self.audit:
            self.audit.give_up(why)
        if self.record:
            self.lose_record(why)

    def put(self, side, packets):
        """Gives packets to all that records."""
        if self.audit:
            self.audit.put(side.join([b"", *packets]))
        if self.record:
            self.into(self.record, lambda: self.record.put_packets(side, packets))
        if self.times and self.record:
            self.into(self.times, lambda: self.times.put_count(len(packets)))

    def pass_on(self, flow):
        """What is recorded is passed on; what is not whole waits, if it can still be recorded."""
        if self.is_read() and flow.too_long is None and not flow.ended:
            flow.release()
        else:
            flow.release_all()
        self.give(flow)

    def go_on(self, sink):
        """A sink that was busy can be written to."""
        self.into(self.times if self.times and sink is self.times.sink else sink, sink.go_on)
        self.pass_on_if_recorded()

    def pass_on_if_recorded(self):
        if self.waiting and not any(it.is_busy() for it in self.sinks()):
            flow, self.waiting = self.waiting, None
            self.pass_on(flow)

    def give_up_stalled(self):
        """Goes on without a record that took too long for a batch."""
        patience = self.record and self.record.patience
        if patience and self.record.is_busy() and self.clock.now() - self.waited > patience:
            self.lose_record(f"the spool {self.record.name} has not replied for {patience} seconds")
            self.pass_on_if_recorded()

    # what is passed

    def take(self, flow):
        known = flow.packets
        count = flow.take()
        if count or flow.ended:
            self.add(flow)
        if count and self.ending is not None and flow is self.replied and self.awaiting.has_come(known):
            self.note_moved()
        return count

    def take_if_recorded(self, flow):
        """The same, unless what was taken before is not recorded yet."""
        if not self.waiting:
            self.take(flow)

    def give(self, flow):
        count = flow.give()
        if count > 0 and self.ending is not None and (flow is self.asked or self.awaiting.was_taken(count)):
            self.note_moved()
        elif count < 0:
            self.break_target(flow)

    def note_moved(self):
        """In an ending session: something moved that is awaited."""
        self.moved = self.clock.now()
        self.awaiting.look()

    def break_target(self, flow):
        """The target does not take any more: the server reads nothing more, or the client is gone."""
        if flow is self.asked:
            self.note_server("closed its input")
            self.asked.drop()
            self.close_input()
        else:
            self.cut(None)

    # what ends

    def close_input(self):
        if self.has_input:
            self.has_input = False
            self.server.close_input()
        self.close_client_input()
        self.begin_ending()

    def close_output(self):
        if self.has_output:
            self.has_output = False
            self.server.close_output()
        self.begin_ending()

    def close_client_input(self):
        if self.has_client_input:
            self.has_client_input = False
            self.ends.close(self.ends.input)

    def close_client(self):
        self.close_client_input()
        if self.has_client_output:
            self.has_client_output = False
            self.ends.close(self.ends.output)

    def begin_ending(self):
        if self.ending is None:
            self.ending = self.worked = self.clock.now()
            self.note_moved()

    def note_server(self, what):
        """The server did what ends the session, unless that ends already."""
        if self.ending is None and not self.asked.ended:
            self.first = what

    def cut(self, status):
        """Ends the session at once: what is held is dropped, all pipes are closed."""
        if status is not None and self.status is None:
            self.status = status
        self.asked.drop()
        self.replied.drop()
        self.waiting = None
        self.close_input()
        self.close_output()
        self.close_client()

    def progress(self):
        """Closes what has come to its end."""
        if self.signals.has_child_ended:
            self.signals.has_child_ended = False
            self.server.look()
        if self.signals.got and self.status is None:
            self.cut(128 + self.signals.got)
        if self.audit and self.audit.refused and self.is_stopped and self.status is None:
            self.notices.say("the session is cut, since the audit refused it")
            self.cut(AUDIT_REFUSED)
        if self.waiting:
            self.give_up_stalled()
        if self.waiting:
            return
        if self.has_input and self.asked.ended and self.asked.is_empty():
            self.close_input()
        if self.has_output and self.server.has_ended():
            self.drain()
        if self.has_output and self.replied.ended:
            self.note_server("closed its output")
            self.close_output()
        if not self.has_output and not self.waiting:
            self.asked.drop()
            self.close_input()
            if self.replied.is_empty():
                self.close_client()

    def drain(self):
        """Takes what a server that has ended left in its pipe. What others write there later is not awaited."""
        while not self.waiting and self.has_output and not self.replied.ended and self.replied.has_room():
            if not self.take(self.replied):
                self.replied.ended = True
                self.add(self.replied)

    def is_over(self):
        return self.given_up or self.server.has_ended() and not self.has_client_output

    def is_awaited(self):
        """Whether the client still gets something: replies that it did not take, or that the server owes it."""
        owed = self.awaiting.is_owed() and self.has_output
        return self.has_client_output and (owed or not self.replied.is_empty())

    def hurry(self):
        """In an ending session: ends a server that does not end."""
        now = self.clock.now()
        if self.killing:
            if now - self.killing[-1] >= (KILL if len(self.killing) == 1 else LOST):
                self.kill(now)
            return
        if now - max(self.moved, self.worked) < 2 * TICK:
            return
        if self.is_awaited() or self.server.is_working():
            self.worked = now
        if now - max(self.moved, self.worked) >= IDLE or now - self.moved >= self.grace:
            self.kill(now)

    def kill(self, now):
        self.killing.append(now)
        if self.server.has_ended():
            # the client is still there and does not read
            self.cut(None)
        elif len(self.killing) <= 2:
            self.server.send(signals.SIGTERM if len(self.killing) == 1 else signals.SIGKILL)
        else:
            self.notices.say("the server does not end by SIGKILL, and is left behind")
            self.given_up = True

    def tell_server(self):
        """Says how the server ended, if that ended the session or is its crash. What was recorded does not have it, so
        it is said beside."""
        ended_itself = self.server.has_ended() and not self.killing
        if not self.first and not (ended_itself and self.server.has_crashed()):
            return
        what = self.server.end_told() if ended_itself else self.first
        when = " before the client left" if self.first else ""
        count = self.awaiting.requests_left()
        owed = f", with {count} request{'s' * (count > 1)} unanswered" if count else ""
        self.notices.say(f"the server {what}{when}{owed}")
        if self.record:
            self.record.note_ending(f"{what}{when}{owed}".encode())

    # the loop

    def wanted(self):
        """What to wait for: events by descriptor. Without events a broken pipe is still told."""
        wanted = {self.signals.ours: select.POLLIN}
        if self.has_client_input and not self.waiting and self.asked.has_room():
            wanted[self.ends.input] = select.POLLIN
        if self.has_output and not self.waiting and self.replied.has_room():
            wanted[self.server.output] = select.POLLIN
        if self.has_input:
            wanted[self.server.input] = select.POLLOUT if self.asked.ready > self.asked.start else 0
        if self.has_client_output:
            wanted[self.ends.output] = select.POLLOUT if self.replied.ready > self.replied.start else 0
        if self.waiting:
            wanted.update((it.fileno(), it.events) for it in self.sinks() if it.is_busy())
        if self.audit:
            wanted.update((file, events) for file, events, _ in self.audit.interests())
        return wanted

    def wait(self):
        """Waits for what is wanted. Returns pairs of a descriptor and its events."""
        wanted = self.wanted()
        if wanted != self.registered:
            for file in self.registered.keys() - wanted.keys():
                self.poll.unregister(file)
            for file, events in wanted.items():
                if self.registered.get(file) != events:
                    self.poll.register(file, events)
            self.registered = wanted
        most = TICK if self.ending is not None else BUSY if self.waiting else None
        found = self.poll.poll(None if most is None else 1000 * most)
        # where it may take any time, nobody counts it
        self.clock.look(float("inf") if most is None else most)
        return found

    def act(self, file, found):
        """Does what the events of a descriptor ask for, unless what came before in the same round closed it, or is not
        recorded yet."""
        if file == self.signals.ours:
            self.signals.drain()
        elif file == self.ends.input and self.has_client_input:
            self.take_if_recorded(self.asked)
        elif file == self.server.output and self.has_output:
            self.take_if_recorded(self.replied)
        elif file == self.server.input and self.has_input:
            self.reach(self.asked, found)
        elif file == self.ends.output and self.has_client_output:
            self.reach(self.replied, found)
        else:
            self.act_beside(file)

    def reach(self, flow, found):
        if found & BROKEN:
            self.break_target(flow)
        else:
            self.give(flow)

    def act_beside(self, file):
        """The same for a sink or the audit."""
        for sink in self.sinks():
            if sink.is_busy() and sink.fileno() == file:
                self.go_on(sink)
                return
        for it, _, act in self.audit.interests() if self.audit else ():
            if it == file:
                act()
                return

    def run(self):
        """Passes the session on to its end. Returns its status."""
        while not self.is_over():
            for file, found in self.wait():
                self.act(file, found)
            self.progress()
            if self.ending is not None:
                self.hurry()
        self.tell_server()
        return self.server.status() if self.status is None else self.status


class Awaiting:
    """The replies that are still to come, and the bytes of those that came and the client has not taken.

    Packets are counted only as long as they are looked for. Where they are not, the client may await all that comes,
    unless they cannot be told apart by the server's fault.
    """

    def __init__(self, asked, replied, is_read):
        self.asked, self.replied, self.is_read = asked, replied, is_read
        self.left = None

    def is_owed(self):
        """Whether the server owes a reply."""
        return self.replied.too_long is None and self.asked.packets > self.replied.packets

    def requests_left(self):
        """How many requests have no reply, INIT and VERSION apart, as far as packets are counted."""
        if not self.is_read() or self.asked.too_long is not None or self.replied.too_long is not None:
            return 0
        return max(0, self.asked.packets - max(1, self.replied.packets))

    def are_unknown(self):
        return self.replied.too_long is None and not self.is_read()

    def look(self):
        """Notes how much of the last replies that the client awaits is held, once all have come."""
        if self.left is None and not self.is_owed() and not self.are_unknown():
            self.left = self.replied.filled - self.replied.start

    def has_come(self, known):
        """Whether any of what came is awaited, where so many packets were known before: a reply that is whole."""
        return self.left is None and (self.are_unknown() or self.replied.packets > known)

    def was_taken(self, count):
        """Whether any of so many bytes that the client took were awaited."""
        if self.left is None:
            return True
        was_awaited, self.left = self.left > 0, max(0, self.left - count)
        return was_awaited
