"""Starts the server again on the files that a session left, and plays the last steps of its plan there.

What passes then is recorded behind the records of the session, without INIT and VERSION: one transcript, which the
audit judges as one session. Its handles are those that the end of the session has closed: one that was left open keeps
its name in the record, and a later one with the same bytes gets another.

Whether a server can be started again, only a try shows: it may serve but one session, or end with it. So that is said,
and is no difference.
"""
import threading

from sftpv3 import codec
from sftpv3.peer import servers
from sftpv3.probe import plans, sessions, together
from sftpv3.system import program

# After how many starts that failed no more are tried.
MOST_FAILED = 3


class Restarts:
    """What is known of starting a run's server again: how often it came about, and why it did not. A server has so
    many seconds to end by itself before: one that is stopped may not have put down all."""

    def __init__(self, is_wanted, parting, may_begin_anew=False, is_together=False):
        self.is_wanted, self.parting, self.lock = is_wanted, max(parting, servers.PARTING), threading.Lock()
        # whether the server may be meant to have its first files each time it is started
        self.may_begin_anew = may_begin_anew
        # whether two clients have a session together
        self.is_together = is_together
        self.done = self.failed = 0
        self.why = None
        # whether what a server started did not end in time once
        self.goes_on = False

    def grace(self):
        """For how many seconds it is waited for what a server left. That which goes on is waited for only once."""
        return servers.GRACE if self.goes_on else self.parting

    def succeeded(self):
        with self.lock:
            self.done += 1

    def fail(self, why, for_good=False):
        """Says why nobody could look, the first time."""
        with self.lock:
            is_first, self.why = self.why is None, self.why or why
            self.failed += 1
            self.is_wanted = self.is_wanted and not for_good and self.failed < MOST_FAILED
        if is_first:
            first, *said = why.split("\n")
            program.tell(f"probe: could not check that what a session leaves lasts: {first}")
            for line in said:
                program.tell(f"  {line.strip()}")

    def told(self):
        """What the last line of the run says."""
        return f"; what lasts was checked in {self.done} sessions only" if self.failed else ""


def left_open(records):
    """The handles that no CLOSE ended, whose reply was OK."""
    asked, opened = {}, set()
    for side, packet in records[2:]:
        if side == b"C":
            asked[packet[5:9]] = packet
            continue
        try:
            reply, request = codec.Reply(packet), codec.decode(asked[packet[5:9]])
        except (codec.Malformed, KeyError):
            continue
        if reply.handle is not None:
            opened.add(reply.handle)
        elif request.name == "CLOSE" and reply.code == codec.OK:
            opened.discard(request.handle())
    return opened


def play(server, tree_file, steps, in_flight, timeout, stop, cut, restarts):
    """The session of these steps, those behind a second start with it, if there are some and it can be made."""
    before, behind = plans.parted(steps)
    if not (behind and restarts.is_wanted):
        return first(server, tree_file, before, in_flight, timeout, stop, cut, servers.PARTING, restarts)
    held = servers.Held(server.leftovers, restarts.grace(), stop)
    try:
        session = first(held.of(server), tree_file, before, in_flight, timeout, stop, cut, restarts.parting, restarts)
        restarts.goes_on = restarts.goes_on or held.goes_on
        if session.status is None and session.end is None:
            restarts.fail(f"the server does not end within {restarts.parting:g} seconds after its input has",
                          for_good=True)
        elif session.is_over():
            go_on(session, server, tree_file, behind, timeout, stop, restarts)
    finally:
        held.end()
    return session


def first(server, tree_file, steps, in_flight, timeout, stop, cut, parting, restarts):
    """The session of the steps before a second start. The server has so many seconds to end."""
    if restarts.is_together:
        return together.play(server, tree_file, steps, timeout, stop, cut, parting)
    return sessions.play(server, tree_file, steps, in_flight, timeout, stop, cut, parting)


def go_on(session, server, tree_file, steps, timeout, stop, restarts):
    """Starts the server again, and adds to the session what passes then."""
    try:
        later = sessions.play(server.again(), tree_file, steps, session.in_flight, timeout, stop, session.cut,
                              taken=left_open(session.records))
    except sessions.NotStarted as error:
        restarts.fail(f"the server was not started again on the files of a session: {error}",
                      for_good=bool(error.session and error.session.silent()))
        return
    restarts.succeeded()
    session.again = len(session.records)
    passed = session.times[-1] if session.times else 0
    session.records += later.records[2:]
    session.times += [passed + at for at in later.times[2:]]
    session.errors = (session.errors + later.errors)[-servers.KEPT:]
    session.end, session.status = later.end, later.status
    session.unanswered, session.unasked = later.unanswered, session.unasked + later.unasked
