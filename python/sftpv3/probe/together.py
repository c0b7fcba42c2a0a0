"""A session over two connections to the same files: two clients of a server at once, each request sent once the one
before has its reply. So what the one changes, the other has to see, and the audit judges both as one session.

A handle is used on the connection that opened it, and its name in the record is another one if that is the second: two
servers may give the same bytes. What has no handle goes by the first if its id is odd, else by the second. In a third
of the sessions the ids are those of the plan. In the others they are dealt: in one third, what one client has looked
at, the other one changes in most cases, and the first looks again; in another, one client makes all changes.
"""
import posixpath

from sftpv3 import codec
from sftpv3.peer import servers
from sftpv3.probe import plans, sessions

# Of so many requests that have no handle, one goes by either client, whoever looked before.
EITHER = 5


def dealt(steps, seed):
    """These steps with the ids by which those of this seed go to the one client or the other."""
    if seed % 3 == 0:
        return steps
    lookers, numbers, found = {}, {}, []
    for step in steps:
        client = client_of(step, lookers) if seed % 3 == 1 else int(changes(step))
        last = found[-1].number if found else steps[0].number - 1
        # an odd id is of the first client: the next id, or the one after it
        number = (last + 1 + (last + client) % 2) % plans.IDS
        numbers[step.number] = number
        found.append(renumbered(step, number, numbers))
    return found


def client_of(step, lookers):
    """Which client asks, 0 or 1: one that looks is the one that looked before, one that changes something the other.
    `lookers` has who looked at a path."""
    either = 1 - step.number % 2
    if step.handle() is not None:
        return either
    paths = [clean(path) for path in paths_of(step)]
    known = [lookers[path] for path in [*paths, *map(posixpath.dirname, paths)] if path in lookers]
    if changes(step):
        return 1 - known[0] if known and step.number % EITHER else either
    if not known or step.number % EITHER == 0:
        lookers.update(dict.fromkeys(paths, either))
        return either
    return lookers.setdefault(paths[0], known[0])


def paths_of(step):
    """The paths of a request without a handle; not the target of a link, which may lead anywhere."""
    return [field for name, field in zip(codec.REQUESTS[step.name][1].split(), step.fields)
            if name in ("path", "new_path", "link")]


def changes(step):
    """Whether the request may change something."""
    return step.name not in codec.LOOKERS and step.name != "OPENDIR" and not (step.name == "OPEN" and
                                                                              step.fields[1] == codec.READ)


def clean(path):
    """The path without what a text may have twice, as far as no link is in it."""
    return posixpath.normpath(b"/" + path.lstrip(b"/"))


def renumbered(step, number, numbers):
    """The step with this id, and with the new ids of the steps whose handles it has."""
    return plans.changed(step, number, [plans.renumbered(field, numbers) for field in step.fields])


class Other(sessions.Player):
    """The second connection: it records in the session of the first."""

    NAME = b"other %d"

    def is_taken(self, handle):
        return handle is not None


class Both:
    """Two connections, and the steps that are left."""

    def __init__(self, server, tree_file, steps, timeout, stop, cut):
        def player(kind, running, asked):
            return kind(running, map(server.in_order, asked), 1, timeout, stop, cut, server.only_given)
        seconds = timeout * servers.OPENING
        self.first = player(sessions.Player, server.start(tree_file, seconds, stop), steps)
        self.players = [self.first]
        self.session, self.steps, self.opened = self.first.session, [], {}
        self.session.is_together, self.last = True, self.first
        self.start_other = lambda: player(Other, server.again().start(tree_file, seconds, stop), [])

    def play(self):
        self.first.opening()
        self.steps, self.first.waiting = list(self.first.waiting), type(self.first.waiting)()
        other = self.start_other()
        self.players.append(other)
        try:
            other.opening()
        except sessions.NotStarted as error:
            raise sessions.NotStarted(f"the second of two servers: {error}") from None
        other.running.started, other.session = self.first.running.started, self.session
        other.most = other.left = self.first.most
        while self.steps and not self.session.end:
            self.ask(self.steps.pop(0))

    def ask(self, step):
        opener = plans.opener(step.handle())
        player = self.opened.get(opener, self.players[1 - step.number % 2])
        self.opened[step.number] = self.last = player
        player.waiting.append(step)
        player.run()

    def part(self, seconds):
        """Ends both: the one that was asked last first, since its end may be that of the session."""
        errors, statuses = b"", []
        for player in sorted(self.players, key=lambda one: one is not self.last):
            own, player.session.errors = player.session, b""
            player.part(seconds)
            errors += own.errors
            statuses.append(own.status)
            self.session.unanswered = max(self.session.unanswered, len(player.unanswered))
        self.session.errors = errors[-servers.KEPT:]
        self.session.unasked = len(self.steps)
        self.session.status = worst(statuses)


def worst(statuses):
    """The exit status to speak of: of a server that had to be stopped, of one that crashed, or of any that failed."""
    if None in statuses:
        return None
    return next((one for one in statuses if servers.is_crash(one)), max(statuses, key=abs))


def play(server, tree_file, steps, timeout, stop=None, cut=None, parting=servers.PARTING):
    """The session of these steps over two connections."""
    both, why = Both(server, tree_file, steps, timeout, stop, cut), None
    try:
        both.play()
    except sessions.NotStarted as error:
        why = str(error)
    except BaseException:
        for player in both.players:
            player.running.stop()
        raise
    finally:
        both.part(parting)
    if why:
        raise sessions.NotStarted(both.session.told(why), both.session)
    return both.session
