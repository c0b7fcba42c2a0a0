"""A plan below a directory of its own on a server whose other files stay as they are. The directory is in one that only
the server's user can enter: the plan makes files that others could write, and set-id bits.

No path of the plan leads out of the directory, whatever it would lead to if the directory were the root: a `..` is
taken out with the name before it, and each link leads to a place below the directory, by an absolute path. In either
order of its two paths, SYMLINK makes its link there.

What sessions made there is removed in a session of its own, which follows no link, and ends at a server that lists what
no session made.

So a server is tested whose files nobody can reset or see: each session is judged by the tree that it sees at its start.
"""
import copy
import os
import time
from contextlib import suppress

from sftpv3 import codec
from sftpv3.codec import trees
from sftpv3.peer import servers
from sftpv3.probe import lacking, limits, restarts, sessions, verdicts
from sftpv3.probe.plans import Step
from sftpv3.system import program
from sftpv3.walk import bounds, looking
from sftpv3.walk.looking import above, ask, parts_of, real, within
from sftpv3.walk.sessions import DIRECTORY, WINDOW, Session, kind_of

# The numbers of the requests that come before a plan: no plan has as many requests.
FIRST = 1 << 24

# The bytes of one WRITE.
BLOCK = 32768

# Which fields of a request are paths. The target of a link is one that the directory with the link resolves.
PATHS = {name: [place for place, field in enumerate(fields.split()) if field in ("path", "new_path", "target", "link")]
         for name, (_, fields) in codec.REQUESTS.items()}


def is_up(part):
    """Whether a part of a path is `..`, also where a byte of 0 ends the path, as in servers that are written in C."""
    return part.partition(b"\0")[0] == b".."


def straight(path):
    """A path without `..`, which takes the name before it away, and nothing at the root."""
    kept = []
    for part in path.split(b"/"):
        if is_up(part):
            kept = kept[:-1]
        elif part not in (b"", b"."):
            kept.append(part)
    return b"/" + b"/".join(kept)


class Below:
    """A directory of the server that was made for a session, by its absolute path, with `path`, that of the plan, in
    it; and the steps that the session begins with: it looks at the way, makes the place of the plan, and makes the
    entries of the tree that the plan starts from."""

    def __init__(self, own, tree):
        self.own, self.path = own, own + b"/plan"
        self.tree, self.last = tree, FIRST
        self.looking = self.look()
        self.first = self.looking + self.build()

    def ask(self, name, *fields):
        self.last += 1
        return Step(self.last, name, list(fields))

    def at(self, path):
        """Where a path of the plan leads to."""
        return self.path + b"/" + (straight(path) if any(map(is_up, path.split(b"/"))) else path).lstrip(b"/")

    def target(self, target, link):
        """The target of a link of the plan, as an absolute path below the directory."""
        start = b"" if target.startswith(b"/") else link.rpartition(b"/")[0] + b"/"
        return self.path + straight(start + target)

    def moved(self, step):
        """A step of the plan below the directory."""
        found, fields = copy.copy(step), list(step.fields)
        for place in PATHS.get(step.name, ()):
            fields[place] = self.at(step.fields[place])
        if step.name == "SYMLINK":
            fields[0] = self.target(*step.fields)
        found.fields = fields
        return found

    def steps(self, plan):
        """All steps of a session with this plan, without unknown extensions, which may have paths, too."""
        return self.first + [self.moved(step) for step in plan if step.name != "EXTENDED"]

    def look(self):
        """What is asked first: where relative paths start, what is on the way, and what is made."""
        return [self.ask("REALPATH", b"."), *(self.ask("LSTAT", place) for place in (*above(self.path), self.path)),
                self.ask("MKDIR", self.path, {}), self.ask("LSTAT", self.path)]

    def build(self):
        """Makes the entries of the tree."""
        found = []
        for entry in self.tree.entries:
            found += self.make(entry)
        return found

    def make(self, entry):
        path, given = self.path + entry.path, {"permissions": entry.permissions}
        if entry.kind == trees.DIRECTORY:
            return [self.ask("MKDIR", path, given)]
        if entry.kind == trees.LINK:
            return [self.ask("SYMLINK", self.target(entry.content, entry.path), path)]
        if entry.kind == trees.FURTHER:
            return [self.ask("HARDLINK", self.path + entry.content, path)]
        opened = self.ask("OPEN", path, codec.WRITE | codec.CREAT | codec.EXCL, given)
        writes = [self.ask("WRITE", opened.opened(), place, entry.content[place:place + BLOCK])
                  for place in range(0, len(entry.content), BLOCK)]
        return [opened, *writes, self.ask("CLOSE", opened.opened())]


# How many entries are looked at and removed at a time.
BATCH = 32

# How many names deep it goes, how many entries it removes, and for how many seconds: sessions leave far fewer.
DEEPEST, ENTRIES, SECONDS = 2 * bounds.DEPTH, 200_000, 600

# For how many seconds it goes on once the run is to end: a server that replies at once has done all by then.
GRACE = 5


class NoRecord:
    """Keeps no packets."""

    def begin(self, opening):
        pass

    def put_packets(self, side, packets):
        pass


class Work:
    """The steps of one task."""

    def __init__(self, steps):
        self.steps = [steps]

    def next(self):
        return self.steps.pop() if self.steps else None


def hold(server, steps, timeout, stop=None):
    """A session with the server, which asks what these steps ask, and is not recorded. Raises NotStarted or
    Misbehaves; and Stopped a while after `stop` is set."""
    late = limits.Late(stop, GRACE) if stop else None
    session = Session(server.start(""), NoRecord(), timeout, WINDOW // 2, stop=late)
    try:
        session.open()
        session.play(Work(steps))
    except bounds.Misbehaves as error:
        said = [f"  standard error: {line}" for line in session.close()]
        raise bounds.Misbehaves("\n".join([str(error), *said])) from None
    except BaseException:
        session.running.stop()
        raise
    session.close()


class Clearing:
    """Removes what is at a place, with all that is in it. `left` is the first place that could not be removed."""

    def __init__(self, path):
        self.path, self.left = path, None
        self.entries, self.deadline = 0, time.monotonic() + SECONDS

    def run(self, server, timeout, stop=None):
        """Gives why something is left, or None."""
        try:
            hold(server, self.steps(), timeout, stop)
        except servers.Stopped:
            return f"{bounds.shown(self.path)} is left: the run was ended while it was removed"
        except (bounds.Misbehaves, servers.NotStarted) as error:
            return f"{bounds.shown(self.path)} is left: {error}"
        return f"{bounds.shown(self.left)} is left" if self.left else None

    def steps(self):
        (found,) = yield [ask("LSTAT", self.path)]
        if found.attributes is not None:
            yield from self.clear([(self.path, found)])

    def clear(self, entries):
        """Removes entries, given as their paths and their attributes."""
        directories = [path for path, found in entries if kind_of(found.attributes) == DIRECTORY]
        # what its user may not enter is listed without names by some servers
        yield [ask("SETSTAT", path, PRIVATE) for path, found in entries
               if path in directories and ~found.attributes["permissions"] & 0o700]
        for path in directories:
            if len(parts_of(path)) - len(parts_of(self.path)) > DEEPEST:
                raise bounds.Misbehaves(f"it has more than {DEEPEST} directories within each other")
            yield from self.empty(path)
        others = [path for path, found in entries if path not in directories]
        replies = yield [ask("RMDIR", path) for path in directories] + [ask("REMOVE", path) for path in others]
        left = (path for path, reply in zip(directories + others, replies) if reply.code != 0)
        self.left = self.left or next(left, None)

    def empty(self, path):
        """Removes what is in a directory."""
        (opened,) = yield [ask("OPENDIR", path)]
        if opened.handle is None:
            _, opened = yield [ask("SETSTAT", path, {"permissions": 0o700}), ask("OPENDIR", path)]
        if opened.handle is None:
            return
        names = yield from self.listing(opened.handle)
        yield [ask("CLOSE", opened.handle)]
        for place in range(0, len(names), BATCH):
            paths = [within(path, name) for name in names[place:place + BATCH]]
            replies = yield [ask("LSTAT", one) for one in paths]
            yield from self.clear([(one, found) for one, found in zip(paths, replies) if found.attributes is not None])

    def listing(self, handle):
        """The names in a directory. What is no name of an entry in it is left out."""
        names, idle = {}, 0
        while idle <= bounds.IDLE:
            (reply,) = yield [ask("READDIR", handle)]
            if not reply.names:
                break
            fresh = [name for name in reply.names if is_name(name) and name not in names]
            names.update(dict.fromkeys(fresh))
            idle = 0 if fresh else idle + 1
            self.count(len(fresh))
        return list(names)

    def count(self, fresh):
        self.entries += fresh
        if self.entries > ENTRIES:
            raise bounds.Misbehaves(f"it has more than {ENTRIES:,} entries")
        if time.monotonic() > self.deadline:
            raise bounds.Misbehaves(f"to remove it takes more than {SECONDS} seconds")


def is_name(name):
    """Whether it names an entry of the directory that is listed, also where a byte of 0 ends a name."""
    return 0 < len(name) <= bounds.NAME and name not in (b".", b"..") and b"/" not in name and b"\0" not in name


# The attributes of a directory that only its owner can enter.
PRIVATE = {"permissions": 0o700}


class Place:
    """Where sessions make their directories: an absolute path, as REALPATH tells it, of a directory. It is not known
    if `stop` was set by then; so no session is played. `lacks` is what the server does not have."""

    def __init__(self, server, path, timeout, stop, lacks=lacking.Lacking()):
        if not looking.can_infer(program.program()):
            raise looking.NotInferred("the program sftpv3 has no `infer`, which --look-first needs")
        self.stop = stop
        self.path, self.make = None, private if lacks.has_permissions() else plain
        with suppress(sessions.Stopped):
            hold(server, self.steps(path), timeout, stop)

    def steps(self, path):
        (reply,) = yield [ask("REALPATH", path)]
        place = straight(real(path, reply))
        (found,) = yield [ask("LSTAT", place)]
        if found.attributes is None or kind_of(found.attributes) != DIRECTORY:
            raise bounds.Misbehaves(f"{bounds.shown(place)} is no directory: {found.why()}")
        self.path = b"" if place == b"/" else place
        made = self.new()
        why = yield from self.make(made)
        yield [ask("RMDIR", made)]
        if why:
            raise bounds.Misbehaves(why)

    def new(self):
        """The path of a directory that is not there yet."""
        return self.path + b"/sftpv3-probe-" + os.urandom(8).hex().encode()


def private(path):
    """Makes a directory that only the server's user can enter, and gives why it is none."""
    (made,) = yield [ask("MKDIR", path, PRIVATE)]
    if made.code != 0:
        return f"{bounds.shown(path)} cannot be made: {made.why()}"
    (found,) = yield [ask("LSTAT", path)]
    if (found.attributes or {}).get("permissions", 0) & 0o7777 != PRIVATE["permissions"]:
        # some servers have no regard for the permissions of MKDIR; and by a set-gid bit, which it has from the
        # directory above, what is made in it would have another group than the server's user
        yield [ask("SETSTAT", path, PRIVATE)]
        (found,) = yield [ask("LSTAT", path)]
    return OPEN.format(bounds.shown(path)) if is_open(found) else None


# What is said of a directory that others can enter.
OPEN = ("{} is none that only the server's user can enter: nothing is made in it\nif the server has no permissions, "
        "and nobody else reaches the place: --without permissions")


def plain(path):
    """Makes a directory on a server without permissions, and gives why there is none."""
    (made,) = yield [ask("MKDIR", path, {})]
    if made.code != 0:
        return f"{bounds.shown(path)} cannot be made: {made.why()}"
    (found,) = yield [ask("LSTAT", path)]
    return None if kind_of(found.attributes or {}) == DIRECTORY else f"{bounds.shown(path)} is no directory"


def is_open(found):
    """Whether what LSTAT gave is no directory, or one that others can enter, list or write, or does not say so."""
    given = found.attributes or {}
    return kind_of(given) != DIRECTORY or bool(given["permissions"] & 0o077)


class Worker(limits.Worker):
    """Plays sessions below directories of their own, below a place."""

    def __init__(self, folder, server, auditor, timeout, again, place):
        super().__init__(folder, server, auditor, timeout, again)
        self.place, self.seen = place, os.path.join(folder, "seen.transcript")

    def play(self, tree, steps, in_flight, seed, stop, timeout=None, cut=None):
        base = Below(self.place.new(), tree)
        try:
            self.make(base.own, stop)
            asked = self.auditor.lacks.steps(base.steps(steps))
            session = restarts.play(self.server, "", asked, in_flight, timeout or self.timeout, stop, cut, self.again)
        finally:
            # also where the time of the session is over, as when it was shrunk
            left = Clearing(base.own).run(self.server, self.timeout, self.place.stop)
            for line in left.split("\n") if left else ():
                program.tell(f"probe: {line}")
        if is_refused(session.records, base.looking):
            raise bounds.Misbehaves(GONE.format(bounds.shown(base.own)))
        self.infer(session, {step.number for step in base.looking}, stop)
        return session, verdicts.judge(self.auditor, self.kept_tree, session, seed, stop)

    def make(self, path, stop):
        """Makes the directory of a session, in a session of its own, so that nothing of the plan is sent before."""
        found = []

        def steps():
            found.append((yield from self.place.make(path)))
        try:
            hold(self.server, steps(), self.timeout, stop)
        except bounds.Misbehaves as error:
            raise sessions.NotStarted(str(error)) from None
        if found[0]:
            raise bounds.Misbehaves(found[0])

    def infer(self, session, numbers, stop):
        """Has the tree made that the requests with these numbers saw, and keeps it with the session."""
        with open(self.seen, "wb") as file:
            file.write(codec.put_records(of_numbers(self.auditor.lacks.records(session.records), numbers)))
        is_there, said, why = looking.infer(self.auditor.program, self.seen, self.kept_tree, self.auditor.options,
                                              program.MEMORY, stop)
        if not is_there:
            lines = ["no tree is what the session saw at its start: " + said, why]
            raise verdicts.Trouble("\n".join(lines + umask_of(session.records, max(numbers), self.auditor.lacks)), 1)
        with open(self.kept_tree, "rb") as file:
            session.start = file.read()


# What is said where nothing of a plan could be done.
GONE = ("{} was made, and is gone in the next session: --look-first is for servers that keep their files\none that "
        "starts each session anew is played without it, with --tree FILE, the tree that it starts from "
        "(sftpv3 blank FILE)")


def is_refused(records, looking):
    """Whether the place of a plan could not be made, since the directory that it is to be in is not there any more: all
    that the plan asks would then be refused, and accepted as such."""
    made = {step.number for step in looking if step.name == "MKDIR"}
    refused = (packet for side, packet in records[2:] if side == codec.SERVER and len(packet) >= 13
               and packet[4] == codec.STATUS and packet[9:13] != bytes(4))
    return any(codec.id_of(packet) in made for packet in refused)


def umask_of(records, number, lacks):
    """A line on the umask of a server that gives other permissions than expected to the directory that the LSTAT with
    this number shows, which MKDIR made without any."""
    shown = [packet for side, packet in records[2:]
             if side == codec.SERVER and packet[4] == codec.ATTRS and codec.id_of(packet) == number]
    with suppress(codec.Malformed, IndexError):
        given = codec.attributes_in(shown[0]).get("permissions", 0) & 0o7777
        if lacks.has_permissions() and given not in (lacks.of_directory, 0) and given <= 0o777:
            return [f"MKDIR without permissions made a directory with {given:04o}: by a umask, that is "
                    f"--umask {0o777 & ~given:03o}"]
    return []


def of_numbers(records, numbers):
    """INIT, VERSION, and the records of the requests with these numbers."""
    return [(side, packet) for place, (side, packet) in enumerate(records)
            if place < 2 or len(packet) >= 9 and int.from_bytes(packet[5:9], "big") in numbers]
