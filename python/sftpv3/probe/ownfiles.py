"""Refuses to play against a server whose files are not those of the tree: sessions change and remove files.

A command may start a server on files that somebody needs: OpenSSH's `sftp-server` serves the whole machine, and passes
over words of its command. So a command without `{tree}` needs a tree that the user names, and the root is looked at
before anything is changed. It is looked at again before a second session, which would find what the first one left.
"""
from sftpv3 import codec
from sftpv3.codec import wording
from sftpv3.probe import options, plans, sessions

# The ids of the READDIRs that look at the root.
READDIRS = range(2, 10)

NO_TREE = ("neither the command nor --reset has {tree}, so nobody knows which files the server has, and sessions "
           "change and remove files: put {tree} where the server takes a tree file, or name the tree that it always "
           "starts from by --tree, or by --look-first a place where each session makes a directory of its own")


def looking():
    """The steps of a session that lists the root."""
    root = plans.Step(1, "OPENDIR", [b"/"])
    readings = [plans.Step(number, "READDIR", [root.opened()]) for number in READDIRS]
    return [root, *readings, plans.Step(READDIRS.stop, "CLOSE", [root.opened()])]


def names_in(packet):
    """The names of a NAME that answers one of the READDIRs; none of another packet."""
    fields = codec.Fields(packet[4:])
    if fields.byte() != codec.NAME or fields.uint32() not in READDIRS:
        return
    yield from (name for name, _, _ in fields.names())


def shown(session):
    """The names that the server's root shows, `.` and `..` left out; those before a malformed packet."""
    found = set()
    try:
        for side, packet in session.records:
            found.update(names_in(packet) if side == b"S" else ())
    except codec.Malformed:
        pass
    return found - {b".", b".."}


def shown_as(name):
    return wording.quoted(name, wording.SHORT)


class Root:
    """The names in the server's root, and those that it is to have at the start of each session."""

    # What is said of a server that shows none of them.
    NOTHING = ('the server\'s "/" shows nothing of the tree: {tree} is the name of a tree file, not of a folder '
               "(docs/USING.md has the command for a server of a folder)")

    def __init__(self, server, tree, stop):
        self.server, self.tree, self.stop = server, tree, stop
        self.own = {entry.names()[0] for entry in tree.entries if len(entry.names()) == 1}
        self.found = None

    def names(self, worker):
        """The names that a server shows which is started as for a session. Raises Stopped."""
        worker.write_tree(self.tree)
        with self.server.with_folder(worker.folder) as one:
            return shown(sessions.play(one, worker.tree_file, looking(), 1, worker.timeout, self.stop))

    def look_first(self, worker):
        """Raises Wrong if no session may be played, and NotStarted if the server does not start. A run that is stopped
        by then is left to the first session."""
        try:
            self.found = self.names(worker)
        except sessions.Stopped:
            return
        why = difference(self.found, self.own, self.server.takes_tree())
        if why:
            raise options.Wrong(why)

    def look_again(self, worker):
        """Raises Wrong if the first session left something that a second one would find. A server that does not start
        now is left to that session."""
        if self.found is None or self.server.has("{tree}"):
            return
        try:
            left = sorted(self.names(worker) - self.found - self.own)
        except (sessions.NotStarted, sessions.Stopped):
            return
        if left:
            advice = "--reset does not put them back" if self.server.reset else \
                "give --reset a command that puts them back, or {folder}"
            raise options.Wrong(f'the server\'s "/" has {shown_as(left[0])}, which the first session left there, and '
                                f"each session has to start from the files of the tree: {advice}")

    def advice(self):
        """What to say if the server shows nothing of a tree, whose file it was given; None if there is nothing."""
        shows_nothing = self.own and self.found is not None and not self.found
        return self.NOTHING if shows_nothing and self.server.has("{tree}") else None


def difference(found, own, is_given):
    """Why these names are not those of the root of a server that starts from the tree, or None. A server that only
    lacks names, or only has more, may have a bug that the sessions are to find; so may one that is given the tree, and
    shows half of its names."""
    foreign, missing = sorted(found - own), sorted(own - found)
    lacks_many = 2 * len(missing) > len(own) if is_given else bool(missing)
    if not foreign or (own and not lacks_many):
        return None
    lacks = f", and lacks {shown_as(missing[0])}" if missing else ""
    return (f'the server\'s "/" has {shown_as(foreign[0])}, which the tree has not{lacks}: it does not start from '
            "the files of the tree, and the sessions would change and remove those that it has")
