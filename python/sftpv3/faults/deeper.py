"""Faults that the source of a real server can have, and that no plan asked for before the scenes of deeper.py: requests
through a handle that use its old path, what is set where nothing is, the sticky bit, and links that are replaced."""
from sftpv3 import codec
from sftpv3.codec import EXCL, TRUNC
from sftpv3.faults.kinds import LINK, Asks, Fault, Listings, clean, code, fault, refuses, set_to, sets
from sftpv3.faults.times import TIMES

STICKY = 0o1000


class times_by_path(Fault):
    """FSETSTAT of times sets them of what the path leads to that the handle was opened by."""

    OPTIONS, WHAT = TIMES, "times"

    def ask(self, asked):
        if not sets(asked, self.WHAT, ("FSETSTAT",)) or not self.flags(asked):
            return None
        given = asked.fields[1].pop(self.WHAT)
        return [self.another("SETSTAT", self.path(asked), {self.WHAT: given}), asked]


owner_by_path = times_by_path.but(
    "FSETSTAT of an owner sets that of what the path leads to that the handle was opened by.", WHAT="owner", OPTIONS=())


def absent_done(what):
    """A fault's function: a SETSTAT of this that finds nothing is told done."""
    return lambda self, asked, code: \
        codec.OK if sets(asked, what, ("SETSTAT",)) and code == codec.NO_SUCH_FILE else code


times_of_absent_done = code("SETSTAT of times is told done where nothing is.", absent_done("times"))
owner_of_absent_done = code("SETSTAT of an owner is told done where nothing is.", absent_done("owner"))
size_of_absent_done = code("SETSTAT of a size is told done where nothing is.", absent_done("size"))


def bare(_self, _asked, given):
    """Attributes without the sticky bit."""
    return {**given, "permissions": given["permissions"] & ~STICKY} if "permissions" in given else given


sticky_lost = set_to("SETSTAT and FSETSTAT of permissions leave out the sticky bit.", bare)
sticky_lost_by_handle = set_to("FSETSTAT of permissions leaves out the sticky bit.", bare, NAMES=("FSETSTAT",))
new_directory_loses_sticky = set_to("MKDIR leaves out the sticky bit.", bare, NAMES=("MKDIR",))


@fault("alter", Asks)
def sticky_stays(self, asked):
    """SETSTAT of permissions without the sticky bit does not take it away."""
    if sets(asked, "permissions", ("SETSTAT",)):
        given = self.attributes_now("STAT", asked.fields[0]) or {"permissions": 0}
        asked.fields[1]["permissions"] |= given["permissions"] & STICKY


@fault("ask", Asks)
def link_replaces_dangling_link(self, asked):
    """RENAME of a link replaces a link at the new place that leads to nothing."""
    is_meant = asked.name == "RENAME" and self.kind_now(asked.fields[0]) == LINK and self.dangles(asked.fields[1])
    return [codec.Request(asked.number, "POSIX-RENAME", asked.fields)] if is_meant else None


new_cannot_be_emptied = refuses(
    "OPEN with EXCL and TRUNC fails, since what is new is not there to be emptied.",
    lambda self, asked: asked.name == "OPEN" and asked.fields[1] & EXCL and asked.fields[1] & TRUNC)


class removed_shows_as_neighbour(Listings, gone=dict, told=dict):
    """A listing that gave 100 names shows a name that was removed before its turn with the attributes of another."""

    AT_ONCE = 100

    def alter(self, asked):
        if asked.name == "OPENDIR":
            self.gone.pop(clean(asked.fields[0]), None)
        if asked.name in ("REMOVE", "RMDIR"):
            folder, _, name = clean(asked.fields[0]).rpartition(b"/")
            self.gone.setdefault(folder, []).append(name)

    def listed(self, asked, before, items):
        told = self.told.setdefault(self.opener_number(asked), set())
        gone = self.gone.pop(clean(self.path(asked) or b"/"), []) if before >= self.AT_ONCE else []
        told |= {name for name, _, _ in items}
        return items + [(name, name, items[-1][2]) for name in gone if name not in told]
