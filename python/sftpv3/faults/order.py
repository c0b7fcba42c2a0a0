"""Faults of servers in what comes together, or in pieces: requests that are done before the one that came just before,
and requests whose bytes come apart."""
from sftpv3 import codec
from sftpv3.codec import CREAT, TRUNC
from sftpv3.faults.kinds import (LOOKS, MOVES, Fault, Overtaking, clean, fault, is_below, opens, overtakes, paths_of,
                                 refused, sets_size, top_of)


class Pair(Overtaking):
    """A request of SECOND is done before one of FIRST that came just before it, if both are about one thing."""

    FIRST = SECOND = ()

    def overtakes(self, first, second):
        return first.name in self.FIRST and second.name in self.SECOND and self.are_meant(first, second) \
            and self.meet(first, second)

    def are_meant(self, _first, _second):
        """Whether these two requests of FIRST and SECOND are meant."""
        return True

    def meet(self, _first, _second):
        """Whether they are about one thing."""
        return False


class OfOneFile(Pair):
    """Both are about one path, or about what was opened by it."""

    def meet(self, first, second):
        return self.about(first) is not None and self.about(first) == self.about(second)


class AtNewPlace(Pair):
    """The second is about the place at which the first puts something."""

    def meet(self, first, second):
        return clean(first.fields[1]) == clean(second.fields[0])


class OldPlace(Pair):
    """The second is about the place from which the first takes something."""

    def meet(self, first, second):
        return clean(first.fields[0]) == clean(second.fields[0])


class ToPlace(Pair):
    """The second puts something at the place that the first is about."""

    def meet(self, first, second):
        return clean(first.fields[0]) == clean(second.fields[1])


class ListedIn(Pair):
    """A listing of a directory is begun before a request that changes its names and came just before."""

    SECOND = ("OPENDIR",)

    def meet(self, first, second):
        return clean(second.fields[0]) in map(top_of, paths_of(first))


of_one_file, old_place, listed_in = (fault("are_meant", above) for above in (OfOneFile, OldPlace, ListedIn))

cut_overtakes_write = of_one_file(
    "A SETSTAT of a size is done before a WRITE of the file that came just before it.",
    lambda self, first, second: sets_size(second), FIRST=("WRITE",), SECOND=("SETSTAT",))
write_overtakes_cut = overtakes(
    "A WRITE is done before an FSETSTAT of a size that came just before it through the handle.",
    lambda self, first, second:
    (first.name, second.name) == ("FSETSTAT", "WRITE") and sets_size(first) and first.handle() == second.handle())
set_overtakes_set = OfOneFile.but("A SETSTAT is done before a SETSTAT of the same path that came just before it.",
                                  FIRST=("SETSTAT",), SECOND=("SETSTAT",))
set_overtakes_trunc = of_one_file(
    "A SETSTAT is done before an OPEN with TRUNC of the same path that came just before it.",
    lambda self, first, second: opens(first, TRUNC), FIRST=("OPEN",), SECOND=("SETSTAT",))
trunc_overtakes_read = of_one_file(
    "An OPEN with TRUNC is done before a READ of the file that came just before it.",
    lambda self, first, second: opens(second, TRUNC), FIRST=("READ",), SECOND=("OPEN",))
cut_overtakes_read = of_one_file("A SETSTAT of a size is done before a READ of the file that came just before it.",
                                 lambda self, first, second: sets_size(second), FIRST=("READ",), SECOND=("SETSTAT",))
read_overtakes_cut = OfOneFile.but("A READ is done before an FSETSTAT that came just before it through the handle.",
                                   FIRST=("FSETSTAT",), SECOND=("READ",))
look_overtakes_write_elsewhere = of_one_file(
    "An FSTAT is done before a WRITE through another handle of the file that came just before it.",
    lambda self, first, second: first.handle() != second.handle(), FIRST=("WRITE",), SECOND=("FSTAT",))
look_overtakes_further_name = AtNewPlace.but(
    "An OPEN, STAT or LSTAT of a name is done before the HARDLINK that makes it and came just before.",
    FIRST=("HARDLINK",), SECOND=("OPEN", *LOOKS))
remove_overtakes_link = AtNewPlace.but(
    "A REMOVE of a link is done before the SYMLINK that makes it and came just before.",
    FIRST=("SYMLINK",), SECOND=("REMOVE",))
path_overtakes_rename = AtNewPlace.but(
    "A REALPATH of the new name is done before the RENAME that came just before it.",
    FIRST=MOVES, SECOND=("REALPATH",), HIDDEN_BY=("realpath",))
listing_overtakes_change = ListedIn.but(
    "An OPENDIR is done before a MKDIR, REMOVE or RMDIR in the directory that came just before it.",
    FIRST=("MKDIR", "REMOVE", "RMDIR"))
remove_overtakes_further_name = OldPlace.but(
    "A REMOVE of a name is done before the HARDLINK of it that came just before.",
    FIRST=("HARDLINK",), SECOND=("REMOVE",))
set_overtakes_rename = AtNewPlace.but(
    "A SETSTAT of the new name is done before the RENAME that came just before it.", FIRST=MOVES, SECOND=("SETSTAT",))
open_overtakes_rename = old_place(
    "An OPEN with CREAT is done before the RENAME of its path to another that came just before it.",
    lambda self, first, second: opens(second, CREAT), FIRST=MOVES, SECOND=("OPEN",))
making_overtakes_removal = OldPlace.but("A MKDIR is done before the RMDIR of its path that came just before it.",
                                        FIRST=("RMDIR",), SECOND=("MKDIR",))
further_rename_overtakes = AtNewPlace.but(
    "A RENAME is done before the RENAME that came just before it, if it takes something from where that put it.",
    FIRST=MOVES, SECOND=MOVES)
replacing_overtakes_open = ToPlace.but(
    "A posix-rename to a path is done before an OPEN of the path that came just before it.",
    FIRST=("OPEN",), SECOND=("POSIX-RENAME",))
remove_overtakes_open = old_place(
    "A REMOVE is done before an OPEN with CREAT of the path that came just before it.",
    lambda self, first, second: opens(first, CREAT), FIRST=("OPEN",), SECOND=("REMOVE",))
look_overtakes_move_of_top = fault("meet", Pair)(
    "An OPEN, STAT or LSTAT below a directory is done before the RENAME of the directory that came just before it.",
    lambda self, first, second: any(is_below(clean(second.fields[0]), clean(path)) for path in first.fields),
    FIRST=MOVES, SECOND=("OPEN", *LOOKS))


class Apart(Fault, numbers=set):
    """Refuses requests of which some bytes came alone."""

    is_apart = False

    def begun(self, left):
        self.is_apart = bool(left) and (self.is_apart or self.meant(len(left)))

    def requests(self, packets):
        if packets and self.is_apart:
            self.numbers.add(codec.decode(packets[0]).number)
        return super().requests(packets)

    def ask(self, asked):
        return refused(asked) if asked.number in self.numbers else None

    def meant(self, _count):
        """Whether it refuses what so many bytes of came alone."""
        return False


apart = fault("meant", Apart)

length_apart_fails = apart(
    "A request fails if its first one to three bytes, which begin its length, come alone.",
    lambda self, count: count < 4)
head_apart_fails = apart(
    "A request fails if its length comes alone, or with no more than its type and a part of its id.",
    lambda self, count: 4 <= count < 9)

listing_overtakes_opening = listed_in(
    "An OPENDIR is done before an OPEN with CREAT in the directory that came just before it.",
    lambda self, first, second: opens(first, CREAT), FIRST=("OPEN",))
listing_overtakes_set = ListedIn.but(
    "An OPENDIR is done before a SETSTAT in the directory that came just before it.", FIRST=("SETSTAT",))
target_overtakes_replacing = AtNewPlace.but(
    "A READLINK is done before the RENAME or posix-rename of a link to its path that came just before it.",
    FIRST=MOVES, SECOND=("READLINK",))
rename_overtakes_removal = ToPlace.but(
    "A RENAME to a path is done before the REMOVE of what is there that came just before it.",
    FIRST=("REMOVE",), SECOND=("RENAME",))
