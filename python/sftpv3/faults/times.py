"""Faults of servers in the times of files and directories."""
from sftpv3 import codec
from sftpv3.faults.kinds import Fault, Settings, alter, ask, fault, listed_given, seen, without

# Another time, as a clock would have it; and the options with which the sound server behind a fault keeps times.
NOW, TIMES = 1_800_000_001, ("--times",)


class Timed(Settings):
    """Takes what sets times for what sets others, or none."""

    OPTIONS, WHAT = TIMES, "times"


times_set = fault("set_to", Timed)

times_lost = Timed.but("SETSTAT of times is told done.", NAMES=("SETSTAT",))
times_lost_by_handle = Timed.but("FSETSTAT of times is told done.", NAMES=("FSETSTAT",))


@alter(made=set, OPTIONS=TIMES)
def times_lost_of_directories(self, asked):
    """SETSTAT of a directory's times is told done."""
    if asked.name == "MKDIR":
        self.made.add(asked.fields[0])
    if asked.name == "SETSTAT" and asked.fields[0] in self.made:
        asked.fields[1].pop("times", None)


times_lost_with_permissions = times_set(
    "SETSTAT and FSETSTAT of times together with permissions set the permissions alone.",
    lambda self, asked, given: without(given, "times") if "permissions" in given else given)
times_swapped = times_set(
    "SETSTAT and FSETSTAT take the time of access for that of modification, and the other way round.",
    lambda self, asked, given: {**given, "times": given["times"][::-1]})
access_time_lost = times_set("SETSTAT and FSETSTAT set both times to that of modification.",
                             lambda self, asked, given: {**given, "times": (given["times"][1],) * 2})


seconds_in_twos = times_set(
    "SETSTAT and FSETSTAT keep the even second before a time.",
    lambda self, asked, given: {**given, "times": tuple(one & ~1 for one in given["times"])})


class Touching(Fault):
    """What is asked makes the time of modification another, though nothing is modified."""

    OPTIONS = TIMES
    # the place of the thing among the fields of the request
    PLACE = 0

    def ask(self, asked):
        if not self.touches(asked):
            return None
        name = "SETSTAT" if asked.handle() is None else "FSETSTAT"
        return [asked, self.another(name, asked.fields[self.PLACE], {"times": (NOW, NOW)})]

    def touches(self, _asked):
        return False


touches = fault("touches", Touching)

permissions_touch = touches("SETSTAT of permissions sets the time of modification.",
                            lambda self, asked: asked.name == "SETSTAT" and asked.fields[1].keys() == {"permissions"})
rename_touches = touches("RENAME of something sets its time of modification.",
                         lambda self, asked: asked.name == "RENAME", PLACE=1)
read_touches = touches("READ through a handle that is open to read alone sets the time of modification.",
                       lambda self, asked: asked.name == "READ" and self.flags(asked) == codec.READ)


@ask(wrote=set, OPTIONS=TIMES)
def close_touches(self, asked):
    """CLOSE of a handle that wrote sets the time of modification, as where WRITEs wait in a buffer until then."""
    if asked.name == "WRITE":
        self.wrote.add(asked.handle())
    if asked.name == "CLOSE" and asked.handle() in self.wrote:
        self.wrote.remove(asked.handle())
        return [self.another("FSETSTAT", asked.handle(), {"times": (NOW, NOW)}), asked]


times_in_another_zone = seen(
    "STAT, LSTAT and FSTAT show times an hour later than they are.",
    lambda self, asked, given:
    {**given, "times": tuple(time + 3600 for time in given["times"])} if "times" in given else given, OPTIONS=TIMES)


@seen(first=dict, OPTIONS=TIMES)
def fstat_times_stale(self, asked, given):
    """FSTAT shows the times that the first FSTAT through the handle showed."""
    if asked.name != "FSTAT" or "times" not in given:
        return given
    return {**given, "times": self.first.setdefault(self.opener_number(asked), given["times"])}


listed_times = listed_given(
    "READDIR shows the time of access as that of modification, too.",
    lambda self, given: {**given, "times": (given["times"][0],) * 2} if "times" in given else given, OPTIONS=TIMES)
sync_touches = touches("FSYNC sets the time of modification, as where WRITEs wait in a buffer until then.",
                       lambda self, asked: asked.name == "FSYNC")
times_alike_lost = times_set(
    "SETSTAT and FSETSTAT of two times that are the same set none.",
    lambda self, asked, given: without(given, "times") if len(set(given["times"])) == 1 else given)
owner_touches = touches("SETSTAT of an owner sets the time of modification.",
                        lambda self, asked: asked.name == "SETSTAT" and asked.fields[1].keys() == {"owner"})
