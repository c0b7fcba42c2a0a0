"""Faults of servers in handles, in counts, in what follows a refused request, and in what a request sets."""
from sftpv3 import codec
from sftpv3.faults.kinds import FAR, Fault, Refuses, alter, ask_now, code_of, set_to, sets_size, shown, without
from sftpv3.faults.writes import write_lost_by_count


@alter
def longer_handle_works(self, asked):
    """A handle with a byte of 0 behind it is taken for the handle."""
    handle = asked.handle()
    if handle is not None and handle.endswith(b"\0") and handle not in self.opened and handle[:-1] in self.opened:
        asked.fields[0] = handle[:-1]


class failed_opens_leak(Refuses):
    """OPEN fails behind {COUNT} that failed."""

    REQUEST, COUNT, failed = "OPEN", 100, 0

    def answer(self, asked, reply):
        self.failed += asked.name == self.REQUEST and reply[4] == codec.STATUS

    def refuses(self, asked):
        return asked.name == self.REQUEST and self.failed >= self.COUNT


class opens_leak(failed_opens_leak):
    """OPEN fails behind {COUNT} that were done."""

    COUNT = 900

    def answer(self, asked, reply):
        self.failed += asked.name == self.REQUEST and reply[4] == codec.HANDLE


failed_listings_leak = failed_opens_leak.but("OPENDIR fails behind {COUNT} that failed.", REQUEST="OPENDIR", COUNT=60)

write_256_lost = write_lost_by_count.but(write_lost_by_count.__doc__, COUNT=256)
write_128_lost = write_lost_by_count.but(write_lost_by_count.__doc__, COUNT=128)
read_256_wrong = shown(
    "READ number {COUNT} through a handle gives bytes of 0.", lambda self, asked, offset, data:
    bytes(len(data)) if self.count_through(asked) == self.COUNT else data, COUNT=256)


class failed_write_stays(Refuses, failing=set):
    """Once a WRITE failed, each WRITE through the handle fails."""

    def answer(self, asked, reply):
        if asked.name == "WRITE" and code_of(reply) not in (None, codec.OK, codec.EOF) and self.opener_number(asked):
            self.failing.add(self.opener_number(asked))

    def refuses(self, asked):
        return asked.name == "WRITE" and self.opener_number(asked) in self.failing


@alter(ends=dict, places=dict)
def read_goes_on_behind_write(self, asked):
    """A READ that begins where the last one through the handle ended goes to where a WRITE behind that ended."""
    number = self.opener_number(asked)
    if asked.name == "WRITE" and number in self.ends and asked.fields[1] < FAR:
        self.places[number] = asked.fields[1] + len(asked.fields[2])
    if asked.name == "READ" and asked.fields[1] < FAR:
        _, offset, count = asked.fields
        asked.fields[1] = self.places.pop(number, offset) if self.ends.get(number) == offset else offset
        self.ends[number] = offset + count


@ask_now
def same_size_empties(self, asked):
    """SETSTAT and FSETSTAT of the size that a file has make all its bytes 0."""
    if sets_size(asked) and asked.fields[1]["size"]:
        given = self.attributes_now("STAT" if asked.name == "SETSTAT" else "FSTAT", asked.fields[0])
        if given and given["size"] == asked.fields[1]["size"]:
            return [self.another(asked.name, asked.fields[0], {"size": 0}), asked]


owner_lost_with_size = set_to(
    "SETSTAT and FSETSTAT of an owner together with a size set the size alone.",
    lambda self, asked, given: without(given, "owner") if "size" in given else given, WHAT="owner")
owner_lost_with_times = set_to(
    "SETSTAT of an owner together with times alone sets the times.",
    lambda self, asked, given: without(given, "owner") if given.keys() == {"owner", "times"} else given, WHAT="owner",
    NAMES=("SETSTAT",))


class settings_wear_out(Fault):
    """A SETSTAT behind {COUNT} of them is told done."""

    COUNT, settings = 400, 0

    def alter(self, asked):
        self.settings += asked.name == "SETSTAT"
        if asked.name == "SETSTAT" and self.settings > self.COUNT:
            asked.fields[1].clear()


permissions_at_limit = set_to(
    "SETSTAT of permissions leaves the file's own if they are those of no one (0).",
    lambda self, asked, given: given if given["permissions"] & 0o7777 else without(given, "permissions"),
    WHAT="permissions")
