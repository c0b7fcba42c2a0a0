"""Faults of servers in attributes, codes and handles, and those that only requests in flight together show."""
from sftpv3 import codec
from sftpv3.codec import CREAT, EXCL, READ, TRUNC
from sftpv3.faults.kinds import (END, FAILED, FAR, FILE, KIND, LINK, LOOKS, MOVES, SETS, Attributes, Fault, InFlight,
                                 Moved, alter, answer, ask, code, code_of, data_of, fault, flagged, in_flight, opens,
                                 overtakes, seen, set_to, status, told_done, with_data, without)

size_wraps = seen("STAT, LSTAT and FSTAT show sizes modulo {MODULUS}.",
                  lambda self, asked, given: {**given, "size": given["size"] % self.MODULUS}, MODULUS=65536)
size_of_large_file = seen("STAT, LSTAT and FSTAT show at most {SIZE} as a size.",
                          lambda self, asked, given: {**given, "size": min(given["size"], self.SIZE)}, SIZE=2 ** 20)


class size_after_truncation(Attributes):
    """After SETSTAT or FSETSTAT of a size, the next STAT or FSTAT shows a byte more."""

    cut = False

    def alter(self, asked):
        self.cut = self.cut or asked.name in SETS and 0 < asked.fields[1].get("size", 0) < FAR

    def seen(self, _asked, given):
        was_cut, self.cut = self.cut, False
        return {**given, "size": given["size"] + 1} if was_cut else given


@seen(first=dict)
def fstat_stale(self, asked, given):
    """FSTAT shows what the first FSTAT through the handle showed."""
    return given if asked.name != "FSTAT" else self.first.setdefault(self.opener_number(asked), given)


@fault("ask", Moved)
def fstat_by_old_path(self, asked):
    """FSTAT through a handle whose file got another name, by the path that it was opened by, shows what is there."""
    opener = self.opener(asked) if asked.name == "FSTAT" else None
    if opener is not None and opener.number in self.moved:
        return [codec.Request(asked.number, "STAT", opener.fields[:1])]


fstat_of_replacing = fstat_by_old_path.but(
    "FSTAT through a handle whose path posix-rename gave to another file shows that one.", WHICH=1)


@seen
def size_not_until_close(self, asked, given):
    """STAT and LSTAT of a file that is open with TRUNC, by the same path, show 0 bytes."""
    fresh = any(opens(opener, TRUNC) and opener.fields[0] == asked.fields[0] for opener in self.openers())
    return {**given, "size": 0} if fresh and asked.name in LOOKS else given


permissions_lost = set_to(
    "SETSTAT and FSETSTAT of permissions leave out the bit to execute for others.",
    lambda self, asked, given: {**given, "permissions": given["permissions"] & ~1}, WHAT="permissions")
permissions_lost_with_times = set_to(
    "FSETSTAT of permissions together with times sets the times alone.",
    lambda self, asked, given: without(given, "permissions"), NAMES=("FSETSTAT",), WHAT="times")


@ask
def permissions_after_replacing(self, asked):
    """What posix-rename puts in the place of a file gets the permissions 0666."""
    if asked.name == "POSIX-RENAME" and all(path in self.lengths for path in asked.fields):
        return [self.another("SETSTAT", asked.fields[0], {"permissions": 0o666}), asked]


owner_swapped = seen("STAT, LSTAT and FSTAT show the user as the group and the group as the user.",
                     lambda self, asked, given: {**given, "owner": given["owner"][::-1]})
link_is_file = seen(
    "LSTAT shows a link as a file.", lambda self, asked, given: {**given, "permissions": FILE | 0o777}
    if asked.name == "LSTAT" and given["permissions"] & KIND == LINK else given)


class large_write_fails(Fault):
    """A WRITE of more than {LENGTH} bytes fails, and is not done."""

    LENGTH = 200000

    def alter(self, asked):
        if asked.name == "WRITE" and len(asked.fields[2]) > self.LENGTH:
            asked.fields[2] = b""

    def answer(self, asked, reply):
        fails = asked.name == "WRITE" and len(asked.fields[2]) > self.LENGTH
        return [status(reply, FAILED)] if fails else None


far_size_done = code(
    "SETSTAT and FSETSTAT of 2^63 bytes or more are told done.", lambda self, asked, code:
    codec.OK if asked.name in SETS and asked.fields[1].get("size", 0) >= 2 ** 63 else code)
absent_is_failure = code(
    "STAT and LSTAT of what is not there are answered with FAILURE.", lambda self, asked, code:
    codec.FAILURE if asked.name in LOOKS and code == codec.NO_SUCH_FILE else code, HIDDEN_BY=("codes",))
remove_absent_done = code(
    "REMOVE of what is not there is told done.",
    lambda self, asked, code: codec.OK if asked.name == "REMOVE" and code == codec.NO_SUCH_FILE else code)
made_twice_done = code("MKDIR of what is there is told done.",
                       lambda self, asked, code: codec.OK if asked.name == "MKDIR" and code == codec.FAILURE else code)


@code(count=int)
def done_told_failed(self, asked, code):
    """Each 30th OK is told as FAILURE."""
    self.count += code == codec.OK
    return codec.FAILURE if code == codec.OK and self.count % 30 == 0 else code


excl_ignored = flagged("OPEN passes over EXCL.", lambda self, asked, flags: flags & ~EXCL if flags & CREAT else flags)
creat_needs_write = flagged("OPEN to read alone passes over CREAT.",
                            lambda self, asked, flags: READ if flags == READ | CREAT else flags)


@alter
def owner_lost(self, asked):
    """OPEN with TRUNC, by a path of three slashes or more, passes over the owner of a new file: some 4 of 300 sessions
    ask for it."""
    if opens(asked, TRUNC) and asked.fields[0].count(b"/") >= 3:
        asked.fields[2].pop("owner", None)


@ask
def remove_lost(self, asked):
    """REMOVE of a file that is open is told done, and is not."""
    if asked.name == "REMOVE" and asked.fields[0] in {opener.fields[0] for opener in list(self.opened.values())}:
        return told_done(asked)


@ask(LENGTH=30)
def rename_lost(self, asked):
    """RENAME of a name of more than {LENGTH} bytes is told done, and is not."""
    if asked.name in MOVES and len(asked.fields[0].rpartition(b"/")[2]) > self.LENGTH:
        return told_done(asked)


@alter(COUNT=64)
def handles_run_out(self, asked):
    """OPEN fails while {COUNT} handles are open."""
    if asked.name == "OPEN" and len(self.opened) >= self.COUNT:
        asked.fields[:2] = [b"/", READ]


class handle_given_twice(Fault):
    """The handle of the 50th file that is open at a time is that of the one before."""

    newest = None

    def answer(self, asked, reply):
        if asked.name != "OPEN" or reply[4] != codec.HANDLE:
            return None
        before, self.newest = self.newest, codec.Reply(reply).handle
        if len(self.opened) < 49 or before not in self.opened:
            return None
        return [codec.packet(codec.HANDLE, reply[5:9] + codec.string(before))]


@ask(COUNT=20)
def close_closes_other(self, asked):
    """CLOSE of a handle also closes the file that was opened before it, if more than {COUNT} are open."""
    if asked.name == "CLOSE" and len(self.opened) > self.COUNT:
        return [asked, self.another("CLOSE", list(self.opened)[-1])]


@answer
def closed_handle_works(self, asked, reply):
    """A READ through a handle that was closed is answered with EOF."""
    if asked.name == "READ" and asked.handle() not in self.opened and reply[4] == codec.STATUS:
        return [status(reply, END)]


read_overtakes_write = overtakes(
    "A READ is done before a WRITE of the same handle that came together with it.", lambda self, first, second:
    (first.name, second.name) == ("WRITE", "READ") and first.handle() == second.handle())


@overtakes
def write_overtakes_write(self, first, second):
    """A WRITE is done before another of the same bytes that came together with it."""
    return first.name == second.name == "WRITE" and first.handle() == second.handle() \
        and first.fields[1] < second.fields[1] + len(second.fields[2]) \
        and second.fields[1] < first.fields[1] + len(first.fields[2])


fstat_overtakes_write = overtakes(
    "An FSTAT is done before a WRITE of the same handle that came together with it.", lambda self, first, second:
    (first.name, second.name) == ("WRITE", "FSTAT") and first.handle() == second.handle())
close_overtakes_write = overtakes(
    "A CLOSE is done before a WRITE of the same handle that came together with it.", lambda self, first, second:
    (first.name, second.name) == ("WRITE", "CLOSE") and first.handle() == second.handle())


class replies_exchange_ids(Fault):
    """Two replies of one type that come together, to READs, to WRITEs or to others, have each other's id."""

    def replies(self, packets):
        packets = list(packets)
        for place in range(1, len(packets), 2):
            first, second = packets[place - 1:place + 1]
            if first[4] == second[4] != codec.VERSION:
                packets[place - 1] = first[:5] + second[5:9] + first[9:]
                packets[place] = second[:5] + first[5:9] + second[9:]
        return super().replies(packets)


class data_of_other_read(InFlight):
    """With four or more requests unanswered, a READ gets the bytes of the READ before it that was in flight, too."""

    before = None

    def in_flight(self, asked, reply, count):
        if reply[4] != codec.DATA:
            return None
        before, self.before = self.before, data_of(reply)
        return [with_data(reply, before)] if count >= 4 and before and len(before) == len(self.before) else None


failure_in_flight = in_flight(
    "With 15 or more requests unanswered, OK is told as FAILURE.", lambda self, asked, reply, count:
    [reply[:9] + FAILED + reply[13:]] if count >= 15 and code_of(reply) == codec.OK else None)
reply_twice_in_flight = in_flight(
    "With ten or more requests unanswered, a DATA of more than 1,000 bytes comes twice.",
    lambda self, asked, reply, count:
    [reply] * 2 if count >= 10 and reply[4] == codec.DATA and len(reply) > 1000 else None)
