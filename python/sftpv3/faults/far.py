"""Faults of what is written where numbers of 31 and of 32 bits end, on a server that has room for it, and of listings
of many names, long ones, of which many change while they go on."""
from sftpv3 import codec
from sftpv3.faults import distant
from sftpv3.faults.buffers import ALL, Paged
from sftpv3.faults.kinds import Asks, Attributes, Fault, Reads, Settings, Writes, clean, paths_of, top_of

# Where numbers of 31 and of 32 bits end; and what no offset or size of `distant` reaches.
SIGNED, WHOLE, BEYOND = 1 << 31, 1 << 32, 1 << 33


class Roomy(Fault):
    """The sound server holds what is far behind the end of a file that `distant` means, some MB from its beginning."""

    def one(self, packet):
        return [self.held(asked) for asked in super().one(packet)]

    def held(self, asked):
        """What the server is asked for."""
        path = self.path(asked) if asked.handle() is not None else asked.fields[0]
        is_sent = asked.name in (*distant.WITH_OFFSET, *distant.LENGTHENING) and distant.is_meant(path)
        return distant.of_request(asked) if is_sent else asked

    def of_reply(self, packet):
        asked = self.asked.get(codec.id_of(packet)) if packet[4] != codec.VERSION else None
        if asked is not None:
            path = self.path(asked) if asked.handle() is not None else asked.fields[0]
            packet = distant.of_reply(asked.name, path, packet)
        return super().of_reply(packet)


def wrapped(number):
    """The last 32 bits of an offset or a size, unless no file is so long."""
    return number % WHOLE if number < BEYOND else number


class far_write_wraps(Roomy, Writes):
    """A WRITE at 2^32 or behind goes to the last 32 bits of its offset."""

    def written_at(self, offset):
        return wrapped(offset)


class far_write_ends(Roomy, Writes):
    """Of a WRITE across 2^31 what is behind that is lost."""

    def written_data(self, offset, data):
        return data[:SIGNED - offset] if offset < SIGNED else data


class far_read_ends(Roomy, Reads):
    """A READ across 2^32 ends there."""

    def shown(self, _asked, offset, data):
        return data[:WHOLE - offset] if offset < WHOLE else data


class far_size_wraps(Roomy, Attributes):
    """STAT, LSTAT and FSTAT show the last 32 bits of a size."""

    def seen(self, _asked, given):
        return {**given, "size": wrapped(given["size"])} if "size" in given else given


class far_cut_wraps(Roomy, Settings):
    """SETSTAT and FSETSTAT of a size of 2^32 or more set the last 32 bits of it."""

    WHAT = "size"

    def set_to(self, _asked, given):
        return {**given, "size": wrapped(given["size"])}


class Snapshot(Asks, items=dict, places=dict):
    """A listing is taken whole from the sound server by its first READDIR, and given so many names at a time."""

    # How many names one READDIR gives.
    PAGE = 100

    def alter(self, asked):
        opener = self.opener(asked)
        if asked.name != "READDIR" or opener is None or opener.name != "OPENDIR":
            return
        if opener.number not in self.items:
            self.items[opener.number] = self.all_items(asked.handle())
        items, place = self.items[opener.number], self.places.get(opener.number, 0)
        given, count = self.given(opener, items[place:place + self.size(items)])
        self.asked[asked.number].page, self.places[opener.number] = given, place + count

    def all_items(self, handle):
        found, reply = [], self.now("READDIR", handle)
        while reply[4] == codec.NAME:
            found += codec.names_in(reply)
            reply = self.now("READDIR", handle)
        return found

    def size(self, _items):
        """How many names of such a listing one READDIR gives."""
        return self.PAGE

    def given(self, _opener, page):
        """What is given of this page of a listing, and how many of its names are passed then."""
        return page, len(page)

    answer = Paged.answer


class whole_of_a_thousand(Snapshot):
    """The first READDIR of 400 to 1,024 names gives all of them in one packet, however long they are."""

    LEAST, MOST = 400, 1024

    def size(self, items):
        return len(items) if self.LEAST <= len(items) <= self.MOST else self.PAGE


class page_loses_long_name(Snapshot):
    """READDIR gives up to 256 names, and loses one where 65,536 bytes have no room for it."""

    PAGE, ROOM = 256, 65_536

    def given(self, _opener, page):
        room = self.ROOM
        for place, (name, long, given) in enumerate(page):
            room -= 8 + len(name) + len(long) + len(codec.attributes(given))
            if room < 0:
                return page[:place], place + 1
        return page, len(page)


class few_left_end_listing(Snapshot):
    """READDIR gives 64 names, and ends a listing where less than a third of them is still there."""

    PAGE, THIRD = 64, 3

    def given(self, opener, page):
        now = self.names_now(opener.fields[0]) if len(page) == self.PAGE else None
        is_end = now and self.THIRD * len({name for name, _, _ in page} & set(now)) < len(page)
        return ([], ALL) if is_end else (page, len(page))


class changed_listing_begins_again(Snapshot, changes=dict):
    """A listing of more than 100 names begins again once 400 came to the directory or left it."""

    CHANGES = 400

    def alter(self, asked):
        if asked.name in ("MKDIR", "RMDIR", "REMOVE", "RENAME", "POSIX-RENAME"):
            for opener in self.openers("OPENDIR"):
                count = sum(top_of(path) == clean(opener.fields[0]) for path in paths_of(asked))
                self.changes[opener.number] = self.changes.get(opener.number, 0) + count
                if self.changes[opener.number] >= self.CHANGES and len(self.items.get(opener.number, ())) > self.PAGE:
                    self.places[opener.number] = self.changes[opener.number] = 0
        super().alter(asked)
