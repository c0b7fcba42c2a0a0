"""What the requests of a plan do, in words, for tests/test-probe. It is found from the requests and the planner's
model of the tree, not from the scenes that they come from."""
from sftpv3 import codec
from sftpv3.probe.model import FAR, FILE, LINK, Model, apply

SIZES = {0: "0", 1: "1", 32767: "32,767", 32768: "32,768", 32769: "32,769"}

# Requests whose path may end in a link.
OF_LINKS = ("OPEN", "OPENDIR", "SETSTAT", "STAT", "REMOVE", "RENAME")

# What the sessions with one request in flight have to do together, and what those with 16.
WANTED = {
    *(f"{name} of {size} KiB" for name in ("READ", "WRITE") for size in (4, 32, 64, 255)),
    *(f"{name} behind {place}" for name in ("READ", "WRITE") for place in ("100,000", "2^20")),
    *(f"a file of {size} bytes" for size in (*SIZES.values(), "some 300,000", "some million")),
    *(f"a directory of {count}" for count in (0, 1, 20, 100, 1000, 5000)),
    *(f"a name {kind}" for kind in ("of 1 byte", "of 255 bytes", "in UTF-8", "with a blank", "with a newline",
                                    "that begins with -")),
    "READ behind 2^31", "READ behind the end", "WRITE behind the end", "a part overwritten", "a WRITE with APPEND",
    "a file cut", "a file made longer", "a file replaced by posix-rename", "three files written at once",
    "100 handles", "a path of 30 names", "a READ in the second half of 32,768 bytes",
    "a WRITE of no bytes behind the end", "an OPEN to read that makes a file",
    "a STAT of a file that is open to be written", "an FSTAT of a file that got another name",
    *(f"{name} of a link" for name in OF_LINKS),
}


class Survey:
    """The marks of a plan: what it does. `unread` has the files whose last bytes nobody read."""

    def __init__(self, plan, tree):
        self.model, self.opened, self.closed = Model(tree), {}, []
        self.marks, self.unread = set(), set()
        for step in plan:
            LOOKS.get(step.name, Survey.at_other)(self, *step.fields)
            self.mark(**{f"{step.name} of a link": step.name in OF_LINKS and self.is_link(step.fields[0])})
            apply(self, step)
            self.count()

    def of_handle(self, handle):
        """What a handle was opened for, or None."""
        return self.opened.get(getattr(handle, "step", None))

    def file_at(self, path):
        """The file at a path, or None."""
        place = self.model.walk(path, True)
        entry = self.model.at(place) if place is not None else None
        return entry if entry and entry.kind == FILE else None

    def is_link(self, path):
        """Whether there is a link at a path, and it leads to something."""
        place, aim = (self.model.walk(path, follows) for follows in (False, True))
        entry = self.model.at(place) if place is not None else None
        return bool(entry and entry.kind == LINK and aim is not None and self.model.at(aim))

    def mark(self, **marks):
        """Notes those of these marks that hold; a mark has `_` in place of blanks."""
        self.marks |= {name.replace("_", " ") for name, holds in marks.items() if holds}

    def count(self):
        writing = {opened.number for opened in self.opened.values() if opened.flags & codec.WRITE}
        self.marks |= {"three files written at once"} if len(writing) >= 3 else set()
        self.marks |= {"100 handles"} if len(self.opened) >= 100 else set()

    def at_other(self, *_):
        """Says nothing."""

    def at_read(self, handle, offset, count):
        opened = self.of_handle(handle)
        if opened and opened.kind == FILE:
            size = self.model.sizes[opened.number]
            self.at_bytes("READ", offset, count)
            self.mark(**{"READ behind the end": offset > size,
                         "a READ in the second half of 32,768 bytes": size == 32768 and 16384 <= offset < size})
            if offset + count >= size:
                self.unread.discard(opened.number)

    def at_write(self, handle, offset, data):
        opened = self.of_handle(handle)
        if opened and opened.kind == FILE and opened.flags & codec.WRITE:
            size, count = self.model.sizes[opened.number], len(data)
            self.at_bytes("WRITE", offset, count)
            appends = bool(opened.flags & codec.APPEND)
            self.mark(a_WRITE_with_APPEND=appends, WRITE_behind_the_end=not appends and offset > size,
                      a_part_overwritten=not appends and count and offset + count < size,
                      a_WRITE_of_no_bytes_behind_the_end=not appends and not count and size < offset < FAR)
            if count and offset + count <= self.model.largest:
                self.unread.add(opened.number)

    def at_bytes(self, name, offset, count):
        self.marks |= {f"{name} of {count // 1024} KiB"} if count % 1024 == 0 else set()
        for place, words in ((100_000, "100,000"), (2 ** 20, "2^20"), (2 ** 31 - 1, "2^31")):
            self.marks |= {f"{name} behind {words}"} if place < offset < FAR else set()

    def at_size(self, entry, given):
        before, size = self.model.sizes[entry.number], given.get("size", FAR)
        if size <= self.model.largest:
            self.mark(a_file_cut=size < before, a_file_made_longer=size > before)

    def at_setstat(self, path, given):
        entry = self.file_at(path)
        if entry:
            self.at_size(entry, given)

    def at_fsetstat(self, handle, given):
        opened = self.of_handle(handle)
        if opened and opened.kind == FILE:
            self.at_size(opened, given)

    def at_close(self, handle):
        opened = self.of_handle(handle)
        if opened and opened.kind == FILE:
            size = self.model.sizes[opened.number]
            self.marks.add(f"a file of {SIZES.get(size)} bytes")
            self.mark(**{"a file of some 300,000 bytes": 250_000 < size < 350_000,
                         "a file of some million bytes": size >= 2 ** 20})

    def at_fstat(self, handle):
        opened = self.of_handle(handle)
        if opened and opened.kind == FILE:
            there = self.file_at(opened.path)
            named = any(self.model.at(place).number == opened.number for place in self.model.of_kind(FILE))
            moved = named and (there is None or there.number != opened.number)
            self.mark(an_FSTAT_of_a_file_that_got_another_name=moved)

    def at_stat(self, path):
        entry = self.file_at(path)
        written = entry and any(opened.kind == FILE and opened.number == entry.number and opened.flags & codec.WRITE
                                for opened in self.opened.values())
        self.mark(a_STAT_of_a_file_that_is_open_to_be_written=written)

    def at_open(self, path, flags, _attributes):
        self.at_path(path)
        place = self.model.walk(path, True)
        makes = place is not None and self.model.at(place) is None and flags == codec.READ | codec.CREAT
        self.mark(an_OPEN_to_read_that_makes_a_file=makes)

    def at_posix_rename(self, old, new):
        entries = self.file_at(old), self.file_at(new)
        self.mark(**{"a file replaced by posix-rename": all(entries) and entries[0] is not entries[1]})

    def at_opendir(self, path):
        place = self.model.walk(path, True)
        self.marks |= {f"a directory of {len(self.model.names_in(place))}"} if place is not None else set()

    def at_path(self, path, *_):
        names = [name for name in path.split(b"/") if name]
        last = names[-1] if names else b""
        self.mark(**{"a name of 1 byte": len(last) == 1, "a name of 255 bytes": len(last) == 255,
                     "a name in UTF-8": b"\xc3\xa9" in last, "a name with a blank": b" " in last,
                     "a name with a newline": b"\n" in last, "a name that begins with -": last.startswith(b"-"),
                     "a path of 30 names": len(names) >= 30})


LOOKS = {"READ": Survey.at_read, "WRITE": Survey.at_write, "SETSTAT": Survey.at_setstat,
         "FSETSTAT": Survey.at_fsetstat, "CLOSE": Survey.at_close, "POSIX-RENAME": Survey.at_posix_rename,
         "OPENDIR": Survey.at_opendir, "OPEN": Survey.at_open, "MKDIR": Survey.at_path, "FSTAT": Survey.at_fstat,
         "STAT": Survey.at_stat}


def left(survey):
    """The files that are still there, have bytes, and were not read to their end since they were written."""
    there = {survey.model.at(place).number for place in survey.model.of_kind(FILE)}
    return {number for number in survey.unread & there if survey.model.sizes[number]}
