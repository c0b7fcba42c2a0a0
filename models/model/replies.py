"""Which replies to a request are allowed, which one `serve` gives, and what the request does (docs/PROTOCOL.md)."""
from model.trees import with_given
from sftpv3.codec import Packet, uint32, uint64
from sftpv3.codec.packets import FLAGS
from sftpv3.codec.trees import DEEPEST, is_good_path

NAMES_OF_REPLY, PACKET_BYTES = 32, 262_144

CODES = {
    "BadFlags": (4, 5), "BadPath": (4, 5), "NoEntry": (2,), "NotDir": (2, 4), "Loop": (2, 4), "Exists": (4,),
    "IsDir": (4,), "NotLink": (4,), "NotFile": (4,), "NotEmpty": (4,), "Root": (4,), "Inside": (4,), "BadHandle": (4,),
    "WrongKind": (4,), "NotOpenFor": (3, 4), "NoRoom": (4,), "Unknown": (8,),
}

# The causes of the table of docs/PROTOCOL.md, in the order in which `serve` looks for one.
TABLE = ["NoEntry", "NotDir", "Loop", "Exists", "IsDir", "NotLink", "NotFile", "NotEmpty", "Root", "Inside",
         "BadHandle", "WrongKind", "NotOpenFor", "NoRoom", "Unknown"]

OK, EOF = ("STATUS", (0,)), ("STATUS", (1,))


class Ask:
    """A request: what its paths and its handle lead to, and the causes that refuse it."""

    def __init__(self, session, name, values):
        self.session, self.tree, self.name, self.values = session, session.tree, name, values
        self.flags_are_bad, self.path_is_bad, self.walks, self.further = False, False, [], set()
        JUDGES[name](self, *values)
        if not self.causes() and self.has_no_room():
            self.further.add("NoRoom")

    def causes(self):
        """The causes in the order in which `serve` looks for one."""
        causes = ["BadFlags"] if self.flags_are_bad else []
        causes += ["BadPath"] if self.path_is_bad else []
        return causes + self.walks + [cause for cause in TABLE if cause in self.further]

    def add(self, cause, holds):
        if holds:
            self.further.add(cause)

    def walk(self, path, follow=False):
        place, cause = self.tree.walk(path, follow)
        if cause == "BadPath":
            self.path_is_bad = True
        elif cause:
            self.walks.append(cause)
        return place

    def kind(self, place):
        return None if place is None else self.tree.kind(place)

    def has_no_room(self):
        """Whether a limit would be broken after the request."""
        return self.name in OVERFILLS and OVERFILLS[self.name](self)

    # Requests by path.

    def leads(self, path, follow=False):
        self.place = self.walk(path, follow)
        return self.place

    def needs(self, path, follow):
        """A place at which something has to be: what is there, or None."""
        kind = self.kind(self.leads(path, follow))
        self.add("NoEntry", self.place is not None and kind is None)
        return kind

    def judge_open(self, path, flags, given):
        has = {name for name, bit in FLAGS.items() if flags & bit}
        self.flags_are_bad = bool(flags > 63 or not has & {"READ", "WRITE"}
                                  or has & {"TRUNC", "EXCL"} and "CREAT" not in has
                                  or has & {"TRUNC", "APPEND"} and "WRITE" not in has)
        self.flags = has
        kind = self.kind(self.leads(path, follow="EXCL" not in has))
        self.add("NoEntry", self.place is not None and kind is None and "CREAT" not in has)
        self.add("Exists", kind is not None and "EXCL" in has)
        self.add("IsDir", kind == "D" and "EXCL" not in has)
        self.makes = kind is None

    def has_all_handles(self):
        return len(self.session.open) >= self.tree.handle_limit

    def judge_setstat(self, path, given):
        self.given = given
        self.add("NotFile", self.needs(path, follow=True) == "D" and "size" in given)

    def overfills(self, number, size):
        """Whether a file of so many bytes breaks a limit. Removed files count that are open."""
        opened = {it.file for it in self.session.open.values() if it.kind == "F"}
        return self.tree.overfills(number, size, opened)

    def is_too_long(self, number):
        """Whether a file has no room for the size that it is given."""
        return "size" in self.given and self.overfills(number, self.given["size"])

    def judge_rmdir(self, path):
        kind = self.needs(path, follow=False)
        self.add("NotDir", kind in ("F", "L"))
        self.add("NotEmpty", kind == "D" and self.tree.has_entries(self.place))
        self.add("Root", self.place == ())

    def judge_new(self, path):
        self.add("Exists", self.kind(self.leads(path)) is not None)

    def judge_symlink(self, target, path):
        self.path_is_bad = not target or not is_good_path(target)
        self.judge_new(path)

    def has_no_place(self):
        return len(self.place) > DEEPEST or len(self.tree.nodes) > self.tree.entry_limit

    def judge_two(self, old, new):
        self.old, self.place = self.walk(old), self.walk(new)
        self.add("NoEntry", self.old is not None and self.kind(self.old) is None)
        self.is_inside = (self.kind(self.old) == "D" and self.place is not None and self.place != self.old
                          and self.place[:len(self.old)] == self.old)

    def judge_rename(self, old, new):
        self.judge_two(old, new)
        self.add("Exists", self.kind(self.place) is not None)
        self.add("Root", self.old == ())
        self.add("Inside", self.is_inside)

    def is_too_deep(self):
        return self.tree.depth_if_moved(self.old, self.place) > DEEPEST

    def judge_posix_rename(self, old, new):
        self.judge_two(old, new)
        self.add("Root", self.old == () or self.place == ())
        there, taken = self.tree.nodes.get(self.old), self.tree.nodes.get(self.place)
        both = self.old is not None and self.place is not None
        self.is_one = both and (self.old == self.place or there == taken and there is not None and there[0] == "F")
        if both and not self.is_one:
            kind, other = self.kind(self.old), self.kind(self.place)
            self.add("Inside", self.is_inside)
            self.add("NotDir", kind == "D" and other in ("F", "L"))
            self.add("IsDir", kind in ("F", "L") and other == "D")
            self.add("NotEmpty", kind == other == "D" and self.tree.has_entries(self.place))

    def judge_hardlink(self, old, new):
        self.judge_two(old, new)
        self.add("Exists", self.kind(self.place) is not None)
        self.add("NotFile", self.kind(self.old) in ("D", "L"))

    # Requests by handle.

    def opened(self, handle, kind=None):
        """What is open by a handle, if it is of a kind: `F` a file, `L` a listing."""
        self.handle, self.it = handle, self.session.open.get(handle)
        self.add("BadHandle", self.it is None)
        self.add("WrongKind", self.it is not None and kind not in (None, self.it.kind))
        return self.it if self.it is not None and kind in (None, self.it.kind) else None

    def judge_use(self, handle, flag):
        """A handle that has to be of a file that was opened for this."""
        it = self.opened(handle, "F")
        self.add("NotOpenFor", it is not None and flag not in it.flags)

    def overfills_write(self):
        _, offset, bytes = self.values
        end = max(self.start_of_write(offset) + len(bytes), len(self.tree.files[self.it.file].bytes))
        return bool(bytes) and self.overfills(self.it.file, end)

    def start_of_write(self, offset):
        return len(self.tree.files[self.it.file].bytes) if "APPEND" in self.it.flags else offset

    def judge_fsetstat(self, handle, given):
        self.given = given
        it = self.opened(handle, "F")
        self.add("NotOpenFor", it is not None and "size" in given and "WRITE" not in it.flags)

    # What is answered where no cause holds.

    def said(self):
        """The kind of the reply with the values that it has to have; of HANDLE none, of a listing what is left."""
        name, values = self.name, self.values
        if name in ("OPEN", "OPENDIR"):
            return "HANDLE", ()
        if name in ("STAT", "LSTAT"):
            return "ATTRS", (self.tree.shown(self.place),)
        if name == "FSTAT":
            return "ATTRS", (self.tree.shown_file(self.it.file),)
        if name == "REALPATH":
            return "NAME", (b"".join(b"/" + name for name in self.place) or b"/",)
        if name == "READLINK":
            return "NAME", (self.tree.nodes[self.place][1],)
        if name == "READ":
            _, offset, length = values
            bytes_ = bytes(self.tree.files[self.it.file].bytes)
            end = offset + min(length, self.tree.read_limit)
            return ("DATA", (bytes_[offset:end],)) if offset < len(bytes_) else EOF
        if name == "LIMITS":
            read, handles = self.tree.read_limit, self.tree.handle_limit
            return "EXTENDED_REPLY", (uint64(PACKET_BYTES, read, read, handles),)
        if name == "READDIR":
            return ("LISTING", (self.it.left,)) if self.it.left else EOF
        return OK

    def do(self, values):
        """Does the request, whose reply has these values; no cause holds."""
        tree, session = self.tree, self.session
        if self.name == "OPEN":
            self.do_open(values[0])
        elif self.name == "OPENDIR":
            session.open[values[0]] = Open(left=session.listing(self.place))
        elif self.name == "CLOSE":
            session.close(self.handle)
        elif self.name == "READDIR" and self.it.left:
            for name, _, _ in values[0]:
                del self.it.left[name]
        elif self.name == "WRITE":
            self.do_write()
        elif self.name == "FSETSTAT":
            tree.set_file(self.it.file, self.given)
        elif self.name == "SETSTAT":
            self.do_setstat()
        elif self.name == "MKDIR":
            tree.nodes[self.place] = "D", with_given((*tree.owner, 0o755), self.values[1])
        elif self.name == "SYMLINK":
            tree.nodes[self.place] = "L", self.values[0]
        elif self.name in ("REMOVE", "RMDIR"):
            del tree.nodes[self.place]
        elif self.name == "RENAME" or self.name == "POSIX-RENAME" and not self.is_one:
            tree.nodes.pop(self.place, None)
            tree.move(self.old, self.place)
        elif self.name == "HARDLINK":
            tree.nodes[self.place] = tree.nodes[self.old]

    def do_open(self, handle):
        tree = self.tree
        if self.makes:
            tree.nodes[self.place] = "F", tree.make_file(with_given((*tree.owner, 0o644), self.values[2]))
        number = tree.nodes[self.place][1]
        if "TRUNC" in self.flags:
            del tree.files[number].bytes[:]
        self.session.open[handle] = Open(file=number, flags=self.flags)

    def do_write(self):
        _, offset, data = self.values
        content, start = self.tree.files[self.it.file].bytes, self.start_of_write(offset)
        if data:
            content.extend(bytes(max(0, start - len(content))))
            content[start:start + len(data)] = data

    def do_setstat(self):
        kind, value = self.tree.nodes[self.place]
        if kind == "F":
            self.tree.set_file(value, self.given)
        else:
            self.tree.nodes[self.place] = kind, with_given(value, self.given)


# By name: what is looked at before a request is done, and whether it would break a limit.
JUDGES = {
    "OPEN": Ask.judge_open, "SETSTAT": Ask.judge_setstat, "RMDIR": Ask.judge_rmdir, "SYMLINK": Ask.judge_symlink,
    "RENAME": Ask.judge_rename, "POSIX-RENAME": Ask.judge_posix_rename, "HARDLINK": Ask.judge_hardlink,
    "FSETSTAT": Ask.judge_fsetstat, "CLOSE": Ask.opened,
    "OPENDIR": lambda ask, path: ask.add("NotDir", ask.needs(path, follow=True) not in (None, "D")),
    "LSTAT": lambda ask, path: ask.needs(path, follow=False),
    "STAT": lambda ask, path: ask.needs(path, follow=True),
    "REALPATH": lambda ask, path: ask.leads(path, follow=True),
    "READLINK": lambda ask, path: ask.add("NotLink", ask.needs(path, follow=False) in ("D", "F")),
    "REMOVE": lambda ask, path: ask.add("IsDir", ask.needs(path, follow=False) == "D"),
    "MKDIR": lambda ask, path, _: ask.judge_new(path),
    "READ": lambda ask, handle, *_: ask.judge_use(handle, "READ"),
    "WRITE": lambda ask, handle, *_: ask.judge_use(handle, "WRITE"),
    "FSTAT": lambda ask, handle: ask.opened(handle, "F"),
    "FSYNC": lambda ask, handle: ask.opened(handle, "F"),
    "READDIR": lambda ask, handle: ask.opened(handle, "L"),
    "LIMITS": lambda _: None,
    "EXTENDED": lambda ask, *_: ask.add("Unknown", True),
}
OVERFILLS = {
    "OPEN": lambda ask: ask.has_all_handles() or ask.makes and ask.has_no_place(),
    "OPENDIR": Ask.has_all_handles,
    "MKDIR": Ask.has_no_place, "SYMLINK": Ask.has_no_place, "HARDLINK": Ask.has_no_place,
    "RENAME": Ask.is_too_deep, "POSIX-RENAME": lambda ask: not ask.is_one and ask.is_too_deep(),
    "SETSTAT": lambda ask: ask.is_too_long(ask.tree.nodes[ask.place][1]),
    "FSETSTAT": lambda ask: ask.is_too_long(ask.it.file), "WRITE": Ask.overfills_write,
}


class Open:
    """What is open: a file with the flags of its OPEN, or a listing, which has the names still to be given."""

    def __init__(self, file=None, flags=(), left=None):
        self.file, self.flags, self.left = file, flags, left
        self.kind = "F" if left is None else "L"


def is_shown(attributes, wanted):
    """Whether attributes have the size, the owner and the permissions that are wanted; what else they have is free."""
    return all(attributes.get(name) == value for name, value in wanted.items())


class Session:
    """A tree and what is open. `slots` and `serial` say which handle `serve` gives next."""

    def __init__(self, tree):
        self.tree, self.open = tree, {}
        self.free_slots, self.slots, self.serial = [], 0, 0

    def listing(self, place):
        return {other[-1]: self.tree.shown(other) for other in self.tree.nodes if other and other[:-1] == place}

    def close(self, handle):
        del self.open[handle]
        if len(handle) == 12:
            self.free_slots.append(int.from_bytes(handle[:8], "big"))

    def new_handle(self):
        """The name that `serve` gives: the slot that was freed last, or a new one, and how many were given before."""
        slot = self.free_slots.pop() if self.free_slots else self.slots
        self.slots = max(self.slots, slot + 1)
        self.serial += 1
        return uint64(slot) + uint32(self.serial - 1)

    def answer(self, request):
        """The reply that `serve` gives, once the request is done."""
        ask = Ask(self, request.name, request.fields)
        causes = ask.causes()
        if causes:
            return Packet(request.number, "STATUS", [CODES[causes[0]][0], b"", b""])
        kind, said = ask.said()
        if kind == "HANDLE":
            values = [self.new_handle()]
        elif kind == "LISTING":
            kind, values = "NAME", [[(name, name, said[0][name]) for name in sorted(said[0])[:NAMES_OF_REPLY]]]
        elif kind == "NAME":
            values = [[(said[0], said[0], {})]]
        elif kind == "STATUS":
            values = [said[0], b"", b""]
        else:
            values = list(said)
        ask.do(values)
        return Packet(request.number, kind, values)

    def accept(self, request, reply):
        """Whether a reply is allowed; then the request is done."""
        kind, answer = reply.name, reply.fields
        ask = Ask(self, request.name, request.fields)
        causes = ask.causes()
        if causes:
            return kind == "STATUS" and any(answer[0] in CODES[cause] for cause in causes)
        wanted, said = ask.said()
        if wanted == "HANDLE":
            is_allowed = kind == "HANDLE" and answer[0] not in self.open
        elif wanted == "LISTING":
            is_allowed = kind == "NAME" and bool(answer[0]) and self.lists(said[0], answer[0])
        elif wanted == "NAME":
            is_allowed = kind == "NAME" and len(answer[0]) == 1 and answer[0][0][0] == said[0]
        elif wanted == "ATTRS":
            is_allowed = kind == "ATTRS" and is_shown(answer[0], said[0])
        else:
            is_allowed = kind == wanted and answer[0] == said[0]
        if is_allowed:
            ask.do(answer)
        return is_allowed

    def lists(self, left, items):
        names = [name for name, _, _ in items]
        return (len(set(names)) == len(names)
                and all(name in left and is_shown(it, left[name]) for name, _, it in items))
