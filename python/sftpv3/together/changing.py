"""Requests that change the tree (docs/PROTOCOL.md)."""
from __future__ import annotations

from typing import Optional

from sftpv3.together.looking import is_folder
from sftpv3.together.nodes import DIRECTORY, FILE, LINK, Node, OpenFile, Owner
from sftpv3.together.outside import packets, trees
from sftpv3.together.paths import LONG, Path, parts_of
from sftpv3.together.profiles import Profile
from sftpv3.together.requests import FAR, NONE, Causes, OfHandle, OfPath, Request
from sftpv3.together.states import DEEPEST, Place, State

LOWER, SET_GROUP, NO_ID = 0o7777, 0o2000, 0xFFFFFFFF
READ, WRITE, APPEND, CREAT, TRUNC, EXCL = (packets.READ, packets.WRITE, packets.APPEND, packets.CREAT, packets.TRUNC,
                                           packets.EXCL)


def made_owner(state: State, profile: Profile, place: Place, given: dict, usual: tuple[int, int],
               is_folder_made: bool) -> Owner:
    """The owner and the permissions of what is made: by what is usual strictly, and by POSIX."""
    if not profile.made:
        return (*given.get("owner", state.maker), given.get("permissions", usual[0]) & LOWER)
    permissions = given.get("permissions", usual[1]) & LOWER & ~profile.umask
    above = place.folder()
    has_bit = bool(above.owner[2] & SET_GROUP)
    takes_group = profile.new_owner == "group" or profile.new_owner == "posix" and has_bit
    if profile.new_owner == "posix" and has_bit and is_folder_made:
        permissions |= SET_GROUP
    user, group = given.get("owner", state.maker) if profile.new_owner == "given" else state.maker
    return user, above.owner[1] if takes_group else group, permissions


def lacks_place(state: State, place: Place) -> bool:
    return len(place.names) > DEEPEST or state.entry_count >= state.limits[0]


class Making(OfPath):
    """A request that makes an entry where its path leads."""

    def __init__(self, session: int, profile: Profile, reply: Optional[packets.Packet], path: Path, number: int):
        super().__init__(session, profile, reply, path)
        self.number = number

    def needs_room(self) -> bool:
        return True

    def causes_there(self, state: State, place: Place) -> Causes:
        if place.node is not None:
            return ("Exists",)
        return ("NoRoom",) if lacks_place(state, place) else NONE

    def done(self, state: State) -> bool:
        if not self.is_ok():
            return False
        state.make(self.place.folder(), self.place.names[-1], self.made(state))
        return True

    def made(self, state: State) -> Node:
        raise NotImplementedError


class Mkdir(Making):
    def __init__(self, session: int, profile: Profile, reply: Optional[packets.Packet], path: Path, number: int,
                 given: dict):
        super().__init__(session, profile, reply, path, number)
        self.given = given

    def made(self, state: State) -> Node:
        return Node(DIRECTORY, self.number,
                    made_owner(state, self.profile, self.place, self.given, (0o755, 0o777), True))


class Symlink(Making):
    def __init__(self, session: int, profile: Profile, reply: Optional[packets.Packet], path: Path, number: int,
                 target: bytes):
        super().__init__(session, profile, reply, path, number)
        self.target = target
        self.is_bad = not target or not trees.is_good_path(target)

    def is_far(self) -> bool:
        return len(self.target) >= LONG

    def is_unknown(self) -> bool:
        return self.is_bad

    def causes(self, state: State) -> Causes:
        found = super().causes(state)
        return ("BadPath", *found) if self.is_bad else found

    def made(self, state: State) -> Node:
        return link_to(self.target, self.number)


def link_to(target: bytes, number: int) -> Node:
    node = Node(LINK, number, (0, 0, 0))
    node.target, node.parts = target, parts_of(target)
    return node


class Opening(OfPath):
    """OPEN, with the flags as the profile takes them."""

    def __init__(self, session: int, profile: Profile, reply: Optional[packets.Packet], path: Path, number: int,
                 flags: int, given: dict):
        super().__init__(session, profile, reply, path)
        self.number, self.given = number, given
        self.is_bad = (flags > 63 or not flags & (READ | WRITE) or bool(flags & (TRUNC | EXCL)) and not flags & CREAT
                       or bool(flags & (TRUNC | APPEND)) and not flags & WRITE)
        self.flags = mended(flags) if profile.flags else flags
        self.empties = bool(profile.flags and flags & TRUNC and not (flags & CREAT and flags & WRITE))
        self.follows = not self.flags & EXCL
        self.opens_folders = profile.open_dir and not flags & TRUNC and self.flags == READ

    def needs_room(self) -> bool:
        return bool(self.flags & CREAT)

    def changes_tree(self) -> bool:
        return bool(self.flags & (CREAT | TRUNC)) or self.empties

    def causes(self, state: State) -> Causes:
        found = super().causes(state)
        return ("BadFlags", *found) if self.is_bad and (self.code is not None or not self.profile.flags) else found

    def causes_there(self, state: State, place: Place) -> Causes:
        flags, node = self.flags, place.node
        if node is None:
            if not flags & CREAT:
                return ("NoEntry",)
            is_full = state.open_count >= state.limits[3] or lacks_place(state, place)
            return ("NoRoom",) if is_full else NONE
        if flags & EXCL:
            return ("Exists",)
        if node.kind == DIRECTORY and not (self.opens_folders and self.code is None):
            return ("IsDir",)
        return ("NoRoom",) if state.open_count >= state.limits[3] else NONE

    def handle(self) -> Optional[bytes]:
        """The handle that is given. That of an OPEN without a reply is used by nobody."""
        if self.reply is None:
            return b"?%d" % self.number
        return self.reply.fields[0] if self.reply.name == "HANDLE" else None

    def done(self, state: State) -> bool:
        handle, flags = self.handle(), self.flags
        if handle is None or state.opened(self.session, handle) is not None:
            return False
        node = self.place.node
        if node is None:
            node = Node(FILE, self.number, made_owner(state, self.profile, self.place, self.given, (0o644, 0o666),
                                                      False))
            state.make(self.place.folder(), self.place.names[-1], node)
        elif flags & TRUNC or self.empties:
            state.resize(node, 0)
        state.hold(self.session, handle, OpenFile(node, bool(flags & READ), bool(flags & WRITE),
                                                  bool(flags & APPEND)))
        return True


def mended(flags: int) -> int:
    """The flags of OPEN as a file system goes by them."""
    found = flags & (WRITE | CREAT)
    if flags & READ or not flags & WRITE:
        found |= READ
    if flags & WRITE:
        found |= flags & APPEND
        if flags & CREAT:
            found |= flags & TRUNC
    return found | flags & EXCL if flags & CREAT else found


class Setting:
    """What SETSTAT and FSETSTAT set."""

    def __init__(self, profile: Profile, given: dict):
        self.profile = profile
        self.size = given.get("size")
        self.owner, self.permissions = given.get("owner"), given.get("permissions")
        self.is_empty = not given

    def apply(self, state: State, node: Node) -> None:
        if self.owner is not None or self.permissions is not None:
            state.own(node, self.new_owner(node.owner))
        if self.size is not None:
            state.resize(node, self.size)

    def new_owner(self, old: Owner) -> Owner:
        user, group = old[:2] if self.owner is None else self.owner
        if self.profile.keep_owner:
            user, group = (was if number == NO_ID else number for number, was in zip((user, group), old))
        return user, group, old[2] if self.permissions is None else self.permissions & LOWER

    def overfills(self, state: State) -> bool:
        return self.size is not None and self.size > state.limits[1]


class Setstat(OfPath):
    follows = True

    def __init__(self, session: int, profile: Profile, reply: Optional[packets.Packet], path: Path, given: dict):
        super().__init__(session, profile, reply, path)
        self.setting = Setting(profile, given)

    def needs_room(self) -> bool:
        return bool(self.setting.size)

    def causes_there(self, state: State, place: Place) -> Causes:
        if place.node is None:
            return ("NoEntry",)
        if self.setting.size is not None and place.node.kind != FILE:
            return ("NotFile",)
        return ("NoRoom",) if self.setting.overfills(state) else NONE

    def done(self, state: State) -> bool:
        if not self.is_ok():
            return False
        self.setting.apply(state, self.place.node)
        return True

    def act(self, state: State) -> bool:
        return super().act(state) or self.profile.empty_setstat and self.setting.is_empty and self.is_ok()


class Lsetstat(Setstat):
    """lsetstat@openssh.com: what is set of a link is in no tree."""

    follows = False

    def causes(self, state: State) -> Causes:
        self.follows = self.path.is_loose
        return super().causes(state)

    def act(self, state: State) -> bool:
        if self.code is not None:
            return True
        found = state.walk(self.path, self.path.is_loose)
        is_link = not isinstance(found, str) and found.node is not None and found.node.kind == LINK
        return self.is_ok() and self.setting.size is None if is_link else super().act(state)


class Fsetstat(OfHandle):
    def __init__(self, session: int, profile: Profile, reply: Optional[packets.Packet], handle: bytes, given: dict):
        super().__init__(session, profile, reply, handle)
        self.setting = Setting(profile, given)

    def needs_room(self) -> bool:
        return bool(self.setting.size)

    def causes(self, state: State) -> Causes:
        opened = state.opened(self.session, self.handle)
        if opened is None:
            return ("BadHandle",)
        if is_folder(opened):
            return self.causes_of_folder(state, opened.node)
        if self.setting.size is not None and not opened.writes:
            return ("NotOpenFor",)
        return ("NoRoom",) if self.setting.overfills(state) else NONE

    def causes_of_folder(self, state: State, node: Node) -> Causes:
        state.look(node.number, "list")
        may_be_set = self.profile.open_dir and self.code is None and self.setting.size is None
        return NONE if may_be_set else ("WrongKind",)

    def done(self, state: State) -> bool:
        if not self.is_ok():
            return False
        node = state.opened(self.session, self.handle).node
        if node.kind == FILE or node.is_linked:
            self.setting.apply(state, node)
        return True


class Write(OfHandle):
    def __init__(self, session: int, profile: Profile, reply: Optional[packets.Packet], handle: bytes, offset: int,
                 data: bytes):
        super().__init__(session, profile, reply, handle)
        self.offset, self.data = offset, data

    def is_far(self) -> bool:
        return self.offset + len(self.data) >= FAR

    def needs_room(self) -> bool:
        return bool(self.data)

    def causes(self, state: State) -> Causes:
        opened = state.opened(self.session, self.handle)
        if opened is None:
            return ("BadHandle",)
        if is_folder(opened):
            return ("WrongKind",)
        if not opened.writes:
            return ("NotOpenFor",)
        is_full = bool(self.data) and self.start(opened) + len(self.data) > state.limits[1]
        return ("NoRoom",) if is_full else NONE

    def start(self, opened: OpenFile) -> int:
        return len(opened.node.content) if opened.appends else self.offset

    def done(self, state: State) -> bool:
        if not self.is_ok():
            return False
        if self.data:
            opened = state.opened(self.session, self.handle)
            if opened.appends:
                state.look(opened.node.number, "size")
            state.write(opened.node, self.start(opened), self.data)
        return True


class Remove(OfPath):
    def causes_there(self, state: State, place: Place) -> Causes:
        if place.node is None:
            return ("NoEntry",)
        return ("IsDir",) if place.node.kind == DIRECTORY else NONE

    def done(self, state: State) -> bool:
        if not self.is_ok():
            return False
        state.unlink(self.place.folder(), self.place.names[-1])
        return True


class Rmdir(Remove):
    def causes_there(self, state: State, place: Place) -> Causes:
        if place.node is None:
            return ("NoEntry",)
        if place.node.kind != DIRECTORY:
            return ("NotDir",)
        state.look(place.node.number, "list")
        found = ["NotEmpty"] if place.node.entries else []
        return found + ["Root"] if place.is_root() else found


class OfTwoPaths(Request):
    """A request with an old and a new path."""

    def __init__(self, session: int, profile: Profile, reply: Optional[packets.Packet], old: Path, new: Path):
        super().__init__(session, profile, reply)
        self.old_path, self.new_path = old, new
        self.old: Place = None  # type: ignore[assignment]
        self.new: Place = None  # type: ignore[assignment]

    def paths(self) -> tuple[Path, ...]:
        return self.old_path, self.new_path

    def needs_room(self) -> bool:
        return True

    def causes(self, state: State) -> Causes:
        found = []
        old, new = state.walk(self.old_path, False), state.walk(self.new_path, False)
        if isinstance(new, str):
            found.append(new)
        if isinstance(old, str):
            found.append(old)
        else:
            found += self.causes_of_old(old)
        if not found or not isinstance(old, str) and not isinstance(new, str):
            self.old, self.new = old, new
            found += self.causes_of_both(state, old, new)
        elif not isinstance(new, str):
            found += self.causes_of_new(new)
        return found

    def causes_of_old(self, old: Place) -> list[str]:
        return ["NoEntry"] if old.node is None else []

    def causes_of_new(self, new: Place) -> list[str]:
        return ["Exists"] if new.node is not None else []

    def causes_of_both(self, state: State, old: Place, new: Place) -> list[str]:
        return self.causes_of_new(new)

    def is_inside(self) -> bool:
        """Whether the new place is below the old one, which is a directory."""
        node = self.old.node
        return (node is not None and node.kind == DIRECTORY and len(self.new.names) > len(self.old.names)
                and any(folder is node for folder in self.new.folders))

    def move(self, state: State) -> None:
        old, new = self.old, self.new
        if new.node is not None:
            state.unlink(new.folder(), new.names[-1])
        node = old.node
        state.leave(old.folder(), old.names[-1])
        state.enter(new.folder(), new.names[-1], node)


class Rename(OfTwoPaths):
    def causes_of_both(self, state: State, old: Place, new: Place) -> list[str]:
        found = self.causes_of_new(new) + (["Root"] if old.is_root() else [])
        return found + (["Inside"] if self.is_inside() else [])

    def done(self, state: State) -> bool:
        if not self.is_ok():
            return False
        self.move(state)
        return True


class PosixRename(OfTwoPaths):
    def causes_of_new(self, new: Place) -> list[str]:
        return ["Root"] if new.is_root() else []

    def is_one(self) -> bool:
        """Whether both are one place, or names of one file."""
        old, new = self.old, self.new
        if old.names == new.names:
            return True
        return old.node is not None and old.node is new.node and old.node.kind == FILE

    def causes_of_both(self, state: State, old: Place, new: Place) -> list[str]:
        found = ["Root"] if old.is_root() or new.is_root() else []
        if self.is_one():
            return found
        if self.is_inside():
            found.append("Inside")
        if old.node is not None and new.node is not None:
            found += self.causes_of_kinds(state, old.node, new.node)
        return found

    def causes_of_kinds(self, state: State, old: Node, new: Node) -> list[str]:
        if old.kind != DIRECTORY:
            return ["IsDir"] if new.kind == DIRECTORY else []
        if new.kind != DIRECTORY:
            return ["NotDir"]
        state.look(new.number, "list")
        return ["NotEmpty"] if new.entries else []

    def done(self, state: State) -> bool:
        if not self.is_ok():
            return False
        if not self.is_one():
            self.move(state)
        return True


class Hardlink(OfTwoPaths):
    def __init__(self, session: int, profile: Profile, reply: Optional[packets.Packet], old: Path, new: Path,
                 number: int):
        super().__init__(session, profile, reply, old, new)
        self.number = number

    def links_links(self) -> bool:
        return self.profile.hardlink_link and self.code is None

    def causes_of_old(self, old: Place) -> list[str]:
        if old.node is None:
            return ["NoEntry"]
        is_file = old.node.kind == FILE or old.node.kind == LINK and self.links_links()
        return [] if is_file else ["NotFile"]

    def causes_of_both(self, state: State, old: Place, new: Place) -> list[str]:
        return self.causes_of_new(new) or (["NoRoom"] if lacks_place(state, new) else [])

    def done(self, state: State) -> bool:
        if not self.is_ok():
            return False
        node = self.old.node
        if node.kind == LINK:
            node = link_to(node.target, self.number)
        state.make(self.new.folder(), self.new.names[-1], node)
        return True
