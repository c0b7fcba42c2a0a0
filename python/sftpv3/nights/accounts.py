"""Several accounts whose sessions change the same folders: each session starts from the tree with the home, the user
and the group of its account, since these say where its relative paths start, and who owns what it makes."""
import os
import pwd
import shutil
from typing import Iterable, List, NamedTuple, Sequence, Set, Tuple

from sftpv3.codec import CLIENT, CREAT, LAYOUTS, Packet, encode, put_records, read, records, string, uint32
from sftpv3.nights.records import sync

# How a tree begins before its home, and the fields behind that: a user and a group.
OPENING, OWNER = 8, 8
OWNED = "tree.owned"
# The requests that may make something whose owner is that of the session, besides an OPEN that creates.
MAKING = ("MKDIR", "SYMLINK")
# Which fields of a request are paths; the target of a SYMLINK is none, but a text that is kept.
PATHS = ("path", "new_path", "link")


class Account(NamedTuple):
    """An account: its name and number, its group, and where its relative paths start."""

    name: str
    number: int
    group: int
    home: bytes


def account(name: str, group: str, home: str, chroot: str) -> Account:
    """The account of this name; KeyError if there is none, and ValueError if there is no such group. A group or a home
    that is given counts for each. Behind a change of the root, its home is there only if the new root has it."""
    found = pwd.getpwnam(name)
    place = os.path.normpath(home or found.pw_dir)
    if chroot and not home and not os.path.isdir(chroot + place):
        place = "/"
    return Account(name, found.pw_uid, group_number(group) if group else found.pw_gid, os.fsencode(place))


def group_number(group: str) -> int:
    import grp
    try:
        return int(group) if group.isdecimal() else grp.getgrnam(group).gr_gid
    except KeyError:
        raise ValueError(f"there is no group {ascii(group)[1:-1]}") from None


def head_of(tree: str) -> Tuple[bytes, bytes]:
    """The opening of a tree file, and what follows it: the home, the user and the group."""
    with open(tree, "rb") as file:
        opening = file.read(OPENING)
        length = file.read(4)
        return opening, length + file.read(int.from_bytes(length, "big") + OWNER)


def become(tree: str, account_of: Account) -> None:
    """Makes the tree that of this account's session: its home, user and group, and all else as it is."""
    opening, head = head_of(tree)
    wanted = string(account_of.home) + uint32(account_of.number, account_of.group)
    if head == wanted:
        return
    with open(tree, "rb") as source, open(OWNED, "wb") as target:
        source.seek(len(opening) + len(head))
        target.write(opening + wanted)
        shutil.copyfileobj(source, target)
        target.flush()
        os.fsync(target.fileno())
    os.replace(OWNED, tree)
    sync(".")


def makes(packet: Packet) -> bool:
    """Whether a request may make something."""
    return packet.name in MAKING or packet.name == "OPEN" and bool(packet.fields[1] & CREAT)


def read_requests(data: bytes) -> Iterable[Tuple[bytes, bytes, Packet]]:
    """Each request of a transcript; Malformed where one is none."""
    for number, (side, packet) in enumerate(records(data)):
        if side == CLIENT and number:
            yield side, packet, read(side, packet)


def makers(copies: Sequence) -> Set[str]:
    """The accounts whose sessions may have made something."""
    return {copy.record.user for copy in copies if any(makes(it) for _, _, it in read_requests(data_of(copy)))}


def data_of(copy) -> bytes:
    return os.pread(copy.file, os.fstat(copy.file).st_size, 0)


def rooted(data: bytes, home: bytes) -> bytes:
    """The same transcript with paths that start at the root in place of those that start at the home."""
    found: List[Tuple[bytes, bytes]] = []
    for number, (side, packet) in enumerate(records(data)):
        found.append((side, rooted_packet(packet, home) if side == CLIENT and number else packet))
    return put_records(found)


def rooted_packet(packet: bytes, home: bytes) -> bytes:
    request = read(CLIENT, packet)
    fields = [home.rstrip(b"/") + b"/" + value if kind in PATHS and not value.startswith(b"/") else value
              for kind, value in zip(LAYOUTS[request.name][1].split(), request.fields)]
    return packet if fields == list(request.fields) else encode(Packet(request.number, request.name, fields))
