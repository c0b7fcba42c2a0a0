"""What replies show of a node, and whether shown attributes are right by a profile."""
from __future__ import annotations

from sftpv3.together.nodes import DIRECTORY, FILE, Node
from sftpv3.together.profiles import Profile
from sftpv3.together.states import State

# A size, a user, a group and permissions with the type.
Shown = tuple[int, int, int, int]

FOLDER_TYPE, FILE_TYPE, LINK_TYPE = 0o040000, 0o100000, 0o120000
TYPES, SPECIAL = 0o170000, (0o010000, 0o020000, 0o060000, 0o140000)
SET_ID, LOWER = 0o6000, 0o7777


def shown(state: State, node: Node) -> Shown:
    if state.trace is not None:
        state.look(node.number, "owner")
        state.look(node.number, "size")
    if node.kind == FILE:
        return (len(node.content), node.owner[0], node.owner[1], FILE_TYPE | node.owner[2])
    if node.kind == DIRECTORY:
        return (0, node.owner[0], node.owner[1], FOLDER_TYPE | node.owner[2])
    return (len(node.target), *state.maker, LINK_TYPE | 0o777)


def is_right(profile: Profile, wanted: Shown, told: dict) -> bool:
    """Whether attributes of a reply are those that are wanted, but for what the profile leaves free."""
    try:
        size, (user, group), permissions = told["size"], told["owner"], told["permissions"]
    except KeyError:
        return False
    if (size, user, group, permissions) == wanted:
        return True
    return profile.frees_attributes and (mended(profile, wanted, size, user, group, permissions) == wanted)


def mended(profile: Profile, wanted: Shown, size: int, user: int, group: int, permissions: int) -> Shown:
    """The attributes, with what is wanted where the profile leaves a field free."""
    if profile.dir_size and permissions & ~LOWER == FOLDER_TYPE:
        size = 0
    if profile.set_id:
        permissions = permissions & ~SET_ID | wanted[3] & SET_ID
    if profile.link_attrs and permissions & ~LOWER == LINK_TYPE == wanted[3] & ~LOWER:
        user, group, permissions = wanted[1:]
    if (profile.special and wanted[0] == 0 == size and wanted[3] & ~LOWER == FILE_TYPE
            and permissions & ~LOWER in SPECIAL):
        permissions = permissions & LOWER | FILE_TYPE
    return size, user, group, permissions
