"""Which departures a server may take (docs/PROFILES.md), as the options of `sftpv3 audit` say."""
from __future__ import annotations

import argparse

ALL = ("codes", "slash", "limits", "flags", "hardlink-link", "realpath", "read", "empty-setstat", "dots", "dir-size",
       "set-id", "link-attrs", "special", "made", "keep-owner", "extensions", "lsetstat", "copy-data", "open-dir",
       "listing")
OF_USERS = ("denied", "full")
PROFILES = {"posix": ALL, "posix-user": ALL + OF_USERS}
OWNERS = ("user", "given", "group", "posix")

UMASK = 0o022


class Profile:
    """Whether each departure is accepted, by its name with `_`; and what it goes by."""

    def __init__(self, names: frozenset[str], umask: int = UMASK, new_owner: str = "user",
                 is_symlink_draft: bool = False):
        self.names = names
        for name in ALL + OF_USERS:
            setattr(self, name.replace("-", "_"), name in names)
        self.umask, self.new_owner, self.is_symlink_draft = umask, new_owner, is_symlink_draft
        self.frees_attributes = bool(names & {"dir-size", "set-id", "link-attrs", "special"})

    def __getattr__(self, name: str) -> bool:
        raise AttributeError(name)


def names_of(given: argparse.Namespace) -> frozenset[str]:
    """The departures that the options accept; ValueError with a word that names none."""
    names = set(PROFILES[given.profile] if given.profile else ())
    for option, change in ((given.allow, names.update), (given.but, names.difference_update)):
        words = [word for words in option for word in words.split(",")]
        for word in words:
            if word not in ALL + OF_USERS:
                raise ValueError(word)
        change(words)
    return frozenset(names)


def profile_of(given: argparse.Namespace) -> Profile:
    return Profile(names_of(given), given.umask, given.new_owner or "user", given.symlink == "draft")


def words_of(given: argparse.Namespace) -> list[str]:
    """The same options for `sftpv3 audit`."""
    words = ["--profile", given.profile] if given.profile else []
    for name, values in (("--allow", given.allow), ("--except", given.but)):
        words += [word for value in values for word in (name, value)]
    if given.umask != UMASK:
        words += ["--umask", f"{given.umask:o}"]
    for name, value in (("--new-owner", given.new_owner), ("--symlink", given.symlink)):
        words += [name, value] if value else []
    return words
