"""Which options of a profile would accept the reply of a difference, if they were given otherwise. How a server is set
up, or in which order it takes the paths of SYMLINK, its author may not know, and what differs does not say it.

An option is named only if with it the whole session of the difference is accepted up to this reply, and this one, too.
So a wrong order of SYMLINK's paths is not named where the session has others that were right.
"""
import os

from sftpv3 import codec
from sftpv3.codec import trees
from sftpv3.probe import features, groups, lacking, offers, plans, restarts, set_times
from sftpv3.probe.offers import of_kinds

# The most seconds that all of this takes.
SECONDS = 20

# The departures that `posix-user` has, and `posix` has not.
OF_USERS = {"denied", "full"}

# From how many kinds of difference on it is said that a server may lack what they show.
MANY_ALIKE = 3

# The values that are tried, of options that say how new files and directories are made.
MADE = [("--umask", value) for value in ("000", "002", "007", "022", "027", "077")] + \
       [("--new-owner", value) for value in ("given", "group", "posix")]


def pairs_of(words):
    """The options among these words, each with its value."""
    return dict(zip(words[::2], words[1::2]))


def names(given, option):
    return [name for name in given.get(option, "").split(",") if name]


def is_made(given):
    """Whether these options accept what a umask does to a new file."""
    return ("--profile" in given or "made" in names(given, "--allow")) and "made" not in names(given, "--except")


def umask(words):
    """The permissions that something new is judged to lack, by these words; strictly those of the usual umask."""
    given = pairs_of(words)
    return int(is_made(given) and given.get("--umask") or "022", 8)


def otherwise(given, of_links, of_made):
    """The options that are tried beside these, each with its value: those on links, and those on new files."""
    found = [("--symlink", "draft")] if of_links and "--symlink" not in given else []
    if of_made and is_made(given):
        found += [pair for pair in MADE if given.get(pair[0]) != pair[1]] + [("--except", "made")]
    elif of_made:
        found += [("--allow", "made")]
    return found


def joined(given, option, value):
    """These options with another value of one; with one name more, if it takes names."""
    more = ",".join([*names(given, option), value]) if option in ("--allow", "--except") else value
    return [word for pair in {**given, option: more}.items() for word in pair]


def has_links(difference):
    """Whether the session makes a link no later than at the request that differs."""
    last = difference.verdict.record or 0
    asked = (codec.decode(packet) for side, packet in difference.records[2:last] if side == b"C")
    return any(one.name == "SYMLINK" for one in asked)


def is_of_made(difference):
    """Whether the permissions or the owner of something differ."""
    lines = difference.verdict.lines
    return all(" permissions " in lines.get(label, "") for label in ("expected", "found")) or \
        ", not size " in lines.get("found", "")


def of_difference(difference, auditor, tree_file, stop):
    """The options that would accept the reply, as words. Raises Stopped once `stop` is set."""
    if difference.verdict.kind != "NotAllowed":
        return []
    given, found = pairs_of(auditor.options), []
    others = otherwise(given, has_links(difference), is_of_made(difference))
    if not auditor.by_text and offers.is_spelled(difference, "--symlink" in given):
        others.append(offers.BY_TEXT)
    for option, value in others:
        is_by_text = (option, value) == offers.BY_TEXT
        other = auditor.with_options(os.path.dirname(tree_file), auditor.options if is_by_text else
                                     joined(given, option, value), auditor.by_text or is_by_text)
        verdict = other.judge(tree_file, difference.records, stop)
        if verdict.accepted or (verdict.record or 0) > difference.verdict.record:
            found.append(f"{option} {value}")
    return found


def departures(group):
    """The names of the departures that would accept the first reply of a group."""
    found = group.allowed.split(", ") if group.allowed else []
    return {*found, *(["made"] if "--allow made" in group.accepted_with else [])}


def advice(found, auditor, folder_tree=None):
    """What to say of the groups that were found, if other options may suit the server. `folder_tree` is the tree of one
    that serves a folder."""
    unchanged = offers.of_changes(found)
    said = [unchanged, of_profile(found, auditor, offers.without_refused(found) if unchanged else found),
            of_lacking(found), of_listed(found), of_packets(found), of_handles(found),
            of_access(found), offers.of_seconds(found), offers.of_paths(found),
            folder_tree and offers.of_links(found, folder_tree),
            None if unchanged else of_refused(found)]
    return [line for line in said if line]


def of_budget(found, seconds):
    """What to say if these seconds did not suffice to shrink the groups; None if they did, or if none were given."""
    count = sum(group.partly or group.whole == groups.NO_TIME for group in found)
    return f"{count} of {len(found)} kinds could be shorter: play again with a longer --budget than {seconds:g} " \
        "seconds" if count and seconds else None


def of_profile(found, auditor, others):
    """What to say of a strict audit whose differences are mostly departures of a profile; None if there is nothing.
    `others` are the groups that no other option accepts."""
    known = [names for names in map(departures, others) if names]
    if not known or "--profile" in pairs_of(auditor.options):
        return None
    profile = "posix-user" if all(names <= OF_USERS for names in known) else "posix"
    kinds = f"{len(known)} of {len(found)} kinds are" if len(found) > 1 else "it is"
    return f"{kinds} accepted with --profile {profile}, which servers with real file systems need: play again with it"


def of_lacking(found):
    """What to say where many groups show nothing but other owners or permissions than were set, as a server does that
    has none of its own; None if there are not so many, or if options of a profile would accept them."""
    shown = [groups.shown_otherwise(group.found) for group in found
             if not departures(group) and not group.accepted_with]
    for name, attributes in lacking.SHOWN.items():
        count = sum(bool(names) and names <= attributes for names in shown)
        if count >= MANY_ALIKE and 2 * count >= len(found):
            return (f"{count} of {len(found)} kinds show nothing but other {name}: if your server has none of its own, "
                    f"play again with --without {name}")
    return None


def of_listed(found):
    """What to say where listings show names without attributes; None if they show some."""
    count = sum(group.request == "READDIR" and "with other permissions and without size" in group.found
                for group in found)
    return f"{of_kinds(count, found)} of names that are listed without attributes, which the draft (section 5) " \
        "leaves open: if yours are, play again with --without listed-attributes" if count else None


def longest_done(records):
    """How many bytes the longest request has that a server says it did."""
    asked, longest = {}, 0
    for side, packet in records[2:]:
        if side == codec.CLIENT:
            asked[packet[5:9]] = len(packet)
        elif packet[4] == codec.STATUS and packet[9:13] == bytes(4):
            longest = max(longest, asked.get(packet[5:9], 0))
    return longest


def of_packets(found):
    """What to say where WRITEs fail that are longer than each server has to take; None if the server took one as
    long."""
    taken = []
    for one in (group.first for group in found if group.request == "WRITE"):
        most = max(plans.EACH_TAKES, longest_done(one.session.records))
        taken += [most] if len(one.session.records[one.request][1]) > most else []
    if not taken:
        return None
    return (f"{of_kinds(len(taken), found)} at packets of more than {min(taken):,} bytes, and the draft (section 3) "
            f"asks a server to take {plans.EACH_TAKES:,}: if yours takes no longer ones, play again with "
            f"--limits packet={min(taken)}")


# From how many open handles on it is said that a server may open no more.
MANY_OPEN = 10


def of_handles(found):
    """What to say where a server opens no further handle while many are open; None if there is nothing."""
    opened = []
    for group in found:
        is_refused = group.request in ("OPEN", "OPENDIR") and group.expected.startswith("HANDLE") and \
            group.found.startswith("STATUS")
        opened += [len(restarts.left_open(group.first.session.records[:group.first.reply]))] if is_refused else []
    if not opened or min(opened) < MANY_OPEN:
        return None
    return (f"{of_kinds(len(opened), found)} where {min(opened)} handles or more are open: if your server opens no "
            f"more at a time, play again with --limits handles={min(opened)}")


def of_access(found):
    """What to say where a server shows other times of access than were set; None if it shows none."""
    count = sum(group.found.startswith(set_times.ACCESS) for group in found)
    return f"{of_kinds(count, found)} of the time of access alone: if your server or its file system keeps none, or " \
        "only the day, as FAT does, play again with --without access-times" if count else None


# The requests that not every server does, and the attributes that not every server sets, by which --skip names them.
OPTIONAL, SETTABLE = {"SYMLINK", "READLINK", "HARDLINK", "POSIX-RENAME", "FSYNC"}, {"times", "owner"}


def of_refused(found):
    """What to say where a server refuses what some servers are meant to; None if there is nothing."""
    words = set().union(*map(refused, found))
    names = ",".join(sorted(words - ({"large-owner"} if "owner" in words else set())))
    return f"the server refuses what has {names}: if it is meant to, play again with --skip {names}" if words else None


def refused(group):
    """The words of --skip for what is refused: what the server says that it has not (code 8), to set times or an owner,
    or one of a large number, and names that are no UTF-8."""
    is_done = group.expected.startswith("STATUS with code 0 ") or not group.expected.startswith("STATUS")
    code = group.found.removeprefix("STATUS with code ").split(" ")[0]
    if code in (group.found.split(" ")[0], "0") or group.expected.startswith("STATUS with code 8 "):
        return set()
    asked = codec.decode(group.first.session.records[group.first.request][1])
    found, tags = {asked.name} & OPTIONAL if code == "8" else set(), features.of_request(asked.name, asked.fields)
    if is_done and asked.name in ("SETSTAT", "FSETSTAT") and len(asked.fields[1]) == 1:
        found |= {"large-owner"} & tags or SETTABLE & asked.fields[1].keys()
    return found | {"not-utf-8"} & tags if is_done else found


def of_start(found, jobs):
    """What to say where a server did not start beside others; None if all started, or none ran beside."""
    return beside(jobs) if any(group.first.verdict.kind == "NotStarted" for group in found) else None


def beside(jobs):
    """What to say of a server that did not start, with so many side by side; None if it was alone."""
    return (f"up to {jobs} servers ran side by side: if only one of yours can, as with a lock or a port of its own, "
            "play again with --jobs 1") if jobs > 1 else None


def put_hints(found, auditor, tree, folder, stop):
    """Puts into each group the options that would accept its first reply, until `stop` is set: then Stopped is
    raised."""
    tree_file = os.path.join(folder, "hinted.tree")
    for group in found:
        with open(tree_file, "wb") as file:
            file.write(group.first.session.start or trees.put(tree))
        group.accepted_with = of_difference(group.first, auditor, tree_file, stop)
