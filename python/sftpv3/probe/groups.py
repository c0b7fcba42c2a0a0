"""Differences that are alike: of one request, with the same causes, the same expectation, and found alike; and kinds of
difference that have one cause, which are put behind one of them, as far as that can be told.

A WRITE that is lost shows later, in READ, FSTAT, STAT and READDIR: each is a kind of its own. What tells the cause is
the shrunk session: without the request that it still has, and that changed something, the difference does not come. So
kinds have one cause if the last change in their shortest sessions is by the same kind of request, and if what differs
is the same of a thing: its bytes, its permissions, whether it is there. A kind whose shortest session changes nothing
has no cause but its own request.

A kind that was not shrunk goes behind another if in each of its sessions it came after this one, of the same thing.
"""
import re

from sftpv3 import codec
from sftpv3.probe import needs, unheld
from sftpv3.probe.model import Model, apply

KINDS = {"04": "a directory", "10": "a file", "12": "a link"}

# The verdicts on a reply that can be read. An audit by a profile says NotModelled of what it cannot follow.
JUDGED = ("NotAllowed", "NotModelled")

FIELDS = [("size", "size"), ("uid", "user"), ("gid", "group"), ("permissions", "permissions")]

# Those that are lacking together, by what is said then: "no owner".
LACKED = {"size": ["size"], "owner": ["uid", "gid"]}


# Why a session is kept as it came: it did not show the difference again, there was no time to shrink it, the reply came
# after all when the shrunk session was played with the whole timeout, or the run failed before.
GONE, NO_TIME, LATE, FAILED = "intermittent", "no time", "late", "failed"


class Group:
    """Differences that are alike, and what is known of them."""

    def __init__(self, key, first, steps):
        self.key, (self.request, self.causes, self.expected, self.found) = key, key
        if first.verdict.kind == "Leak":
            self.found = first.found
        # the departures of a profile that would accept it
        self.allowed = first.verdict.lines.get("allowed by")
        # the options of a profile with which it would be accepted
        self.accepted_with = []
        # how many there are, and the seeds of their sessions
        self.count, self.seeds = 0, []
        # the first of them, with the steps of its plan
        self.first, self.steps = first, steps
        # what shrinking shows: a `shrinking.Shown` with steps, tree and difference; None if the session is kept whole,
        # and then `whole` says why
        self.shortest, self.whole = None, NO_TIME
        # whether time was over before it was as short as it gets
        self.partly = False
        # in how many of how many sessions it came when the whole plan was played again
        self.came = self.tries = 0
        # the groups of which one came before it in each of its sessions, and may have caused it; None before the first
        self.behind = None
        # its place among all, from 1, once they are reported
        self.number = None
        # the group that has the same cause as far as can be told, and that is put first; and those put behind this one
        self.leader, self.followers = None, []
        # what reports.keep gives: the folder, and the lines of the session
        self.kept = None
        # the models of faults that it is like, a `likeness.Likeness`, or None where it was not compared
        self.likeness = None

    def fail(self):
        """Says that it was not shrunk since the run failed."""
        if self.shortest is None and self.whole == NO_TIME:
            self.whole = FAILED

    def is_short(self):
        """Whether its session was shrunk to the end."""
        return self.shortest is not None and not self.partly

    def place(self):
        """How far its first session had come when it was refused."""
        places = [place for place in (self.first.request, self.first.reply) if place is not None]
        return max(places, default=len(self.first.session.records))

    def put_behind(self, others):
        """Takes in the groups that came before one of the differences."""
        self.behind = set(others) if self.behind is None else self.behind & others

    def story(self):
        """What became of the session: how far it was shrunk, or why it was not, and how often it came."""
        often = f"it came in {self.came} of {self.tries} tries"
        if self.shortest:
            count = len(self.shortest.steps)
            said = f"shrunk to {count} request{'s' if count != 1 else ''}" + (", time was over" if self.partly else "")
            return said if self.steady() or not self.tries else f"{said}; intermittent, {often}"
        if self.whole == GONE:
            return f"not shrunk: intermittent, {often} with the same plan"
        return {NO_TIME: "not shrunk: no time was left", LATE: "not shrunk: the reply came late",
                FAILED: "not shrunk: the run failed before"}[self.whole]

    def steady(self):
        """Whether it came each time the plan was played again."""
        return self.tries > 0 and self.came == self.tries

    def title(self):
        return f"{self.request}: {self.found}"

    def text(self):
        lines = self.likeness.lines() if self.likeness else []
        lines += [f"request: {self.request}", f"causes: {', '.join(self.causes) or 'none'}",
                 f"expected: {self.expected}", f"found: {self.found}"]
        told = unheld.of_difference(self.first)
        lines += [f"not modelled: {told.text}"] if told else []
        lines += [f"allowed by: {self.allowed}"] if self.allowed else []
        lines += [f"accepted with: {' or '.join(self.accepted_with)}"] if self.accepted_with else []
        session = (self.shortest.difference if self.shortest else self.first).session
        if session.ended or self.first.verdict.kind in ("NotStarted", "Ended"):
            lines += [f"standard error: {line}" for line in session.last_words()]
        return lines


class Groups:
    """The groups, by their keys."""

    def __init__(self):
        self.by_key = {}

    def add(self, steps, difference):
        key = key_of(difference)
        group = self.by_key.setdefault(key, Group(key, difference, steps))
        group.count += 1
        if difference.seed not in group.seeds:
            group.seeds.append(difference.seed)
        return group

    def all(self):
        """The groups, those with the most sessions first, and each before those with the same cause."""
        found = sorted(self.by_key.values(), key=lambda group: (-len(group.seeds), -group.count))
        return [one for group in found if not group.leader for one in [group] + group.followers]

    def reported(self):
        """The same as they are reported: of those whose sessions are not as short as they get, that one comes first
        whose reply was refused earliest."""
        leaders = [group for group in self.all() if not group.leader]
        unsure = iter(sorted([group for group in leaders if not group.is_short()], key=Group.place))
        leaders = [group if group.is_short() else next(unsure) for group in leaders]
        return [one for group in leaders for one in [group] + group.followers]


# What is said of a reply that came once the server had been started again on the files of the session.
AGAIN = ", once the server was started again"


def key_of(difference):
    """What differences of one group have in common: the request, the causes, what is expected, and what was found, and
    whether the server had been started again by then."""
    name, causes, expected, found = plain_key(difference)
    return name, causes, expected, found + AGAIN * difference.is_again


def plain_key(difference):
    """The same, whether or not the server had been started again."""
    verdict = difference.verdict
    if verdict.kind in ("Times", "Changed"):
        return difference.name, (), difference.expected, difference.found
    if verdict.kind == "Leak":
        return difference.name, (), difference.expected, "descriptors more"
    if verdict.kind in ("Unanswered", "NotStarted", "Ended"):
        found = "no reply in time" if difference.session.silent() else difference.found
        return difference.name, (), difference.expected, found
    if verdict.kind not in JUDGED:
        return difference.name, (), difference.expected, told(verdict.kind)
    causes = [words.split()[0] for words in verdict.lines.get("causes", "none").split(", ")]
    expected, found = verdict.lines.get("expected", ""), verdict.lines.get("found")
    found = found or of_reply(verdict.lines.get("reply", ""))
    causes = tuple(sorted(cause for cause in causes if cause != "none"))
    expected, found = alike(expected, found)
    if verdict.kind == "NotModelled" and not is_told_done(difference):
        found += f" (NotModelled: {verdict.lines.get('not modelled', 'the request')})"
    return difference.name, causes, expected, found


def is_told_done(difference):
    """Whether what the tree could not hold was told done, and was not: a bug, though the audit says NotModelled."""
    told = unheld.of_difference(difference)
    return told is not None and told.is_bug


def of_reply(line):
    """What a line of `show` says of a reply: `6 S STATUS 3 21 code 0`."""
    words = line.split()
    if len(words) > 6 and words[2] == "STATUS":
        return of_code(int(words[6]))
    return words[2] if len(words) > 2 else line


def of_code(code):
    """The same, of a STATUS with this code."""
    return f"STATUS with code {code} ({codec.code_name(code)})"


def alike(expected, found):
    """Expected and found without the names and numbers that are the case's own."""
    if expected.startswith("ATTRS with") and found.startswith("ATTRS with"):
        return "ATTRS of " + kind(expected), "ATTRS " + others(expected, found)
    if expected.startswith("DATA"):
        return "DATA", of_data(expected, found)
    if expected.startswith("NAME with some"):
        return "NAME with some of the names left", of_names(found)
    if expected.startswith("NAME with"):
        return "NAME with one path", "NAME with another path" if found.startswith("NAME") else found
    return plain(expected), plain(found)


def plain(text):
    """Without what is in quotes, and without the numbers of attributes."""
    text = re.sub(r'"(\\.|[^"\\])*"(\.\.\.)?', '"..."', text)
    return text if "code" in text else re.sub(r"\d+", "N", text)


def number(text, field):
    found = re.search(rf"\b{field} (\d+)", text)
    return found and found[1]


def kind(text):
    permissions = number(text, "permissions") or ""
    return KINDS.get(permissions.rjust(6, "0")[:2], "something")


def others(one, other):
    """The names of the attributes that differ, or what the other lacks, if all others are the same."""
    lacking = [name for name in ("size", "owner") if f"no {name}" in other and f"no {name}" not in one]
    gone = {field for name in lacking for field in LACKED[name]}
    found = [name for field, name in FIELDS if field not in gone and number(one, field) != number(other, field)]
    said = ["with " + ", ".join(map(another, found or ["value"]))] if found or not lacking else []
    return " and ".join(said + [f"without {name}" for name in lacking])


def another(name):
    return f"{'other' if name.endswith('s') else 'another'} {name}"


def lacks_owner(difference):
    """Whether what differs are attributes that have no owner."""
    return "without owner" in plain_key(difference)[3]


def shown_otherwise(found):
    """The attributes that are said to differ, if they are all that does: `ATTRS with another user, another group`."""
    words = found.removesuffix(AGAIN).rpartition(" with ")[2].split(", ")
    names = {another(name): name for _, name in FIELDS}
    return {names[word] for word in words} if all(word in names for word in words) else set()


def of_data(expected, found):
    lengths = [number(text, "length") for text in (expected, found)]
    if not found.startswith("DATA") or None in lengths:
        return plain(found)
    if "all bytes that both have are the same" in found:
        return "DATA with fewer bytes" if int(lengths[1]) < int(lengths[0]) else "DATA with more bytes"
    return "DATA with other bytes"


def of_names(found):
    if "is not one of them" in found:
        name = found[:found.index(" is not one")]
        return f"{name} is not one of them" if name in ('"."', '".."') else "a name that is not one of them"
    if found.endswith(" comes twice"):
        return "a name that comes twice"
    if " has " in found and ", not " in found:
        has, wanted = found.split(" has ", 1)[1].split(", not ", 1)
        return f"a name of {kind(wanted)} {others(wanted, has)}"
    return plain(found)


# What the faults of a packet mean (docs/PROTOCOL.md, Faults).
FAULTS = {
    "Wire Length": "the packet is longer than 262,144 bytes, or too short for any",
    "Wire Type": "the packet has a type that no server sends",
    "Wire Short": "a field goes past the end of the packet",
    "Wire HandleTooLong": "a handle has more than 256 bytes",
    "Wire Flags": "attributes have a flag that version 3 does not have",
    "Wire Trailing": "bytes follow the last field of the packet",
}


def told(verdict_kind):
    """The kind of a verdict, in words where it is the fault of a packet."""
    return f"{verdict_kind}: {FAULTS[verdict_kind]}" if verdict_kind in FAULTS else verdict_kind


# Requests that change something when they are done. OPEN changes something with some of its flags.
CHANGES = {"WRITE", "SETSTAT", "FSETSTAT", "REMOVE", "MKDIR", "RMDIR", "RENAME", "SYMLINK", "POSIX-RENAME", "HARDLINK"}

# What may differ of a thing, and those of these requests that change its bytes.
BYTES, PATH, PRESENCE, TIMES = "bytes", "path", "whether it is there", "times"
OF_BYTES = {"WRITE", "SETSTAT", "FSETSTAT", "OPEN"}

# Requests that lead to things by paths.
BY_PATH = {"OPEN", "OPENDIR", "STAT", "LSTAT", "SETSTAT", "REMOVE", "MKDIR", "RMDIR", "REALPATH", "RENAME", "READLINK",
           "SYMLINK", "POSIX-RENAME", "HARDLINK"}


def arrange(found):
    """Sets the leaders and followers of these groups, which are in order."""
    first = {}
    for group in found:
        cause = of_shrunk(group)
        if cause:
            follow(group, first.setdefault(cause, group))
    for group in found:
        if group.leader is None and not group.followers and not of_shrunk(group) and not alone(group):
            follow(group, next((other for other in found if other in group.behind and root(other) is not group), group))


def root(group):
    return root(group.leader) if group.leader else group


def follow(group, leader):
    leader = root(leader)
    if leader is not group:
        group.leader = leader
        leader.followers.append(group)


def last_step(group):
    """The request that differs, of the shortest session."""
    number = group.shortest.difference.number
    return next((step for step in group.shortest.steps if step.number == number), None)


def alone(group):
    """Whether the request shows the difference by itself, with no more than what opens its handle."""
    last = group.shortest and last_step(group)
    return bool(last) and len(needs.of_handles(group.shortest.steps, last)) == len(group.shortest.steps)


def of_shrunk(group):
    """The cause that the shortest session shows, or None: the last change in it, and what differs."""
    last = group.shortest and last_step(group)
    if not last or alone(group) and not changes_by_opening(group.shortest.steps, last):
        return None
    if group.first.verdict.kind == "Unanswered":
        return "the end", group.found
    before = group.shortest.steps[:group.shortest.steps.index(last)]
    aspect = of_what(group)
    changed = [step.name for step in before if changes(step) and (aspect != BYTES or step.name in OF_BYTES)]
    return (changed[-1], aspect) if changed and aspect else None


def changes(step):
    """Whether this request changes something, if nothing refuses it."""
    return step.name in CHANGES or step.name == "OPEN" and bool(step.fields[1] & (codec.CREAT | codec.TRUNC))


def changes_by_opening(steps, last):
    return any(changes(step) for step in needs.of_handles(steps, last)[:-1])


def of_what(group):
    """What of a thing differs, or None if that says nothing of its state."""
    if group.first.verdict.kind == "Times":
        return TIMES
    if group.request == "READ":
        return BYTES
    if group.request in ("READLINK", "REALPATH"):
        return PATH
    named = re.search(r"with (?:an)?other ([a-z, ]+)$", group.found.removesuffix(AGAIN))
    if named:
        return BYTES if "size" in named[1] else named[1]
    if "code 2 " in group.expected + group.found or group.request == "READDIR":
        return PRESENCE
    return None


class Things:
    """What the requests of a plan lead to, as far as the plan knows."""

    def __init__(self, steps, tree):
        self.model, self.opened, self.closed = Model(tree), {}, []
        self.by_number = {}
        for step in steps:
            found = self.of_step(step)
            apply(self, step)
            self.by_number[step.number] = found | self.of_step(step)

    def of_step(self, step):
        """Numbers of files, places of other things."""
        opened = self.opened.get(getattr(step.handle(), "step", None))
        if opened:
            entry = opened.number if opened.number is not None else self.model.place_of(opened.entry)
            return {entry} | (self.within(entry) if step.name == "READDIR" else set())
        paths = [value for value in step.fields if isinstance(value, bytes)] if step.name in BY_PATH else []
        places = [self.model.walk(path, follow) for path in paths for follow in (True, False)]
        return {self.thing(place) for place in places if place is not None}

    def thing(self, place):
        entry = self.model.at(place)
        return entry.number if entry and entry.number is not None else place

    def within(self, place):
        return {self.thing(other) for other in self.model.places if place is not None and other[:-1] == place and other}


def behind(occurrences, tree):
    """For each of these pairs of a group and a difference of one plan, which are in order and have the same steps: the
    groups before it that it may follow from."""
    steps = occurrences[0][0]
    things = Things(steps, tree).by_number
    found = []
    for at, (_, group, difference) in enumerate(occurrences):
        own = things.get(difference.number, set())
        found.append({other for _, other, before in occurrences[:at] if other is not group
                      and follows(group, other, own & things.get(before.number, set()))})
    return found


def follows(group, other, shared):
    """Whether a difference may follow from one before it, with which it shares these things."""
    if other.first.verdict.kind == "UnknownReply" and group.first.verdict.kind == "Unanswered":
        # the reply came with another id
        return True
    if group.found == other.found and group.first.session.ended:
        return True
    return bool(shared) and of_what(group) is not None and of_what(group) == of_what(other)
