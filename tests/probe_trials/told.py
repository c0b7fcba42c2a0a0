"""Modules of the probe that read what a session shows, called without a run and without a server: what the tree could
not hold, paths by their text, changes that are refused, the table of squares, and files of some GiB."""
from sftpv3 import codec
from sftpv3.faults import distant
from sftpv3.probe import bytext, features, offers, planner, readonly, squares, starting, unheld, verdicts
from sftpv3.probe.model import FAR, Model
from sftpv3.probe.sessions import Session

SHOWN = {"size": 5, "owner": (0, 0), "permissions": 0o100644}


def difference(exchanges, place):
    """The difference of a session of these requests and replies, at one that an audit cannot follow."""
    records = list(codec.BEGUN)
    for number, (name, fields, reply) in enumerate(exchanges, 1):
        body = codec.uint32(number)
        records += [(b"C", codec.request(number, name, *fields)), (b"S", codec.packet(reply[0], body + reply[1]))]
    request, name = 2 + 2 * place, exchanges[place][0]
    verdict = verdicts.Verdict(False, "refused", request + 2, "NotModelled", {})
    return verdicts.Difference(1, place + 1, name, verdict, records, Session(records=records), request, request + 1)


OK = codec.STATUS, codec.uint32(codec.OK) + codec.string(b"") * 2
ABSENT = codec.STATUS, codec.uint32(codec.NO_SUCH_FILE) + codec.string(b"") * 2
HANDLE = codec.HANDLE, codec.string(b"h")


def shows(size):
    return codec.ATTRS, codec.attributes({**SHOWN, "size": size})


def leads(target):
    return codec.NAME, codec.names([(target, target, {})])


OPEN = "OPEN", [b"/f", codec.WRITE, {}], HANDLE
LARGE = 1 << 40

# What is asked and answered, the place of what the tree could not hold, whether that is a bug, and what is said.
HELD = [
    ([("SETSTAT", [b"/f", {"size": FAR}], OK)], 0, True, "no system holds a file of 9,223,372,036,854,775,808 bytes"),
    ([OPEN, ("WRITE", [b"h", FAR - 1, b"x"], OK)], 1, True, "no system holds"),
    ([OPEN, ("WRITE", [b"h", LARGE, b"x"], OK)], 1, False, "does not tell"),
    ([("OPEN", [b"/f", codec.WRITE | codec.APPEND, {}], HANDLE), ("WRITE", [b"h", FAR, b"x"], OK)], 1, False,
     "does not tell"),
    ([OPEN, ("WRITE", [b"h", LARGE, b"x"], OK), ("FSTAT", [b"h"], shows(5))], 1, True, "shows the size 5, not"),
    ([OPEN, ("WRITE", [b"h", LARGE, b"x"], OK), ("STAT", [b"/f"], shows(5))], 1, True, "shows the size 5, not"),
    ([OPEN, ("WRITE", [b"h", LARGE, b"x"], OK), ("FSTAT", [b"h"], shows(LARGE + 1))], 1, False, "it was done"),
    ([OPEN, ("WRITE", [b"h", LARGE, b"x"], OK), ("STAT", [b"/g"], shows(5))], 1, False, "does not tell"),
    ([("SETSTAT", [b"/f", {"size": LARGE}], OK), ("SETSTAT", [b"/f", {"size": 5}], OK), ("STAT", [b"/f"], shows(5))],
     0, False, "does not tell"),
    ([("SYMLINK", [b"", b"/l"], OK), ("READLINK", [b"/l"], leads(b"."))], 0, True, 'shows "."'),
    ([("SYMLINK", [b"", b"/l"], OK), ("READLINK", [b"/l"], leads(b""))], 0, False, "it was done"),
    ([("MKDIR", [b"/d", {}], OK), ("LSTAT", [b"/d"], ABSENT)], 0, True, "finds nothing there"),
]


def try_held(steps, _):
    for exchanges, place, is_bug, said in HELD:
        told = unheld.of_difference(difference(exchanges, place))
        words = ", ".join(name for name, *_ in exchanges)
        steps.check(f"what the tree could not hold: {words}: {said}", told.is_bug == is_bug and said in told.text, told)


# Paths, and what their texts make.
TEXTS = [(b"/", b"/"), (b"", b""), (b".", b"."), (b"/f/.", b"/f"), (b"/f/", b"/f"), (b"//a///b", b"/a/b"),
         (b"/absent/../d", b"/d"), (b"/../../d", b"/d"), (b"a/../b/.", b"b"), (b"a/..", b"."), (b"../a/..", b".."),
         (b"/a\0/..b", b"/a\0/..b")]


def try_texts(steps, _):
    wrong = [(path, bytext.resolved(path)) for path, made in TEXTS if bytext.resolved(path) != made]
    steps.check("paths by their text", not wrong, wrong)
    sent = codec.request(1, "SYMLINK", b"../a/./b", b"/c/../l")
    for link_first, wanted in ((False, [b"../a/./b", b"/l"]), (True, [b"../a/b", b"/c/../l"])):
        steps.check(f"the target of a link stays{', behind its path' * link_first}",
                    codec.decode(bytext.request(sent, link_first)).fields == wanted)


def try_changes(steps, _):
    tree, found = starting.usual(), set()
    for seed in range(1, 11):
        found |= {step.name for step in planner.plan(seed, tree, 60) if readonly.is_change(step)}
    wanted = {"OPEN", "WRITE", "SETSTAT", "FSETSTAT", "MKDIR", "RMDIR", "REMOVE", "RENAME", "POSIX-RENAME", "SYMLINK",
              "HARDLINK"}
    steps.check("what would change something", found == wanted, found ^ wanted)
    asked = [("OPEN", [b"/f", codec.READ, {}], False), ("OPEN", [b"/f", codec.READ | codec.CREAT, {}], True),
             ("SETSTAT", [b"/f", {}], False), ("STAT", [b"/f"], False)]
    wrong = [name for name, fields, is_change in asked
             if readonly.is_change(codec.decode(codec.request(1, name, *fields))) != is_change]
    steps.check("what would change nothing", not wrong, wrong)


def try_absolute(steps, _):
    """Which paths lead through a link with an absolute target: of the probe's own tree, those below /to-e."""
    model = Model(starting.usual())
    other = offers.without_absolute(model)
    for path, leaves in ((b"/to-e/f", True), (b"/to-e", True), (b"/to-d/e/f", False), (b"/d/up", False)):
        steps.check(f"{path.decode()}: it {'leaves' if leaves else 'stays in'} a folder",
                    (model.walk(path, True) != other.walk(path, True)) == leaves)
    tree = starting.without(starting.usual(), {"absolute-links"})
    steps.check("--skip absolute-links: the tree has none", b"/to-e" not in {entry.path for entry in tree.entries} and
                b"/to-d" in {entry.path for entry in tree.entries})


def try_squares(steps, _):
    """The table has what its text says, and plans of 49 seeds have each of its scenes."""
    pairs, things, missing = set(), set(), set()
    for number, (word, _, fit) in enumerate(squares.REQUESTS):
        rows = squares.rows(number)
        met = [(way, state) for thing, way, state in rows if thing in fit]
        missing |= {(word, "thing")} if {thing for thing, *_ in rows} < set(squares.THINGS) else set()
        missing |= {(word, "way", way) for way in range(len(squares.WAYS)) if way not in {it for it, _ in met}}
        missing |= {(word, "state", it) for it in range(len(squares.STATES)) if it not in {state for _, state in met}}
        pairs |= {(way, state) for _, way, state in rows}
        things |= {(thing, "way", way) for thing, way, _ in rows} | {(thing, "state", it) for thing, _, it in rows}
    steps.check("each request meets each thing, and by each way and in each state one that it is for", not missing,
                missing)
    steps.check("each way meets each state", len(pairs) == len(squares.WAYS) * len(squares.STATES), len(pairs))
    steps.check("each thing is reached by each way, and in each state", len(things) == len(squares.THINGS)
                * (len(squares.WAYS) + len(squares.STATES)), len(things))
    names = [name for seed in range(1, 50) for _, scene in planner.of_seed(seed, squares.PERIODS)
             for name in [planner.name_of(scene)]]
    steps.check("49 seeds have each scene once", len(names) == len(set(names)) == len(squares.REQUESTS), names)


def try_dangling(steps, _):
    """RENAME to a link that leads nowhere has a feature of its own, and that of another link one more."""
    model = Model(starting.usual())
    planner_of = type("P", (), {"model": model, "opened": {}})()
    for old, new, wanted in ((b"/f", b"/nowhere", {"rename-over", "rename-over-dangling"}),
                             (b"/to-d", b"/nowhere", {"rename-over", "rename-over-dangling", "rename-dangling"}),
                             (b"/f", b"/ring", {"rename-over", "rename-over-dangling"}),
                             (b"/f", b"/to-d", {"rename-over"}), (b"/f", b"/new", set())):
        found = features.of_rename(planner_of, None, old, new)
        steps.check(f"RENAME {old.decode()} {new.decode()}: {', '.join(sorted(wanted)) or 'no feature'}",
                    found == wanted, found)


FAR, NEAR = distant.PLACES[1]
LONG = b"/distant-1/distant"

# What is asked and answered of a long file, and what the audit sees of it.
LONG_FILES = [
    ("what was written there", ("WRITE", [b"h", FAR - 7, b"bytes"], OK), ("WRITE", [b"h", NEAR - 7, b"bytes"], OK)),
    ("what was refused stays", ("WRITE", [b"h", FAR, b"b"], ABSENT), ("WRITE", [b"h", FAR, b"b"], ABSENT)),
    ("a READ there", ("READ", [b"h", FAR - 9, 50], ABSENT), ("READ", [b"h", NEAR - 9, 50], ABSENT)),
    ("a READ near the beginning", ("READ", [b"h", 40, 50], ABSENT), ("READ", [b"h", 40, 50], ABSENT)),
    ("a READ of another file", ("READ", [b"g", FAR, 50], ABSENT), ("READ", [b"g", FAR, 50], ABSENT)),
    ("a size by handle", ("FSTAT", [b"h"], shows(FAR + 2)), ("FSTAT", [b"h"], shows(NEAR + 2))),
    ("a size by path", ("LSTAT", [LONG], shows(FAR + 2)), ("LSTAT", [LONG], shows(NEAR + 2))),
    ("a size of 32 bits", ("STAT", [LONG], shows(2)), ("STAT", [LONG], shows(2))),
    ("a size that stands for another", ("STAT", [LONG], shows(NEAR)), ("STAT", [LONG], shows(FAR))),
    ("a size of another file", ("LSTAT", [b"/f"], shows(NEAR)), ("LSTAT", [b"/f"], shows(NEAR))),
    ("a size that is set", ("SETSTAT", [LONG, {"size": FAR}], OK), ("SETSTAT", [LONG, {"size": NEAR}], OK)),
    ("a size that is refused", ("SETSTAT", [LONG, {"size": FAR}], ABSENT), ("SETSTAT", [LONG, {"size": FAR}], ABSENT)),
    ("a reply that is cut", ("STAT", [LONG], (codec.ATTRS, b"\0")), ("STAT", [LONG], (codec.ATTRS, b"\0"))),
]


def try_distant(steps, _):
    """Files that are written at 2^32 are judged as if that were nearer, and all else as it is."""
    opened = [("OPEN", [path, codec.READ, {}], (codec.HANDLE, codec.string(handle)))
              for path, handle in ((LONG, b"h"), (b"/f", b"g"))]
    for name, asked, seen in LONG_FILES:
        given, wanted = (difference([*opened, one], 2).records for one in (asked, seen))
        steps.check(f"a long file: {name}", distant.records(given) == wanted, distant.records(given)[-2:])
    listed = [codec.packet(codec.NAME, codec.uint32(3) + codec.names([(it, it, {**SHOWN, "size": size})
              for it, size in ((b"distant", one), (b"other", FAR))])) for one in (FAR, NEAR)]
    steps.check("a long file: a listing shows its size, and that of another file", distant.of_reply(
        "READDIR", b"/distant-1", listed[0]) == listed[1])
    numbers = [0, 3100, 1 << 20, *(place + by for pair in distant.PLACES for place in pair
                                   for by in (-distant.AROUND - 1, -distant.AROUND, 0, distant.AROUND + 1))]
    steps.check("no two numbers have the same in their place", len({*map(distant.other, numbers)}) == len(numbers) and
                [distant.other(distant.other(it)) for it in numbers] == numbers)
    steps.check("what an audit says has the server's numbers", distant.told(f"size {NEAR}, 5") == f"size {FAR}, 5")
    changes = [step for step in planner.plan(13, starting.usual(), 60) if "distant" in step.tags]
    near = [distant.of_request(step) for step in changes]
    sizes = [step.fields[1] if step.name == "WRITE" else step.fields[1]["size"] for step in near]
    steps.check("the tree has room for all that stands for it", len(changes) > 10 and max(sizes) < distant.ROOM <
                Model(starting.usual()).largest, sizes)


TRIALS = (try_held, try_texts, try_changes, try_absolute, try_squares, try_dangling, try_distant)
