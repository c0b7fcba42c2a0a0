"""Pages of sets that are made by hand: the order, what contradicts, which requests were in flight together, and what is
left out."""
import os
import re

from order_trials import sets
from order_trials.sets import ABSENT, OK, Session
from page_trials.runs import bars_of, of_set, rows_of
from sftpv3.codec import READ, WRITE, trees
from trials import checked

HANDLE = b"\0\0\0\0"
OPENED = "HANDLE", HANDLE
LOCK = [trees.Entry(b"/lock", trees.FILE, b"", 0, 0, 0o644)]


def remover():
    """Removes /lock between the microseconds 100 and 200."""
    return Session().ask(100, 200, ("REMOVE", b"/lock"), OK)


def opener(asked, answered, reply):
    return Session().ask(asked, answered, ("OPEN", b"/lock", READ, {}), reply)


def tree_of(folder):
    return "--tree", os.path.join(folder, "start.tree")


def in_order(steps, folder):
    """An OPEN that gets a handle was done before the REMOVE that was asked earlier and overlaps it."""
    sets.put(folder, {"a": remover(), "b": opener(150, 250, OPENED)}, entries=LOCK)
    status, said, text = of_set(folder, *tree_of(folder))
    steps.check("a set: status 0, and where the page is", status == 0 and said == f"wrote {folder}/set.html\n", said)
    steps.check("a set: each request has its number in the order",
                rows_of(text) == {"s-1-4": (2, 2, []), "s-2-4": (3, 1, [])}, rows_of(text))
    steps.check("a set: bars are beside each other where requests were in flight together",
                bars_of(text) == {0: (2, 3, 1), 1: (3, 3, 2)}, bars_of(text))
    steps.check("a set: the verdict is there", '<p class="sentence">accepted 2 requests in 2 sessions</p>' in text)
    steps.check("a set: well-formed", not checked.mistakes(text), checked.mistakes(text)[:5])


def given_order(steps, folder):
    """An order that is given is shown, and judged if there is a tree."""
    sets.put(folder, {"a": remover(), "b": opener(150, 250, OPENED)}, entries=LOCK)
    name = os.path.join(folder, "order")
    head = b"SFTPOR01" + b"\0\0\0\2" + b"\0\0\0\1a" + b"\0\0\0\1b" + bytes(4)
    sets.write(name, head + b"\0\0\0\0\0\1\0\0")
    status, _, text = of_set(folder, "--order", name)
    steps.check("an order without a tree is shown, and not judged", status == 0 and "which nothing judged" in text and
                rows_of(text) == {"s-1-4": (2, 1, []), "s-2-4": (3, 2, [])}, rows_of(text))
    status, _, text = of_set(folder, "--order", name, *tree_of(folder))
    steps.check("with a tree it is judged", status == 0 and "does not accept the order" in text and
                "<h1 class=\"plain\">undecided" in text, status)
    sets.write(name, head + b"\0\0\0\0\0\0\0\0")
    _, _, text = of_set(folder, "--order", name)
    steps.check("of one that is none, what is right of it is shown", "place 2: no request is due there" in text and
                rows_of(text) == {"s-1-4": (2, 1, []), "s-2-4": (3, None, [])}, rows_of(text))
    for data, wanted in ((b"junk", "the file is no order"), (head.replace(b"a", b"c") + bytes(8), "of other sessions")):
        sets.write(name, data)
        status, said, text = of_set(folder, "--order", name, out="other.html")
        steps.check(f"an order that is none: {wanted}", (wanted in said and status == 2) or wanted in text, said)


def contradicting(steps, folder):
    """The two that contradict each other are marked, with the sentence of the verdict."""
    sets.put(folder, {"a": remover(), "b": opener(1039, 1200, OPENED)}, entries=LOCK)
    status, _, text = of_set(folder, *tree_of(folder))
    said = ("refused: b.transcript record 4: OPEN &quot;/lock&quot; answered HANDLE is right before a.transcript "
            "record 4 (REMOVE &quot;/lock&quot;, OK), which had its reply 839 us earlier")
    steps.check("a refused set: status 0, and the sentence of the verdict", status == 0 and said in text, status)
    steps.check("the two that contradict each other are marked",
                rows_of(text) == {"s-1-4": (2, None, ["contradicts it"]), "s-2-4": (3, None, ["refused"])},
                rows_of(text))
    steps.check("and have links", all(f'<a href="#{it}">' in text for it in ("s-1-4", "s-2-4")))
    steps.check("their bars are not beside each other", bars_of(text) == {0: (2, 2, 1), 1: (3, 3, 2)}, bars_of(text))
    _, _, text = of_set(folder)
    steps.check("without a tree nothing is judged or marked", 'class="sentence"' not in text and
                not any(it for _, _, it in rows_of(text).values()))


def in_parts(steps, folder):
    """A SETSTAT that is done in two parts has two places; a MKDIR without a reply that was not done has none."""
    entries = [trees.Entry(b"/f", trees.FILE, b"abc", 0, 0, 0o644)]
    told = "ATTRS", {"size": 1, "owner": (0, 0), "permissions": 0o100644}
    sets.put(folder, {"a": Session().ask(0, 100, ("SETSTAT", b"/f", {"size": 1, "permissions": 0o600}), OK),
                      "b": Session().ask(40, 50, ("STAT", b"/f"), told),
                      "c": Session().ask(60, None, ("MKDIR", b"/d", {}), None),
                      "d": Session().ask(110, 120, ("STAT", b"/d"), ABSENT)}, entries=entries)
    status, _, text = of_set(folder, *tree_of(folder), "--profile", "posix")
    steps.check("a request in two parts has two places", status == 0 and "<dd>places 1, 3</dd>" in text and
                "in 2 parts" in text, re.findall("<dd>places? [^<]*", text))
    steps.check("one without a reply that was not done has none", "it had no reply, and was not done" in text)


def many(count, wrong=None):
    """A session with many OPENs and CLOSEs of /lock, one behind the other; one OPEN may be answered that it is not
    there."""
    session = Session()
    for at in range(0, count, 2):
        begin = 10 * at
        if at == wrong:
            session.ask(begin, begin + 5, ("OPEN", b"/lock", READ, {}), ABSENT)
            session.ask(begin + 10, begin + 15, ("STAT", b"/none"), ABSENT)
        else:
            session.ask(begin, begin + 5, ("OPEN", b"/lock", READ, {}), OPENED)
            session.ask(begin + 10, begin + 15, ("CLOSE", HANDLE), OK)
    return session


def large(steps, folder):
    """Of a set of 1,001 requests, 400 at most are shown, and how many are not."""
    writer = Session().ask(1, 4, ("SETSTAT", b"/lock", {"permissions": 0o600}), OK)
    sets.put(folder, {"a": many(1000, wrong=600), "b": writer}, entries=LOCK)
    status, _, text = of_set(folder, *tree_of(folder))
    shown = len(rows_of(text))
    steps.check("a large set: what is refused is shown", rows_of(text).get("s-1-1204", (0, 0, 0))[2] == ["refused"],
                status)
    told = re.search(r"Not shown: ([\d,]+) requests of the sessions with lanes", text)
    steps.check("all requests are shown or counted as not shown", told and
                int(told[1].replace(",", "")) + shown == 1001 and 121 <= shown <= 140, (told, shown))
    steps.check("the change of the same file before it is shown", "s-2-4" in rows_of(text), sorted(rows_of(text))[-3:])
    folds = [int(it.replace(",", "")) for it in re.findall(r'class="words">([\d,]+) requests? not shown', text)]
    steps.check("folds count them", told and sum(folds) == int(told[1].replace(",", "")), folds)
    _, _, text = of_set(folder, "--record", "a:1204", "--around", "2")
    steps.check("--record NAME:N and --around choose what is shown, with the change of the file before it",
                # the one request before that is no fold
                sorted(rows_of(text)) == [*(f"s-1-{it}" for it in (1200, 1202, 1204, 1206, 1208, 4)), "s-2-4"],
                sorted(rows_of(text)))
    steps.check("a large set: well-formed", not checked.mistakes(text), checked.mistakes(text)[:3])


def many_sessions(steps, folder):
    """Of 30 sessions 24 have lanes: those of what contradicts, and those with the most requests."""
    found = {f"s{at:02}": Session() for at in range(28)}
    for session in found.values():
        for at in range(4):
            session.ask(10 * at, 10 * at + 5, ("STAT", b"/none"), ABSENT)
    sets.put(folder, {**found, "t": opener(1039, 1200, OPENED), "u": Session().ask(100, 200, ("REMOVE", b"/lock"), OK)},
             entries=LOCK)
    status, _, text = of_set(folder, *tree_of(folder))
    steps.check("30 sessions: 24 have lanes", status == 0 and text.count('<li class="strip') == 24,
                text.count('<li class="strip'))
    marked = [it for _, _, it in rows_of(text).values() if it]
    steps.check("those of the two that contradict each other are among them",
                marked == [["contradicts it"], ["refused"]], marked)
    steps.check("the others are counted", "Not shown: 6 sessions with 24 requests" in text,
                re.findall("Not shown[^<]*", text))


def wrong_sets(steps, folder):
    """Folders that are no sets, and options that are not for what is given."""
    sets.put(folder, {"a": remover(), "b": opener(150, 250, OPENED)}, entries=LOCK)
    place = os.path.join(folder, "set")
    for words, wanted in ((("--times", "x"), "--times is not for a set"), (("--record", "3"), "NAME:N"),
                          (("--record", "c:3"), "record 3 of c.transcript"), (("--record", "a:0"), "--record"),
                          (("--tree", place), "it is a folder"), (("--order", place), "it is a folder"),
                          (("--tree", f"{place}/a.transcript"), "it is a transcript, not a tree file")):
        status, said, _ = of_set(folder, *words)
        steps.check(f"{words}: status 2, and why", status == 2 and wanted in said and "Traceback" not in said, said)
    for option in ("--parts", "--order"):
        status, said, _ = of_set(folder, option, "none", records="set/a.transcript")
        steps.check(f"{option} of one session: status 2", status == 2 and "is for a set" in said, said)
    os.remove(f"{place}/b.times")
    status, said, _ = of_set(folder)
    steps.check("a session without times is named", status == 2 and "b.transcript: there is no b.times" in said, said)
    os.mkfifo(f"{place}/b.times")
    status, said, _ = of_set(folder)
    steps.check("a FIFO is named, and not waited for", status == 2 and f"{place}/b.times: it is a FIFO" in said, said)


def hostile_names(steps, folder):
    """Names of sessions and paths stay text."""
    name = "<img src=x onerror=alert(1)>\n\x1b"
    sets.put(folder, {name: Session().ask(1, 2, ("STAT", b"</script><b>"), ABSENT), "b": opener(150, 250, OPENED)},
             entries=LOCK)
    status, _, text = of_set(folder, *tree_of(folder))
    steps.check("a set with hostile names: well-formed", status == 0 and not checked.mistakes(text) and
                text.count("<script") == 1 and "accepted 2 requests" in text, (status, checked.mistakes(text)[:3]))


def writes(steps, folder):
    """A request through a handle has the path of what it opened, each session its own."""
    one, other = Session(), Session()
    for at, (session, path) in enumerate(((one, b"/f"), (other, b"/g"))):
        session.ask(at, 10 + at, ("OPEN", path, READ | WRITE | 8, {}), OPENED)
        session.ask(20 + at, 30 + at, ("WRITE", HANDLE, 0, b"abc"), OK)
    sets.put(folder, {"a": one, "b": other})
    status, _, text = of_set(folder, *tree_of(folder))
    paths = re.findall(r'id="(s-\d-6)"[^>]* data-kind="WRITE STATUS" data-path="&quot;(/.)&quot;"', text)
    steps.check("a WRITE is found by the path of its handle", status == 0 and
                paths == [("s-1-6", "/f"), ("s-2-6", "/g")], paths)


TRIALS = (in_order, given_order, contradicting, in_parts, large, many_sessions, wrong_sets, hostile_names, writes)
