"""What a person does with a page: figures that are worked out by hand, and in Chromium the filter, keys alone, what a
screen reader is told, windows of two widths, dark and light."""
import os
import re
import struct

from order_trials import sets
from order_trials.sets import ABSENT, OK, Session
from page_trials.runs import of_set, page, text_of
from sftpv3 import codec
from sftpv3.codec import READ, trees
from trials import browser, checked

WIDTHS, SCHEMES = (390, 1280), ("light", "dark")

HANDLE = b"h"
DATA = ("DATA", b"abc")


def session():
    """100 STATs, the Nth of which is answered after N microseconds, behind them an OPEN, two READs and a CLOSE, of
    which the second READ has its reply before the first one."""
    made, at = Session(), 0
    for number in range(1, 101):
        made.ask(at, at + number, ("STAT", b"/none" if number % 2 else b"/other"), ABSENT)
        at += 200
    made.ask(at, at + 5, ("OPEN", b"/f", READ, {}), ("HANDLE", HANDLE))
    made.ask(at + 10, at + 40, ("READ", HANDLE, 0, 3), DATA)
    made.ask(at + 11, at + 20, ("READ", HANDLE, 3, 3), ("STATUS", 1, b"", b""))
    return made.ask(at + 50, at + 60, ("CLOSE", HANDLE), OK)


def written(folder, *words):
    """The page of that session."""
    given = session()
    name, out = os.path.join(folder, "s.transcript"), os.path.join(folder, "s.html")
    sets.write(name, given.transcript())
    sets.write(os.path.join(folder, "times"), given.times())
    status, said = page(name, "-o", out, *words)
    return status, said, out


def cells_of(text, kind):
    """The cells of the rows of the figures that are about this kind."""
    return [re.findall("<td>([^<]*)", row) for row in re.findall(f'<th scope="row">{kind}</th>(.*?)</tr>', text)]


def figures(steps, folder):
    """The figures of a session: the median of 1 to 100 is 50, 99 of a hundred are at most 99."""
    status, said, out = written(folder, "--times", os.path.join(folder, "times"))
    text = text_of(out)
    # a STAT has 4 bytes of its length, its type, its id and a path with its length; a reply has three numbers more
    asked = sum(len(codec.request(1, "STAT", path)) for path in (b"/none", b"/other")) * 50
    steps.check("figures of 100 STATs", status == 0 and cells_of(text, "STAT") == [
        ["100", f"{asked:,}", f"{100 * 21:,}"], ["0.050", "0.099", "0.100"]], cells_of(text, "STAT"))
    steps.check("figures of two READs", cells_of(text, "READ")[0][0] == "2" and
                cells_of(text, "READ")[1] == ["0.009", "0.030", "0.030"], cells_of(text, "READ"))
    steps.check("the summary counts all", "Figures: 104 requests of 4 kinds, 2 in flight and 1 handle open at most" in
                text, re.findall("Figures:[^<]*", text))
    slow = re.findall(r"<li>([\d.]+) ms: <b>(\w+)</b>[^<]*<a href=\"#(d1a-\d+)\">", text)
    steps.check("the ten slowest, with links", slow == [(f"0.{number:03}", "STAT", f"d1a-{2 * number + 1}")
                                                        for number in range(100, 90, -1)], slow)
    _, _, out = written(folder)
    text = text_of(out)
    steps.check("without times there are counts alone", len(cells_of(text, "STAT")) == 1 and "slowest" not in
                text.split("</style>")[1].split("<script>")[0])


def wrong_times(steps, folder):
    """Times that are not of the session."""
    written(folder)
    name, times = os.path.join(folder, "s.transcript"), os.path.join(folder, "times")
    for data, wanted in ((b"junk", "the file has no times"), (b"SFTPTM01" + struct.pack(">2Q", 1, 1), "it has 1 times"),
                         (session().transcript(), "it is a transcript, not a file of times")):
        sets.write(times, data)
        status, said = page(name, "--times", times, "-o", os.path.join(folder, "x.html"))
        steps.check(f"--times of a file that does not fit: {wanted}", status == 2 and wanted in said and
                    said.startswith(f"page: {times}: "), said)


def filtered(opened, text):
    """What the filter says of a text, and how many rows and bars are shown then."""
    opened.run("var f = document.querySelector('.filter input'); f.focus(); f.select();")
    opened.type(text)
    return (opened.run("document.querySelector('.filter output').textContent"),
            opened.run("document.querySelectorAll('.row:not([hidden])').length"),
            opened.run("document.querySelectorAll('.bar:not([hidden])').length"))


# What is typed, how many records match, and how many bars are shown, worked out by hand: 100 STATs, half of /none, an
# OPEN, two READs and a CLOSE with their replies, INIT and VERSION.
TYPED = (("kind:STAT", 200, 100), ("kind:read", 4, 2), ("path:/none", 100, 50), ("path:/f", 8, 4), ("id:7", 2, 1),
         ("code:EOF", 2, 1), ("code:1,0", 4, 2), ("code:NO_SUCH_FILE path:/other", 100, 50), ("VERSION", 1, 0),
         ("nothing-like-it", 0, 0), ("kind:READ code:2", 0, 0))


def filters(steps, folder):
    """The filter shows what matches, counts it, and says so to screen readers."""
    _, _, out = written(folder)
    with browser.browser() as opened:
        opened.show(out)
        for text, rows, bars in TYPED:
            found = filtered(opened, text)
            steps.check(f"the filter {text!r}", found == (f"{rows} of 210 records match.", rows, bars), found)
        found = filtered(opened, "knd:READ")
        steps.check("a field that there is not is named, and all is shown", found[1:] == (210, 104) and
                    "no field knd" in found[0], found)
        steps.check("and told as wrong", opened.run("document.querySelector('.filter input').ariaInvalid") == "true")
        filtered(opened, "kind:READ")
        opened.run("document.querySelector('.figures').open = true")
        opened.run("var a = document.createElement('a'); a.href = '#d1a-3'; document.body.append(a); a.click()")
        steps.check("a link to a row that is hidden shows it", opened.run(
            "!document.getElementById('d1a-3').hidden && document.querySelector('.filter input').value === ''"))
        roles = opened.told()
        steps.check("the filter has a name, and a status for screen readers", ("searchbox", "Filter") in roles and
                    any(role == "status" for role, _ in roles) and any(role == "search" for role, _ in roles))


def long_filters(steps, folder):
    """What a page leaves out was not searched, and the filter says so."""
    made = Session()
    for at in range(300):
        made.ask(10 * at, 10 * at + 5, ("STAT", b"/none"), ABSENT)
    name, out = os.path.join(folder, "long.transcript"), os.path.join(folder, "long.html")
    sets.write(name, made.transcript())
    page(name, "-o", out)
    with browser.browser() as opened:
        opened.show(out)
        # INIT and VERSION, and 60 records behind the first and 60 before the last, with these
        found = filtered(opened, "STAT")
        steps.check("the filter of a long session", found[0] == "120 of 122 records match; 480 records that this page "
                    "does not show were not searched.", found)


def keys(steps, folder):
    """By keys alone: the filter, rows up and down, and their fields."""
    _, _, out = written(folder)
    with browser.browser() as opened:
        opened.show(out)
        # figures, the key, two buttons
        opened.press("Tab", 5)
        steps.check("the fifth Tab leads to the filter", opened.run("document.activeElement.type") == "search",
                    opened.run("document.activeElement.outerHTML.slice(0, 80)"))
        opened.type("kind:READ")
        opened.press("Tab")
        first = opened.run("document.activeElement.closest('.row').id")
        opened.press("ArrowDown")
        second = opened.run("document.activeElement.closest('.row').id")
        # the records before them: INIT, VERSION, 100 STATs, the OPEN, with their replies
        steps.check("from there Tab and an arrow lead to the rows that match",
                    (first, second) == ("d1a-205", "d1a-206"), (first, second))
        opened.press("Enter")
        steps.check("Enter opens the fields", opened.run("document.getElementById('d1a-206').firstChild.open") is True)
        opened.press("ArrowUp")
        steps.check("ArrowUp leads back", opened.run("document.activeElement.closest('.row').id") == "d1a-205")


def of_sets(steps, folder):
    """The page of a set has the same figures and the same filter: the handles of two sessions are open together, and
    the filter has a field more."""
    shared = [trees.Entry(b"/f", trees.FILE, b"", 0, 0, 0o644)]
    sessions = {name: Session().ask(at, at + 5, ("OPEN", b"/f", READ, {}), ("HANDLE", HANDLE))
                .ask(at + 300, at + 310, ("CLOSE", HANDLE), OK) for name, at in (("a", 100), ("b", 200))}
    sets.put(folder, sessions, entries=shared)
    _, _, text = of_set(folder)
    steps.check("figures of a set", "Figures: 4 requests of 2 kinds, 1 in flight and 2 handles open at most" in text,
                re.findall("Figures:[^<]*", text))
    if not checked.chromium():
        steps.skip("the filter of a set in Chromium", "it is not installed")
        return
    with browser.browser() as opened:
        opened.show(os.path.join(folder, "set.html"))
        for words, rows in (("session:a", 2), ("kind:CLOSE", 2), ("session:b kind:OPEN", 1), ("code:EOF", 0)):
            found = filtered(opened, words)
            steps.check(f"the filter {words!r} of a set", found == (f"{rows} of 4 requests match.", rows, rows), found)
        filtered(opened, "session:b")
        opened.press("Tab")
        first = opened.run("document.activeElement.closest('.row').dataset.session")
        opened.press("Enter")
        steps.check("by keys alone: Tab leads to the first row of the session, and Enter opens it", first == "b" and
                    opened.run("document.activeElement.parentNode.open") is True, first)


def names(steps, folder):
    """All that can be focused has a name, headings leave out no level, and texts can be read, dark and light."""
    late = Session().ask(1039, 1200, ("OPEN", b"/lock", READ, {}), ("HANDLE", HANDLE))
    sets.put(folder, {"a": Session().ask(100, 200, ("REMOVE", b"/lock"), OK), "b": late},
             entries=[trees.Entry(b"/lock", trees.FILE, b"", 0, 0, 0o644)])
    of_set(folder, "--tree", os.path.join(folder, "start.tree"))
    _, _, out = written(folder, "--times", os.path.join(folder, "times"))
    with browser.browser() as opened:
        for kind, name in (("a session", out), ("a set", os.path.join(folder, "set.html"))):
            looked_at(steps, opened, kind, name)
        sets.write(out, text_of(out).replace("--dim: #57606a", "--dim: #d0d0d0").replace("<label", "<i").encode())
        opened.show(out)
        steps.check("a text that is too faint is found", len(opened.faint()) > 3, opened.faint())


# The roles of what can be focused.
FOCUSED = {"button", "link", "searchbox", "DisclosureTriangle"}


def looked_at(steps, opened, kind, name):
    for scheme in SCHEMES:
        for width in WIDTHS:
            opened.show(name, width, 900, scheme)
            opened.run("document.querySelectorAll('details').forEach(function (one) { one.open = true; })")
            steps.check(f"{kind}, {scheme}, {width} pixels: all can be read, and nothing is wider",
                        not opened.faint() and not opened.wide(), (opened.faint(), opened.wide()))
    roles = opened.told()
    unnamed = [role for role, told in roles if role in FOCUSED and not told.strip()]
    steps.check(f"{kind}: all that can be focused has a name", not unnamed and len(roles) > 50, unnamed)
    levels = opened.run("Array.from(document.querySelectorAll('h1,h2,h3')).map(function (it) { "
                        "return it.tagName[1]; }).join('')")
    steps.check(f"{kind}: headings leave out no level", levels.startswith("1") and "13" not in levels, levels)


def in_chromium(trial):
    """The trial, which is skipped where there is no Chromium."""
    def tried(steps, folder):
        if checked.chromium():
            trial(steps, folder)
        else:
            steps.skip(f"{trial.__name__} in Chromium", "it is not installed")
    tried.__name__ = trial.__name__
    return tried


TRIALS = (figures, wrong_times, of_sets, *map(in_chromium, (filters, long_filters, keys, names)))
