"""A page of HTML that needs nothing else: style and script are in it, and nothing else may run: the page of a
run of the probe, that of one session, and that of a set of sessions which overlapped."""
import base64
import hashlib
import os
from dataclasses import dataclass, field
from typing import List, Tuple

from sftpv3 import codec
from sftpv3.codec import wording
from sftpv3.page import differing, exchanges, figures, lanes, sets
from sftpv3.page.picture import Picture, counted, safe
from sftpv3.system import files

HERE = os.path.dirname(os.path.realpath(__file__))

KEY = [
    ("C", "a request of the client, with its number in the session, its name, and its id"),
    ("S", "a reply of the server"),
    ("@4", "through the handle that record 4 gave"),
    ("│", "a lane: from a request to its reply, so lanes beside each other were in flight together"),
    ("┊", "a broken lane: replies to later requests came before this one, which was overtaken"),
    ("║", "a double lane, and rows with a frame: the request and the reply that differ"),
]

KEY_OF_SET = [
    ("7", "the place of the request in the order that was found, if one was"),
    ("b", "the session: its transcript is b.transcript"),
    ("│", "a bar in a lane of its session, from the request to the last one that was asked before its reply: requests "
          "with bars beside each other were in flight together, and of two others the upper one came first"),
    ("║", "a double bar, and rows with a frame: the requests that the verdict names"),
]


def part(name):
    with open(os.path.join(HERE, name), encoding="utf-8") as file:
        return file.read()


def page(title, body):
    """The text of a page with this title and body."""
    style, script = part("page.css"), part("page.js")
    seal = base64.b64encode(hashlib.sha256(script.encode()).digest()).decode()
    policy = f"default-src 'none'; style-src 'unsafe-inline'; script-src 'sha256-{seal}'; base-uri 'none'"
    return f"""<!DOCTYPE html>
<html lang="en">
<head>
<meta charset="utf-8">
<meta name="viewport" content="width=device-width, initial-scale=1">
<meta name="color-scheme" content="light dark">
<meta http-equiv="Content-Security-Policy" content="{policy}">
<title>{safe(wording.line(title))}</title>
<style>{style}</style>
</head>
<body>
{body}
<script>{script}</script>
</body>
</html>
"""


def facts(pairs):
    """A list of names and values; a value is text, or a list of texts."""
    rows = []
    for name, value in pairs:
        values = [value] if isinstance(value, str) else value
        rows.append(f"<div><dt>{safe(name)}</dt>" + "".join(f"<dd>{safe(one)}</dd>" for one in values) + "</div>")
    return '<dl class="facts">' + "".join(rows) + "</dl>"


def key(signs=KEY, kind="record"):
    """How a picture is read, whose rows are of this kind."""
    rows = "".join(f"<div><dt>{sign}</dt><dd>{text}</dd></div>" for sign, text in signs)
    return (f'<details class="key"><summary>How to read the pictures</summary><p>Time goes down. Each row is a {kind}; '
            f'click it, or press Enter on it, for its fields.</p><dl>{rows}</dl></details>')


def write(name, text):
    """Writes a page, which replaces the file whole."""
    files.write_text(name, text)


# The most seeds that have a cell each. Of more, those that differ are shown.
CELLS = 1000


@dataclass
class Run:
    title: str
    # The last line that is printed.
    summary: str
    facts: List[Tuple[str, object]]
    # For each seed the numbers of its differences, from 1.
    seeds: List[Tuple[int, List[int]]]
    differences: List[differing.Difference] = field(default_factory=list)
    # Whether each seed was judged: only then is a run without differences accepted.
    is_whole: bool = True
    # What was looked at: for each check its name, the sections, how often it ran, passed and failed, what it is, and by
    # which option it was left out.
    checks: List[List[object]] = field(default_factory=list)


def page_of_run(run):
    verdict = "no" if run.differences else "yes" if run.is_whole else "plain"
    body = [*header(run.title, run.summary, verdict), "<main>", '<section><h2>The run</h2>', facts(run.facts),
            seeds(run.seeds), "</section>"]
    if run.differences:
        body += ['<nav aria-label="Differences"><h2>Differences</h2><ol class="index">',
                 *(entry(number, one) for number, one in enumerate(run.differences, 1)), "</ol></nav>",
                 key()]
    body += [differing.html(f"d{number}", one) for number, one in enumerate(run.differences, 1)]
    body += [checks(run.checks)] if run.checks else []
    return page(f"{run.title}: {run.summary}", "\n".join([*body, "</main>"]))


def checks(rows):
    """A table of what was looked at."""
    heads = ("Check", "Sections", "Ran", "Passed", "Failed", "What it is", "Left out by")
    return ('<section class="figures"><h2>Checks</h2>' + figures.table(
        "What was looked at, with the sections of the draft, and in how many sessions", heads,
        [tuple(map(str, row)) for row in rows]) + "</section>")


def entry(number, difference):
    note = difference.notes[0] if difference.notes else ""
    title = difference.title.split(". ", 1)[-1]
    return f'<li><a href="#d{number}">{safe(title)}</a> <small>{safe(note)}</small></li>'


def seeds(given):
    """A cell for each seed, with a sign for those that differ."""
    shown = given if len(given) <= CELLS else [one for one in given if one[1]]
    wrong = sum(bool(numbers) for _, numbers in given)
    left = f" ({counted(len(given) - len(shown), 'accepted one')} not shown)" if len(shown) < len(given) else ""
    cells = []
    for seed, numbers in shown[:CELLS]:
        if numbers:
            named = ", ".join(map(str, numbers))
            cells.append(f'<li class="no"><a href="#d{numbers[0]}" title="seed {seed} differs: {named}">{seed}'
                         f'<span aria-hidden="true">✗</span><span class="unseen"> differs</span></a></li>')
        else:
            cells.append(f'<li class="yes" title="seed {seed}: accepted">{seed}<span class="unseen"> accepted</span>'
                         '</li>')
    differ = "none differs" if not wrong else f"{wrong:,} of which differ{'s' * (wrong == 1)} (✗)"
    return (f'<h3>Seeds <small>{counted(len(given), "session")}, {differ}{left}</small></h3>'
            f'<ol class="seeds">{"".join(cells)}</ol>')


def version(records):
    """What the server's VERSION says, in a few words."""
    try:
        number, pairs = codec.version_of(records[1][1])
    except (IndexError, codec.Malformed):
        return "none that can be read"
    return [f"version {number}"] + [f"{wording.quoted(name)} {wording.quoted(value)}" for name, value in pairs]


def page_of_session(name, records, said, difference=None, centre=(), around=exchanges.AROUND, times=None):
    """The text of the page: `said` has pairs of what is said above the picture; `difference` is the refusal; `times`
    are seconds, one for each record, or None."""
    session = exchanges.Session(records, times)
    asked = len(session.exchanges)
    title = os.path.basename(name)
    about = [("session", name), ("records", f"{len(records):,}: {counted(asked, 'request')}, "
                                 f"{differing.most_in_flight(session)} in flight at most"),
             ("server's VERSION", version(records)), *said]
    heading = "refused: " + difference.title if difference else counted(asked, "request")
    marked = differing.marked(difference.sessions[0]) if difference else ()
    why = differing.why(difference.kind) if difference else ""
    picture = Picture("d1a", session, marked, why, exchanges.WHOLE, around, centre)
    body = [*header(f"sftpv3-page: {title}", heading, "no" if difference else "plain"), "<main>",
            "<section><h2>The session</h2>", facts(about), "</section>",
            figures.html(figures.of_session(session), picture.told), key()]
    if difference:
        body.append(differing.html("d1", difference, exchanges.WHOLE, around, picture))
    else:
        body += ['<section id="d1"><h2>Its packets</h2>', picture.html(), "</section>"]
    return page(f"{title}: {heading}", "\n".join([*body, "</main>"]))


def header(title, heading, kind):
    """The head of a page: its verdict is `yes`, `no` or `plain`, if there is none."""
    sign = {"no": "✗", "yes": "✓"}.get(kind)
    sign = f'<span aria-hidden="true">{sign}</span> ' if sign else ""
    return [f'<header><p class="of">{safe(title)}</p><h1 class="{kind}">{sign}{safe(heading)}</h1>',
            "</header>"]


# What the heading of a set says, and its kind, by the word of the verdict.
HEADINGS = {"accepted": ("accepted", "yes"), "refused": ("refused", "no"), "undecided": ("undecided", "plain")}


def page_of_set(folder, found, verdict, said, marks, around=sets.AROUND):
    """The text of the page of a set: `verdict` is what sftpv3-together said, or None; `marks` has the rows that it
    names, or others that are looked at, with their words."""
    title = os.path.basename(os.path.normpath(folder))
    view = sets.view(found, list(marks), around)
    picture = lanes.Lanes("s", found, view, marks)
    measured = lanes.figures_of(found)
    in_words = f"{counted(len(found.rows), 'request')} in {counted(len(found.names), 'session')}"
    heading, kind = HEADINGS[verdict.word] if verdict else (in_words, "plain")
    about = [("set", folder), ("requests", f"{in_words}, {measured.in_flight:,} in flight at most"), *said]
    body = [*header(f"sftpv3-page: {title}", heading, kind), "<main>", '<section id="v"><h2>The sessions</h2>']
    if verdict:
        body += [f'<p class="sentence">{safe(verdict.text)}</p>', links(picture, verdict, marks)]
    body += [facts(about), sessions(found, view), "</section>", figures.html(measured, picture.told),
             key(KEY_OF_SET, "request"), '<section id="d1"><h2>Their requests</h2>', left_out(view), picture.html(),
             "</section>"]
    return page(f"{title}: {heading}", "\n".join([*body, "</main>"]))


def links(picture, verdict, marks):
    """The requests that the verdict names."""
    rows = "".join(f"<li>{picture.told(row)}</li>" for row in marks)
    return f"<ul>{rows}</ul>" if verdict.word != "accepted" and rows else ""


def sessions(found, view):
    """A row for each session that has lanes."""
    rows = []
    for number in view.sessions:
        deeds = found.deeds[number]
        begin = lanes.when(found, deeds[0].asked) if deeds else ""
        rows.append((f"{number + 1}: {found.names[number]}", f"{len(deeds):,}", begin))
    return ('<div class="figures">' + figures.table("Sessions, by the numbers above the lanes",
                                                    ("session", "requests", "the first asked at"), rows) + "</div>")


def left_out(view):
    """What is said of requests that are not shown, or nothing."""
    parts = []
    if view.others:
        parts.append(f"{counted(view.others, 'session')} with {counted(view.elsewhere, 'request')}")
    if view.folded():
        parts.append(f"{counted(view.folded(), 'request')} of the sessions with lanes")
    return f'<p class="note">Not shown: {"; ".join(parts)}.</p>' if parts else ""
