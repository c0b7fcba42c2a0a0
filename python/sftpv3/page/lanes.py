"""The HTML of a set: a row for each request, by the time asked, and in a lane of its session a bar from there to the
last request that was asked before its reply. So two bars are beside each other where both requests were in flight."""
from __future__ import annotations

import bisect
from collections import Counter
from collections.abc import Iterator

from sftpv3.codec import CLIENT, SERVER, encode, wording
from sftpv3.page import figures
from sftpv3.page.picture import counted, filtered, safe
from sftpv3.page.sets import Fold, Row, Set, View

# Lanes beside each other. Further requests of a session that are in flight share its last.
LANES = 32

# What stands above the parts of a row.
HEADS = ('<li class="heads" aria-hidden="true" style="grid-row:1"><span class="number">place</span>'
         '<span class="when">asked at</span><span class="who">session</span><span>request and reply</span></li>')

# Why a request is marked: it is what the verdict names, or what contradicts that.
WRONG = "wrong"


def figures_of(found: Set) -> figures.Figures:
    """The figures of a set; their subjects are its rows."""
    def measured(row: Row) -> figures.Measured:
        request, reply = row.deed.request, row.deed.reply
        return figures.Measured(request.name, len(encode(request)), 0 if reply is None else len(encode(reply)),
                                row.took, row)

    def changes() -> Iterator[int]:
        for deed in sorted((row.deed for row in found.rows), key=lambda deed: deed.answered):
            if deed.reply is not None:
                code = deed.reply.fields[0] if deed.reply.name == "STATUS" else None
                yield figures.change_of(deed.request.name, deed.reply.name, code)
    return figures.figures(map(measured, found.rows), found.most_in_flight(), changes())


class Lanes:
    """The picture of a set. `name` begins the ids of its rows; `marks` has the kind and the word of what is marked."""

    def __init__(self, name: str, found: Set, view: View, marks: dict[Row, tuple[str, str]]):
        self.name, self.set, self.view, self.marks = name, found, view, marks
        # the first request of each row of the grid, whose first row has the numbers of the sessions
        self.starts = [(part.first if isinstance(part, Fold) else part).number for part in view.parts]
        self.shown = {part for part in view.parts if isinstance(part, Row)}
        self.first, self.count = self.columns()

    def columns(self) -> tuple[dict[int, int], dict[int, int]]:
        """The first column of each session, from 1 on, and how many it has."""
        most = max(1, LANES // max(1, len(self.view.sessions)))
        count = Counter({session: 1 for session in self.view.sessions})
        for row in self.shown:
            count[row.deed.session] = max(count[row.deed.session], min(most, row.lane + 1))
        first, column = {}, 1
        for session in self.view.sessions:
            first[session], column = column, column + count[session]
        return first, count

    def grid_row(self, number: int) -> int:
        """The row of the grid in which the request with this number is, or that of the last one before it."""
        return max(2, bisect.bisect_right(self.starts, number) + 1)

    def html(self) -> str:
        kind = "picture lanes" if any(row.order for row in self.shown) else "picture lanes unordered"
        found = [f'<ol class="{kind}" aria-label="The requests of all sessions, by the time they were asked" '
                 f'data-noun="request" data-left="{self.view.folded() + self.view.elsewhere}" '
                 f'style="--lanes:{sum(self.count.values())}">']
        found += [HEADS, *(self.strip(at, session) for at, session in enumerate(self.view.sessions))]
        for row, part in enumerate(self.view.parts, 2):
            found.append(self.fold(part, row) if isinstance(part, Fold) else self.request(part, row))
        found += [self.bar(row) for row in self.passing()]
        return "\n".join([*found, "</ol>"])

    def strip(self, at: int, session: int) -> str:
        """The number of a session above its lanes, and what sets them apart from those beside them."""
        first = self.first[session]
        return (f'<li class="strip{" plain" * (at % 2)}" aria-hidden="true" title="{safe(self.set.names[session])}" '
                f'style="grid-row:1/{len(self.view.parts) + 2};grid-column:{first}/{first + self.count[session]}">'
                f'{session + 1}</li>')

    def passing(self) -> Iterator[Row]:
        """The requests of folds that were still in flight when a request that is shown was asked."""
        for at, part in enumerate(self.view.parts[:-1]):
            if isinstance(part, Fold):
                behind = self.starts[at + 1]
                yield from (row for row in self.set.rows[part.first.number:part.last.number + 1]
                            if row.last >= behind and row.deed.session in self.first)

    def bar(self, row: Row) -> str:
        lane = self.first[row.deed.session] + min(row.lane, self.count[row.deed.session] - 1)
        kinds = ["bar"]
        kinds += ["differs"] if self.is_wrong(row) else []
        kinds += ["open"] if row.deed.reply is None else []
        kinds += [] if row in self.shown else ["from-fold"]
        return (f'<li class="{" ".join(kinds)}" aria-hidden="true" data-x="{row.number}" '
                f'style="grid-row:{self.grid_row(row.number)}/{self.grid_row(row.last) + 1};grid-column:{lane}"></li>')

    def is_wrong(self, row: Row) -> bool:
        return self.marks.get(row, ("", ""))[0] == WRONG

    def request(self, row: Row, at: int) -> str:
        deed = row.deed
        through = self.set.through.get(row)
        asked = wording.of(CLIENT, encode(deed.request), through and wording.quoted(through, wording.SHORT))
        reply = None if deed.reply is None else wording.of(SERVER, encode(deed.reply))
        answer = "no reply" if reply is None else f"{reply.name} {reply.line}"
        who = self.set.names[deed.session]
        summary = (f'<summary>{place(row)}<span class="when">{when(self.set, deed.asked)}</span>'
                   f'<span class="who" title="{safe(who)}">{safe(who)}</span><span class="words"><b>{asked.name}</b> '
                   f'<span class="line">{safe(asked.line)}</span> <span class="answer">'
                   f'<span aria-hidden="true">→</span><span class="unseen">answered</span> {safe(answer)}</span>'
                   f'{self.words(row)}</span></summary>')
        kinds = "row differs" if self.is_wrong(row) else "row"
        return (f'<li class="{kinds}" id="{self.id_of(row)}" data-x="{row.number}"{self.filter(row, reply)} '
                f'style="grid-row:{at}"><details>{summary}{self.fields(row, asked, reply)}</details></li>'
                f'<li class="tick{" differs" if self.is_wrong(row) else ""}" aria-hidden="true" data-x="{row.number}" '
                f'style="grid-row:{at};grid-column:{self.first[deed.session]}/-2"></li>{self.bar(row)}')

    def filter(self, row: Row, reply: wording.Packet | None) -> str:
        """What the filter of the page looks at."""
        deed = row.deed
        kinds = [deed.request.name] + ([reply.name] if reply else [])
        return filtered(kinds, self.set.paths(row), deed.request.number, code_of(deed.reply),
                        self.set.names[deed.session])

    def id_of(self, row: Row) -> str:
        return f"{self.name}-{row.deed.session + 1}-{row.record()}"

    def words(self, row: Row) -> str:
        """Words behind a line: what is to be noticed."""
        found = [self.marks[row]] if row in self.marks else []
        found += [("odd", "left out of the order")] if row.is_left_out else []
        found += [("late", f"in {len(row.order)} parts")] if len(row.order) > 1 else []
        return "".join(f' <em class="{kind}">{safe(text)}</em>' for kind, text in found)

    def fields(self, row: Row, asked: wording.Packet, reply: wording.Packet | None) -> str:
        deed = row.deed
        rows = [("transcript", safe(self.set.file(row))), ("request", f"record {deed.asked_in:,}, {asked.name}")]
        rows += [(name, safe(value)) for name, value in asked.fields]
        through = self.set.through.get(row)
        rows += [("handle of", safe(wording.quoted(through, wording.LONG)))] if through else []
        rows += [("reply", "none" if reply is None else f"record {deed.answered_in:,}, {reply.name}")]
        rows += [(name, safe(value)) for name, value in (reply.fields if reply else [])]
        rows += [("asked at", when(self.set, deed.asked))]
        rows += [] if reply is None else [("answered at", f"{when(self.set, deed.answered)}, "
                                                          f"{figures.exact(row.took or 0)} ms later")]
        rows += [("meanwhile", f"{counted(self.set.meanwhile(row), 'request')} of other sessions")]
        rows += [("in the order", places(row))] if row.order or row.is_left_out else []
        return "<dl>" + "".join(f"<dt>{safe(name)}</dt><dd>{value}</dd>" for name, value in rows) + "</dl>"

    def told(self, row: Row) -> str:
        """A request in a few words, with a link if it is shown."""
        deed = row.deed
        asked = wording.of(CLIENT, encode(deed.request))
        words = safe(f"{self.set.file(row)} record {row.record():,}")
        link = f'<a href="#{self.id_of(row)}">{words}</a>' if row in self.shown else words
        return f"<b>{asked.name}</b> {safe(asked.line)}, {link}"

    def fold(self, part: Fold, row: int) -> str:
        names = ", ".join(f"{count:,} {name}" for name, count in part.names.items())
        return (f'<li class="fold" style="grid-row:{row}"><span class="words">'
                f'{counted(sum(part.names.values()), "request")} not shown: {names}</span></li>')


def when(found: Set, moment: int) -> str:
    """A time, from the first request of the set on."""
    return f"{figures.exact((moment - found.begin) / 1e9)} ms"


def place(row: Row) -> str:
    """The number of a request in the order that was found."""
    if not row.order:
        return '<span class="number"></span>'
    more = "…" if len(row.order) > 1 else ""
    return f'<span class="number"><span class="unseen">place </span>{row.order[0]:,}{more}</span>'


def places(row: Row) -> str:
    """All its places."""
    if row.is_left_out:
        return "it has no place: it had no reply, and was not done"
    shown = ", ".join(f"{number:,}" for number in row.order[:20])
    return ("place " if len(row.order) == 1 else "places ") + shown + (", …" if len(row.order) > 20 else "")


def code_of(reply) -> int | None:
    """The code of a STATUS, or None."""
    return reply.fields[0] if reply is not None and reply.name == "STATUS" else None
