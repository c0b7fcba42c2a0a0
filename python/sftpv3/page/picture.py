"""The HTML of a session: a row for each record, in the order in which they passed, and beside it a lane for each
request in flight, from its row to the row of its reply."""
from html import escape

from sftpv3 import codec
from sftpv3.codec import wording
from sftpv3.page import exchanges

# A pause of so many seconds between two rows is told.
PAUSE = 0.5


def safe(text):
    """A text for HTML, whatever a server put into it."""
    return escape(wording.clean(text))


def milliseconds(seconds):
    return f"{seconds * 1000:,.1f} ms" if seconds < 10 else f"{seconds:,.1f} s"


def counted(number, noun, plural=None):
    return f"{number:,} {noun if number == 1 else plural or noun + 's'}"


def filtered(kinds, paths, number, code, session=None):
    """The attributes that the filter of a page looks at: the names of a request and of its reply, the paths, the id,
    the code of a STATUS and its name, and of a set the session."""
    codes = [] if code is None else [str(code), codec.CODES.get(code, "")]
    shown = " ".join(wording.quoted(path, wording.LONG) for path in sorted(paths))
    given = [("kind", " ".join(kinds)), ("path", shown),
             ("id", "" if number is None else str(number)), ("code", " ".join(codes)), ("session", session or "")]
    return "".join(f' data-{name}="{safe(value)}"' for name, value in given if value)


def code_of(data):
    """The code of a STATUS, or None if it is none."""
    try:
        return codec.Reply(data).code
    except codec.Malformed:
        return None


class Picture:
    """One session. `name` begins the ids of its rows; `differing` has the places of the request and of the reply that
    differ; `why` is a word for what is wrong."""

    def __init__(self, name, session, differing=(), why="differs", whole=exchanges.WHOLE, around=exchanges.AROUND,
                 centre=()):
        self.name, self.session, self.why = name, session, why
        self.differing = {place for place in differing if place is not None}
        self.parts = exchanges.parts(session, sorted(self.differing or centre), whole, around)
        # the row of each record; records that are folded have the row of their fold
        self.row, self.folds = {}, []
        for row, part in enumerate(self.parts, 1):
            if isinstance(part, exchanges.Fold):
                self.folds.append((part.first, part.last, row))
            else:
                self.row[part] = row
        self.lanes = min(exchanges.LANES, max(1, session.lanes))

    def html(self):
        left = sum(last - first + 1 for first, last, _ in self.folds)
        found = ['<ol class="picture" aria-label="The records, in the order in which they passed" data-noun="record" '
                 f'data-left="{left}" style="--lanes:{self.lanes}">']
        for row, part in enumerate(self.parts, 1):
            found.append(self.fold(part, row) if isinstance(part, exchanges.Fold) else self.record(part, row))
        found += [self.bar(exchange) for exchange in self.passing()]
        return "\n".join([*found, "</ol>"])

    def passing(self):
        """The exchanges with a bar, but for those of which the row of the request has it."""
        return [one for one in self.session.exchanges if one.request not in self.row and one.reply in self.row]

    def row_of(self, place):
        if place in self.row:
            return self.row[place]
        return next(row for first, last, row in self.folds if first <= place <= last)

    def bar(self, exchange):
        """The span from a request to its reply."""
        start = self.row_of(exchange.request)
        end = len(self.parts) if exchange.reply is None else self.row_of(exchange.reply)
        kinds = ["bar"]
        if self.differing & {exchange.request, exchange.reply}:
            kinds.append("differs")
        if exchange.reply is None:
            kinds.append("open")
        elif self.session.overtaking(exchange):
            kinds.append("late")
        kinds += [] if exchange.request in self.row else ["from-fold"]
        kinds += [] if exchange.reply in self.row else ["into-fold"]
        return (f'<li class="{" ".join(kinds)}" aria-hidden="true" data-x="{exchange.request}" '
                f'style="grid-row:{start}/{end + 1};grid-column:{self.lane(exchange)}"></li>')

    def lane(self, exchange):
        return min(exchange.lane, self.lanes - 1) + 1

    def record(self, place, row):
        side, data = self.session.records[place]
        through = self.session.through.get(place)
        handle = through and f"{wording.quoted(through.path, wording.SHORT)} @{through.reply + 1}"
        packet, exchange = wording.of(side, data, handle), self.session.by_place.get(place)
        kinds = ["row", "asked" if side == b"C" else "replied"]
        kinds += ["differs"] if place in self.differing else []
        marks = self.marks(place, side, packet, exchange)
        of = f' data-x="{exchange.request}"' if exchange else ""
        said = "request" if side == b"C" else "reply"
        number = "" if packet.number is None else f'<span class="id" title="id">{packet.number}</span> '
        when = f'<span class="when">{milliseconds(self.session.times[place])}</span>' if self.session.times else ""
        summary = (f'<summary><span class="number">{place + 1}</span>{when}<abbr class="side" title="{said}">'
                   f'{side.decode()}</abbr><span class="words"><b>{packet.name}</b> {number}'
                   f'<span class="line">{safe(packet.line)}</span>{marks}</span></summary>')
        html = [f'<li class="{" ".join(kinds)}" id="{self.name}-{place + 1}"{of}{self.filter(place, exchange)} '
                f'style="grid-row:{row}">'
                f'<details>{summary}{self.fields(place, packet, exchange)}</details></li>']
        if exchange:
            html.append(f'<li class="tick{" differs" if place in self.differing else ""}" aria-hidden="true"{of} '
                        f'style="grid-row:{row};grid-column:{self.lane(exchange)}/-2"></li>')
        if exchange and exchange.request == place:
            html.append(self.bar(exchange))
        return "".join(html)

    def filter(self, place, exchange):
        """What the filter of the page looks at: the same of a request and of its reply."""
        records = self.session.records
        if exchange is None:
            side, data = records[place]
            return filtered([wording.of(side, data).name], (), None, code_of(data) if side == b"S" else None)
        places = [it for it in (exchange.request, exchange.reply) if it is not None]
        code = None if exchange.reply is None else code_of(records[exchange.reply][1])
        return filtered([wording.kind_of(*records[it]) for it in places],
                        exchanges.paths_of(self.session, exchange.request),
                        int.from_bytes(records[exchange.request][1][5:9], "big"), code)

    def marks(self, place, side, packet, exchange):
        """Words behind a line: what is to be noticed."""
        found = []
        if place in self.differing:
            found.append(("wrong", self.why if side == b"S" or len(self.differing) == 1 else "its request"))
        if packet.trouble:
            found.append(("wrong" if place in self.differing else "odd", packet.trouble))
        if exchange is None and side == b"S" and place != 1:
            found.append(("odd", "to no request"))
        if exchange and exchange.reply is None and place not in self.differing:
            found.append(("odd", "no reply"))
        if exchange and exchange.reply == place:
            later = self.session.overtaking(exchange)
            if later:
                found.append(("late", f"overtaken by {later:,}"))
        before = self.session.times and place and self.session.times[place] - self.session.times[place - 1]
        if before and before >= PAUSE:
            found.append(("pause", f"{milliseconds(before)} after the record before"))
        return "".join(f' <em class="{kind}">{safe(text)}</em>' for kind, text in found)

    def fields(self, place, packet, exchange):
        rows = [(name, safe(value)) for name, value in packet.fields]
        through = self.session.through.get(place)
        if through:
            rows.append(("handle of", f"{safe(wording.quoted(through.path, wording.LONG))}, given by "
                                      f"{self.link(through.reply)}"))
        if exchange:
            rows += self.of_exchange(place, exchange)
        if self.session.times:
            rows.append(("time", milliseconds(self.session.times[place]) + " from the start of the server"))
        rows.append(("in flight", f"{self.session.in_flight[place]:,} behind this record"))
        rows.append(("packet", counted(len(self.session.records[place][1]), "byte")))
        return "<dl>" + "".join(f"<dt>{safe(name)}</dt><dd>{value}</dd>" for name, value in rows) + "</dl>"

    def of_exchange(self, place, exchange):
        """What a record's fields say of the other one."""
        if exchange.reply is None:
            return [("reply", "none")]
        other = exchange.reply if place == exchange.request else exchange.request
        took = ""
        if self.session.times:
            took = f", {milliseconds(self.session.times[exchange.reply] - self.session.times[exchange.request])}"
            took += " later" if place == exchange.request else " earlier"
        return [("reply" if place == exchange.request else "request", self.link(other) + took)]

    def told(self, exchange):
        """A request in a few words, with a link if it is shown."""
        packet = wording.of(*self.session.records[exchange.request])
        return f"<b>{packet.name}</b> {safe(packet.line)}, {self.link(exchange.request)}"

    def link(self, place):
        """The number of a record, with a link if it is shown."""
        words = f"record {place + 1:,}"
        return f'<a href="#{self.name}-{place + 1}">{words}</a>' if place in self.row else words

    def fold(self, part, row):
        asked = sum(part.requests.values())
        names = ", ".join(f"{count:,} {name}" for name, count in part.requests.items())
        said = f"{counted(asked, 'request')} and {counted(part.replies, 'reply', 'replies')} not shown"
        return (f'<li class="fold" style="grid-row:{row}"><span class="number">{part.first + 1:,}&ndash;'
                f'{part.last + 1:,}</span><span class="words">{said}{": " + names if names else ""}</span></li>')
