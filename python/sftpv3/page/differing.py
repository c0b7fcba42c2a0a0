"""Where a reply differs from what is allowed: the byte, with what was expected there and what was found; and the HTML
of a difference, with its session as a picture."""
import re
from dataclasses import dataclass, field
from typing import Dict, List, Optional, Tuple, Union

from sftpv3 import codec
from sftpv3.codec import wording
from sftpv3.page import exchanges
from sftpv3.page.picture import Picture, counted, safe

# Where the type of a packet is, where the code of a STATUS ends, and where the bytes of a DATA begin.
KIND, CODE, CONTENT = 4, 12, 13


@dataclass
class Byte:
    """The first byte that differs."""

    # Its place in the packet of the reply, and in the bytes of DATA and in the file, from 0.
    packet: int
    data: Optional[int]
    file: Optional[int]
    # The byte, or what is said of it: that there is none, or one that is not known.
    expected: Union[int, str]
    found: Union[int, str]

    def wanted(self):
        return self.in_words(self.expected)

    def came(self):
        return self.in_words(self.found)

    def in_words(self, byte):
        """A byte, as a number, and what it stands for."""
        if isinstance(byte, str):
            return byte
        if self.packet == KIND:
            return f"0x{byte:02x} ({wording.REPLIES.get(byte, 'unknown')})"
        if self.packet == CODE:
            return f"0x{byte:02x} ({codec.code_name(byte)})"
        return f"0x{byte:02x}" + (f" {wording.quoted(bytes([byte]))}" if byte in wording.PLAIN else "")

    def text(self):
        places = [f"byte {self.packet:,} of the packet"]
        places += [] if self.data is None else [f"byte {self.data:,} of the data"]
        places += [] if self.file is None else [f"byte {self.file:,} of the file"]
        return f"{', '.join(places)}: expected {self.wanted()}, found {self.came()}"

    def as_dictionary(self):
        return {"packet": self.packet, "data": self.data, "file": self.file, "expected": self.expected,
                "found": self.found}


def byte_of_reply(lines, request, reply):
    """The byte in which a reply differs from what is allowed, by the lines of `audit --explain` and both packets; None
    where no single byte can be named."""
    if reply is None or len(reply) < CONTENT:
        return None
    expected, found = lines.get("expected", ""), lines.get("found", "")
    if reply[KIND] == codec.DATA and expected.startswith("DATA"):
        return of_data(expected, found, request, reply)
    if reply[KIND] == codec.STATUS and expected.startswith("STATUS with code"):
        return of_code(expected, reply)
    wanted = KINDS.get(expected.split(" ")[0])
    return Byte(KIND, None, None, wanted, reply[KIND]) if wanted not in (None, reply[KIND]) else None


KINDS = {name: kind for kind, name in wording.REPLIES.items()}


def of_data(expected, found, request, reply):
    given = int.from_bytes(reply[9:13], "big")
    start = re.search(r"from offset (\d+)", expected)
    start = int(start[1]) if start else offset_of(request)
    other = re.search(r"byte (\d+) is 0x([0-9a-f]{2}), not 0x([0-9a-f]{2})", found)
    if other:
        return Byte(CONTENT + int(other[1]), int(other[1]), start + int(other[1]) if start is not None else None,
                    int(other[3], 16), int(other[2], 16))
    length = re.search(r"of length (\d+)", expected)
    if not length or int(length[1]) == given:
        return None
    # all bytes that both have are the same: the first that only one has
    at = min(int(length[1]), given)
    more = reply[CONTENT + at] if CONTENT + at < len(reply) else "a byte"
    wanted, came = ("a byte", "the end") if at == given else ("the end", more)
    return Byte(CONTENT + at, at, start + at if start is not None else None, wanted, came)


def offset_of(request):
    """The offset that a READ asks for, or None."""
    try:
        asked = codec.decode(request) if request else None
    except codec.Malformed:
        return None
    return asked.fields[1] if asked and asked.name == "READ" else None


def of_code(expected, reply):
    codes = [int(code) for code in re.findall(r"(?:code|or|,) (\d+)", expected)]
    if len(codes) != 1 or reply[CODE] == codes[0]:
        return None
    return Byte(CODE, None, None, codes[0], reply[CODE])


def bytes_round(reply, byte):
    """The bytes of a packet round the one that differs, two rows of 16: the place of the first, and the bytes."""
    start = max(0, byte.packet - 16) // 16 * 16
    return start, reply[start:start + 32]


# On a page of many sessions, one of so many records is shown whole, and of a longer one so many before and behind what
# differs; of a session that stands behind a shrunk one, fewer.
WHOLE, AROUND, NEAR = 80, 20, 12


@dataclass
class Shown:
    """A session with the places of the request and of the reply that differ."""

    title: str
    records: List[Tuple[bytes, bytes]]
    times: Optional[List[float]] = None
    request: Optional[int] = None
    reply: Optional[int] = None
    # The place of the first record once the server was started again on the same files, or None.
    again: Optional[int] = None

    def packet(self, place):
        return None if place is None or place >= len(self.records) else self.records[place][1]


@dataclass
class Difference:
    """One kind of difference. The first of the sessions is the one to read."""

    title: str
    # What is said of how often it came.
    notes: List[str]
    # The kind of the verdict, and the lines of `audit --explain` by their labels.
    kind: str
    lines: Dict[str, str]
    expected: str
    found: str
    sessions: List[Shown] = field(default_factory=list)
    # The last lines of the server's standard error.
    errors: List[str] = field(default_factory=list)

    def byte(self):
        if not self.sessions:
            return None
        shown = self.sessions[0]
        return byte_of_reply(self.lines, shown.packet(shown.request), shown.packet(shown.reply))


def why(kind):
    """A word for what is wrong with a record."""
    return {"Unanswered": "no reply", "UnknownReply": "to no request", "IdInUse": "id in use"}.get(kind, "differs")


def marked(shown):
    """The places of the request and of the reply that differ, as far as there are such records."""
    return [place for place in (shown.request, shown.reply) if place is not None and place < len(shown.records)]


def html(name, difference, whole=WHOLE, around=AROUND, picture=None):
    """The section of a difference; `name` begins its ids. A session of more than `whole` records is folded, and
    `around` of them are shown before and behind what differs; `picture` is that of the first session, if it is made
    already."""
    found = [f'<section class="difference" id="{name}"><h2>{safe(difference.title)}</h2>']
    found += [f'<p class="note">{safe(note)}</p>' for note in difference.notes]
    found.append('<div class="compare">' + side("expected", "Expected", difference.expected) +
                 side("found", "Found", difference.found) + "</div>")
    said = [(label, difference.lines[label]) for label in ("causes", "not modelled", "allowed by", "fault")
            if label in difference.lines]
    if said:
        found.append('<dl class="said">' + "".join(f"<div><dt>{safe(label)}</dt><dd>{safe(words)}</dd></div>"
                                                   for label, words in said) + "</dl>")
    byte = difference.byte()
    if byte:
        found.append(of_byte(byte, difference.sessions[0]))
    found += [of_session(shown, number == 0, picture if picture and number == 0 else
                         picture_of(f"{name}{'abc'[number]}", shown, difference.kind, *sizes))
              for number, (shown, sizes) in enumerate(zip(difference.sessions, [(whole, around), (3 * NEAR, NEAR)]))]
    if difference.errors:
        lines = "\n".join(safe(line) for line in difference.errors)
        found.append(f'<h3>Standard error of the server</h3><pre tabindex="0">{lines}</pre>')
    return "\n".join([*found, "</section>"])


def side(kind, title, text):
    return f'<div class="{kind}"><h3>{title}</h3><p>{safe(text)}</p></div>'


def of_byte(byte, shown):
    """The byte that differs, and those round it in the packet that came."""
    rows = [("in the packet", f"{byte.packet:,}")]
    rows += [] if byte.data is None else [("in the data", f"{byte.data:,}")]
    rows += [] if byte.file is None else [("in the file", f"{byte.file:,}")]
    rows += [("expected", byte.wanted()), ("found", byte.came())]
    cells = "".join(f"<div><dt>{safe(label)}</dt><dd>{safe(words)}</dd></div>" for label, words in rows)
    return (f'<h3>The byte that differs</h3><div class="byte"><dl>{cells}</dl>'
            f'{dump(byte, shown.packet(shown.reply))}</div>')


def dump(byte, reply):
    """Some bytes of a packet, eight in a row, with the one that differs marked."""
    start, data = bytes_round(reply, byte)
    rows = []
    for at in range(0, len(data), 8):
        part = data[at:at + 8]
        cells = [f"{one:02x}" if start + at + place != byte.packet else f"<mark>{one:02x}</mark>"
                 for place, one in enumerate(part)]
        text = safe("".join(chr(one) if 32 <= one < 127 else "." for one in part))
        rows.append(f'<span class="at">{start + at:6}</span>  {" ".join(cells)}{"   " * (8 - len(part))}  {text}')
    return '<pre class="dump" tabindex="0" aria-label="bytes of the packet found">' + "\n".join(rows) + "</pre>"


def picture_of(name, shown, kind, whole, around):
    return Picture(name, exchanges.Session(shown.records, shown.times), marked(shown), why(kind), whole, around)


def of_session(shown, is_first, picture):
    """The picture of a session: open if it is the one to read, else behind a line to click."""
    session = picture.session
    asked = counted(len(session.exchanges), "request")
    title = f"{safe(shown.title)} <small>{asked}, {most_in_flight(session)} in flight at most</small>"
    if is_first:
        return f"<h3>{title}</h3>\n{picture.html()}"
    return f'<details class="other"><summary>{title}</summary>\n{picture.html()}</details>'


def most_in_flight(session):
    return max(session.in_flight, default=0)
