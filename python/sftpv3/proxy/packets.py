"""A stream as packets, and what becomes of each packet by the rules."""
from __future__ import annotations

from collections import Counter, OrderedDict
from collections.abc import Iterator
from enum import Enum
from typing import NamedTuple, Optional

from sftpv3.codec import packets
from sftpv3.codec.packets import INIT as INIT_TYPE
from sftpv3.codec.packets import NAMES, OF_EXTENSION, REQUESTS, code_name
from sftpv3.proxy.rules import ANY, INIT, Delay, Failing, Place, Which

# The most bytes behind a length that are taken for those of a packet: OpenSSH's server takes 262,144, and some more.
LONGEST = packets.LONGEST + 1024

# The id of VERSION: it has none, and is the first packet of a server.
GREETING = -1


class Packets:
    """Cuts a stream into packets. Behind a length that no packet has it finds no more: what comes then is one piece, as
    much as has come."""

    def __init__(self) -> None:
        self.rest = b""
        self.is_lost = False

    def take(self, data: bytes) -> list[bytes]:
        """The packets that these bytes make whole."""
        if self.is_lost:
            return [data]
        found, self.rest = packets.split(self.rest + data)
        size = packets.length(self.rest)
        if size is not None and not 5 <= size <= 4 + LONGEST or any(len(it) < 5 for it in found):
            self.is_lost = True
            found, self.rest = found + [self.rest], b""
        return found


class Order:
    """Which requests wait for a reply, in the order in which they came, and those among them that failed: the reply to
    one that failed comes behind those to all requests before it, as those of most servers do."""

    def __init__(self) -> None:
        self.waiting: OrderedDict[int, Optional[bytes]] = OrderedDict()

    def ask(self, number: int, reply: Optional[bytes]) -> None:
        """A request came, and has this reply if it failed."""
        self.waiting[number] = reply

    def answer(self, number: int) -> None:
        """The server has answered a request."""
        self.waiting.pop(number, None)

    def take(self) -> Iterator[bytes]:
        """Takes the replies whose turn it is."""
        while self.waiting:
            number, reply = next(iter(self.waiting.items()))
            if reply is None:
                return
            del self.waiting[number]
            yield reply


class Act(Enum):
    """What becomes of a session in place of a reply."""
    CUT = "cut"
    STALL = "stall"


class Mark(NamedTuple):
    """What becomes of the reply to a request that the server got: it comes so many seconds later, or something else is
    done in its place."""
    seconds: float
    act: Optional[Act]


class Faults:
    """What becomes of each packet, by the rules. It counts requests by their names, and how often each rule was met."""

    def __init__(self, failing: list[Failing], delays: list[Delay], cut: Optional[Place], stall: Optional[Place]):
        self.failing, self.delays = failing, delays
        self.acts = {Act.CUT: cut, Act.STALL: stall}
        self.counts: Counter[str] = Counter()
        self.met: Counter[object] = Counter()
        self.marks: dict[int, Mark] = {}
        self.order = Order()
        self.is_greeted = False

    # the client's packets

    def is_passed(self, data: bytes) -> bool:
        """Whether the server gets a packet of the client. One that fails has its reply in the order."""
        name = name_of(data)
        if name is None:
            return True
        numbers = self.count(name)
        number = GREETING if name == INIT else packets.id_of(data)
        rule = next((it for it in self.failing if has(it.which, numbers)), None)
        if rule is not None:
            self.met[rule] += 1
            self.order.ask(number, packets.status(number, rule.code, said_of(rule)))
            return False
        self.order.ask(number, None)
        mark = self.mark_for(numbers)
        if mark is not None:
            self.marks[number] = mark
        return True

    def count(self, name: str) -> dict[str, int]:
        """Counts a packet, and gives its number by each name that it goes by."""
        names = [name] if name == INIT else [name, ANY]
        self.counts.update(names)
        return {it: self.counts[it] for it in names}

    def mark_for(self, numbers: dict[str, int]) -> Optional[Mark]:
        """What is to become of the reply to a request with these numbers, if anything is."""
        act = next((it for it, place in self.acts.items() if isinstance(place, Which) and has(place, numbers)), None)
        rules = [it for it in self.delays if it.which is not None and has(it.which, numbers)]
        self.met.update(rules)
        return Mark(sum(it.seconds for it in rules), act) if act or rules else None

    # the server's packets

    def mark_of(self, data: bytes) -> Optional[Mark]:
        """What becomes of a packet of the server, if anything does. It is the reply to a request, or VERSION."""
        number = packets.id_of(data) if self.is_greeted and len(data) >= 9 else GREETING
        self.is_greeted = True
        self.order.answer(number)
        return self.marks.pop(number, None)

    def usual_delay(self) -> float:
        """How many seconds later each reply comes, whatever its request is."""
        return sum(it.seconds for it in self.delays if it.which is None)

    def bytes_before(self, act: Act) -> Optional[int]:
        """Behind how many bytes of the server's stream something is done, if that is where."""
        place = self.acts[act]
        return place if isinstance(place, int) else None

    # what is said at the end

    def unmet(self) -> list[str]:
        """What is said of each rule for requests of which none came."""
        rules = [*(it.which for it in self.failing if not self.met[it]),
                 *(it.which for it in self.delays if it.which is not None and not self.met[it])]
        return [f"no {words_of(it)} came: the session had {self.counts[it.name]:,}" for it in rules]

    def told(self) -> list[str]:
        """What is said of each rule that made requests fail."""
        return [f"{words_of(it.which)}: {code_name_of(it.code)}, {self.met[it]:,} "
                f"time{'s' * (self.met[it] != 1)}; the server did not get {'them' if self.met[it] != 1 else 'it'}"
                for it in self.failing if self.met[it]]


def has(which: Which, numbers: dict[str, int]) -> bool:
    return any(which.has(name, number) for name, number in numbers.items())


def name_of(data: bytes) -> Optional[str]:
    """The name of a client's packet, INIT's among them; None if it is none."""
    kind = data[4] if len(data) > 4 else None
    if kind == INIT_TYPE:
        return INIT
    name = NAMES.get(kind)
    if name not in REQUESTS or len(data) < 9:
        return None
    if kind != packets.EXTENDED:
        return name
    size = int.from_bytes(data[9:13], "big")
    return OF_EXTENSION.get(data[13:13 + size], "EXTENDED")


def code_name_of(code: int) -> str:
    return code_name(code) if code in packets.CODES else f"code {code}"


def words_of(which: Which) -> str:
    """`WRITE 5`, `WRITE 5-7`, `WRITE 5-`."""
    last = "" if which.last == which.first else f"-{which.last or ''}"
    return f"{which.name} {which.first}{last}"


def said_of(rule: Failing) -> bytes:
    """The text of the STATUS: a person who reads it knows where it comes from."""
    return f"{code_name_of(rule.code)}, by sftpv3-fault".encode()
