"""Asks `sftpv3-together` for its verdict on sessions that overlapped, and says what it refuses."""
import json
import os
import time
from dataclasses import dataclass, field
from typing import List, Optional

from sftpv3 import codec
from sftpv3.codec import wording
from sftpv3.peer import programs, servers
from sftpv3.probe import verdicts
from sftpv3.spool import sinks
from sftpv3.system import files, program

ACCEPTED, REFUSED, UNDECIDED, ENDED = "accepted", "refused", "undecided", "ended"

# A READ of many bytes may have some from before a WRITE and some from behind it, as on ext4. So a set that is refused
# for a READ is judged once more, with READs that are done byte by byte.
BYTE_BY_BYTE = ("--torn", "1")

# The steps of a search: sets of sound servers with four clients need a tenth of them, and a set without a verdict takes
# no longer than some seconds.
STEPS = ("--steps", "200000")


def name_of(number):
    """What the files of a client are called."""
    return f"client-{number + 1}"


def number_of(transcript):
    """The number of the client whose transcript has this name."""
    return int(transcript.split(".")[0].split("-")[1]) - 1


def write(folder, played, lacks):
    """Writes the transcripts and the times of a set into a folder."""
    for number, (session, at) in enumerate(zip(played.sessions, played.at)):
        name = os.path.join(folder, name_of(number))
        session.records = lacks.records(session.records)
        files.write(f"{name}.transcript", codec.put_records(session.records))
        opening = sinks.boot_times_opening(sinks.boot_id(), time.time_ns() - sinks.boot_clock() + at[0], at[0])
        files.write(f"{name}.times", opening + sinks.time_entries([one - at[0] for one in at]))


@dataclass
class Exchange:
    """A request of a client and its reply: the places of their records, from 0; None for a reply that did not come."""

    client: int
    request: Optional[int]
    reply: Optional[int]


@dataclass
class Verdict:
    """What is said of a set: the word; of a refusal the exchange that no order explains, and the one that contradicts
    it, if there is one; why it is undecided, or how a session ended."""

    word: str
    refused: Optional[Exchange] = None
    contradicts: Optional[Exchange] = None
    why: str = ""
    # whether READs were done byte by byte
    is_torn: bool = False
    options: List[str] = field(default_factory=list)


def of_ending(played):
    """The verdict on a set in which a session ended before each request had its reply, or None."""
    for number, session in enumerate(played.sessions):
        if session.end or session.crashed():
            asked = [place for place, (side, _) in enumerate(session.records) if side == codec.CLIENT]
            last = Exchange(number, asked[-1] if session.end and len(asked) > 1 else None, None)
            return Verdict(ENDED, last, None, session.end or f"the server ended {session.ending()}")
    return None


def exchange_at(played, told):
    """The exchange whose record a verdict names."""
    number, place = number_of(told["transcript"]), told["record"] - 1
    records = played.sessions[number].records
    request, reply = verdicts.concerned(records, verdicts.Verdict(False, "", place + 1, None, {}))
    return Exchange(number, place if request is None and records[place][0] == codec.CLIENT else request, reply)


def judge(played, folder, tree_file, options, stop):
    """The verdict on a set whose files are in a folder."""
    found = of_ending(played)
    if found is not None:
        return found
    found = of_run(played, folder, tree_file, list(options), stop)
    if found.word == REFUSED and is_read(played, found.refused) and options:
        torn = of_run(played, folder, tree_file, [*options, *BYTE_BY_BYTE], stop)
        if torn.word == ACCEPTED:
            torn.is_torn = True
            return torn
        found.why = "; whether it is with READs byte by byte is undecided" if torn.word == UNDECIDED else ""
    return found


def is_read(played, exchange):
    return request_of(played, exchange).name == "READ"


def request_of(played, exchange):
    return codec.decode(played.sessions[exchange.client].records[exchange.request][1])


def of_run(played, folder, tree_file, options, stop):
    words = [program.command("together"), folder, "--tree", tree_file, "--json", *STEPS, *options]
    done = programs.run(words, stop)
    try:
        told = json.loads(done.stdout)
    except ValueError:
        raise verdicts.Trouble(f"{program.called('together')} ended {servers.ending(done.returncode)}: "
                               f"{done.stderr.decode(errors='replace').strip()}", done.returncode) from None
    if told["verdict"] == ACCEPTED:
        return Verdict(ACCEPTED, options=options)
    furthest = exchange_at(played, told) if "record" in told else None
    if told["verdict"] == REFUSED:
        other = told["contradicts"] and exchange_at(played, told["contradicts"])
        return Verdict(REFUSED, furthest, other, options=options)
    why = told.get("why") or told.get("unknown") or f"no order was found in {told['steps']:,} steps"
    return Verdict(UNDECIDED, furthest, None, why, options=options)


# What is said of an exchange, for people.

def asked(played, exchange):
    """The request of an exchange, in words."""
    side, packet = played.sessions[exchange.client].records[exchange.request]
    found = wording.of(side, packet)
    return f"{found.name} {found.line}".strip()


def answered(played, exchange):
    """What was answered, in a word or two."""
    if exchange.reply is None:
        return "nothing"
    reply = codec.Reply(played.sessions[exchange.client].records[exchange.reply][1])
    return codec.code_name(reply.code) if reply.code is not None else \
        wording.of(codec.SERVER, played.sessions[exchange.client].records[exchange.reply][1]).name


def record(exchange):
    """The record of an exchange that a verdict names."""
    place = exchange.request if exchange.reply is None else exchange.reply
    return f"{name_of(exchange.client)}.transcript record {place + 1}"


def gap(played, first, second):
    """How many microseconds before the request of the second the first one had its reply."""
    return (played.at[second.client][second.request] - played.at[first.client][first.reply]) // 1000


def told(played, verdict):
    """What a refusal says."""
    if verdict.word == ENDED:
        where = f": {asked(played, verdict.refused)}" if verdict.refused.request is not None else ""
        return f"{name_of(verdict.refused.client)}{where}: {verdict.why}"
    if verdict.word != REFUSED:
        where = f"; the furthest was {record(verdict.refused)}" if verdict.refused else ""
        return f"{verdict.why}{where}"
    one, other = verdict.refused, verdict.contradicts
    text = f"{record(one)}: {asked(played, one)} answered {answered(played, one)} is right "
    if other is None:
        return f"{text}in no order of the requests that may come before it{verdict.why}"
    why = "which its client asked for earlier" if one.client == other.client else \
        f"which had its reply {gap(played, other, one)} us earlier"
    return text + f"only before {record(other)} ({asked(played, other)}, {answered(played, other)}), {why}{verdict.why}"


def lines(played, exchanges):
    """The records of these exchanges by their times, in microseconds from the first of them on."""
    found = sorted((played.at[one.client][place], one.client, *played.sessions[one.client].records[place])
                   for one in exchanges for place in (one.request, one.reply) if place is not None)
    for at, client, side, packet in found:
        shown = wording.of(side, packet)
        yield (f"{(at - found[0][0]) // 1000:>8} us  {name_of(client)}  {side.decode()} {shown.number} {shown.name} "
               f"{shown.line}")
