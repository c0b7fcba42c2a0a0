"""Sessions whose server replied wrongly, or left out replies, and records that are cut: what a night says of each."""
import subprocess
import time

from night_trials.place import ENDS_WELL, OLD, environment, rewrite
from record_trials.steps import PROGRAM, TOP
from sftpv3 import codec
from trials.processes import executable
from walk_trials.runs import BETWEEN, make_live

# What a night says of a session in which a request has no reply. A record does not have why.
ENDS_BEFORE = "the record ends before the server's reply to 1 request"

# Faults of broken/between.py, and what a night says of a session with a server that has it.
FAULTS = [
    ("Healthy", 0, ": accepted "),
    ("name_left_out", 1, 'expected: NAME with some of the names left: "f" (1 in all)'),
    ("name_twice", 1, "comes twice"),
    ("name_invented", 1, '"invented" is not one of them'),
    ("listed_size", 1, "has size 4, "),
    ("listing_fails", 1, "expected: STATUS with code 1 (EOF)"),
    ("read_lacks_last", 1, 'found: DATA "ab" of length 2'),
    ("read_more", 1, 'found: DATA "abcx" of length 4'),
    ("read_other", 1, "byte 0 is 0x00, not 0x61"),
    ("read_ends_early", 1, "found: STATUS with code 1 (EOF)"),
    ("read_empty_at_end", 1, 'found: DATA "" of length 0'),
    ("size_more", 1, "found: ATTRS with size 4"),
    ("link_as_file", 1, "permissions 100644"),
    ("target_other", 1, 'found: NAME with "elsewhere"'),
    ("other_id", 1, "request: none has this id"),
    ("reply_twice", 1, "UnknownReply"),
    ("last_twice", 1, "UnknownReply"),
    ("handle_again", 1, "expected: HANDLE with a handle that is not open"),
    ("close_fails", 1, "expected: STATUS with code 0 (OK)"),
    ("byte_behind_fields", 1, "Wire Trailing"),
    ("second_version", 1, "sftpv3: transcript: record "),
    ("long_reply", 0, f"{ENDS_BEFORE}: its client or the server went first"),
    ("cut_reply", 0, f"{ENDS_BEFORE}: its client or the server went first"),
    ("dies", 0, f"{ENDS_BEFORE}: its client or the server went first"),
]


def wrong_replies(steps, place):
    (place.live / "f").write_text("the right bytes")
    place.begin("mkdir d")
    place.session(f"get f {place.room}/got")
    place.session("mkdir e")
    # the second of the three is given a wrong byte
    rewrite(sorted(place.records.iterdir())[1], lambda data: data.replace(b"the right bytes", b"the wrong bytes"))
    status, said = place.nightly()
    steps.check("a wrong byte is found", status == 1 and said.count(": refused ") == 1 and
                "NotAllowed" in said and "expected: DATA" in said, said)
    steps.check("what comes behind it is judged", said.count(": accepted ") == 2 and
                "requests but for" not in said, said)
    steps.check("records and verdict are kept apart", [len(place.kept(it)) for it in
                ("accepted", "refused", "unjudged")] == [2, 2, 0], said)
    place.write_record("20200101T000000Z", b"SFTPTR01C\0\0", ended=1)
    place.check(steps, "a record that is cut is refused", 1, "sftpv3: transcript: record 1: Truncated")


def without_last(data):
    """A transcript without its last record."""
    at = last = 8
    while at < len(data):
        last, at = at, at + 5 + int.from_bytes(data[at + 1:at + 5], "big")
    return data[:last]


def without_reply(data, name):
    """A transcript without the reply to the first request of this name."""
    records = codec.records(data)
    asked = next(it[5:9] for side, it in records if side == codec.CLIENT and it[4] == codec.REQUESTS[name][0])
    return codec.put_records([(side, it) for side, it in records if side == codec.CLIENT or it[5:9] != asked])


def cut_off(steps, place):
    (place.live / "f").write_text("bytes")
    place.nightly()
    place.session("mkdir d", "mkdir e")
    rewrite(next(place.records.iterdir()), without_last)
    place.check(steps, "a session that was cut is accepted up to there, and what it may have done besides is named", 1,
                ", 1 unanswered", f"  {ENDS_BEFORE}: ", "1 session accepted, 1 of them with unanswered requests; "
                "something else changed the folder, or requests of theirs that were not judged:",
                f'"{place.live}/e" added')
    place.check(steps, "the next day starts with that", 0, ENDS_WELL)
    place.session("ls -l", f"get f {place.room}/got")
    rewrite(next(place.records.iterdir()), lambda data: without_reply(data, "READDIR"))
    place.check(steps, "a server that leaves out one reply and goes on is told from one that ended: nobody knows "
                "whether its later replies are right", 1, f"  {ENDS_BEFORE}, and has its replies to ", " later ones: ")


# A program that the system ends when it is asked which options it has, as where memory is short.
KILLED = """#!/bin/sh
[ "$1" = help ] && kill -KILL $$
exec {program} "$@"
"""


def options_unknown(steps, place):
    """Where the program does not say which options it has, no session is judged by fewer."""
    place.begin("mkdir d")
    rewrite(next(place.records.iterdir()), without_last)
    killed = executable(place.room / "killed", KILLED.format(program=PROGRAM))
    place.check(steps, "a program that is killed when it is asked for its options: status 3, and a line says so", 3,
                f"{killed} help audit ended with status -9", program=killed)
    place.check(steps, "and the record waits for a night that has them", 1, ": accepted ", ", 1 unanswered")


def servers_with_faults(steps, place):
    """Each day there is a session with a server of one fault."""
    make_live(place.live)
    place.nightly()
    for kind, status, told in FAULTS:
        command = [*place.words[:3], *BETWEEN, kind, *place.words[3:]]
        subprocess.run(list(map(str, [TOP / "clients/walk", "--timeout", "2", "--below", place.live, "--session",
                                      place.room / "walked", "--", *command])), cwd=place.room, check=False,
                       stdout=subprocess.DEVNULL, stderr=subprocess.DEVNULL, env=environment())
        time.sleep(OLD)
        place.check(steps, f"a server with a fault, {kind.replace('_', ' ')}: {told}", status, told)
    place.check(steps, "and then a day without sessions", 0, "0 sessions accepted; " + ENDS_WELL)


TRIALS = (wrong_replies, cut_off, options_unknown, servers_with_faults)
