"""Files that are no set, and the recorder's files of times."""
import os
import struct
import subprocess
import sys
import time

from order_trials import sets
from order_trials.playing import RECORD
from order_trials.runs import together
from order_trials.sets import Session
from sftpv3.spool import sinks


def stat():
    return Session().ask(1, 2, ("STAT", b"/"), ("ATTRS", {"size": 0, "owner": (0, 0), "permissions": 0o040755}))


def refused(steps, folder, name, word, words=()):
    """The set is refused with status 2, and a line with this word."""
    status, said = together(folder, *words)
    steps.check(name, status == 2 and word in said and "Traceback" not in said and said.count("\n") == 0, said)


def boots(steps, folder):
    sets.put(folder, {"a": stat(), "b": stat()})
    steps.check("two sessions of one boot", together(folder)[0] == 0, together(folder))
    sets.put(folder, {"a": stat(), "b": stat()}, {"b": sets.OTHER_BOOT})
    refused(steps, folder, "sessions of two boots", "two boots")
    sets.put(folder, {"a": stat(), "b": stat()}, {"b": None})
    refused(steps, folder, "times of two forms", "two forms")
    sets.put(folder, {"a": stat(), "b": stat()}, {"a": None, "b": None})
    steps.check("times by the date", together(folder)[0] == 0, together(folder))


def faults(steps, folder):
    records = os.path.join(folder, "set")
    times, transcript = os.path.join(records, "a.times"), os.path.join(records, "a.transcript")
    sets.put(folder, {"a": stat()})
    whole, record = sets.read(times), sets.read(transcript)
    for name, data, word in (("an empty file of times", b"", "no times"), ("a cut one", whole[:-1], "inside an entry"),
                             ("one that lacks a time", whole[:-8], "record 4"), ("one more time", whole + whole[-8:],
                                                                                "Trailing"),
                             ("another opening", b"SFTPTM03" + whole[8:], "no times"),
                             ("times that fall", whole[:-8] + bytes(8), "less than")):
        sets.write(times, data)
        refused(steps, folder, name, word)
    sets.write(times, whole)
    for name, data, word in (("an empty transcript", b"", "a.transcript"), ("a cut one", record[:-1], "Truncated"),
                             ("a record of no side", record[:8] + b"X" + record[9:], "Direction"),
                             ("no session", record[:8], "Start")):
        sets.write(transcript, data)
        refused(steps, folder, name, word)
    os.remove(times)
    refused(steps, folder, "a session without times", "a.times")
    os.remove(transcript)
    refused(steps, folder, "a folder without sessions", ".transcript")


def ids(steps, folder):
    session = Session()
    session.events = [(1, b"C", sets.encode(sets.Request(1, "STAT", [b"/"]))),
                      (2, b"C", sets.encode(sets.Request(1, "STAT", [b"/"])))]
    sets.put(folder, {"a": session})
    refused(steps, folder, "an id that is in use", "IdInUse")
    session.events = [(1, b"S", sets.encode(sets.Packet(1, *[sets.OK[0], list(sets.OK[1:])])))]
    sets.put(folder, {"a": session})
    refused(steps, folder, "a reply to nothing", "UnknownReply")


def usage(steps, folder):
    sets.put(folder, {"a": stat()})
    for words in (["--allow", "nothing"], ["--umask", "9"], ["--parts", "all"], ["--steps", "x"], ["--torn", "0"],
                  ["--order", "a", "--write-order", "b"]):
        status, said = together(folder, *words)
        steps.check(f"{' '.join(words)} is bad usage", status == 2 and "Traceback" not in said, said)
    sets.write(os.path.join(folder, "start.tree"), b"no tree")
    refused(steps, folder, "a malformed tree", "Magic")
    sets.put(folder, {"a": stat()})
    place = os.path.join(folder, "set", "a.transcript")
    sets.write(os.path.join(folder, "start.tree"), sets.read(place))
    refused(steps, folder, "a transcript as the tree", "it is a transcript, not a tree file")
    sets.put(folder, {"a": stat()})
    sets.write(place, sets.read(os.path.join(folder, "start.tree")))
    refused(steps, folder, "a tree file as a transcript", "it is a tree file, not a transcript")
    sets.put(folder, {"a": stat()})
    sets.write(os.path.join(folder, "order"), b"SFTPOR0")
    refused(steps, folder, "a malformed order", "order", ["--order", os.path.join(folder, "order")])
    status, said = together(folder, tree="none")
    steps.check("a tree that is not there has status 3", status == 3 and "Traceback" not in said, said)


def recorder(steps, folder):
    """What the recorder writes with --boot-clock."""
    name = os.path.join(folder, "times")
    before = time.clock_gettime_ns(time.CLOCK_BOOTTIME), time.time_ns()
    subprocess.run([sys.executable, RECORD, "--boot-clock", "--times", name, os.path.join(folder, "t"), "cat"],
                   stdin=subprocess.DEVNULL, check=False)
    after = time.clock_gettime_ns(time.CLOCK_BOOTTIME), time.time_ns()
    data = sets.read(name)
    with open("/proc/sys/kernel/random/boot_id", encoding="ascii") as file:
        boot = bytes.fromhex(file.read().strip().replace("-", ""))
    date, zero = struct.unpack(">2Q", data[24:40])
    steps.check("the recorder writes the boot, the date and the clock", data[:24] == b"SFTPTM02" + boot
                and before[0] <= zero <= after[0] and before[1] <= date <= after[1], data[:40])
    said = subprocess.run([sys.executable, RECORD, "--boot-clock", os.path.join(folder, "u"), "cat"],
                          stdin=subprocess.DEVNULL, stderr=subprocess.PIPE, check=False)
    steps.check("--boot-clock without --times is bad usage", said.returncode == 2, said.stderr)


def put_aside(steps, _):
    """A process that is put aside between two looks at clocks takes the try that was not."""
    clock = iter([0, 900, 1000, 1001, 2000, 2500, 3000, 3100, 4000, 4400])
    dates = iter([7, 8, 9, 10, 11])
    steps.check("the date and the clock are those of the closest look",
                sinks.date_and_zero(lambda: next(dates), lambda: next(clock)) == (8, 1000))


TRIALS = (boots, faults, ids, usage, recorder, put_aside)
