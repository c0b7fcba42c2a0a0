"""What a night says of the sessions of a day: right ones, running and overlapping ones, changes by other programs, and
records from before the first night."""
import os
import subprocess
import time
from pathlib import Path

from night_trials.place import ENDS_WELL, OLD, USER, changed, rewrite
from record_trials.steps import INIT, PROGRAM, receive
from sftpv3.codec import request
from trials.processes import executable


def before_the_first(steps, place):
    place.session("mkdir d")
    place.check(steps, "sessions before the first run are not judged", 1, "not judged", "the tree of the start has ")
    place.check(steps, "the next day is as ever", 0, ENDS_WELL)
    place.session("ls -la")
    place.check(steps, "options of the audit go to it", 1, "refused record ", words=["--", "--umask", "022", "--except",
                                                                              "dots", "--profile", "posix"])


def of_another_mask(steps, place):
    """An option of the audit without a profile is added to the usual ones, or takes the place of one."""
    place.words[-1] = "027"
    local = place.room / "local"
    local.write_text("bytes")
    place.begin("mkdir d", f"put {local} d/f", "ls -l d")
    place.check(steps, "a server with another mask: --umask alone says it", 0, "3 sessions accepted; " + ENDS_WELL,
                words=["--", "--umask", "027"])
    place.session("mkdir e")
    place.check(steps, "one that is given takes the place of the usual one", 0, "1 session accepted; " + ENDS_WELL,
                words=["--", "--umask=027", "--new-owner=user", "--cut"])


def ordinary(steps, place):
    place.check(steps, "the first run makes the tree", 0, "the tree of the start has ")
    place.check(steps, "a day without sessions", 0, "0 sessions accepted; " + ENDS_WELL)
    place.session("mkdir d", f"put {Path(__file__).resolve()} d/f", "ls -la d")
    place.session("rename d/f d/g", "chmod 600 d/g")
    place.check(steps, "two sessions, one after the other", 0, ": accepted ", "2 sessions accepted; " + ENDS_WELL)
    steps.check("their records are kept among the accepted", len(place.kept("accepted")) == 2 and
                not list(place.records.iterdir()))
    place.session("rm d/g")
    place.check(steps, "the next day goes on from there", 0, "1 session accepted; " + ENDS_WELL)


def changed_by_others(steps, place):
    place.nightly()
    (place.live / "by-hand").write_text("x")
    place.session("mkdir e")
    place.check(steps, "what another program changed is found", 1,
                "1 session accepted; something else changed the folder:", f'"{place.live}/by-hand" added')
    place.check(steps, "and said once", 0, ENDS_WELL)
    (place.live / "late").write_text("y")
    place.session(f"get late {place.room}/late")
    place.check(steps, "a session that met such a change is refused", 1, "refused record ", "causes: NoEntry")
    place.check(steps, "the next day starts from the folder", 0, "0 sessions accepted; " + ENDS_WELL)


def of_a_group(steps, place):
    """A folder of a group, by its set-gid bit."""
    shared = place.live / "shared"
    shared.mkdir()
    os.chown(shared, 0, 12)
    shared.chmod(0o2775)
    local = place.room / "local"
    local.write_text("bytes")
    place.nightly()
    place.session("cd shared", f"put {local} f", "mkdir d", f"put {local} d/f", "ls -l", "ls -l d")
    place.check(steps, "what is made in a folder of a group belongs to the group, and a directory there is one of it",
                0, "1 session accepted; " + ENDS_WELL)


def nothing_asked(steps, place):
    """Clients that leave before INIT, and before VERSION: what comes behind them is judged all the same."""
    place.nightly()
    mute = ["sh", "-c", "cat > /dev/null"]
    for server, sent in (place.words[3:], b""), (mute, b""), (mute, INIT):
        subprocess.run([*map(str, place.words[:3]), *map(str, server)], input=sent, stdout=subprocess.DEVNULL,
                       check=False)
        time.sleep(OLD)
    place.session("mkdir d")
    place.check(steps, "sessions in which nothing was asked change nothing, and the next one is judged", 0,
                "nothing was asked: the record ends before INIT",
                "nothing was asked: the record ends before the server's VERSION: its client or the server went first",
                "4 sessions accepted; " + ENDS_WELL)
    steps.check("their records are kept", len(place.kept("accepted")) == 4 and not list(place.records.iterdir()),
                place.kept("accepted"))
    place.session("rmdir d")
    rewrite(next(place.records.iterdir()), lambda data: data[:12])
    place.check(steps, "a record that is cut within INIT is malformed", 1, "sftpv3: transcript: record 1: ")


def running(steps, place):
    place.nightly()
    process = place.start()
    place.session("mkdir d")
    (place.live / "by-hand").mkdir()
    place.check(steps, "a session that runs is not audited, nor what comes behind it, and the status says so", 1,
                "still running", "0 sessions accepted; a session runs, so the folder is not compared since 20")
    waiting = max(place.records.iterdir(), key=lambda it: it.stat().st_mtime)
    place.check(steps, "what waits behind it is named and counted, and is a fault by --longest, too", 1,
                f"; 1 beside or behind waits: {waiting.name}", words=["--longest", "1"])
    (place.live / "by-hand").rmdir()
    steps.check("their records stay", len(list(place.records.iterdir())) == 2)
    place.end(process, request(1, "STAT", b"/"))
    place.check(steps, "when it has ended both are", 0, ", judged together: accepted ", "2 sessions accepted; " +
                ENDS_WELL)
    process = place.start()
    process.stdin.write(request(1, "OPENDIR", b"/"))
    receive(process, 4)
    place.check(steps, "by --longest a session that runs alone is no fault for some hours", 0, "still running",
                words=["--longest", "1"])
    compared = place.state / USER / "compared"
    os.utime(compared, (time.time() - 3700,) * 2)
    place.check(steps, "and then it is one", 1, "still running", words=["--longest", "1"])
    place.end(process)


# The folders cannot be read at first, since a session begins meanwhile and changes them; or for another reason.
UNREAD = """
from sftpv3.nights import night
run = night.run
def unread(words, *others, **more):
    if night.TREE_COMMAND not in words or os.path.exists({mark!r}):
        return run(words, *others, **more)
    open({mark!r}, "w").close()
    if {begins}:
        with open({record!r}, "wb") as file:
            os.fchmod(file.fileno(), 0o600)
            file.write(b"SFTPTR01")
    return run(["sh", "-c", "echo tree: /f: changed while it was read; exit 3"], *others, **more)
night.run = unread
"""


def begun_meanwhile(steps, place):
    """A session that begins while the folders are read, so that they cannot be, is no fault of anybody."""
    place.nightly()
    record = str(place.record("20261130T000000Z"))
    for begins, status, part in ((True, 0, "1 session accepted; " + ENDS_WELL),
                                 (False, 3, f"nightly: {USER}: tree: /f: changed while it was read")):
        mark = str(place.room / f"mark-{begins}")
        script = changed(place, UNREAD.format(mark=mark, begins=begins, record=record))
        began = "began" if begins else "did not begin"
        place.check(steps, f"the folders cannot be read, and a session {began} meanwhile: status {status}", status,
                    part, script=script)


def overlapping(steps, place):
    place.nightly()
    process = place.start()
    place.session("mkdir d")
    # the profile takes a refused MKDIR for a full disk, but no look at what is not there
    place.end(process, request(1, "STAT", str(place.live / "d").encode()))
    place.check(steps, "one that sees what a later one made: both are explained in an order", 0,
                ", judged together: accepted ", "; their times are not recorded", "2 sessions accepted; " + ENDS_WELL)


# A program that notes the words with which it is called.
NOTED = """#!/bin/sh
echo "$*" >>{notes}
exec {program} "$@"
"""


def of_looks(steps, place):
    """A night costs what its sessions did: where they only looked, no tree is written."""
    (place.live / "f").write_bytes(b"bytes")
    place.nightly()
    tree, notes = place.state / USER / "tree", place.room / "notes"
    program = executable(place.room / "noted", NOTED.format(notes=notes, program=PROGRAM))
    before = tree.stat().st_ino
    for it in ("ls -l", f"get f {place.room}/got", "cd /"):
        place.session(it)
    script = changed(place, "from sftpv3.nights import night\nnight.Night.compare = lambda _: True")
    place.check(steps, "sessions that look are accepted", 0, *[": accepted "] * 3, program=program, script=script)
    audits = [it for it in notes.read_text().splitlines() if it.startswith("audit ")]
    steps.check("for these no tree is written", len(audits) == 3 and not any("--out" in it for it in audits) and
                tree.stat().st_ino == before, audits)
    for it in ("mkdir d", "rmdir d", "chmod 600 f", f"put {place.room}/got f", "ln -s f l"):
        notes.unlink()
        place.session(it)
        place.check(steps, f"{it.split()[0]}: a session that asks for a change", 0, ": accepted ", program=program,
                    script=script)
        steps.check("for this one a tree is written", notes.read_text().count("--out") == 1, notes.read_text())
    place.check(steps, "and the folder is as they left it", 0, ENDS_WELL)


TRIALS = (of_looks, before_the_first, of_another_mask, ordinary, changed_by_others, of_a_group, nothing_asked, running,
          begun_meanwhile, overlapping)
