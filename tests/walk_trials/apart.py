"""`clients/probe --look-first`: sessions that keep to a directory of their own, on a server with other files."""
import os
import random
import signal
import subprocess
import tempfile
import threading
import time
from contextlib import suppress

from sftpv3.codec import trees
from sftpv3.peer import servers
from sftpv3.probe import below, limits, planner, restarts, sessions, starting, verdicts
from sftpv3.system.program import TOP, program
from trials.other_servers import SFTP_SERVER, has_openssh
from trials.probes import SERVE, misbehaving
from trials.processes import wait_until
from walk_trials.ends import PROMPT, signalled
from walk_trials.runs import HOSTILE, POSIX, needs_infer, run

PROBE = os.path.join(TOP, "clients", "probe")
OWN, BASE = b"/live/base", b"/live/base/plan"

# Servers of hostile.py in which a directory is to be removed, and what is said of it.
ENDLESS = [
    ("deep", "more than 128 directories within each other"),
    ("endless_listing", "it has more than 200,000 entries"),
    ("repeating_listing", '"/live/f" is left'),
    ("idle_listing", '"/live" is left'),
    ("long_names", '"/live" is left'),
    ("ends_above", '"/live/f" is left'),
]

# What is said of a server without files of its own.
GONE = "is gone in the next session: --look-first is for servers that keep their files"

PARTS = [b"..", b".", b"", b"a", b"to-d", b"..\0", b"..\0x", b"a\0b", b"\0..", b"...", b"n" * 255]


def probe(folder, options, command):
    return run([PROBE, "--seeds", "1-2", "--skip", "crowds", "--keep", os.path.join(folder, "kept"), *options, "--",
                *command], folder)


def is_below(path):
    """Whether a path leads below the base: as a server has it that knows its length, and as one in C does."""
    return all(os.path.normpath(os.fsdecode(it) + "/").startswith(os.fsdecode(BASE))
               for it in (path, path.partition(b"\0")[0]))


def try_paths(steps, _):
    """No request of a plan names a place that is not below the directory, whatever its paths are."""
    draw, base, wrong = random.Random(1), below.Below(OWN, starting.few()), []
    for _ in range(20000):
        path, other = (b"/".join(draw.choices(PARTS, k=draw.randint(1, 6))) for _ in range(2))
        found = [base.at(path), base.target(path, other)]
        wrong += [(path, other)] if not all(map(is_below, found)) or b".." in found[1].split(b"/") else []
    steps.check("20000 random paths and targets: all are below the directory", not wrong, wrong[:3])
    wrong = []
    for seed in range(1, 30):
        for step in base.steps(planner.plan(seed, starting.few(), 60)):
            paths = [step.fields[place] for place in below.PATHS.get(step.name, ())]
            is_look = step.number <= base.looking[-1].number and step.number > below.FIRST
            wrong += [step.name for path in paths if not is_below(path) and not is_look]
            wrong += [step.name] if is_look and step.name not in ("REALPATH", "LSTAT", "MKDIR") else []
            wrong += [step.name] if step.name == "EXTENDED" else []
    made = [step.fields for step in base.looking if step.name == "MKDIR"]
    steps.check("the session makes none but the place of the plan, in the directory", made == [[BASE, {}]], made)
    steps.check("29 plans: all paths are below the directory, but those that look at the way to it", not wrong, wrong)


class Asked(below.Clearing):
    """Keeps the paths that it asks about."""

    def steps(self):
        self.asked, steps, replies = [], super().steps(), None
        while True:
            try:
                wanted = steps.send(replies)
            except StopIteration:
                return
            self.asked += [it.fields[0] for it in wanted if it.name not in ("READDIR", "CLOSE")]
            replies = yield wanted


def try_clearing(steps, _):
    """What a session made is removed, or said to be left, whatever the server lists."""
    for kind, wanted in ENDLESS:
        work = Asked(b"/live")
        said = work.run(servers.Server([*HOSTILE, kind]), PROMPT)
        above = [path for path in work.asked if not path.startswith(b"/live") or b".." in path]
        steps.check(f"to remove a directory of a server, {kind.replace('_', ' ')}: {wanted}",
                    said and wanted in said and not above, f"{said}: {above[:3]}")


def try_signals(steps, folder):
    """What is asked of a server behind a session ends soon after a signal, and says what is left."""
    os.environ["MARK"] = mark = os.path.join(folder, "mark")
    stop, told = threading.Event(), []

    def stop_it():
        wait_until(lambda: os.path.exists(mark))
        told.append(time.monotonic())
        stop.set()
    threading.Thread(target=stop_it).start()
    said = below.Clearing(b"/live").run(servers.Server([*HOSTILE, "hangs_at_removal"]), 600, stop)
    took = time.monotonic() - told[0] if told else None
    steps.check("what hangs while it is removed is left once the run is to end", said == '"/live" is left: the run was '
                "ended while it was removed" and took is not None and took < PROMPT, f"{said}: {took}")
    stop, asked = threading.Event(), Asked(b"/d")
    stop.set()
    said = asked.run(servers.Server([*HOSTILE, "removes"]), 600, stop)
    steps.check("behind a signal, what can be removed at once is", said is None and asked.asked[-1] == b"/d", said)
    words = [PROBE, "--timeout", "600", "--look-first", "/", "--seeds", "1", "--requests", "2", "--skip", "crowds",
             "--keep", "kept", "--"]
    for what, server, wanted in (("clears", "hangs_at_removal", "the run was ended while it was removed"),
                                 ("looks where sessions can be", "marks_and_hangs_at_start", "")):
        for number in (signal.SIGINT, signal.SIGTERM):
            start = time.monotonic()
            status, text, left, running = signalled(folder, [*words, *HOSTILE, server], number, {})
            steps.check(f"{number.name} ends a probe soon that {what}", status in (3, 4) and not left and not running
                        and wanted in text and "Traceback" not in text,
                        f"{status} in {time.monotonic() - start:.0f} s: {text[-600:]} {left} {running}")


def picture(folder):
    """What is in a folder, to compare."""
    return subprocess.run(["find", folder, "-printf", "%p %y %m %s %U %G %l\n"], capture_output=True, check=True).stdout


def try_openssh(steps, folder):
    if not has_openssh(steps):
        return
    live = os.path.join(folder, "others")
    os.makedirs(os.path.join(live, "place", "theirs"))
    for name in ("f", "place/theirs/f", "a", "d"):
        with open(os.path.join(live, name), "wb") as file:
            file.write(b"theirs")
    before = picture(live)
    # a refused SETSTAT of which it does a part shows also in what it left
    words = ["--look-first", os.path.join(live, "place"), "--skip", "size-and-more", *POSIX]
    status, said = probe(folder, words, [SFTP_SERVER])
    steps.check("OpenSSH's server: sessions are judged", status in (0, 1) and "2 sessions" in said, said[-2000:])
    steps.check("the files of others are as they were, and nothing is left", picture(live) == before)
    steps.check("what is found is what this server is known for", all(
        any(word in line for word in ("READDIR", "SETSTAT", "REALPATH", "RENAME", "READLINK", "FSETSTAT", "STATUS"))
        for line in said.splitlines() if line.startswith("seed ")), said[-2000:])


def blank(folder):
    """Makes a tree of a directory `place` alone. Returns the name of its file."""
    name = os.path.join(folder, "blank.tree")
    trees.write(trees.Tree([trees.Entry(b"/place", trees.DIRECTORY)], limits=starting.ROOMY), name)
    return name


def try_serve(steps, folder):
    start = blank(folder)
    forgetful = [program(), "serve", "--tree", start]
    status, said = probe(folder, ["--look-first", "/place"], forgetful)
    steps.check("a server that forgets all between two sessions is not accepted, and a line says what to do",
                status == 3 and "accepted" not in said and GONE in said and "Traceback" not in said, said)
    serve = [*forgetful, "--save", start]
    for words in ([], ["--shuffle", "3"]):
        status, said = probe(folder, ["--look-first", "place"], serve + words)
        steps.check(f"{' '.join(['serve', *words])}: sessions are accepted",
                    status == 0 and "accepted: 2 sessions" in said, said[-2000:])
    status, said = probe(folder, ["--look-first", "/place", "--budget", "5"], misbehaving("fifth-refusal", serve))
    steps.check("each fifth refusal is OK: it is found", status == 1 and "STATUS with code 0 (OK)" in said,
                said[-2000:])
    kept = os.path.join(folder, "kept")
    first = os.path.join(kept, sorted(os.listdir(kept))[0]) if os.path.isdir(kept) else folder
    status, said = run([program(), "audit", "--tree", os.path.join(first, "start.tree"), "--transcript",
                        os.path.join(first, "session.transcript")], folder)
    steps.check("what is kept is refused with the tree that is kept", status == 1 and said.startswith("refused"), said)


def try_umask(steps, folder):
    """Where the server has another umask than is given, a line names it."""
    if not has_openssh(steps):
        return
    live = os.path.join(folder, "umask")
    os.mkdir(live)
    status, said = probe(folder, ["--look-first", live, *POSIX, "--requests", "2", "--skip", "transfers"],
                         [SFTP_SERVER, "-u", "027"])
    steps.check("a server with the umask 027: status 3, and a line names it", status == 3 and not os.listdir(live) and
                "no tree is what the session saw" in said and "--umask 027" in said, said[-2000:])


def try_group(steps, folder):
    """A folder of a group, by its set-gid bit: what is made there belongs to the group, and what is made in a directory
    that lost the bit does not."""
    if not has_openssh(steps, "a folder of a group", needs_root=True):
        return
    live = os.path.join(folder, "group")
    os.mkdir(live)
    os.chown(live, -1, 65534)
    os.chmod(live, 0o2775)
    words = ["--look-first", live, "--skip", "crowds,nul,moved-listing,size-and-more,rename-dangling", *POSIX]
    status, said = probe(folder, words, [SFTP_SERVER])
    steps.check("a folder of a group: accepted", status == 0 and not os.listdir(live), said[-2000:])


def try_slow(steps, folder):
    """Where the time of a session is over, what it made is removed all the same, however long that takes."""
    if not has_openssh(steps):
        return
    live = os.path.join(folder, "slow")
    os.mkdir(live)
    server, halt = servers.Server(misbehaving("slow-removal", [SFTP_SERVER])), limits.Halt()
    worker = below.Worker(folder, server, verdicts.Auditor(program(), folder, POSIX), PROMPT,
                          restarts.Restarts(False, PROMPT), below.Place(server, os.fsencode(live), PROMPT, halt))
    with suppress(sessions.Stopped):
        worker.play(starting.few(), [], 1, 1, limits.Until(halt, 3))
    steps.check("a server that removes slowly is left without files of the probe", not os.listdir(live),
                os.listdir(live))


def try_locked(steps, folder):
    """What the server's user may list and not enter is opened first, and removed: OpenSSH's server lists none of its
    names."""
    if not has_openssh(steps):
        return
    server = [SFTP_SERVER]
    with tempfile.TemporaryDirectory(dir="/tmp") as live:
        if os.geteuid() == 0:
            server = ["setpriv", "--reuid=65534", "--regid=65534", "--clear-groups", "--", *server]
        os.makedirs(os.path.join(live, "own", "locked", "in"))
        for place in ("own/locked/in", "own/locked", "own", ""):
            os.chown(os.path.join(live, place), 65534 if os.geteuid() == 0 else -1, -1)
        os.chmod(os.path.join(live, "own", "locked"), 0o600)
        said = below.Clearing(os.fsencode(live) + b"/own").run(servers.Server(server), PROMPT)
        steps.check("a directory that its user may list and not enter is removed with what is in it",
                    said is None and not os.listdir(live), said)


def try_usage(steps, folder):
    start = blank(folder)
    for options, command, wanted, word in (
            (["--look-first", "/"], SERVE, 2, "excludes"),
            (["--look-first", "/", "--reset", "true"], ["true"], 2, "excludes"),
            (["--look-first", "/absent"], [program(), "serve", "--tree", start], 3, "is no directory"),
            (["--look-first", "/"], ["true"], 3, "the server ended")):
        status, said = probe(folder, options, command)
        steps.check(f"{' '.join(options)}: status {wanted}, {word}", status == wanted and word in said
                    and "Traceback" not in said, f"{status}: {said}")


TRIALS = (try_paths, try_clearing, try_signals,
          *needs_infer(try_serve, try_openssh, try_umask, try_group, try_slow, try_locked, try_usage))
