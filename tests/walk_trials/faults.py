"""Walks through servers with one fault each, and walks whose output cannot be written or is ended in the middle."""
import os
import shutil
import signal
import subprocess
import tempfile

from trials.other_servers import SFTP_SERVER, has_openssh
from walk_trials.ends import signalled, with_program
from walk_trials.runs import BETWEEN, HOSTILE, WALK, is_clean, make_live, needs_infer, run, walk

# Faults of between.py, the status of a walk through a server with it, and what is said. What the walk is told but once,
# such as a byte of a file, it has to believe, and so it finds a tree.
FAULTS = [
    ("Healthy", 0, "accepted"),
    ("name_left_out", 1, 'nothing is at "'),
    ("name_twice", 1, "the search came to record"),
    ("name_invented", 1, '/invented" cannot be looked at: 2 NO_SUCH_FILE'),
    ("listed_size", 1, "could not fit it to record"),
    ("listing_fails", 1, "was not listed to its end: 4 FAILURE"),
    ("read_lacks_last", 1, "cannot be read: a READ of 1 bytes gave 0"),
    ("read_more", 1, "cannot be read: a READ of 3 bytes gave 4"),
    ("read_other", 0, "accepted"),
    ("read_ends_early", 1, "was 102,400 bytes long, and ended before byte 65,536"),
    ("read_empty_at_end", 1, "was 3 bytes long, and has bytes behind that"),
    ("size_more", 1, "was 4 bytes long, and ended before byte 4"),
    ("size_less", 1, "was 2 bytes long, and has bytes behind that"),
    ("no_size", 1, "has no size"),
    ("file_as_directory", 1, "found: a directory"),
    ("file_as_fifo", 1, "is no directory, file or link, which no tree file has"),
    ("link_as_file", 1, "found: a file"),
    ("target_other", 1, '/elsewhere"'),
    ("target_twice", 1, "the search came to record"),
    ("other_id", 3, "1 reply of the server is to no request"),
    ("other_id", 3, "the server did not reply within 1 seconds; no tree is written"),
    ("reply_twice", 1, "1 reply of the server is to no request"),
    ("second_version", 3, "a reply of the server is malformed: it is a VERSION"),
    ("unknown_type", 3, "a reply of the server is malformed: no packet of this side has the type 150"),
    ("long_reply", 3, "a reply of the server is malformed: it has 300,021 bytes, more than the 262,144 of any packet"),
    ("byte_behind_fields", 3, "a reply of the server is malformed: 1 bytes follow the last field"),
    ("cut_field", 3, "a reply of the server is malformed: a field goes past the end of the packet"),
    ("empty_packet", 3, "a reply of the server is malformed: a field goes past the end of the packet"),
    ("cut_reply", 3, "the server ended, or closed its output, in the middle of a packet"),
    ("stops_in_reply", 3, "the server did not reply within 1 seconds"),
    ("trickles", 3, "the server did not reply within 1 seconds"),
    ("dies", 3, "the server ended, or closed its output; no tree is written"),
    ("last_twice", 1, "1 reply of the server is to no request"),
    ("last_words", 3, "the server sent 4 bytes after its last reply that are no packet"),
    ("last_half", 3, "the server sent 9 bytes after its last reply that are no packet"),
    ("crashes_at_end", 3, "the server ended by signal SIGSEGV; no tree is written"),
    ("fails_at_end", 0, "after its last reply the server ended with status 7"),
    ("stays_at_end", 0, "after its last reply the server ended only when it was stopped"),
    ("handle_again", 1, "the search came to record"),
    ("close_fails", 1, "the search came to record"),
    ("denied", 1, "1 of the replies are PERMISSION_DENIED, which --profile posix-user takes as right"),
    ("grows", 1, '/f" was 3 bytes long, and has bytes behind that'),
    ("shrinks", 1, '/f" was 3 bytes long, and ended before byte 3'),
    ("goes_away", 1, '/f" cannot be opened: 2 NO_SUCH_FILE'),
]

# The faults at which a walk waits as long as it is told to.
WAITS = ("other_id", "stops_in_reply", "trickles")

# What stands for `sftpv3`: its `infer` hangs while it writes the tree, or finds no room for it.
WRITING = """#!/bin/sh
case "$*" in "help infer" | *begun.tree) exit;; esac
for place; do :; done
echo part >"$place.new-0123456789abcdef"
echo $$ >"$MARK"
sleep 600
"""
NO_ROOM = """#!/bin/sh
[ "$*" = "help infer" ] && exit
echo "sftpv3: cannot write seen.tree" >&2
echo "sftpv3: reason: No space left on device (os error 28); the file is unchanged" >&2
exit 3
"""


def try_faults(steps, folder):
    if not has_openssh(steps, "servers with one fault each"):
        return
    for kind, wanted, words in FAULTS:
        room = tempfile.mkdtemp(dir=folder)
        live, to = (os.path.join(room, name) for name in ("live", "seen.tree"))
        make_live(live)
        seconds = "1" if kind in WAITS else "60"
        status, said = walk(room, ["--timeout", seconds, "--below", live, "--to", to], [*BETWEEN, kind, SFTP_SERVER])
        left = set(os.listdir(room)) - {"live"}
        steps.check(f"OpenSSH's server, {kind.replace('_', ' ')}: {words}", status == wanted and words in said and
                    is_clean(said) and left == ({"seen.tree"} if wanted == 0 else set()), f"{status} {left}: {said}")
    live, to = (os.path.join(folder, name) for name in ("right", "right.tree"))
    make_live(live)
    status, said = walk(folder, ["--timeout", "60", "--below", live, "--to", to], [*BETWEEN, "trickles", SFTP_SERVER])
    steps.check("a slow server is waited for", status == 0, f"{status}: {said}")
    options = ["--profile", "posix-user", "--below", live, "--to", to]
    status, said = walk(folder, options, [*BETWEEN, "denied", SFTP_SERVER])
    steps.check("--profile posix-user: what the user may not read is named", status == 0 and
                '/f" cannot be opened: 3 PERMISSION_DENIED' in said, f"{status}: {said}")


def to_full(words, folder, name):
    """Runs a command of which one stream goes to a full disk. Gives its status and what it prints on the other."""
    streams = {"stdout": subprocess.PIPE, "stderr": subprocess.PIPE}
    with open("/dev/full", "wb") as full:
        done = subprocess.run(words, cwd=folder, stdin=subprocess.DEVNULL, check=False, **{**streams, name: full})
    return done.returncode, ((done.stdout or b"") + (done.stderr or b"")).decode(errors="replace")


def try_full_outputs(steps, folder):
    """What cannot be printed is no verdict, and changes none that the status has."""
    right, denied, ends = ([*HOSTILE, kind] for kind in ("Right", "denied", "ends"))
    for name, options, server, wanted in (
            ("stdout", ["--session", "s"], right, 3), ("stdout", [], right, 3), ("stdout", ["--to", "t"], right, 3),
            ("stdout", ["--help"], [], 3), ("stderr", ["--to", "t"], right, 0), ("stderr", ["--to", "t"], ends, 3),
            ("stderr", ["--to", "t", "--profile", "strict"], denied, 1), ("stderr", ["--wrong"], right, 2)):
        status, said = to_full([WALK, *options, "--", *server], folder, name)
        steps.check(f"{' '.join([*options, *server[-1:]])}, {name} is full: status {wanted}", status == wanted and
                    "Exception" not in said and is_clean(said) and
                    (name == "stderr" or said.endswith("walk: standard output: No space left on device\n")),
                    f"{status}: {said}")


def try_no_room(steps, folder):
    """Why the tree is not written is told in words, in one line."""
    status, said = run([WALK, "--to", "seen.tree", "--", *HOSTILE, "Right"], folder,
                       env={**os.environ, **with_program(folder, "no-room", NO_ROOM)})
    steps.check("no room for the tree: status 3, and why", status == 3 and said == "walk: `sftpv3 infer` ended with "
                "status 3: cannot write seen.tree; reason: No space left on device (os error 28); the file is "
                "unchanged\n", f"{status}: {said}")


# It does so too, and another walk to the same tree begins to write meanwhile.
BESIDE = WRITING.replace("echo $$", """sh -c 'exec 9>"$0"; exec sleep 600' "$place.new-00000000000000ee" &
echo dead >"$place.new-00000000000000dd"
while ! [ -e "$place.new-00000000000000ee" ]; do sleep 0.1; done
echo $$""").replace("sh -c", "setsid sh -c")


def try_beside(steps, folder):
    """What another process writes at the same time beside the same tree is not removed; what nobody writes is."""
    room = os.path.join(folder, "beside")
    os.mkdir(room)
    program = with_program(folder, "writing-beside", BESIDE)
    words = [WALK, "--to", os.path.join(room, "seen.tree"), "--", *HOSTILE, "Right"]
    status, said, *_ = signalled(folder, words, signal.SIGTERM, program)
    steps.check("an unfinished file of another walk stays, those that nobody writes go", status == 143 and
                os.listdir(room) == ["seen.tree.new-00000000000000ee"], f"{status}: {said} {os.listdir(room)}")
    shutil.rmtree(room)


def try_unfinished(steps, folder):
    """A signal while the tree is written leaves no part of it, and of others what they have."""
    room = os.path.join(folder, "unfinished")
    os.mkdir(room)
    others = os.path.join(room, "seen.tree.new-fedcba9876543210")
    with open(others, "wb"):
        pass
    program = with_program(folder, "writing", WRITING)
    for number in (signal.SIGTERM, signal.SIGHUP, signal.SIGINT):
        words = [WALK, "--to", os.path.join(room, "seen.tree"), "--", *HOSTILE, "Right"]
        status, said, left, running = signalled(folder, words, number, program)
        steps.check(f"while the tree is written, {number.name} leaves no part of it", status == 128 + number and
                    not left and not running and os.listdir(room) == [os.path.basename(others)],
                    f"{status}: {said} {os.listdir(room)}")
    shutil.rmtree(room)


TRIALS = needs_infer(try_faults, try_full_outputs, try_no_room, try_unfinished, try_beside)
