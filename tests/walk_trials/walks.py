"""Walks through servers that mean harm, and through right ones."""
import os
import resource
import subprocess
import tempfile

from sftpv3.codec import trees
from sftpv3.probe import starting
from sftpv3.system.program import TOP, program
from trials.other_servers import SFTP_SERVER, has_openssh
from trials.processes import executable, limited
from walk_trials.runs import HOSTILE, POSIX, WALK, is_clean, make_live, needs_infer, run, walk

# The server that does not reply, and for how many seconds a walk waits for it, and for replies of others.
SILENT, SHORT, LONG = "hang", "1", "100"

# A session of a user, 7 and of the group 8, who makes a directory.
MAKES = b"""C INIT 3
S VERSION 3
C 1 MKDIR "/d" permissions=0755
S 1 STATUS 0
C 2 LSTAT "/d"
S 2 ATTRS size=0 owner=7,8 permissions=040755
"""

# Servers of hostile.py at which the walk ends, and what it says.
ENDED = [
    ("slash_in_name", r'the listing of "/" has the name "../../etc/\x1b[1mpasswd"'),
    ("empty_name", 'the listing of "/" has the name ""'),
    ("long_name", 'the listing of "/" has the name "nnn'),
    ("endless_listing", "there are more than 1,048,576 entries, as many as --max-entries says"),
    ("repeating_listing", 'the listing of "/" goes on without names that are new'),
    ("long_handle", "a handle of the server has 200,000 bytes"),
    ("long_lines", "the requests and replies of the session have more than 538,870,912 bytes"),
    ("idle_listing", 'the listing of "/" goes on without names that are new'),
    ("short_reads", 'READ of "/f" gives few bytes at a time'),
    ("relative_realpath", r'REALPATH of "." gave "\x1b[1mhome", which is no absolute path'),
    ("no_realpath", 'REALPATH of "." gave 8 OP_UNSUPPORTED'),
    (SILENT, f"the server did not reply within {SHORT} seconds"),
    ("ends", r"standard error: \x1b[1mout of order"),
    ("ends", "the server ended, or closed its output"),
    ("counts_wrong", "a reply of the server is malformed: a field goes past the end"),
    ("many_replies", "101 replies of the server are to no request"),
    ("long_packet", "the server sent no packets: a packet has 2147483651 bytes"),
    ("greeting", 'the server sent no packets: its output is text, "Welcome"'),
]

# Servers at which it goes on, and what it says; `infer` may find a tree or none.
TOLD = [
    ("deep", "has entries deeper than the 64 names of any tree file"),
    ("huge_size", '"/f" has 4,611,686,018,427,387,904 bytes, more than the 1,099,511,627,776 of any tree file'),
    ("wide_size", '"/f" is not read: its 60,000,000 bytes are more than are left of --max-bytes'),
    ("grows", '"/f" was 5 bytes long, and has bytes behind that'),
    ("shrinks", '"/f" was 70,000 bytes long, and ended before byte'),
    ("empty_reads", '"/f" cannot be read: a READ of 10 bytes gave 0'),
    ("too_much", '"/f" cannot be read: a READ of 10 bytes gave 11'),
    ("ring", ""),
    ("fifo", r'"/\x1b[1mpipe" is no directory, file or link, which no tree file has'),
    ("no_kinds", '"/" is no directory, file or link'),
    ("denied", '"/d" cannot be listed: 3 PERMISSION_DENIED'),
    ("denied", '"/f" cannot be opened: 3 PERMISSION_DENIED'),
    ("wrong_type", '"/" cannot be looked at: a reply of type 103'),
]


# A name that is no UTF-8, and why no tree is written there: the program takes no such name.
OTHER, NO_TEXT = os.fsdecode(b"x\xff"), "sftpv3 takes no name that is not UTF-8"


def walk_hostile(folder, options, kind):
    return walk(folder, ["--timeout", SHORT if kind == SILENT else LONG, *options], [*HOSTILE, kind])


def try_hostile(steps, folder):
    for kind, wanted in TOLD:
        to = os.path.join(tempfile.mkdtemp(dir=folder), "seen.tree")
        status, said = walk_hostile(folder, ["--max-bytes", "5000000", "--to", to], kind)
        steps.check(f"{kind.replace('_', ' ')}: {wanted or 'it ends'}",
                    status in (0, 1) and wanted in said and is_clean(said) and os.path.exists(to) == (status == 0),
                    f"{status}: {said[:600]}")


def show(name):
    """A tree file as text; of its head the home, without limits and whose the new entries are."""
    text = subprocess.run([program(), "show", "--full", "--data", "all", name], capture_output=True, check=True).stdout
    head, _, rest = text.partition(b"\n")
    return head.split(b" uid ")[0] + b"\n" + rest


def try_records(steps, folder):
    """Sessions that are recorded, and no trees."""
    start, session = (os.path.join(folder, name) for name in ("recorded.tree", "recorded.transcript"))
    trees.write(starting.usual(), start)
    for words in ([], ["--shuffle", "7"]):
        name = session + "".join(words)
        status, said = walk(folder, ["--below", "/", "--session", name], [program(), "serve", "--tree", start, *words])
        _, verdict = run([program(), "audit", "--tree", start, "--transcript", name], folder)
        steps.check(f"{' '.join(['serve', *words])}: the session is recorded, and accepted with the server's tree",
                    status == 0 and verdict.startswith("accepted "), said + verdict)
    status, said = walk(folder, ["--below", "/", "--session", session], [program(), "serve", "--tree", start])
    steps.check("a record that is there is kept", status == 0 and os.path.exists(session + ".2"), said)
    name = os.path.join(folder, "hostile.transcript")
    for kind, wanted in ENDED:
        status, said = walk_hostile(folder, ["--max-bytes", "2000000", "--session", name], kind)
        steps.check(f"{kind.replace('_', ' ')}, recorded: {wanted}", status == 3 and wanted in said and is_clean(said),
                    f"{status}: {said[:600]}")


def try_strict(steps, folder):
    """A tree without files of several names comes back whole."""
    start, seen = (os.path.join(folder, name) for name in ("start.tree", "strict.tree"))
    entries = [entry for entry in starting.usual().entries if entry.kind != trees.FURTHER]
    trees.write(trees.Tree(entries, b"/d", 0, 0), start)
    serve = [program(), "serve", "--tree", start]
    for words in ([], ["--shuffle", "7"], ["--in-flight", "1"]):
        server = serve + (words if words[:1] == ["--shuffle"] else [])
        options = words if words[:1] == ["--in-flight"] else []
        status, said = walk(folder, [*options, "--below", "/", "--to", seen], server)
        steps.check(f"{' '.join(['serve', *words])}: the tree that is seen is that of the server",
                    status == 0 and show(seen) == show(start), said)
    status, said = walk(folder, ["--no-contents", "--below", "/d", "--to", seen], serve)
    text = show(seen)
    steps.check("serve: --no-contents and --below: what is there and on the way, and no bytes",
                status == 0 and b'F "/d/e/f"' in text and b"abcdefghij" not in text and b'"/many' not in text, said)


def try_absent(steps, folder):
    """A place of --below that is not there, as by a slip: no tree is one in which it is absent."""
    start, to = (os.path.join(folder, name) for name in ("there.tree", "absent.tree"))
    trees.write(starting.usual(), start)
    status, said = walk(folder, ["--below", "/d", "--below", "/dd", "--to", to], [program(), "serve", "--tree", start])
    steps.check("a place of --below that is not there: status 3, and no tree", status == 3 and
                '"/dd" is not there; no tree is written' in said and not os.path.exists(to), f"{status}: {said}")
    status, said = walk(folder, ["--below", "/dd", "--session", to], [program(), "serve", "--tree", start])
    steps.check("with --session alone it is told, and the session is recorded", status == 0 and os.path.exists(to) and
                '"/dd" cannot be looked at: 2 NO_SUCH_FILE' in said, f"{status}: {said}")


def try_limited(steps, folder):
    """Where the system allows no file as long as the tree, it is said that this is why there is none."""
    start, to = (os.path.join(folder, name) for name in ("long.tree", "limited.tree"))
    trees.write(trees.Tree([trees.Entry(b"/f", trees.FILE, bytes(3000))]), start)
    status, said = run([WALK, "--no-contents", "--to", to, "--", program(), "serve", "--tree", start], folder,
                       preexec_fn=limited(resource.RLIMIT_FSIZE, 2048))
    steps.check("a tree longer than a file may be: status 3, and why", status == 3 and "File too large" in said and
                to in said and not os.path.exists(to), f"{status}: {said}")


def try_posix(steps, folder):
    """A live folder of OpenSSH's server."""
    if not has_openssh(steps):
        return
    live, seen, other = (os.path.join(folder, name) for name in ("live", "live.tree", "other.tree"))
    make_live(live, 4000)
    os.symlink("nowhere", os.path.join(live, "dangling"))
    status, said = walk(folder, ["--below", live, "--to", seen], [SFTP_SERVER])
    run([os.path.join(TOP, "clients", "tree"), "--out", other, live], folder)
    steps.check("OpenSSH's server: the tree that is seen is that of clients/tree, but for home and links above",
                status == 0 and entries_below(seen, live) == entries_below(other, live) != [], said)
    done = subprocess.run([WALK, "--below", live, "--", SFTP_SERVER], cwd=folder, capture_output=True,
                          check=False)
    with open(seen, "rb") as file:
        steps.check("the same to standard output", done.returncode == 0 and done.stdout == file.read(), done.stderr)
    status, said = walk(folder, ["--below", live, "--profile", "strict", "--to", "strict.tree"], [SFTP_SERVER])
    steps.check("--profile strict: none, since its directories have sizes",
                status == 1 and "no tree found" in said, said)


def entries_below(name, place):
    return [line for line in show(name).splitlines() if f'"{place}'.encode() in line.split(b" ", 2)[1]]


def try_link(steps, folder):
    """A link of another user does not say where the tree goes."""
    if steps.lacks_root("a link of another user", "needs root"):
        return
    shared = os.path.join(folder, "shared")
    os.mkdir(shared)
    os.chmod(shared, 0o1777)
    link, target = os.path.join(shared, "theirs"), executable(os.path.join(folder, "target"), "dear")
    os.symlink(target, link)
    os.chown(link, 65534, 65534, follow_symlinks=False)
    status, said = walk(folder, ["--to", link], [*HOSTILE, "Right"])
    with open(target, encoding="ascii") as file:
        steps.check("--to: a link of another user is not followed", status == 3 and file.read() == "dear"
                    and "a symbolic link of another user" in said, f"{status}: {said}")


SWAPS = """#!/bin/sh
{program} "$@"
status=$?
for last; do :; done
if [ "$1" = infer ] && [ "${{last##*/}}" != begun.tree ]; then
    rm -f {tree} && ln -s {victim} {tree} && chown -h 65534 {tree}
fi
exit $status
"""


def try_swapped(steps, folder):
    """Where another user puts a link in the place of the tree that was just made, --owner changes nothing behind it."""
    if steps.lacks_root("a link in the place of the tree", "needs root"):
        return
    victim, swaps, shared = (os.path.join(folder, name) for name in ("victim", "swaps", "of-all"))
    os.mkdir(shared)
    os.chmod(shared, 0o777)
    tree = os.path.join(shared, "swapped.tree")
    with open(victim, "wb") as file:
        file.write(bytes(64))
    executable(swaps, SWAPS.format(program=program(), tree=tree, victim=victim))
    status, said = run([WALK, "--owner", "7:8", "--to", tree, "--", *HOSTILE, "Right"], folder,
                       env={**os.environ, "SFTPV3": swaps})
    with open(victim, "rb") as file:
        steps.check("--owner: a link in the place of the tree that was made leads nowhere", status == 3 and
                    file.read() == bytes(64) and "a symbolic link of another user" in said, f"{status}: {said}")


def try_mistakes(steps, folder):
    """What a user gets wrong is told in words, before the server starts."""
    for options, command, wanted in (
            (["--to", "x"], ["nowhere"], "cannot run nowhere: No such file or directory"),
            (["--to", "x"], [folder], f"cannot run {folder}: Permission denied"),
            (["--to", folder], ["touch", "started"], f"cannot write {folder}: not a regular file"),
            (["--to", "nodir/x"], ["touch", "started"], "cannot write nodir/x: there is no folder nodir"),
            (["--to", OTHER], ["touch", "started"], rf"cannot write x\xff: {NO_TEXT}"),
            (["--to", "x", "--session", OTHER], ["touch", "started"], rf"cannot write x\xff: {NO_TEXT}")):
        status, said = walk(folder, options, command)
        steps.check(wanted, status == 3 and said == f"walk: {wanted}\n", f"{status}: {said}")
    os.makedirs(os.path.join(folder, OTHER), exist_ok=True)
    status, said = run([WALK, "--to", "x", "--", "touch", "started"], folder,
                       env={**os.environ, "TMPDIR": os.path.join(folder, OTHER)})
    steps.check("TMPDIR that is no UTF-8: status 3, and why", status == 3 and NO_TEXT in said and
                said.count("\n") == 1, f"{status}: {said}")
    steps.check("nothing was started", not os.path.exists(os.path.join(folder, "started")))
    status, said = walk(folder, ["--session", OTHER + "/s"], [*HOSTILE, "Right"])
    steps.check("--session alone may have any name", status == 0 and r"x\xff/s: " in said, f"{status}: {said}")


def try_no_folder(steps, folder):
    """Where the current folder is gone, whole names lead to where they did."""
    to, sent = os.path.join(folder, "whole.tree"), [*HOSTILE, "Right"]
    live = os.path.join(folder, "looked-at")
    os.mkdir(live)
    session = os.path.join(TOP, "examples", "wrong-byte.transcript")
    for name, words, wanted, what in (
            ("walk", ["--to", to, "--", *sent], 0, "inferred"), ("tree", ["--out", to, live], 0, " entries"),
            ("walk", ["--to", "seen.tree", "--", *sent], 3,
             "cannot write seen.tree: the folder in which this was started is gone"),
            ("page", [session, "-o", "x.html"], 3, "x.html: the folder in which this was started is gone"),
            ("page", ["x", "-o", "y"], 3, "x: No such file"), ("page", ["x", "-o", "./x"], 2, "name one file")):
        gone = tempfile.mkdtemp(dir=folder)
        line = ["sh", "-c", 'rmdir "$PWD" && exec "$@"', "sh", "/usr/bin/python3", "-B",
                os.path.join(TOP, "clients", name), *words]
        status, said = run(line, gone)
        steps.check(f"{name} {' '.join(words[:3])}, the current folder is gone: {what}", status == wanted and
                    what in said and "Traceback" not in said, f"{status}: {said}")


def try_names(steps, folder):
    """A record that gets another name since the first is taken is not replaced by the tree."""
    with open(os.path.join(folder, "taken"), "wb") as file:
        file.write(b"dear")
    status, said = walk(folder, ["--session", "taken", "--to", "taken.2"], [*HOSTILE, "Right"])
    steps.check("--to names the file that the record gets: status 3, and a line", status == 3 and is_clean(said) and
                "taken.2" in said.splitlines()[-1], f"{status}: {said}")


def try_entries(steps, folder):
    """A walk takes as many entries as --max-entries says, and ends at one more."""
    start = os.path.join(folder, "entries.tree")
    trees.write(starting.usual(), start)
    server = [program(), "serve", "--tree", start]
    count = len(starting.usual().entries)
    for most, wanted in ((count, 0), (count - 1, 3)):
        to = os.path.join(folder, f"entries-{most}.tree")
        status, said = walk(folder, ["--below", "/", "--max-entries", str(most), "--to", to], server)
        ends = f"there are more than {most:,} entries, as many as --max-entries says; no tree is written" in said
        steps.check(f"--max-entries {most} of {count}: status {wanted}", status == wanted and is_clean(said) and
                    os.path.exists(to) == (wanted == 0) and ends == (wanted == 3), f"{status}: {said}")


def try_owner(steps, folder):
    """What a user makes is judged by the tree of a walk, in which nothing shows who the user is."""
    start, seen, record = (os.path.join(folder, name) for name in ("of-user.tree", "walked.tree", "makes.transcript"))
    trees.write(trees.Tree([trees.Entry(b"/f", trees.FILE, b"bytes")], uid=7, gid=8), start)
    subprocess.run([program(), "make", record], input=MAKES, check=True)
    for options, wanted in (([], 1), (["--owner", "7:8"], 0)):
        status, said = walk(folder, [*options, "--to", seen], [program(), "serve", "--tree", start])
        steps.check(f"{' '.join(['a walk', *options])}: status 0", status == 0, f"{status}: {said}")
        status, said = run([program(), "audit", *POSIX, "--tree", seen, "--transcript", record], folder)
        steps.check(f"what a user makes is judged by its tree: status {wanted}", status == wanted, f"{status}: {said}")


def try_usage(steps, folder):
    for options, command, wanted in (
            (["--max-bytes", "x"], ["true"], 2), (["--timeout", "0"], ["true"], 2),
            (["--memory", str(1 << 63)], [*HOSTILE, "Right"], 2), (["--timeout", "200000"], [*HOSTILE, "Right"], 0),
            (["--profile", "strickt"], ["true"], 2), (["--umask", "9"], ["true"], 2), (["--to", ""], ["true"], 2),
            (["--max-entries", "0"], ["true"], 2), (["--max-entries", "4294967294"], ["true"], 2),
            (["--in-flight", "5000"], ["true"], 2), (["--to", "/nowhere/x"], [*HOSTILE, "Right"], 3),
            (["--session", "/nowhere/x"], ["true"], 3),
            (["--session", "/dev/null"], ["true"], 3), (["--to", "x"], ["/nowhere/server"], 3),
            (["--to", "x"], ["true"], 3), (["--to", "x"], ["yes"], 3),
            (["--session", "one", "--to", "./one"], [*HOSTILE, "Right"], 2),
            (["--owner", "u:g"], ["true"], 2), (["--owner", "7"], ["true"], 2),
            (["--owner", "7:4294967296"], ["true"], 2), (["--owner", "7:8", "--profile", "strict"], ["true"], 2)):
        status, said = walk(folder, options, command)
        steps.check(f"{' '.join(options)} -- {os.path.basename(command[-1])}: status {wanted}",
                    status == wanted and is_clean(said) and said, f"{status}: {said}")


TRIALS = (try_records, *needs_infer(try_strict, try_absent, try_limited, try_posix, try_hostile, try_entries, try_owner,
                                    try_swapped, try_usage, try_names, try_no_folder, try_mistakes, try_link))
