"""Servers that keep to the draft, and are unusual: none is blamed, or a line says by which option it is not."""
import os
import re

from probe_trials.runs import probe, side_by_side
from sftpv3.system.program import TOP, program
from trials.other_servers import SFTP_SERVER, has_openssh
from trials.probes import SERVE, faulty_before, misbehaving, serve, stand_in

# Servers of broken/unusual.py that are accepted as they are.
ACCEPTED = ["many-extensions", "one-name", "single-bytes", "noisy", "failed-at-end", "late"]

# Those that need words, which a line tells; and more options of `serve`.
TOLD = [
    ("ends-at-long-packets", ["--limits", "packet=34000"], []),
    ("hangs-at-long-packets", ["--limits", "packet=34000"], []),
    ("refuses-long-packets", ["--limits", "packet=34000"], []),
    ("few-handles", ["--limits", "handles=20"], []),
    ("days-of-access", ["--without", "access-times"], ["--times"]),
    ("no-times", ["--skip", "times"], ["--times"]),
    ("even-seconds", ["--skip", "odd-seconds"], ["--times"]),
    ("texts-alone", ["--skip", "not-utf-8"], []),
    ("one-owner", ["--skip", "owner"], []),
    ("few-owners", ["--skip", "large-owner"], []),
    ("bare-listings", ["--without", "listed-attributes"], []),
    ("no-links", ["--skip", "HARDLINK,READLINK,SYMLINK"], []),
    ("paths-by-text", ["--paths", "text"], []),
    ("read-only", ["--without", "changes"], []),
]


def unusual(kind, *options):
    return stand_in("unusual", kind, serve(*options))


def try_accepted(steps, _):
    def accept(kind):
        status, said, _ = probe("--seeds", "1-5", "--", *unusual(kind))
        steps.check(f"{kind}: accepted", status == 0 and "\naccepted: 5 " in said, said)
    side_by_side(accept, [(kind,) for kind in ACCEPTED])


def try_kept(steps, folder):
    """A server that puts down its files some seconds after its input has ended keeps them."""
    live = "{folder}/live"
    server = stand_in("unusual", "late", [program(), "serve", "--tree", live, "--save", live])
    status, said, _ = probe("--seeds", "1-2", "--tree", os.path.join(folder, "usual.tree"), "--reset",
                            f"cp {folder}/usual.tree {live}", "--", *server)
    steps.check("late, with --save: accepted, and what lasts was checked", status == 0 and
                "\naccepted: 2 " in said and "only" not in said, said)


def try_told(steps, folder):
    """What some servers do not have: the probe tells by which words it is left out."""
    def tell(kind, words, more):
        few = ["--seeds", "1-5", "--timeout", "3", "--budget", "10", "--keep", os.path.join(folder, kind)]
        status, said, _ = probe(*few, "--", *unusual(kind, *more))
        advised = re.findall("^probe: .* play again with (--(?:limits|without|skip|paths) .*)$", said, re.MULTILINE)
        steps.check(f"{kind}: differences, and {' '.join(words)} is advised", status == 1 and
                    advised == [" ".join(words)], said)
        status, said, _ = probe(*few, *words, "--", *unusual(kind, *more))
        steps.check(f"{kind}, {' '.join(words)}: accepted", status == 0, said)
    side_by_side(tell, TOLD)


def try_bugs_in(steps, folder):
    """What is said of a server hides no bug: a sound one that is said to resolve paths by their text, one that does so
    and has a bug, and one that nobody is to change, where files can be removed."""
    def find(name, words, server, wanted):
        few = ["--seeds", "1-4", "--budget", "0", "--keep", os.path.join(folder, name)]
        status, said, _ = probe(*few, *words, "--", *server)
        steps.check(f"{name}, {' '.join(words)}: {wanted}", status == 1 and wanted in said and
                    "play again with --" not in said, said)
    by_text, unchanged = ["--paths", "text"], ["--without", "changes"]
    removed = "REMOVE: STATUS with code 0 (OK); expected: a refusal, since the server changes nothing"
    side_by_side(find, [
        ("a sound server", by_text, SERVE, "; expected: "),
        ("a wrong byte by text", by_text, stand_in("planted", "wrong-byte", unusual("paths-by-text")),
         "READ: DATA with other bytes"),
        ("read-only-but-removes", unchanged, unusual("read-only-but-removes"), removed),
        ("a wrong byte that nobody changes", unchanged, stand_in("planted", "wrong-byte", unusual("read-only")),
         "READ: DATA with other bytes")])


def try_links_that_leave(steps, folder):
    """A server of a folder, whose links with absolute targets lead out of it: that is said, and can be left out."""
    live = "{folder}/live"
    server = stand_in("unusual", "links-leave", [program(), "serve", "--tree", live, "--save", live])
    few = ["--seeds", "1-6", "--budget", "0", "--keep", os.path.join(folder, "leave")]
    words = [*few, "--reset", f"cp {{tree}} {live}"]
    status, said, _ = probe(*words, "--", *server)
    steps.check("links that leave a folder: a line says so", status == 1 and "such a link leaves that folder" in said
                and "play again with --skip absolute-links\n" in said, said)
    status, said, _ = probe(*words, "--skip", "absolute-links", "--", *server)
    steps.check("links that leave a folder, --skip absolute-links: accepted", status == 0, said)
    status, said, _ = probe(*few, "--", *unusual("links-leave"))
    steps.check("the same without a folder: it is not excused", status == 1 and "absolute-links" not in said, said)


def try_one_at_a_time(steps, folder):
    """A server of which one runs at a time, as by a lock or a port: those that run side by side are its user's."""
    lock = os.path.join(folder, "lock")
    server = ["sh", "-c", 'exec flock -n "$0" "$@"', lock, *SERVE]
    few = ["--seeds", "1-8", "--budget", "0", "--keep", os.path.join(folder, "locked")]
    status, said, _ = probe(*few, "--jobs", "3", "--", *server)
    # it depends on which of them is the first
    steps.check("one at a time: status 1 or 3, and --jobs 1 is advised", status in (1, 3) and
                "play again with --jobs 1\n" in said, said)
    status, said, _ = probe(*few, "--jobs", "1", "--", *server)
    steps.check("one at a time, --jobs 1: accepted", status == 0, said)
    status, said, _ = probe(*few, "--jobs", "1", "--", *misbehaving("starts-at-times"),
                            env=dict(os.environ, MISBEHAVING_COUNT=f"{lock}.count"))
    steps.check("one that does not start at times: --jobs 1, which is given, is not advised", status == 1 and
                "--jobs" not in said, said)
    live = "{folder}/live"
    status, said, _ = probe(*few, "--also", "two-clients", "--tree", f"{folder}/usual.tree", "--reset",
                            f"cp {folder}/usual.tree {live}", "--", *server[:4], program(), "serve", "--tree", live,
                            "--save", live)
    steps.check("one at a time, two clients: status 3, and which server did not start", status == 3 and
                "probe: the second of two servers: no VERSION came: " in said, said)


def try_umask(steps, folder):
    """Where files are their group's, too, the option is named."""
    if not has_openssh(steps, "a umask of a group", needs_root=True):
        return
    server = [os.path.join(TOP, "clients", "servers", "any"), "{tree}", SFTP_SERVER, "-u", "007"]
    status, said, _ = probe("--seeds", "1", "--profile", "posix", "--skip", "crowds,transfers", "--budget", "0",
                            "--keep", os.path.join(folder, "umask"), "--", *server)
    steps.check("a server with the umask 007: a difference, and --umask 007 accepts it", status == 1 and
                "   accepted with: --umask 007\n" in said, said)


def try_distant(steps, folder):
    """A server whose files may have some GiB is judged there: OpenSSH's, and with a bug in front of it."""
    if not has_openssh(steps, "a file of some GiB", needs_root=True):
        return
    server = [os.path.join(TOP, "clients", "servers", "openssh"), "{tree}"]
    few = ["--seeds", "13", "--jobs", "1", "--profile", "posix", "--budget", "0", "--keep",
           os.path.join(folder, "distant")]
    skip = "nul,moved-listing,size-and-more,rename-dangling,crowds,links,deep,many-handles,unusual-names"
    status, said, _ = probe(*few, "--skip", skip, "--", *server)
    steps.check("a file of some GiB on OpenSSH's server: accepted", status == 0, said)
    for bug, request in (("far-write-lost", "READ"), ("sizes-of-32-bits", "FSTAT")):
        status, said, _ = probe(*few, "--skip", skip, "--", *stand_in("planted", bug, server))
        steps.check(f"{bug}: {request} shows it", status == 1 and f"seed 13: {request}: " in said and
                    re.search("expected: .*42949[67]", said), said)
        kept = re.search(r"kept in (\S+)", said)
        steps.check(f"{bug}: the session is kept as it was judged, too", kept and
                    os.path.exists(os.path.join(kept[1], "judged.transcript")), said)
        status, said, _ = probe(*few, "--skip", f"{skip},distant", "--", *stand_in("planted", bug, server))
        steps.check(f"{bug}: it is not met with --skip distant", status == 0, said)


def try_not_told(steps, folder):
    """What has another reason is not excused, nor advised."""
    words = ["--seeds", "1-4", "--budget", "0", "--keep", os.path.join(folder, "not-told")]
    for fault, more in (("write-lacks-last-byte", []), ("times-lost", ["--without", "access-times"])):
        status, said, _ = probe(*words, *more, "--", *faulty_before(fault, serve("--times")))
        steps.check(f"{fault}, {more}: found, and nothing is advised", status == 1 and "play again" not in said, said)
    status, said, _ = probe("--seeds", "1-4", "--limits", "packet=34000,handles=5", "--", *SERVE)
    steps.check("sftpv3 serve with little room is accepted", status == 0, said)


TRIALS = (try_accepted, try_kept, try_told, try_bugs_in, try_links_that_leave, try_one_at_a_time, try_umask,
          try_distant, try_not_told)
