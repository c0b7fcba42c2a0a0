"""Servers that end, hang, are late or write what is no packet: each has to be a difference, with its session."""
import os
import re
import shlex
import subprocess

from probe_trials.runs import probe, side_by_side
from sftpv3 import codec
from sftpv3.probe import features, planner, starting
from sftpv3.system.program import TOP, program
from trials.other_servers import has_openssh
from trials.probes import groups_of, misbehaving, planted

# Servers of broken/misbehaving.py, how many requests are in flight, and what is found in one of the groups.
FOUND = [
    ("fifth-refusal", None, "STATUS with code 0 (OK)"),
    ("one-unanswered", 1, "no reply in time"),
    ("one-unanswered", 16, "no reply in time"),
    ("looks-unanswered", None, "no reply in time"),
    ("hang", 1, "no reply in time"),
    ("hang", 16, "no reply in time"),
    ("reads-nothing", 16, "no reply in time"),
    ("crash", 1, "the server ended by signal SIGSEGV"),
    ("crash", 16, "the server ended by signal SIGSEGV"),
    ("close-output", None, "the server closed its output"),
    ("garbage", 1, "Wire Length"),
    ("garbage", 16, "Wire Length"),
    ("flood", None, "Wire Length"),
    ("loud", None, "STATUS with code 4 (FAILURE)"),
    ("wrong-id", 1, "UnknownReply"),
    ("wrong-id", 16, "UnknownReply"),
    ("swapped-ids", 16, "STATUS with code"),
    ("twice", 1, "UnknownReply"),
    ("twice", 16, "UnknownReply"),
    ("to-nothing", 1, "UnknownReply"),
    ("short-packet", 1, "Truncated"),
    ("short-packet", 16, ""),
    ("cut-reply", None, "Wire "),
    ("tiny-packet", None, "Wire Short"),
    ("huge-packet", None, "Wire Length"),
    ("second-version", None, "Start"),
    ("handles", None, "HANDLE"),
    ("data-for-all", None, "DATA"),
    ("last-words", 1, "Wire Length"),
    ("last-words", 16, "Wire Length"),
    ("last-reply", None, "UnknownReply"),
    ("end-by-signal", None, "the server ended by signal SIGABRT"),
]


def try_found(steps, folder):
    side_by_side(try_difference, [(steps, folder, *one) for one in FOUND])


def try_difference(steps, folder, kind, in_flight, found):
    name = f"{kind}, {in_flight or 'as usual'} in flight"
    keep, report = os.path.join(folder, f"{kind}-{in_flight}"), os.path.join(folder, f"{kind}-{in_flight}.json")
    words = ["--seeds", "1-4", "--timeout", "1", "--budget", "6", "--keep", keep, "--report", report]
    status, said, _ = probe(*words, *(["--in-flight", str(in_flight)] if in_flight else []), "--", *misbehaving(kind))
    steps.check(f"{name}: differences are found", status == 1 and "Traceback" not in said, said)
    alike = [group for group in groups_of(report) if group["found"].startswith(found)] if os.path.exists(report) else []
    if not steps.check(f"{name}: one is {found or 'any'}", alike, said):
        return
    for group in alike:
        tree, session = (os.path.join(group["kept"], file) for file in ("start.tree", "session.transcript"))
        audit = subprocess.run([program(), "audit", "--tree", tree, "--transcript", session], capture_output=True,
                               check=False)
        steps.check(f"{name}: the audit refuses the session that is kept",
                    audit.returncode in (1, 2) or kind == "end-by-signal", audit)
        steps.check(f"{name}: what the server said and how it ended is kept",
                    all(os.path.exists(os.path.join(group["kept"], file))
                        for file in ("standard-error.txt", "server.txt")), group)


def try_hints(steps, folder):
    """A group says which options of a profile would accept its reply, as one who sets up a server may not know; and
    names what no reply of version 3 has, and what attributes lack."""
    few = ["--budget", "1", "--skip", "owner,new-owner,crowds,transfers", "--in-flight", "1"]
    posix = [*few, "--profile", "posix"]
    for name, words, kind, wanted in (
            ("link first", ["--seeds", "1-2", *posix, "--except", "made"], "link-first", ["--symlink draft"]),
            ("link first, strictly", ["--seeds", "1-2", *few], "link-first", ["--symlink draft"]),
            ("given permissions", ["--seeds", "3", *posix], "Healthy", ["--except made"]),
            ("another umask", ["--seeds", "2", *posix, "--umask", "077"], "Healthy", ["--umask 022", "--except made"])):
        report = os.path.join(folder, f"{name}.json")
        status, said, _ = probe(*words, "--keep", os.path.join(folder, name), "--report", report, "--",
                                *misbehaving(kind))
        hints = [group["accepted_with"] for group in groups_of(report)]
        steps.check(f"{name}: {' or '.join(wanted)} would accept", status == 1 and wanted in hints and
                    f"   accepted with: {' or '.join(wanted)}\n" in said, (status, hints, said[-2000:]))
        steps.check(f"{name}: no other order of SYMLINK is named", all(wanted == hint for hint in hints for one in hint
                    if one.startswith("--symlink")), hints)
    for kind, seeds, wanted in (("fifth-refusal", "1-2", "found: STATUS with code 0 (OK)"),
                                ("without-owners", "1", "found: ATTRS without owner"),
                                ("later-codes", "3", "found: STATUS with code 9 (no code of version 3)")):
        status, said, _ = probe("--seeds", seeds, *posix, "--except", "made", "--keep", os.path.join(folder, kind),
                                "--", *misbehaving(kind))
        steps.check(f"{kind}: {wanted}, and no option accepts it", status == 1 and wanted in said and
                    "accepted with: " not in said, (status, said[-2000:]))


def try_advice(steps, folder):
    """A strict run on a server with a real file system says that a profile is what it needs; no other run does."""
    few = ["--seeds", "1", "--budget", "0", "--skip", "owner,new-owner,crowds,transfers,large-owner", "--keep",
           os.path.join(folder, "advice")]
    openssh = [os.path.join(TOP, "clients", "servers", "openssh"), "{tree}"]
    runs = [("a wrong server", [], misbehaving("fifth-refusal"), False)]
    if has_openssh(steps, "a strict run on OpenSSH's server", needs_root=True):
        runs += [("OpenSSH's server, strictly", [], openssh, True),
                 ("OpenSSH's server, by posix", ["--profile", "posix"], openssh, False)]
        try_advice_of_changes(steps, few, openssh)
    for name, words, server, is_advised in runs:
        status, said, _ = probe(*few, *words, "--", *server)
        advised = re.search(r"\nprobe: \d+ of \d+ kinds are accepted with --profile posix, ", said)
        steps.check(f"{name}: a profile is {'' if is_advised else 'not '}advised", status in (0, 1) and
                    bool(advised) == is_advised, said[-1500:])


def try_advice_of_changes(steps, few, openssh):
    """Where nobody may change anything, that is what a strict run says first, and it counts a refused change among the
    kinds that a profile accepts only if it does something."""
    status, said, _ = probe(*few, "--", *openssh, "-R")
    advised = re.findall(r"\nprobe: (\d+) of (\d+) kinds are .*?play again with (it|--[a-z-]+ [a-z-]+)(?=\n)", said)
    steps.check("OpenSSH's server, read-only: --without changes is advised first, then a profile", status == 1 and
                [words for *_, words in advised] == ["--without changes", "it"], said[-2500:])
    steps.check("no kind is counted twice", sum(int(count) for count, *_ in advised) <= int(advised[0][1]) if advised
                else False, advised)
    for words in (["--without", "changes"], ["--without", "changes", "--profile", "posix"]):
        status, said, _ = probe(*few, *words, "--", *openssh, "-R")
        steps.check(f"{' '.join(words)}: it is not advised again", status in (0, 1) and
                    "play again with --without" not in said, said[-1500:])


def try_link_order(steps, folder):
    """A server that takes the link first gets it first, so that a plan makes the links that it means."""
    sent, few = os.path.join(folder, "sent"), ["--seeds", "6", "--skip", "crowds,transfers", "--in-flight", "1"]
    planned = [step.fields for step in planner.plan(6, starting.usual(), 60, {"crowds", "transfers", *features.BEYOND})
               if step.name == "SYMLINK"]
    for words, kind, wanted in (([], "Healthy", planned),
                                (["--symlink", "draft"], "link-first", [fields[::-1] for fields in planned])):
        server = " ".join(map(shlex.quote, misbehaving(kind)[:-1])) + ' "$0"'
        status, said, _ = probe(*few, "--profile", "posix", "--except", "made", *words, "--", "sh", "-c",
                                f"tee {sent} | {server}", "{tree}")
        with open(sent, "rb") as file:
            asked = [codec.decode(packet) for packet in codec.split(file.read())[0][1:]]
        links = [packet for packet in map(codec.encode, asked) if codec.decode(packet).name == "SYMLINK"]
        steps.check(f"{kind}: accepted, and SYMLINK's paths are sent in its order", status == 0 and len(planned) > 5 and
                    [codec.decode(packet).fields for packet in links] == wanted, said)
        record = os.path.join(folder, "links.transcript")
        with open(record, "wb") as file:
            file.write(codec.put_records([*codec.BEGUN, *((b"C", packet) for packet in links)]))
        probe("--session", record, "--in-flight", "1", "--profile", "posix", *words, "--budget", "0", "--", "sh", "-c",
              f"tee {sent} | {server}", "{tree}")
        with open(sent, "rb") as file:
            again = [codec.decode(packet).fields for packet in codec.split(file.read())[0][1:]]
        steps.check(f"{kind}: a record is played in the order that it has", again == wanted, again)


def try_unknown_handles(steps, folder):
    """Where an OPEN fails against the plan, what goes through it has a handle that was never given. A server that does
    not reply to it can be tested without it: with --skip BadHandle all is asked that has a handle."""
    few = ["--seeds", "1", "--in-flight", "1", "--timeout", "3", "--budget", "1"]
    for words, is_silent in (([], True), (["--skip", "BadHandle"], False)):
        report = os.path.join(folder, "unknown.json")
        status, said, _ = probe(*few, *words, "--keep", os.path.join(folder, "unknown"), "--report", report, "--",
                                *misbehaving("unknown-unanswered"))
        found = [group["found"] for group in groups_of(report)]
        steps.check(f"{words}: requests through unknown handles are {'' if is_silent else 'not '}asked", status == 1 and
                    ("no reply in time" in found) == is_silent and any(one.startswith("STATUS") for one in found),
                    (status, found, said[-500:]))


def try_longest_handles(steps, _):
    """Handles may have 256 bytes; no request has a longer one, which would be no request."""
    status, said, _ = probe("--seeds", "1-13", "--", *planted("longest-handles"))
    steps.check("handles of 256 bytes: accepted", status == 0, said)


def try_shell(steps, folder):
    """A crash at the end is one also if a shell runs the server, and tells it by its own status."""
    shell = ["sh", "-c", '"$@"; exit $?', "sh"]
    words = ["--seeds", "1", "--requests", "10", "--skip", "transfers", "--budget", "0"]
    status, said, _ = probe(*words, "--keep", os.path.join(folder, "shell"), "--", *shell,
                            *misbehaving("end-by-signal"))
    steps.check("a server that crashes at its end behind a shell differs",
                status == 1 and "the server ended with status 134" in said, said)


def try_log(steps, folder):
    """The last lines of a server that ends, and the last 64 KiB of one that says much."""
    status, said, _ = probe("--seeds", "1", "--keep", os.path.join(folder, "said"), "--", *misbehaving("crash"))
    steps.check("the last lines of a server that crashes are shown", status == 1 and "assertion failed: seven" in said,
                said)
    report = os.path.join(folder, "loud.json")
    probe("--seeds", "1", "--keep", os.path.join(folder, "loud"), "--report", report, "--", *misbehaving("loud"))
    with open(os.path.join(groups_of(report)[0]["kept"], "standard-error.txt"), encoding="ascii") as file:
        kept = file.read()
    steps.check("of 1 MB on standard error the last 64 KiB are kept",
                len(kept) == 65536 and kept.endswith("line 00039999 of the log\n"), kept[-100:])


def try_intermittent(steps, folder):
    for kind, wanted in (("now-and-then", r"intermittent, it came in [1-9]\d* of 1\d tries"),
                         ("only-once", r"not shrunk: intermittent, it came in 0 of 1\d tries with the same plan")):
        environment = dict(os.environ, MISBEHAVING_COUNT=os.path.join(folder, kind + ".count"))
        words = ["--seeds", "1", "--in-flight", "1", "--keep", os.path.join(folder, kind), "--jobs", "1"]
        status, said, _ = probe(*words, "--", *misbehaving(kind), env=environment)
        kept = re.search(r"kept in (.+)", said)
        steps.check(f"{kind}: {wanted}", status == 1 and re.search(wanted, said) and kept, said)
        session = kept and os.path.join(kept[1], "session.transcript")
        steps.check(f"{kind}: the session is kept", session and os.path.exists(session), said)


def try_independent(steps, folder):
    """Two faults that show in the same session, and on the same file, are both groups of their own."""
    report = os.path.join(folder, "two.json")
    status, said, _ = probe("--seeds", "1-8", "--in-flight", "1", "--keep", os.path.join(folder, "two"), "--report",
                            report, "--", *misbehaving("two-faults"))
    leaders = {group["request"] for group in groups_of(report) if group["group"] == group["kind"]}
    steps.check("two faults are two groups", status == 1 and {"READ", "FSTAT"} <= leaders, said)
    status, said, _ = probe("--seeds", "1-20", "--keep", os.path.join(folder, "lost"), "--report", report, "--",
                            *planted("lost-write"))
    found = groups_of(report)
    leaders = [group for group in found if group["group"] == group["kind"]]
    steps.check(f"{len(found)} kinds of a WRITE that is lost are at most two groups", status == 1 and len(found) > 3 and
                len(leaders) <= 2, said)


TRIALS = (try_found, try_hints, try_advice, try_link_order, try_unknown_handles, try_longest_handles, try_shell,
          try_log, try_intermittent, try_independent)
