"""Bad usage: words that mean nothing, and files that cannot be read or would be lost."""
import os
import subprocess

from probe_trials.runs import PROBE, probe
from sftpv3 import codec
from sftpv3.codec import trees
from sftpv3.probe import starting
from sftpv3.system.program import TOP, program
from trials.probes import faulty_before, misbehaving

# Arguments with which there is nothing to play, or not what is asked for.
BAD_USAGE = [["--seeds", "5-1"], ["--seeds", "x"], ["--seeds", ""], ["--in-flight", "0"], ["--in-flight", "5000"],
             ["--timeout", "0"], ["--jobs", "0"], ["--jobs", "99999"], ["--patience", "-1"], ["--tree", "/nowhere"],
             ["--limits", ""], ["--limits", "packet=33999"], ["--limits", "packets=34000"], ["--limits", "handles=0"],
             ["--session", "/nowhere"], ["--report", "/nowhere/at/all"], ["--requests", "0"],
             ["--tree", PROBE], ["--session", PROBE]]


def try_usage(steps, _):
    for words in BAD_USAGE:
        status, said, _ = probe(*words, "--", *misbehaving("Healthy"))
        steps.check(f"{' '.join(words)}: status 2", status == 2 and "Traceback" not in said, (status, said))
    everything = ",".join(sorted(codec.REQUESTS))
    status, said, _ = probe("--seeds", "1-2", "--skip", everything, "--", *misbehaving("Healthy"))
    steps.check("no request at all: status 2", status == 2 and "accepted" not in said, (status, said))


# Words that the program does not take for options of a profile, and what it says of each.
UNKNOWN_WORDS = [("--profile", "psix", "[possible values: posix, posix-user]"),
                 ("--umask", "0999", "not an octal number up to 0777"), ("--allow", "dots,nothing", "dir-size"),
                 ("--except", "everything", "dir-size"), ("--symlink", "link-first", "[possible values: draft]"),
                 ("--new-owner", "me", "[possible values: user, given, group, posix]"),
                 ("--allow", "", "a value is required for '--allow")]


def try_unknown_words(steps, folder):
    """A word that the program does not know is bad usage before a server is started, in its words and no more."""
    begun = os.path.join(folder, "begun")
    for option, word, wanted in UNKNOWN_WORDS:
        status, said, _ = probe(f"{option}={word}", "--seeds", "1-3", "--", "touch", begun, "{tree}")
        steps.check(f"{option}={word}: status 2, and why, and nothing is started", status == 2 and
                    said.startswith("probe: ") and wanted in said and word.rpartition(",")[2] in said.split("\n")[0] and
                    "ended with status" not in said and "--help" not in said and not os.path.exists(begun),
                    (status, said))
    known = ["--profile", "posix", "--umask", "027", "--allow", "denied", "--except", "made", "--symlink", "draft",
             "--new-owner", "given"]
    status, said, _ = probe(*known, "--seeds", "1", "--", "touch", begun, "{tree}")
    steps.check("words that the program knows: the server is started", status == 3 and os.path.exists(begun),
                (status, said))


def try_unreadable(steps, folder):
    """A file that cannot be read is named in a line, with why; no FIFO is waited for that nobody writes."""
    pipe = os.path.join(folder, "a\nFIFO")
    os.mkfifo(pipe)
    named = pipe.replace("\n", r"\x0a")
    for option in ("--tree", "--session"):
        for name, wanted in (("/nowhere", "/nowhere: No such file or directory"),
                             (TOP, f"{TOP}: it is a folder, and no regular file"), (PROBE, f"{PROBE}: "),
                             (pipe, f"{named}: it is a FIFO, and no regular file")):
            done = subprocess.run(["timeout", "-k", "1", "60", PROBE, option, name, "--", *misbehaving("Healthy")],
                                  stdin=subprocess.DEVNULL, capture_output=True, text=True, check=False)
            said = done.stdout + done.stderr
            steps.check(f"{option} {name!r} cannot be read: status 2, and why", done.returncode == 2 and
                        said.startswith(f"probe: {option}: {wanted}") and said.count("\n") == 1,
                        (done.returncode, said))
    start = os.path.join(folder, "piped.tree")
    trees.write(starting.usual(), start)
    status, said, _ = probe("--tree", "/dev/stdin", "--seeds", "1", "--keep", os.path.join(folder, "piped"), "--",
                            *misbehaving("Healthy"), given=start)
    steps.check("--tree /dev/stdin, a pipe: it is read", status == 0, said)


def try_file_named_twice(steps, folder):
    """A report does not replace the tree or the session that is played."""
    for option in ("--tree", "--session"):
        given = os.path.join(folder, f"named-twice{option}")
        subprocess.run([program(), "blank", given], check=True)
        with open(given, "rb") as file:
            before = file.read()
        status, said, _ = probe(option, given, "--report", given, "--seeds", "1", "--", *misbehaving("Healthy"))
        with open(given, "rb") as file:
            steps.check(f"{option} and --report name one file: status 2, and it is as it was", status == 2 and
                        "name one file" in said and file.read() == before, (status, said))


def try_stand_ins(steps, _):
    """What stands in front of a server, which authors of clients use, too: a line where the server does not run."""
    for stand_in, name in ((misbehaving, "slow"), (faulty_before, "read-cut")):
        words = stand_in(name, ["/nowhere/server"])
        done = subprocess.run(words, input=codec.init(), capture_output=True, check=False)
        steps.check(f"{name} of a server that is not there: status 127, and a line", done.returncode == 127 and
                    b"cannot run /nowhere/server: No such file" in done.stderr and done.stderr.count(b"\n") == 1, done)
        words = stand_in(name, [program(), "serve", "--tree", "/nowhere/tree"])
        done = subprocess.run(words, input=codec.init(), capture_output=True, check=False)
        steps.check(f"{name} of a server that ends at once: its status, and what it says", done.returncode == 3 and
                    b"cannot read /nowhere/tree" in done.stderr and b"Traceback" not in done.stderr, done)


TRIALS = (try_usage, try_unknown_words, try_unreadable, try_file_named_twice, try_stand_ins)
