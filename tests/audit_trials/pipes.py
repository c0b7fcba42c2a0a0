"""Trees and transcripts that come through pipes: they are not held, and what has to be read twice is copied into a file
without a name."""
import json
import os
import subprocess
import threading

from audit_trials.runs import BESIDES, LONG, NOISE, audit, fed, peak, session
from sftpv3.codec import NO_SUCH_FILE, OK
from sftpv3.system.program import program
from trials.processes import wait_until


def audit_pipes(folder, tree, transcript, *words, both=True):
    """Audits what one script writes to two pipes, the tree to its end and then the transcript; or only the tree."""
    names = [folder / "tree.pipe", folder / "transcript.pipe"]
    os.mkfifo(names[0])
    if both:
        os.mkfifo(names[1])
    else:
        names[1].write_bytes(transcript)
    pipes = list(zip(names, (tree, transcript)))
    feeder = threading.Thread(target=fed, args=[pipes if both else pipes[:1]], daemon=True)
    feeder.start()
    try:
        return audit("--tree", names[0], "--transcript", names[1], *words)
    finally:
        feeder.join(LONG)
        for name in names:
            name.unlink()


def try_pipes(steps, room):
    folder, tree, good, bad = room.folder, room.tree, session(OK), session(NO_SUCH_FILE)
    done = audit_pipes(folder, tree, good)
    steps.check("a tree and then a transcript from pipes", done.stdout == "accepted 1 requests\n", done)
    done = audit_pipes(folder, tree, bad, "--explain", both=False)
    steps.check("a tree from a pipe, and the refusal is explained: the tree is kept",
                done.stdout == "refused record 4: NotAllowed\n" and "request: 3 C MKDIR" in done.stderr, done)
    done = audit_pipes(folder, tree, bad, "--keep-going", "--json", both=False)
    told = [json.loads(line) for line in done.stdout.splitlines()]
    steps.check("a tree from a pipe, and the audit tries to go on",
                done.returncode == 1 and told[-1].get("findings") == 1, done)


def peak_of_pipe(name, *words):
    """The status of a run that reads this file from a pipe, and the most memory that it had."""
    with subprocess.Popen(["cat", name], stdout=subprocess.PIPE) as feeder:
        return peak(*words, source=feeder.stdout)


def try_large_pipes(steps, room):
    """What is read from a pipe is not held: the tree alone is, or what one entry takes."""
    name, bad, size = room.large, room.bad, room.large.stat().st_size
    for words in (["--explain"], ["--keep-going"], ["--keep-going", "--explain", "--json"]):
        ended, used = peak_of_pipe(name, "audit", *words, "--tree", "/dev/stdin", "--transcript", bad)
        steps.check(f"{' '.join(words)}: a tree of {size >> 20} MiB from a pipe takes {used >> 20} MiB",
                    ended == 1 and used <= size * 11 // 10 + BESIDES, ended)
    most = peak("show", "--full", name)[1] + NOISE
    ended, used = peak_of_pipe(name, "show", "--full", "/dev/stdin")
    steps.check(f"show --full: a tree from a pipe takes {used >> 20} MiB, and {most >> 20} may be had",
                ended == 0 and used <= most, ended)


def told_by_pipe(words, data):
    """What a run says of the bytes that come to it through a pipe."""
    return subprocess.run([program(), *map(str, words)], input=data, capture_output=True, timeout=LONG, check=False)


def told_by_name(name, words, data):
    """What a run says of the bytes that a named pipe gives once."""
    os.mkfifo(name)
    feeder = threading.Thread(target=fed, args=[[(name, data)]], daemon=True)
    feeder.start()
    try:
        return subprocess.run([program(), *map(str, words)], stdin=subprocess.DEVNULL, capture_output=True,
                              timeout=LONG // 4, check=False)
    except subprocess.TimeoutExpired as error:
        return error
    finally:
        feeder.join(LONG)
        name.unlink()


def try_same(steps, room):
    """A file from a pipe is shown as it is from a folder, and its faults are named."""
    folder, tree, transcript, bad = room.folder, room.tree, session(OK), room.bad
    both = folder / "both"
    for kind, data in (("a tree", tree), ("a tree that is cut", tree[:-1]), ("a tree with a byte more", tree + b"x"),
                       ("an entry that is not in order", tree.replace(b"/b", b"/A")), ("another file", b"x" * 100),
                       ("a transcript", transcript), ("a transcript that is cut", transcript[:-1]), ("nothing", b"")):
        both.write_bytes(data)
        file, pipe = (told_by_pipe(["show", "--full", "--data", "all", name], data) for name in (both, "/dev/stdin"))
        errors = pipe.stderr.replace(b"/dev/stdin", str(both).encode())
        # of what a file is, a pipe that is read to its end says nothing
        steps.check(f"show --full: {kind} from a pipe", (pipe.returncode, pipe.stdout) == (file.returncode, file.stdout)
                    and errors.splitlines()[:1] == file.stderr.splitlines()[:1], (file, pipe))
    cut, name = tree[:-1], folder / "once.pipe"
    for words in (["audit", "--explain", "--tree", name, "--transcript", bad], ["show", "--explain", name],
                  ["show", "--full", "--explain", name]):
        done = told_by_name(name, words, cut)
        steps.check(f"{' '.join(map(str, words[:-1]))}: a fault from a pipe that can be read once",
                    getattr(done, "returncode", None) == 2 and b"entry 2: Short" in done.stderr
                    and b"fault:" not in done.stderr, done)
    done = told_by_name(name, ["show", "--explain", name], transcript[:-1])
    steps.check("show --explain: a fault of a transcript from a pipe",
                getattr(done, "returncode", None) == 2 and b"Truncated" in done.stderr and b"fault:" not in done.stderr,
                done)
    done = told_by_pipe(["audit", "--explain", "--tree", "/dev/stdin", "--transcript", bad, "--memory", len(tree) - 1],
                        tree)
    steps.check("--memory: a pipe with more bytes is refused", done.returncode == 3
                and done.stderr == b"sftpv3: out of memory: /dev/stdin needs more than '--memory' allows\n", done)


def uncopied(words, tree, place):
    """What a run says of a tree from a pipe that needs a copy, which this TMPDIR cannot have."""
    return subprocess.run([program(), *map(str, words)], input=tree, capture_output=True, timeout=LONG, check=False,
                          env={**os.environ, "TMPDIR": str(place)})


def try_places(steps, room):
    """A copy is below TMPDIR. Where none can be made, the message names the file that was to be copied."""
    folder, tree, bad = room.folder, room.tree, room.bad
    file = folder / "file"
    file.write_bytes(b"")
    said = (b"sftpv3: cannot keep a copy of /dev/stdin, which cannot be read twice, in TMPDIR or /tmp\n"
            b"sftpv3: reason: %s\n")
    for place, reason in ((folder / "none", b"No such file or directory (os error 2)"),
                          (file, b"Not a directory (os error 20)")):
        for words in (["audit", "--explain", "--tree", "/dev/stdin", "--transcript", bad],
                      ["audit", "--keep-going", "--tree", "/dev/stdin", "--transcript", bad],
                      ["show", "--full", "/dev/stdin"]):
            done = uncopied(words, tree, place)
            steps.check(f"{' '.join(words[:2])}: TMPDIR is {place.name}",
                        (done.returncode, done.stdout, done.stderr) == (3, b"", said % reason), done)
    done = uncopied(["audit", "--explain", "--json", "--tree", "/dev/stdin", "--transcript", bad], tree, file)
    told = json.loads(done.stdout or b"{}").get("error", {})
    steps.check("--json: the failure is an object", done.returncode == 3 and told.get("file") == "/dev/stdin"
                and told.get("reason") == "Not a directory (os error 20)", done)
    for words, ends in ((["audit", "--tree", "/dev/stdin", "--transcript", bad], 1), (["show", "/dev/stdin"], 0),
                        (["show", "--json", "/dev/stdin"], 0)):
        done = uncopied(words, tree, folder / "none")
        steps.check(f"{' '.join(map(str, words[:2]))}: no copy is made, whatever TMPDIR is",
                    done.returncode == ends, done)


def copies_of(child, place):
    """The files that a process has open below this folder, by their names and their permissions."""
    found = []
    for number in os.listdir(f"/proc/{child.pid}/fd"):
        name = f"/proc/{child.pid}/fd/{number}"
        if os.readlink(name).startswith(f"{place}/"):
            found.append((os.readlink(name), os.stat(name).st_mode & 0o7777))
    return found


def try_nameless(steps, room):
    """While a pipe is copied, its copy has no name and is for its user alone; and it is gone with the run."""
    place, tree, bad = room.folder / "place", room.tree, room.bad
    place.mkdir()
    for ends in (True, False):
        child = subprocess.Popen([program(), "audit", "--explain", "--tree", "/dev/stdin", "--transcript", bad],
                                 stdin=subprocess.PIPE, stdout=subprocess.DEVNULL, stderr=subprocess.DEVNULL,
                                 env={**os.environ, "TMPDIR": str(place)})
        child.stdin.write(tree[:len(tree) // 2])
        child.stdin.flush()
        wait_until(lambda: copies_of(child, place), LONG // 4)
        found, names = copies_of(child, place), os.listdir(place)
        steps.check("a copy has no name", len(found) == 1 and found[0][0].endswith(" (deleted)") and not names,
                    (found, names))
        steps.check("it is for its user alone", [mode for _, mode in found] == [0o600], found)
        if ends:
            child.stdin.write(tree[len(tree) // 2:])
        else:
            child.kill()
        child.stdin.close()
        steps.check("the run ends", child.wait(LONG) == (1 if ends else -9), child.returncode)
        steps.check("nothing is left", not os.listdir(place), os.listdir(place))


TRIALS = (try_pipes, try_large_pipes, try_same, try_places, try_nameless)
