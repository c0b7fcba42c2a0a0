"""Trees that cannot be read or are malformed: what an audit says, before and behind how many bytes, and with how much
memory."""
import os

from audit_trials.runs import COUNT, FILE, NOISE, audit, peak, run
from sftpv3.codec import trees
from sftpv3.codec.fields import string, uint32

# the zeros of a malformed tree file that no tree has, and the most that a run takes to say where such a file's fault is
IDLE, LITTLE = 200_000_000, 48_000_000


def faults(limits):
    """Tree files with these limits whose fault shows before there is much of a tree, in front of the zeros: what it is,
    the parts of the file, its entry and its name, its field, and the place of that."""
    front = trees.head(b"/", (0, 0), limits, 3, (0, 0, 0o755))
    owner, start, opening = (0, 0, 0o644), len(front), front[:8]
    two = [front + trees.file_of(b"/a", owner, FILE), FILE, trees.directory(b"/b", owner)]
    third = sum(it if isinstance(it, int) else len(it) for it in two)
    yield "another opening", [b"SFTREE00"], "0: Magic", "opening", 0
    yield "a long home", [opening + uint32(IDLE)], "0: Value", "home", 8
    yield "a long path", [front + uint32(IDLE)], "1: Value", "path", start
    yield "an unknown kind", [front + string(b"/a") + b"x"], "1: Value", "kind", start + 6
    yield "a long target", [front + string(b"/a") + b"L" + uint32(IDLE)], "1: Value", "target", start + 7
    yield "a file above the limit", [front + trees.file_of(b"/a", owner, IDLE)], "1: Value", "bytes", start + 19
    yield "an order behind a file", [*two, string(b"/b")], "3: Order", "path", third
    yield "no parent behind a file", [*two, string(b"/c/d")], "3: Parent", "path", third
    yield "an unknown kind behind a file", [*two, string(b"/c") + b"x"], "3: Value", "kind", third + 6
    for kind, number in (("the root", 0), ("a directory", 2), ("itself", 3)):
        yield (f"a name of {kind}", [*two, trees.further(b"/c", number)], "3: Value", "number of the first name",
               third + 7)
    last = trees.further(b"/c", 1)
    yield "bytes behind the last entry", [*two, last], "4: Trailing", "the end of the entries", third + len(last)


def write_parts(name, parts):
    """Writes bytes, and holes of so many zeros."""
    with open(name, "wb") as file:
        for part in parts:
            if isinstance(part, int):
                file.seek(part, os.SEEK_CUR)
            else:
                file.write(part)
        file.truncate()


def explained(name, transcript, noted):
    """The status of an audit of a malformed tree that says where the fault is, its lines of errors, and the most memory
    that it had."""
    with open(noted, "wb") as errors:
        ended, used = peak("audit", "--explain", "--tree", name, "--transcript", transcript, errors=errors)
    return ended, noted.read_text().splitlines(), used


def try_malformed(steps, room):
    """No more of a malformed tree file is held than a window, whatever the size of it is."""
    folder, transcript = room.folder, room.good
    name, noted = folder / "malformed.tree", folder / "noted"
    for limits in (trees.USUAL, trees.HIGHEST, (*trees.HIGHEST[:3], 65_536)):
        for kind, parts, said, field, place in faults(limits):
            write_parts(name, [*parts, IDLE])
            ended, lines, used = explained(name, transcript, noted)
            steps.check(f"{parts[0][:8].decode()}: {kind} is found with {used >> 20} MiB", ended == 2
                        and used <= LITTLE and lines[:1] == [f"sftpv3: tree: entry {said}"]
                        and lines[-1] == f"fault: {field} at byte {place}", lines)


def try_behind(steps, room):
    """To say where a fault is that is behind many bytes takes no more memory than to read them."""
    folder, transcript = room.folder, room.good
    name, noted = folder / "behind.tree", folder / "noted"
    front = trees.head(b"/", (0, 0), trees.MOST, COUNT + 1, (0, 0, 0o755))
    files = [trees.file_of(b"/%02d" % it, (0, 0, 0o644), FILE) for it in range(COUNT)]
    end, link = len(front) + sum(map(len, files)) + COUNT * FILE, trees.link(b"/z", b"z")
    for kind, last, said, field, place in (
            ("an unknown kind", string(b"/z") + b"x", f"{COUNT + 1}: Value", "kind", end + 6),
            ("a path that is cut", uint32(9) + b"/z", f"{COUNT + 1}: Short", "path", end),
            ("a byte too many", link + b"x", f"{COUNT + 2}: Trailing", "the end of the entries", end + len(link))):
        write_parts(name, [front, *(part for file in files for part in (file, FILE)), last])
        most = peak("audit", "--tree", name, "--transcript", transcript)[1] + NOISE
        ended, lines, used = explained(name, transcript, noted)
        steps.check(f"{kind} behind {COUNT * FILE >> 20} MiB: {used >> 20} MiB, and {most >> 20} may be had",
                    ended == 2 and used <= most and lines[:1] == [f"sftpv3: tree: entry {said}"]
                    and lines[-1] == f"fault: {field} at byte {place}", lines)


def try_faults(steps, room):
    folder, tree, transcript = room.folder, room.tree, room.good
    done = audit("--tree", folder, "--transcript", transcript)
    steps.check("a tree that cannot be read: the reason",
                done.returncode == 3 and f"{folder}\n" in done.stderr and "Is a directory" in done.stderr, done)
    start = folder / "start-of-faults.tree"
    start.write_bytes(tree)
    for words in (["audit", "--tree", start, "--transcript", folder], ["show", folder], ["show", "--full", folder],
                  ["audit", "--keep-going", "--tree", start, "--transcript", folder], ["diff", folder, start],
                  ["infer", "--transcript", folder, folder / "inferred.tree"], ["export", folder],
                  ["raise", folder, folder / "raised.tree"], ["serve", "--tree", folder],
                  ["serve", "--tree", start, "--replay", folder]):
        done = run(*words)
        asked = " ".join(map(str, words)).replace(str(folder), ".")
        steps.check(f"{asked}: a directory cannot be read, with the reason", done.returncode == 3 and
                    done.stderr.startswith(f"sftpv3: cannot read {folder}\nsftpv3: reason: Is a directory"), done)
    done = audit("--tree", folder, "--transcript", folder / "none")
    steps.check("it is named before a transcript that is not there",
                done.returncode == 3 and f"{folder}\n" in done.stderr, done)
    cut = folder / "cut.tree"
    cut.write_bytes(tree[:-1])
    done = audit("--tree", cut, "--transcript", transcript)
    steps.check("a tree file that ends early: its entry",
                done.returncode == 2 and "entry 2: Short" in done.stderr, done)
    done = audit("--tree", cut, "--transcript", folder / "none")
    steps.check("it is judged after the transcript was opened", done.returncode == 3 and "none" in done.stderr, done)
    done = audit("--tree", cut, "--transcript", transcript, "--explain")
    steps.check("the same fault with --explain", done.returncode == 2 and "entry 2: Short" in done.stderr, done)


TRIALS = (try_malformed, try_behind, try_faults)
