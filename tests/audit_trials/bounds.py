"""How much memory, how much room of addresses and how much time runs take, with --memory and without."""
import resource
import subprocess

from audit_trials.runs import BESIDES, FILE, LONG, audit, peak
from sftpv3.codec import BEGUN, CLIENT, OK, SERVER, Packet, Request, encode, put_records, status, trees
from sftpv3.system.program import program
from trials.processes import limited, used_by

# the bytes of a file of which no power of two is near, and how many it says that it has where few are there
LONG_FILE, SAID = 300_000_000, 2 ** 40

# the limits on memory with which audits are timed: one of clients/page, and one that is less than a file may have
LIMITS = (1 << 30, 48 << 20)

# the limit with which audits end
LIMIT = 500_000_000

# the names of a directory, how many listings of it are open, and the limit with which their audit ends
NAMES, LISTINGS, LISTED = 65_000, 200, 300_000_000

# the bytes of a READ or WRITE, and how many of them a session of these has; how many other requests one has
BLOCK, BLOCKS, OTHERS = 32_768, 1_024, 50_000


def try_memory(steps, room):
    folder, name, size, transcript = room.folder, room.large, room.large.stat().st_size, room.good
    most = size * 11 // 10 + BESIDES
    for words in ([], ["--cut"], ["--profile", "posix"]):
        ended, used = peak("audit", "--tree", name, "--transcript", transcript, *words)
        steps.check(f"{' '.join(words) or 'strictly'}: a tree of {size >> 20} MiB takes {used >> 20} MiB",
                    ended == 0 and used <= most, ended)
    ended, used = peak("audit", "--tree", name, "--transcript", transcript, "--out", folder / "end.tree", "--no-sync")
    steps.check(f"--out: it takes {used >> 20} MiB", ended == 0 and used <= most, ended)
    done = audit("--tree", name, "--transcript", transcript, "--memory", size - 1)
    steps.check("a tree file of more bytes than --memory is refused",
                done.returncode == 3 and str(name) in done.stderr, done)


def try_others(steps, room):
    """Beside audits: what `diff` takes is that of two trees."""
    folder, name, size = room.folder, room.large, room.large.stat().st_size
    for words, trees_read in ((["diff", name, name], 2), (["show", name], 1), (["show", "--json", name], 1),
                              (["export", name], 1), (["raise", "--no-sync", name, folder / "raised.tree"], 1)):
        ended, used = peak(*words)
        steps.check(f"{words[0]}: it takes {used >> 20} MiB",
                    ended == 0 and used <= trees_read * size * 11 // 10 + BESIDES, ended)


def record(request, reply):
    return put_records([(CLIENT, encode(request)), (SERVER, reply)])[len(put_records([])):]


def opened(name=b"/00"):
    """The records of a session that opens a file for reading and writing."""
    return put_records(BEGUN) + record(
        Request(0, "OPEN", [name, 0xB, {}]), encode(Packet(0, "HANDLE", [b"h"])))


def blocks(kind):
    """The records of READs or WRITEs of a file of zeros, in order and again from the start."""
    zeros = bytes(BLOCK)
    for number in range(BLOCKS):
        offset = number * BLOCK % FILE
        if kind == "READ":
            yield record(Request(1, "READ", [b"h", offset, BLOCK]), encode(Packet(1, "DATA", [zeros])))
        else:
            yield record(Request(1, "WRITE", [b"h", offset, zeros]), status(1, OK, b""))


def others():
    """The records of small requests, four of them in turn."""
    four = b"".join((record(Request(1, "MKDIR", [b"/d", {}]), status(1, OK, b"")),
                     record(Request(2, "WRITE", [b"h", 5, b"x"]), status(2, OK, b"")),
                     record(Request(3, "FSETSTAT", [b"h", {"permissions": 0o100644}]), status(3, OK, b"")),
                     record(Request(4, "RMDIR", [b"/d"]), status(4, OK, b""))))
    return [four] * (OTHERS // 4)


def seconds_of(words):
    """The processor time of an audit."""
    done, seconds, _ = used_by([program(), "audit", *words], stdin=subprocess.DEVNULL, stdout=subprocess.DEVNULL,
                               stderr=subprocess.DEVNULL)
    return seconds if done.returncode == 0 else float("inf")


def try_costs(steps, room):
    """An audit with --memory takes a tenth more time than without at most. On a busy machine the least of seven, in
    turn, is still up to a half more, or 20 ms."""
    tree, transcript = room.folder / "zeros.tree", room.folder / "many.transcript"
    trees.write(trees.Tree([trees.Entry(b"/00", trees.FILE, bytes(FILE))]), tree)
    for name, records in (("READs", blocks("READ")), ("WRITEs", blocks("WRITE")), ("small requests", others())):
        transcript.write_bytes(opened() + b"".join(records))
        words = ["--tree", tree, "--transcript", transcript]
        forms = [words, *([*words, "--memory", limit] for limit in LIMITS)]
        free, *bounded = (min(times) for times in zip(*(map(seconds_of, forms) for _ in range(7))))
        for limit, took in zip(LIMITS, bounded):
            steps.check(f"--memory {limit}: {name} take {free:.3f} and {took:.3f} s", took <= free * 1.5 + 0.02)


def grown(sizes):
    """The transcript of a session that makes files, and by a SETSTAT each has so many bytes."""
    records = [put_records(BEGUN)]
    for at, size in enumerate(sizes):
        records += [record(Request(1, "OPEN", [b"/%d" % at, 0xA, {}]), encode(Packet(1, "HANDLE", [b"h"]))),
                    record(Request(2, "FSETSTAT", [b"h", {"size": size}]), status(2, OK, b"")),
                    record(Request(3, "CLOSE", [b"h"]), status(3, OK, b""))]
    return b"".join(records)


def try_limits(steps, room):
    """--memory ends an audit before it takes more, but for what one request takes: a file of so many bytes."""
    tree, transcript = room.folder / "grown.tree", room.folder / "grown.transcript"
    for name, limits, size in (("64 MiB", trees.HIGHEST, 64 << 20), ("1 MiB", trees.MOST, 1 << 20),
                               ("300 MiB", trees.MOST, 300 << 20)):
        trees.write(trees.Tree([], limits=limits), tree)
        transcript.write_bytes(grown([size] * (3 * LIMIT // size)))
        ended, used = peak("audit", "--tree", tree, "--transcript", transcript, "--memory", LIMIT)
        steps.check(f"--memory: files of {name} end an audit with {used >> 20} MiB",
                    ended == 3 and used <= LIMIT + size + BESIDES, ended)


def try_listings(steps, room):
    """--memory ends an audit of many open listings of one directory, too."""
    tree, transcript = room.folder / "names.tree", room.folder / "listings.transcript"
    trees.write(trees.Tree([trees.Entry(b"/%06d" % it, trees.FILE) for it in range(NAMES)], limits=trees.HIGHEST), tree)
    records = [put_records(BEGUN)]
    records += [record(Request(1, "OPENDIR", [b"/"]), encode(Packet(1, "HANDLE", [b"%d" % it])))
                for it in range(LISTINGS)]
    transcript.write_bytes(b"".join(records))
    ended, used = peak("audit", "--tree", tree, "--transcript", transcript, "--memory", LISTED)
    steps.check(f"--memory: listings of {NAMES} names end an audit with {used >> 20} MiB",
                ended == 3 and used <= LISTED + 2 * BESIDES, ended)


def write_long(name, said, there):
    """Writes the tree of a file that says that it has so many bytes, of which so many zeros are there."""
    with open(name, "wb") as tree:
        tree.write(trees.head(b"/", (0, 0), trees.MOST, 1, (0, 0, 0o755)))
        tree.write(trees.file_of(b"/long", (0, 0, 0o644), said))
        tree.truncate(tree.tell() + there)


def bounded(room, *words):
    """A run that gets so many bytes of addresses at most."""
    return subprocess.run([program(), *map(str, words)], stdin=subprocess.DEVNULL, stdout=subprocess.DEVNULL,
                          stderr=subprocess.PIPE, text=True, timeout=LONG, check=False,
                          preexec_fn=limited(resource.RLIMIT_AS, room))


def try_rooms(steps, room):
    """A long file takes as many addresses as it has bytes, and one whose bytes are not there takes at most twice as
    many as are."""
    folder, transcript = room.folder, room.good
    long, cut = folder / "long.tree", folder / "few.tree"
    write_long(long, LONG_FILE, LONG_FILE)
    for words in (["audit", "--tree", long, "--transcript", transcript], ["show", long], ["export", long],
                  ["raise", "--no-sync", long, folder / "raised.tree"]):
        done = bounded(LONG_FILE + BESIDES, *words)
        steps.check(f"{words[0]}: a file of {LONG_FILE} bytes takes no more addresses", done.returncode == 0, done)
    for there in (1 << 20, 130 << 20):
        write_long(cut, SAID, there)
        done = bounded(max(2 * there, 64 << 20) + BESIDES, "show", cut)
        steps.check(f"a file of 2^40 bytes of which {there >> 20} MiB are there is short",
                    done.returncode == 2 and "entry 1: Short" in done.stderr, done)


TRIALS = (try_memory, try_others, try_costs, try_limits, try_listings, try_rooms)
