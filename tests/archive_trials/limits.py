"""What only raised limits hold, at each limit and one above it."""
from archive_trials.members import END, FILE, entry, sftpv3
from sftpv3.codec import trees
from sftpv3.codec.trees import HIGHEST, USUAL, Entry, Tree


def try_raised(steps, folder):
    """A raised tree comes back from its export."""
    sftpv3(["import", folder / "usual.tree"], FILE + END)
    sftpv3(["raise", folder / "usual.tree", folder / "raised.tree"])
    out = sftpv3(["export", folder / "raised.tree"]).stdout
    for choice, wanted in (("raised", "raised.tree"), ("fit", "usual.tree"), ("usual", "usual.tree")):
        done = sftpv3(["import", "--limits", choice, folder / "back"], out)
        holds = done.returncode == 0 and (folder / "back").read_bytes() == (folder / wanted).read_bytes()
        steps.check(f"a raised tree comes back, --limits {choice}", holds, done.stderr.decode())


def tree_of(limits, files):
    """The tree file of these files below the root, by docs/FORMATS.md."""
    entries = [Entry(b"/" + name, trees.FILE, content, permissions=0o644) for name, content in files]
    return trees.put(Tree(entries, limits=limits))


def empty_files(count):
    """The members of empty files, by one of them: the name, and its digits in the checksum, differ."""
    block = entry("0" * 7)
    total = int(block[148:154], 8) - 7 * ord("0")
    for number in range(count):
        name = b"%07d" % number
        yield name + block[7:148] + b"%06o" % (total + sum(name)) + block[154:]


def try_highest(steps, tree):
    """What goes beyond the highest limits is refused by its entry, unless others are asked for."""
    for name, archive, number in [
        ("a file", FILE + entry("b", content=bytes(67_108_865)) + END, 2),
        ("an entry", b"".join(empty_files(1_048_577)) + END, 1_048_577),
    ]:
        tree.unlink(missing_ok=True)
        done = sftpv3(["import", "--limits", "raised", tree], archive)
        line = done.stderr.decode()
        holds = done.returncode == 2 and f"archive: entry {number}, \"" in line and not tree.exists()
        steps.check(f"refuses {name} beyond the highest limits, --limits raised", holds, line.strip()[:100])
        for choice in ("fit", "most"):
            done = sftpv3(["import", "--limits", choice, tree], archive)
            holds = done.returncode == 0 and tree.read_bytes()[:8] == b"SFTREE03"
            steps.check(f"takes {name} beyond the highest limits, --limits {choice}", holds, done.stderr.decode()[:100])


def try_limits(steps, folder):
    """What only raised limits hold, at each limit and one above it."""
    tree = folder / "limits"
    many = [(b"%06d" % number, b"") for number in range(65_537)]
    large = [(b"b", bytes(16_777_217))]
    for name, files, fit in [
        ("a small archive", [(b"a", b"abc")], USUAL),
        ("65,536 entries", many[:-1], USUAL),
        ("65,537 entries", many, (65_537, *USUAL[1:])),
        ("a file as long as the usual limit", [(b"a", bytes(16_777_216))], USUAL),
        ("a file one byte longer", large, (USUAL[0], 16_777_217, *USUAL[2:])),
        ("a file of zeros at the end, as long as the highest limit", [(b"a", bytes(67_108_864))],
         (USUAL[0], 67_108_864, *USUAL[2:])),
        ("both", many + large, (65_538, 16_777_217, *USUAL[2:])),
    ]:
        archive = b"".join(entry(it.decode(), content=content) for it, content in files) + END
        for choice, limits in (("fit", fit), ("raised", HIGHEST), ("usual", USUAL if fit == USUAL else None)):
            tree.unlink(missing_ok=True)
            done = sftpv3(["import", "--limits", choice, tree], archive)
            if limits is None:
                holds = done.returncode == 2 and not tree.exists()
            else:
                holds = done.returncode == 0 and tree.read_bytes() == tree_of(limits, files)
            steps.check(f"{name}, --limits {choice}", holds, done.stderr.decode()[:100])
        if tree.exists():
            continue
        sftpv3(["import", "--limits", "fit", tree], archive)
        out = sftpv3(["export", tree]).stdout
        sftpv3(["import", "--limits", "fit", folder / "again"], out)
        steps.check(f"{name} comes back from its export", tree.read_bytes() == (folder / "again").read_bytes())
    try_highest(steps, tree)


TRIALS = (try_raised, try_limits)
