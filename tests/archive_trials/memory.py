"""How much memory an import takes for long files."""
import tarfile

from sftpv3.codec import trees
from sftpv3.system.program import program
from trials.processes import used_by

# the bytes of a long file, what they are, and what an import may take besides
LONG, PATTERN, BESIDES = 256 << 20, bytes(range(251)), 32 << 20


class Pattern:
    """So many bytes of a pattern, as a file that is read."""

    def __init__(self, size):
        self.size, self.at = size, 0

    def read(self, most):
        count, start = min(most, self.size - self.at), self.at % len(PATTERN)
        self.at += count
        return (PATTERN * (count // len(PATTERN) + 2))[start:start + count]


def pieces_of(sizes):
    """The tree file of files of the pattern, piece by piece."""
    yield trees.head(b"/", (0, 0), trees.MOST, len(sizes), (0, 0, 0o755))
    for at, size in enumerate(sizes):
        yield trees.file_of(b"/%d" % at, (0, 0, 0o644), size)
        it = Pattern(size)
        while piece := it.read(1 << 20):
            yield piece


def is_of(name, pieces):
    """Whether a file has these bytes."""
    with open(name, "rb") as file:
        return all(file.read(len(piece)) == piece for piece in pieces) and not file.read(1)


def try_memory(steps, folder):
    """An import takes a tenth more memory than its files have, and 32 MiB; also where one file is long."""
    archive, end = folder / "long.tar", folder / "long.tree"
    for sizes in ((LONG,), (LONG // 2, LONG // 2 - 1, 1_000), (LONG // 8,) * 8, (1_000, LONG - 513)):
        with tarfile.open(archive, "w") as made:
            for at, size in enumerate(sizes):
                member = tarfile.TarInfo(str(at))
                member.size = size
                made.addfile(member, Pattern(size))
        with open(archive, "rb") as input:
            done, _, memory = used_by([program(), "import", "--no-sync", "--limits", "most", end], stdin=input)
        steps.check(f"files of {sum(sizes) >> 20} MiB, {len(sizes)} of them, take {memory >> 20} MiB",
                    done.returncode == 0 and memory <= sum(sizes) * 11 // 10 + BESIDES, done.returncode)
        steps.check("and are in the tree", is_of(end, pieces_of(sizes)))
    archive.unlink()
    end.unlink()


TRIALS = (try_memory,)
