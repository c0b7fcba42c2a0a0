"""Other servers: OpenSSH's, if it is there; and the sessions that `examples/servers` keeps: a file for each server, in
which each session is text as `sftpv3 make` reads it, below lines with its name and its verdicts."""
import os
import subprocess
from dataclasses import dataclass
from pathlib import Path

SFTP_SERVER = "/usr/lib/openssh/sftp-server"
FOLDER = Path(__file__).resolve().parents[2] / "examples" / "servers"
TREE = str(FOLDER / "start.tree")
POSIX = ["--profile", "posix"]
# The one server that takes the paths of SYMLINK in the order of the draft.
DRAFT = "gesftpserver/symlink"


def has_openssh(steps, name="OpenSSH's server", needs_root=False) -> bool:
    """Whether OpenSSH's server can be tried here. If not, a step of this name is skipped."""
    can_be_tried = os.path.exists(SFTP_SERVER) and not (needs_root and os.geteuid())
    if not can_be_tried:
        steps.skip(name, f"it needs {'root and ' if needs_root else ''}apt-get install openssh-sftp-server")
    return can_be_tried


@dataclass
class Kept:
    """A session: its name behind that of its server, and its text. What the strict audit prints of it; and whether the
    profile `posix` accepts it with its tree, and finds a tree for it: `accepted` or `refused`."""

    name: str
    strict: str
    posix: str
    inferred: str
    text: str

    def options(self) -> list[str]:
        return POSIX + (["--symlink", "draft"] if self.name == DRAFT else [])

    def write(self, program: str, folder: str) -> str:
        """Writes the session's transcript into the folder, and returns the file's name."""
        transcript = os.path.join(folder, self.name.replace("/", "-") + ".transcript")
        subprocess.run([program, "make", "--no-sync", transcript], input=self.text.encode(), check=True)
        return transcript


def in_file(file: Path) -> list[Kept]:
    found = []
    for text in file.read_text(encoding="ascii").split("\n\n"):
        heads = dict(line[2:].split(" ", 1) for line in text.splitlines() if line.startswith("# "))
        name, strict, posix, inferred = (heads[it] for it in ("session", "strict:", "posix:", "inferred:"))
        found.append(Kept(f"{file.stem}/{name}", strict, posix, inferred, text.rstrip("\n") + "\n"))
    return found


def sessions() -> list[Kept]:
    return [it for file in sorted(FOLDER.glob("*.sessions")) for it in in_file(file)]
