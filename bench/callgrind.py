"""Counts instructions by valgrind's callgrind."""
import subprocess
import sys
from pathlib import Path


def instructions(command, folder, asked=None) -> int:
    """How many instructions of the program a run executes, whose standard input is the file `asked`."""
    counted = Path(folder, "counted")
    words = ["valgrind", "--tool=callgrind", f"--callgrind-out-file={counted}", *map(str, command)]
    done = subprocess.run(words, stdin=asked, stdout=subprocess.DEVNULL, stderr=subprocess.PIPE, text=True, check=False)
    if done.returncode != 0:
        sys.exit(f"{' '.join(words)}: status {done.returncode}\n{done.stderr}")
    lines = counted.read_text(encoding="utf-8", errors="replace").splitlines()
    return next(int(line.split()[1]) for line in lines if line.startswith(("summary:", "totals:")))
