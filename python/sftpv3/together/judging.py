"""`sftpv3 audit --together` of a set by an order."""
from __future__ import annotations

import json
import os
import subprocess
import tempfile
from collections.abc import Iterable
from typing import Any, NamedTuple

from sftpv3.together.certifying import ORDER, Certificate
from sftpv3.together.outside import program

# The statuses of an audit.
ACCEPTED, REFUSED = 0, 1


class Verdict(NamedTuple):
    """The status of an audit, and the object that it printed."""

    status: int
    told: dict[str, Any]


class Failed(Exception):
    """The program gave no verdict."""


def audit(tree: str, recorded: str, certificate: Certificate, tolerance: int, words: list[str]) -> Verdict:
    """What the audit says of a set whose sessions were recorded in a folder, by an order; times may be as many
    microseconds apart as the tolerance says."""
    with tempfile.TemporaryDirectory(prefix="sftpv3-together-") as folder:
        certificate.lay_out(folder, recorded)
        command = [program(), "audit", "--tree", os.path.abspath(tree), "--order", ORDER, "--tolerance", str(tolerance),
                   "--json", *words, "--together", *certificate.files()]
        done = subprocess.run(command, cwd=folder, stdin=subprocess.DEVNULL, stdout=subprocess.PIPE,
                              stderr=subprocess.PIPE, check=False)
    if done.returncode not in (ACCEPTED, REFUSED):
        said = done.stderr.decode(errors="replace").strip()
        raise Failed(f"sftpv3 audit ended with status {done.returncode}: {said}")
    return Verdict(done.returncode, json.loads(done.stdout))


def write(name: str, pieces: Iterable[bytes]) -> None:
    """Writes a file whole, or not at all."""
    new = name + ".new"
    try:
        with open(new, "wb") as file:
            file.writelines(pieces)
        os.replace(new, name)
    except OSError:
        if os.path.exists(new):
            os.remove(new)
        raise
