"""What a night came to, for machines: one line of JSON, and a file for the textfile collector of Prometheus."""
import json
import os
import time
from collections import Counter
from typing import Dict, Iterable, List, NamedTuple, Optional, Tuple

from sftpv3.codec import wording
from sftpv3.nights.records import BLOCK

# What is known of the folders: they are as the sessions left them, or but for open places; something else changed them;
# the first tree was made of them; they were not compared.
SAME, SAME_IN_PART, CHANGED = "same", "same but for open places", "changed"
BEGUN, NOT_COMPARED = "begun", "not compared"
CAUSE_UNKNOWN = "not told"


class Metric(NamedTuple):
    """A metric of Prometheus: its name, what it says, and its values by labels."""

    name: str
    help: str
    values: List[Tuple[Dict[str, str], float]]

    def lines(self) -> Iterable[str]:
        yield f"# HELP {self.name} {self.help}"
        yield f"# TYPE {self.name} gauge"
        for labels, value in self.values:
            text = ",".join(f'{name}="{escaped(it)}"' for name, it in labels.items())
            yield f"{self.name}{{{text}}} {value}"


def escaped(text: str) -> str:
    """A text as the value of a label."""
    return wording.clean(text).replace("\\", "\\\\").replace('"', '\\"').replace("\n", "\\n")


class Summary:
    """The counts of a night: how many sessions were accepted, refused by each cause, not judged, and wait; of how many
    accepted ones the server crashed; what is known of the folders; and the bytes on the disk, once they are known."""

    def __init__(self, user: str) -> None:
        self.user, self.began = user, time.time()
        self.accepted = self.unjudged = self.waiting = self.crashed = 0
        self.refused: Counter = Counter()
        self.folders = NOT_COMPARED
        self.compared: Optional[float] = None
        self.spool_bytes: Optional[int] = None
        self.state_bytes: Optional[int] = None

    def sessions(self) -> int:
        return self.accepted + sum(self.refused.values()) + self.unjudged + self.waiting

    def as_json(self, status: int) -> str:
        now = time.time()
        return json.dumps({
            "user": wording.clean(self.user), "status": status, "sessions": self.sessions(), "accepted": self.accepted,
            "refused": dict(sorted(self.refused.items())), "not_judged": self.unjudged, "waiting": self.waiting,
            "crashed": self.crashed, "folders": self.folders, "spool_bytes": self.spool_bytes,
            "state_bytes": self.state_bytes, "compared": date(self.compared),
            "comparison_age_seconds": None if self.compared is None else round(max(0, now - self.compared)),
            "began": date(self.began), "seconds": round(now - self.began, 3)}) + "\n"

    def metrics(self, status: int) -> List[Metric]:
        user = {"user": self.user}
        found = [
            Metric("sftpv3_night_status", "The exit status of the last night.", [(user, status)]),
            Metric("sftpv3_night_end_timestamp_seconds", "When the last night ended.", [(user, round(time.time()))]),
            Metric("sftpv3_night_accepted_sessions", "Sessions that the last night accepted.",
                   [(user, self.accepted)]),
            Metric("sftpv3_night_refused_sessions", "Sessions that the last night refused, by cause.",
                   [({**user, "cause": cause}, count) for cause, count in sorted(self.refused.items())]),
            Metric("sftpv3_night_unjudged_sessions", "Sessions that the last night could not judge.",
                   [(user, self.unjudged)]),
            Metric("sftpv3_night_waiting_sessions", "Sessions that wait for one that runs.", [(user, self.waiting)]),
            Metric("sftpv3_night_crashed_servers", "Servers that a signal ended, by what their recorders say.",
                   [(user, self.crashed)])]
        for name, told, value in (
                ("sftpv3_spool_bytes", "Bytes of records that no night has taken.", self.spool_bytes),
                ("sftpv3_state_bytes", "Bytes of trees and kept records.", self.state_bytes),
                ("sftpv3_last_comparison_timestamp_seconds", "When the folders were last compared.", self.compared)):
            found += [] if value is None else [Metric(name, told, [(user, round(value))])]
        return found

    def as_metrics(self, status: int) -> str:
        return "".join(f"{line}\n" for metric in self.metrics(status) if metric.values for line in metric.lines())


def date(seconds: Optional[float]) -> Optional[str]:
    return None if seconds is None else time.strftime("%Y-%m-%dT%H:%M:%SZ", time.gmtime(seconds))


def bytes_on_disk(folder: int) -> int:
    """The bytes that a folder's files have on the disk, and those of the folders in it."""
    count = 0
    for _, _, files, opened in os.fwalk(".", dir_fd=folder):
        for name in files:
            try:
                count += BLOCK * os.stat(name, dir_fd=opened, follow_symlinks=False).st_blocks
            except FileNotFoundError:
                pass
    return count
