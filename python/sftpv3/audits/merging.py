"""The reports of several runs as one: lines of JSON, behind those of each run its summary. What is missing is said: a
run without a summary did not end."""
from __future__ import annotations

import json
from typing import Any

from sftpv3.audits.results import UNREAD, WORDS, Result, Summary
from sftpv3.codec import wording


class Bad(Exception):
    """A file is no report."""


class Merged:
    """All results, by their names, and what is wrong with the reports."""

    def __init__(self) -> None:
        self.results: dict[str, Result] = {}
        self.wrong: list[str] = []
        # the numbers of the shares that there are, by how many there have to be
        self.shares: dict[int, set[int]] = {}

    def read(self, name: str, data: bytes) -> None:
        """Takes the reports of a file, one or several."""
        pending = 0
        lines = data.decode("utf-8", "replace").splitlines()
        for number, line in enumerate(lines, 1):
            told = told_in(line)
            if told is None:
                raise Bad(f"{wording.line(name)}: line {number} is none of a report of sftpv3-audits --json")
            if "summary" in told:
                self.end_run(name, told["summary"], pending)
                pending = 0
            else:
                pending += 1
                self.add(told)
        if pending or not lines:
            self.wrong.append(f"{wording.line(name)}: the run did not end: there is no summary behind its last "
                              f"{pending:,} recordings")

    def end_run(self, name: str, summary: dict[str, Any], pending: int) -> None:
        count = summary.get("recordings")
        if count != pending:
            self.wrong.append(f"{wording.line(name)}: a summary counts {count} recordings, and there are {pending}")
        number, _, of = str(summary.get("share", "")).partition("/")
        if number.isdigit() and of.isdigit():
            self.shares.setdefault(int(of), set()).add(int(number))

    def add(self, told: dict[str, Any]) -> None:
        name, status = str(told.pop("name")), told.pop("status")
        result = Result(name, status, told, float(told.pop("seconds", 0)))
        other = self.results.get(name)
        if other and other.text() != result.text():
            self.wrong.append(f"{wording.line(name)}: two verdicts: {other.text()}; {result.text()}")
        if other is None or other.status < status:
            self.results[name] = result

    def faults(self) -> list[str]:
        """What is wrong: with the reports, and which shares are missing."""
        missing = [f"the report of share {number}/{count} is missing" for count, found in sorted(self.shares.items())
                   for number in range(1, count + 1) if number not in found]
        return self.wrong + missing

    def summary(self) -> Summary:
        found = Summary()
        for result in self.results.values():
            found.add(result)
        return found

    def status(self) -> int:
        """The worst; what is missing is not accepted."""
        return UNREAD if self.faults() else self.summary().status()


def told_in(line: str) -> dict[str, Any] | None:
    """What a line of a report says, or None if it is none."""
    try:
        told = json.loads(line)
    except ValueError:
        return None
    if not isinstance(told, dict):
        return None
    if isinstance(told.get("summary"), dict):
        return told
    is_result = isinstance(told.get("name"), str) and type(told.get("status")) is int and told["status"] in WORDS
    return told if is_result else None
