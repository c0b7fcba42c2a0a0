"""Verdicts on recordings: as lines, as JSON, as JUnit; and how many there are of each."""
from __future__ import annotations

import json
import os
from collections import Counter
from collections.abc import Iterable
from typing import Any
from xml.sax import saxutils

from sftpv3.codec import kinds, wording

# The exit statuses of an audit, and what a recording is then.
ACCEPTED, REFUSED, MALFORMED, UNREAD = range(4)
WORDS = {ACCEPTED: "accepted", REFUSED: "refused", MALFORMED: "malformed", UNREAD: "unread"}


class Result:
    """What is known of a recording. `told` is what the audit printed as JSON."""

    def __init__(self, name: str, status: int, told: dict[str, Any], seconds: float = 0):
        self.name, self.status, self.told, self.seconds = name, status, told, seconds

    def text(self) -> str:
        """The verdict, as the audit of one recording prints it, or why there is none."""
        told = self.told
        if self.status == ACCEPTED:
            return "accepted " + ", ".join(accepted(told))
        if self.status == REFUSED:
            return f"refused record {told.get('record')}: {told.get('kind')}"
        more = f": {told['reason']}" if "reason" in told else ""
        found = kinds.TEXTS.get(str(told.get("found")))
        more += f"; it is {found}, not {kinds.TRANSCRIPT}" if found else ""
        return f"{told.get('message', 'no verdict')}{more}"

    def line(self) -> str:
        return f"{self.name}: {self.text()}"

    def as_json(self) -> str:
        return json.dumps(clean({"name": self.name, "status": self.status, **self.told,
                                 "seconds": round(self.seconds, 3)}))

    def case(self) -> str:
        """The case of JUnit."""
        folder, name = os.path.split(self.name)
        head = (f"  <testcase classname={quoted(folder or '.')} name={quoted(name)} "
                f'time="{self.seconds:.3f}"')
        if self.status == ACCEPTED:
            return head + "/>"
        kind = "failure" if self.status == REFUSED else "error"
        more = "\n".join(f"{label}: {value}" for label, value in self.told.items() if isinstance(value, str))
        type_of = quoted(str(self.told.get("kind", "error")))
        return (f"{head}>\n    <{kind} type={type_of} message={quoted(self.text())}>"
                f"{saxutils.escape(wording.clean(more))}</{kind}>\n  </testcase>")


def accepted(told: dict[str, Any]) -> list[str]:
    """The parts of the line of a session that is accepted."""
    parts = [f"{told.get('requests', 0)} requests"]
    if told.get("unanswered"):
        parts.append(f"{told['unanswered']} unanswered")
        parts += [f"{told['unjudged']} not judged"] if told.get("unjudged") else []
    return parts


def clean(value: Any) -> Any:
    """A value of JSON whose texts have no characters that a reader may refuse."""
    if isinstance(value, dict):
        return {key: clean(one) for key, one in value.items()}
    return wording.clean(value) if isinstance(value, str) else value


def quoted(text: str) -> str:
    return saxutils.quoteattr(wording.line(text))


class Summary:
    """How many recordings there are of each verdict, and how many requests were accepted."""

    def __init__(self) -> None:
        self.statuses: Counter = Counter()
        self.requests = 0

    def add(self, result: Result) -> None:
        self.statuses[result.status] += 1
        if result.status == ACCEPTED:
            self.requests += int(result.told.get("requests", 0))

    def count(self) -> int:
        return sum(self.statuses.values())

    def others(self) -> int:
        """How many are not accepted."""
        return self.count() - self.statuses[ACCEPTED]

    def status(self) -> int:
        """The worst."""
        return max(self.statuses, default=UNREAD)

    def text(self) -> str:
        parts = [f"{self.statuses[status]:,} {word}" for status, word in WORDS.items()
                 if self.statuses[status] or status in (ACCEPTED, REFUSED)]
        noun = "recording" if self.count() == 1 else "recordings"
        return f"{self.count():,} {noun}: {', '.join(parts)}; {self.requests:,} requests accepted"

    def as_json(self, share: object = None) -> str:
        counts = {word: self.statuses[status] for status, word in WORDS.items()}
        given = {"share": str(share)} if share else {}
        return json.dumps({"summary": {"recordings": self.count(), **counts, "requests": self.requests, **given}})


def junit(results: Iterable[Result], summary: Summary) -> str:
    cases = [result.case() for result in results]
    wrong = summary.statuses[MALFORMED] + summary.statuses[UNREAD]
    head = (f'<testsuite name="sftpv3-audits" tests="{len(cases)}" failures="{summary.statuses[REFUSED]}" '
            f'errors="{wrong}" skipped="0">')
    return "\n".join(['<?xml version="1.0" encoding="UTF-8"?>', head, *cases, "</testsuite>", ""])
