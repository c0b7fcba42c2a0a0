"""The lines of a block as text: repeated lines in full, long lines joined, and what is written short written out."""
from __future__ import annotations

import re
from dataclasses import dataclass

# Where a line continues the line before it, and where it is repeated or continues.
EIGHT, FOUR = " " * 8, " " * 4
MOST = 2**64


@dataclass
class Group:
    """A line and those that go on with it, or the lines that a `repeat` line repeats so many times."""
    count: int
    repeats: bool
    lines: list[str]


def front_number(text: str) -> tuple[int, str] | None:
    """Returns the number below 2^64 in front of a text, and what follows it."""
    digits = re.match("[0-9]+", text)
    if not digits or int(digits[0]) >= MOST:
        return None
    return int(digits[0]), text[digits.end():]


def number_of(text: str) -> int | None:
    found = front_number(text)
    return found[0] if found and not found[1] else None


def says_nothing(line: str) -> bool:
    return line.lstrip()[:1] in ("", "#")


def groups_of(lines: list[str]) -> list[Group]:
    groups: list[Group] = []
    for line in lines:
        count = number_of(line.removeprefix("  repeat ")) if line.startswith("  repeat ") else None
        if says_nothing(line):
            continue
        if count is not None:
            groups.append(Group(count, True, []))
        elif line.startswith(FOUR) and groups:
            groups[-1].lines.append(line)
        else:
            groups.append(Group(1, False, [line]))
    return groups


def counted(text: str, turn: int) -> str:
    """Returns a text with the numbers behind `%` counted up."""
    return re.sub("%([0-9]+)", lambda it: str(int(it[1]) + turn), text)


def octets(number: int, size: int) -> str:
    return "".join(f"\\x{it:02x}" for it in number.to_bytes(8, "big")[-size:])


def handle_name(found: re.Match[str]) -> str:
    """Returns the name of the handle `#SLOT.SERIAL`, or of `#N`, whose slot and serial are N."""
    slot, serial = int(found[1]), int(found[2] or found[1])
    return f'"{octets(slot, 8)}{octets(serial, 4)}"'


def with_handles(text: str) -> str:
    return re.sub(r"#([0-9]{1,19})(?:\.([0-9]{1,19}))?", handle_name, text)


def in_full(line: str) -> str:
    """Returns a line with the names of handles and repeated texts in full. A quote that is not closed ends it."""
    parts = line.split('"')
    done = with_handles(parts[0])
    for quoted, behind in zip(parts[1::2], parts[2::2]):
        count, rest = front_number(behind[1:]) or (1, behind) if behind.startswith("*") else (1, behind)
        # a text right behind another continues that one
        front = done[:-1] if done.endswith('"') else done + '"'
        done = f'{front}{quoted * count}"{with_handles(rest)}'
    return done


def add_lines(group: Group, turn: int, is_literal: bool, done: list[str]) -> None:
    indent = FOUR if group.repeats else "  "
    for line in group.lines:
        continues = not is_literal and line.startswith(EIGHT)
        text = line.strip() if continues else line.removeprefix(indent)
        text = counted(text, turn) if group.repeats else text
        text = text if is_literal else in_full(text)
        if continues:
            done.append(f"{done.pop() if done else ''} {text}")
        else:
            done.append(text)


def expand(lines: list[str], is_literal: bool) -> list[str]:
    """Returns the lines of a block in full, without what indents them. Literal lines stay as they are but for
    repetitions."""
    done: list[str] = []
    for group in groups_of(lines):
        for turn in range(group.count):
            add_lines(group, turn, is_literal, done)
    return done
