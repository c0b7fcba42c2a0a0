"""Files of cases: each has blocks, which are a keyword line and the lines below it."""
from __future__ import annotations

from dataclasses import dataclass
from pathlib import Path


class Unreadable(Exception):
    """A file that has no cases in their form."""


@dataclass(frozen=True)
class Block:
    """The number of the keyword line in its file, from 1, its keyword, the words behind it, and the lines below."""
    number: int
    keyword: str
    words: str
    lines: list[str]


@dataclass(frozen=True)
class Case:
    file: str
    number: int
    title: str
    blocks: list[Block]


def is_keyword(line: str) -> bool:
    """Returns whether a line is in the first column, and no comment."""
    return line[:1] not in ("", " ", "#")


def blocks_of(lines: list[str]) -> list[Block]:
    found: list[Block] = []
    for number, line in enumerate(lines, 1):
        if is_keyword(line):
            keyword, _, words = line.partition(" ")
            found.append(Block(number, keyword, words, []))
        elif found:
            found[-1].lines.append(line)
    return found


def cases_of(name: str, text: str) -> list[Case]:
    """Returns the cases of a file with this text; Unreadable if a block stands in front of the first."""
    found: list[Case] = []
    for block in blocks_of(text.split("\n")):
        if block.keyword == "case":
            found.append(Case(name, block.number, block.words, []))
        elif found:
            found[-1].blocks.append(block)
        else:
            raise Unreadable(f"{name}:{block.number}: a block in front of the first case")
    return found


def read_cases(name: str) -> list[Case]:
    """Returns the cases of the file of this name; Unreadable if it cannot be read."""
    try:
        return cases_of(name, Path(name).read_text(encoding="utf-8"))
    except (OSError, UnicodeDecodeError) as error:
        raise Unreadable(f"{name}: {error}") from None
