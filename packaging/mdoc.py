"""Text in the language of manual pages, mdoc."""
import datetime
import os
import re
import subprocess
import textwrap
from pathlib import Path

TOP = Path(__file__).resolve().parents[1]


def page_date():
    """Returns the date of a page: that of SOURCE_DATE_EPOCH, as of a package that can be made again, or of the last
    commit, or, without git, of CHANGELOG.md."""
    seconds = os.environ.get("SOURCE_DATE_EPOCH", "")
    if not seconds.isdecimal():
        words = ["git", "-C", str(TOP), "log", "-1", "--format=%ct"]
        try:
            seconds = subprocess.run(words, capture_output=True, text=True, check=True).stdout.strip()
        except (OSError, subprocess.CalledProcessError):
            seconds = (TOP / "CHANGELOG.md").stat().st_mtime
    day = datetime.datetime.fromtimestamp(int(seconds), datetime.timezone.utc)
    return f"{day:%B} {day.day}, {day.year}"


def escaped(line):
    """Returns a line of text as mdoc prints it."""
    line = line.replace("\\", "\\e").replace("-", "\\-").replace("'", "\\(aq").replace("`", "\\(ga")
    return f"\\&{line}" if line.startswith((".", "\\(aq")) else line


def filled(text):
    """Returns the lines of a text, each sentence on lines of its own."""
    return [escaped(line) for it in re.split(r"(?<=[.?!]) +(?=\S)", text)
            for line in textwrap.wrap(it, 64, break_on_hyphens=False)]


def sentence(text):
    """Returns the lines of a text that ends in a full stop."""
    return filled(f"{text.strip().rstrip('.')}.")


def notes(text):
    """Returns the lines of paragraphs, in which lines that are indented stay as they are."""
    lines, is_literal, words = [], False, []
    for line in [*text.splitlines(), None]:
        is_next = line is not None and line.startswith("  ")
        if line is None or is_next or not line.strip():
            lines += filled(" ".join(words))
            words = []
        if is_literal and not is_next:
            lines.append(".Ed")
        if is_next and not is_literal:
            lines.append(".Bd -literal -offset indent")
        is_literal = is_next
        if is_next:
            lines.append(escaped(line[2:]))
        elif line and line.strip():
            words.append(line.strip())
        elif line is not None:
            lines.append(".Pp")
    return [it for it, after in zip(lines, [*lines[1:], ""]) if it != ".Pp" or not after.startswith((".Bd", ".Pp"))]


def sections(text):
    """Returns the lines of sections: a heading in capitals, paragraphs, and items behind `- `, each a list's."""
    lines, is_list = [], False
    for part in re.split(r"\n{2,}|\n(?=- )", text.strip("\n")):
        words, is_item = " ".join(part.split()), part.startswith("- ")
        if is_item != is_list:
            lines.append(".Bl -bullet" if is_item else ".El")
        is_list = is_item
        if is_item:
            lines += [".It", *filled(words[2:])]
        elif words.isupper():
            lines.append(f".Sh {words}")
        else:
            lines += [*([".Pp"] if not lines[-1].startswith(".Sh") else []), *filled(words)]
    return [*lines, *([".El"] if is_list else [])]


def quoted(text):
    """Returns a text inside an argument of zsh's _arguments, which is in single quotes."""
    text = re.sub(r"([\\\[\]:])", r"\\\1", text)
    return text.replace("'", "'\\''")


def chosen_by_zsh(words, value):
    """Returns the action of zsh for a value that is one of these words; with the name `WORD,...` of a list, some."""
    if not words:
        return " "
    return f"_values -s , {quoted(value)} {' '.join(words)}" if value.endswith(",...") else f"({' '.join(words)})"
