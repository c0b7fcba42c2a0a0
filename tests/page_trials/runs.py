"""Runs clients/page, and reads what it wrote."""
import os
import re
import subprocess
from pathlib import Path

from sftpv3.system.program import TOP


def page(*words, folder=None, **options):
    """The status of clients/page, and what it printed."""
    done = subprocess.run([os.path.join(TOP, "clients", "page"), *map(str, words)], cwd=folder, check=False,
                          stdin=subprocess.DEVNULL, capture_output=True, **options)
    return done.returncode, (done.stdout + done.stderr).decode(errors="replace")


def text_of(name):
    return Path(name).read_text(encoding="utf-8")


def of_set(folder, *words, records="set", out="set.html"):
    """The status of a page of the set in a folder, what was printed, and the text of the page."""
    name = os.path.join(folder, out)
    status, said = page(os.path.join(folder, records), "-o", name, *words)
    return status, said, text_of(name) if os.path.exists(name) else ""


def rows_of(text):
    """The rows of a page of a set: for each the row of the grid, the place in the order, and the words that are marked
    as wrong, by its id."""
    found = {}
    rows = r'<li class="row[^"]*" id="(s-[0-9-]+)"[^>]*style="grid-row:(\d+)">(.*?)</summary>'
    for name, row, rest in re.findall(rows, text):
        place = re.search(r'<span class="unseen">place </span>([\d,]+)', rest)
        found[name] = (int(row), place and int(place[1].replace(",", "")),
                       re.findall(r'<em class="wrong">([^<]*)</em>', rest))
    return found


def bars_of(text):
    """The first and the last row, and the lane, of each bar, by the number of its request."""
    return {int(number): (int(start), int(end) - 1, int(lane)) for number, start, end, lane in re.findall(
        r'<li class="bar[^"]*"[^>]*data-x="(\d+)" style="grid-row:(\d+)/(\d+);grid-column:(\d+)"', text)}
