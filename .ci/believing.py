"""What a reader of `audit` or `serve` must believe: the definitions that their clauses reach, by file and by line, as
docs/PROMISES.md counts them."""
import re

from crates import Crates
from editing.definitions import Block, Files, words_of
from texts import TOP

PAGE = TOP / "docs/PROMISES.md"
MAIN = {"audit": ("sftp_audit", "audits.rt"), "serve": ("sftp_server", "serving.rt")}
COUNTS = re.compile(r"- lines that they reach: ([\d,]+) in (\d+) files for `audit`, ([\d,]+) in (\d+) for `serve`; "
                    r"the (\d+) files have ([\d,]+) ")
LISTS = {"both": r"- both: (.*?)\n- ", "audit": r"- `audit` alone: (.*?)\n- ", "serve": r"- `serve` alone: (.*?)\n- "}


def reached_from(files, function):
    """Returns the definitions that the clauses of a function reach."""
    crate, source = MAIN[function]
    file = files.crates.folders[crate] / "src" / source
    clauses = words_of(next(text for name, text in files.contracts(file) if name == function))
    begin = [it for name, path in files.parts(file).imports if name in clauses for it in files.led_to(path)]
    return {it for it in files.reached(begin) if "specs" in it.file.parts}


def lines_of(block: Block, lines: list[str]) -> range:
    """Returns the numbers of the lines of a definition in its file, and of the comment above it."""
    wanted = [it for it in block.text.splitlines() if it]
    start = end = lines.index(wanted[0])
    for it in wanted:
        end = lines.index(it, end) + 1
    while start and lines[start - 1].startswith("--") and not lines[start - 1].startswith("-- ===="):
        start -= 1
    return range(start, end)


def lines_by_file(blocks):
    """Returns how many lines of each file these definitions have."""
    found, texts = {}, {}
    for it in blocks:
        lines = texts.setdefault(it.file, it.file.read_text().splitlines())
        found.setdefault(it.file, set()).update(lines_of(it, lines))
    return {file: len(numbers) for file, numbers in found.items()}


def listed(page, name):
    """Returns the files of a list of the page, each as its crate and its name."""
    found = set()
    text = " ".join(re.search(LISTS[name], page, re.DOTALL)[1].split())
    for names, crate in re.findall(r"((?:`\w+`(?:, | and )?)+) of `(sftp_\w+)`", text):
        found |= {(crate, it) for it in re.findall(r"`(\w+)`", names)}
    return found


def wrong_counts():
    """Finds what the page says otherwise than the sources do."""
    page, files = PAGE.read_text(), Files(Crates())
    audit, serve = (lines_by_file(reached_from(files, it)) for it in MAIN)
    every = audit.keys() | serve.keys()
    counts = (sum(audit.values()), len(audit), sum(serve.values()), len(serve), len(every),
              sum(len(it.read_text().splitlines()) for it in every))
    if tuple(int(it.replace(",", "")) for it in COUNTS.search(page).groups()) != counts:
        said = "{:,} lines in {} files, {:,} in {}; the {} files have {:,}".format(*counts)
        yield f"docs/PROMISES.md: the clauses reach {said}"
    for name, those in (("both", audit.keys() & serve.keys()), ("audit", audit.keys() - serve.keys()),
                        ("serve", serve.keys() - audit.keys())):
        reached = {(it.parent.parent.name, it.stem) for it in those}
        for crate, file in sorted(reached ^ listed(page, name)):
            what = "lacks" if (crate, file) in reached else "has"
            yield f"docs/PROMISES.md: the list of {name} {what} {file} of {crate}"
