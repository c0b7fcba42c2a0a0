"""What is checked of documents without the built program: that links and file names lead to files, that lines are
within 120 columns, and that benches import definitions that are there; and with it of scripts and edits. Each check
yields a line for each mistake."""
import re
import shutil
import subprocess

import scripts
from crates import TOP, Crates
from editing.blocks import wrong_edits

COLUMNS = 120
MANUAL = "packaging/sftpv3.1.in"
# Diaries name files as they were when they were written.
DATED = ("docs/measurements/", "CHANGELOG.md")
# Files that no person writes line by line, and `crates.txt`, in which a crate is a line.
UNBROKEN = re.compile(
    r"\.(cases|edit|sessions|tree|transcript)$|/proofs/|(^|/)(crates|list|edits)\.txt$|^LICENSE$")
# Sources with longer lines, and how many each may have: code that was proved before the check was there.
LONGER = TOP / ".ci" / "longer"


def names():
    """Returns the names of all files and links of the repository, from its top, without what git ignores."""
    words = ["git", "-C", str(TOP), "ls-files", "-z", "--cached", "--others", "--exclude-standard"]
    try:
        listed = subprocess.run(words, stdout=subprocess.PIPE, stderr=subprocess.DEVNULL, check=True).stdout
        return [it for it in listed.decode().split("\0") if it]
    except (OSError, subprocess.CalledProcessError):
        # without git: what builds leave is in folders `out`
        found = [it.relative_to(TOP) for it in TOP.rglob("*")]
        return sorted(str(it) for it in found if it.parts[0] != ".git" and "out" not in it.parts)


def files():
    return [it for it in names() if (TOP / it).is_file() and not (TOP / it).is_symlink()]


def links():
    return [it for it in names() if (TOP / it).is_symlink()]


def text(name):
    return (TOP / name).read_text(errors="replace")


def longer_lines(names):
    """Returns the numbers of the lines that are too long, by file. Lines of a `tactic` attribute are not meant."""
    found = {}
    for name in names:
        if not UNBROKEN.search(name):
            lines = enumerate(text(name).splitlines(), 1)
            found[name] = [number for number, line in lines
                           if len(line) > COLUMNS and not re.match(r"\s*#!?\[tactic\(", line)]
    return {name: numbers for name, numbers in found.items() if numbers}


def wrong_columns(names):
    allowed = dict(reversed(line.split()) for line in LONGER.read_text().splitlines() if not line.startswith("#"))
    for name, numbers in longer_lines(names).items():
        if len(numbers) > int(allowed.get(name, 0)):
            yield f"{name}:{','.join(map(str, numbers))}: more than {COLUMNS} columns"


def without_blocks(page):
    """Returns the lines of a page, those of its blocks of code as empty ones."""
    lines, is_code = [], False
    for line in page.splitlines():
        is_fence = line.lstrip().startswith("```")
        is_code = is_code != is_fence
        lines.append("" if is_fence or is_code else line)
    return lines


def anchors(name):
    """Returns the anchors of a page's headings, as a browser of the repository makes them."""
    heads = [it.lstrip("#").strip().lower() for it in without_blocks(text(name)) if re.match("#+ ", it)]
    return {re.sub(r"[^\w\- ]", "", it).replace(" ", "-") for it in heads}


def wrong_links(pages):
    for name in pages:
        for number, line in enumerate(without_blocks(text(name)), 1):
            for target in re.findall(r"\]\(([^)\s]+)\)", line):
                path, _, anchor = target.partition("#")
                if re.match("[a-z]+:", target):
                    continue
                file = (TOP / name).parent / path if path else TOP / name
                if not file.exists():
                    yield f"{name}:{number}: no file {path}"
                elif anchor and anchor not in anchors(file.resolve().relative_to(TOP)):
                    yield f"{name}:{number}: no heading {target}"


def stands_for(word, names):
    """Returns whether the word names a file or a folder: from the top, or as the last part of a longer name."""
    if re.search(r"[A-Z]{3}|[{}<>$]", re.sub(r"[A-Z]+\.md|README|LICENSE|CHANGELOG|HANDLES", "", word)):
        return True
    if any(TOP.glob(word.rstrip("/"))):
        return True
    part = f"/{word.rstrip('/')}"
    return any(f"/{it}".endswith(part) or f"{part}/" in f"/{it}" for it in names)


def unlisted(pages):
    """Finds pages of docs/ that README.md does not lead to."""
    for name in pages:
        if re.fullmatch(r"docs/[^/]+", name) and f"({name})" not in text("README.md"):
            yield f"README.md: no link to {name}"


def wrong_quotes(pages):
    """Finds blocks ```rust FILE that are not in that file as they stand."""
    for name in pages:
        for found in re.finditer(r"(?ms)^```rust (\S+)\n(.*?)^```", text(name)):
            if found[2] not in text(found[1]):
                yield f"{name}: {found[1]} does not have the lines\n{found[2]}"


def wrong_names(pages, names):
    """Finds words in `code` that look like files of the repository and are none."""
    tops = "|".join(sorted({re.escape(it.split("/")[0]) for it in names if "/" in it} | {"examples"}))
    looks = re.compile(rf"(?:\./)?((?:{tops})/[\w./*{{}}-]+|[\w./*-]+\.(?:rt|antt|md|py|cases))$")
    for name in pages:
        if name.startswith(DATED):
            continue
        for number, line in enumerate(without_blocks(text(name)), 1):
            for word in re.findall(r"`([^`\s]+)`", line):
                found = looks.match(word)
                if found and not stands_for(found[1], names):
                    yield f"{name}:{number}: no file {word}"


def wrong_imports(names):
    """Finds definitions that programs outside crates/ import, where the gate does not look, and that are not there."""
    form = re.compile(r"(?m)^(?:ghost )?use Rattle\.(sftp_\w+)\.specs\.((?!declared)[\w.]+)\.\{([^}]*)\}")
    for name in names:
        if name.startswith(("bench/crates/", "fuzz/crates/")):
            for crate, module, words in form.findall(text(name)):
                path = f"crates/{crate}/specs/{module.replace('.', '/')}.antt"
                has = text(path) if (TOP / path).is_file() else ""
                for word in (it.split(" as ")[0].strip() for it in words.split(",")):
                    if not re.search(rf"\bpub (?:data |record )?{re.escape(word)}\s", has):
                        yield f"{name}: {path} has no {word}"


def wrong_version():
    """Finds a version of the program that does not head CHANGELOG.md, or is not that of the package."""
    number = re.search(r'pub const VERSION: &str = "(.*)";', text("crates/sftp_tool/src/lib.rt"))
    head = re.search(r"(?m)^## ([\d.]+)", text("CHANGELOG.md"))
    if not number or not head or number[1] != head[1]:
        yield (f"CHANGELOG.md: the newest heading, {head and head[1]}, is not the VERSION of the program, "
               f"{number and number[1]}")
    packaged = re.search(r'(?m)^version = "(.*)"', text("pyproject.toml"))
    if number and (not packaged or packaged[1] != number[1]):
        yield f"pyproject.toml: the version is not the VERSION of the program, {number[1]}"
    scripts_of = re.search(r'(?m)^VERSION = "(.*)"', text("python/sftpv3/system/parsers.py"))
    if number and (not scripts_of or scripts_of[1] != number[1]):
        yield f"python/sftpv3/system/parsers.py: VERSION is not that of the program, {number[1]}"


def skipped():
    """Yields a line for each program that is not there, and what is therefore not checked."""
    yield from scripts.skipped()
    if not shutil.which("mandoc"):
        yield "mandoc is not installed: the manual page is not checked"


def wrong_manual():
    if shutil.which("mandoc") and (TOP / MANUAL).is_file():
        words = ["mandoc", "-T", "lint", "-W", "warning", MANUAL]
        ran = subprocess.run(words, cwd=TOP, stdout=subprocess.PIPE, text=True)
        yield from ran.stdout.splitlines()


def mistakes():
    """Returns a line for each mistake of a script, a document or an edit, and what was checked, in words."""
    names, crates = files(), Crates()
    pages = [it for it in names if it.endswith(".md")]
    found = [*scripts.wrong_python(names), *scripts.wrong_types(), *scripts.wrong_shell(names), *scripts.wrong_tests(),
             *wrong_columns(names), *wrong_links(pages), *wrong_names(pages, names), *wrong_quotes(pages),
             *unlisted(pages),
             *wrong_imports(names), *wrong_manual(), *wrong_version(),
             *(it for name in crates.lines for it in wrong_edits(crates, name))]
    count = sum(len(scripts.scripts(names, it)) for it in ("python", "sh", "bash"))
    return found, f"{count} scripts, {len(pages)} documents, the columns of {len(names)} files, and all edits"
