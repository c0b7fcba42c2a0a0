"""What is checked of scripts without the built program: that they can be read, and what the tools that are installed
find in them. Each check yields a line for each mistake."""
import ast
import os
import re
import shutil
import subprocess
import sys
from collections.abc import Iterator

from crates import TOP

# What reads scripts in Python for mistakes, not for their layout: the first of these that is installed.
READERS = (["ruff", "check", "--quiet", "--no-cache", "--config", "pyproject.toml"], ["pyflakes3"], ["pyflakes"])

# What checks types, with the settings of pyproject.toml, and the layers of the package that are checked.
TYPES, TYPED = ["mypy", "--no-error-summary", "--cache-dir=/dev/null"], ("codec",)

# Most files, which are not looked into for a first line.
NO_SCRIPTS = (".antt", ".edit", ".rt")


def first_line(name: str) -> bytes:
    with (TOP / name).open("rb") as file:
        return file.readline(80)


def scripts(names: list[str], kind: str) -> list[str]:
    """Returns the scripts whose first line names an interpreter of this kind, and for Python its modules."""
    heads = {it: first_line(it) for it in names if not it.endswith(NO_SCRIPTS)}
    is_script = re.compile(rb"#!.*\b" + kind.encode() + rb"[0-9.]*( -IS?)?\s*$")
    return [it for it, head in heads.items() if is_script.match(head) or kind == "python" and it.endswith(".py")]


def said(words: list[str], **settings: str) -> list[str]:
    """Returns what a command says of what it refuses, with these settings in its environment."""
    ran = subprocess.run(words, cwd=TOP, env={**os.environ, **settings}, stdin=subprocess.DEVNULL,
                         stdout=subprocess.PIPE, stderr=subprocess.STDOUT, text=True)
    lines = ran.stdout.splitlines() or [f"{' '.join(words[:2])} ended with status {ran.returncode}"]
    return lines if ran.returncode else []


def reader() -> list[str]:
    """Returns the command that reads scripts in Python, or nothing if none is installed."""
    return next((it for it in READERS if shutil.which(it[0])), [])


def is_meant(mistake: str) -> bool:
    """Returns whether the line of a mistake is marked by `noqa`, which ruff heeds and pyflakes does not know."""
    place = re.match(r"([^:]+):(\d+):", mistake)
    return bool(place) and "# noqa" in (TOP / place[1]).read_text().splitlines()[int(place[2]) - 1]


def wrong_python(names: list[str]) -> Iterator[str]:
    found = scripts(names, "python")
    wrong = False
    for name in found:
        try:
            compile((TOP / name).read_text(errors="replace"), name, "exec")
        except SyntaxError as error:
            wrong = True
            yield f"{name}:{error.lineno}: {error.msg}"
    yield from too_new([it for it in found if it.startswith(INSTALLED)])
    if found and reader() and not wrong:
        yield from (it for it in said([*reader(), *found]) if not is_meant(it))


# What is installed is among these; the oldest version of Python that reads it; and names that only later ones have.
INSTALLED = ("clients/", "packaging/", "python/sftpv3/", "tests/")
OLDEST = (3, 9)
LATER = {"F_SETPIPE_SZ", "F_GETPIPE_SZ", "pairwise", "file_digest", "StrEnum", "UTC"}


def annotations_of(node: ast.AST) -> Iterator[ast.expr]:
    if isinstance(node, (ast.FunctionDef, ast.AnnAssign)):
        given = [it.annotation for it in ast.walk(node.args) if isinstance(it, ast.arg)] \
            if isinstance(node, ast.FunctionDef) else [node.annotation]
        yield from filter(None, [*given, getattr(node, "returns", None)])


def has_union(annotation: ast.expr) -> bool:
    return any(isinstance(it, ast.BinOp) and isinstance(it.op, ast.BitOr) for it in ast.walk(annotation))


def too_new(names: list[str]) -> Iterator[str]:
    """Finds what the oldest version of Python does not read, or has not. Unions are read there if nobody asks for
    annotations."""
    for name in scripts(names, "python"):
        try:
            tree = ast.parse((TOP / name).read_text(errors="replace"), name, feature_version=OLDEST)
        except SyntaxError as error:
            yield f"{name}:{error.lineno}: {error.msg}"
            continue
        is_later = any(isinstance(it, ast.ImportFrom) and it.module == "__future__" for it in tree.body)
        for node in ast.walk(tree):
            if isinstance(node, ast.Attribute) and node.attr in LATER:
                yield f"{name}:{node.lineno}: {node.attr} is not in Python {OLDEST[0]}.{OLDEST[1]}"
            if not is_later and any(map(has_union, annotations_of(node))):
                yield f"{name}:{node.lineno}: a union in an annotation, without `from __future__ import annotations`"


def wrong_types() -> list[str]:
    """Finds mistakes of types in the layers that the others stand on."""
    return said([*TYPES, *(f"python/sftpv3/{it}" for it in TYPED)]) if shutil.which(TYPES[0]) else []


def wrong_shell(names: list[str]) -> Iterator[str]:
    found = [*scripts(names, "sh"), *scripts(names, "bash")]
    if found and shutil.which("shellcheck"):
        yield from said(["shellcheck", "--format=gcc", *found])
    else:
        for name in found:
            yield from said(["sh", "-n", name])


# Where the tests in .ci/tests find what they try.
FOUND_IN = (".ci", "python", "cases", "fuzz", "packaging", "tests")


def wrong_tests() -> list[str]:
    """Runs the tests in .ci/tests and tests/test-sftp3, which need neither the program nor the prover."""
    of_codec = said([sys.executable, "-B", "tests/test-sftp3"])
    words = [sys.executable, "-B", "-m", "unittest", "discover", "-s", ".ci/tests"]
    return [*said(words, PYTHONPATH=":".join(str(TOP / it) for it in FOUND_IN)),
            *(f"tests/test-sftp3: {it}" for it in of_codec if not it.startswith("ok: "))]


def skipped() -> Iterator[str]:
    """Yields a line for each program that is not there, and what is therefore not checked."""
    if not reader():
        yield "neither ruff nor pyflakes is installed: of scripts in Python only the syntax is checked"
    if not shutil.which(TYPES[0]):
        yield "mypy is not installed: types are not checked"
    if not shutil.which("shellcheck"):
        yield "shellcheck is not installed: of shell scripts only the syntax is checked"
