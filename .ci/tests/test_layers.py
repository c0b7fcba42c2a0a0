"""The package python/sftpv3 is in layers: each imports only itself and those below it, also within functions; no module
imports one that imports it; no script changes `sys.path`; and no folder has a link, which `rt ci` refuses."""
import ast
import re
import sys
import unittest
from collections.abc import Iterator
from pathlib import Path

import scripts
import texts
from crates import TOP

sys.dont_write_bytecode = True
PACKAGE = "sftpv3"
# From the lowest on.
LAYERS = ("codec", "system", "spool", "recorder", "nights", "serve", "proxy", "tree", "together", "audits", "logs",
          "peer", "faults", "page", "walk", "probe", "servers", "commands")


def modules(top: Path) -> dict[str, ast.Module]:
    """The modules below a folder, by the names under which they are imported."""
    found = {}
    for file in sorted((top / PACKAGE).rglob("*.py")):
        parts = file.relative_to(top).with_suffix("").parts
        found[".".join(parts[:-1] if parts[-1] == "__init__" else parts)] = ast.parse(file.read_text(), str(file))
    return found


def imported(tree: ast.Module) -> Iterator[tuple[int, str]]:
    """The line of each import and what it names: a module, or something in one."""
    for node in ast.walk(tree):
        if isinstance(node, ast.Import):
            yield from ((node.lineno, it.name) for it in node.names)
        elif isinstance(node, ast.ImportFrom):
            name = "." * node.level + (node.module or "")
            yield from ((node.lineno, f"{name}.{it.name}") for it in node.names)


def module_of(name: str, known: dict) -> str:
    """The module that an import of this name reads: the longest part of it that is one."""
    while name not in known and "." in name:
        name = name.rpartition(".")[0]
    return name


def layer_of(name: str) -> str:
    return name.split(".")[1] if "." in name else ""


def wrong_layers(known: dict, layers: tuple = LAYERS) -> Iterator[str]:
    for name, tree in known.items():
        if name != PACKAGE and layer_of(name) not in layers:
            yield f"{name}: it is in no layer"
            continue
        for line, what in imported(tree):
            if what.startswith("."):
                yield f"{name}:{line}: {what} is not absolute"
            elif what.split(".")[0] != PACKAGE:
                if what.split(".")[0] not in sys.stdlib_module_names:
                    yield f"{name}:{line}: {what} is not of the standard library"
            elif layers.index(layer_of(module_of(what, known))) > layers.index(layer_of(name)):
                yield f"{name}:{line}: {what} is in a layer above"


def cycle(known: dict) -> list[str]:
    """Modules that import each other in a circle, or nothing."""
    below = {name: {module_of(it, known) for _, it in imported(tree) if it.split(".")[0] == PACKAGE} - {name}
             for name, tree in known.items()}
    # what imports nothing that is left is in no circle
    while done := [name for name, names in below.items() if not names & below.keys()]:
        for name in done:
            del below[name]
    path = list(below)[:1]
    while path and path[-1] not in path[:-1]:
        path.append(min(below[path[-1]] & below.keys()))
    return path[path.index(path[-1]):] if path else []


def names_of(tree: ast.Module) -> set[str]:
    """What a module has at its top, also below an `if` or a `try` there."""
    found = {it.name for it in ast.walk(tree) if isinstance(it, (ast.FunctionDef, ast.ClassDef))}
    found |= {it.id for it in ast.walk(tree) if isinstance(it, ast.Name) and isinstance(it.ctx, ast.Store)}
    return found | {(it.asname or it.name).split(".")[0] for node in ast.walk(tree)
                    if isinstance(node, (ast.Import, ast.ImportFrom)) for it in node.names}


def missing(known: dict, trees: dict) -> Iterator[str]:
    """What these files take from modules of the package that do not have it."""
    has = {name: names_of(tree) for name, tree in known.items()}
    for name, tree in trees.items():
        modules = {}
        for node in ast.walk(tree):
            if isinstance(node, ast.ImportFrom) and (node.module or "").split(".")[0] == PACKAGE:
                for it in node.names:
                    what = f"{node.module}.{it.name}"
                    if what in known:
                        modules[it.asname or it.name] = what
                    elif it.name not in has.get(node.module, ()):
                        yield f"{name}:{node.lineno}: there is no {what}"
        for node in ast.walk(tree):
            if isinstance(node, ast.Attribute) and isinstance(node.value, ast.Name) and node.value.id in modules:
                what = f"{modules[node.value.id]}.{node.attr}"
                if what not in known and node.attr not in has[modules[node.value.id]] | {"__name__", "__file__"}:
                    yield f"{name}:{node.lineno}: there is no {what}"


def changed_paths(text: str) -> list[int]:
    """The lines that name sys.path, but for comments."""
    return [number for number, line in enumerate(text.splitlines(), 1) if re.search(r"sys\.path\b", line.split("#")[0])]


class Layers(unittest.TestCase):
    def test_each_layer_imports_only_those_below_it(self):
        known = modules(TOP / "python")
        self.assertGreater(len(known), 80)
        self.assertEqual([*wrong_layers(known)], [])

    def test_no_modules_import_each_other(self):
        self.assertEqual(cycle(modules(TOP / "python")), [])

    def test_what_scripts_take_from_the_package_is_there(self):
        trees = {it: ast.parse((TOP / it).read_text()) for it in scripts.scripts(texts.files(), "python")}
        self.assertEqual([*missing(modules(TOP / "python"), trees)], [])

    def test_no_script_changes_where_modules_are_searched(self):
        found = []
        for name in scripts.scripts(texts.files(), "python"):
            text = (TOP / name).read_text(errors="replace")
            # also in code that a test runs in a process of its own; this file has it for its own test
            if "sys.path" in text and Path(name).name != Path(__file__).name:
                found += [f"{name}:{it}" for it in changed_paths(text)]
        self.assertEqual(found, [])

    def test_no_link_is_below_a_folder(self):
        self.assertEqual([it for it in texts.links() if "/" in it], [])

    def test_mistakes_are_found(self):
        known = {name: ast.parse(text) for name, text in {
            "sftpv3": "", "sftpv3.low": "", "sftpv3.low.a": "def f():\n    from sftpv3.high import b",
            "sftpv3.high": "", "sftpv3.high.b": "from sftpv3.low import a", "sftpv3.low.c": "from . import a",
            "sftpv3.low.d": "import trials", "sftpv3.other": "", "sftpv3.high.e": "import sftpv3.low.a, os"}.items()}
        self.assertEqual([*wrong_layers(known, ("", "low", "high"))], [
            "sftpv3.low.a:2: sftpv3.high.b is in a layer above", "sftpv3.low.c:1: ..a is not absolute",
            "sftpv3.low.d:1: trials is not of the standard library", "sftpv3.other: it is in no layer"])
        self.assertEqual(cycle(known), ["sftpv3.low.a", "sftpv3.high.b", "sftpv3.low.a"])
        self.assertEqual(cycle({it: known[it] for it in known if it != "sftpv3.low.a"}), [])
        taking = ast.parse("from sftpv3.low import a, z\na.f()\na.g()\n")
        self.assertEqual([*missing(known, {"x": taking})], ["x:1: there is no sftpv3.low.z",
                                                            "x:3: there is no sftpv3.low.a.g"])
        self.assertEqual(changed_paths("import sys\n# sys.path\nsys.path.insert(0, 'x')\nos.path.join()"), [3])


if __name__ == "__main__":
    unittest.main()
