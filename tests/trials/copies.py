"""Copies of the scripts, for tests that change some of them or that start them as another user."""
import shutil
from pathlib import Path

TOP = Path(__file__).resolve().parents[2]


def copy_scripts(folder):
    """Copies the scripts into a folder as the repository has them, and returns the folder of the commands."""
    for name in ("clients", "python"):
        shutil.copytree(TOP / name, Path(folder, name), ignore=shutil.ignore_patterns("__pycache__"))
    # by which they know that they are not installed
    Path(folder, ".ci").mkdir()
    Path(folder, ".ci/build").touch()
    return Path(folder, "clients")
