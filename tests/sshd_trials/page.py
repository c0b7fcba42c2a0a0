"""The lines of docs/OPERATORS.md, and of docs/SECURITY.md, that an operator types, as they are there."""
import re

from record_trials.steps import TOP
from trials import processes

PAGE = TOP / "docs/OPERATORS.md"
SECURITY = TOP / "docs/SECURITY.md"
# Seconds after which the lines of a page hang.
LONG = 120


def lines_of(name, page=PAGE):
    """The block of a page whose first line has `try=NAME`."""
    found = re.search(rf"(?ms)^```sh [^\n]*\btry={name}\n(.*?)^```", page.read_text())
    if not found:
        raise AssertionError(f"{page} has no block try={name}")
    return found[1]


def for_user(text, user, folder):
    """The lines of the page, which has `u` and `/home/u`, for another user."""
    return re.sub(r"(?<=[\s:])u(?=[\s:)])", user, text.replace("/home/u", folder)).replace(" u ", f" {user} ")


def run(text, **options):
    """Runs the lines in a shell, up to the first that fails. Returns the status and what is printed."""
    done = processes.run(["sh", "-e", "-c", text], timeout=LONG, **options)
    return done.returncode, done.stdout


def run_cron(path):
    """Does what cron does with the one line of a file in /etc/cron.d."""
    with open(path, encoding="utf-8") as file:
        words = [it for it in file.read().splitlines() if it and not it.startswith("#")][-1].split(None, 6)
    done = processes.run(["/bin/sh", "-c", words[6]], timeout=LONG, cwd="/root", env={
        "HOME": "/root", "LOGNAME": words[5], "SHELL": "/bin/sh", "PATH": "/usr/bin:/bin"})
    return done.returncode, done.stdout


def is_accepted(said, count):
    """Whether the night accepted so many sessions, with all replies or not, and found the folder as they left it."""
    sessions = f"{count} session{'' if count == 1 else 's'} accepted"
    unanswered = r"(, \d+ of them with unanswered requests)?"
    return re.search(f": {sessions}{unanswered}; the folder is as they left it", said) is not None
