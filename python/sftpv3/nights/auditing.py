"""How a night calls the program: the options of an audit of users' sessions, and what its lines say."""
import os
import re
import subprocess

from sftpv3.nights.records import Failed

# Options by which an audit prints something else, or something before its verdict.
UNREAD = ("--json", "--progress", "--help", "-h")
# What the version says of a program that ./sftpv3 had built without a proof.
NOT_PROVED = b"(not proved)"


def check_proved(program_file):
    """Raises Failed if nothing has proved the program."""
    done = subprocess.run([program_file, "--version"], stdin=subprocess.DEVNULL, stdout=subprocess.PIPE, check=False)
    if NOT_PROVED in done.stdout:
        raise Failed(f"{program_file} is not proved, and a night's verdicts are those of the proved program")


def usual(program_file):
    """The options of an audit of users' sessions, as far as the program has them: the words of each. The system gives
    what is made in a folder with the set-gid bit the folder's group."""
    done = subprocess.run([program_file, "help", "audit"], stdout=subprocess.PIPE, check=False)
    if done.returncode:
        # sessions are not judged by fewer options than the program has
        raise Failed(f"{program_file} help audit ended with status {done.returncode}")
    text = done.stdout.decode()
    profile = "posix-user" if "posix-user" in text else "posix"
    return [["--profile", profile], *[["--cut"]] * ("--cut" in text),
            *[["--new-owner", "posix"]] * ("group, posix" in text)]


def options_of(program_file, given):
    """The options of an audit: those that are given, and the usual ones in whose place none of them is. A profile takes
    the place of all of these."""
    names = {it.partition("=")[0] for it in given}
    if "--profile" in names:
        return list(given)
    return [word for words in usual(program_file) if words[0] not in names for word in words] + given


class WrongOption(Exception):
    """An option behind `--` that the program does not take, and what it says of it."""


def try_options(program_file, options):
    """Raises WrongOption before anything is made by them. The program reads its options first; there are no files."""
    for name in UNREAD:
        if name in options:
            raise WrongOption(f"{name}: a night reads nothing but the verdict that an audit prints for people")
    words = [program_file, "audit", *options, "--explain"]
    for name in ("--tree", "--transcript", "--out"):
        words += [name, os.path.join(os.devnull, "none")]
    done = subprocess.run(words, stdin=subprocess.DEVNULL, stdout=subprocess.DEVNULL, stderr=subprocess.PIPE,
                          check=False)
    if done.returncode == 2:
        raise WrongOption(done.stderr.decode(errors="replace").partition("\n")[0].removeprefix("error: "))


def named(lines, given, name):
    """What the program said of a record, by its name and not by the one that the program was given."""
    opening = f"sftpv3: {given} "
    return [f"sftpv3: {name} {it[len(opening):]}" if it.startswith(opening) else it
            for it in lines if it != f"sftpv3: file: {given}"]


def said_of_unanswered(first):
    """Lines on what is known of an accepted session in which requests have no reply, by the line of the audit, and the
    status: the record does not have which of its two ends went first. Where later requests have replies, nobody knows
    whether these are right."""
    found = re.search(r", (\d+) unanswered(?:, (\d+) not judged)?", first)
    if not found:
        return [], 0
    later = f", and has its replies to {found[2]} later ones" if found[2] else ""
    return [f"the record ends before the server's reply to {found[1]} request{'s' * (found[1] != '1')}{later}: its "
            "client or the server went first; if it was the server, the recorder's log says how"], int(bool(found[2]))
