"""Attacks by the command lines of the installed scripts, and by what a script has from the process that starts it:
standard descriptors that are closed, signals that are ignored or blocked, limits, the mask of permissions, the
environment, a working directory that is gone. None of these changes a verdict."""
import os
import re
import resource
import signal
import subprocess
import sys
from pathlib import Path

from attacking.ground import CLIENTS, SECONDS, attack, environment
from attacking.saving import HELLO, OPENED
from sftpv3.codec import BEGUN, CLIENT, SERVER, init, put_records, request, status
from sftpv3.system.program import TOP, program
from trials.processes import limited

COMMANDS = ("nightly", "page", "probe", "record", "recordd", "serve", "tree", "walk")
SERVERS = ("servers/any", "servers/gesftpserver", "servers/openssh")
OPTION = re.compile(r"(?m)^  (?:-\w(?: \w+)?, )?(--[a-z-]+)( [A-Z])?")

# Line feeds, signs that a terminal acts on or that hide others, in ASCII and beyond it, and a byte that is no UTF-8.
NAME = "x\naccepted 5 requests\n\x1b[2J\x7f\u009b\u202e\u2028\udcff"
# How the probe finds differences: the server starts from another tree than the one that it is given.
DIFFERING = ["--seeds", "1", "--requests", "3", "--jobs", "1", "--budget", "0", "--skip", "transfers", "--",
             "env", "GIVEN={tree}"]
# What takes no options behind its arguments.
BEFORE = ("probe", "record", "walk")
SERVE = ["serve", "--tree", "start.tree"]
CLOSED = ((0,), (1,), (2,), (0, 1, 2))


def ordinary(field):
    """A command line of each script that is in order, without the script."""
    for it in ("live", "kept", "state"):
        os.makedirs(field.path(it), exist_ok=True)
    field.blank("start.tree")
    field.put("session", OPENED)
    server = [program(), "serve", "--tree", "start.tree"]
    return {
        "nightly": ["--records", "kept", "--state", "state", "--chroot", "root", "live"],
        "page": ["--tree", "start.tree", "session"],
        "probe": ["--", "/bin/false", "{tree}"],
        "record": ["record", *server],
        "recordd": ["live-not"],
        "serve": ["--program", program(), "--tree", "start.tree"],
        "tree": ["--chroot", "live", "--out", "live.tree"],
        "walk": ["--to", "seen.tree", "--", *server],
    }


def hostile_lines(field):
    """Yields scripts and command lines that have the hostile name in each place where a word can be."""
    for script, rest in ordinary(field).items():
        told = field.call(script, "--help", env=environment(COLUMNS="200")).stdout.decode()
        audit = ["--audit", "--tree", "start.tree"] if script == "record" else []
        yield script, [f"--{NAME}", *rest]
        for option in [it for it, value in OPTION.findall(told) if value]:
            for given in ([option, NAME], [f"{option}=none/{NAME}"]):
                yield script, [*audit, *given, *rest] if script in BEFORE else [*rest, *given]
        for place, word in enumerate(rest):
            if not word.startswith("-") and word != program():
                yield script, [*rest[:place], f"absent/{NAME}", *rest[place + 1:]]
        yield script, [*rest, NAME] if script != "probe" else ["--keep", NAME, *DIFFERING, program(), *SERVE]
    for script in SERVERS:
        yield script, [NAME]
        yield script, [NAME, NAME]
        yield script, ["start.tree", NAME]


def is_bad(line):
    """Whether a line passes for a verdict, or does anything to a terminal."""
    try:
        text = line.decode("utf-8")
    except UnicodeDecodeError:
        return True
    return text.startswith("accepted 5") or any(not it.isprintable() for it in text)


@attack()
def a_word_of_a_command_line_acts_on_a_terminal(field):
    """Whatever a word of a command line is, what a script says of it is lines without control characters."""
    for script, words in hostile_lines(field):
        done = field.call(script, *words, env=environment(COLUMNS="200"))
        for line in (done.stdout + done.stderr).split(b"\n"):
            if is_bad(line):
                yield f"{script} {ascii(words)}: {line[:200]!r}"
                break
        if b"Traceback" in done.stderr:
            yield f"{script} {ascii(words)}: {done.stderr[-200:]!r}"


def redirected(words, files, to):
    """The words of a shell that starts a command with some standard descriptors closed, or open on /dev/null."""
    ways = " ".join(f"{it}{'<' if it == 0 else '>'}{to}" for it in files)
    return ["/bin/sh", "-c", f'exec "$@" {ways}', "sh", *words]


def made(folder):
    """The names and the bytes of what a run left."""
    return {str(it.relative_to(folder)): it.read_bytes() for it in Path(folder).rglob("*") if it.is_file()}


def writing(field):
    """Yields for each script a command line by which it writes files into the folder `made`."""
    server = [program(), "serve", "--tree", "../start.tree", "--save", "saved", "--record", "its-record"]
    yield "nightly", ["--records", "../kept", "--state", ".", "--chroot", "root", "../live"]
    yield "page", ["--tree", "../start.tree", "-o", "page", "../session"]
    yield "probe", ["--keep", "kept", "--report", "run.json", *DIFFERING, *server]
    yield "record", ["--times", "times", "--log", "log", "record", *server]
    yield "record", ["--audit", "--tree", "../start.tree", "--program", program(), "--out", "out", "record", *server]
    yield "serve", ["--program", program(), "--tree", "../start.tree", "--save", "saved", "--record", "record"]
    yield "serve", ["--program", program(), "--tree", "../start.tree", "--save", "none/saved", "--log", "log"]
    yield "tree", ["--chroot", "--out", "live.tree", "../live"]
    yield "tree", ["--chroot", "--out", "none/live.tree", "../live"]
    yield "walk", ["--to", "seen.tree", "--session", "walked", "--", program(), "serve", "--tree", "../start.tree"]


def left_by(field, script, words, shell_words):
    """The status of a run in a folder of its own, and what it left there, without times and numbers of processes."""
    folder = field.path("made")
    os.mkdir(folder)
    try:
        done = subprocess.run(shell_words([os.path.join(CLIENTS, script), *words]), cwd=folder, env=environment(),
                              input=init(), stdout=subprocess.DEVNULL, stderr=subprocess.DEVNULL,
                              timeout=SECONDS)
        changing = rb"\d{4}-\d\d-\d\dT[\d:]+Z|\[\d+\]|\d+\.\d+|serve-[0-9a-f]{16}"
        left = {name: len(data) if name == "times" else re.sub(changing, b"", data)
                for name, data in made(folder).items()}
        return done.returncode, left
    finally:
        subprocess.run(["rm", "-r", folder], check=True)


@attack()
def a_closed_descriptor_takes_a_file(field):
    """Where standard descriptors are closed, each script does what it does where they lead to /dev/null: no file that
    it or its server opens takes their place, and then packets or messages."""
    ordinary(field)
    for script, words in writing(field):
        for files in CLOSED:
            wanted = left_by(field, script, words, lambda it: redirected(it, files, "/dev/null"))
            found = left_by(field, script, words, lambda it: redirected(it, files, "&-"))
            if found != wanted:
                yield f"{script} {' '.join(words[:3])} without {files}: {found} in place of {wanted}"[:600]


@attack()
def a_limit_of_open_files_ends_in_a_traceback(field):
    """Where the system lets a script open few files, it says so in a line, as its interpreter does that starts it."""
    os.mkdir(field.path("made"))
    lines = [(script, words, field.folder) for script, words in ordinary(field).items()]
    lines += [(script, words, field.path("made")) for script, words in writing(field)]
    lines += [(script, ["start.tree", "/bin/cat"], field.folder) for script in SERVERS]
    for most in (4, 5, 6, 7, 9):
        for script, words, folder in lines:
            # as the installed ones start
            call_of = ["/usr/bin/python3", "-IS", os.path.join(CLIENTS, script), *words]
            done = subprocess.run(call_of, cwd=folder, env=environment(), input=init(), capture_output=True,
                                  timeout=SECONDS, preexec_fn=limited(resource.RLIMIT_NOFILE, most))
            is_said = done.stderr or "--log" in words or not done.returncode
            if b"Traceback" in done.stderr or b"Fatal" in done.stderr or not is_said:
                yield f"{script} {' '.join(words[:3])}, {most} files: {done.returncode}, {done.stderr[-200:]!r}"


@attack(is_small=True)
def a_closed_descriptor_of_the_checkout_s_program(field):
    """The script `sftpv3` of the repository, too, gives the program three descriptors that are open."""
    os.mkdir(field.path("out"))
    script = field.put("sftpv3", Path(TOP, "sftpv3").read_bytes(), 0o755)
    field.put("out/sftpv3.built", b"")
    looking = f"#!{sys.executable} -I\nimport os\nfor it in range(3):\n    os.fstat(it)\n"
    field.put("out/sftpv3", looking.encode(), 0o755)
    for files in CLOSED:
        done = subprocess.run(redirected([script], files, "&-"), stdin=subprocess.DEVNULL, stderr=subprocess.DEVNULL,
                              stdout=subprocess.DEVNULL, timeout=SECONDS)
        if done.returncode:
            yield f"without {files}: status {done.returncode}"


REFUSED = put_records([*BEGUN, (CLIENT, request(1, "REMOVE", b"/absent")), (SERVER, status(1, 0))])
# What has no verdict ends with this status.
NONE = 3


def refusals(field):
    """Command lines whose verdict is not the good one, as words with FRESH for a name that is free; how each is to
    end, and a part of what it is to print."""
    start, live = field.blank(), field.path("live")
    refused = field.put("refused", REFUSED)
    server = [program(), "serve", "--tree", start]
    yield "page", ["--tree", start, "-o", "FRESH", refused], 0, b"refused"
    yield "probe", ["--keep", "FRESH", *DIFFERING, *server], 1, b""
    yield "walk", ["--to", "FRESH", "--", "/bin/false"], 3, b""
    yield "walk", ["--to", "FRESH", "--", program(), "--version"], 3, b""
    yield "tree", ["--chroot", "--out", os.path.join(live, "new.tree"), live], 2, b"would be within"
    yield "record", ["FRESH", "/bin/false"], 1, b""
    yield "serve", ["--program", program(), "--tree", field.path("absent")], 3, b""
    yield "nightly", ["--records", field.path("kept"), "--state", field.path("state"), "--chroot", "root", live], 1, \
        b"something else changed"


def night_is_begun(field):
    """The first night of a folder, which has something new afterwards."""
    for it in ("live", "kept"):
        os.mkdir(field.path(it))
    call_installed(field, "nightly", ["--records", "kept", "--state", "state", "--chroot", "root", "live"])
    state = field.path("state/root")
    subprocess.run(["cp", "-a", state, field.path("state.before")], check=True)
    field.put("live/new", b"")


def call_installed(field, script, words, **options):
    """Runs a script to its end, each time from the same night on."""
    if os.path.exists(field.path("state.before")):
        subprocess.run("rm -rf state/root && cp -a state.before state/root", shell=True, check=True, cwd=field.folder)
    # as the installed ones start
    return subprocess.run(["/usr/bin/python3", "-IS", os.path.join(CLIENTS, script), *words], timeout=SECONDS,
                          stdout=subprocess.PIPE, stderr=subprocess.STDOUT, input=HELLO,
                          **{"env": environment(), "cwd": field.folder, **options})


def with_all_blocked():
    signal.pthread_sigmask(signal.SIG_BLOCK, signal.valid_signals())


def with_all_ignored():
    for number in signal.valid_signals() - {signal.SIGKILL, signal.SIGSTOP}:
        signal.signal(number, signal.SIG_IGN)


def without_files():
    signal.signal(signal.SIGXFSZ, signal.SIG_IGN)
    limited(resource.RLIMIT_FSIZE, 0)()


def nowhere():
    os.mkdir("gone")
    os.chdir("gone")
    os.rmdir("../gone")


STATES = {
    "SIGCHLD is ignored": {"preexec_fn": lambda: signal.signal(signal.SIGCHLD, signal.SIG_IGN)},
    "all signals are blocked": {"preexec_fn": with_all_blocked},
    "all signals are ignored": {"preexec_fn": with_all_ignored},
    "no file may have a byte": {"preexec_fn": without_files},
    "files may have 100 bytes": {"preexec_fn": limited(resource.RLIMIT_FSIZE, 100)},
    "few files may be open": {"preexec_fn": limited(resource.RLIMIT_NOFILE, 12)},
    "the mask is 0777": {"preexec_fn": lambda: os.umask(0o777)},
    "the working directory is gone": {"preexec_fn": nowhere},
    "the language is another": {"env": {"LC_ALL": "tr_TR.ISO-8859-9", "LANGUAGE": "de", "PYTHONIOENCODING": "ascii"}},
    "Python is told otherwise": {"env": {"PYTHONOPTIMIZE": "2", "PYTHONSTARTUP": "/absent", "PYTHONWARNINGS": "error",
                                         "PYTHONDEVMODE": "1"}},
    "temporary files have no place": {"env": {"TMPDIR": "/absent"}},
}


def tried(field, state, options, given):
    """One refusal in one state. A script may have no verdict, and then says so."""
    script, words, wanted, part = given
    fresh = field.path(f"fresh-{len(field.names())}")
    if "env" in options:
        options = {"env": environment(**options["env"])}
    done = call_installed(field, script, [fresh if it == "FRESH" else it for it in words], **options)
    said = done.stdout
    if script == "page" and done.returncode == 0:
        said += Path(fresh).read_bytes()
    is_as_ever = done.returncode == wanted and part in said
    if b"Traceback" in said or not is_as_ever and not (done.returncode == NONE and said):
        yield f"{state}: {script} {' '.join(words[:2])}: status {done.returncode}, not {wanted}: {said[-300:]!r}"


@attack()
def what_a_script_inherits_changes_its_verdict(field):
    """In whatever state a script starts, what it refuses is refused, or there is no verdict."""
    night_is_begun(field)
    lines = list(refusals(field))
    for state, options in {"as ever": {}, **STATES}.items():
        for given in lines:
            yield from tried(field, state, options, given)
