"""What is checked with a built program: of ./install what it writes, that it says all that the help says, and that it
takes everything away again; and the small ones of fuzz/attacks, which need no other user."""
import os
import pty
import pwd
import re
import select
import shutil
import signal
import subprocess
import sys
import time

from texts import TOP

# The scripts with texts of their own.
SCRIPTS = ("sftpv3-audits", "sftpv3-fault", "sftpv3-import-log", "sftpv3-nightly", "sftpv3-page", "sftpv3-probe",
           "sftpv3-record", "sftpv3-recordd", "sftpv3-serve", "sftpv3-together", "sftpv3-tree", "sftpv3-walk")
# What reads a part of what is installed, and which part that is.
TOOLS = {"mandoc": "manual pages", "bash": "completions of bash", "zsh": "completions of zsh",
         "dpkg-deb": "the Debian package", "lintian": "what is wrong with the Debian package"}
INIT = bytes.fromhex("000000050100000003")


def called(words, program):
    """Runs a command of the repository with this program. Returns its status, and what it printed."""
    ran = subprocess.run([str(it) for it in words], cwd=TOP, env={**os.environ, "SFTPV3": str(program), "DESTDIR": ""},
                         stdin=subprocess.DEVNULL, stdout=subprocess.PIPE, stderr=subprocess.STDOUT)
    return ran.returncode, ran.stdout.decode(errors="replace")


def files_below(folder):
    return sorted(str(it.relative_to(folder)) for it in folder.rglob("*") if not it.is_dir())


def wrong_texts(program, share):
    """Finds options and subcommands of the help that the manual page or a completion lacks."""
    help_text = called([program, "help"], program)[1]
    names = re.findall(r"(?m)^  ([a-z]+)  ", help_text)
    if not names:
        yield "install: `sftpv3 help` lists no subcommands"
    words = {it: {it, *re.findall(r"(?m)^ .*?(--[a-z-]+)", called([program, "help", it], program)[1])} for it in names}
    for file in ("man/man1/sftpv3.1", "bash-completion/completions/sftpv3", "zsh/site-functions/_sftpv3"):
        text = (share / file).read_text().replace("\\-", "-").replace("Fl -", "--")
        is_manual = file.startswith("man")
        for word in sorted({word for it in names for word in words[it]} - ({"help", "--help"} if is_manual else set())):
            if not re.search(rf"(?<![\w-]){re.escape(word)}(?![\w-])", text):
                yield f"install: {file} lacks {word}"


def alone(words, room):
    """Runs an installed script as a user would who has set traps: modules of the user that must not run."""
    traps = room / "traps"
    for name in ("sftpv3.py", "usercustomize.py", "argparse.py", "os.py"):
        (traps / "packages").mkdir(parents=True, exist_ok=True)
        (traps / "packages" / name).write_text(f"open({str(room / 'sprung')!r}, 'w')\n")
    environment = {"PATH": os.environ.get("PATH", os.defpath), "HOME": str(traps), "LC_ALL": "C.UTF-8",
                   "PYTHONPATH": str(traps / "packages"), "PYTHONUSERBASE": str(traps), "COLUMNS": "200"}
    ran = subprocess.run([str(it) for it in words], cwd=traps / "packages", env=environment,
                         stdin=subprocess.DEVNULL, stdout=subprocess.PIPE, stderr=subprocess.STDOUT)
    return ran.returncode, ran.stdout.decode(errors="replace")


def wrong_script_texts(prefix, room):
    """Finds options of the help of a script that its manual page or a completion lacks."""
    for name in SCRIPTS:
        status, help_text = alone([prefix / "bin" / name, "--help"], room)
        words = set(re.findall(r"(?m)^  (?:-\w(?: \w+)?, )?(--[a-z-]+)", help_text)) - {"--help"}
        if status or len(words) < 5 or not help_text.startswith(f"usage: {name}"):
            yield f"install: {name} --help ended with status {status}: {help_text}"
        page = (prefix / "share/man/man1" / f"{name}.1").read_text()
        yield from (f"install: man1/{name}.1 has {it}, which is not installed" for it in
                    re.findall(rf"clients/(?:{'|'.join(it.removeprefix('sftpv3-') for it in SCRIPTS)})\b", page))
        for file in (f"man/man1/{name}.1", f"bash-completion/completions/{name}", f"zsh/site-functions/_{name}"):
            text = (prefix / "share" / file).read_text().replace("\\-", "-").replace("Fl -", "--")
            for word in sorted(words):
                if not re.search(rf"(?<![\w-]){re.escape(word)}(?![\w-])", text):
                    yield f"install: {file} lacks {word}"


def wrong_scripts(prefix, room):
    """Runs the installed scripts: they find the installed program and their modules, and run nothing of the user's."""
    page, session = room / "page.html", TOP / "examples/wrong-byte.transcript"
    words = [prefix / "bin/sftpv3-page", session, "--tree", TOP / "examples/letters.tree", "-o", page]
    ran = alone(words, room)
    if ran != (0, f"wrote {page}\n") or page.read_text().count('<em class="wrong">differs</em>') != 1:
        yield f"install: sftpv3-page made no page of what is refused: {ran}"
    words = [prefix / "bin/sftpv3-probe", "--seeds", "1-2", "--requests", "5", "--report", room / "run.html",
             "--keep", room / "probe-kept", "--", prefix / "bin/sftpv3", "serve", "--tree", "{tree}"]
    status, printed = alone(words, room)
    if status or not re.search(r"(?m)^accepted: 2 sessions, ", printed) or not (room / "run.html").is_file():
        yield f"install: sftpv3-probe ended with status {status}: {printed}"
    yield from wrong_tree(prefix, room)
    for name in ("any", "gesftpserver", "openssh"):
        status, printed = alone([prefix / "lib/sftpv3/servers" / name], room)
        if status != 2 or f"servers/{name} [--folder FOLDER] TREE" not in printed:
            yield f"install: servers/{name} ended with status {status}: {printed}"
    if (room / "sprung").exists():
        yield "install: a script ran a module of the user's"
    servers = [it for it in prefix.glob("lib/sftpv3/servers/*") if it.is_file() and not it.suffix]
    for script in [*prefix.glob("bin/sftpv3-*"), *servers]:
        if not script.read_bytes().startswith(b"#!/usr/bin/python3 -IS\n"):
            yield f"install: {script} does not start with a fixed interpreter and -IS"


def wrong_tree(prefix, room):
    """Makes the tree of a folder, and audits its sessions of a day, of which there are none."""
    (room / "live").mkdir()
    (room / "live/f").write_text("f")
    status, printed = alone([prefix / "bin/sftpv3-tree", "--chroot", "--out", room / "live.tree", room / "live"], room)
    shown = called([prefix / "bin/sftpv3", "show", room / "live.tree"], "")[1]
    if status or ' F "/f" ' not in shown:
        yield f"install: sftpv3-tree ended with status {status}: {printed}{shown}"
    (room / "records").mkdir()
    words = [prefix / "bin/sftpv3-nightly", "--records", room / "records", "--state", room / "state", "--chroot",
             pwd.getpwuid(os.getuid()).pw_name, room / "live"]
    for wanted in ("the tree of the start has 1 entry\n", "0 sessions accepted; the folder is as they left it\n"):
        status, printed = alone(words, room)
        if status or not printed.endswith(wanted):
            yield f"install: sftpv3-nightly ended with status {status}: {printed}"


def wrong_syntax(share):
    """Has the programs that read the texts read them, as far as they are installed."""
    for name in ("sftpv3", *SCRIPTS):
        for words in (["mandoc", "-T", "lint", "-W", "warning", share / f"man/man1/{name}.1"],
                      ["bash", "-n", share / f"bash-completion/completions/{name}"],
                      ["zsh", "-n", share / f"zsh/site-functions/_{name}"]):
            if shutil.which(words[0]):
                status, printed = called(words, "")
                if status or printed:
                    yield f"install: {' '.join(map(str, words))} ended with status {status}\n{printed}"


# What the completions of bash make of the last of some words.
COMPLETED = [(["sftpv3", "aud"], "audit"), (["sftpv3-probe", "--see"], "--seeds"),
             (["sftpv3", "audit", "--profile", ""], "posix posix-user"),
             (["sftpv3", "infer", "--allow", "dots,sp"], "dots,special"), (["sftpv3", "audit", "--most", ""], ""),
             (["sftpv3-tree", "--limits", ""], "usual raised most fit"), (["sftpv3-tree", "--mode", ""], ""),
             (["sftpv3-probe", "--skip", "nul,sla"], "nul,slash"),
             (["sftpv3-probe", "--also", ""], "large long-target two-clients"),
             (["sftpv3-probe", "--", "sftpv3", "aud"], "2: aud"), (["sftpv3-record", "t", "sftpv3", "aud"], "2: aud"),
             (["sftpv3-record", "--plain", "--log", "l", "t", "sft"], "5: sft"),
             (["sftpv3-record", "--spool", "s", "sftpv3", "aud"], "3: aud"), (["sftpv3-record", "--log", "l", "--pl"],
                                                                             "--plain")]
# What stands for the completions of another command: the place of its name, and the word.
OFFSET = "_command_offset() { COMPREPLY=(\"$1:\" \"${COMP_WORDS[COMP_CWORD]}\"); }\n"


def wrong_completion(share):
    """Asks the completions of bash, if there is one, what they make of the beginning of a word."""
    for words, wanted in COMPLETED if shutil.which("bash") else []:
        name, typed = words[0], " ".join(f"'{it}'" for it in words)
        script = f"{OFFSET}source '{share}/bash-completion/completions/{name}'\nCOMP_WORDS=({typed})\n" \
                 f'COMP_CWORD={len(words) - 1}\n_{name.replace("-", "_")}\necho "${{COMPREPLY[@]}}"'
        printed = called(["bash", "-c", script], "")[1]
        if printed != f"{wanted}\n":
            yield f"install: completing {typed} gives {printed!r}"


# What zsh makes of a line when a tab is typed behind it.
COMPLETED_BY_ZSH = [("sftpv3 aud", "audit"), ("sftpv3-probe --see", "--seeds"), ("sftpv3-probe -- sftpv3 aud", "audit"),
                    ("sftpv3-walk --to x -- sftpv3 aud", "audit"), ("sftpv3-record --plain t sftpv3 aud", "audit"),
                    ("sftpv3 audit --allow dots,sp", "dots,special"), ("sftpv3-tree --limits us", "usual"),
                    ("sftpv3-probe --skip nul,sla", "nul,slash")]
ZSHRC = """PS1='READY> '
fpath=({share}/zsh/site-functions $fpath)
path=({share}/../bin $path)
autoload -Uz compinit
compinit -u -d {room}/dump
bindkey '^U' kill-whole-line
"""
# Seconds in which zsh has to answer, however busy the machine is.
LONG = 120


def read_until(terminal, wanted):
    """Reads what comes from a terminal until it has this text. Returns it all."""
    found, end = "", time.monotonic() + LONG
    while wanted not in found and time.monotonic() < end:
        if select.select([terminal], [], [], 0.1)[0]:
            found += os.read(terminal, 1 << 16).decode(errors="replace")
    return found


def wrong_completion_by_zsh(share, room):
    """Types into zsh, if there is one, and looks at what its completions make of it."""
    if not shutil.which("zsh"):
        return
    home = room / "zsh"
    home.mkdir()
    (home / ".zshrc").write_text(ZSHRC.format(share=share, room=home))
    ours, terminal = pty.openpty()
    words = ["zsh", "-i"]
    shell = subprocess.Popen(words, cwd=home, env={**os.environ, "ZDOTDIR": str(home), "TERM": "dumb"}, stdin=terminal,
                             stdout=terminal, stderr=terminal, start_new_session=True)
    try:
        read_until(ours, "READY> ")
        for typed, wanted in COMPLETED_BY_ZSH:
            os.write(ours, f"{typed}\t".encode())
            whole = typed[:typed.rindex(" ") + 1] + wanted
            printed = read_until(ours, whole)
            if whole not in printed:
                yield f"install: zsh completes {typed!r} as {printed!r}"
            os.write(ours, b"\x15")
    finally:
        os.killpg(shell.pid, signal.SIGKILL)
        shell.wait()
        os.close(ours)
        os.close(terminal)


def wrong_mode(prefix):
    """The program can be read only by who installed it, if that is root: then its users do not trace it."""
    mode, wanted = (prefix / "bin/sftpv3").stat().st_mode & 0o7777, 0o711 if os.geteuid() == 0 else 0o755
    if mode != wanted:
        yield f"install: the program has mode {mode:04o}, not {wanted:04o}"


def wrong_recorder(prefix, room):
    """Records a session that only opens: an INIT and its VERSION are in the transcript."""
    words = [prefix / "bin/sftpv3-record", room / "opened", prefix / "bin/sftpv3", "serve", "--tree",
             TOP / "examples/blank.tree"]
    ran = subprocess.run([str(it) for it in words], input=INIT, stdout=subprocess.PIPE, stderr=subprocess.STDOUT)
    recorded = (room / "opened").read_bytes() if (room / "opened").is_file() else b""
    if ran.returncode or recorded != b"SFTPTR01C" + INIT + b"S" + ran.stdout or len(ran.stdout) != 124:
        yield f"install: sftpv3-record ended with status {ran.returncode} and recorded {recorded.hex()}"


def wrong_serve(prefix, room):
    """Serves a session that only opens: a VERSION is the reply, the tree is saved, and nothing else is left."""
    (room / "served").mkdir()
    words = [prefix / "bin/sftpv3-serve", "--tree", TOP / "examples/blank.tree", "--save", room / "served/end.tree"]
    ran = subprocess.run([str(it) for it in words], input=INIT, stdout=subprocess.PIPE, stderr=subprocess.STDOUT)
    if ran.returncode or len(ran.stdout) != 124 or files_below(room / "served") != ["end.tree"]:
        yield f"install: sftpv3-serve ended with status {ran.returncode}: {ran.stdout!r} {files_below(room / 'served')}"


def wrong_removal(program, room):
    """Installs and removes in a folder of its own, and installs where nothing can be written."""
    prefix, plain = room / "removed", room / "plain"
    for words in (["./install", "--prefix", prefix],
                  [prefix / "bin/sftpv3-page", TOP / "examples/wrong-byte.transcript", "-o", room / "removed.html"],
                  # as an installation leaves it that is killed
                  ["cp", prefix / "bin/sftpv3", prefix / "lib/sftpv3/sftpv3/system/ways.py.new"],
                  ["./install", "--uninstall", "--prefix", prefix]):
        status, printed = called(words, program)
        if status or printed not in ("", f"wrote {room}/removed.html\n"):
            yield f"install: {' '.join(map(str, words))} ended with status {status}: {printed}"
    if files_below(prefix) or (prefix / "lib/sftpv3").exists():
        yield f"install: --uninstall leaves {files_below(prefix)}"
    folders = [str(it.relative_to(prefix)) for it in prefix.rglob("*")]
    if folders:
        yield f"install: --uninstall leaves the folders {sorted(folders)}"
    plain.write_text("")
    status, printed = called(["./install", "--prefix", plain], program)
    if (status, printed) != (3, f"install: cannot write {plain}/bin/sftpv3\n"):
        yield f"install: below a file it ended with status {status}: {printed}"


def wrong_prefixes(program, room):
    """Installs below folders of odd names: what is installed runs, and else nothing is."""
    for name, wanted in (("a b", 0), ("\u00e4+@~", 0), ("a'b", 2), ("a&b", 2), ("a|b", 2), ("a\\b", 2), ("a\nb", 2),
                         ("a%b", 2), ("a\udcffb", 2)):
        prefix = room / "odd" / name
        status, printed = called(["./install", "--prefix", prefix], program)
        if status != wanted or bool(printed) != (wanted == 2) or prefix.exists() != (wanted == 0):
            yield f"install: --prefix {prefix!r} ended with status {status}: {printed}"
        elif wanted == 0:
            status, printed = alone([prefix / "bin/sftpv3-tree", "--chroot", "--out", room / "odd.tree", room / "live"],
                                    room)
            units = [f"ExecStart=\"{prefix}/bin/sftpv3-{it}\" " for it in ("nightly", "recordd")]
            texts = "".join(it.read_text() for it in (prefix / "lib/systemd/system").glob("*.service"))
            if status or not all(it in texts for it in units):
                yield f"install: below {prefix} sftpv3-tree ended with status {status}: {printed}; {texts}"


def wrong_package(program, room):
    """Makes a Debian package twice, where that can be done: both are the same, and lintian has nothing against them."""
    if not shutil.which("dpkg-deb"):
        return
    packages = []
    for folder in ("deb", "deb-again"):
        status, printed = called(["packaging/deb", room / folder], program)
        packages += room.glob(f"{folder}/sftpv3_*.deb")
        if status:
            yield f"install: packaging/deb ended with status {status}: {printed}"
    if len(packages) != 2 or packages[0].read_bytes() != packages[1].read_bytes():
        yield f"install: packaging/deb makes other packages of the same program: {packages}"
    elif "-rwx--x--x root/root" not in called(["dpkg-deb", "-c", packages[0]], "")[1]:
        yield "install: in the package the program can be read by every user"
    elif shutil.which("lintian"):
        printed = called(["lintian", "--allow-root", packages[0]], "")[1]
        if re.search("(?m)^[EW]: ", printed):
            yield f"install: lintian says of the package: {printed}"


def wrong_unpacking(program, room):
    """Has dpkg put the package into a folder of its own, without a change of root, and remove it from there."""
    if os.geteuid() != 0 or not shutil.which("dpkg"):
        return
    system = room / "system"
    for name in ("info", "updates", "triggers"):
        (system / "var/lib/dpkg" / name).mkdir(parents=True)
    (system / "var/lib/dpkg/status").write_text("")
    words = ["dpkg", f"--root={system}", "--force-depends", "--force-script-chrootless"]
    for more, wanted in ((["-i", *room.glob("deb/sftpv3_*.deb")], True), (["-r", "sftpv3"], False)):
        status, printed = called([*words, *more], program)
        if status or (system / "usr/bin/sftpv3").exists() != wanted or (system / "usr").exists() != wanted:
            yield f"install: dpkg --root {more} ended with status {status}: {printed}"


def versions_met(prefix):
    """Whether one of the installed files had its name before another one was written whole."""
    files = [it.stat() for it in (prefix / "lib/sftpv3").rglob("*") if it.is_file() and it.parent.name != "__pycache__"]
    return min(it.st_ctime_ns for it in files) < max(it.st_mtime_ns for it in files)


def wrong_upgrade(program, room):
    """Installs over an earlier version: no session that starts meanwhile finds files of both, and where one file cannot
    be written, all are left as they were."""
    prefix = room / "earlier"
    called(["./install", "--prefix", prefix], program)
    status, printed = called(["./install", "--prefix", prefix], program)
    if status or printed or versions_met(prefix):
        yield f"install: an upgrade gives files their names before all are written; status {status}: {printed}"
    modules = [*(prefix / "lib/sftpv3").rglob("*.py")]
    for it in modules:
        it.write_text("earlier")
    last = prefix / "share/doc/sftpv3/examples/sftpv3-nightly.cron"
    for place in (last, last.with_name(f"{last.name}.new")):
        place.unlink(missing_ok=True)
        (place / "in the way").mkdir(parents=True)
        status, printed = called(["./install", "--prefix", prefix], program)
        found = {it.read_text() for it in modules}
        left = [it for it in files_below(prefix) if it.endswith(".new")]
        if (status, printed) != (3, f"install: cannot write {last}\n") or found != {"earlier"} or left:
            yield f"install: with a folder in the way it ended with status {status}: {printed}; {left}"
        shutil.rmtree(place)


def wrong_interrupts(program, room):
    """Ends an installation by a signal: nothing of it is left."""
    temporary, prefix = room / "interrupted", room / "never"
    temporary.mkdir()
    for number in (signal.SIGINT, signal.SIGTERM, signal.SIGHUP):
        for words in (["./install", "--prefix", prefix], ["packaging/deb", room / "never-deb"]):
            with subprocess.Popen([str(it) for it in words], cwd=TOP, stdin=subprocess.DEVNULL,
                                  stdout=subprocess.DEVNULL, stderr=subprocess.DEVNULL, start_new_session=True,
                                  env={**os.environ, "SFTPV3": str(program), "TMPDIR": str(temporary), "DESTDIR": ""},
                                  preexec_fn=lambda: signal.signal(number, signal.SIG_DFL)) as ran:
                end = time.monotonic() + LONG
                while not os.listdir(temporary) and ran.poll() is None and time.monotonic() < end:
                    time.sleep(0.02)
                time.sleep(0.5)
                os.killpg(ran.pid, number)
            left = [*os.listdir(temporary), *files_below(room / "never"), *files_below(room / "never-deb")]
            if ran.returncode != 128 + number or left:
                yield f"install: {number.name} ends {words[0]} with status {ran.returncode} and leaves {left}"


def skipped():
    """Yields a line for each program that is not there, and what is therefore not checked."""
    for name, part in TOOLS.items():
        if not shutil.which(name):
            yield f"{name} is not installed: not checked: {part}"


def wrong_installation(program, room):
    """Installs the program into the folder `kept` of the room, tries the rest beside it, and returns the mistakes."""
    prefix = room / "kept"
    status, printed = called(["./install", "--prefix", prefix], program)
    if status or printed:
        return [f"install: it ended with status {status}: {printed}"]
    share = prefix / "share"
    return [*wrong_texts(program, share), *wrong_syntax(share), *wrong_completion(share),
            *wrong_completion_by_zsh(share, room), *wrong_mode(prefix), *wrong_script_texts(prefix, room),
            *wrong_scripts(prefix, room), *wrong_recorder(prefix, room), *wrong_serve(prefix, room),
            *wrong_removal(program, room), *wrong_prefixes(program, room), *wrong_package(program, room),
            *wrong_unpacking(program, room), *wrong_upgrade(program, room), *wrong_interrupts(program, room)]


def wrong_attacks(program):
    """Runs the small attacks on this program, and returns those that succeeded."""
    ran = subprocess.run([sys.executable, TOP / "fuzz/attacks", "--small"], env={**os.environ, "SFTPV3": str(program)},
                         stdin=subprocess.DEVNULL, stdout=subprocess.PIPE, stderr=subprocess.STDOUT, timeout=600)
    printed = ran.stdout.decode(errors="replace").splitlines()
    wrong = [f"fuzz/attacks: {it}" for it in printed if ": FAILED" in it]
    if ran.returncode and not wrong:
        wrong = [f"fuzz/attacks: it ended with status {ran.returncode}: {' '.join(printed[-3:])}"]
    return wrong
