"""Sessions of a day, as users have them. Those of ORDINARY are audited together, one from the end of the other; those
of ALONE each by itself, and the ones that a program without some word in its help cannot follow are passed by there.
What docs/OPERATORS.md says that no audit follows is in BEYOND: it has to be refused, by a verdict with these words.

Audits that read along, by the lines of that page, have sessions of an honest server, and of one that lies; here are the
limits of a process that docs/SECURITY.md gives, too: whether a session under sshd has them."""
import os
import re
import shutil
import subprocess
import time
from dataclasses import dataclass
from pathlib import Path
from typing import Callable

from record_trials.steps import TOP
from sftpv3 import codec
from sshd_trials import page
from sshd_trials.clients import EDITORS, OPTIONS, run
from sshd_trials.page import is_accepted
from trials.processes import SOON, wait_until

# How many requests a clone of the repository below takes at least: that of the day had 35,197.
LEAST_OF_CLONE = 30_000

REPOSITORY = """
mkdir $ROOM/origin && cd $ROOM/origin && git init -q -b main
git config user.name u && git config user.email u@localhost
for folder in $(seq 60); do
    mkdir -p data/$folder && for number in $(seq 68); do echo $folder $number >data/$folder/$number; done
done
mkdir src && for number in $(seq 60); do echo "file $number" >src/$number.txt; done
printf 'FILES = $(wildcard src/*.txt)\\nall: out/all\\n\\n' >Makefile
printf 'out/all: $(patsubst src/%%.txt,out/%%.o,$(FILES))\\n\\tcat $^ >$@\\n\\n' >>Makefile
printf 'out/%%.o: src/%%.txt\\n\\t@mkdir -p out\\n\\ttr a-z A-Z <$< >$@\\n\\nclean:\\n\\trm -r out\\n' >>Makefile
git add . && git commit -qm first && echo more >>src/1.txt && git commit -qam second && git gc -q
"""


def clone(where):
    made = run(["sh", "-e", "-c", REPOSITORY], env={**os.environ, "ROOM": str(where.room)})
    if made.returncode:
        return False, made.stdout
    return where.shell("git clone -q $ROOM/origin clone && git -C clone -c safe.directory='*' status --short")


def by_shell(script):
    """An act of a shell below a mount of sshfs."""
    return lambda where: where.shell(script)


FIVE_HUNDRED = ("mkdir many && for n in $(seq 500); do echo $n >many/$n; done && ls -l many >$ROOM/listed && "
                "for n in $(seq 3 7 500); do mv many/$n many/moved-$n; done && rm many/*5")
SIZES = ("for n in 1 4095 4096 4097 32768 65537 1000000 16777216 20000000; do "
         "dd if=/dev/zero bs=$n count=1 of=size-$n status=none && truncate -s 5000 size-$n && "
         "truncate -s $((n / 2)) size-$n; done; truncate -s 3000000 hole && echo end >>hole")
COPIES = ("mkdir from && echo a >from/a && ln -s a from/link && chmod 640 from/a && cp -r from to && "
          "cp from/a b && cp b from/a && chmod -R go-rwx from")


def special_files(where):
    ran = where.batch("ls -la", "rename socket moved-socket", "chmod 600 moved-socket", "rm fifo", "ls -la")
    shown = ran.stdout.split()
    return ran.returncode == 0 and "srw-------" in shown and any(it.startswith("crw") for it in shown), ran.stdout


def chgrp(where):
    ran = where.batch("mkdir grouped", f"chgrp {os.stat(where.real).st_gid} grouped", "ls -la")
    return ran.returncode == 0, ran.stdout


def link_owner(where):
    ran = where.batch("symlink nowhere by-name", "chown -h 0 by-name" if where.user == "root" else
                      f"chown -h {os.stat(where.real).st_uid} by-name")
    return ran.returncode == 0, ran.stdout


def copy_data(where):
    ran = where.batch(f"put {where.large} copied-from", "copy copied-from copied-to")
    return ran.returncode == 0, ran.stdout


def denied(where):
    """Requests in a directory that root has made, which the user may only look at."""
    ran = where.batch("-mkdir of-root/mine", "-get of-root/secret", "-rm of-root/secret", "ls of-root", "mkdir allowed")
    return ran.returncode == 0 and "ermission denied" in ran.stdout, ran.stdout


def cut(where):
    """A client that is killed while two of its requests have no reply: the server is stopped meanwhile."""
    asked = [codec.request(it, "STAT", where.seen.encode()) for it in range(3)]
    with subprocess.Popen(["ssh", *OPTIONS, f"{where.user}@127.0.0.1", "-s", "sftp"], stdin=subprocess.PIPE,
                          stdout=subprocess.PIPE, stderr=subprocess.DEVNULL, bufsize=0) as process:
        process.stdin.write(codec.init())
        is_open = process.stdout.read(4) != b""
        process.stdin.write(asked[0])
        time.sleep(0.5)
        run(["pkill", "-STOP", "-x", "sftp-server"])
        process.stdin.write(asked[1] + asked[2])
        time.sleep(0.5)
        process.kill()
    return is_open, "no session was opened"


def outside(where):
    ran = where.batch("-ls /", "mkdir behind")
    return ran.returncode == 0, ran.stdout


@dataclass(frozen=True)
class Session:
    """What a client does: a name, the act, and the programs that it needs besides OpenSSH's sftp.

    If the help of `sftpv3 audit` does not have the word `by`, it is refused, by a verdict with one of `words`.
    """

    name: str
    act: Callable
    programs: tuple = ()
    by: str = ""
    words: tuple = ()

    def lacks(self):
        """The first program that is not installed, or None."""
        return next((it for it in self.programs if not shutil.which(it)), None)


def over_sshfs(name, act, *programs, **how):
    """A session below a mount of sshfs: an act, or the script of a shell."""
    return Session(name, by_shell(act) if isinstance(act, str) else act, ("sshfs", *programs), **how)


CLONE = over_sshfs("a clone over sshfs", clone, "git")
ORDINARY = (Session("special files by sftp", special_files), Session("chgrp by sftp", chgrp),
            CLONE,
            over_sshfs("make", "cd clone && make -s && make -s clean && make -s && test $(wc -l <out/all) = 61",
                       "git", "make"),
            over_sshfs("500 files", FIVE_HUNDRED), over_sshfs("sizes up to 20 MB", SIZES),
            over_sshfs("a file of 70 MB", "truncate -s 70000000 large"), over_sshfs("cp -r and chmod -R", COPIES),
            over_sshfs("cp -a", "mkdir kept && echo k >kept/k && cp -a kept kept-too"),
            *(over_sshfs(f"{name} over sshfs", act, program) for name, program, act in EDITORS))

ALONE = (over_sshfs("chgrp by sshfs", "echo g >g && chgrp $(stat -c %g .) g && ls -l g", by="keep-owner",
                    words=("NotAllowed",)),
         Session("chown -h by sftp", link_owner, by="lsetstat", words=("NotModelled",)),
         Session("copy by sftp", copy_data, by="copy-data", words=("NotModelled",)),
         Session("a refused request", denied, by="posix-user", words=("NotAllowed",)),
         Session("a cut", cut, by="--cut", words=("Unanswered",)))

BEYOND = (Session("a look at / outside of the folder", outside, words=("NotAllowed",)),)


def try_all(steps, where, nightly):
    try_ordinary(steps, where, nightly)
    help_text = run(["sftpv3", "help", "audit"]).stdout
    for session in ALONE:
        said = played(steps, session, where, nightly)
        if said is not None:
            judge(steps, session, f"{where.user}: {session.name}: accepted", help_text, *said)
    for session in BEYOND:
        said = played(steps, session, where, nightly)
        if said is not None:
            steps.check(f"{where.user}: {session.name}: refused, as the page says",
                        said[0] != 0 and any(it in said[1] for it in session.words), said[1])
    (where.real / "far").unlink(missing_ok=True)
    nightly()


def try_ordinary(steps, where, nightly):
    count = 0
    for session in ORDINARY:
        lacks = session.lacks()
        if lacks:
            steps.skip(f"{where.user}: {session.name}", f"{lacks} is not installed")
            continue
        holds, said = session.act(where)
        steps.check(f"{where.user}: {session.name}", holds, said)
        count += 1
        time.sleep(1)
    status, said = nightly()
    steps.check(f"{where.user}: the night accepts them", status == 0 and is_accepted(said, count),
                f"status {status}: {said}")
    if not CLONE.lacks():
        most = max(map(int, re.findall(r"accepted (\d+) requests", said)), default=0)
        steps.check(f"{where.user}: the clone took {LEAST_OF_CLONE:,} requests or more", most >= LEAST_OF_CLONE, said)


def played(steps, session, where, nightly):
    """The status of the night behind a session, and what it printed; None if the session did not do its work."""
    name = f"{where.user}: {session.name}"
    lacks = session.lacks()
    if lacks:
        steps.skip(name, f"{lacks} is not installed")
        return None
    holds, said = session.act(where)
    return nightly() if steps.check(name, holds, said) else None


def judge(steps, session, name, help_text, status, said):
    """A session that is to be accepted as soon as the program knows the word."""
    is_good = status == 0 and is_accepted(said, 1)
    if not is_good and session.by not in help_text and any(it in said for it in session.words):
        steps.skip(name, f"the program has no {session.by}: {said.strip()}")
    else:
        steps.check(name, is_good, f"status {status}: {said}")


CONFIG = Path("/etc/ssh/sshd_config")
LOG = Path("/var/lib/sftp-live/u/log")
# Where the user can read the server that lies.
LIES = Path("/opt/lies")


def logged():
    """The lines of the log."""
    return LOG.read_text().splitlines() if LOG.exists() else []


def said(count):
    """The same, as soon as there are so many."""
    wait_until(lambda: len(logged()) >= count, pause=0.1)
    return logged()


def until_logged(text):
    """A command of sftp's shell that waits until the log has this text."""
    return f"!timeout {SOON // 2} sh -c 'until grep -q \"{text}\" {LOG}; do sleep 0.1; done'"


def reload():
    """Has sshd read its configuration again."""
    run(["service", "ssh", "reload"])
    time.sleep(0.5)


def serve_lies(option):
    """From now on, the last byte of each READ is another one. `option` is one more of the recorder."""
    for name in ("tests/broken", "python/sftpv3"):
        shutil.copytree(TOP / name, LIES / Path(name).name, dirs_exist_ok=True)
    shutil.copy(TOP / "tests/stand-in", LIES)
    subprocess.run(["chmod", "-R", "a+rX", LIES], check=True)
    text = re.sub(r"(?m)^(Subsystem .*?sftpv3-record).*?( --audit .*transcript) .*(/usr/lib/openssh/\S+) .*$",
                  rf"\1 {option}\2 /usr/bin/python3 {LIES}/stand-in planted wrong_byte \3 -u 022",
                  CONFIG.read_text())
    CONFIG.write_text(text)
    reload()


def try_live(steps, where):
    status, text = page.run(page.lines_of("live"))
    if not steps.check("the page's lines for an audit that reads along", status == 0, text):
        return
    time.sleep(0.5)
    where.batch(f"put {where.large} live", "mkdir live-folder", "get live back")
    lines = said(1)
    steps.check("live: a session is accepted", len(lines) == 1 and "audit: accepted " in lines[0], str(lines))
    where.batch("ls -l", "rmdir live-folder", "get live back")
    lines = said(2)
    steps.check("live: the next is, from where it ended", len(lines) == 2 and "audit: accepted " in lines[1],
                str(lines))
    serve_lies("")
    ran = where.batch("get live back", until_logged("refused record"), f"!cat {LOG}", "ls")
    steps.check("live: a wrong byte is said while the session runs", "NotAllowed" in ran.stdout and ran.returncode == 0,
                ran.stdout)
    serve_lies("--stop")
    ran = where.batch("get live back", until_logged("the session is cut"), "ls", "ls")
    steps.check("live: --stop cuts the session there", ran.returncode != 0 and
                any("the session is cut" in it for it in said(4)), ran.stdout)


def try_forced(steps, where, nightly):
    """SFTP alone, by the words behind `Subsystem sftp` as a ForceCommand: the session is recorded, and nothing else is
    run."""
    before = CONFIG.read_text()
    words = re.search(r"(?m)^Subsystem\s+sftp\s+(.*)$", before)[1]
    CONFIG.write_text(f"{before}Match User {where.user}\n    ForceCommand {words}\n")
    reload()
    ran = where.batch(f"put {where.large} forced", "get forced back")
    if steps.check("ForceCommand: a session does its work", ran.returncode == 0, ran.stdout):
        status, said = nightly()
        steps.check("ForceCommand: it is recorded and accepted", status == 0 and is_accepted(said, 1), said)
    run(["ssh", *OPTIONS, f"{where.user}@127.0.0.1", f"touch {where.seen}/by-shell"], stdin=subprocess.DEVNULL)
    steps.check("ForceCommand: no other command is run", not (where.real / "by-shell").exists())
    for words in ([], ["-tt"]):
        with subprocess.Popen(["sleep", "60"], stdout=subprocess.PIPE) as silent:
            ran = run(["timeout", "20", "ssh", *OPTIONS, *words, f"{where.user}@127.0.0.1", *["id"] * (not words)],
                      stdin=silent.stdout)
            silent.kill()
        steps.check(f"ForceCommand: {'a shell' if words else 'a command'} is told so, and its client does not wait",
                    ran.returncode not in (0, 124) and "only SFTP is served here" in ran.stdout,
                    f"{ran.returncode}: {ran.stdout}")
    for words in ([where.large, f"{where.user}@127.0.0.1:forced"], [f"{where.user}@127.0.0.1:forced", "/dev/null"]):
        ran = run(["timeout", "20", "scp", "-O", *OPTIONS, *words], stdin=subprocess.DEVNULL)
        steps.check("ForceCommand: scp without SFTP is told so, and does not wait", ran.returncode not in (0, 124) and
                    "only SFTP is served here" in ran.stdout, f"{ran.returncode}: {ran.stdout}")
    CONFIG.write_text(before)
    reload()


def try_no_shell(steps, where):
    """An account whose shell runs nothing has no recorder, and so no SFTP, as the page says."""
    run(["usermod", "--shell", "/usr/sbin/nologin", where.user])
    ran = where.batch("ls")
    run(["usermod", "--shell", "/bin/sh", where.user])
    steps.check("an account with nologin has no session, as the page says", ran.returncode != 0, ran.stdout)


LIMITS = "!grep -e 'address space' -e 'core file' /proc/$(pgrep -x sftpv3)/limits\n"


def try_limits(steps, user):
    """A session by the page's line, in which the limits of its process are looked at."""
    line = page.lines_of("limits", page.SECURITY).strip()
    run(["sftpv3", "blank", "--mode", "0644", "/srv/tree"])
    CONFIG.write_text(re.sub(r"(?m)^Subsystem\s+sftp\s.*$", lambda _: line, CONFIG.read_text()))
    reload()
    ran = run(["sftp", "-q", *OPTIONS, "-b", "-", f"{user}@127.0.0.1"], input=f"mkdir made\n{LIMITS}")
    found = re.findall(r"Max (address space|core file size) +(\d+) +(\d+) ", ran.stdout)
    steps.check("the page's line for limits: the session has them", ran.returncode == 0 and sorted(found) ==
                [("address space", "4096000000", "4096000000"), ("core file size", "0", "0")], ran.stdout)
