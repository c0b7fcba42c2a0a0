"""Attacks on the record of a session, by other files of the session and by other sessions; on the recorder and on the
daemon that keeps records, by another user of the machine."""
import os
import pwd
import shutil
import signal
import socket
import struct
import subprocess
import time
from contextlib import contextmanager, suppress
from pathlib import Path
from types import SimpleNamespace
from unittest import mock

from attacking import hostile
from attacking.ground import CLIENTS, SECONDS, attack, environment, identity, start_as, stop, words_of, wrong_status
from sftpv3.codec import init, request
from sftpv3.nights.records import Spool
from sftpv3.recorder import auditing
from sftpv3.system import naming
from sftpv3.system.program import program
from sshd_trials import page
from trials.processes import children_of, wait_until

HELLO = init()
ASKED = HELLO + request(1, "MKDIR", b"/SECRET", {})
MADE = HELLO + request(1, "MKDIR", b"/a", {})
# A user and a group that no account has, for whoever is attacked, and for the daemon.
VICTIM, KEEPER = 64001, 64003
PEER = struct.Struct("3i")


@attack(is_small=True)
def a_record_in_place_of_the_tree(field):
    """A record that is the file of --tree or --save, by whatever name, is bad usage and destroys nothing."""
    tree = field.blank()
    before = field.read("start.tree")
    os.symlink("start.tree", field.path("link"))
    os.link(tree, field.path("hard"))
    os.symlink(".", field.path("folder"))
    for name in ("start.tree", "./start.tree", "link", "hard", "folder/start.tree", tree):
        for words in (["--tree", "start.tree"], ["--tree", "other.tree", "--save", "start.tree"]):
            field.blank("other.tree")
            done = field.run("serve", *words, "--record", name, input=MADE)
            yield from wrong_status(done, 2)
            if done.stdout:
                yield f"--record {name}: a session was served"
            if field.read("start.tree") != before:
                yield f"--record {name} destroyed the tree"
                field.blank()
    done = field.run("serve", "--tree", "start.tree", "--save", "new", "--record", "./new", input=MADE)
    yield from wrong_status(done, 2)
    if "new" in field.names():
        yield "a file is left"


@attack(is_small=True)
def two_sessions_in_one_record(field):
    """The second session that records into a file ends before it begins, and the record is the first one's."""
    tree = field.blank()
    words = [program(), "serve", "--tree", tree, "--record", field.path("record")]
    with subprocess.Popen(words, stdin=subprocess.PIPE, stdout=subprocess.PIPE) as first:
        first.stdin.write(HELLO)
        first.stdin.flush()
        opened = first.stdout.read(124)
        second = field.run(*words[1:], input=MADE)
        yield from wrong_status(second, 3)
        if second.stdout:
            yield "the second session was served"
        first.stdin.close()
        first.wait(timeout=SECONDS)
    if field.read("record") != b"SFTPTR01C" + HELLO + b"S" + opened:
        yield f"the record is {field.read('record')[:80].hex()}"
    third = field.run(*words[1:], input=MADE)
    yield from wrong_status(third, 0)
    if not field.read("record").startswith(b"SFTPTR01C" + HELLO):
        yield "a later session is not recorded"


@attack(is_small=True)
def a_user_has_the_folder_of_another(field):
    """No two names of users are those of one folder of records; the night looks where the daemon writes."""
    names = {"u": "u", "DOM_bob": "DOM_bob", "DOM\\bob": "DOM=5cbob", "DOM=5cbob": "DOM=3d5cbob", "..": "=2e.",
             ".": "=2e", "a/b": "a=2fb", "\u00e9": "=c3=a9", "\udce9": "=e9", "u@a.b": "u@a.b", "a\n": "a=0a"}
    found = {it: naming.as_part(it) for it in names}
    yield from (f"{ascii(it)}: {part}" for it, part in found.items() if part != names[it])
    long = [naming.as_part(it) for it in ("", "u" * 300, "u" * 299 + "v", "u" * 101)]
    if len({*found.values(), *long}) != len(found) + len(long) or max(map(len, long)) > 255:
        yield f"{long}"
    # one of two users has the other's number as a name, and the other has no account
    accounts = {4_000_001: "DOM\\bob", 4_000_002: "DOM_bob", 4_000_003: "4000004"}
    folders = {4_000_001: "DOM=5cbob", 4_000_002: "DOM_bob", 4_000_003: "4000004", 4_000_004: "uid==4000004"}
    with mock.patch.object(pwd, "getpwuid", lambda number: SimpleNamespace(pw_name=accounts[number])):
        for number, name in folders.items():
            spool = Spool(field.folder, number)
            spool.look()
            taken_before = spool.own is not None
            os.mkdir(field.path(name), 0o700)
            spool.look()
            if taken_before or spool.own is None:
                yield f"{name}: {spool.refused}"


def record(field, *words, asked=ASKED, user=VICTIM):
    """Records a session of the program as somebody. Returns how that ended."""
    command = [field.script("record"), *words, field.program, "serve", "--tree", "start.tree"]
    return subprocess.run(command, input=asked, capture_output=True, cwd=field.folder, timeout=SECONDS,
                          **identity(user))


@contextmanager
def daemon(field, *words, before=()):
    """A daemon of a user of its own. Gives its socket, and its spool. Those who are attacked have no account."""
    with started(field, "--any-uid", *words, before=before) as found:
        yield found


@contextmanager
def started(field, *words, before=()):
    """The same for users with accounts. `before` is what starts it."""
    run, spool = field.shared("run", 0o755, KEEPER), field.shared("spool", 0o700, KEEPER)
    with subprocess.Popen([*before, field.script("recordd"), "--socket", f"{run}/s", *words, spool],
                          stderr=subprocess.DEVNULL, **identity(KEEPER)) as running:
        try:
            wait_until(lambda: os.path.exists(f"{run}/s"))
            yield f"{run}/s", spool
        finally:
            running.kill()
    for it in (run, spool):
        shutil.rmtree(it)


def lengths(folder):
    return [os.path.getsize(os.path.join(place, it)) for place, _, names in os.walk(folder) for it in names]


@attack("user")
def a_pipe_in_place_of_a_transcript(field):
    """In a folder of mode 1777, a FIFO of the transcript's name that another user makes in time is not written to."""
    field.blank()
    folder, told = field.shared("shared", 0o1777), field.put("told", b"", 0o666)
    with field.beside(hostile.pipes_for_transcripts, folder, "{user}-{time}-local-{process}.transcript", told):
        for turn in range(8):
            done = record(field, "--required", "--times", f"{folder}/times{turn}", f"{folder}/%u-%t-%h-%p.transcript")
            yield from wrong_status(done, 0)
    os.mkfifo(f"{folder}/taken", 0o666)
    os.chown(f"{folder}/taken", field.user.pw_uid, field.user.pw_gid)
    yield from wrong_status(record(field, "--required", "--times", f"{folder}/taken", f"{folder}/taken"), 0)
    if field.read("told"):
        yield f"another user read {len(field.read('told'))} bytes of a session"
    transcripts = [it for it in os.listdir(folder) if os.path.isfile(f"{folder}/{it}")]
    if sum(b"SECRET" in field.read(f"shared/{it}") for it in transcripts) != 9:
        yield f"not all is recorded: {transcripts}"


@attack("user")
def a_file_to_be_replaced_is_of_another_user(field):
    """--overwrite and --log write into no file of another user, and names that are taken end no session."""
    field.blank()
    folder = field.shared("shared", 0o777)
    for name in ("record", "log", *(f"taken{end}" for end in ["", *(f".{it}" for it in range(2, 40))])):
        field.theirs(field.put(f"shared/{name}", b"", 0o666))
    yield from wrong_status(record(field, "--required", "--overwrite", f"{folder}/record"), 3)
    yield from wrong_status(record(field, "--required", "--log", f"{folder}/log", f"{folder}/taken"), 0)
    if any(field.read(f"shared/{it}") for it in ("record", "log")):
        yield "a file of another user has it"


@attack("user")
def another_user_listens(field):
    """A socket in a shared folder that another user made first is given nothing."""
    field.blank()
    told = field.put("told", b"", 0o666)
    for folder, mode, owner in (("tmp", 0o1777, 0), ("tmp/theirs", 0o755, field.user.pw_uid)):
        name = f"{field.shared(folder, mode, owner)}/s"
        with field.beside(hostile.daemon_of_its_own, name, told):
            yield from wrong_status(record(field, "--required", "--spool", name), 3)
            done = record(field, "--spool", name)
            yield from wrong_status(done, 0)
            if b"not recorded" not in done.stderr:
                yield f"no word of that: {done.stderr!r}"
    if field.read("told"):
        yield f"another user got {len(field.read('told'))} bytes"


@attack("user")
def one_user_holds_up_the_daemon(field):
    """While one user keeps the daemon busy, the session of another one is recorded, in little time."""
    field.blank()
    with daemon(field, "--records-per-user", "30000") as (name, spool):
        theirs = field.shared(os.path.join(spool, field.user.pw_name), 0o700, KEEPER)
        for it in range(20_000):
            os.close(os.open(f"{theirs}/{it}", os.O_CREAT | os.O_WRONLY, 0o600))
        for function in (hostile.empty_batches, hostile.small_batches, hostile.hellos, hostile.connections):
            with field.beside(function, name):
                time.sleep(1)
                start = time.monotonic()
                yield from (f"{function.__name__}: {it}" for it in
                            wrong_status(record(field, "--required", "--spool", name), 0))
                took = time.monotonic() - start
                if took > 4:
                    yield f"{function.__name__}: {took:.1f} seconds"


# Runs a script as on a kernel before Linux 6.16, which knows no SO_PASSRIGHTS.
OLDER = """
import runpy, socket, sys
class Older(socket.socket):
    def setsockopt(self, level, option, *words):
        if option == 83:
            raise OSError(92, "Protocol not available")
        super().setsockopt(level, option, *words)
socket.socket = Older
sys.argv[:1] = []
runpy.run_path(sys.argv[0], run_name="__main__")
"""


def process_of_daemon(name):
    link = hostile.connected(name)
    return PEER.unpack(link.getsockopt(socket.SOL_SOCKET, socket.SO_PEERCRED, PEER.size))[0]


def has_ended(process):
    return Path(f"/proc/{process}/stat").read_text(encoding="ascii").split()[2] == "Z"


def slow_ones(field, name, function):
    """What is wrong, or slow, while the other user does this: a session of another one, and then the daemon's end."""
    process = process_of_daemon(name)
    with field.beside(function, name):
        time.sleep(1)
        for _ in range(3):
            start = time.monotonic()
            yield from wrong_status(record(field, "--required", "--spool", name), 0)
            if time.monotonic() - start > 4:
                yield f"a session takes {time.monotonic() - start:.1f} seconds"
        os.kill(process, signal.SIGTERM)
        time.sleep(2)
    if not has_ended(process):
        yield "the daemon goes on for 2 seconds after its end is asked for"


@attack("user")
def one_user_passes_descriptors(field):
    """What a user passes to the daemon, and takes long to close, holds up no other, with each age of kernel."""
    for older in ((), ("/usr/bin/python3", "-ISc", OLDER)):
        for function in (hostile.descriptors, hostile.descriptors_beyond):
            field.blank()
            with daemon(field, before=older) as (name, _):
                for it in slow_ones(field, name, function):
                    yield f"{function.__name__}{', older kernel' if older else ''}: {it}"


@attack("user")
def one_user_fills_the_queue_of_a_daemon_that_ends(field):
    """The end of the daemon waits for nothing that came by connections which it has not taken."""
    for older in ((), ("/usr/bin/python3", "-ISc", OLDER)):
        with daemon(field, before=older) as (name, _):
            process = process_of_daemon(name)
            os.kill(process, signal.SIGSTOP)
            with field.beside(hostile.full_queue, name):
                time.sleep(5)
            # whoever passed them is gone, so the queue has the last reference to each
            for it in (signal.SIGTERM, signal.SIGCONT):
                os.kill(process, it)
            start = time.monotonic()
            wait_until(lambda: has_ended(process), 8, 0.05)
            if time.monotonic() > start + 2:
                yield f"{time.monotonic() - start:.0f} seconds to its end{', older kernel' if older else ''}"


@attack("user")
def one_user_takes_the_daemons_files(field):
    """A user has so many records, and then so many more as were taken out of the spool."""
    field.blank()
    with daemon(field, "--records-per-user", "3") as (name, spool):
        status = [record(field, "--required", "--spool", name).returncode for _ in range(5)]
        if status != [0, 0, 0, 3, 3] or len(lengths(spool)) != 3:
            yield f"{status}, {len(lengths(spool))} records"
        yield from wrong_status(record(field, "--required", "--spool", name, user=KEEPER + 1), 0)
        folder = os.path.join(spool, f"uid=={VICTIM}")
        for it in os.listdir(folder):
            os.remove(os.path.join(folder, it))
        time.sleep(10.5)
        yield from wrong_status(record(field, "--required", "--spool", name), 0)


def stay_connected(name):
    """As many connections as one user may have."""
    links = [hostile.connected(name) for _ in range(64)]
    for link in links:
        link.sendall(hostile.HELLO)
    time.sleep(SECONDS)


@attack("user")
def one_user_has_many_uids(field):
    """The uids of a user's namespaces do not take the connections of others: those without an account get none."""
    field.blank()
    with started(field) as (name, _):
        children = [start_as(user, user, stay_connected, name) for user in range(70_000, 70_016)]
        try:
            time.sleep(2)
            yield from wrong_status(record(field, "--required", "--spool", name, user=field.user.pw_uid), 0)
        finally:
            for child in children:
                stop(child)
        yield from wrong_status(record(field, "--required", "--spool", name), 3)


TRIES = 5


def lines(field):
    """The page's lines down to those that sshd needs, for the other user and a folder of the attack."""
    first, configured, _ = page.lines_of("live").partition("place=")
    if not configured or "install -d -o u" not in first:
        raise AssertionError(f"{page.PAGE}: other lines for an audit that reads along: {first}")
    return page.for_user(first, field.user.pw_name, field.path("files")).replace("/var/lib/sftp-live/u",
                                                                               field.path("live/u"))


def swap(place, victim):
    """Puts a link to the victim in place of each file of another user in a folder, as soon as it is there."""
    while True:
        with suppress(OSError):
            for it in os.listdir(place):
                name = os.path.join(place, it)
                if os.lstat(name).st_uid != os.getuid():
                    os.symlink(victim, f"{place}/.link")
                    os.rename(f"{place}/.link", name)


@attack("user", "setpriv")
def a_link_appears_where_root_makes_the_start(field):
    """The user, who owns the folder, gets no file of root by what root does there; and the tree is the user's."""
    for it in ("files", "live", "commands"):
        os.mkdir(field.path(it))
    os.symlink(os.path.join(CLIENTS, "tree"), field.path("commands/sftpv3-tree"))
    search = environment(PATH=f"{field.path('commands')}:{os.environ['PATH']}")
    victim, place, user = field.put("victim", b"of root", 0o600), field.path("live/u"), field.user.pw_uid
    for _ in range(TRIES):
        shutil.rmtree(place, ignore_errors=True)
        with field.beside(swap, place, victim):
            done = subprocess.run(["sh", "-e", "-c", lines(field)], env=search, capture_output=True, timeout=SECONDS)
            time.sleep(0.2)
        if os.stat(victim).st_uid != 0 or field.read("victim") != b"of root":
            yield f"root's file is of user {os.stat(victim).st_uid}"
            return
    found = os.lstat(f"{place}/tree") if os.path.lexists(f"{place}/tree") else None
    if done.returncode or found is None or found.st_uid != user or found.st_size == 0:
        yield f"status {done.returncode}, {found}: {done.stderr[-300:]!r}"


# What the other user does to a process that runs as the same user, as its SFTP server would for its client.
OPEN_MEMORY = """import errno, os, sys
for name, flags in (("mem", os.O_RDWR), ("maps", os.O_RDONLY)):
    try:
        os.close(os.open(f"/proc/{sys.argv[1]}/{name}", flags))
        print(name, "opened")
    except OSError as error:
        print(name, errno.errorcode[error.errno])
"""


def child_of(process, word):
    """The process with this word in its command that another one started, or None if it is not there in time."""
    found = []
    wait_until(lambda: found.extend(it for it in children_of(process) if word in words_of(it)) or found, 10)
    return found[0] if found else None


def memory_of_the_audit(field, *words):
    """Starts a session of the other user with an audit, tries to open the memory of this one as the user, and ends the
    session. Returns what the tries said, and the log."""
    command = [field.path("installed/bin/sftpv3-record"), "--audit", "--overwrite", "--tree", field.path("start.tree"),
               "--log", "log", *words, "record", field.program, "serve", "--tree", field.path("start.tree")]
    with subprocess.Popen(command, cwd=field.path("own"), stdin=subprocess.PIPE, stdout=subprocess.PIPE,
                          **field.as_user()) as session:
        session.stdin.write(HELLO)
        session.stdin.flush()
        session.stdout.read(124)
        audit = child_of(session.pid, b"audit")
        said = subprocess.run(["/usr/bin/python3", "-IS", "-c", OPEN_MEMORY, str(audit)], capture_output=True,
                              text=True, **field.as_user()).stdout
        session.communicate(ASKED[len(HELLO):], timeout=SECONDS)
    log = field.read("own/log").decode()
    os.remove(field.path("own/log"))
    return said, log


WARNED = "a client of the server can write into the audit"


@attack(is_small=True)
def a_system_opens_the_memory_of_what_cannot_be_read(field):
    """By fs.suid_dumpable=1 a program that its user cannot read has no memory of its own, which the log says."""
    with mock.patch.multiple(auditing, SCOPE=field.path("scope"), DUMPABLE=field.path("dumpable")), \
            mock.patch.multiple(os, getuid=lambda: VICTIM, access=lambda _, wanted: wanted != os.R_OK):
        for scope, dumpable, is_warned in ((b"0", b"0", False), (b"0", b"1", True), (b"0", b"2", False),
                                           (b"1", b"1", False)):
            field.put("scope", scope + b"\n")
            field.put("dumpable", dumpable + b"\n")
            said = auditing.exposure("/bin/sh") or ""
            if (WARNED in said and "fs.suid_dumpable" in said) != is_warned:
                yield f"ptrace_scope {scope}, suid_dumpable {dumpable}: {said!r}"


@attack("user")
def a_client_opens_the_memory_of_the_audit(field):
    """An installed audit that reads along gives its memory to no other process of its user. Where the program can be
    read, and the system lets processes of one user at each other, the log says that it does."""
    field.blank()
    field.shared("own", 0o700, field.user.pw_uid)
    done = field.call("../install", "--prefix", field.path("installed"), env=environment(DESTDIR=""))
    yield from wrong_status(done, 0)
    said, log = memory_of_the_audit(field)
    if said != "mem EACCES\nmaps EACCES\n":
        yield f"the installed program: {said!r}"
    if "audit: accepted" not in log or WARNED in log:
        yield f"the installed program: the log is {log!r}"
    said, log = memory_of_the_audit(field, "--program", field.program)
    if "audit: accepted" not in log or (WARNED in log) != ("mem opened" in said):
        yield f"a program that all can read: {said!r}, and the log is {log!r}"
