"""Attacks on files that are saved: links and names that another user puts in the way, and what is left behind."""
import os
import re
import signal
import subprocess
import threading
import time
from contextlib import suppress
from pathlib import Path

from attacking.ground import attack, wrong_status
from sftpv3.codec import CLIENT, SERVER, init, put_records, version
from sftpv3.codec.trees import FILE, Entry, Tree, put
from sftpv3.system.program import TOP, program

HELLO = init()
OPENED = put_records([(CLIENT, HELLO), (SERVER, version(3, []))])
TRIES = 400
# Seconds after which a session waits that has nothing to wait for.
PATIENCE = 5


def writing(field):
    """What the program writes, as words with SAVED for the name, and what they read."""
    start = field.blank()
    text = field.run("show", "--full", "--data", "all", start).stdout
    archive = field.run("export", start).stdout
    record = field.put("opened", OPENED)
    return {"blank": (["blank", "SAVED"], b""), "raise": (["raise", start, "SAVED"], b""),
            "make": (["make", "SAVED"], text), "import": (["import", "SAVED"], archive),
            "--out": (["audit", "--tree", start, "--transcript", record, "--out", "SAVED"], b""),
            "infer": (["infer", "--transcript", record, "SAVED"], b""),
            "--save": (["serve", "--tree", start, "--save", "SAVED"], HELLO),
            "--record": (["serve", "--tree", start, "--record", "SAVED"], HELLO)}


def write(field, given, name, *more, **options):
    words, asked = given
    return field.run(*[name if it == "SAVED" else it for it in words], *more, input=asked, **options)


def swap(folder, victim, name):
    """Swaps each new file of a folder for a link to the victim's, as soon as its name is there."""
    os.chdir(folder)
    while True:
        for it in os.listdir("."):
            if it.startswith(f"{name}.new"):
                with suppress(OSError):
                    os.symlink(victim, ".swap")
                    os.rename(".swap", it)


def large(size):
    return put(Tree([Entry(b"/%03d" % it, FILE, b"x" * 1_000_000, permissions=0o644) for it in range(size)]))


@attack("user")
def a_link_swapped_in_gives_away_a_file(field):
    """Root saves to a file of another user, who swaps the new file beside it for a link to one of root's."""
    theirs = field.shared("theirs", 0o755, field.user.pw_uid)
    saved, victim = os.path.join(theirs, "saved.tree"), field.put("victim", b"of root", 0o600)
    with field.beside(swap, theirs, victim, "saved.tree"):
        for number_of_try in range(TRIES):
            if os.path.lexists(saved):
                os.remove(saved)
            field.theirs(field.put(saved, b""))
            field.run("blank", saved)
            found = os.lstat(victim)
            state = (found.st_uid, found.st_gid, found.st_mode & 0o7777, field.read("victim"))
            if state != (0, 0, 0o600, b"of root"):
                yield f"after {number_of_try + 1} tries root's file has uid {found.st_uid}, mode {found.st_mode:o}"
                return


@attack("user")
def a_group_that_cannot_be_kept_reads_on(field):
    """A user saves over a file of a group that is not theirs: its permissions are not for the group of the user."""
    field.theirs(field.folder)
    saved = field.put("saved.tree", b"old", 0o664)
    os.chown(saved, field.user.pw_uid, 0)
    yield from wrong_status(field.run("blank", saved, as_user=True), 0)
    found = os.stat(saved)
    if found.st_gid != field.user.pw_gid or found.st_mode & 0o7777 != 0o604:
        yield f"group {found.st_gid}, mode {found.st_mode & 0o7777:o}"


@attack("user")
def a_file_of_another_user_says_who_reads_what_is_saved(field):
    """A user saves over a file of root, which all may read and write: what is saved is the user's, and for nobody else
    unless an option says so."""
    field.theirs(field.folder)
    runs = writing(field)
    for mode, words in ((0o600, []), (0o644, ["--mode", "0644"])):
        for name in ("blank", "raise", "make", "import", "--out", "--save"):
            for group in (0, field.user.pw_gid):
                saved = field.put(f"{name}{mode:o}-{group}", b"old", 0o666)
                os.chown(saved, 0, group)
                yield from wrong_status(write(field, runs[name], saved, *words, as_user=True), 0)
                found = os.stat(saved)
                state = (found.st_uid, found.st_gid, found.st_mode & 0o7777)
                if state != (field.user.pw_uid, field.user.pw_gid, mode):
                    yield f"{name} {' '.join(words)}: uid {state[0]}, gid {state[1]}, mode {state[2]:o}"


@attack("user")
def a_file_of_another_user_takes_the_record(field):
    """A user records into a file or a pipe of root, which all may read and write: nothing of the session is there, and
    none is served. Into a file of the user's own it is."""
    field.theirs(field.folder)
    start, theirs, own = field.blank(), field.put("theirs", b"old", 0o666), field.put("own", b"old", 0o640)
    field.theirs(own)
    pipe = field.path("pipe")
    os.mkfifo(pipe)
    os.chmod(pipe, 0o666)
    reader = os.open(pipe, os.O_RDONLY | os.O_NONBLOCK)
    try:
        for name in (theirs, pipe):
            done = field.run("serve", "--tree", start, "--record", name, input=HELLO, as_user=True)
            yield from wrong_status(done, 3)
            if done.stdout:
                yield f"a session is served that is recorded in {os.path.basename(name)}"
        if os.read(reader, 1000) or field.read("theirs") != b"old":
            yield f"the record is in root's file: {field.read('theirs')!r}"
    finally:
        os.close(reader)
    yield from wrong_status(field.run("serve", "--tree", start, "--record", own, input=HELLO, as_user=True), 0)
    if field.read("own")[:8] != b"SFTPTR01" or os.stat(own).st_mode & 0o7777 != 0o640:
        yield f"the user's own file: {field.read('own')[:8]!r}, mode {os.stat(own).st_mode & 0o7777:o}"


@attack("user")
def a_pipe_of_another_user_holds_up_a_session(field):
    """A FIFO of another user at the record's name, which nobody reads, is refused before it is opened: by a user and by
    root, whoever owns its folder, and behind a link. One's own is recorded into."""
    start, pipes = field.blank(), {}
    for number, (owner, mode) in enumerate(((0, 0o1777), (field.user.pw_uid, 0o755), (0, 0o755))):
        folder = field.shared(f"folder-{number}", mode, owner)
        for user in (0, field.user.pw_uid):
            pipe = os.path.join(folder, f"of-{user}")
            os.mkfifo(pipe)
            os.chmod(pipe, 0o666)
            os.chown(pipe, user, user)
            os.symlink(pipe, field.path(f"link-{number}-{user}"))
            pipes.setdefault(user, []).extend([pipe, field.path(f"link-{number}-{user}")])
    for as_user, others in ((False, field.user.pw_uid), (True, 0)):
        for name in pipes[others]:
            words = ["serve", "--tree", start, "--record", name]
            done = field.run(*words, input=HELLO, as_user=as_user, timeout=PATIENCE)
            yield from (f"{name}: {it}" for it in wrong_status(done, 3))
            if done.stdout or b"it belongs to another user" not in done.stderr:
                yield f"{name}: {done.stdout[:20]!r} {done.stderr[-200:]!r}"
    own = pipes[0][0]
    reader = os.open(own, os.O_RDONLY | os.O_NONBLOCK)
    try:
        yield from wrong_status(field.run("serve", "--tree", start, "--record", own, input=HELLO), 0)
        if os.read(reader, 8) != b"SFTPTR01":
            yield "nothing is recorded in a FIFO of one's own"
    finally:
        os.close(reader)


@attack("user", "tar")
def an_archive_makes_a_program_of_root(field):
    """What a client uploaded with set-id bits has none, where root unpacks it as the documents have it."""
    content = Path("/usr/bin/id").read_bytes()
    field.put("end.tree", put(Tree([Entry(b"/id", FILE, content, permissions=0o4755)])))
    archive, recipes = field.run("export", "end.tree").stdout, []
    for document in ("README.md", "docs/USING.md", "docs/OPERATORS.md"):
        said = re.findall(r"export \S+ \| tar -C result (-x.*)", Path(TOP, document).read_text(encoding="utf-8"))
        for place, options in enumerate(said):
            made = field.path(f"{document.replace('/', '-')}{place}")
            os.mkdir(made)
            subprocess.run(["tar", "-C", made, *options.split()], input=archive, check=True)
            ran = subprocess.run([f"{made}/id"], user=field.user.pw_uid, group=field.user.pw_gid, capture_output=True)
            if os.stat(f"{made}/id").st_mode & 0o6000 or b"euid=" in ran.stdout or not ran.stdout:
                yield f"{document}, {options}: {ran.stdout!r}"
        recipes += said
    if not recipes:
        yield "no document says how to unpack"


@attack(is_small=True)
def left_files_stop_a_save(field):
    """What killed runs leave is in the way of none."""
    saved = field.put("saved.tree", b"old")
    left = [field.put(f"saved.tree.new{it}", b"left") for it in ["", *range(2, 130)]]
    yield from wrong_status(field.run("blank", saved), 0)
    if not field.read("saved.tree").startswith(b"SFTREE01"):
        yield "nothing was saved"
    if any(field.read(it) != b"left" for it in left) or len(field.names()) != 1 + len(left):
        yield f"{len(field.names())} files are there"


@attack(is_small=True)
def new_files_can_be_read_by_others(field):
    """With a umask of 0 the files that are made are for their user alone, unless an option says otherwise."""
    runs = writing(field)
    for mode, words in ((0o600, []), (0o644, ["--mode", "0644"])):
        for name in ("blank", "raise", "make", "import", "--out", "--save", "--record"):
            made = field.path(f"{name}{mode:o}")
            yield from wrong_status(write(field, runs[name], made, *words, umask=0), 0)
            if os.path.exists(made) and os.stat(made).st_mode & 0o7777 != mode:
                yield f"{name} {' '.join(words)}: mode {os.stat(made).st_mode & 0o7777:o}"


@attack()
def a_file_is_read_while_it_is_written(field):
    """The new file is for its user alone until it is complete, whatever the old one allows."""
    start = field.put("large.tree", large(60))
    saved, seen, done = field.put("saved.tree", b"old", 0o666), [], threading.Event()

    def watch():
        while not done.is_set():
            for it in field.names():
                if it.startswith("saved.tree.new"):
                    with suppress(OSError):
                        found = os.stat(field.path(it))
                        seen.append((found.st_mode & 0o7777, found.st_size))

    watcher = threading.Thread(target=watch)
    watcher.start()
    try:
        for _ in range(3):
            yield from wrong_status(field.run("raise", start, saved, umask=0), 0)
    finally:
        done.set()
        watcher.join()
    whole = os.path.getsize(saved)
    if not any(size < whole for _, size in seen):
        yield f"the new file was never seen before it was complete ({len(seen)} looks)"
    if any(mode != 0o600 and size < whole for mode, size in seen):
        yield f"permissions while it was written: {sorted({oct(mode) for mode, size in seen if size < whole})}"
    if os.stat(saved).st_mode & 0o7777 != 0o666:
        yield "the permissions of the old file are lost"


@attack(is_small=True)
def a_link_to_no_file_makes_one(field):
    """A link that another user put there does not say where a file is made."""
    os.symlink("elsewhere", field.path("saved.tree"))
    start = field.blank()
    for words in (["blank", "saved.tree"], ["serve", "--tree", start, "--save", "saved.tree"],
                  ["serve", "--tree", start, "--record", "saved.tree"]):
        yield from wrong_status(field.run(*words, input=HELLO), 3)
        if "elsewhere" in field.names():
            yield f"{words[0]} made a file behind the link"
            os.remove(field.path("elsewhere"))


@attack(is_small=True)
def a_pipe_or_a_device_takes_the_tree(field):
    """Nothing but a regular file is saved to, unless it is standard output, and no session is served for it."""
    start = field.blank()
    os.mkfifo(field.path("pipe"))
    for name in (field.path("pipe"), "/dev/null", field.folder):
        done = field.run("serve", "--tree", start, "--save", name, input=HELLO)
        yield from wrong_status(done, 3)
        if done.stdout:
            yield f"a session was served that cannot be saved to {name}"
        yield from wrong_status(field.run("blank", name), 3)
    done = field.run("blank", "/dev/stdout")
    yield from wrong_status(done, 0)
    if done.stdout != field.read("start.tree"):
        yield "nothing on standard output"


@attack()
def a_killed_save_leaves_half_a_file(field):
    """A run that is killed at any time leaves the old file or the new one, and the next run goes on."""
    start, blank = field.put("large.tree", large(40)), field.blank()
    saved = field.path("saved.tree")
    field.run("raise", start, field.path("new.tree"))
    whole = (field.read("start.tree"), field.read("new.tree"))
    for delay in range(20):
        field.run("raise", blank, saved) if delay == 0 else None
        before = field.read("saved.tree")
        running = subprocess.Popen([program(), "raise", start, saved], stderr=subprocess.DEVNULL)
        time.sleep(delay * 0.01)
        running.send_signal(signal.SIGKILL)
        running.wait()
        if field.read("saved.tree") not in (before, whole[1]):
            yield f"after {delay * 0.01:.2f} seconds the file is neither the old one nor the new one"
    yield from wrong_status(field.run("raise", start, saved), 0)
    if field.read("saved.tree") != whole[1]:
        yield "the last run did not save"


@attack("strace")
def a_power_cut_after_the_end(field):
    """The bytes are on the disk before the file has its name, and the name before the run ends."""
    saved, log = field.path("saved.tree"), field.path("log")
    for words, wanted in (([], ["fsync", "rename", "fsync"]), (["--no-sync"], ["rename"])):
        subprocess.run(["strace", "-f", "-o", log, "-e", "trace=fsync,fdatasync,rename,renameat,renameat2", program(),
                        "blank", saved, *words], stdout=subprocess.DEVNULL, stderr=subprocess.DEVNULL)
        calls = re.findall(r"(?m)^\d+ +(fsync|fdatasync|rename)\w*\(", field.read("log").decode())
        if calls != wanted:
            yield f"{' '.join(words) or 'without options'}: {' '.join(calls) or 'no call'}"
    recorded = subprocess.run(["strace", "-f", "-o", log, "-e", "trace=fsync,fdatasync", program(), "serve", "--tree",
                               saved, "--record", field.path("record")], input=HELLO, stdout=subprocess.DEVNULL)
    if recorded.returncode or len(re.findall(r"(?m)^\d+ +f\w*sync\(", field.read("log").decode())) != 2:
        yield "the record of a session is not on the disk at its end"
