"""Full disks, long packets, lack of memory, commands that cannot run, code of the user."""
import os
import pty
import resource
import subprocess
import time

from record_trials.ends import whole
from record_trials.steps import INIT, RECORD, STUB, errors, open_session
from sftpv3 import codec
from sftpv3.codec import request
from trials.disks import small_disk
from trials.processes import SOON, ended, executable, is_done, limited, worked


def run(room, *words, data=b"", **options):
    return subprocess.run([RECORD, *map(str, words)], input=data, stdout=subprocess.PIPE, stderr=subprocess.PIPE,
                          cwd=room.folder, timeout=SOON, **options)


def commands(steps, room):
    ran = run(room, "t", "/nowhere/server")
    steps.check("a command that does not exist: status 127", ran.returncode == 127, str(ran.returncode))
    steps.check("a command that does not exist: one line", ran.stderr.count(b"\n") == 1, str(ran.stderr))
    steps.check("a command that does not exist leaves no transcript", not (room.folder / "t").exists())
    (room.folder / "plain").write_text("x")
    ran = run(room, "t", "./plain")
    steps.check("a command that is not executable: status 126", ran.returncode == 126, str(ran.returncode))
    steps.check("a command that is not executable: one line", ran.stderr.count(b"\n") == 1, str(ran.stderr))
    ran = run(room, "t", "internal-sftp", "-u", "022")
    steps.check("what sshd has in itself: status 127, and which server to name", ran.returncode == 127 and
                b"part of sshd; name the file of its server" in ran.stderr, str(ran))
    ran = run(room, "--help")
    steps.check("--help: status 0, on standard output", ran.returncode == 0 and b"--plain" in ran.stdout)
    for words in ((), ("t",), ("--unknown", "t", "true"), ("a%q", "true"), ("--audit", "t", "true"),
                  ("--times", "", "t", "true"), ("--log=", "t", "true"), ("--spool", "", "t", "true", "true")):
        ran = run(room, *words)
        steps.check(f"wrong usage {words}: status 2", ran.returncode == 2, f"{ran.returncode}: {ran.stderr}")
        steps.check(f"wrong usage {words}: no traceback", b"Traceback" not in ran.stderr)
    ran = run(room, "t", "/bin/sh", "-c", "echo --help; exit 5", "--plain")
    steps.check("options of the command are the command's", (ran.returncode, ran.stdout) == (5, b"--help\n"), str(ran))


# What a client is told that wants something else where ForceCommand starts the recorder.
ONLY_SFTP = "only SFTP is served here"


def forced(asked):
    """The environment in which ForceCommand starts the recorder in place of this command, or of a shell if None."""
    over = {"SSH_CONNECTION": "192.0.2.7 4711 192.0.2.1 22"}
    return {**os.environ, **over, **({"SSH_TTY": "/dev/pts/9"} if asked is None else {"SSH_ORIGINAL_COMMAND": asked})}


def other_commands(steps, room):
    """Clients that want a shell or a command, where ForceCommand starts the recorder: they are told, and end."""
    silent = {it: room.stub(f"t-{it}", env=forced(asked))
              for it, asked in (("id", "id"), ("server", "/usr/lib/openssh/sftp-server -u 022"), ("mine", "/opt/mine"))}
    late = room.stub("t-late", env=forced("/opt/mine -x"))
    time.sleep(1)
    steps.check("a server whose name tells nothing: a session is had", len(open_session(late)) == 9)
    late.stdin.close()
    steps.check("and recorded", ended(late, SOON) == 0 and room.read("t-late").startswith(b"SFTPTR01C"))
    ours, theirs = pty.openpty()
    shell = room.stub("t-shell", stdin=theirs, env=forced(None))
    for name, process in (("id", silent["id"]), ("a shell", shell)):
        steps.check(f"{name}, of a client that says nothing: it ends", ended(process, 20) not in (None, 0))
        steps.check(f"{name}: a line says that only SFTP is served", ONLY_SFTP in errors(process))
    steps.check("and nothing is recorded", not {"t-id", "t-shell"} & set(os.listdir(room.folder)))
    steps.check("a client that asked for SFTP and says nothing is waited for", silent["server"].poll() is None)
    for data in (b"", b"hi\n"):
        ran = run(room, "--overwrite", "t", STUB, data=data, env=forced("cat -n"))
        steps.check(f"a command to which {data!r} is sent: its client is told", ran.returncode != 0 and
                    ONLY_SFTP.encode() in ran.stderr and ran.stdout == b"", str(ran))
    over = {**os.environ, "SSH_CONNECTION": "192.0.2.7 1 192.0.2.1 2"}
    ran = run(room, "--overwrite", "t", STUB, data=b"", env=over)
    steps.check("a subsystem to which nothing is sent: no word", ran.returncode == 0 and ran.stderr == b"", str(ran))
    os.close(ours)
    os.close(theirs)


def files_named_twice(steps, room):
    """A file is for one thing: one that is written for another as well, or read as the tree, would be lost."""
    for name in ("f", "t"):
        (room.folder / name).write_bytes(b"dear")
    os.link(room.folder / "f", room.folder / "hard")
    (room.folder / "link").symlink_to("f")
    for words in (("--overwrite", "--audit", "--tree", "f", "f"), ("--overwrite", "--audit", "--tree", "f", "hard"),
                  ("--audit", "--tree", "f", "--out", "new", "./new"), ("--audit", "--tree", "f", "--log", "f", "new"),
                  ("--audit", "--tree", "link", "--log", "f", "new"), ("--times", "new", "new"),
                  ("--log", "t", "t"), ("--overwrite", "--log", "t", "--times", "t", "new")):
        before = set(os.listdir(room.folder))
        ran = run(room, *words, STUB, data=INIT)
        steps.check(f"{' '.join(words)}: status 2", ran.returncode == 2 and b"names the file of" in ran.stderr,
                    str(ran))
        steps.check(f"{' '.join(words)}: no file is changed", room.read("f") == room.read("t") == b"dear" and
                    set(os.listdir(room.folder)) == before, f"{os.listdir(room.folder)}")
    ran = run(room, "--log", "/dev/null", "--times", "/dev/null", "/dev/null", STUB, data=INIT)
    steps.check("a device may be named twice", (ran.returncode, len(ran.stdout)) == (0, 9), str(ran))


def full_disks(steps, room):
    asked = INIT + b"".join(request(it, "READ", b"h", 0, 32768) for it in range(20))
    size = 9 + 20 * (13 + 32768)
    ran = run(room, "t", STUB, data=asked, preexec_fn=limited(resource.RLIMIT_FSIZE, 100_000))
    steps.check("a full disk: the session goes on", (ran.returncode, len(ran.stdout)) == (0, size), str(ran.returncode))
    steps.check("a full disk: one line says so", ran.stderr.count(b"\n") == 1 and b"not recorded" in ran.stderr,
                str(ran.stderr))
    steps.check("a full disk: what there is of the transcript is whole", whole(room)[0] and whole(room)[1] > 20)
    ran = run(room, "/dev/full", STUB, data=asked)
    steps.check("/dev/full: the session goes on", (ran.returncode, len(ran.stdout)) == (0, size), str(ran.returncode))
    ran = run(room, "--required", "r", STUB, data=asked, preexec_fn=limited(resource.RLIMIT_FSIZE, 100_000))
    steps.check("--required on a full disk: status 3", ran.returncode == 3, str(ran.returncode))
    records = codec.records(room.read("r"))
    passed = b"".join(it for side, it in records if side == b"S")
    steps.check("--required on a full disk: no reply is passed that is not recorded",
                passed.startswith(ran.stdout) and whole(room, "r")[0], f"{len(ran.stdout)} of {len(passed)}")
    for name in ("/dev/full", "/nowhere/t"):
        ran = run(room, "--required", name, "/bin/sh", "-c", "echo started; cat >&2", data=asked)
        steps.check(f"--required {name}: no session, status 3", (ran.returncode, ran.stdout) == (3, b""), str(ran))
    ran = run(room, "/nowhere/t", STUB, data=asked)
    steps.check("no folder: the session goes on without a record", (ran.returncode, len(ran.stdout)) == (0, size))
    no_room_at_all(steps, room, asked, size)
    if os.geteuid() == 0:
        on_a_small_disk(steps, room, asked, size)
    else:
        steps.skip("a small file system", "root alone can mount one")


def no_room_at_all(steps, room, asked, size):
    """Where not even the beginning of a transcript can be written, none is left: a night would refuse an empty one."""
    nothing = {"data": asked, "preexec_fn": limited(resource.RLIMIT_FSIZE, 0)}
    ran = run(room, "--times", "n.times", "n", STUB, **nothing)
    steps.check("no room at all: the session goes on", (ran.returncode, len(ran.stdout)) == (0, size), str(ran))
    ran = run(room, "--required", "n", STUB, **nothing)
    steps.check("--required without any room: status 3, and nothing passes", (ran.returncode, ran.stdout) == (3, b""),
                str(ran))
    left = [it for it in os.listdir(room.folder) if it.startswith("n")]
    steps.check("and neither leaves an empty transcript", not left, left)
    (room.folder / "over").write_bytes(b"")
    run(room, "--overwrite", "over", STUB, **nothing)
    steps.check("a file that was there before stays", (room.folder / "over").exists())


def few_descriptors(steps, room):
    """Where the system gives too few descriptors, that is said, and no empty record is left."""
    for count in range(5, 20):
        ran = run(room, "--required", "few", STUB, data=INIT, preexec_fn=limited(resource.RLIMIT_NOFILE, count))
        records = [it for it in os.listdir(room.folder) if it.startswith("few")]
        steps.check(f"{count} descriptors: a session with its record, or a line and neither", ran.returncode == 0 and
                    whole(room, "few")[0] or ran.returncode in (3, 126) and b"Too many open files" in ran.stderr and
                    not records, f"{ran} {records}")
        steps.check(f"{count} descriptors: no other user is blamed", b"others" not in ran.stderr.replace(
            b"whether others", b""), str(ran.stderr))
        for it in records:
            (room.folder / it).unlink()


# Runs a command where /dev has nothing, as in a ChrootDirectory that was not set up.
WITHOUT_DEVICES = ["unshare", "--mount", "sh", "-c", 'mount -t tmpfs none /dev && exec "$@"', "sh"]


def said_in_the_log(steps, room):
    """What keeps a session from its beginning is in the log, since sshd throws away what goes to standard error."""
    words = [RECORD, "--required", "--log", room.folder / "log", room.folder / "t", STUB]
    tried = [("few descriptors", b"Too many open files", [], limited(resource.RLIMIT_NOFILE, it)) for it in
             range(10, 20)]
    if is_done([*WITHOUT_DEVICES, "true"]):
        tried.append(("no /dev/null", b"/dev/null: No such file or directory", WITHOUT_DEVICES, None))
    for name, why, before, act in tried:
        ran = subprocess.run([*before, *map(str, words)], input=INIT, capture_output=True, preexec_fn=act)
        log = room.read("log") if (room.folder / "log").exists() else ran.stderr
        steps.check(f"{name}: a session, or the log says why there is none", ran.returncode == 0 or
                    ran.returncode in (3, 126) and why in log, f"{ran} {log}")
        for it in room.folder.iterdir():
            it.unlink()


def on_a_small_disk(steps, room, asked, size):
    with small_disk(room.folder / "small", "64k") as is_there:
        if not is_there:
            steps.skip("a small file system", "none can be made here")
            return
        ran = run(room, "small/t", STUB, data=asked)
        steps.check("a small file system: the session goes on", (ran.returncode, len(ran.stdout)) == (0, size))
        steps.check("a small file system: the transcript is whole", whole(room, "small/t")[0])


def long_packets(steps, room):
    for name, head, why in (("ffffffff", b"\xff\xff\xff\xff", b"a packet of length 4294967295"),
                            ("garbage", b"Welcome, user\n" * 1000, b'text in place of a packet, "Welcome, user"')):
        for side in ("client", "server"):
            before = worked()
            data = head + bytes(3_000_000)
            (room.folder / "data").write_bytes(data)
            reads = "cat >got; :" if side == "client" else "cat data"
            ran = run(room, "--overwrite", "t", "/bin/sh", "-c", reads, data=data if side == "client" else INIT,
                      preexec_fn=limited(resource.RLIMIT_AS, 300 << 20))
            took = worked() - before
            steps.check(f"{name} of the {side}: it takes less than 10 s of a processor", took < 10, f"{took:.1f} s")
            got = room.read("got") if side == "client" else ran.stdout
            steps.check(f"{name} of the {side}: every byte is passed on", got == data, f"{len(got)} bytes, {ran}")
            steps.check(f"{name} of the {side}: a line says that it is not recorded", b"not recorded" in ran.stderr)
            steps.check(f"{name} of the {side}: it says why", why in ran.stderr, str(ran.stderr))
    for size in (262_140, 262_144, 262_144 + 1024):
        data = INIT + size.to_bytes(4, "big") + bytes(size)
        ran = run(room, "--overwrite", "t", "/bin/sh", "-c", "cat >got; :", data=data)
        steps.check(f"a packet of length {size} is passed on and recorded", room.read("got") == data and
                    room.read("t") == b"SFTPTR01C" + INIT + b"C" + data[len(INIT):], str(ran.stderr))
    ran = run(room, "--overwrite", "t", "/bin/sh", "-c", "cat >got; :", data=INIT + b"\0\0\0\x20half")
    steps.check("an unfinished packet is passed on and not recorded",
                room.read("got") == INIT + b"\0\0\0\x20half" and room.read("t") == b"SFTPTR01C" + INIT)
    ran = run(room, "--required", "--overwrite", "t", "/bin/sh", "-c", "cat >got; :",
              data=INIT + b"\xff" * 4 + bytes(100_000))
    steps.check("--required: a packet that is too long ends the session with status 3",
                ran.returncode == 3 and INIT.startswith(room.read("got")), f"{ran.returncode}")


def little_memory(steps, room):
    """With any limit on memory: a whole session, or a status that is not 0, and never a traceback with status 0."""
    asked = INIT + b"".join(request(it, "READ", b"h", 0, 32768) for it in range(100))
    size = 9 + 100 * (13 + 32768)
    wrong, whole_ones = [], 0
    for mebibytes in (8, 12, 14, 16, 18, 20, 22, 24, 28, 32, 40, 64):
        ran = run(room, "--overwrite", "t", "/bin/cat", data=asked,
                  preexec_fn=limited(resource.RLIMIT_AS, mebibytes << 20))
        if ran.returncode == 0 and ran.stdout == asked and not ran.stderr:
            whole_ones += 1
        elif ran.returncode == 0 or b"Traceback" in ran.stderr and ran.returncode == 0:
            wrong.append(f"{mebibytes} MiB: {ran.returncode}, {len(ran.stdout)} of {size}, {ran.stderr[-200:]}")
    steps.check("want of memory never ends with status 0 before the session's end", not wrong, "; ".join(wrong))
    steps.check("64 MiB are enough", whole_ones > 0)


def foreign_code(steps, room):
    """Nothing that a login user can put into a home or the environment runs in the recorder."""
    home = room.folder / "home"
    version = subprocess.run(["/usr/bin/python3", "-c", "import sys; print('%d.%d' % sys.version_info[:2])"],
                             stdout=subprocess.PIPE, text=True).stdout.strip()
    site = home / f".local/lib/python{version}/site-packages"
    site.mkdir(parents=True)
    for folder in (site, home):
        for name in ("usercustomize", "sitecustomize", "argparse", "selectors", "struct", "sftpv3"):
            (folder / f"{name}.py").write_text(f"open({str(room.folder / 'ran')!r}, 'a').write({name!r})\n")
    (site / "x.pth").write_text(f"import os; open({str(room.folder / 'ran')!r}, 'a').write('pth')\n")
    (home / "start.py").write_text(f"open({str(room.folder / 'ran')!r}, 'a').write('start')\n")
    environment = {**os.environ, "HOME": str(home), "PYTHONPATH": str(home), "PYTHONSTARTUP": str(home / "start.py"),
                   "PYTHONUSERBASE": str(home / ".local"), "PATH": f"{home}:{os.environ['PATH']}"}
    executable(home / "python3", f"#!/bin/sh\necho path >> '{room.folder / 'ran'}'\n")
    ran = subprocess.run([RECORD, room.folder / "t", "/bin/cat"], input=INIT, stdout=subprocess.PIPE,
                         stderr=subprocess.PIPE, cwd=home, env=environment)
    found = (room.folder / "ran").read_text() if (room.folder / "ran").exists() else ""
    steps.check("no code of the user runs in the recorder", not found and ran.stdout == INIT, f"{found} {ran}")


TRIALS = (commands, other_commands, files_named_twice, full_disks, few_descriptors, said_in_the_log, long_packets,
          little_memory, foreign_code)
