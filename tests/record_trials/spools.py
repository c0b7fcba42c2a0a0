"""sftpv3-recordd: records that the login user cannot touch."""
import os
import pwd
import shutil
import signal
import socket
import stat
import subprocess
import time
from pathlib import Path

from record_trials.steps import (INIT, RECORD, STUB, TOP, close, errors, leave, meet, open_session, receive,
                                 receive_within, stubs)
from sftpv3 import codec
from sftpv3.codec import request
from sftpv3.recorder.auditing import SCOPE, setting
from sftpv3.spool import clocks, sinks
from trials.copies import copy_scripts
from trials.processes import SOON, ended, executable, make_user, remove_user, run, wait_until

DAEMON = os.environ.get("RECORDD", str(TOP / "clients/recordd"))
OTHER = "sftpv3-trial"


class Spool:
    """A daemon with a spool in the folder of a trial."""

    def __init__(self, room, *options):
        self.room, self.folder, self.socket = room, room.folder / "spool", room.folder / "socket"
        room.folder.chmod(0o755)
        self.folder.mkdir(exist_ok=True)
        self.folder.chmod(0o700)
        self.daemon = subprocess.Popen([DAEMON, *map(str, options), "--socket", self.socket, self.folder],
                                       stderr=subprocess.PIPE)
        room.started.append(self.daemon)
        wait_until(self.socket.exists)

    def end(self):
        self.daemon.send_signal(signal.SIGTERM)
        return ended(self.daemon, SOON)

    def records(self):
        return sorted(self.folder.glob("*/*.transcript*"))

    def times(self):
        return sorted(self.folder.glob("*/*.times*"))

    def session(self, *words, options=(), **more):
        return self.room.start("--spool", self.socket, *options, STUB, *words, **more)


def user():
    return pwd.getpwuid(os.getuid()).pw_name


def kept(steps, room):
    spool = Spool(room)
    environment = {**os.environ, "SSH_CONNECTION": "192.0.2.7 5000 192.0.2.1 22"}
    process = spool.session(env=environment)
    open_session(process)
    asked = [request(it, "READ", b"h", 0, 32768) for it in range(100)]
    process.stdin.write(b"".join(asked))
    got = receive(process, 100 * (13 + 32768))
    steps.check("a session into a spool: status 0", leave(process) == 0, errors(process))
    found = spool.records()
    steps.check("there is one record", len(found) == 1, str(found))
    steps.check("it is named with user, time, address and process", found[0].parent.name == user() and
                found[0].name.endswith(f"Z-192.0.2.7-{process.pid}.transcript"), str(found))
    steps.check("its mode is 0600", stat.S_IMODE(found[0].stat().st_mode) == 0o600)
    records = codec.records(found[0].read_bytes())
    steps.check("it has all that passed", b"".join(it for side, it in records if side == b"C") == INIT +
                b"".join(asked) and b"".join(it for side, it in records if side == b"S")[9:] == got)
    steps.check("it is a transcript and no more", codec.put_records(records) == found[0].read_bytes())
    steps.check("the daemon ends with status 0", spool.end() == 0)


def timed(steps, room):
    """Beside a record of a spool is a file of times of the boot, which is right for what the recorder passed on."""
    spool = Spool(room)
    process = spool.session()
    open_session(process)
    begun = sinks.boot_clock()
    process.stdin.write(request(1, "STAT", b"/"))
    receive(process, 21)
    ended_at = sinks.boot_clock()
    time.sleep(0.2)
    process.stdin.write(request(2, "STAT", b"/"))
    receive(process, 21)
    steps.check("a session into a spool ends", leave(process) == 0, errors(process))
    (record,), (times,) = spool.records(), spool.times()
    clock = clocks.clock_of(times.read_bytes())
    moments = [clock.zero + it for it in clock.times]
    steps.check("its times are beside it, for their user alone", times.stem == record.stem and
                stat.S_IMODE(times.stat().st_mode) == 0o600, times)
    steps.check("each record has one, on the clock of this boot", clock.boot == sinks.boot_id() and
                len(moments) == len(codec.records(record.read_bytes())) == 6, moments)
    steps.check("a request has its time before its reply has come, and the next one later", begun <= moments[2] <=
                moments[3] <= ended_at < ended_at + 10**8 < moments[4], [begun, moments, ended_at])
    opened, whole = b"SFTPSP01\0", b"\0\0\0\x08SFTPTR01"
    batches = {"whole records": (b"C\0\0\0\5\1\0\0\0\3", 1), "no records": (b"what is no record", 0),
               "a record that is cut": (b"C\0\0\0\5\1\0\0", 0), "empty packets": (b"C\0\0\0\0" * 9, 0)}
    for name, (batch, count) in batches.items():
        for it in (*spool.records(), *spool.times()):
            it.unlink()
        with socket.socket(socket.AF_UNIX) as link:
            link.connect(str(spool.socket))
            for data in (opened, whole, len(batch).to_bytes(4, "big") + batch):
                link.sendall(data)
                link.recv(8)
        wait_until(lambda: spool.times() and spool.times()[0].stat().st_size >= 32)
        steps.check(f"{name}: {count} times", len(clocks.clock_of(spool.times()[0].read_bytes()).times) == count)
    steps.check("the daemon ends", spool.end() == 0)


def both_ways(steps, room):
    """What comes both ways at once is recorded one after the other, and passed on, also if the daemon takes a while."""
    spool = Spool(room)
    process = spool.session("late")
    open_session(process)
    meet(process, request(1, "STAT", b"/"), request(2, "STAT", b"/"))
    spool.daemon.send_signal(signal.SIGSTOP)
    process.send_signal(signal.SIGCONT)
    time.sleep(0.5)
    spool.daemon.send_signal(signal.SIGCONT)
    got = receive_within(process, 42, 10)
    steps.check("a request and a reply that come at once: both are passed on", len(got) == 42, f"{len(got)} of 42")
    leave(process)
    records = codec.records(spool.records()[0].read_bytes())
    steps.check("and recorded", sorted(side for side, _ in records) == [b"C"] * 3 + [b"S"] * 3, str(records))


# Runs a command where there is no /proc.
WITHOUT_PROC = ["unshare", "--mount", "sh", "-c", 'mount -t tmpfs none /proc && exec "$@"', "sh"]


def without_proc(steps, room):
    """A spool in a ChrootDirectory, which has no /proc."""
    if run([*WITHOUT_PROC, "true"]).returncode:
        steps.skip("a spool without /proc", "nothing can be mounted here")
        return
    spool = Spool(room)
    words = [*WITHOUT_PROC, RECORD, "--required", "--spool", spool.socket, STUB]
    process = subprocess.Popen(list(map(str, words)), stdin=subprocess.PIPE, stdout=subprocess.PIPE,
                               stderr=subprocess.PIPE, bufsize=0, cwd=room.folder)
    room.started.append(process)
    steps.check("a spool without /proc: a session runs", len(open_session(process)) == 9)
    steps.check("its server is where the recorder was started", len(stubs(room.folder)) == 1)
    steps.check("and it is recorded", leave(process) == 0 and len(spool.records()) == 1, errors(process))


def lost_spools(steps, room):
    for name, options, is_required in (("a daemon that ends", (), False), ("--required: a daemon that ends", (), True)):
        spool = Spool(room)
        process = spool.session(options=["--required"] if is_required else [])
        open_session(process)
        steps.check(f"{name}: it ends", spool.end() == 0)
        process.stdin.write(request(1, "STAT", b"/"))
        got = receive(process, 21)
        status = leave(process)
        steps.check(f"{name}: {'the session ends with it' if is_required else 'the session goes on'}",
                    (len(got), status) == ((0, 3) if is_required else (21, 0)), f"{len(got)} {status}")
        steps.check(f"{name}: a line says so", "takes no more" in errors(process))
    for options, status in (((), 0), (("--required",), 3)):
        process = room.start("--spool", room.folder / "nowhere", *options, STUB)
        process.stdin.write(INIT)
        got = receive(process, 9)
        steps.check(f"no daemon {' '.join(options)}: status {status}", leave(process) == status and
                    len(got) == (0 if status else 9), str(process.poll()))


def hanging_daemon(steps, room):
    """A daemon that hangs holds a session up for some seconds, and then the session goes on or ends."""
    for options, status in (((), 0), (("--required",), 3)):
        spool = Spool(room)
        process = spool.session(options=options)
        open_session(process)
        spool.daemon.send_signal(signal.SIGSTOP)
        start = time.monotonic()
        process.stdin.write(request(1, "STAT", b"/"))
        got = receive(process, 21)
        took = time.monotonic() - start
        close(process.stdin)
        name = f"a daemon that hangs {' '.join(options)}"
        steps.check(f"{name}: after 10 seconds the session {'ends' if status else 'goes on'}",
                    (len(got), ended(process, SOON)) == (0 if status else 21, status) and 9 < took < SOON,
                    f"{len(got)} {process.poll()} {took}")
        steps.check(f"{name}: a line says so", "has not replied" in errors(process))
        spool.daemon.send_signal(signal.SIGCONT)
        spool.end()


def paused(steps, room):
    """A machine that is paused while a batch is at the daemon: that time is none in which the daemon hung."""
    spool = Spool(room)
    process = spool.session(options=["--required"])
    open_session(process)
    stopped = [spool.daemon.pid, process.pid, *stubs(room.folder)]
    os.kill(spool.daemon.pid, signal.SIGSTOP)
    process.stdin.write(request(1, "STAT", b"/"))
    time.sleep(0.5)
    for it in stopped:
        os.kill(it, signal.SIGSTOP)
    time.sleep(12)
    for it in reversed(stopped):
        os.kill(it, signal.SIGCONT)
        time.sleep(0.2)
    got = receive(process, 21)
    steps.check("a pause of the machine of 12 seconds: the session goes on", (len(got), leave(process)) == (21, 0),
                errors(process))
    steps.check("and is recorded", len(codec.records(spool.records()[0].read_bytes())) == 4)


def begun_and_left(steps, room):
    """A recorder that is killed before it has sent the beginning of its record: no empty one is left."""
    spool = Spool(room, "--records-per-user", "2")
    for _ in range(3):
        with socket.socket(socket.AF_UNIX) as link:
            link.connect(str(spool.socket))
            link.sendall(b"SFTPSP01\0")
            begun = link.recv(8)
    steps.check("a recorder that begins a record may do so again, where the last was left empty", begun == bytes(8))
    steps.check("a record that was begun and left is none", wait_until(lambda: not spool.records()), spool.records())
    process = spool.session()
    open_session(process)
    leave(process)
    steps.check("one with a session stays", spool.end() == 0 and len(spool.records()) == 1, spool.records())


def limits(steps, room):
    for name, options in (("--per-session", ["--per-session", "100K"]), ("--per-user", ["--per-user", "100K"]),
                          ("--keep-free", ["--keep-free", "1000T"])):
        spool = Spool(room, *options)
        process = spool.session(options=["--required"])
        process.stdin.write(INIT + b"".join(request(it, "READ", b"h", 0, 32768) for it in range(20)))
        got = b""
        while True:
            piece = receive(process, 1000)
            got += piece
            if not piece:
                break
        steps.check(f"{name}: a session that is required ends with status 3", ended(process, SOON) == 3)
        spool.end()
        counted = spool.records() + (spool.times() if name == "--per-user" else [])
        sizes = [it.stat().st_size for it in counted]
        steps.check(f"{name}: the record is not longer", sum(sizes) <= 100 << 10 and len(got) <= 100 << 10, str(sizes))
        steps.check(f"{name}: it is whole", all(codec.put_records(codec.records(it.read_bytes())) == it.read_bytes()
                                                for it in spool.records()))
        for it in (*spool.records(), *spool.times()):
            it.unlink()
    spool = Spool(room, "--sessions", "2")
    for process in (spool.session(options=["--required"]) for _ in range(2)):
        steps.check("--sessions 2: two sessions are recorded", len(open_session(process)) == 9)
    process = spool.session(options=["--required"])
    steps.check("--sessions 2: a third one is refused", ended(process, SOON) == 3)


def hostile(steps, room):
    """What a user can send to the socket."""
    spool = Spool(room)
    opening = b"SFTPSP01"
    for name, data in (("garbage", b"x" * 100), ("a path as address", opening + b"\x0b../../../x/" +
                                                      b"\0\0\0\x08SFTPTR01"),
                       ("a batch that is too long", opening + b"\0" + b"\xff" * 4 + bytes(1000)),
                       ("a batch that does not come whole", opening + b"\0" + b"\0\1\0\0" + bytes(100))):
        with socket.socket(socket.AF_UNIX) as link:
            link.connect(str(spool.socket))
            link.sendall(data)
            time.sleep(0.1)
    time.sleep(0.2)
    found = spool.records()
    steps.check("what is sent makes files of this user's folder alone, and none of what is no batch",
                {it.parent.name for it in found} == {user()} and [it.read_bytes() for it in found] == [b"SFTPTR01"] and
                len(list(room.folder.iterdir())) == 2, str(found))
    silent = socket.socket(socket.AF_UNIX)
    silent.connect(str(spool.socket))
    process = spool.session()
    open_session(process)
    steps.check("a connection that says nothing does not hinder others", leave(process) == 0)
    silent.settimeout(SOON)
    steps.check("and is closed", silent.recv(1) == b"")
    silent.close()
    steps.check("the daemon runs on", spool.daemon.poll() is None)


def unfit(steps, room):
    for mode, text in ((0o777, "no other can write"), (0o755, "every user")):
        folder = room.folder / f"spool{mode:o}"
        folder.mkdir()
        folder.chmod(mode)
        ran = subprocess.run([DAEMON, "--socket", room.folder / "socket", folder], stderr=subprocess.PIPE, text=True,
                             timeout=SOON)
        steps.check(f"a spool of mode {mode:o} is refused", ran.returncode == 3 and text in ran.stderr, ran.stderr)


    log = room.folder / "nowhere/log"
    for words, text in ((["--log", log, room.folder], f"cannot write {log}"),
                        ([""], "cannot use the spool : No such file or directory")):
        ran = subprocess.run([DAEMON, "--socket", room.folder / "socket", *words], stderr=subprocess.PIPE, text=True,
                             timeout=SOON)
        steps.check(f"what cannot be opened is named: {text.replace(str(room.folder), '..')}",
                    ran.returncode == 3 and text in ran.stderr, ran.stderr)


def one_behind_another(steps, room):
    """A daemon that ends leaves the socket alone that another one has made since, by the same name."""
    first = Spool(room)
    before = first.socket.stat().st_ino
    second = Spool(room)
    steps.check("a second daemon takes the name of the socket",
                wait_until(lambda: first.socket.stat().st_ino != before))
    steps.check("the first one ends", first.end() == 0)
    process = second.session(options=["--required"])
    steps.check("the second one has its socket still", len(open_session(process)) == 9 and second.socket.exists())
    leave(process)
    steps.check("which goes with it", second.end() == 0 and not second.socket.exists())


def activated(steps, room):
    """The socket that systemd opens."""
    folder = room.folder / "spool"
    folder.mkdir(mode=0o700)
    paths = [room.folder / "socket", room.folder / "socket-of-a-new-root"]
    try:
        daemon = subprocess.Popen(["systemd-socket-activate", *(word for it in paths for word in ("-l", it)), DAEMON,
                                   folder], stderr=subprocess.DEVNULL)
    except FileNotFoundError:
        steps.skip("socket activation", "systemd-socket-activate is not installed")
        return
    room.started.append(daemon)
    for number, path in enumerate(paths, 1):
        wait_until(path.exists)
        process = room.start("--required", "--spool", path, STUB)
        name = f"with socket activation, by socket {number} of 2"
        steps.check(f"{name}: the session runs", len(open_session(process)) == 9)
        steps.check(f"{name}: it is recorded", leave(process) == 0 and
                    wait_until(lambda: len(list(folder.glob("*/*.transcript"))) == number, 5))


def few_files(steps, room):
    """A daemon that has no descriptors left waits, and goes on."""
    spool = Spool(room)
    number = spool.daemon.pid
    subprocess.run(["prlimit", "--pid", str(number), "--nofile=20:20"], check=True)
    links = [socket.socket(socket.AF_UNIX) for _ in range(40)]
    for link in links:
        link.connect(str(spool.socket))
    time.sleep(0.3)
    before = Path(f"/proc/{number}/stat").read_text().split()[13:15]
    time.sleep(2)
    after = Path(f"/proc/{number}/stat").read_text().split()[13:15]
    took = (sum(map(int, after)) - sum(map(int, before))) / os.sysconf("SC_CLK_TCK")
    steps.check("a daemon without descriptors does not spin", took < 0.5, f"{took} s of 2")
    for link in links:
        link.close()
    time.sleep(1)
    process = spool.session(options=["--required"])
    steps.check("and records again once it has some", len(open_session(process)) == 9)
    leave(process)


def units(steps, room):
    """The units of systemd are as it wants them."""
    words = shutil.which("systemd-analyze")
    if not words:
        steps.skip("the units of systemd", "systemd-analyze is not installed")
        return
    for name in ("sftpv3-recordd", "sftpv3-nightly"):
        executable(room.folder / name, "#!/bin/sh\n")
    made = []
    for unit in sorted((TOP / "packaging").glob("*.*")):
        if unit.suffix in (".service", ".socket", ".timer"):
            # an instance for a unit that is made for each user
            made.append(room.folder / unit.name.replace("@", "@u"))
            (room.folder / unit.name).write_text(unit.read_text().replace("@BIN@", str(room.folder)))
            if made[-1].name != unit.name:
                made[-1].symlink_to(unit.name)
    ran = run([words, "verify", "--man=no", *made])
    ours = [it for it in ran.stdout.splitlines() if "sftpv3" in it]
    steps.check("systemd-analyze verifies the units", ran.returncode == 0 and not ours and len(made) == 4, ran.stdout)


def other_user(steps, room):
    """A login user can use the spool, and neither read, change, rename nor remove what is in it."""
    if steps.lacks_root("a spool and a second user", "root alone can make one"):
        return
    make_user(OTHER)
    try:
        number = pwd.getpwnam(OTHER).pw_uid
        spool = Spool(room)
        # a copy that the user can reach, as one that is installed
        program = copy_scripts(room.folder / "scripts")
        subprocess.run(["cp", STUB, program], check=True)
        subprocess.run(["chmod", "-R", "a+rX", program.parent], check=True)
        become = {"user": number, "group": pwd.getpwnam(OTHER).pw_gid, "extra_groups": []}
        process = subprocess.Popen([program / "record", "--required", "--spool", spool.socket,
                                    program / "stub.py"], stdin=subprocess.PIPE, stdout=subprocess.PIPE,
                                   stderr=subprocess.PIPE, bufsize=0, cwd="/", **become)
        room.started.append(process)
        steps.check("a second user is recorded", len(open_session(process)) == 9)
        steps.check("with status 0", leave(process) == 0, errors(process))
        found = spool.records()
        steps.check("under the name of that user", [it.parent.name for it in found] == [OTHER], str(found))
        before = found[0].read_bytes()
        for command in (f"cat {found[0]}", f"ls {spool.folder}", f"ls {found[0].parent}", f"echo x > {found[0]}",
                        f"mv {found[0]} {found[0]}.x", f"rm -f {found[0]}", f"rm -rf {spool.folder}",
                        f"ln -s /etc/passwd {found[0].parent}/x", f"mv {spool.folder} {room.folder}/away"):
            ran = subprocess.run(["sh", "-c", command], stderr=subprocess.PIPE, stdout=subprocess.PIPE, cwd="/",
                                 **become)
            steps.check(f"that user cannot {command.split()[0]}: {command.replace(str(room.folder), '..')}",
                        ran.returncode != 0)
        steps.check("the record is as it was", found == spool.records() and found[0].read_bytes() == before)
        started_by_a_shell(steps, process.args, become)
    finally:
        remove_user(OTHER)


def started_by_a_shell(steps, words, become):
    """A shell that waits for the recorder has a memory that the user's server can write to, unless Yama forbids it."""
    is_open = setting(SCOPE, "0") == "0"
    for name, script in (("waits for", '"$@"; exit $?'), ("gives its place to", 'exec "$@"')):
        ran = subprocess.run(["sh", "-c", script, "sh", *map(str, words)], input=INIT, capture_output=True, cwd="/",
                             env={**os.environ, "SSH_CONNECTION": "192.0.2.7 4711 192.0.2.8 22"}, **become)
        is_said = b"write exec in front of the recorder" in ran.stderr
        steps.check(f"a shell that {name} the recorder: {'a line' if name == 'waits for' else 'no line'} says so",
                    ran.returncode == 0 and is_said == (is_open and name == "waits for"), str(ran))


TRIALS = (kept, timed, both_ways, without_proc, lost_spools, hanging_daemon, paused, begun_and_left, limits, hostile,
          unfit, one_behind_another, activated, few_files, units, other_user)
