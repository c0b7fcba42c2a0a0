"""Names of transcripts, folders, links, times."""
import fcntl
import os
import pwd
import re
import signal
import stat
import subprocess
import time

from record_trials.failing import run
from record_trials.steps import INIT, RECORD, STUB, leave, meet, open_session, receive_within
from sftpv3.codec import put_records, records, request
from sftpv3.recorder.options import plainly_read
from sftpv3.recorder.parsers import record_parser
from trials.processes import SOON


def names(steps, room):
    user = pwd.getpwuid(os.getuid()).pw_name
    for connection, address in (("192.0.2.7 5000 192.0.2.1 22", "192.0.2.7"), ("2001:db8::7 5 2001:db8::1 22",
                                "2001:db8::7"), ("../../x y", "=2e.=2f..=2fx"), ("", "local")):
        environment = {**os.environ, "SSH_CONNECTION": connection}
        before = set(os.listdir(room.folder))
        ran = run(room, "a-%u-%t-%h-%p-100%%", STUB, data=INIT, env=environment)
        made = sorted(set(os.listdir(room.folder)) - before)
        form = rf"a-{user}-[0-9]{{8}}T[0-9]{{6}}Z-{re.escape(address)}-[0-9]+-100%"
        steps.check(f"%u %t %h %p %% with the address {address!r}", len(made) == 1 and re.fullmatch(form, made[0]),
                    f"{made} {ran.stderr}")
    mode = stat.S_IMODE(os.stat(room.folder / made[0]).st_mode)
    steps.check("a transcript has the mode 0600", mode == 0o600, oct(mode))


def taken_names(steps, room):
    first, second = (room.stub("t") for _ in range(2))
    for process in (first, second):
        open_session(process)
    first.stdin.write(request(1, "STAT", b"/one"))
    second.stdin.write(request(2, "STAT", b"/two"))
    for process in (first, second):
        steps.check("two sessions with one name: status 0", leave(process) == 0)
    texts = sorted(it for it in (room.read("t"), room.read("t.2")) if it)
    steps.check("two sessions with one name have a transcript each",
                [b"/one" in texts[0], b"/two" in texts[0]].count(True) == 1 and
                [b"/one" in texts[1], b"/two" in texts[1]].count(True) == 1)
    run(room, "--overwrite", "t", STUB, data=INIT)
    steps.check("--overwrite replaces", b"/one" not in room.read("t") and len(room.read("t")) == 28)
    (room.folder / "victim").write_bytes(b"dear")
    (room.folder / "link").symlink_to("victim")
    run(room, "link", STUB, data=INIT)
    steps.check("a symbolic link is not followed", room.read("victim") == b"dear" and
                (room.folder / "link.2").is_file())
    ran = run(room, "--overwrite", "link", STUB, data=INIT)
    steps.check("a symbolic link is not followed with --overwrite", room.read("victim") == b"dear" and
                b"not recorded" in ran.stderr, str(ran.stderr))
    os.link(room.folder / "victim", room.folder / "hard")
    run(room, "hard", STUB, data=INIT)
    steps.check("a file that exists is not written to", room.read("victim") == b"dear")
    (room.folder / "dangling").symlink_to("absent")
    run(room, "dangling", STUB, data=INIT)
    steps.check("what a dangling link leads to is not made", not (room.folder / "absent").exists())


def many_taken_names(steps, room):
    """Whoever takes the names that can be foreseen ends no session."""
    for end in ["", *(f".{it}" for it in range(2, 100))]:
        (room.folder / f"t{end}").write_bytes(b"")
    ran = run(room, "--required", "t", STUB, data=INIT)
    made = [it for it in room.folder.glob("t.*") if it.stat().st_size]
    steps.check("names that are taken end no session", ran.returncode == 0 and len(made) == 1 and
                re.fullmatch(r"t\.[0-9a-f]{16}", made[0].name), str(ran.stderr))


def locks(steps, room):
    """While a session runs, its transcript is locked."""
    def is_locked():
        return subprocess.run(["flock", "-n", room.folder / "t", "true"], check=False).returncode == 1

    process = room.session("t")
    steps.check("a transcript is locked while its session runs", is_locked())
    ran = run(room, "--overwrite", "--required", "t", STUB, data=INIT)
    steps.check("a second session does not replace it", ran.returncode == 3 and b"another session" in ran.stderr,
                str(ran.stderr))
    steps.check("and leaves it as it is", len(room.read("t")) == 28)
    leave(process)
    steps.check("then it is not locked any more", not is_locked())


def quick_starts(steps, room):
    """A usual command line is read without argparse, and to the same options."""
    words = ["--required", "--log", "l", "--tree", "x y", "--new-owner", "group", "t", "server", "--required", "-u"]
    plain, usual = plainly_read(words), record_parser().parse_args(words)
    steps.check("a usual command line is read as argparse reads it", vars(plain) == vars(usual), f"{vars(plain)}")
    steps.check("an unusual one is left to argparse", not any(plainly_read(it) for it in (
        ["--log=l", "t", "s"], ["--lo", "l", "t", "s"], ["-h"], ["--log"], ["--log", "--plain", "t", "s"],
        ["--grace", "1", "t", "s"], ["--", "t", "s"])))
    ran = subprocess.run(["/usr/bin/python3", "-IS", "-X", "importtime", RECORD, "t", "/bin/true"], cwd=room.folder,
                         stdin=subprocess.DEVNULL, stderr=subprocess.PIPE, text=True, check=False)
    slow = {it.split("|")[-1].strip() for it in ran.stderr.splitlines()} & {"argparse", "subprocess", "re", "enum",
                                                                            "site", "socket", "threading"}
    steps.check("a usual start imports nothing that is slow", not slow and "sftpv3.recorder.sessions" in ran.stderr,
                str(slow))


def pipes(steps, room):
    os.mkfifo(room.folder / "fifo")
    reader = subprocess.Popen(["cat", "fifo"], cwd=room.folder, stdout=subprocess.PIPE)
    ran = run(room, "fifo", STUB, data=INIT)
    got = reader.communicate(timeout=SOON)[0]
    steps.check("a FIFO as transcript", got == b"SFTPTR01C" + INIT + b"S" + ran.stdout, str(got))
    ran = run(room, "fifo", STUB, data=INIT)
    steps.check("a FIFO that nobody reads: the session goes on, and a line says so", len(ran.stdout) == 9 and
                b"not recorded" in ran.stderr, str(ran))
    ran = subprocess.run(["bash", "-c", '"$0" >(cat >through) "$1"', RECORD, STUB], input=INIT,
                         stdout=subprocess.PIPE, cwd=room.folder, timeout=SOON)
    time.sleep(0.3)
    steps.check("a pipe of the shell, >(...), as transcript", room.read("through")[:9] == b"SFTPTR01C", str(ran))


# F_SETPIPE_SZ of Linux, which Python 3.9 has not.
SET_PIPE_SIZE = 1031


def full_pipe(steps, room):
    """A FIFO that is full when something comes both ways at once: nothing is lost, neither of the session nor of its
    record."""
    os.mkfifo(room.folder / "fifo")
    reader = os.open(room.folder / "fifo", os.O_RDONLY | os.O_NONBLOCK)
    fcntl.fcntl(reader, SET_PIPE_SIZE, 4096)
    process = room.session("fifo", "late")
    asked = [request(1, "STAT", b"/"), request(2, "WRITE", b"h", 0, bytes(range(256)) * 64)]
    meet(process, *asked)
    process.send_signal(signal.SIGCONT)
    os.set_blocking(reader, True)
    with subprocess.Popen(["cat"], stdin=reader, stdout=subprocess.PIPE) as cat:
        os.close(reader)
        got = receive_within(process, 42, 10)
        steps.check("a FIFO that is full: what comes both ways at once is passed on", len(got) == 42,
                    f"{len(got)} of 42")
        leave(process)
        data = cat.communicate(timeout=SOON)[0]
    found = records(data)
    sides = [b"".join(it for side, it in found if side == wanted) for wanted in (b"C", b"S")]
    steps.check("and the record has it whole", put_records(found) == data and sides[0] == INIT + b"".join(asked) and
                sides[1][9:] == got, f"{len(found)} records, {len(data)} bytes")


def folders(steps, room):
    for name, mode, is_warned in (("own", 0o700, False), ("sticky", 0o1777, False), ("unlisted", 0o1733, False),
                                  ("open", 0o777, True)):
        folder = room.folder / name
        folder.mkdir()
        folder.chmod(mode)
        ran = run(room, f"{name}/t", STUB, data=INIT)
        steps.check(f"a folder with mode {mode:o}: {'a' if is_warned else 'no'} warning",
                    (b"folder" in ran.stderr) == is_warned and (folder / "t").exists(), str(ran.stderr))
    below = room.folder / "open" / "below"
    below.mkdir(mode=0o700)
    ran = run(room, "open/below/t", STUB, data=INIT)
    steps.check("a folder below one that others can write to: a warning", b"/open is writable" in ran.stderr,
                str(ran.stderr))
    if steps.lacks_root("a folder of another user", "root alone can make one"):
        return
    for group, is_warned in ((0, False), (12345, True)):
        os.chown(room.folder / "sticky", 0, group)
        (room.folder / "sticky").chmod(0o770)
        ran = run(room, "sticky/u", STUB, data=INIT)
        steps.check(f"a folder that the group {group} can write to: {'a' if is_warned else 'no'} warning",
                    (b"folder" in ran.stderr) == is_warned, str(ran.stderr))
        (room.folder / "sticky/u").unlink()
    os.chown(room.folder / "own", 12345, 12345)
    ran = run(room, "own/u", STUB, data=INIT)
    steps.check("a folder of another user: a warning", b"folder" in ran.stderr, str(ran.stderr))


def times(steps, room):
    from sftpv3.spool import clocks, sinks
    asked = INIT + b"".join(request(it, "STAT", b"/") for it in range(5))
    begin = time.time_ns()
    run(room, "--times", "t%%.times", "t", STUB, data=asked)
    end = time.time_ns()
    # by hand, from docs/FORMATS.md: eight bytes, the date, and eight bytes for each of the twelve records
    data = room.read("t%.times")
    steps.check("a times file has 16 bytes, and 8 for each record", data[:8] == b"SFTPTM01" and
                len(data) == 16 + 8 * 12, str(len(data)))
    date = int.from_bytes(data[8:16], "big")
    found = [int.from_bytes(data[it:it + 8], "big") for it in range(16, len(data), 8)]
    steps.check("its date is that of the session", begin <= date <= end)
    steps.check("its times do not fall, and are those of the session", found == sorted(found) and
                date + found[-1] <= end + 1_000_000, str(found))
    steps.check("what is written is read back", clocks.read_times(data) == (date, found) and
                sinks.times_opening(date) + sinks.time_entries(found) == data)
    steps.check("times may be equal", clocks.read_times(data[:16] + sinks.time_entries([4, 4])) == (date, [4, 4]))
    for wrong in (b"", data[:12], b"x" + data[1:], data[:-3], data[:16] + sinks.time_entries([5, 4])):
        try:
            clocks.read_times(wrong)
            steps.check("a times file that is cut, has another opening or falls is refused", False, str(wrong[:20]))
        except clocks.Malformed:
            steps.check("a times file that is cut, has another opening or falls is refused", True)


TRIALS = (names, taken_names, many_taken_names, locks, quick_starts, pipes, full_pipe, folders, times)
