"""Audits that read along."""
import os
import resource
import signal
import socket
import struct
import subprocess
import time

from record_trials.ends import whole
from record_trials.failing import run
from record_trials.steps import INIT, PROGRAM, STUB, Room, close, errors, leave, open_session, receive
from sftpv3.codec import request, trees
from sftpv3.recorder.options import AUDIT_FLAGS, AUDIT_VALUES, audit_words, plainly_read
from sftpv3.system import naming
from trials.processes import SOON, ended, executable, limited, wait_until

LINE = "audit: refused record 8: UnknownReply"


def blank(room):
    tree = room.folder / "blank.tree"
    if not tree.exists():
        subprocess.run([PROGRAM, "blank", tree], check=True)
    return tree


def audited(room, *words, options=(), program=PROGRAM, start=Room.session, **more):
    """A session with an audit from the blank tree, in front of the stub."""
    return start(room, "t", *words, options=["--audit", "--overwrite", "--program", program, "--tree", blank(room),
                                             "--log", "log", *options], **more)


def log(room):
    return (room.folder / "log").read_text() if (room.folder / "log").exists() else ""


def make_three(process):
    """Asks for three directories, one after the other. The reply to the last can be a wrong one."""
    for number, name in ((1, b"/a"), (2, b"/b"), (3, b"/c")):
        process.stdin.write(request(number, "MKDIR", name, {}))
        receive(process, 21)


def make_one(process, name=b"/a"):
    """Asks for a directory, and goes away. Returns the recorder's status."""
    process.stdin.write(request(1, "MKDIR", name, {}))
    receive(process, 21)
    return leave(process)


def says_soon(room, text):
    return wait_until(lambda: text in log(room))


def wrong_replies(steps, room):
    process = audited(room, "wrong")
    process.stdin.write(request(1, "MKDIR", b"/a", {}))
    receive(process, 21)
    process.stdin.write(request(2, "MKDIR", b"/b", {}))
    receive(process, 21)
    process.stdin.write(request(3, "RMDIR", b"/a"))
    receive(process, 21)
    steps.check("a wrong reply is said while the session runs", says_soon(room, LINE) and process.poll() is None,
                log(room))
    process.stdin.write(request(4, "RMDIR", b"/b"))
    steps.check("the session goes on after it", len(receive(process, 21)) == 21)
    steps.check("its status is the server's", leave(process) == 0)
    steps.check("standard error has the line, too", LINE in errors(process))
    steps.check("the transcript has all", whole(room) == (True, 10), str(whole(room)))


def stopped(steps, room):
    process = audited(room, "wrong", options=["--stop"])
    make_three(process)
    steps.check("--stop: the session is cut, with status 1", ended(process, SOON) == 1, str(process.poll()))
    steps.check("--stop: the client sees the end", receive(process, 1) == b"")
    steps.check("--stop: the transcript is whole", whole(room)[0])


def accepted(steps, room):
    process = audited(room, options=["--stop"])
    steps.check("a right session: status 0", make_one(process) == 0)
    steps.check("a right session: the log has the verdict, standard error nothing",
                "audit: accepted 1 requests" in log(room) and errors(process) == "", log(room))


def long_trees(steps, room):
    """A tree at the end that is longer than a file may be: the log says so."""
    tree = room.folder / "long.tree"
    trees.write(trees.Tree([trees.Entry(b"/f", trees.FILE, bytes(3000))]), str(tree))
    process = room.session("t", preexec_fn=limited(resource.RLIMIT_FSIZE, 2048), options=[
        "--audit", "--program", PROGRAM, "--tree", tree, "--out", "out", "--log", "log"])
    make_one(process)
    steps.check("a last tree that is longer than a file may be: the log says so",
                "ended with status 3: sftpv3: cannot write out" in log(room) and "File too large" in log(room),
                log(room))
    steps.check("and nothing of it is left", sorted(os.listdir(room.folder)) == ["log", "long.tree", "t"],
                os.listdir(room.folder))


def bad_auditors(steps, room):
    """An auditor that dies, never reads, or cannot run: the session goes on, and a line says so."""
    for name, text, seen in (("dies", "exit 9", "status 9; the record goes on"),
                             ("is killed", "kill -9 $$", "was ended by signal 9; the record goes on"),
                             ("fails at the end", "cat >/dev/null; echo no room; exit 3", "status 3: no room"),
                             ("never reads", "sleep 1000", "did not end"), ("has a bad tree", None, "ended with")):
        program = room.folder / "auditor"
        if text:
            executable(program, f"#!/bin/sh\n{text}\n")
        else:
            (room.folder / "blank.tree").write_text("no tree")
        process = audited(room, options=["--stop"], program=program if text else PROGRAM)
        time.sleep(0.2)
        process.stdin.write(request(1, "STAT", b"/"))
        steps.check(f"an auditor that {name}: the session goes on", len(receive(process, 21)) == 21)
        close(process.stdin), close(process.stdout)
        steps.check(f"an auditor that {name}: status 0", ended(process, SOON) in (0, 141), str(process.poll()))
        said = errors(process)
        steps.check(f"an auditor that {name}: a line says so", seen in said, said)
        steps.check(f"an auditor that {name}: the transcript has all", whole(room) == (True, 4), str(whole(room)))
    process = audited(room, program="/nowhere/sftpv3", start=Room.stub)
    steps.check("an auditor that does not exist: the session goes on", len(open_session(process)) == 9)
    steps.check("an auditor that does not exist: status 0, and a line", leave(process) == 0 and
                "cannot run the audit" in errors(process))


def behind(steps, room):
    """40 MB pass an auditor that does not read: the session is as quick, and a line says that the audit fell behind."""
    program = executable(room.folder / "auditor", "#!/bin/sh\nsleep 1000\n")
    (room.folder / "blank.tree").touch()
    asked = INIT + b"".join(request(it, "READ", b"h", 0, 32768) for it in range(1200))
    start = time.monotonic()
    ran = run(room, "--audit", "--program", program, "--tree", "blank.tree", "t", STUB, data=asked)
    steps.check("an auditor that is behind: the client gets all", len(ran.stdout) == 9 + 1200 * (13 + 32768))
    steps.check("an auditor that is behind: a line says so", b"fell behind" in ran.stderr, str(ran.stderr))
    steps.check("an auditor that is behind: the session is not held up", time.monotonic() - start < SOON)
    steps.check("an auditor that is behind: the transcript has all", whole(room) == (True, 2402), str(whole(room)))


def system_log(steps, room):
    if os.geteuid() != 0 or os.path.exists("/dev/log"):
        steps.skip("--syslog", "it needs root, and a system without syslog")
        return
    with socket.socket(socket.AF_UNIX, socket.SOCK_DGRAM) as listener:
        listener.bind("/dev/log")
        try:
            process = audited(room, "wrong", options=["--syslog"])
            make_three(process)
            listener.settimeout(SOON)
            said = ""
            while "sftpv3-record" not in said:
                # other programs may write there, too
                said = listener.recv(4096).decode()
            steps.check("--syslog: the line", f"sftpv3-record[{process.pid}]" in said and LINE in said, said)
        finally:
            os.unlink("/dev/log")


def logs(steps, room):
    process = audited(room, "wrong")
    make_three(process)
    says_soon(room, LINE)
    lines = log(room).splitlines()
    steps.check("--log: a line has date, process, user, address and transcript", len(lines) == 1 and
                lines[0].endswith(f"local t: {LINE}") and f"sftpv3-record[{process.pid}]" in lines[0], str(lines))
    steps.check("--log: the mode is 0600", oct((room.folder / "log").stat().st_mode)[-4:] == "0600")
    process.send_signal(signal.SIGTERM)
    steps.check("a signal ends an audited session", ended(process, SOON) == 128 + signal.SIGTERM)
    (room.folder / "victim").write_text("dear")
    (room.folder / "log").unlink()
    (room.folder / "log").symlink_to("victim")
    process = audited(room)
    steps.check("--log: no link is followed", leave(process) == 0 and room.read("victim") == b"dear")


def lost_records(steps, room):
    """A transcript that cannot be written any more is no fault of the server: the audit reads on without it."""
    process = audited(room, "wrong", options=["--stop"], preexec_fn=limited(resource.RLIMIT_FSIZE, 60))
    make_three(process)
    steps.check("a lost record: the audit goes on, and finds the wrong reply", ended(process, SOON) == 1,
                str(process.poll()))
    said = errors(process)
    steps.check("a lost record: lines for both", "not recorded any further" in said and LINE in said, said)


def long_packets(steps, room):
    """A packet that no transcript can hold ends the record and the audit, and is no refusal."""
    process = audited(room, options=["--stop"])
    process.stdin.write(struct.pack(">IB", 300_000, 200) + bytes(299_999))
    steps.check("a packet that is too long: the audited session goes on", len(receive(process, 17)) == 17)
    steps.check("a packet that is too long: status 0", leave(process) == 0, str(process.poll()))
    said = errors(process)
    steps.check("a packet that is too long: neither recorded nor audited", "not recorded any further" in said and
                "audit is given up" in said, said)
    steps.check("a packet that is too long: nothing is refused", "refused" not in said + log(room) and
                "transcript:" not in said, said)


def full_logs(steps, room):
    """A log that takes only a part of a line is told of."""
    (room.folder / "log").write_bytes(bytes(1000))
    process = audited(room, "wrong", preexec_fn=limited(resource.RLIMIT_FSIZE, 1010))
    make_three(process)
    time.sleep(0.5)
    steps.check("a full log: the session goes on", leave(process) == 0, str(process.poll()))
    said = errors(process)
    steps.check("a full log: a line says so", "cannot write the log log: " in said and LINE in said, said)


def chained(steps, room):
    """The tree at the end of a session can be that of the next, by the user's name."""
    name = naming.user_name(os.geteuid())
    tree = room.folder / f"{name}.tree"
    tree.write_bytes(blank(room).read_bytes())
    for number in (1, 2):
        process = room.session("t", options=["--audit", "--overwrite", "--program", PROGRAM, "--tree", "%u.tree",
                                             "--out", "%u.tree", "--log", "log"])
        status = make_one(process, b"/a" if number == 1 else b"/b")
        steps.check(f"--out: session {number} ends", status == 0, errors(process))
    steps.check("--out: both are accepted", log(room).count("audit: accepted 1 requests") == 2, log(room))
    shown = subprocess.run([PROGRAM, "show", tree], stdout=subprocess.PIPE, text=True, check=False).stdout
    steps.check("--out: the tree has what both made", '"/a"' in shown and '"/b"' in shown, shown)


def memory(steps, _):
    """The memory of an audit is bounded, unless told otherwise."""
    for words, wanted in (([], "1073741824"), (["--memory", "5000"], "5000")):
        given = audit_words(plainly_read(["--audit", "--tree", "t", *words, "transcript", "server"]))
        found = [given[at + 1] for at, it in enumerate(given) if it == "--memory"]
        steps.check(f"an audit has --memory {wanted}", found == [wanted], str(given))


def known_options(steps, _):
    """What the recorder passes on to the audit is what the program has."""
    text = subprocess.run([PROGRAM, "help", "audit"], stdout=subprocess.PIPE, text=True, check=True).stdout
    unknown = [it for it in (*AUDIT_VALUES, *AUDIT_FLAGS) if f" {it} " not in text]
    steps.check("the audit has each option that the recorder passes on to it", not unknown, " ".join(unknown))


TRIALS = (memory, known_options, wrong_replies, stopped, accepted, long_trees, bad_auditors, behind, system_log, logs,
          lost_records, long_packets, full_logs, chained)
