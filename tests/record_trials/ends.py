"""Whatever ends first: client, server, a pipe, a signal."""
import os
import signal
import socket
import subprocess
import time

from record_trials.steps import INIT, RECORD, STUB, close, errors, leave, open_session, receive, stubs
from sftpv3 import codec
from sftpv3.codec import request
from trials.processes import SOON, ended, wait_until


def whole(room, name="t"):
    """Whether the transcript consists of whole records, and how many it has."""
    data = room.read(name)
    records = codec.records(data)
    return data == codec.put_records(records), len(records)


def all_ended(steps, name, room, process, statuses):
    """Recorder and server have ended soon, with one of these statuses, and the transcript is whole."""
    status = ended(process, SOON)
    steps.check(f"{name}: the recorder ends", status is not None, "it is still there")
    if status is not None:
        steps.check(f"{name}: its status is one of {statuses}", status in statuses, f"{status}: {errors(process)}")
        steps.check(f"{name}: no traceback", "Traceback" not in errors(process))
    steps.check(f"{name}: the server ends", wait_until(lambda: not stubs(room.folder)), f"left: {stubs(room.folder)}")
    is_whole, count = whole(room)
    steps.check(f"{name}: the transcript is whole", is_whole and count >= 2, f"{count} records")


def vanishing_client(steps, room):
    for words in ((), ("stays",), ("ignores",)):
        name = " ".join(["a client vanishes during a download", *words])
        process = room.session("t", *words, options=["--overwrite"])
        process.stdin.write(b"".join(request(it, "READ", b"h", it * 32768, 32768) for it in range(64)))
        receive(process, 100_000)
        close(process.stdin), close(process.stdout)
        all_ended(steps, name, room, process, {0, 128 + signal.SIGPIPE, 128 + signal.SIGTERM, 128 + signal.SIGKILL})


def streams(steps, room):
    """The server's streams are sockets, which nobody can open by a name in /proc, and half of one can be closed."""
    process = room.session("t")
    server = stubs(room.folder)[0]
    for file in (0, 1):
        path = f"/proc/{server}/fd/{file}"
        try:
            os.close(os.open(path, os.O_RDWR | os.O_NONBLOCK))
            opened = True
        except OSError:
            opened = False
        steps.check(f"the server's stream {file} is a socket, which cannot be opened", not opened and
                    os.readlink(path).startswith("socket:"), os.readlink(path))
    steps.check("the recorder's files are shut to its user", os.geteuid() == 0 or
                not os.access(f"/proc/{process.pid}/fd", os.R_OK))
    steps.check("the session ends well", leave(process) == 0)


def pipes_alone(steps, room):
    for words in ((), ("stays",), ("ignores",)):
        for pipe in ("stdin", "stdout"):
            process = room.session("t", *words, options=["--overwrite"])
            close(getattr(process, pipe))
            name = " ".join([f"the client closes its {pipe} alone", *words])
            all_ended(steps, name, room, process, {0, 128 + signal.SIGPIPE, 128 + signal.SIGTERM, 128 + signal.SIGKILL})


def ending_servers(steps, room):
    for word, statuses in (("ends", {7}), ("dies", {128 + signal.SIGKILL}),
                           ("closes-input", {128 + signal.SIGTERM}), ("closes-output", {128 + signal.SIGTERM})):
        process = room.stub("t", word, options=["--overwrite"])
        steps.check(f"server {word}: the client gets the VERSION", len(open_session(process)) == 9)
        all_ended(steps, f"server {word}", room, process, statuses)
        steps.check(f"server {word}: the client sees the end", receive(process, 1) == b"")


# Words of the stub that ends first, and what the recorder says of it once a VERSION and one STAT were asked for.
FIRST = [
    ("crashes", "the server was ended by SIGKILL before the client left, with 1 request unanswered"),
    ("half", "the server was ended by SIGKILL before the client left, with 1 request unanswered"),
    ("gives-up", "the server ended with status 9 before the client left, with 1 request unanswered"),
    ("ends", "the server ended with status 7 before the client left"),
    ("closes-output", "the server closed its output before the client left"),
]


def servers_that_end_first(steps, room):
    """A record does not have why it ends: the recorder says so, to standard error and the log."""
    for word, told in FIRST:
        process = room.session("t", word, options=["--overwrite", "--log", "log"])
        if told.endswith("unanswered"):
            process.stdin.write(request(1, "STAT", b"/"))
        ended(process, SOON)
        log = (room.folder / "log").read_text()
        steps.check(f"server {word}: the recorder says: {told}", errors(process) == f"sftpv3-record: {told}\n" and
                    log.endswith(f": {told}\n") and log.count("\n") == 1, f"{log}{errors(process)}")
        (room.folder / "log").unlink()
    for word, closes in (("", ["stdin"]), ("", ["stdin", "stdout"]), ("stays", ["stdin", "stdout"]),
                         ("crashes", ["stdin"])):
        process = room.session("t", word, options=["--overwrite", "--log", "log"])
        for it in closes:
            close(getattr(process, it))
        ended(process, SOON)
        steps.check(f"a client that leaves first, by its {' and '.join(closes)}, server {word}: nothing is said",
                    errors(process) == "" == (room.folder / "log").read_text(), errors(process))


def signals(steps, room):
    for number in (signal.SIGTERM, signal.SIGHUP, signal.SIGINT):
        for words in ((), ("ignores",)):
            process = room.session("t", *words, options=["--overwrite"])
            process.send_signal(number)
            all_ended(steps, " ".join([number.name, *words]), room, process, {128 + number})
    process = room.session("t", options=["--overwrite"])
    # the client does not read, so that all buffers are full
    process.stdin.write(b"".join(request(it, "READ", b"h", it * 32768, 32768) for it in range(300)))
    time.sleep(0.3)
    process.send_signal(signal.SIGTERM)
    all_ended(steps, "SIGTERM while the client does not read", room, process, {128 + signal.SIGTERM})


def ignored_signals(steps, room):
    """sftp starts its server with SIGINT ignored, so that Ctrl-C ends a transfer and not the session."""
    process = room.session("t", preexec_fn=lambda: signal.signal(signal.SIGINT, signal.SIG_IGN))
    process.send_signal(signal.SIGINT)
    process.stdin.write(request(1, "STAT", b"/"))
    steps.check("SIGINT that was ignored at the start stays ignored", len(receive(process, 21)) == 21)
    steps.check("and the session ends with status 0", leave(process) == 0)


def whole_sessions(steps, room):
    """What a patient client asked before it closed its input is answered, also by a server that takes its time."""
    asked = INIT + b"".join(request(it, "READ", b"h", 0, 32768) for it in range(200))
    for name, words, requests, size in (("200 READs", (), asked, 9 + 200 * (13 + 32768)),
                                        ("a late reply", ("late",), INIT + request(1, "STAT", b"/"), 9 + 21)):
        ran = subprocess.run([RECORD, "--overwrite", "t", STUB, *words], input=requests,
                             stdout=subprocess.PIPE, stderr=subprocess.PIPE, cwd=room.folder, timeout=SOON)
        steps.check(f"{name}: all is answered after the end of the input", len(ran.stdout) == size,
                    f"{len(ran.stdout)} bytes, status {ran.returncode}: {ran.stderr}")
        steps.check(f"{name}: status 0", ran.returncode == 0, str(ran.returncode))
        client = [it for side, it in codec.records(room.read("t")) if side == b"C"]
        steps.check(f"{name}: the transcript has what was asked", b"".join(client) == requests)
        server = [it for side, it in codec.records(room.read("t")) if side == b"S"]
        steps.check(f"{name}: the transcript has what was replied", b"".join(server) == ran.stdout)
    process = room.session("t", "saves", options=["--overwrite"])
    steps.check("a server that works for two seconds after its input ended is left to do so",
                leave(process) == 0 and "saved" in errors(process))


def ends_soon(room, words, options, asked, is_there):
    """Whether a session ends soon after the end of the client's input. The client takes all that comes as long as it
    `is_there`."""
    process = room.session("t", *words, options=["--overwrite", "--grace", "1", *options])
    process.stdin.write(asked)
    reader = subprocess.Popen(["cat"], stdin=process.stdout, stdout=subprocess.DEVNULL)
    close(process.stdout)
    if not is_there:
        reader.kill()
    status = leave(process)
    reader.kill(), reader.wait()
    for it in stubs(room.folder):
        os.kill(it, signal.SIGKILL)
    return status is not None


def sending_servers(steps, room):
    """What a server sends that nobody awaits gives it no time."""
    stat = request(1, "STAT", b"/")
    full = ["--log", "/dev/full"]
    for words, options, asked in ((["floods"], [], b""), (["floods", "ignores"], [], stat), (["endless"], [], stat),
                                  (["endless", "ignores"], full, stat), (["drips"], [], stat), (["leaves"], [], stat)):
        for is_there in (True, False):
            is_over = ends_soon(room, words, options, asked, is_there)
            steps.check(f"a server that {' and '.join(words)}, a client that {'reads on' if is_there else 'is gone'}: "
                        "it ends after --grace", is_over, "it goes on")


def slow_client(steps, room):
    """A client that reads slowly gets every byte, and the recorder holds no more than its buffers."""
    process = room.session("t", options=["--overwrite"])
    count = 600
    writer = subprocess.Popen(["cat"], stdin=subprocess.PIPE, stdout=process.stdin)
    process.stdin.close()
    os.set_blocking(writer.stdin.fileno(), False)
    asked = b"".join(request(it, "READ", b"h", 0, 32768) for it in range(count))
    sent = got = most = 0
    end = time.monotonic() + SOON
    wanted = count * (13 + 32768)
    while got < wanted and time.monotonic() < end:
        if sent < len(asked):
            try:
                sent += os.write(writer.stdin.fileno(), asked[sent:sent + 5000])
            except BlockingIOError:
                pass
        elif not writer.stdin.closed:
            writer.stdin.close()
        got += len(os.read(process.stdout.fileno(), 65536))
        most = max(most, resident(process.pid))
        time.sleep(0.001)
    steps.check("a slow client gets every byte", got == wanted, f"{got} of {wanted}")
    steps.check("the recorder holds less than 40 MiB meanwhile", most < 40 << 20, f"{most >> 20} MiB")
    steps.check("and ends with status 0", ended(process, SOON) == 0)
    writer.wait()


def resident(number):
    with open(f"/proc/{number}/statm") as file:
        return int(file.read().split()[1]) * os.sysconf("SC_PAGE_SIZE")


def sockets(steps, room):
    """The client on one socket, as of inetd or some builds of sshd."""
    ours, theirs = socket.socketpair()
    with ours:
        with theirs:
            process = room.stub("t", "stays", stdin=theirs, stdout=theirs)
        ours.sendall(INIT)
        steps.check("over a socket: the client gets the VERSION", len(ours.recv(100)) == 9)
    all_ended(steps, "over a socket, which the client closes", room, process, {128 + signal.SIGTERM})


TRIALS = (vanishing_client, streams, pipes_alone, ending_servers, servers_that_end_first, signals, ignored_signals,
          whole_sessions, slow_client, sockets, sending_servers)
