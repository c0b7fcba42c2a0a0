"""Signals at rest and within transfers, clients that go away, servers that are killed."""
import os
import pty
import select
import signal
import subprocess
import time

from serve_trials.steps import IS_PLAIN, KINDS, PROGRAM, SIGNALS, Server, command
from sftpv3 import codec
from trials.processes import SOON, children_of, ended, wait_until

BLOCK = bytes(range(256)) * 128
# 100 MB in 7 files, each below the 16 MiB that a file may have.
FILES, BLOCKS = 7, 436


def at_rest(steps, room):
    for kind in KINDS:
        for number in SIGNALS:
            name = f"{number.name} at rest, over {kind}"
            server = room.working(kind=kind, save=f"{number.name}.{kind}")
            status = server.end_by(number)
            steps.check(f"{name}: status 0", status == 0, f"{status}")
            if steps.check(f"{name}: the tree is saved", f"{number.name}.{kind}" in room.left(), f"{room.left()}"):
                steps.check(f"{name}: with what was done", room.names(f"{number.name}.{kind}") == ["/a"])
            steps.check(f"{name}: the client sees the end", server.receive(1) == b"")


def to_all(steps, room):
    """A terminal sends its signals to all processes of a group."""
    for kind in KINDS:
        server = room.working(kind=kind, save=kind)
        os.killpg(server.process.pid, signal.SIGINT)
        status = server.status()
        steps.check(f"SIGINT to all of the group, over {kind}: the tree is saved, status 0",
                    status == 0 and kind in room.left(), f"{status}")


def again(steps, room):
    server = room.saving()
    handle = server.create("/f")
    for it in range(500):
        server.ask("WRITE", handle, it * len(BLOCK), BLOCK)
    for _ in range(50):
        server.process.send_signal(signal.SIGTERM)
        time.sleep(0.001)
    status = server.status()
    steps.check("fifty signals within the save: the tree is saved, status 0",
                status == 0 and room.contents() == {"f": BLOCK * 500}, f"{status}")


def before_opening(steps, room):
    for kind in KINDS:
        server = room.serve("--save", kind, kind=kind)
        # a signal before that ends what is no session yet
        wait_until(lambda: children_of(server.process.pid), 0.5 if IS_PLAIN else SOON)
        status = server.end_by(signal.SIGTERM)
        steps.check(f"SIGTERM before an INIT, over {kind}: it ends by itself", status is not None and status >= 0,
                    f"{status}")
        names = room.left()
        steps.check(f"SIGTERM before an INIT, over {kind}: as after an empty input, the tree is that of the start",
                    kind in names and room.names(kind) == [] and not [it for it in names if "." in it], f"{names}")


def requests_of(handles):
    """The WRITEs of 100 MB, round by round over the files."""
    number = 1000
    for block in range(BLOCKS):
        for handle in handles:
            number += 1
            yield codec.request(number, "WRITE", handle, block * len(BLOCK), BLOCK)


def upload(server, handles, after, act):
    """Sends 100 MB and reads replies. Acts after so many replies. Returns how many came, all of them OK."""
    replies, pending, packets = b"", b"", requests_of(handles)
    os.set_blocking(server.input, False)
    os.set_blocking(server.output, False)
    is_done = is_open = True
    while True:
        readers, writers, _ = select.select([server.output], [server.input] if is_open else [], [], SOON)
        if not readers and not writers:
            raise AssertionError(f"neither a reply nor room for {SOON} seconds")
        if readers:
            try:
                piece = os.read(server.output, 1 << 16)
            except ConnectionResetError:
                piece = b""
            replies += piece
            if not piece:
                break
        if is_done and len(replies) >= after * 21:
            is_done = False
            act()
        if writers:
            try:
                pending = pending or next(packets)
                pending = pending[os.write(server.input, pending):]
            except (BrokenPipeError, ConnectionResetError, StopIteration):
                is_open = False
    is_ok = all(replies[it:it + 5] == b"\0\0\0\x11e" and replies[it + 9:it + 13] == bytes(4)
                for it in range(0, len(replies) - 20, 21))
    return len(replies) // 21, is_ok


def within_upload(steps, room):
    for kind in KINDS:
        for number in SIGNALS:
            name, save = f"{number.name} within an upload of 100 MB, over {kind}", f"up.{number.name}.{kind}"
            server = room.saving(kind=kind, save=save)
            handles = [server.create(f"/f{it}") for it in range(FILES)]
            count, is_ok = upload(server, handles, 1000, lambda: server.process.send_signal(number))
            status = server.status(10)
            steps.check(f"{name}: it ends, status 0 or 1", status in (0, 1), f"{status}")
            steps.check(f"{name}: before the end of the upload", 1000 <= count < FILES * BLOCKS and is_ok,
                        f"{count} replies")
            if not steps.check(f"{name}: the tree is saved", save in room.left(), f"{room.left()}"):
                continue
            saved = room.contents(save)
            sizes = [len(BLOCK) * ((count + FILES - 1 - it) // FILES) for it in range(FILES)]
            steps.check(f"{name}: each WRITE that was answered is in it, and no other",
                        saved == {f"f{it}": (BLOCK * BLOCKS)[:size] for it, size in enumerate(sizes)},
                        f"{sizes}, {[len(it) for it in saved.values()]}")


def within_download(steps, room):
    for kind in KINDS:
        name = f"SIGTERM within a download of 100 MB, over {kind}"
        server = room.saving(kind=kind, save=kind)
        handle = server.create("/f")
        for it in range(100):
            server.ask("WRITE", handle, it * len(BLOCK), BLOCK)
        reading = server.handle("OPEN", b"/f", codec.READ, {})
        asked = 3000
        packets = [codec.request(it, "READ", reading, it % 100 * len(BLOCK), len(BLOCK))
                   for it in range(1000, 1000 + asked)]
        sent, got, ahead = 0, 0, 16
        try:
            while True:
                while sent < asked and sent < got + ahead:
                    server.send(packets[sent])
                    sent += 1
                if not server.packet():
                    break
                got += 1
                if got == 1000:
                    server.process.send_signal(signal.SIGTERM)
        except BrokenPipeError:
            while server.packet():
                got += 1
        status = server.status(10)
        steps.check(f"{name}: it ends, status 0 or 1", status in (0, 1), f"{status}")
        steps.check(f"{name}: what came is answered", 1000 <= got < asked and got >= sent - ahead, f"{got} of {sent}")
        steps.check(f"{name}: the tree is saved", kind in room.left() and room.contents(kind) == {"f": BLOCK * 100})


def what_came(steps, room):
    """Requests that were sent before the signal are answered, each."""
    for kind in KINDS:
        server = room.saving(kind=kind, save=kind)
        packets = [codec.request(it, "MKDIR", b"/%d" % it, {}) for it in range(1000)]
        server.send(b"".join(packets))
        server.process.send_signal(signal.SIGTERM)
        got = 0
        while server.packet():
            got += 1
        status = server.status()
        steps.check(f"a thousand requests and a SIGTERM, over {kind}: all are answered and saved, status 0",
                    status == 0 and got == 1000 and len(room.names(kind)) == 1000,
                    f"status {status}, {got} replies, {room.left()}")


def waiting_client(steps, room):
    """A client that takes no reply keeps a server from saving, until its end is cut."""
    server = room.working("--grace", "0.5", kind="sockets")
    handle = server.create("/f")
    server.ask("WRITE", handle, 0, BLOCK)
    reading = server.handle("OPEN", b"/f", codec.READ, {})
    server.send(b"".join(codec.request(it, "READ", reading, 0, len(BLOCK)) for it in range(100, 300)))
    time.sleep(0.3)
    status = server.end_by(signal.SIGTERM)
    steps.check("a client that does not read, and a SIGTERM: it ends, status 3", status == 3, f"{status}")
    steps.check("a client that does not read, and a SIGTERM: the tree is saved", room.names() == ["/a", "/f"])


def leaving_clients(steps, room):
    for kind in KINDS:
        for name, leave, told in (("input", Server.close_input, "ends its input"), ("gone", Server.close, "vanishes")):
            server = room.working(kind=kind, save=f"{name}.{kind}")
            leave(server)
            status = server.status()
            steps.check(f"a client {told}, over {kind}: status 0, and the tree is saved",
                        status == 0 and room.names(f"{name}.{kind}") == ["/a"], f"{status}")
        server = room.working(kind=kind, save=f"cut.{kind}")
        server.send(b"".join(codec.request(it, "READDIR", b"none") for it in range(100)) + b"\0\0")
        server.close()
        status = server.end_by(signal.SIGHUP)
        steps.check(f"a client vanishes without its replies, and a SIGHUP, over {kind}: the tree is saved",
                    status in (1, 3) and room.names(f"cut.{kind}") == ["/a"], f"{status}")


def broken_protocol(steps, room):
    for kind in KINDS:
        server = room.working(kind=kind, save=kind)
        server.send(b"\0\0\0\1\xff")
        status = server.status()
        steps.check(f"a packet that is none, over {kind}: status 1, and the tree is saved",
                    status == 1 and room.names(kind) == ["/a"], f"{status}")
        steps.check(f"a packet that is none, over {kind}: the fault is said", "session fault" in server.errors())
        steps.check(f"a packet that is none, over {kind}: the client sees the end", server.receive(1) == b"")


def ignored(steps, room):
    """sftp starts its server with SIGINT ignored, so that Ctrl-C ends a transfer and not the session."""
    for kind in KINDS:
        server = room.saving(kind=kind, preexec_fn=lambda: signal.signal(signal.SIGINT, signal.SIG_IGN))
        server.process.send_signal(signal.SIGINT)
        time.sleep(0.1)
        steps.check(f"SIGINT that was ignored at the start stays ignored, over {kind}", server.make(f"/{kind}"))
        server.close_input()
        steps.check(f"SIGINT that was ignored at the start: status 0, over {kind}", server.status() == 0)


def killed_server(steps, room):
    for kind in KINDS:
        server = room.working(kind=kind)
        children = children_of(server.process.pid)
        os.kill(children[0] if children else server.process.pid, signal.SIGKILL)
        status = server.status()
        steps.check(f"a server that is killed, over {kind}: status 137", status == 137, f"{status}")
        steps.check(f"a server that is killed, over {kind}: it is said, and the file is unchanged",
                    "signal 9" in server.errors() and room.names() == [] and room.left() == ["t"], f"{room.left()}")


def killed_script(steps, room):
    """What only the script knew is lost with it, and nothing else."""
    for kind in KINDS:
        server = room.working(kind=kind)
        server.process.kill()
        server.status()
        server.close()
        found = wait_until(lambda: any(room.names(it) == ["/a"] for it in room.left()))
        steps.check(f"the script is killed, over {kind}: the tree is in a file beside", found, f"{room.left()}")
        for it in room.left():
            if it != "t":
                (room.folder / it).unlink()


def files_as_streams(steps, room):
    (room.folder / "asked").write_bytes(codec.init() + codec.request(1, "MKDIR", b"/a", {}))
    words = [*room.serve_words("--save", "t")]
    with open(room.folder / "asked", "rb") as asked, open(room.folder / "replies", "wb") as replies:
        ran = subprocess.run(words, stdin=asked, stdout=replies, cwd=room.folder, timeout=SOON)
    size = (room.folder / "replies").stat().st_size
    steps.check("a file as the input: all is answered and saved", ran.returncode == 0 and room.names() == ["/a"] and
                size > 124, f"status {ran.returncode}, {size} bytes")
    ran = subprocess.run(words, stdin=subprocess.DEVNULL, capture_output=True, cwd=room.folder, timeout=SOON)
    steps.check("nothing as the input: it ends as serve does", ran.returncode in (0, 1) and room.names() == ["/a"])


def tree_from_pipe(steps, room):
    """A tree file that is a FIFO: who should write to it may never come, or never write."""
    os.mkfifo(room.folder / "fifo")
    tree = (room.folder / "t").read_bytes()
    for kind in KINDS:
        for number in SIGNALS:
            for told, given in ("nobody writes", None), ("a part is written", tree[:9]):
                name = f"{number.name} when the tree is a FIFO to which {told}, over {kind}"
                server = room.serve("--save", kind, tree="fifo", kind=kind)
                writer = os.open(room.folder / "fifo", os.O_RDWR) if given else None
                if given:
                    os.write(writer, given)
                wait_until(lambda: children_of(server.process.pid))
                status = server.end_by(number, 20)
                steps.check(f"{name}: it ends by itself, and nothing is saved", (status or -1) > 0 and
                            room.left() == ["fifo", "t"], f"{status}, {room.left()}")
                if given:
                    os.close(writer)
                room.end_servers()
        server = room.serve("--save", kind, tree="fifo", kind=kind)
        (room.folder / "fifo").write_bytes(tree)
        steps.check(f"a tree from a FIFO, over {kind}: a session begins", server.open() and server.make("/a"))
        status = server.end_by(signal.SIGTERM)
        steps.check(f"a tree from a FIFO, over {kind}: SIGTERM has it saved, status 0", status == 0 and
                    room.names(kind) == ["/a"], f"{status}, {room.left()}")
        (room.folder / kind).unlink(missing_ok=True)


def other_pipes(steps, room):
    """A FIFO as the record, or as what is replayed, whose other end nobody opens."""
    os.mkfifo(room.folder / "fifo")
    for option in ("--record", "--replay"):
        server = room.serve("--save", "saved", option, "fifo")
        steps.check(f"{option} FIFO: it waits", wait_until(lambda: children_of(server.process.pid)) and
                    server.status(1) is None)
        status = server.end_by(signal.SIGTERM, 20)
        steps.check(f"{option} FIFO whose other end nobody opens: SIGTERM ends it", (status or -1) > 0, f"{status}")
        names = set(room.left()) - {"saved"}
        steps.check(f"{option} FIFO: nothing is left beside the file of --save", names == {"fifo", "t"}, f"{names}")
        room.end_servers()
    with open(room.folder / "taken", "wb") as taken, subprocess.Popen(["cat", "fifo"], stdout=taken, cwd=room.folder):
        server = room.saving("--record", "fifo")
        steps.check("--record FIFO that is read: a session", server.make("/a"))
        server.process.send_signal(signal.SIGTERM)
        steps.check("--record FIFO that is read: SIGTERM has the tree saved, status 0", server.status() == 0 and
                    room.names() == ["/a"])
    steps.check("--record FIFO that is read: the record is whole", b"/a" in (room.folder / "taken").read_bytes())


def on_a_terminal(steps, room):
    """Nobody types packets: a server that is started on a terminal says so, and makes no file."""
    options = ("--tree", room.folder / "t", "--save", room.folder / "saved")
    for name, words in (("the command", command(*options)), ("the program", [PROGRAM, "serve", *options])):
        _, terminal = pty.openpty()
        with subprocess.Popen(list(map(str, words)), stdin=terminal, stdout=subprocess.DEVNULL, stderr=subprocess.PIPE,
                              text=True) as process:
            status = ended(process)
            process.kill()
            said = process.stderr.read()
        steps.check(f"{name} on a terminal: it says so, status 2", status == 2 and "input is a terminal" in said,
                    f"{status}: {said[:200]}")
        steps.check(f"{name} on a terminal: no file is made", room.left() == ["t"], f"{room.left()}")


TRIALS = (at_rest, to_all, again, before_opening, within_upload, within_download, what_came, waiting_client,
          leaving_clients, broken_protocol, ignored, killed_server, killed_script, files_as_streams,
          tree_from_pipe, other_pipes, on_a_terminal)
