"""--log, usage, programs that cannot run."""
import os
import re
import signal
import subprocess

from serve_trials.saving import USER, finish
from serve_trials.steps import IS_PLAIN, SERVE
from trials.processes import SOON, executable, make_user, remove_user, run

LINE = re.compile(r"\d{4}-\d\d-\d\dT\d\d:\d\d:\d\dZ [\w-]+\[(\d+)\] (.*)")


def lines(room, name="log"):
    path = room.folder / name
    return path.read_text().splitlines() if path.exists() else []


def log(steps, room):
    os.umask(0)
    server = room.saving("--log", "log")
    server.send(b"\0\0\0\1\xff")
    status = server.status()
    found = [LINE.fullmatch(it) for it in lines(room)]
    steps.check("the log has the fault, with the time and the process", status == 1 and len(found) == 1 and
                found[0] is not None and found[0][1] == str(server.process.pid) and
                found[0][2] == "sftpv3: session fault: Type at 9", f"{lines(room)}")
    if lines(room):
        steps.check("the log is for its user alone", (room.folder / "log").stat().st_mode & 0o777 == 0o600)
    server = room.saving("--verbose", "--log", "log")
    server.process.send_signal(signal.SIGTERM)
    server.status()
    said = [it.partition("] ")[2] for it in lines(room)]
    steps.check("the log is appended to, line by line", len(said) == 3 and said[1] == "sftpv3: session opened" and
                said[2].startswith("sftpv3: session ended: the input ended, 0 requests, "), f"{said}")
    os.umask(0o22)


def names(steps, room):
    server = room.saving("--verbose", "--log", "%u-%p.log")
    finish(server)
    import pwd
    name = f"{pwd.getpwuid(os.getuid()).pw_name}-{server.process.pid}.log"
    steps.check("%u and %p in the name of the log", name in room.left(), f"{room.left()}")


def logs_that_cannot_be_opened(steps, room):
    (room.folder / "link").symlink_to("t")
    before = (room.folder / "t").read_bytes()
    for name in ("link", "absent/log", ".", "%x"):
        server = room.serve("--save", "t", "--log", name)
        wanted = 2 if name == "%x" else 3
        steps.check(f"--log {name}: status {wanted} before the session", not server.open() and
                    server.status() == wanted)
        said = server.errors()
        steps.check(f"--log {name}: a line, and no traceback", name in said and "Traceback" not in said, said)
    steps.check("and nothing is written", (room.folder / "t").read_bytes() == before and
                room.left() == ["link", "t"], f"{room.left()}")


def logs_of_others(steps, room):
    if steps.lacks_root("a log of another user"):
        return
    make_user(USER)
    try:
        os.chmod(room.folder, 0o777)
        (room.folder / "log").touch()
        subprocess.run(["chown", "nobody", room.folder / "log"], check=True)
        (room.folder / "log").chmod(0o666)
        server = room.serve("--log", "log", user=USER, group=USER, extra_groups=[])
        steps.check("a log of another user: status 3 before the session", not server.open() and server.status() == 3)
        steps.check("a log of another user: it is not written", (room.folder / "log").read_bytes() == b"")
    finally:
        room.end_servers()
        remove_user(USER)


def full_log(steps, room):
    """A log that takes no more: the session goes on, and its lines go to standard error."""
    os.symlink("/dev/full", room.folder / "unused")
    server = room.working("--verbose", "--log", "/dev/full")
    status = finish(server)
    said = server.errors()
    steps.check("a log that is full: the tree is saved, and the lines are on standard error", status == 0 and
                room.names() == ["/a"] and "session ended" in said, f"{status}: {said}")
    steps.check("and it is named", "cannot write the log /dev/full: No space left on device" in said, said)


def serve_alone(room, *words):
    """Runs a server to which nothing is sent."""
    return run([*SERVE, *words], cwd=room.folder, stdin=subprocess.DEVNULL)


def usage(steps, room):
    for name, words in (("no --tree", []), ("an unknown option", ["--tree", "t", "--unknown"]),
                        ("an option without its value", ["--tree"]), ("a word too many", ["--tree", "t", "more"]),
                        ("no time", ["--tree", "t", "--grace", "soon"]), ("two trees", ["--tree", "t", "--tree", "t"]),
                        ("no value of --log", ["--tree", "t", "--log"]),
                        ("an empty --save", ["--tree", "t", "--save", ""])):
        ran = serve_alone(room, *words)
        steps.check(f"{name}: status 2 or 3, a complaint, no traceback", ran.returncode in (2, 3) and ran.stdout and
                    "Traceback" not in ran.stdout, f"{ran.returncode}: {ran.stdout}")
    ran = serve_alone(room, "--tree", "absent", "--save", "end")
    steps.check("no tree: status 3, and nothing is made", ran.returncode == 3 and room.left() == ["t"], ran.stdout)
    ran = serve_alone(room, "--help")
    steps.check("--help: status 0, with the options of serve", ran.returncode == 0 and
                all(it in ran.stdout for it in ("--tree", "--save", "--shuffle", "--no-sync")), ran.stdout)
    if not IS_PLAIN:
        for program, status in (("absent/sftpv3", 127), (str(room.folder / "t"), 126)):
            ran = subprocess.run([SERVE[0], "--program", program, "--tree", "t", "--save", "end"], cwd=room.folder,
                                 stdin=subprocess.DEVNULL, capture_output=True, text=True, timeout=SOON)
            steps.check(f"a program that cannot run: status {status}, a line, nothing is left",
                        ran.returncode == status and "cannot run" in ran.stderr and "Traceback" not in ran.stderr and
                        room.left() == ["t"], f"{ran.returncode}: {ran.stderr} {room.left()}")


def files_named_twice(steps, room):
    """The log is no other file of the session."""
    if IS_PLAIN:
        return
    os.link(room.folder / "t", room.folder / "hard")
    before = (room.folder / "t").read_bytes()
    for words in (("--log", "t"), ("--log", "hard"), ("--log=new", "--save", "new"), ("--log", "new", "--record=new"),
                  ("--log", "hard", "--save", "t"), ("--replay", "hard", "--save", "t"),
                  ("--log", "r", "--replay", "r"), ("--save", "new", "--record", "./new")):
        ran = serve_alone(room, "--tree", "t", *words)
        steps.check(f"{' '.join(words)}: status 2, and a line", ran.returncode == 2 and "name one file" in ran.stdout,
                    f"{ran.returncode}: {ran.stdout}")
        steps.check(f"{' '.join(words)}: no file is changed", (room.folder / "t").read_bytes() == before and
                    room.left() == ["hard", "t"], f"{room.left()}")


def passed_on(steps, room):
    """Options come to the program, in each form."""
    server = room.serve("--save=end", "--record=r", "--shuffle", "3", "--no-sync", "--verbose", "--mode=0640",
                        "--memory=500000000")
    steps.check("options as --NAME=VALUE: the session opens", server.open())
    server.make("/a")
    finish(server)
    steps.check("options as --NAME=VALUE: they do what they should", room.names("end") == ["/a"] and
                room.left() == ["end", "r", "t"] and "session ended" in server.errors() and
                (room.folder / "end").stat().st_mode & 0o777 == 0o640, f"{room.left()}")


def environment(steps, room):
    """The server has the environment of the script, and nothing else."""
    if IS_PLAIN:
        return
    program = executable(room.folder / "program", "#!/usr/bin/python3 -IS\nimport os\n"
                         "os.write(1, repr(sorted(os.environ.items())).encode())\n")
    for name, given in (("none", {}), ("one of the user", {"GLIBC_TUNABLES": "glibc.malloc.hugetlb=1"}),
                        ("an empty one", {"GLIBC_TUNABLES": ""})):
        given = {"PATH": os.environ["PATH"], "LC_ALL": "C.UTF-8", **given}
        ran = subprocess.run([SERVE[0], "--program", str(program), "--tree", "t"], cwd=room.folder, env=given,
                             stdin=subprocess.DEVNULL, capture_output=True, text=True, timeout=SOON)
        wanted = repr(sorted(given.items()))
        steps.check(f"GLIBC_TUNABLES, {name}: what the server gets", ran.returncode == 0 and ran.stdout == wanted,
                    f"{ran.returncode}: {ran.stdout}")


TRIALS = (log, names, logs_that_cannot_be_opened, logs_of_others, full_log, usage, files_named_twice, passed_on,
          environment)
