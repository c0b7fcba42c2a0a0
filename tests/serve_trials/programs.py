"""Real clients, as far as they are installed: sftp, lftp and paramiko over the script, and all of them through sshd."""
import os
import signal
import subprocess
import time

from serve_trials import steps as trials
from trials.clients import ServerOfLftp, has, paramiko_words, python_with_paramiko
from trials.processes import below_of, run, wait_until
from trials.sshd import SSHD, Sshd

LARGE = bytes(range(256)) * 40_000


def command(room, *words):
    """The command of a server that saves, with whole names."""
    return " ".join(trials.command("--tree", f"{room.folder}/t", "--save", f"{room.folder}/t", *words))


def begun(words, commands, room, **options):
    """A session of sftp that has done these commands, and goes on."""
    sftp = subprocess.Popen(list(map(str, words)), stdin=subprocess.PIPE, stdout=subprocess.PIPE, cwd=room.folder,
                            stderr=subprocess.STDOUT, text=True, **options)
    sftp.stdin.write(f"{commands}!echo is done\n")
    sftp.stdin.flush()
    for line in sftp.stdout:
        if line.startswith("is done"):
            return sftp
    raise AssertionError("sftp ended early")


def is_saved(room, *names):
    """Whether the tree has these names soon: a client need not wait for the end of its server."""
    return wait_until(lambda: set(names) <= set(room.names()))


def with_sftp(steps, room):
    (room.folder / "large").write_bytes(LARGE)
    ran = run(["sftp", "-q", "-D", command(room), "-b", "-", "server"], cwd=room.folder,
              input="mkdir d\nput large d/large\nget d/large back\nbye\n")
    steps.check("sftp: its work is done and saved", ran.returncode == 0 and is_saved(room, "/d", "/d/large") and
                (room.folder / "back").read_bytes() == LARGE, ran.stdout)
    sftp = begun(["sftp", "-q", "-D", command(room), "server"], "mkdir e\n", room, start_new_session=True)
    os.killpg(sftp.pid, signal.SIGHUP)
    sftp.communicate()
    steps.check("sftp, a SIGHUP to all, as if its terminal went: the tree is saved", is_saved(room, "/d", "/e"),
                f"{room.names()}")


def with_lftp(steps, room):
    if not has(steps, "lftp"):
        return
    (room.folder / "large").write_bytes(LARGE)
    server = ServerOfLftp(room.folder, command(room, "--log", f"{room.folder}/log", "--verbose"))
    for number in range(5):
        commands = [*server.settings(), f"mkdir d{number}", f"put {room.folder}/large -o d{number}/large", "ls", "bye"]
        ran = run(["lftp", "-c", "; ".join(commands)], cwd=room.folder)
        names = [f"/d{it}/large" for it in range(number + 1)]
        steps.check(f"lftp, session {number + 1}: its work is saved at its bye", ran.returncode == 0 and
                    is_saved(room, *names), f"{ran.returncode} {ran.stdout} {room.names()} {room.left()}")


PARAMIKO = """
client.mkdir("/p")
client.open("/p/f", "w").close()
server.terminate()
print(server.wait(10))
"""


def with_paramiko(steps, room):
    if not python_with_paramiko():
        steps.skip("paramiko", "it is not installed")
        return
    ran = run(paramiko_words(PARAMIKO, command(room).split()))
    steps.check("paramiko, and a SIGTERM while it is open: the tree is saved", ran.stdout.endswith("0\n") and
                is_saved(room, "/p", "/p/f"), ran.stdout)


def with_sshd(steps, room):
    if os.geteuid() != 0 or not os.access(SSHD, os.X_OK):
        steps.skip("sshd", "it needs root, and sshd")
        return
    (room.folder / "large").write_bytes(LARGE)
    server = command(room, "--log", f"{room.folder}/log", "--verbose")
    with Sshd(room.folder, f"Subsystem sftp {server}\n") as sshd:
        through_sshd(steps, room, sshd)
        killed_sshd(steps, room, sshd)
        through_sshfs(steps, room, sshd)


def through_sshd(steps, room, sshd):
    ran = run(["sftp", "-q", *sshd.options(), "-b", "-", "127.0.0.1"], cwd=room.folder,
              input="mkdir d\nput large d/large\nget d/large back\nbye\n")
    steps.check("sftp through sshd: its work is done and saved", ran.returncode == 0 and
                is_saved(room, "/d", "/d/large") and (room.folder / "back").read_bytes() == LARGE, ran.stdout)
    log = (room.folder / "log").read_text() if (room.folder / "log").exists() else ""
    steps.check("sftp through sshd: the log has what sshd drops", "session ended: the input ended" in log, log)
    ran = run(["scp", "-q", *sshd.options(), "-s", "large", "127.0.0.1:/by-scp"], cwd=room.folder)
    steps.check("scp through sshd: its work is done and saved", ran.returncode == 0 and is_saved(room, "/by-scp"),
                ran.stdout)
    if has(steps, "lftp"):
        connect = " ".join(["ssh", "-a", "-x", *sshd.options()])
        script = (f"set sftp:connect-program '{connect}'; set net:max-retries 1; set cmd:fail-exit yes; "
                  "open -u root,x sftp://127.0.0.1; cd /; put large -o by-lftp; ls; bye")
        ran = run(["lftp", "-c", script], cwd=room.folder)
        steps.check("lftp through sshd: its work is done and saved", ran.returncode == 0 and
                    is_saved(room, "/by-lftp"), f"{ran.stdout} {room.names()}")


def killed_sshd(steps, room, sshd):
    """The process of the connection is killed, at rest and within a transfer, alone and with all below it."""
    words = ["sftp", "-q", *sshd.options(), "127.0.0.1"]
    for number in (signal.SIGTERM, signal.SIGKILL):
        for name, asked in (("at rest", ""), ("within a transfer", "put large again\n" * 100)):
            made = f"{number.name}-{len(asked)}"
            sftp = begun(words, f"mkdir {made}\n", room)
            sftp.stdin.write(asked)
            sftp.stdin.flush()
            time.sleep(0.5)
            for it in sshd.of_connections():
                os.kill(it, number)
            sftp.communicate()
            steps.check(f"{number.name} to sshd's process of the connection, {name}: the tree is saved",
                        is_saved(room, f"/{made}"), f"{room.names()} {room.left()}")
    sftp = begun(words, "mkdir both\n", room)
    for found in sshd.of_connections():
        for it in [*below_of(found), found]:
            os.kill(it, signal.SIGTERM)
    sftp.communicate()
    steps.check("SIGTERM to sshd's process and to all below it: the tree is saved", is_saved(room, "/both"),
                f"{room.names()} {room.left()}")


def through_sshfs(steps, room, sshd):
    if not has(steps, "sshfs") or not os.path.exists("/dev/fuse"):
        return
    mount = room.folder / "mount"
    mount.mkdir()
    ran = run(["sshfs", *sshd.options(), "127.0.0.1:/", mount])
    if ran.returncode:
        steps.skip("sshfs", ran.stdout.strip())
        return
    try:
        (mount / "by-sshfs").mkdir()
        (mount / "by-sshfs/file").write_bytes(LARGE)
    finally:
        run(["fusermount3", "-u", mount])
    steps.check("sshfs through sshd: its work is saved", is_saved(room, "/by-sshfs/file"), f"{room.names()}")


TRIALS = (with_sftp, with_lftp, with_paramiko, with_sshd)
