"""Attacks on clients/servers/any, which runs as root, by the program of the server that it starts."""
import os
import pty
import shutil
import subprocess
import time
from contextlib import suppress

from attacking.ground import SECONDS, attack, environment, words_of, wrong_status
from sftpv3.codec import init
from sftpv3.system.program import program
from trials.processes import wait_until

HELLO = init()

# A server that answers INIT, does something, and waits for the end of its input.
SERVER = """
#include <signal.h>
#include <stdlib.h>
#include <string.h>
#include <unistd.h>

int main(int count, char **words) {
    static char room[65536], version[] = {0, 0, 0, 5, 2, 0, 0, 0, 3};
    if (read(0, room, sizeof room) < 1 || write(1, version, sizeof version) < 1) return 1;
    if (count > 2 && !strcmp(words[1], "kill")) kill(atoi(words[2]), SIGKILL);
    if (count > 1 && !strcmp(words[1], "stay") && !fork()) { setsid(); if (!fork()) sleep(20); _exit(0); }
    if (count > 1 && !strcmp(words[1], "die")) abort();
    while (read(0, room, sizeof room) > 0);
    return 7;
}
"""

# A library that ld.so loads and runs for a program that names it, also if it only says which libraries that needs.
AUDITOR = """
#include <fcntl.h>
#include <stdio.h>
#include <unistd.h>

unsigned la_version(unsigned version) {
    int file = open(TOLD, O_WRONLY | O_APPEND);
    dprintf(file, "%d\\n", (int) getuid());
    close(file);
    return version;
}
"""


# What says, where the libraries of a program are looked for, that it needs another file of the machine, too.
WISHER = """
#include <stdio.h>

unsigned la_version(unsigned version) {
    printf("\\tlibwish.so => " WISH " (0x00007f0000000000)\\n");
    fflush(stdout);
    return version;
}
"""

# A server that shows, before its VERSION, the beginning of a file that stands beside its program.
SHOWING = """
#include <fcntl.h>
#include <unistd.h>

int main(int count, char **words) {
    static char room[65536], version[] = {0, 0, 0, 5, 2, 0, 0, 0, 3};
    int file = open(words[1], O_RDONLY);
    ssize_t found = file < 0 ? 0 : read(file, room, 100);
    if (found > 0 && write(2, room, found) < found) return 2;
    if (read(0, room, sizeof room) < 1 || write(1, version, sizeof version) < 1) return 1;
    while (read(0, room, sizeof room) > 0);
    return 7;
}
"""

GO_SOURCES = "/usr/share/gocode/src/github.com/pkg/sftp/server_standalone/main.go"
# In place of Go: it notes that it was asked, and what it builds is another program.
GO = """#!/bin/sh
: >"$BUILT"
exec cp /bin/false "$3"
"""

# What types a line into the terminal of its session: a library for ld.so to run, or a server before its VERSION.
TYPIST = """
#include <fcntl.h>
#include <sys/ioctl.h>
#include <unistd.h>

static void type(int terminal) {
    for (const char *it = "typed\\n"; *it; it++) ioctl(terminal, TIOCSTI, it);
}

static void type_all(void) {
    type(2);
    type(open("/dev/tty", O_RDWR));
}

#ifdef AUDITS
unsigned la_version(unsigned version) { type_all(); return version; }
#else
int main(void) {
    static char room[64], version[] = {0, 0, 0, 5, 2, 0, 0, 0, 3};
    if (read(0, room, sizeof room) < 1 || write(1, version, sizeof version) < 1) return 1;
    if (write(2, "\\033]0;x\\007said\\n", 11) < 11) return 2;
    type_all();
    while (read(0, room, sizeof room) > 0);
    return 7;
}
#endif
"""


def built(field, name, text, *options):
    """Compiles a text of C. Returns the path of what comes of it, which every user may run."""
    source, made = field.put(f"{name}.c", text.encode()), field.path(name)
    subprocess.run(["cc", "-o", made, source, *options], check=True, timeout=SECONDS)
    os.chmod(made, 0o755)
    return made


def session(field, *words, seconds=SECONDS):
    """Plays a session with a server in a folder of its own. Returns how that ended."""
    return subprocess.run([field.script("servers/any"), field.blank(), *words], input=HELLO, capture_output=True,
                          timeout=seconds, env=environment(TMPDIR=field.folder))


@attack("user", "cc")
def a_server_ends_other_processes(field):
    """A server under test, whose user is root, sends no signal to other processes, and its status is its own."""
    server = built(field, "server", SERVER)
    with subprocess.Popen(["sleep", "60"]) as other:
        done = session(field, server, "kill", str(other.pid))
        time.sleep(0.2)
        if other.poll() is not None:
            yield "another process of root is gone"
        other.kill()
    if (done.returncode, done.stdout[:5]) != (7, b"\0\0\0\5\2"):
        yield f"status {done.returncode}, {done.stdout!r} {done.stderr[-300:]!r}"
    yield from (f"a server that aborts: {it}" for it in wrong_status(session(field, server, "die"), -6))


@attack("user", "cc")
def a_server_leaves_processes(field):
    """What a server starts in a session of its own ends with it, and holds up nobody."""
    server, start = built(field, "server-that-stays", SERVER), time.monotonic()
    session(field, server, "stay")
    if time.monotonic() - start > 10:
        yield "the session ended only with what the server started"
    time.sleep(0.2)
    left = [it for it in os.listdir("/proc") if it.isdigit() and b"stay" in words_of(it)]
    for it in left:
        os.kill(int(it), 9)
    if left:
        yield f"{len(left)} processes are left"


def line_of_terminal(field, server):
    """The line that is typed in a terminal while a session runs there, or the one that is typed behind it; and what the
    terminal shows."""
    field.put("hello", HELLO)
    field.put("replies", b"")
    script = '"$1" "$2" "$3" < hello > replies; IFS= read -r line; printf %s "$line" > line'
    words = ["/bin/sh", "-c", script, "sh", field.script("servers/any"), field.blank(), server]
    child, terminal = pty.fork()
    if child == 0:
        os.chdir(field.folder)
        os.execve(words[0], words, environment(TMPDIR=field.folder))
    wait_until(lambda: field.read("replies"), SECONDS)
    time.sleep(0.5)
    os.write(terminal, b"ours\n")
    os.waitpid(child, 0)
    os.set_blocking(terminal, False)
    shown = os.read(terminal, 1 << 16)
    os.close(terminal)
    return field.read("line"), shown


@attack("user", "cc", "ldd")
def a_server_types_into_the_terminal(field):
    """Neither a server under test nor what its program names types commands into the terminal of root, or has it act by
    what is shown there."""
    auditor = built(field, "auditor.so", TYPIST, "-shared", "-fPIC", "-DAUDITS")
    naming = built(field, "naming", SERVER, f"-Wl,--audit={auditor}")
    for name, server in (("a server", built(field, "typist", TYPIST)), ("what its program names", naming)):
        line, shown = line_of_terminal(field, server)
        if line != b"ours":
            yield f"{name} typed {line!r}"
        if b"\x1b" in shown or (server != naming) != (b"said" in shown):
            yield f"{name}: the terminal shows {shown!r}"


@attack("user", "cc", "ldd")
def a_program_names_files_of_root_as_libraries(field):
    """What a program says that it needs is copied for its server only as far as every user can read it: no secret, no
    device and no pipe is."""
    field.shared("private", 0o700)
    secret = field.put("private/secret", b"the secret of root")
    os.mkfifo(field.path("pipe"), 0o644)
    huge = field.put("huge", b"")
    os.truncate(huge, 1 << 40)
    for wish in (secret, "/dev/zero", field.path("pipe"), huge):
        auditor = built(field, "wisher.so", WISHER, "-shared", "-fPIC", f'-DWISH="{wish}"')
        server = built(field, "showing", SHOWING, f"-Wl,--audit={auditor}")
        try:
            done = session(field, server, f"/.sftpv3-start/{os.path.basename(wish)}", seconds=20)
        except subprocess.TimeoutExpired:
            yield f"{wish}: the session does not start"
            continue
        if b"the secret" in done.stderr:
            yield f"{wish}: the server reads it"
        if done.returncode != 3 or wish.encode() not in done.stderr or b"Traceback" in done.stderr:
            yield f"{wish}: status {done.returncode} {done.stderr[-300:]!r}"


@attack("user", "cc", "ldd")
def a_program_runs_where_its_libraries_are_looked_for(field):
    """A program that names a library for ld.so to run has no rights of root there."""
    told = field.put("told", b"", 0o666)
    auditor = built(field, "auditor.so", AUDITOR, "-shared", "-fPIC", f'-DTOLD="{told}"')
    server = built(field, "server", SERVER, f"-Wl,--audit={auditor}")
    for mode in (0o755, 0o711):
        os.chmod(server, mode)
        session(field, server)
        if b"0\n" in field.read("told").splitlines(keepends=True):
            yield f"mode {mode:o}: it ran as root"
            return
    os.chmod(server, 0o755)
    hidden = field.shared("hidden", 0o700)
    os.rename(built(field, "plain", SERVER), f"{hidden}/plain")
    for mode, wanted in ((0o755, 7), (0o711, 7), (0o700, 3)):
        os.chmod(f"{hidden}/plain", mode)
        yield from (f"a program in a folder of root, mode {mode:o}: {it}" for it in wrong_status(
            session(field, f"{hidden}/plain"), wanted))


def go_server(field, variable, home):
    """Starts the script that keeps its server below this folder. Gives how that ended, and whether one was built."""
    built = field.path("built")
    with suppress(FileNotFoundError):
        os.remove(built)
    done = field.call("servers/go-pkg-sftp", field.path("start.tree"), input=HELLO,
                      env=environment(**{"BUILT": built, variable: home,
                                         "PATH": f"{field.path('tools')}:{os.environ['PATH']}"}))
    return done, os.path.exists(built)


@attack("user")
def a_home_of_another_user_has_the_server_that_root_starts(field):
    """Where another user can put a program in place of the one that is kept, none is started, and none is built."""
    field.blank()
    os.mkdir(field.path("tools"))
    field.put("tools/go", GO.encode(), 0o755)
    for variable, owner, mode in (("HOME", field.user.pw_uid, 0o755), ("HOME", 0, 0o777),
                                  ("XDG_CACHE_HOME", field.user.pw_uid, 0o700), ("HOME", 0, 0o700)):
        home = field.shared(f"{variable}-{owner}-{mode:o}", mode, owner)
        cache = os.path.join(home, ".cache/sftpv3" if variable == "HOME" else "sftpv3")
        if mode != 0o700 or owner:
            os.makedirs(cache)
            shutil.copy(program(), os.path.join(cache, "go-pkg-sftp"))
        done, is_built = go_server(field, variable, home)
        if mode == 0o700 and not owner:
            if is_built != os.path.exists(GO_SOURCES) or b"HOME" in done.stderr:
                yield f"a home of one's own: {done}"
        elif done.returncode != 3 or done.stdout or is_built or b"HOME" not in done.stderr:
            yield f"{variable} of {owner}, mode {mode:o}: {done}, built {is_built}"
