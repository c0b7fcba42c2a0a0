"""Starts a server whose root is a folder that has what a tree file says, without SSH.

The folder is made for one session and removed behind it, unless `--folder` names one that stays (folders.py). The
server's program is not part of the tree, so it stands in the folder, with its libraries, a line of passwd and
/dev/null, only until the server has answered INIT; what the client sends after that is passed on once they are gone.
Changing the root, and the owners of files, needs root.
"""
import contextlib
import os
import re
import resource
import shutil
import stat
import subprocess
import sys

from sftpv3.system.standard import begin, print_or_end

begin()
from sftpv3.servers import apart, folders, mounts, streams
from sftpv3.system import ending, temporary
from sftpv3.system.notices import printable
from sftpv3.system.program import NotBuilt

LDD = "/usr/bin/ldd"
# How many seconds it may take, and as whom it runs.
LOOKING, NOBODY = 10, 65534
# Its environment: nothing of this process's, which may have secrets.
BARE = {"LC_ALL": "C", "PATH": "/usr/bin:/bin"}

# The most bytes that all libraries of a program may have.
LARGEST = 1 << 30

# The folder that `--folder` names, if it is given; and what the help says of it.
kept = []
OF_FOLDER = """With --folder, the server's files are in this folder, and stay there: they are made from the tree if it
is empty, and else are those that the last session left. Nobody but this user may enter it."""

# Where the program stands for a moment.
ASIDE = ".sftpv3-start"


def fail(text, status=3):
    print(f"{os.path.basename(sys.argv[0])}: {printable(str(text))}", file=sys.stderr)
    sys.exit(status)


def read_words(about, least=1):
    """Takes `--folder NAME` out of the script's words. Ends the script if they ask for help, which its text `about`
    has, or are fewer than it needs."""
    what, usage, more = (it.strip() for it in about.split("\n\n", 2))
    if sys.argv[1:2] == ["--version"]:
        from sftpv3.system.parsers import VERSION
        print_or_end(f"{os.path.basename(sys.argv[0])} of sftpv3 {VERSION}\n", os.path.basename(sys.argv[0]))
        sys.exit(0)
    if sys.argv[1:2] in (["-h"], ["--help"]):
        print_or_end(f"usage: {usage}\n\n{what}\n\n{more}\n\n{OF_FOLDER}\n", os.path.basename(sys.argv[0]))
        sys.exit(0)
    if sys.argv[1:2] == ["--folder"]:
        kept.extend(sys.argv[2:3])
        del sys.argv[1:3]
    if len(sys.argv) <= least:
        fail(f"usage: {usage}", 2)


def folder_of(arguments, package, program):
    """The folder of the tree that the first word names, if all that is needed is there."""
    if os.geteuid() != 0:
        fail("needs root, to change its root folder and the owners of files")
    if not os.path.exists(program):
        fail(f"{program} is not there: apt-get install {package}")
    try:
        return folders.Kept(arguments[1], kept[0]) if kept else folders.Folder(arguments[1])
    except (temporary.Unfit, NotBuilt, folders.NotOwn) as error:
        return fail(error)
    except (OSError, folders.Bad) as error:
        return fail(f"{arguments[1]}: {error}")


def directory_below(above, name):
    """A descriptor of a directory of this name, which is not reached through a link."""
    return folders.closed_behind(os.open(name, folders.DIRECTORY, dir_fd=above))


def put_file(source, directory, name):
    with open(source, "rb") as file, open(os.open(name, folders.NEW_FILE, 0o700, dir_fd=directory), "wb") as copy:
        shutil.copyfileobj(file, copy)


def as_nobody():
    """Gives up root in a process that only looks at the program under test: what the program names may run there."""
    apart.step_aside()
    os.setgroups([])
    os.setresgid(NOBODY, NOBODY, NOBODY)
    os.setresuid(NOBODY, NOBODY, NOBODY)


def looked_for(file, name):
    """What ldd says of a program that is open, by this name."""
    try:
        return subprocess.run([LDD, name], stdin=subprocess.DEVNULL, capture_output=True, check=False, errors="replace",
                              timeout=LOOKING, env=BARE, pass_fds=[file.fileno()],
                              start_new_session=True, preexec_fn=as_nobody)
    except subprocess.TimeoutExpired:
        return fail(f"{LDD} did not end within {LOOKING} seconds")


def opened_program(program):
    """Opens the program, which its owner may exchange from then on. No secret of root is one that all may run."""
    held = os.open(program, os.O_RDONLY | os.O_NONBLOCK | os.O_CLOEXEC)
    state = os.fstat(held)
    if not stat.S_ISREG(state.st_mode) or not state.st_mode & (stat.S_IROTH | stat.S_IXOTH):
        os.close(held)
        fail(f"{program} is no file that every user can read or run")
    return open(held, "rb")


@contextlib.contextmanager
def readable(file):
    """The open program as `nobody` can read it: of one that every user may only run, as the installed one, a copy that
    no name leads to."""
    if os.fstat(file.fileno()).st_mode & stat.S_IROTH:
        yield file
        return
    with open(os.memfd_create("program"), "wb") as copy:
        size, at = min(os.fstat(file.fileno()).st_size, LARGEST), 0
        while at < size and (sent := os.sendfile(copy.fileno(), file.fileno(), at, size - at)):
            at += sent
        yield copy


def libraries_of(program, file):
    """The libraries that a program needs, which is open, by ldd, which runs code of the program's choice (DT_AUDIT). A
    program in a folder that only root enters is given by its descriptor. One that is not dynamic has none."""
    said = ""
    for name in (program, f"/proc/self/fd/{file.fileno()}"):
        found = looked_for(file, name)
        if found.returncode == 0:
            return re.findall(r"(/\S+) \(0x", found.stdout)
        said += found.stdout + found.stderr
    return [] if "not a dynamic executable" in said else fail(f"every user has to be able to read {program}")


@contextlib.contextmanager
def eyes_of_nobody():
    """In this block files are opened with the rights of the user `nobody`."""
    group, groups = os.getegid(), os.getgroups()
    os.setgroups([])
    os.setegid(NOBODY)
    os.seteuid(NOBODY)
    try:
        yield
    finally:
        os.seteuid(0)
        os.setegid(group)
        os.setgroups(groups)


def opened_by_all(path):
    """Opens a regular file that every user can read, or gives None."""
    with contextlib.suppress(OSError), eyes_of_nobody():
        held = os.open(path, os.O_RDONLY | os.O_NONBLOCK | os.O_CLOEXEC)
        if stat.S_ISREG(os.fstat(held).st_mode):
            return held
        os.close(held)
    return None


def put_libraries(libraries, directory):
    """Puts libraries into a directory. Which ones are needed, the program says: so none is copied that is not every
    user's to read, no device or pipe, and no more than LARGEST bytes together."""
    room = LARGEST
    for library in libraries:
        held = opened_by_all(library)
        if held is None:
            fail(f"{library}, which the program says that it needs, is no file that every user can read")
        room -= os.fstat(held).st_size
        if room < 0:
            fail(f"{library}, which the program says that it needs, has too many bytes")
        put_file(held, directory, os.path.basename(library))


def put_program(folder, program):
    """Puts the program and its libraries aside in the folder. Gives the words that run it there."""
    try:
        os.mkdir(ASIDE, 0o700, dir_fd=folder.root)
    except FileExistsError:
        fail(f"the tree has /{ASIDE}, where the server's program has to stand until it has answered INIT")
    with opened_program(program) as file, directory_below(folder.root, ASIDE) as aside:
        with readable(file) as given:
            libraries = libraries_of(program, given)
        put_file(os.dup(file.fileno()), aside, "server")
        put_libraries(libraries, aside)
    loader = [os.path.basename(library) for library in libraries if "/ld-" in library]
    if not loader:
        return [f"/{ASIDE}/server"]
    return [f"/{ASIDE}/{loader[0]}", "--library-path", f"/{ASIDE}", f"/{ASIDE}/server"]


@contextlib.contextmanager
def mounted(directory, name):
    """A path of what is mounted at this name of a directory."""
    with folders.closed_behind(os.open(name, os.O_PATH | os.O_NOFOLLOW, dir_fd=directory)) as held:
        yield f"/proc/self/fd/{held}"


class Lent:
    """What a program may look for when it starts, unless the tree has it: a line for root in /etc/passwd, /dev/null.
    Where the tree has another thing than a directory at /etc or /dev, nothing is lent there."""

    def __init__(self, folder):
        self.folder, self.made = folder, []
        self.lend("etc", "passwd", self.put_passwd, os.remove)
        self.lend("dev", "null", self.put_null, self.remove_null)

    def lend(self, place, name, put, remove):
        with contextlib.suppress(FileExistsError):
            os.mkdir(place, 0o755, dir_fd=self.folder.root)
            self.made.append(lambda: os.rmdir(place, dir_fd=self.folder.root))
        with contextlib.suppress(OSError), directory_below(self.folder.root, place) as directory:
            put(directory, name)
            self.made.append(lambda: self.take_back(place, name, remove))

    def take_back(self, place, name, remove):
        with directory_below(self.folder.root, place) as directory:
            remove(name, dir_fd=directory)

    @staticmethod
    def put_passwd(directory, name):
        with open(os.open(name, folders.NEW_FILE, 0o644, dir_fd=directory), "w", encoding="ascii") as file:
            file.write("root:x:0:0:root:/:/bin/sh\n")

    def put_null(self, directory, name):
        """A device has no effect on a mount of the folder's own: there the system's is bound to a file, and its owner
        and permissions are not to be changed."""
        if not self.folder.has_mount:
            os.mknod(name, 0o600 | stat.S_IFCHR, os.makedev(1, 3), dir_fd=directory)
            return
        with open(os.open(name, folders.NEW_FILE, 0o600, dir_fd=directory), "wb") as file:
            mounts.bind("/dev/null", f"/proc/self/fd/{file.fileno()}")
        with mounted(directory, name) as place:
            mounts.fix(place)

    def remove_null(self, name, dir_fd):
        if self.folder.has_mount:
            with mounted(dir_fd, name) as place:
                mounts.unmount(place)
        os.remove(name, dir_fd=dir_fd)

    def remove(self):
        for take_back in reversed(self.made):
            take_back()


def enter(folder, take=lambda: None):
    """Makes the folder this process's root, and gives up the rights that lead out of it, and the sight of all other
    processes; `take` may close its descriptors. Files get the permissions that are asked for without those of 022."""
    os.fchdir(folder.root)
    take()
    apart.step_aside()
    os.chroot(".")
    os.umask(0o022)
    resource.setrlimit(resource.RLIMIT_CORE, (0, 0))
    mounts.give_up_rights()


def version_of(folder, server):
    """Passes INIT on, and gives what the server answers."""
    try:
        first = streams.read_packet(0)
        streams.write_all(server.stdin.fileno(), first)
        return streams.read_packet(server.stdout.fileno()) if first else b""
    except BrokenPipeError:
        return b""
    finally:
        folders.remove_directory(ASIDE, folder.root)


def run(folder, program, arguments):
    """Runs the program until it ends, and gives its status as subprocess does."""
    lent = Lent(folder)
    try:
        words = put_program(folder, program) + arguments
        # in a session of its own it types nothing into this terminal, and by pipes it holds no file of the machine
        server = subprocess.Popen(words, stdin=subprocess.PIPE, stdout=subprocess.PIPE, stderr=subprocess.PIPE,
                                  bufsize=0, env={"LC_ALL": "C"}, start_new_session=True,
                                  preexec_fn=lambda: enter(folder))
        said = streams.shown(server.stderr.fileno())
        version = version_of(folder, server)
    finally:
        lent.remove()
    streams.write_all(1, version)
    ends = os.dup(server.stdin.fileno()), os.dup(server.stdout.fileno())
    server.stdin.close()
    server.stdout.close()
    streams.pass_all(*ends)
    status = server.wait()
    said.join(streams.LAST_WORDS)
    return status


def serve_in_folder(package, program, session):
    """Has a session of a server in the folder of the tree, by a function of it that gives the server's status, and ends
    this process as the server did."""
    ending.end_in_order()
    try:
        with folder_of(sys.argv, package, program) as folder:
            try:
                status = session(folder)
            except OSError as error:
                fail(error)
            finally:
                ending.hold_off()
    except ending.Signalled as came:
        sys.exit(came.status)
    sys.stdout.flush()
    apart.end_as(status)


def serve(program, package, fixed=()):
    """The whole of a script behind `read_words`: `SCRIPT TREE [ARGUMENT ...]`."""
    serve_in_folder(package, program, lambda folder: run(folder, program, list(fixed) + sys.argv[2:]))
