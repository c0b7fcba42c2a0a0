"""The commands sftpv3-record and sftpv3-recordd.

Each session waits for the start of the recorder, so what only few need is imported where it is needed.
"""
import os
import pwd
import sys
import time

from sftpv3.recorder import forced
from sftpv3.recorder.packets import OPENING
from sftpv3.recorder.server import start
from sftpv3.recorder.sessions import OWN_FAILURE, Session, Signals
from sftpv3.recorder.words import AUDIT_FLAGS, AUDIT_MEMORY, AUDIT_VALUES, NAME, VALUES, plainly_read
from sftpv3.spool.sinks import BootTimesSink, Failed, FileSink, SpoolSink, TimesSink, boot_id
from sftpv3.system import naming
from sftpv3.system.notices import Notices, write_error
from sftpv3.system.starts import NotStarted, program_beside
from sftpv3.system.ways import named_twice, refuse_link_of_another

# How many files the daemon may have open.
FILES = 4096


def complain(text):
    """Ends the program after wrong usage."""
    from sftpv3.recorder.parsers import record_parser
    record_parser().error(text)


def value_of(options, name):
    return getattr(options, name[2:].replace("-", "_"))


def audit_words(options):
    """The command of the audit, without its transcript."""
    words = [options.program or program_beside(), "audit"]
    if options.memory is None:
        words += ["--memory", AUDIT_MEMORY]
    for name in AUDIT_VALUES:
        if value_of(options, name) is not None:
            words += [name, value_of(options, name)]
    return words + [it for it in AUDIT_FLAGS if value_of(options, it)]


def read_options(words):
    """The options, the transcript's name (None with --spool) and the command. Wrong usage ends the program."""
    options = plainly_read(words)
    if options is None:
        from sftpv3.recorder.parsers import record_parser
        options = record_parser().parse_args(words)
    for name in VALUES:
        if value_of(options, name) == "":
            complain(f"argument {name}: a value is needed")
    rest = options.words
    options.transcript = None if options.spool or not rest else rest.pop(0)
    if rest[:1] == ["--"]:
        rest.pop(0)
    if not rest or rest[0].startswith("--") or (options.transcript or "").startswith("--"):
        complain("TRANSCRIPT and COMMAND are needed, or --spool SOCKET and COMMAND, after the options")
    of_audit = [it for it in (*AUDIT_VALUES, *AUDIT_FLAGS, "--stop", "--program") if value_of(options, it)]
    if of_audit and not options.audit:
        complain(f"{of_audit[0]} is an option of --audit")
    if options.audit and not options.tree:
        complain("--audit needs --tree")
    if options.boot_clock and not options.times:
        complain("--boot-clock is an option of --times")
    if options.spool and options.overwrite:
        complain("--overwrite and --spool exclude each other")
    try:
        for name in ("transcript", "times", "log", "tree", "out"):
            if getattr(options, name):
                setattr(options, name, naming.expand(getattr(options, name)))
    except naming.BadName as error:
        complain(str(error))
    refuse_named_twice(options)
    options.command = rest
    return options


def refuse_named_twice(options):
    """Ends the program if what is written for one thing is another file of the session, too. The tree may be replaced
    by that of the end."""
    names = [("--tree", options.tree), ("--out", options.out), ("--log", options.log), ("--times", options.times),
             ("TRANSCRIPT", options.transcript)]
    found = named_twice(names, may_be_one=("--tree", "--out"), unfollowed=("--log", "--times", "TRANSCRIPT"))
    if found:
        complain(f"{found[1]} names the file of {found[0]}")


class Records:
    """What is opened before the session: the transcript or the spool, and the times."""

    def __init__(self, options, notices, signals):
        self.options, self.notices = options, notices
        self.is_wanted = lambda: signals.got is None
        self.record = self.times = None
        self.opened = []

    def open(self):
        """Opens them. Returns whether the session may begin."""
        try:
            if self.options.spool:
                self.record = SpoolSink(self.options.spool, naming.address(os.environ))
            else:
                self.record = FileSink(self.opened_file(self.options.transcript))
        except (naming.NotMade, Failed) as error:
            if self.options.required:
                self.notices.say(f"{error}; there is no session, since its record is required")
                return False
            self.notices.say(f"{error}; the session is not recorded")
            return True
        if self.options.times:
            try:
                self.times = self.times_sink()
            except (naming.NotMade, ValueError, OSError) as error:
                self.notices.say(f"{error}; the times are not recorded")
        return True

    def times_sink(self):
        if not self.options.boot_clock:
            return TimesSink(self.opened_file(self.options.times), time.monotonic_ns)
        boot = boot_id()
        return BootTimesSink(self.opened_file(self.options.times), boot)

    def opened_file(self, name):
        opened = naming.Opened(name, self.options.overwrite, self.is_wanted)
        self.opened.append(opened)
        if opened.warning():
            self.notices.say(opened.warning())
        return opened

    def take_back(self):
        for it in self.opened:
            it.take_back()

    def remove(self):
        """Removes what was made: a transcript that has not even its beginning would be a malformed one."""
        for it in self.opened:
            it.remove()


class NotOpened(Exception):
    """A log that cannot be written, and why."""


def open_log(name, notices):
    """Opens the log of this name, if one is wanted."""
    try:
        if name:
            notices.open_log(name)
    except OSError as error:
        raise NotOpened(f"cannot write {name}: {naming.reason(error)}") from None


def open_notices(options):
    about = f"{naming.user_name(os.getuid())} {naming.address(os.environ)} {options.transcript or options.spool}"
    notices = Notices(NAME, about)
    if options.syslog:
        notices.open_syslog()
    try:
        open_log(options.log, notices)
    except NotOpened as error:
        notices.say(str(error))
    return notices


# Shells that read files of their user before they start a command: bash so if sshd starts it.
READING = ("bash", "csh", "fish", "tcsh", "zsh")


def can_be_written(process):
    """Whether other processes of the user, such as the server for its client, can write into the memory of this one."""
    try:
        os.close(os.open(f"/proc/{process}/mem", os.O_RDWR))
    except OSError:
        return False
    return True


def shell_warning():
    """What is wrong with the login shell of a user whose record is required, or None."""
    try:
        user = pwd.getpwuid(os.getuid())
    except KeyError:
        return None
    if "SSH_CONNECTION" not in os.environ:
        return None
    shell = os.path.basename(user.pw_shell)
    if shell in READING and os.access(user.pw_dir, os.W_OK):
        return f"the login shell {shell} reads files of the user before the recorder starts: give this user /bin/sh"
    if os.getuid() and can_be_written(os.getppid()):
        return "the login shell waits, and a client can write into its memory: write exec in front of the recorder"
    return None


def open_audit(options, notices):
    from sftpv3.recorder.auditing import Audit, exposure
    try:
        if options.out:
            refuse_link_of_another(options.out)
        words = audit_words(options)
        warning = exposure(words[0])
        if warning:
            notices.note(warning)
        return Audit(words, notices)
    except OSError as error:
        notices.say(f"cannot run the audit: {error.strerror}; the session is not audited")
        return None


def play(session):
    """Runs the session to its end, also if memory runs out on the way."""
    try:
        return session.run()
    except MemoryError:
        session.cut(OWN_FAILURE)
    session.notices.say("out of memory; the session is ended")
    return session.run()


def record_session(options):
    """Records a session, unless ForceCommand put the recorder in the place of something else than SFTP."""
    other = forced.other(os.environ)
    if other and other.is_refused():
        return OWN_FAILURE
    status, count = record_any(options)
    if other and not count:
        other.refuse()
        return status or OWN_FAILURE
    return status


def record_any(options):
    """Records a session. Gives its status, and how many packets the client sent."""
    signals = Signals()
    notices = open_notices(options)
    records = Records(options, notices, signals)
    if not records.open():
        return OWN_FAILURE, 1
    warning = shell_warning() if options.required else None
    if warning:
        notices.say(warning)
    try:
        server = start(options.command)
    except NotStarted as error:
        records.take_back()
        notices.say(str(error))
        return error.status, 1
    change = None
    if options.plain:
        from sftpv3.recorder.packets import plain as change
    try:
        session = Session(server, signals, notices, options, change)
    except (OSError, MemoryError) as error:
        records.take_back()
        notices.say(told(error))
        return OWN_FAILURE, 1
    if options.audit:
        session.audit = open_audit(options, notices)
    if records.record:
        session.begin_record(records.record, records.times, OPENING)
        if not session.record:
            records.remove()
    status = play(session)
    if session.audit:
        session.audit.finish()
    return status, session.asked.packets


def told(error):
    """What is said of want of memory, or of a call of the system that failed, with the file that it names."""
    if isinstance(error, MemoryError):
        return "out of memory"
    name = "" if error.filename is None else f"{os.fsdecode(error.filename)}: "
    return f"{name}{error.strerror or error}"


def run(act, name):
    """Does the work of a program. No fault ends with a traceback, or with status 0."""
    try:
        return act()
    except (MemoryError, OSError) as error:
        write_error(f"{name}: {told(error)}\n")
    return OWN_FAILURE


def record(words=None):
    return run(lambda: record_session(read_options(sys.argv[1:] if words is None else words)), NAME)


def raise_limit_of_files():
    """Each session of the daemon needs three descriptors, and the usual limit is 1,024."""
    import resource
    soft, hard = resource.getrlimit(resource.RLIMIT_NOFILE)
    wanted = FILES if hard == resource.RLIM_INFINITY else min(FILES, hard)
    if soft < wanted:
        resource.setrlimit(resource.RLIMIT_NOFILE, (wanted, hard))


def keep_records(options):
    from sftpv3.spool import keeping
    raise_limit_of_files()
    notices = Notices("sftpv3-recordd")
    if options.syslog:
        notices.open_syslog()
    try:
        open_log(options.log, notices)
        return keeping.Daemon(options, notices, Signals()).run()
    except (NotOpened, keeping.Unfit) as error:
        notices.say(str(error))
        return OWN_FAILURE


def recordd():
    from sftpv3.recorder.parsers import daemon_parser
    options = daemon_parser().parse_args()
    return run(lambda: keep_records(options), "sftpv3-recordd")
