"""An audit that reads along, and says a wrong reply while the session still runs."""
import collections
import os
import select
import signal
import subprocess
import time

# How many bytes the audit may be behind. The session never waits for it.
BEHIND = 16 << 20
# How long the audit may take when the session has ended.
SECONDS = 5
# Whether, and from 1 on which, processes of one user may trace each other; and whether that holds, by 1, of a program
# that the user cannot read.
SCOPE, DUMPABLE = "/proc/sys/kernel/yama/ptrace_scope", "/proc/sys/fs/suid_dumpable"
EXPOSED = ("{}, so a client of the server can write into the audit, whose verdict is no evidence: {}, or set "
           "kernel.yama.ptrace_scope to 1")


def setting(name, usual):
    """What the system has in this file."""
    try:
        with open(name, encoding="ascii") as file:
            return file.read().strip()
    except OSError:
        return usual


def place_of(program):
    """The file that runs under this name, or None."""
    folders = [""] if "/" in program else os.get_exec_path()
    return next((it for it in (os.path.join(folder, program) for folder in folders) if os.access(it, os.X_OK)), None)


def exposure(program):
    """What is wrong if another process of the user may write into this program, as a server does for its client. The
    system keeps all from one that its user cannot read, unless it is told to. Root, and who owns the program, could do
    more anyway."""
    place = place_of(program)
    if os.getuid() == 0 or place is None or os.stat(place).st_uid == os.getuid() or setting(SCOPE, "0") != "0":
        return None
    if os.access(place, os.R_OK):
        return EXPOSED.format(f"the user can read {place}", "give the program mode 0711")
    return EXPOSED.format("fs.suid_dumpable is 1", "set it to 0") if setting(DUMPABLE, "0") == "1" else None


class Audit:
    """The process of `sftpv3 audit`, and what it has not read yet.

    `refused` is whether it found the session wrong, a reply or a packet.
    """

    def __init__(self, words, notices):
        self.notices = notices
        # it ignores SIGXFSZ as Python itself, so that it says which file may not be longer, and leaves nothing
        self.process = subprocess.Popen([*words, "--transcript", "/dev/stdin"], stdin=subprocess.PIPE,
                                        stdout=subprocess.PIPE, stderr=subprocess.STDOUT, bufsize=0,
                                        start_new_session=True, restore_signals=False)
        self.input, self.output = self.process.stdin.fileno(), self.process.stdout.fileno()
        os.set_blocking(self.input, False)
        os.set_blocking(self.output, False)
        self.pending, self.behind = collections.deque(), 0
        self.is_fed, self.is_heard, self.is_given_up, self.refused = True, True, False, False
        # whether the session has ended
        self.is_last = False
        self.said = b""

    def put(self, data):
        if not self.is_fed:
            return
        self.pending.append(memoryview(data))
        self.behind += len(data)
        self.feed()
        if self.behind > BEHIND:
            self.give_up("it fell behind; the record goes on")

    def give_up(self, why):
        """Ends the audit. What it says of the packets that it had is not heard."""
        if not self.is_given_up and self.is_heard:
            self.is_given_up = True
            self.notices.say(f"the audit is given up: {why}")
            self.stop_feeding()
            self.kill()

    def feed(self):
        """Writes what is pending, as far as the audit takes it."""
        try:
            while self.pending:
                count = os.write(self.input, self.pending[0])
                self.behind -= count
                first = self.pending.popleft()
                if count < len(first):
                    self.pending.appendleft(first[count:])
        except BlockingIOError:
            pass
        except OSError:
            # it has ended, and its output says why
            self.stop_feeding()

    def stop_feeding(self):
        if self.is_fed:
            self.is_fed, self.behind = False, 0
            self.pending.clear()
            self.process.stdin.close()

    def hear(self):
        """Reads what the audit says, and at its end draws the conclusion."""
        try:
            said = os.read(self.output, 4096)
        except BlockingIOError:
            return
        except OSError:
            said = b""
        self.said = (self.said + said)[-65536:]
        if not said:
            self.is_heard = False
            self.process.stdout.close()
            self.stop_feeding()
            self.conclude()

    def conclude(self):
        status = self.process.wait()
        lines = self.said.decode(errors="replace").splitlines()
        if self.is_given_up:
            return
        if status == 0 and lines:
            self.notices.note(f"audit: {lines[-1]}")
        elif status == 1 or status == 2 and lines and lines[0].startswith("sftpv3: transcript: "):
            self.refused = True
            for line in lines:
                self.notices.say(f"audit: {line}")
        else:
            how = f"ended with status {status}" if status >= 0 else f"was ended by signal {-status}"
            how += "" if self.is_last else "; the record goes on"
            self.notices.say(f"the audit {how}{': ' if lines else ''}"
                             + "; ".join(filter(None, map(str.strip, lines))))

    def kill(self):
        """Ends the audit, and what it started."""
        try:
            os.killpg(self.process.pid, signal.SIGKILL)
        except OSError:
            pass

    def interests(self):
        """What to wait for: descriptors, events, and what to do then."""
        if self.pending:
            yield self.input, select.POLLOUT, self.feed
        if self.is_heard:
            yield self.output, select.POLLIN, self.hear

    def finish(self):
        """Gives the audit some seconds for the end of the session."""
        self.is_last = True
        end = time.monotonic() + SECONDS
        while self.is_heard and time.monotonic() < end:
            if not self.pending:
                self.stop_feeding()
            looking = select.poll()
            acts = {}
            for file, events, act in self.interests():
                looking.register(file, events)
                acts[file] = act
            for file, _ in looking.poll(100):
                acts[file]()
        if self.is_heard:
            self.kill()
            self.process.wait()
            self.notices.say(f"the audit did not end within {SECONDS} seconds after the session")
