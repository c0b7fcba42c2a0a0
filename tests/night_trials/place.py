"""A user's folder, the records of the sessions that change it, and runs of clients/nightly for it."""
import os
import pwd
import subprocess
import tempfile
import time
from contextlib import contextmanager
from pathlib import Path

from record_trials.steps import INIT, PROGRAM, TOP, receive
from sftpv3.system import temporary
from trials.finding import FIND
from trials.other_servers import SFTP_SERVER
from trials.processes import executable, run

USER = pwd.getpwuid(os.getuid()).pw_name
NIGHTLY = TOP / "clients/nightly"
# Seconds after which a session that has ended is old enough to be audited.
OLD = 1.2
# What the last line of a good night says.
ENDS_WELL = "the folder is as they left it"

# A nightly run before which this code is run.
CHANGED = """#!/usr/bin/python3
import os, runpy, sys
{find}
from sftpv3.nights import records
{code}
sys.argv[0] = {nightly!r}
runpy.run_path(sys.argv[0], run_name="__main__")
"""


def environment(program=PROGRAM):
    """The environment of a nightly run that audits by this program."""
    return {**os.environ, "SFTPV3": str(program)}


def rewrite(record, change):
    """Changes the bytes of a record, and not its date, by which records are in order."""
    ended = record.stat().st_mtime
    record.write_bytes(change(record.read_bytes()))
    os.utime(record, (ended, ended))


class Place:
    """A folder that a user changes by sessions, the records of these, and the state of the nightly run."""

    def __init__(self, room):
        self.room = room
        self.live, self.records, self.state = room / "live", room / "records", room / "state"
        for it in (self.live, self.records):
            it.mkdir()
        self.words = [TOP / "clients/record", "--required", f"{self.records}/%u-%t-%h-%p.transcript", SFTP_SERVER, "-u",
                      "022"]

    def session(self, *commands):
        """Plays a session, which has ended long enough to be audited."""
        if not self.try_session(*commands):
            raise subprocess.SubprocessError("the session failed")

    def begin(self, *commands):
        """The night that makes the tree of the start, and then a session for each of these commands."""
        self.nightly()
        for it in commands:
            self.session(it)

    def try_session(self, *commands):
        """The same. Returns whether it went through."""
        server = executable(self.room / "server", f"#!/bin/sh\nexec {' '.join(map(str, self.words))}\n")
        ran = subprocess.run(["sftp", "-q", "-b", "-", "-D", server], input="\n".join([f"cd {self.live}", *commands]),
                             text=True, cwd=self.room, stdout=subprocess.DEVNULL, check=False)
        time.sleep(OLD)
        return ran.returncode == 0

    def start(self):
        """Starts a session that goes on, long enough before any other."""
        process = subprocess.Popen(list(map(str, self.words)), stdin=subprocess.PIPE, stdout=subprocess.PIPE, bufsize=0)
        process.stdin.write(INIT)
        receive(process, 4)
        time.sleep(OLD)
        return process

    def end(self, process, last=b""):
        """Ends a session that goes on, behind a last request, long enough before it is audited."""
        process.stdin.write(last)
        time.sleep(0.3)
        process.stdin.close()
        process.wait()
        process.stdout.close()
        time.sleep(OLD)

    def record(self, date, number=1):
        return self.records / f"{USER}-{date}-local-{number}.transcript"

    def write_record(self, date, data, ended):
        """Writes a record that ended at this time."""
        record = self.record(date)
        record.write_bytes(data)
        record.chmod(0o600)
        os.utime(record, (ended, ended))

    def night_words(self, *words, user=USER, folders=None, script=NIGHTLY):
        """The command of a nightly run for the folder."""
        return [str(it) for it in (script, "--records", self.records, "--state", self.state, user,
                                   *(folders or [self.live]), *words)]

    def nightly(self, *words, user=USER, folders=None, program=PROGRAM, script=NIGHTLY, **options):
        """Runs it. Returns its status, and what it prints."""
        ran = run(self.night_words(*words, user=user, folders=folders, script=script), timeout=None,
                  env=environment(program), **options)
        return ran.returncode, ran.stdout

    def check(self, steps, name, status, *parts, words=(), **how):
        """Runs it, and checks its status and what it prints."""
        found, said = self.nightly(*words, **how)
        steps.check(name, found == status and all(it in said for it in parts) and "Traceback" not in said,
                    f"status {found}: {said}")

    def kept(self, kind):
        folder = self.state / USER / kind
        return sorted(folder.iterdir()) if folder.is_dir() else []


@contextmanager
def room():
    with tempfile.TemporaryDirectory(prefix="sftpv3-nightly-", dir=temporary.folder()) as folder:
        yield Place(Path(folder))


def changed(place, code):
    """A script that is clients/nightly, changed by this code."""
    text = CHANGED.format(find=FIND, nightly=str(NIGHTLY), code=code)
    return executable(place.room / "changed", text)
