"""Looks at the files of a server through the protocol, and makes the tree file that it saw.

    clients/walk [OPTIONS] -- COMMAND [ARGUMENT ...]

The command starts a server that speaks over standard input and output, or leads to one: `ssh HOST -s sftp`, which gets
no terminal, so that it needs a key or an agent. The walk asks where relative paths start (REALPATH), lists directories,
asks for the attributes of all that it finds (LSTAT, and STAT of links), and reads links and files. It changes nothing,
follows no link, and opens nothing but directories and files. The session is recorded, and `sftpv3 infer` makes the tree
of the record: so the tree explains each reply, and `sftpv3 audit` accepts the session with it, by the same profile.

The tree has what is below the places that the walk looked at, and what is on the way to them. What the walk did not see
does not exist in it. Two names of one file are two files in it. If other clients change something meanwhile, replies
may contradict each other.

The walk fails, and writes no tree, if the server ends before its last reply or crashes after it, does not reply in
time, lists names without end, or sends bytes that are no packet, a packet that is malformed or too long, or a name that
no file can have. A line names each thing that cannot be looked at, or that no tree file has.

The exit status is
  0  the tree was written; with --session alone, the session was recorded
  1  no tree explains what the server replied
  2  bad usage
  3  the server did not start or misbehaved, a place of --below is not there, or a file could not be written; or the
     program `sftpv3` failed
If SIGHUP, SIGINT or SIGTERM ended the walk, it is 128 and the number of the signal.
"""
import os
import sys

from sftpv3.system.standard import begin

begin()
import shutil
import stat
import tempfile
from contextlib import suppress

from sftpv3.codec import trees, wording
from sftpv3.peer import servers
from sftpv3.peer.servers import is_crash
from sftpv3.spool import sinks
from sftpv3.system import ending, naming, program, temporary
from sftpv3.system.replacing import Replacing
from sftpv3.system.standard import end
from sftpv3.system.ways import end_of, is_one_file
from sftpv3.walk import bounds, looking, options, remains, sessions

NAME = os.path.basename(program.called("walk"))


class Absent(Exception):
    """A place that is to be looked at, and is not there."""


def tell(text):
    program.tell(f"{NAME}: {text}")


def tell_lines(lines, before=""):
    for line in lines:
        tell(before + line)


def record_at(name):
    """Where the session is recorded."""
    opened = naming.Opened(name, False, lambda: True)
    if not opened.is_regular:
        os.close(opened.file)
        raise naming.NotMade(f"cannot write {name}: not a regular file")
    return sinks.FileSink(opened)


def walk(given, record):
    """Has the session, and gives it with the places of --below that are not there. Raises Misbehaves if it did not come
    to its end."""
    notes = bounds.Notes(tell)
    work = looking.Walk(given.below, notes, not given.no_contents, given.max_bytes, given.max_entries)
    with ending.put_off() as go_on:
        running = servers.Running(servers.started(given.command))
        try:
            go_on()
            session = sessions.Session(running, record, given.timeout, given.in_flight,
                                       bounds.PASSED_BYTES * given.max_entries + given.max_bytes, by_letter=True)
            end_to_end(session, work)
        finally:
            # what it started may go on where it has ended itself
            running.stop()
    notes.end()
    return session, work.absent


def end_to_end(session, work):
    """Has a session, and says how many replies were to nothing."""
    try:
        play(session, work)
    finally:
        if session.unwanted:
            tell(bounds.to_no_request(session.unwanted))


def play(session, work):
    """Has a session that is begun. Raises Misbehaves if it did not come to its end."""
    try:
        session.open()
        session.play(work)
    except bounds.Misbehaves:
        tell_lines(session.close(), "standard error: ")
        raise
    said = session.close()
    session.take_last()
    if session.status != 0:
        tell_lines(said, "standard error: ")
        tell_end(session.status)


def tell_end(status):
    """Says how a server ended that had replied to all. Raises Misbehaves if it crashed."""
    how = f"the server ended {servers.ending(status)}"
    if is_crash(status):
        raise bounds.Misbehaves(how)
    tell(f"after its last reply {how}")


def make_tree(given, transcript, folder):
    is_aside = given.to is None or given.owner is not None
    place = os.path.join(folder, "seen.tree") if is_aside else given.to
    with remains.removed(place):
        is_there, said, why = looking.infer(program.program(), transcript, place, given.infer_words, given.memory)
    if is_there and given.owner:
        put_owner(place, given.owner)
    tell_lines(why.splitlines())
    if is_there and is_aside and given.to is not None:
        put_in_place(place, given.to)
    if said and given.to is None:
        program.tell(said)
    elif said:
        print(wording.line(said))
    if is_there and given.to is None:
        print_tree(place)
    return options.WRITTEN if is_there else options.NO_TREE


def put_owner(place, owner):
    """Says in the tree file whose the things are that sessions make: the walk made none. The file is in a folder that
    nobody else enters, so it is the one that was made."""
    with open(place, "r+b") as file:
        trees.put_owner(file, owner)


def put_in_place(made, name):
    """Has the tree that was made take a name. Raises OSError if a link of another user is on the way to it."""
    target, found = end_of(name)
    with open(made, "rb") as tree, Replacing(target) as new:
        shutil.copyfileobj(tree, new.file)
        new.sync(stat.S_IMODE(found.st_mode) & 0o777 if found else 0o600)
        new.keep()


def print_tree(place):
    with open(place, "rb") as file:
        program.put_file(file)


def known_by(found):
    """By what the file of a tree is known, or None if there is none."""
    return found and (found.st_dev, found.st_ino, found.st_mtime_ns)


def told_of_tree(given):
    """What became of the tree, where a signal ended the walk: it may have come after the last step."""
    with suppress(OSError):
        if "before" in given and known_by(end_of(given.to)[1]) != given.before:
            return "the tree is written"
    return "no tree is written"


def look_at(name):
    """By what the file that is there is known. Raises NotMade if the tree cannot be put there, or would go where a link
    of another user leads."""
    try:
        found = end_of(name)[1]
    except (FileNotFoundError, NotADirectoryError) as error:
        folder = os.path.dirname(name)
        why = f"there is no folder {folder}" if folder else error.strerror
        raise naming.NotMade(f"cannot write {name}: {why}") from None
    except OSError as error:
        raise naming.NotMade(f"cannot write {name}: {error.strerror}") from None
    if found and not stat.S_ISREG(found.st_mode):
        raise naming.NotMade(f"cannot write {name}: not a regular file")
    return known_by(found)


def refuse_names(given, folder):
    """Raises NotMade if the program, which makes the tree, takes not all names that it would get."""
    for name in filter(None, (given.to, given.session)):
        if not program.takes(name):
            raise naming.NotMade(f"cannot write {name}: {program.NO_TEXT}")
    if not program.takes(folder):
        raise naming.NotMade(f"cannot write {folder}: {program.NO_TEXT} (TMPDIR)")


def record_and_make(given, folder):
    makes = given.to is not None or not given.session
    if makes:
        refuse_names(given, folder)
    if given.to is not None:
        given.before = look_at(given.to)
    if makes and not looking.can_infer(program.program()):
        raise looking.NotInferred("the program sftpv3 has no `infer`, so it makes no tree: use --session alone")
    why = looking.why_wrong(program.program(), given.infer_words, folder) if makes else None
    if why:
        tell(why)
        return options.BAD_USAGE
    record = record_at(given.session or os.path.join(folder, "session.transcript"))
    if given.to is not None and is_one_file(given.to, record.name):
        raise naming.NotMade(f"cannot write {given.to}: the session would be recorded in it")
    if given.session and record.name != given.session:
        tell(f"{given.session} is there already: the session is recorded in {record.name}")
    session, absent = walk(given, record)
    if not makes:
        print(f"{wording.line(record.name)}: {session.asked} requests")
        return options.WRITTEN
    if absent:
        raise Absent(f"{bounds.shown(absent[0])} is not there")
    status = make_tree(given, record.name, folder)
    if status == options.NO_TREE and session.denied and given.profile != options.OF_USERS:
        tell(f"{session.denied:,} of the replies are PERMISSION_DENIED, which --profile {options.OF_USERS} takes as "
             "right")
    return status


def attempt(given, folder):
    """Walks, and says why if there is no tree. Gives the status."""
    try:
        return record_and_make(given, folder)
    except (bounds.Misbehaves, Absent) as error:
        tell(f"{error}; no tree is written")
    except MemoryError:
        tell("out of memory")
    except (servers.NotStarted, naming.NotMade, sinks.Failed, looking.NotInferred, program.NotBuilt,
            OSError) as error:
        tell(program.told(error))
    return options.NOT_WRITTEN


def main():
    given = options.options(__doc__.split("\n\n", 2)[2])
    ending.end_in_order()
    try:
        with tempfile.TemporaryDirectory(prefix="sftpv3-walk-", dir=temporary.folder()) as folder:
            try:
                return attempt(given, folder)
            finally:
                ending.hold_off()
    except ending.Signalled as signal:
        tell(f"{signal}; {told_of_tree(given)}")
        return signal.status
    except OSError as error:
        tell(f"its temporary folder: {program.told(error)}")
        return options.NOT_WRITTEN


def run():
    sys.exit(end(main, tell))
