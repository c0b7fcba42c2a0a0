"""Tests an SFTP server: plays planned sessions against it, has them audited, and shrinks those that differ.

    clients/probe [OPTIONS] -- COMMAND [ARGUMENT ...]

The command starts the server, which speaks over standard input and output. For each seed the probe starts the server
anew and plays a session that it plans from the seed and the tree: most requests make sense, about a quarter are to be
refused. It records the session, and `sftpv3 audit` judges it. If nobody can know what a request changed, nothing after
it can be judged: the probe then plays the plan again without that request. Differences that are alike are one group;
the probe keeps the shortest session that shows each group, as files and as text.

The server has to start each session from the files of the tree. `{tree}` in a word of the command, or in the command of
`--reset`, stands for the name of the tree file. If neither has it, `--tree` has to name the tree, which is then not
shrunk. Before the probe changes anything, it lists the server's root, and ends if that has other files; so it does
before the second session, if the first one left some there. `{folder}` stands for the name of an empty folder of the
session. If the command has it, and with `--reset` or `--look-first` if the command has no `{tree}`, the probe starts
the server again after each session, and checks that what the session left is still there. docs/USING.md of the sources
says more.

The exit status is
  0  all sessions were played and accepted
  1  there are differences
  2  bad usage, or nothing was played: there was no request
  3  the server did not start, not even the first time; or the command of --reset, the program `sftpv3` or the probe
     itself failed
  4  no difference was found, but --patience, SIGHUP, SIGINT or SIGTERM ended the run before all sessions were played
After such a signal, or when the time of --patience is over, the probe reports what it found so far.

SFTPV3 names the program `sftpv3`; without it, it is the one installed beside, or ./sftpv3 builds it.
"""
import os
import sys

from sftpv3.system.standard import begin

begin()
import tempfile
import traceback

from sftpv3.peer import servers
from sftpv3.probe import limits, options, overlaps, quick, runs, sessions, verdicts
from sftpv3.system import program
from sftpv3.system.replacing import NO_ROOM
from sftpv3.system.standard import end
from sftpv3.walk import bounds, looking


def attempt(given, folder, halt, left):
    """The run, and why if it failed. Gives the status."""
    try:
        run = overlaps.Run if given.clients else quick.Run if given.quick else runs.Run
        return run(given, folder, halt, left).run()
    except options.Wrong as error:
        complain_of(error)
        return options.BAD_USAGE
    except (sessions.NotStarted, verdicts.Trouble, program.NotBuilt, bounds.Misbehaves, looking.NotInferred,
            OSError) as error:
        complain_of(named_in(folder, error))
        return options.NOT_STARTED
    except MemoryError:
        program.tell("probe: out of memory")
        return options.NOT_STARTED
    except Exception:  # noqa: BLE001 (whatever it is, it is no difference)
        traceback.print_exc()
        program.tell("probe: this is a mistake in the probe itself: please report it")
        return options.NOT_STARTED
    finally:
        left.end_run(given.reset)
        give_up_output()


def named_in(folder, error):
    """The error. Where a file has no room that it does not name, it is one of the temporary folder."""
    if isinstance(error, OSError) and error.errno in NO_ROOM and error.filename is None:
        return f"its temporary folder: {folder}: {error.strerror} (TMPDIR)"
    return error


def complain_of(error):
    """Says why the run failed. What a server or the program said of it is lines of their own, behind the first."""
    why, *said = program.told(error).split("\n")
    program.tell(f"probe: {why}")
    for line in said:
        program.tell(f"  {line.strip()}")


def give_up_output():
    """Where nobody reads what is printed, nothing is left to be printed at the end."""
    try:
        sys.stdout.flush()
    except OSError:
        os.dup2(os.open(os.devnull, os.O_WRONLY), sys.stdout.fileno())


def main():
    given = options.options(__doc__.split("\n\n", 2)[2])
    halt = limits.Halt()
    halt.on_signals()
    left = servers.Leftovers()
    try:
        with tempfile.TemporaryDirectory(prefix="sftpv3-probe-", dir=program.temporary_folder()) as folder:
            return attempt(given, folder, halt, left)
    except OSError as error:
        program.tell(f"probe: its temporary folder: {program.told(error)}")
        return options.NOT_STARTED


def run():
    sys.exit(end(main, lambda why: program.tell(f"probe: {why}"), options.NOT_STARTED))
