"""The words of the recorder's command line: its options, and how a usual line is read without argparse, whose import a
session would wait for."""

NAME = "sftpv3-record"

# The options of the audit that are passed on to it: with a value, and without.
AUDIT_VALUES = {"--tree": "FILE", "--out": "FILE", "--profile": "NAME", "--allow": "NAME,...", "--except": "NAME,...",
                "--umask": "OCTAL", "--new-owner": "RULE", "--symlink": "ORDER", "--memory": "BYTES", "--mode": "OCTAL"}
AUDIT_FLAGS = ("--cut", "--json", "--no-sync")

# All options of the recorder: without a value, and with one.
FLAGS = ("--plain", "--overwrite", "--required", "--syslog", "--audit", "--stop", "--boot-clock", *AUDIT_FLAGS)
VALUES = ("--times", "--spool", "--log", "--program", *AUDIT_VALUES)
GRACE = 30.0
# The most memory of an audit, unless --memory says otherwise.
AUDIT_MEMORY = str(1 << 30)


class Options:
    """The options of a command line, as argparse has them."""

    def __init__(self):
        self.grace = GRACE
        self.words = []
        for name in FLAGS:
            self.set(name, False)
        for name in VALUES:
            self.set(name, None)

    def set(self, name, value):
        setattr(self, name[2:].replace("-", "_"), value)


def plainly_read(words):
    """Reads a command line whose options are written out, as in sshd_config. Returns None if it has anything else."""
    options, place = Options(), 0
    while words[place:] and words[place].startswith("-"):
        name, value = words[place], words[place + 1:place + 2]
        if name in FLAGS:
            options.set(name, True)
            place += 1
        elif name in VALUES and value and not value[0].startswith("-"):
            options.set(name, value[0])
            place += 2
        else:
            return None
    options.words = list(words[place:])
    return options
