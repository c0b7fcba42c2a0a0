"""Faults that show where two things meet that have nothing to do with each other: a request by one way, in one state of
a handle. Before the scenes of probe/squares.py no plan asked for them."""
from sftpv3.faults.kinds import loses, refuses, top_of

UP = b".."


def goes_up(path):
    """Whether a path has `..` as one of its names."""
    return path is not None and UP in path.split(b"/")


second_write_upwards_lost = loses(
    "A WRITE is lost whose handle was opened by a path with .. while another handle of such a path is open.",
    lambda self, asked, offset, data: goes_up(self.path(asked)) and sum(
        goes_up(opener.fields[0]) for opener in self.openers()) > 1)

hardlink_while_listed = refuses(
    "HARDLINK fails while the directory of the old path is open.", lambda self, asked: asked.name == "HARDLINK" and
    self.numbers_at(top_of(asked.fields[0]), "OPENDIR"))
