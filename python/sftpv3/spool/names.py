"""The names of transcripts, and of the files of times beside them."""
import re

# The name of a transcript, and with what the name of a file of times beside it ends in its place.
TRANSCRIPT, TIMES = re.compile(r"(.*)\.transcript((?:\.[0-9a-f]+)?)", re.DOTALL), ".times"


def times_name(name):
    """The name of the file of times beside a transcript of this name; None if no transcript is named like that."""
    found = TRANSCRIPT.fullmatch(name)
    return found and found[1] + TIMES + found[2]
