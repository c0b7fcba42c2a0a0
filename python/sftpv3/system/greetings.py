"""Text where packets should come: what a start file of the user's shell prints, or the last words of a server."""
import codecs

# The bytes of text. The first four bytes of a packet are its length, and text would be the length of one nobody takes.
TEXT = {*b"\t\n\r\a\x1b", *range(0x20, 0x7f), *range(0x80, 0x100)}
LENGTH = 4
# How many bytes are looked at, and how many characters of a line are shown.
LOOKED, SHOWN = 400, 60


def text_at(data):
    """The first line of what these bytes begin with, in quotes, if that is text; "" if it is none."""
    start = bytes(data[:LOOKED])
    end = next((at for at, byte in enumerate(start) if byte not in TEXT), len(start))
    try:
        text = codecs.getincrementaldecoder("utf-8")().decode(start[:end])
    except UnicodeDecodeError:
        return ""
    line = next((it for it in map(str.strip, text.splitlines()) if it), "") if end >= LENGTH else ""
    shown = line[:SHOWN].encode("unicode_escape").decode("ascii")
    return f'"{shown}{"..." if len(line) > SHOWN else ""}"' if line else ""
