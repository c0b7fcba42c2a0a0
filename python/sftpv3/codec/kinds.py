"""What a file is, by its first bytes."""
from __future__ import annotations

# What messages call a file, by the words that `found` of `sftpv3 audit --json` has (docs/FORMATS.md), and by those for
# files which scripts alone read.
TEXTS = {
    "empty": "empty", "transcript": "a transcript", "tree": "a tree file", "times": "a file of times",
    "order": "an order of a set", "text": "a text as 'sftpv3 show' prints it",
    "packets": "packets without the marks of a recorder", "archive": "an archive", "zip": "an archive of zip",
    "7z": "an archive of 7z", "html": "a page of HTML", "pcap": "a capture of network packets",
    "json": "a text in JSON", "ssh-log": "a log of ssh -v", "gzip": "compressed by gzip", "xz": "compressed by xz",
    "zstd": "compressed by zstd", "bzip2": "compressed by bzip2", "lzip": "compressed by lzip",
    "compress": "compressed by compress"}

TRANSCRIPT, TREE, TIMES, ORDER = (TEXTS[word] for word in ("transcript", "tree", "times", "order"))

# What is in the first bytes of a file, and how far from its start.
MARKS = (
    (0, "transcript", (b"SFTPTR",)), (0, "tree", (b"SFTREE",)), (0, "times", (b"SFTPTM",)), (0, "order", (b"SFTPOR",)),
    (257, "archive", (b"ustar",)), (0, "text", (b'home "', b"C INIT ")), (0, "zip", (b"PK\x03\x04", b"PK\x05\x06")),
    (0, "7z", (b"7z\xbc\xaf\x27\x1c",)), (0, "html", (b"<!DOCTYPE html", b"<!doctype html", b"<html", b"<HTML")),
    (4, "packets", (b"\x01\0\0\0\x03", b"\x02\0\0\0\x03")),
    # of tcpdump and Wireshark: either order of bytes, times in microseconds or nanoseconds; and pcapng
    (0, "pcap", (b"\xd4\xc3\xb2\xa1", b"\xa1\xb2\xc3\xd4", b"\x4d\x3c\xb2\xa1", b"\xa1\xb2\x3c\x4d", b"\n\r\r\n")),
    (0, "json", (b'{"', b"[{")), (0, "ssh-log", (b"OpenSSH_", b"debug1: ")), (0, "gzip", (b"\x1f\x8b",)),
    (0, "xz", (b"\xfd7zXZ\0",)), (0, "zstd", (b"\x28\xb5\x2f\xfd",)), (0, "bzip2", (b"BZh",)), (0, "lzip", (b"LZIP",)),
    (0, "compress", (b"\x1f\x9d",)))


# The kinds of files of this project but for texts.
OWN = (TRANSCRIPT, TREE, TIMES, ORDER)


def kind_of(data: bytes) -> str | None:
    """What a file with these bytes is, or None."""
    if not data:
        return TEXTS["empty"]
    return next((TEXTS[word] for place, word, marks in MARKS if data.startswith(marks, place)), None)


def named(data: bytes, wanted: str) -> str | None:
    """What is said of a file that is of another kind than the one that is wanted, or None."""
    found = kind_of(data)
    return None if found in (None, wanted) else f"it is {found}, not {wanted}"


def mistaken(data: bytes, wanted: str) -> str | None:
    """The same of a file of this project. Of another one, readers have the fault that the documents name."""
    return named(data, wanted) if kind_of(data) in OWN else None
