"""Archives that have to be refused, what is no archive, and files that cannot be written or are the input."""
import bz2
import gzip
import io
import lzma
import os
import pty
import resource
import subprocess
import tarfile
import tempfile
import zipfile
from pathlib import Path

from archive_trials.members import END, FILE, entry, run, sftpv3
from sftpv3.system.program import TOP, program
from trials.processes import ended, limited

EXAMPLES = Path(TOP) / "examples"

REFUSED = [
    ("a truncated header", FILE + FILE[:300], 2),
    ("a truncated file", FILE[:513], 1),
    ("no end", FILE, 2),
    ("no bytes", b"", 1),
    ("a wrong checksum", b"b" + FILE[1:] + END, 1),
    ("a hard link to a name that does not come", FILE + entry("b", tarfile.LNKTYPE, link="c") + END, 2),
    ("a hard link before its file", entry("b", tarfile.LNKTYPE, link="a") + FILE + END, 1),
    ("a path with `..`", FILE + entry("d/../b") + END, 2),
    ("a directory where a file is", FILE + entry("a/b") + END, 2),
    ("a device", entry("b", tarfile.CHRTYPE) + END, 1),
    ("a FIFO", entry("b", tarfile.FIFOTYPE) + END, 1),
    ("a name of 256 bytes", entry("n" * 256) + END, 1),
    ("a path with NUL", entry("é\0b" * 50) + END, 1),
    ("a file above the limit", entry("b", content=bytes(16_777_217)) + END, 1),
    ("65 names", entry("/".join("n" * 65)) + END, 1),
    ("65,537 entries", b"".join(entry(str(n)) for n in range(65_537)) + END, 10_000),
    ("a link with no target", entry("b", tarfile.SYMTYPE) + END, 1),
    ("a root that is a file", entry(".") + END, 1),
]


def try_refused(steps, folder):
    """Archives that have to be refused, with the number of the entry, and nothing written."""
    for name, archive, number in REFUSED:
        tree = folder / "refused"
        done = sftpv3(["import", tree], archive)
        line = done.stderr.decode(errors="replace").strip()
        named = line.startswith((f"sftpv3: archive: entry {number}:", f"sftpv3: archive: entry {number}, \""))
        holds = done.returncode == 2 and named and not (tree.exists() or done.stdout)
        steps.check(f"refuses {name}", holds, line[:100])


def try_compressed(steps, folder):
    """A compressed archive is refused by the name of what compressed it."""
    noise = bytes(number * number % 251 for number in range(20_000))
    archive = FILE + entry("noise", content=noise) + END
    for name, data in [
        ("gzip", gzip.compress(archive)), ("gzip", gzip.compress(END)), ("bzip2", bz2.compress(archive)),
        ("bzip2", bz2.compress(archive, 1)), ("xz", lzma.compress(archive)),
        ("zstd", b"\x28\xb5\x2f\xfd" + noise), ("lzip", b"LZIP\x01" + noise), ("compress", b"\x1f\x9d\x90" + noise),
    ]:
        done = sftpv3(["import", folder / "packed"], data)
        said = f"sftpv3: archive: compressed by {name}: decompress it first\n"
        holds = done.returncode == 2 and done.stderr.decode() == said and not (folder / "packed").exists()
        steps.check(f"names {name}, {len(data)} bytes", holds, done.stderr.decode()[:100])
    done = sftpv3(["import", folder / "unpacked"], entry("BZh9", content=b"LZIP") + END)
    steps.check("a first name that begins so is a name", done.returncode == 0, done.stderr.decode()[:100])


def made_by_tar(words):
    """What tar with these words makes of a folder with a file."""
    with tempfile.TemporaryDirectory() as name:
        (Path(name) / "f").write_bytes(b"f" * 20_000)
        return run(["tar", "-C", name, *words, "-c", "."]).stdout


def make_long(folder):
    """A file of more than a volume has."""
    (folder / "long-file").write_bytes(b"long" * 4000)
    return "long-file"


def try_no_archive(steps, folder):
    """What is no archive, or is one that tar made in a way of its own, is named by a second line."""
    zipped, way = io.BytesIO(), "sftpv3: made by tar with {}: make the archive without it\n"
    with zipfile.ZipFile(zipped, "w") as archive:
        archive.writestr("a", "abc" * 1000)
    end = "sftpv3: standard input is {}, not an archive of tar\n"
    page = b"<!DOCTYPE html>\n<html><head><title>404</title></head></html>\n"
    text = sftpv3(["show", "--full", EXAMPLES / "letters.tree"]).stdout
    volumes = [folder / "volume-1", folder / "volume-2"]
    run(["tar", "-C", folder, "-M", "-L", "10", "-c", *(f"--file={it}" for it in volumes), make_long(folder)])
    for name, data, said in [
        ("a zip archive", zipped.getvalue(), end.format("an archive of zip")),
        ("an empty zip archive", b"PK\5\6" + bytes(18), end.format("an archive of zip")),
        ("a short zip archive", zipped.getvalue()[:100], end.format("an archive of zip")),
        ("a 7z archive", b"7z\xbc\xaf\x27\x1c\0\4" + bytes(range(256)) * 4, end.format("an archive of 7z")),
        ("a tree file", (EXAMPLES / "letters.tree").read_bytes(), end.format("a tree file")),
        ("a transcript", (EXAMPLES / "reads.transcript").read_bytes(), end.format("a transcript")),
        ("the text of a tree", text, end.format("a text as 'show' prints it")),
        ("a page", page, end.format("a page of HTML")),
        ("a long page", page * 100, end.format("a page of HTML")),
        ("no bytes", b"", "sftpv3: standard input is empty\n"),
        ("tar with a label", made_by_tar(["--format=gnu", "-V", "LABEL"]), way.format("--label")),
        ("tar for increments", made_by_tar(["--format=gnu", "-G"]),
         way.format("--incremental or --listed-incremental")),
        ("a second volume", volumes[1].read_bytes(), way.format("--multi-volume")),
        ("noise", bytes(range(1, 250)) * 10, ""),
        ("a cut archive", FILE[:200], ""), ("an archive cut behind its mark", FILE[:300], ""),
    ]:
        done = sftpv3(["import", folder / "none"], data)
        found = done.stderr.decode().partition("\n")
        steps.check(f"names {name}", done.returncode == 2 and found[0].startswith("sftpv3: archive: entry 1") and
                    found[2] == said and not (folder / "none").exists(), done.stderr.decode()[:200])


def try_input_kept(steps, folder):
    """The file on standard input is not replaced by what is made of it, whatever name leads to it."""
    text = sftpv3(["show", "--full", EXAMPLES / "letters.tree"]).stdout
    file, link, further, other = (folder / name for name in ("input", "input-link", "input-name", "input-other"))
    link.symlink_to(file)
    for word, data in (("import", FILE + END), ("make", text)):
        file.write_bytes(data)
        os.link(file, further)
        for named in (file, link, further):
            with open(file, "rb") as given:
                done = subprocess.run([program(), word, named], stdin=given, capture_output=True, check=False)
            said = b"error: the file to write is the one on standard input\n"
            steps.check(f"{word}: the input is not replaced by {named.name}", done.returncode == 2
                        and done.stderr.startswith(said) and file.read_bytes() == data, done.stderr.decode()[:200])
        other.write_bytes(data)
        with open(file, "rb") as given:
            done = subprocess.run([program(), word, other], stdin=given, capture_output=True, check=False)
        steps.check(f"{word}: another file is replaced", done.returncode == 0 and other.read_bytes() != data,
                    done.stderr)
        further.unlink()


def try_unread(steps, folder):
    """Nothing is read where no archive can come, or where its tree cannot be written: the run ends at once."""
    _, terminal = pty.openpty()
    source, _ = os.pipe()
    place = folder / "unread"
    place.mkdir()
    for name, given, file, status, said in [
        ("a terminal", terminal, place / "tree", 2, "error: standard input is a terminal; give it an archive: "),
        ("a folder in the place of the file", source, place, 3,
         f"sftpv3: cannot write {place}: neither a regular file nor standard output\n"),
        ("a file in no folder", source, place / "none" / "tree", 3, f"sftpv3: cannot write {place}/none/tree\n"),
    ]:
        with subprocess.Popen([program(), "import", file], stdin=given, stderr=subprocess.PIPE, text=True) as process:
            found = ended(process)
            process.kill()
            line = process.stderr.read()
        steps.check(f"{name} is refused before anything is read", found == status and line.startswith(said) and
                    not list(place.iterdir()), f"{found}: {line[:200]}")


def try_unseen(steps, folder):
    """An archive is not written to a terminal."""
    ours, terminal = pty.openpty()
    with subprocess.Popen([program(), "export", EXAMPLES / "letters.tree"], stdin=subprocess.DEVNULL, stdout=terminal,
                          stderr=subprocess.PIPE, text=True) as process:
        os.close(terminal)
        found, line = ended(process), process.stderr.read()
    try:
        seen = os.read(ours, 1000)
    except OSError:
        seen = b""
    os.close(ours)
    steps.check("export to a terminal is refused, and writes nothing there", found == 2 and not seen and
                line.startswith("error: standard output is a terminal; "), f"{found}, {len(seen)} bytes: {line[:200]}")


def try_limited(steps, folder):
    """Where SIGXFSZ is ignored, a limit on the length of files has a message, and nothing is left."""
    place = folder / "limited"
    place.mkdir()
    # what Python ignores, and SIGXFSZ is part of that, a child ignores, too, unless its signals are restored
    done = subprocess.run([program(), "import", place / "tree"], input=entry("a", content=bytes(5000)) + END,
                          check=False, capture_output=True, restore_signals=False,
                          preexec_fn=limited(resource.RLIMIT_FSIZE, 4096))
    steps.check("a limit on files has status 3, and nothing is left", done.returncode == 3 and
                b"File too large" in done.stderr and not list(place.iterdir()), done.stderr.decode())


TRIALS = (try_refused, try_compressed, try_no_archive, try_input_kept, try_unread, try_unseen,
          try_limited)
