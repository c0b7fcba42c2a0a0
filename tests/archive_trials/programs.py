"""What other programs make of a small folder, and members that they write seldom: links, sparse files, devices."""
import os
import shutil
import tarfile

from archive_trials.members import END, FILE, entry, extracted, run, sftpv3


def try_odd(steps, folder):
    """Members that programs write seldom, by what GNU tar extracts."""
    link, sym, directory = tarfile.LNKTYPE, tarfile.SYMTYPE, tarfile.DIRTYPE
    for name, members in [
        ("the metadata of macOS", entry("./._a", content=b"\0\5\x16\7") + entry("./a", content=b"x")),
        ("whiteouts of layers", entry("d", directory) + entry("d/.wh..wh..opq") + entry("d/.wh.x")),
        ("a file that came again", FILE + entry("b", link, link="a") + entry("a", content=b"new")),
        ("a file that became a directory", FILE + entry("a", directory) + entry("a/b")),
        ("a directory that became a file", entry("a", directory) + FILE),
        ("a link that became a file", entry("a", sym, link="b") + FILE),
        ("a hard link to itself", FILE + entry("a", link, link="a")),
        ("hard links by other spellings", entry("./a") + entry("h", link, link="a") + entry("i", link, link=".//a")),
        ("absolute paths", entry("/a", content=b"abc") + entry("/b", link, link="/a")),
        ("a target above the root", entry("a", sym, link="../../../etc/passwd")),
        ("names with dots", entry("..a") + entry("...") + entry("a..")),
        ("a global header", entry("pax_global_header", b"g", b"20 comment=abcdefgh\n") + FILE),
        ("a file of one piece", entry("a", tarfile.CONTTYPE, b"abc")),
        ("one block of zeros in the end", FILE + bytes(512) + entry("b")),
        ("what is behind the end", FILE + END + entry("b") + b"noise" * 99),
    ]:
        tree = folder / "odd.tree"
        done = sftpv3(["import", tree], members + END)
        wanted = extracted(folder / "wanted", members + END)
        found = extracted(folder / "found", sftpv3(["export", tree]).stdout)
        steps.check(f"{name} comes in and out", done.returncode == 0 and wanted[0] and wanted == found,
                    done.stderr.decode() or f"{wanted} {found}"[:300])


def small_folder(top):
    """A folder with what programs spell in ways of their own: links, long names, bytes that are no UTF-8, owners."""
    deep = top / ("n" * 150) / ("m" * 150)
    deep.mkdir(parents=True)
    (deep / ("o" * 255)).write_bytes(b"long")
    (top / "d").mkdir(mode=0o750)
    (top / "d" / "f").write_bytes(b"x" * 5000)
    os.chmod(top / "d" / "f", 0o4711)
    os.link(top / "d" / "f", top / "hard")
    os.symlink("d/f", top / "link")
    os.symlink("t" * 200 + "/" + "u" * 200, top / "to-nothing")
    with open(os.fsencode(top) + b"/\xff\xfe", "wb") as file:
        file.write(b"no UTF-8")
    for name in ("owned", "old"):
        (top / name).mkdir()
    if os.geteuid() == 0:
        os.chown(top / "owned", 2_097_152, 4_000_000_000)
    os.utime(top / "old", ns=(0, -1_500_000_000))
    os.utime(top / "d", ns=(0, 1_700_000_000_999_999_999))


PROGRAMS = [("bsdtar", ["-C", "{top}", "--format", form, "-c", "-f", "-", "."])
            for form in ("ustar", "pax", "gnutar", "v7")] + [
    ("busybox", ["tar", "-C", "{top}", "-c", "."]),
    ("sh", ["-c", "cd \"$1\" && find . | cpio -o -H ustar", "sh", "{top}"]),
    ("sh", ["-c", "cd \"$1\" && find . -depth | cpio -o -H tar", "sh", "{top}"]),
    *(("tar", ["-C", "{top}", f"--format={form}", "-c", "."]) for form in ("v7", "oldgnu", "gnu", "ustar", "pax")),
    ("tar", ["-C", "{top}", "--format=pax", "--xattrs", "--acls", "-c", "."]),
    ("tar", ["-C", "{top}", "--format=posix", "-V", "LABEL", "-c", "."]),
    ("tar", ["-C", "{top}", "--format=posix", "-G", "-c", "."]),
]


def try_programs(steps, folder):
    """What other programs make of a folder comes in, and goes out, as GNU tar extracts it."""
    top, tree = folder / "small", folder / "small.tree"
    small_folder(top)
    for program_of, words in PROGRAMS:
        name = " ".join([program_of, *words[1:-1]]).replace("{top} ", "")
        if not shutil.which("cpio" if program_of == "sh" else program_of):
            steps.skip(name, "it is not installed")
            continue
        # a name or a number that a format has no room for is left out, with a status above 0
        archive = run([program_of, *(it.format(top=top) for it in words)]).stdout
        done = sftpv3(["import", tree], archive)
        wanted = extracted(folder / "wanted", archive)
        found = extracted(folder / "found", sftpv3(["export", tree]).stdout)
        steps.check(f"an archive of {name} comes in and out",
                    done.returncode == 0 and len(wanted[0]) >= 5 and wanted == found,
                    done.stderr.decode() or f"{wanted} {found}"[:300])


def try_sparse(steps, folder):
    """Archives of `tar --sparse` are refused by the file's path, in each format."""
    for name in ("short", "n" * 200):
        top = folder / f"sparse-{len(name)}"
        top.mkdir()
        with open(top / name, "wb") as file:
            file.truncate(1_000_000)
            file.seek(500_000)
            file.write(b"middle")
        for words in (["--format=gnu"], ["--format=posix", "--sparse-version=0.0"],
                      ["--format=posix", "--sparse-version=0.1"], ["--format=posix", "--sparse-version=1.0"]):
            archive = run(["tar", "-C", top, "-S", *words, "-c", name]).stdout
            done = sftpv3(["import", folder / "sparse.tree"], archive)
            # in version 0.1 a long path of the header, with GNUSparseFile in it, comes behind the file's own
            start = "./GNUSparseFile." if words[-1].endswith("0.1") and len(name) > 100 else f"{name}\""
            said = done.stderr.decode()
            holds = said.startswith(f'sftpv3: archive: entry 1, "{start}') and said.endswith(
                f'{name}": a sparse file: make the archive without --sparse\n')
            steps.check(f"names a sparse file, {' '.join(words)}, {len(name)} bytes of name",
                        done.returncode == 2 and holds, said[:120])


def try_special(steps, folder):
    """Devices and FIFOs: refused, left out, or empty files in their place."""
    top = folder / "special"
    top.mkdir()
    os.mkfifo(top / "fifo")
    os.chmod(top / "fifo", 0o640)
    (top / "f").write_bytes(b"f")
    names = ["fifo"]
    if os.geteuid() == 0:
        os.mknod(top / "null", 0o020666, os.makedev(1, 3))
        names.append("null")
    archive = run(["tar", "-C", top, "--sort=name", "-c", "."]).stdout
    tree = folder / "special.tree"
    done = sftpv3(["import", tree], archive)
    steps.check("a FIFO is refused", done.returncode == 2 and b'"./fifo": a device or a FIFO' in done.stderr
                and not tree.exists(), done.stderr.decode())
    for choice, became, has in (("skip", "left out (--special file keeps its name)", False),
                                ("file", "an empty file in its place (for audit --allow special)", True)):
        done = sftpv3(["import", "--no-times", "--special", choice, tree], archive)
        said = done.stderr.decode()
        holds = done.returncode == 0 and said.count("\n") == len(names) and all(
            f'"./{name}": a device or a FIFO: {became}\n' in said for name in names)
        steps.check(f"--special {choice} names each", holds, said)
        text = sftpv3(["show", tree]).stdout.decode()
        owner = f"{os.geteuid()} {os.getegid()}"
        steps.check(f"--special {choice}: what the tree has", (f'F "/fifo" {owner} 0640 0\n' in text) == has
                    and ('"/fifo"' in text) == has and f'F "/f" {owner} ' in text, text)


TRIALS = (try_odd, try_programs, try_sparse, try_special)
