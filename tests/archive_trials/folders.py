"""A large folder and its times, in each of tar's formats: they come in and go out as they were."""
import io
import os
import shutil
import tarfile
import tempfile
import time

from archive_trials.members import END, entry, members_of, run, sftpv3, times_of


def try_replaced(steps, folder):
    """The last entry of a path counts, and directories that are not listed are made."""
    archive = entry("d/e/f", content=b"old") + entry("d/e/f", content=b"new") + END
    tree = folder / "replaced"
    done = sftpv3(["import", tree], archive)
    out = sftpv3(["export", tree]).stdout
    with tarfile.open(fileobj=io.BytesIO(out)) as members:
        names = members.getnames()
        content = members.extractfile("./d/e/f").read() if "./d/e/f" in names else b""
    steps.check("replaces an entry",
                done.returncode == 0 and content == b"new" and names == [".", "./d", "./d/e", "./d/e/f"])


FILES = 10_000


def make_folder(top):
    """A folder of FILES files, with what an archive has to spell in some special way."""
    top.mkdir()
    for number in range(FILES):
        folder = top / f"d{number % 97:02}" / f"e{number % 7}"
        folder.mkdir(parents=True, exist_ok=True)
        (folder / f"f{number:05}").write_bytes(b"%d\n" % number * (number % 300))
    deep = top / ("n" * 120) / ("m" * 120)
    deep.mkdir(parents=True)
    (deep / ("o" * 255)).write_bytes(b"long")
    (top / "blocks").write_bytes(b"b" * 1024)
    (top / "large").write_bytes(bytes(range(256)) * 4096 * 16)
    (top / "empty").mkdir(mode=0o700)
    os.link(top / "blocks", top / "a-name-before")
    os.link(top / "blocks", top / "d00" / "another")
    os.link(deep / ("o" * 255), top / "long-hard-link")
    os.symlink("../blocks", top / "d00" / "link")
    os.symlink("p" * 200 + "/" + "q" * 200, top / "long-link")
    odd = os.fsencode(top) + b"/\xff \n"
    with open(odd, "wb") as file:
        file.write(b"no UTF-8")
    if os.geteuid() == 0:
        os.chown(top / "empty", 3_000_000, 70_000)
    os.chmod(top / "large", 0o4751)
    for folder, folders, files in os.walk(os.fsencode(top)):
        for name in folders + files + [b""]:
            os.utime(os.path.join(folder, name), (0, 0), follow_symlinks=False)


def try_formats(steps, folder):
    """Each format of tar gives the same tree, and its export differs in nothing."""
    top = folder / "top"
    make_folder(top)
    trees = []
    for words in (["--sort=name"], ["--format=gnu"], ["--format=pax"], ["--format=pax", "--sort=name"]):
        archive = run(["tar", "-C", top, *words, "-c", "."]).stdout
        tree = folder / "tree"
        begun = time.monotonic()
        done = sftpv3(["import", "--no-times", tree], archive)
        took = time.monotonic() - begun
        steps.check(f"imports {' '.join(words)}, {len(archive) / took / 1e6:.0f} MB/s", done.returncode == 0,
                    done.stderr)
        if done.returncode == 0:
            trees.append(tree.read_bytes())
    with tempfile.TemporaryFile() as made:
        with tarfile.open(fileobj=made, mode="w", format=tarfile.PAX_FORMAT) as archive:
            archive.add(top, ".")
        made.seek(0)
        done = sftpv3(["import", "--no-times", folder / "tree"], made.read())
    steps.check("imports what Python writes", done.returncode == 0, done.stderr.decode()[:100])
    if done.returncode == 0:
        trees.append((folder / "tree").read_bytes())
    steps.check("gives one tree", len(trees) == 5 and all(tree == trees[0] for tree in trees))
    check_export(steps, folder, top, trees[-1])


def check_export(steps, folder, top, tree):
    """The archive of `tree`, whose bytes these are, has what is in the folder `top`, and gives the same tree."""
    begun = time.monotonic()
    out = sftpv3(["export", folder / "tree"]).stdout
    took = time.monotonic() - begun
    (folder / "out.tar").write_bytes(out)
    steps.check(f"exports, {len(out) / took / 1e6:.0f} MB/s", len(out) > 0)
    told = run(["tar", "-C", top, "-d", "-f", folder / "out.tar"])
    steps.check("tar -d finds no difference", told.returncode == 0,
                (told.stdout + told.stderr).decode(errors="replace")[:300])
    (folder / "got-tar").mkdir()
    run(["tar", "-C", folder / "got-tar", "-x", "-p", "-f", folder / "out.tar"])
    steps.check("tar extracts the same", members_of(top) == members_of(folder / "got-tar"))
    with tarfile.open(folder / "out.tar", errors="surrogateescape") as archive:
        archive.extractall(folder / "got-python", numeric_owner=True)
    steps.check("Python extracts the same", members_of(top) == members_of(folder / "got-python"))
    again = sftpv3(["import", folder / "again"], out)
    steps.check("gives the same tree again", again.returncode == 0 and (folder / "again").read_bytes() == tree)


def try_times(steps, folder):
    """Times of modification come in and out, those of access by the records of pax."""
    top, out = folder / "timed", folder / "timed-out"
    (top / "d" / "e").mkdir(parents=True)
    for number, name in enumerate(("a", "d/b", "d/e/c")):
        (top / name).write_bytes(b"x" * number)
    os.link(top / "a", top / "d" / "second")
    for number, name in enumerate(("a", "d/b", "d/e/c", "d/e", "d", "."), 1):
        os.utime(top / name, ns=(0, number * 10**9 + 999_999_999))
    os.utime(top / "d" / "b", ns=(77 * 10**9, 2**32 * 10**9 - 1))
    for words in (["--format=gnu"], ["--format=ustar"], ["--format=pax", "--pax-option=delete=atime,delete=ctime"]):
        done = sftpv3(["import", folder / "timed.tree"], run(["tar", "-C", top, *words, "-c", "."]).stdout)
        written = sftpv3(["export", folder / "timed.tree"])
        shutil.rmtree(out, ignore_errors=True)
        out.mkdir()
        run(["tar", "-C", out, "-x", "-p"], written.stdout)
        holds = done.returncode == written.returncode == 0 and times_of(top) == times_of(out)
        steps.check(f"times come in and out, {words[0]}", holds, f"{times_of(top)} {times_of(out)}"[:300])
        sftpv3(["import", folder / "again.tree"], written.stdout)
        steps.check("the export gives the same tree file",
                    (folder / "again.tree").read_bytes() == (folder / "timed.tree").read_bytes())
    os.utime(top / "d" / "b", ns=(77 * 10**9, 2**32 * 10**9 - 1))
    done = sftpv3(["import", folder / "pax.tree"], run(["tar", "-C", top, "--format=pax", "-c", "."]).stdout)
    said = sftpv3(["show", folder / "pax.tree"]).stdout.decode()
    steps.check("a time of access comes from a record", done.returncode == 0 and " 77 4294967295 1\n" in said, said)
    sftpv3(["import", folder / "again.tree"], sftpv3(["export", folder / "pax.tree"]).stdout)
    steps.check("and goes out in one", (folder / "again.tree").read_bytes() == (folder / "pax.tree").read_bytes())
    sftpv3(["import", "--no-times", folder / "untimed.tree"], written.stdout)
    steps.check("without times the file has the first opening",
                (folder / "untimed.tree").read_bytes()[:8] == b"SFTREE01")
    differ = [sftpv3(["diff", *words, folder / "untimed.tree", folder / "timed.tree"]).returncode
              for words in ([], ["--times"])]
    steps.check("only diff --times sees the difference", differ == [0, 1], str(differ))


TRIALS = (try_replaced, try_formats, try_times)
