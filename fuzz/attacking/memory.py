"""Attacks on memory: short sessions and files that unfold."""
import io
import math
import os
import re
import tarfile

from attacking import sessions
from attacking.ground import attack
from attacking.sessions import MEBI, run
from sftpv3.codec.trees import FILE, Entry, Tree, put

LIMIT = 256 * MEBI


def wrong_end(found, most=math.inf, said=None):
    """Says so if a run did not end well, or for want of memory, if there are words to say that, or with more memory."""
    status, errors, used = found
    if (status, errors) != ((0, "") if said is None else (3, f"sftpv3: out of memory{said}\n")):
        yield f"status {status}: {errors!r}"
    if used > most:
        yield f"{used // MEBI} MiB"


@attack()
def a_session_takes_all_memory(field):
    """A session ends at the limit, in whatever order it works, and what was done is saved."""
    tree = field.blank()
    asked = sessions.sparse(60)
    for words in ([], ["--shuffle", "1"], ["--shuffle", "7"]):
        words = ["serve", "--tree", tree, "--memory", str(LIMIT), *words]
        most = LIMIT + sessions.USUAL_FILE + 16 * MEBI
        yield from wrong_end(run(field, words, asked), most, "")
        yield from wrong_end(run(field, [*words, "--save", "end.tree"], asked), most, "")
        if field.run("show", "end.tree").stdout.count(b" F ") < 10:
            yield "what was done is not saved"
    yield from (f"a session that needs little: {it}" for it in wrong_end(
        run(field, ["serve", "--tree", tree, "--memory", str(4 << 30)], sessions.sparse(4))))


@attack()
def truncated_files_keep_their_memory(field):
    """A file that was cut gives its memory back, so that a session which cuts each file that it made needs one's."""
    words = ["serve", "--tree", field.blank(), "--memory", str(LIMIT), "--save", "end.tree"]
    yield from wrong_end(run(field, words, sessions.truncated(60)), 4 * sessions.USUAL_FILE)
    if field.run("show", "end.tree").stdout.count(b" F ") != 60:
        yield "a file is missing in the tree that was saved"


@attack()
def a_replayed_session_takes_all_memory(field):
    """A session that awaits WRITEs of 75 MiB before the first of their replies ends at the limit, and is saved."""
    tree, limit = field.blank(), 20 * MEBI
    field.put("late", sessions.late_transcript(300))
    words = ["serve", "--tree", tree, "--replay", "late", "--save", "end.tree", "--memory", str(limit)]
    status, errors, used = run(field, words, sessions.late(300))
    if status != 3 or not re.fullmatch(r"sftpv3: replay: left after record \d+: too little memory\n"
                                       r"sftpv3: out of memory\n", errors):
        yield f"status {status}: {errors!r}"
    if used > limit + 8 * MEBI:
        yield f"{used // MEBI} MiB"
    if b' F "/0" ' not in field.run("show", "end.tree").stdout:
        yield "what was done is not saved"
    words[-1] = str(200 * MEBI)
    yield from (f"with enough memory: {it}" for it in wrong_end(run(field, words, sessions.late(300))))


@attack()
def listings_take_all_memory(field):
    field.put("wide.tree", sessions.wide_tree(65_000))
    words = ["serve", "--tree", "wide.tree", "--memory", str(LIMIT)]
    yield from wrong_end(run(field, words, sessions.listings(200)), LIMIT + 64 * MEBI, "")


@attack()
def a_transcript_unfolds(field):
    """A transcript of some kilobytes is judged within the limit, or not to its end, which is told by its name."""
    tree = field.blank()
    field.put("sparse", sessions.sparse_transcript(100))
    words = ["audit", "--tree", tree, "--transcript", "sparse", "--memory"]
    said = ": sparse needs more than '--memory' allows"
    yield from wrong_end(run(field, [*words, str(LIMIT)]), LIMIT + sessions.USUAL_FILE + 16 * MEBI, said)
    field.put("few", sessions.sparse_transcript(4))
    words[4] = "few"
    yield from (f"a transcript that needs little: {it}" for it in wrong_end(run(field, [*words, str(LIMIT)])))


@attack(is_small=True)
def an_archive_ends_in_zeros(field):
    """The zeros behind an archive are not held."""
    archive = field.run("export", field.blank()).stdout
    status, errors, used = run(field, ["import", "made.tree"], archive, 128 * MEBI)
    if status != 0 or field.read("made.tree") != field.read("start.tree"):
        yield f"status {status}: {errors!r}"
    if used > 64 * MEBI:
        yield f"{used // MEBI} MiB"


@attack(is_small=True)
def files_that_are_too_long(field):
    """A file that would need more than the limit is not read to its end, and named."""
    blank = field.blank()
    long = field.put("long", put(Tree([Entry(b"/f", FILE, bytes(16 * MEBI), permissions=0o644)])))
    for words, named in ((["show", "--full", "long"], "long"), (["diff", "long", blank], "long"),
                         (["diff", blank, "long"], "long"), (["import", "made"], "standard input"),
                         (["audit", "--tree", "long", "--transcript", blank], "long")):
        asked = archive_of(["f"], b"x" * (16 * MEBI)) if words[0] == "import" else b""
        said = f": {named} needs more than '--memory' allows"
        yield from wrong_end(run(field, [*words, "--memory", str(8 * MEBI)], asked), 40 * MEBI, said)
    os.remove(long)


def archive_of(paths, content=b"", kind=tarfile.REGTYPE):
    """An archive of files of this content at these paths, or of another kind, which names no directory."""
    made = io.BytesIO()
    with tarfile.open(fileobj=made, mode="w", format=tarfile.GNU_FORMAT) as archive:
        for path in paths:
            member = tarfile.TarInfo(path)
            member.type, member.size = kind, len(content)
            archive.addfile(member, io.BytesIO(content))
    return made.getvalue()


def below(count, name):
    """As many paths of 64 names, each of which is the only one in its first directory."""
    return ("/".join([f"{number:05}", *[name] * 62, "f"]) for number in range(count))


@attack(is_small=True)
def an_archive_does_not_name_directories(field):
    """The directories of an archive that it does not name are made within the limit, or not: it is told by its name."""
    said = ": standard input needs more than '--memory' allows"
    words = ["import", "made.tree", "--memory"]
    for archive, limit in ((archive_of(below(100, "d" * 250)), 16 * MEBI), (archive_of(below(1_000, "d")), 8 * MEBI)):
        yield from wrong_end(run(field, [*words, str(limit)], archive), limit + 8 * MEBI, said)
        if os.path.exists(field.path("made.tree")):
            yield "a tree is left"
    yield from (f"an archive that needs little: {it}" for it in wrong_end(
        run(field, [*words, str(32 * MEBI)], archive_of(below(100, "d"))), 16 * MEBI))
