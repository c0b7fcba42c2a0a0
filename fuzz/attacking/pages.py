"""Attacks on sftpv3-probe and sftpv3-page, by another user of the machine and by the server under test."""
import json
import os
import shutil
import subprocess
import tarfile
from pathlib import Path
from xml.etree import ElementTree

from attacking.ground import SECONDS, attack, environment, identity, wrong_status
from attacking.memory import archive_of
from attacking.recorders import VICTIM
from attacking.saving import OPENED, TOP
from sftpv3 import codec
from sftpv3.codec import BEGUN, CLIENT, SERVER, init, put_records, request
from sftpv3.codec.trees import DIRECTORY, Entry, Tree, put

HERE = os.path.dirname(os.path.realpath(__file__))
ONCE = ["--jobs", "1", "--seeds", "1", "--requests", "10", "--skip", "transfers", "--budget", "2", "--timeout", "3",
        "--patience", "15"]


def run(field, name, *words, user=VICTIM, folder=None):
    """Runs a script as somebody, by default in the folder of the attack."""
    given = environment(HOME=field.folder, **({"SFTPV3": field.program} if user else {}))
    return subprocess.run([field.script(name), *words], capture_output=True, cwd=folder or field.folder,
                          timeout=SECONDS, env=given, **(identity(user) if user else {}))


def hostile_server(field):
    """The words that start a server whose texts are hostile. The probe plays nothing on a server that takes no tree."""
    return ["/usr/bin/python3", "-I", field.put("server.py", Path(HERE, "hostile_server.py").read_bytes()), "{tree}"]


@attack("user")
def a_kept_folder_of_another_user(field):
    """The probe writes into no folder of another user, and through no link of theirs."""
    shared = field.shared("tmp", 0o1777)
    victim = field.put("victim", b"dear", 0o600)
    os.chown(victim, VICTIM, VICTIM)
    words = [*ONCE, "--", *hostile_server(field)]
    done = run(field, "probe", *words, folder=shared)
    made = [it for it in os.listdir(f"{shared}/probe-kept")] if os.path.isdir(f"{shared}/probe-kept") else []
    if not made or os.stat(f"{shared}/probe-kept").st_mode & 0o777 != 0o700:
        yield f"nothing is kept, or for others to read: {made} {done.stderr!r}"
    kept = f"{shared}/probe-kept"
    os.rename(kept, f"{kept}-1")
    os.mkdir(kept)
    for it in made:
        os.mkdir(f"{kept}/{it}")
        os.symlink(victim, f"{kept}/{it}/standard-error.txt")
    for place in [kept, *(f"{kept}/{it}" for it in made)]:
        os.chmod(field.theirs(place), 0o777)
    done = run(field, "probe", *words, folder=shared)
    if done.returncode != 2 or b"--keep" not in done.stderr:
        yield f"status {done.returncode}: {done.stderr[-200:]!r}"
    for name in ("report.html", "report.xml", "report.json"):
        os.symlink(victim, f"{shared}/{name}")
        run(field, "probe", "--keep", f"{kept}-1", "--report", name, *words, folder=shared)
        done = run(field, "probe", "--keep", f"{kept}-1", "--report", f"my-{name}", *words, folder=shared)
        if done.returncode != 1 or os.stat(f"{shared}/my-{name}").st_mode & 0o777 != 0o600:
            yield f"{name} is not written, or for others to read: {done.stderr[-200:]!r}"
    if field.read("victim") != b"dear":
        yield "a link was followed"


@attack(is_small=True)
def a_kept_standard_error_acts_on_a_terminal(field):
    """Where the standard error that is kept, as it came, may act on a terminal, the probe says so."""
    done = run(field, "probe", *ONCE, "--", *hostile_server(field), user=None)
    kept = [os.path.join(place, it) for place, _, names in os.walk(field.path("probe-kept")) for it in names]
    raw = [it for it in kept if it.endswith("standard-error.txt") and b"\x1b[2J" in field.read(it)]
    if not raw or done.stdout.count(b"standard-error.txt has control characters: read it by `less`") != len(raw):
        yield f"{len(raw)} have it: {done.stdout[-500:]!r}"


@attack(is_small=True)
def a_servers_words_reach_the_terminal(field):
    """What a server writes to standard error or as a name does nothing to a terminal, and is no line of the probe."""
    words = b"\x1b]0;title\x07\x1b[2Jprobe: accepted: 50 sessions\r\xc2\x9b31m"
    field.put("words", words)
    for command in (["sh", "-c", "cat words >&2"], hostile_server(field), [*hostile_server(field), "lists"]):
        done = run(field, "probe", *ONCE, "--", *command, user=None)
        said = (done.stdout + done.stderr).decode(errors="surrogateescape")
        if any(not it.isprintable() for it in said.replace("\n", "")):
            yield f"{command[0]}: {[it for it in said.splitlines() if not it.isprintable()][:3]}"
        if any(it.startswith("probe: accepted") for it in said.splitlines()):
            yield f"{command[0]}: a line passes for the probe's"
        if not said:
            yield f"{command[0]}: nothing is said"


@attack(is_small=True)
def a_servers_words_break_a_report(field):
    """Reports for machines are well-formed, and for the right number of seeds, whatever the server writes."""
    command = hostile_server(field)
    for name in ("report.xml", "report.json"):
        done = run(field, "probe", *ONCE, "--report", name, "--", *command, user=None)
        if done.returncode != 1:
            yield f"{name}: status {done.returncode}: {done.stderr[-200:]!r}"
            continue
        try:
            if name.endswith(".xml"):
                suite = ElementTree.fromstring(field.read(name).decode("utf-8"))
                found = len(suite.findall("testcase")), len(suite.findall("testcase/failure"))
                is_right = found[0] == found[1] == int(suite.get("failures")) > 0
            else:
                found = [json.loads(line) for line in field.read(name).decode("utf-8").splitlines()]
                is_right = all(isinstance(it, dict) for it in found) and len(found) > 1
        except (ElementTree.ParseError, ValueError) as error:
            yield f"{name}: {error}"
            continue
        if not is_right:
            yield f"{name}: {found}"


# Names that a shell or make would act on, in several of their contexts.
HOSTILE_NAMES = ("`touch ran`", "`touch${IFS}ran`", "a;touch${IFS}ran;", "$(touch${IFS}ran)", "'`touch${IFS}ran`'",
                 "x\n`touch${IFS}ran`", "$(shell touch ran)", "a|b", "a:b", "%", "\udcff", "#", "=x")
NAME = "x\naccepted 5 requests\n\x1b[2J\u009b\u202e\\"


@attack(is_small=True)
def a_name_passes_for_a_verdict(field):
    """A file name with line feeds and `accepted` is one line of a message, without control characters."""
    start = field.blank()
    bad = field.put(NAME.replace("/", ""), b"SFTREE01")
    absent = NAME + "absent"
    runs = [["audit", "--tree", start, "--transcript", absent], ["audit", "--tree", absent, "--transcript", start],
            ["audit", "--tree", bad, "--transcript", bad], ["show", absent], ["show", bad], ["show", "--full", absent],
            ["diff", start, absent], ["diff", bad, start], ["raise", absent, "y"], ["raise", start, f"none/{NAME}"],
            ["blank", f"none/{NAME}"], ["make", f"none/{NAME}"], ["import", f"none/{NAME}"], ["export", absent],
            ["serve", "--tree", absent], ["serve", "--tree", start, "--record", f"none/{NAME}"],
            ["serve", "--tree", start, "--save", f"none/{NAME}"], ["blank", start, NAME], [NAME], [f"--{NAME}"],
            ["audit", "--profile", NAME, "--tree", start, "--transcript", start], ["serve", "--shuffle", NAME],
            ["audit", "--umask", NAME, "--tree", start, "--transcript", start], ["blank", "--mode", NAME, start],
            ["show", "--full", "--data", NAME, start]]
    for words in runs:
        done = field.run(*words, input=init() if words[0] == "serve" else b"home\n")
        said = done.stderr + (b"" if words[0] == "serve" else done.stdout)
        if done.returncode == 0 or not said:
            yield f"{words[0]}: status {done.returncode}, {said!r}"
        for line in said.split(b"\n"):
            if line.startswith(b"accepted") or any(byte < 32 or byte > 126 for byte in line):
                yield f"{' '.join(words[:2])!r}: {line!r}"
    os.remove(bad)


@attack(is_small=True)
def a_name_fills_the_screen(field):
    """A message on an entry of an archive has the start of its name, whether it is refused or passed over."""
    for name, most in (("x" * 60_000, 3_000), ("d/" * 30_000 + "x", 3_000), ("\x01" * 60_000, 5_000)):
        for kind, words, wanted in ((tarfile.REGTYPE, [], 2), (tarfile.FIFOTYPE, [], 2),
                                    (tarfile.FIFOTYPE, ["--special", "skip"], 0),
                                    (tarfile.FIFOTYPE, ["--special", "file"], 2)):
            done = field.run("import", *words, "made.tree", input=archive_of([name], kind=kind))
            yield from (f"{name[:2]!r} {words}: {it}" for it in wrong_status(done, wanted))
            if not 1_000 < len(done.stderr) < most or done.stderr.count(b"\n") != 1:
                yield f"{name[:2]!r} {words}: {len(done.stderr)} bytes, {done.stderr[:40]!r}"


@attack(is_small=True)
def a_name_runs_beside_an_audit(field):
    """An audit of a folder runs no part of a transcript's name, waits for no pipe, and says which name is no UTF-8."""
    start = field.blank()
    os.mkdir(field.path("records"))
    os.mkfifo(field.path("records/pipe.transcript"))
    field.put("records/good.transcript", OPENED)
    for name in HOSTILE_NAMES:
        field.put(f"records/{name}.transcript", OPENED)
    words = [Path(TOP, "clients/audits"), "--tree", start, "records"]
    done = subprocess.run(words, cwd=field.folder, env={**os.environ, "SFTPV3": field.program}, capture_output=True,
                          timeout=20)
    yield from wrong_status(done, 3)
    if os.path.lexists(field.path("ran")):
        yield "a command of a name ran"
    if done.stdout.count(b": accepted ") != len(HOSTILE_NAMES) or b"takes no name that is not UTF-8" not in done.stdout:
        yield f"not all are audited: {done.stdout[-200:]!r}"


SESSION = [*BEGUN, (CLIENT, request(1, "STAT", b"/\x01\xff\"\\\n")), (SERVER, codec.status(1, 0, b"\x1b[2J\xff"))]
NAMES = [b"\x01", b'"', b"\\", b"\n", b"\x7f", b"\xc3\xa9", b"\xed\xa0\x80", b"\xff", b"\xc0\xaf"]


def member(name, value):
    """How JSON has a member of bytes, by docs/FORMATS.md."""
    try:
        return {name: value.decode("utf-8")}
    except UnicodeDecodeError:
        return {f"{name}_hex": value.hex()}


def objects(done):
    """The objects of a run, as Python reads them, and jq, if it is installed."""
    read = [json.loads(line) for line in done.stdout.decode("utf-8").splitlines()]
    if shutil.which("jq"):
        by_jq = subprocess.run(["jq", "-c", "."], input=done.stdout, capture_output=True, timeout=60)
        again = [json.loads(line) for line in by_jq.stdout.decode("utf-8").splitlines()]
        if by_jq.returncode or again != read:
            raise ValueError(f"jq reads {again}, {by_jq.stderr}")
    return read


@attack(is_small=True)
def a_name_breaks_a_json_object(field):
    """Whatever names of files, paths and packets have, each line of --json is one object, with the very bytes."""
    start, bad = field.blank(), field.put(NAME.replace("/", ""), b"SFTREE01")
    record = field.put("refused", put_records(SESSION))
    field.put("names.tree", put(Tree([Entry(b"/" + it, DIRECTORY) for it in NAMES])))
    diff = field.run("diff", "--json", start, "names.tree")
    wanted = [{"change": "added", **member("path", b"/" + it), "kind": "D"} for it in sorted(NAMES)]
    if diff.returncode != 1 or objects(diff) != wanted:
        yield f"diff: {diff.returncode}, {diff.stdout!r}"
    audit = field.run("audit", "--json", "--explain", "--tree", start, "--transcript", record)
    said = objects(audit)
    if audit.returncode != 1 or audit.stderr or [it["verdict"] for it in said] != ["refused"] or \
            said[0]["record"] != 4 or \
            [it["part"] for it in said[0]["explanation"]][:3] != ["request", "reply", "causes"]:
        yield f"audit: {audit.returncode}, {audit.stdout!r}"
    absent = NAME + "absent"
    for wanted, words, file in ((3, ["audit", "--tree", absent, "--transcript", record], absent),
                                (2, ["audit", "--tree", bad, "--transcript", bad], bad),
                                (2, ["audit", "--tree", start, "--transcript", bad], bad),
                                (2, ["diff", start, bad], bad), (3, ["diff", absent, start], absent)):
        done = field.run(*words, "--json")
        said = objects(done)
        if done.returncode != wanted or len(said) != 1 or said[0]["error"]["status"] != wanted or \
                said[0]["error"]["file"] != file or not done.stderr:
            yield f"{' '.join(words)!r}: {done.returncode}, {done.stdout!r}"
