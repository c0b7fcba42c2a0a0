"""What a night says for machines: a line of JSON, and a file for Prometheus; and how long it keeps what it judged."""
import json
import os
import re
import signal
import subprocess
import time

from night_trials.place import ENDS_WELL, OLD, USER
from night_trials.sets import Spooled
from record_trials.steps import INIT, receive
from trials.processes import processes_of

# A line of a metric: its name, its labels, its value.
METRIC = re.compile(r'([a-z0-9_]+)\{((?:[a-z]+="[^"\\]*",?)+)\} ([0-9.]+)')


def read_metrics(path):
    """The values of a file of metrics, by name and labels; each line is of the form, and each name has its type."""
    found, typed = {}, set()
    for line in path.read_text().splitlines():
        if line.startswith("# TYPE "):
            typed.add(line.split()[2])
        elif not line.startswith("# HELP "):
            name, labels, value = METRIC.fullmatch(line).groups()
            assert name in typed
            found[name, labels] = float(value)
    return found


def mixed(steps, place):
    """A night of an accepted and a refused session."""
    place.begin("mkdir d")
    (place.live / "late").write_text("x")
    place.session(f"get late {place.room}/late")
    told, metrics = place.room / "night.json", place.room / "night.prom"
    words = ["--json", str(told), "--metrics", str(metrics)]
    before = time.time()
    place.check(steps, "a night with a summary", 1, ": accepted ", "refused record ", words=words)
    found = json.loads(told.read_text())
    steps.check("JSON has the counts, and the refusals by their causes", (
        found["user"], found["status"], found["sessions"], found["accepted"], found["refused"], found["not_judged"],
        found["waiting"], found["folders"], found["spool_bytes"]) == (
            USER, 1, 2, 1, {"changed locally": 1}, 0, 0, "same but for open places", 0), found)
    steps.check("and the age of the comparison, and the bytes that are kept", 0 <= found["comparison_age_seconds"] < 60
                and found["state_bytes"] >= 4096, found)
    read, user = read_metrics(metrics), f'user="{USER}"'
    steps.check("the metrics have the same", (
        read["sftpv3_night_accepted_sessions", user], read["sftpv3_night_unjudged_sessions", user],
        read["sftpv3_night_refused_sessions", f'{user},cause="changed locally"'],
        read["sftpv3_night_status", user], read["sftpv3_spool_bytes", user],
        read["sftpv3_state_bytes", user]) == (1, 0, 1, 1, 0, found["state_bytes"]), read)
    steps.check("and when the folders were compared", before - 1 <= read["sftpv3_last_comparison_timestamp_seconds",
                                                                       user] <= time.time() + 1, read)
    steps.check("each user may read these", metrics.stat().st_mode & 0o777 == 0o644 and
                told.stat().st_mode & 0o777 == 0o600)
    status, said = place.nightly("--json", "-")
    last = json.loads(said.splitlines()[-1])
    steps.check("JSON on standard output is the last line", status == 0 and last["folders"] == "same" and
                last["sessions"] == 0, said)
    (place.live / "by-hand").write_text("y")
    place.check(steps, "a changed folder", 1, "something else changed", words=words)
    steps.check("is said in the summary", json.loads(told.read_text())["folders"] == "changed", told.read_text())


def of_one_that_fails(steps, place):
    """A night that fails leaves no summary of an earlier one."""
    told, metrics = place.room / "night.json", place.room / "night.prom"
    words = ["--json", str(told), "--metrics", str(metrics)]
    place.nightly(*words)
    steps.check("a good night has status 0 in its summary", json.loads(told.read_text())["status"] == 0)
    place.records.rename(place.room / "away")
    place.check(steps, "one that fails names the user", 3, f"nightly: {USER}: ", words=words)
    steps.check("and has status 3 there", json.loads(told.read_text())["status"] == 3 and
                read_metrics(metrics)["sftpv3_night_status", f'user="{USER}"'] == 3, told.read_text())
    (place.room / "away").rename(place.records)
    place.check(steps, "a summary that cannot be written: status 3, and why", 3, ENDS_WELL, "No such file or directory",
                words=["--json", str(place.room / "none/night.json")])
    for wrong in (["--metrics", "-"], ["--keep-days", "-1"], ["--keep-bytes", "x"], ["--most-copied", "0"]):
        place.check(steps, f"{' '.join(wrong)}: status 2", 2, wrong[0], words=wrong)


def waiting(steps, place):
    """Sessions that wait, and bytes of the spool, are counted."""
    place.nightly()
    process = place.start()
    place.session("mkdir d")
    told = place.room / "night.json"
    place.check(steps, "a session waits", 1, "1 beside or behind waits", words=["--json", str(told)])
    found = json.loads(told.read_text())
    steps.check("it is counted, and so are the bytes of the spool", (found["waiting"], found["sessions"],
                found["folders"]) == (1, 1, "not compared") and found["spool_bytes"] >= 8192, found)
    place.end(process)


def aged(place, kind, days):
    for it in place.kept(kind):
        os.utime(it, (time.time() - days * 86400,) * 2)


def kept_for_days(steps, place):
    """What was accepted is removed behind some days; what was refused stays."""
    place.begin("mkdir d")
    (place.live / "late").write_text("x")
    place.session(f"get late {place.room}/late")
    place.nightly()
    for kind in ("accepted", "refused"):
        aged(place, kind, 8)
    place.session("rmdir d")
    place.check(steps, "what was accepted more than seven days ago is removed", 0, "removed 1 kept files, ",
                " bytes (--keep-days)", ": accepted ", words=["--keep-days", "7"])
    steps.check("what was accepted now stays, and what was refused", (
        len(place.kept("accepted")), len(place.kept("refused"))) == (1, 2), place.kept("accepted"))


def kept_in_bytes(steps, place):
    """Of what is kept, the oldest of the accepted goes first."""
    local = place.room / "local"
    local.write_bytes(bytes(50000))
    place.nightly()
    for number in range(3):
        place.session(f"put {local} f{number}")
    (place.live / "late").write_text("x")
    place.session(f"get late {place.room}/late")
    place.check(steps, "no more bytes are kept than are to be", 1, "removed 2 kept files, ", " bytes (--keep-bytes)",
                "refused record ", words=["--keep-bytes", "80000"])
    kept = place.kept("accepted")
    steps.check("the newest accepted one is left, and the refused one with its verdict", len(kept) == 1 and
                b"f2" in kept[0].read_bytes() and len(place.kept("refused")) == 2, kept)


def end_of_server(place, words, name):
    """A session whose server is killed, and a request that it never answers."""
    process = subprocess.Popen(list(map(str, words)), stdin=subprocess.PIPE, stdout=subprocess.PIPE,
                               stderr=subprocess.DEVNULL, bufsize=0)
    process.stdin.write(INIT)
    receive(process, 4)
    servers = [it for it in processes_of(name) if it != process.pid]
    for it in servers:
        os.kill(it, signal.SIGKILL)
    process.wait(20)
    process.stdin.close()
    process.stdout.close()
    time.sleep(OLD)
    return len(servers)


def crashed(steps, place):
    """A server that was killed is named with its session, which its record does not tell."""
    mark = str(place.room / "own-server")
    os.symlink(place.words[-3], mark)
    place.nightly()
    told = place.room / "night.json"
    words = [*place.words[:-3], mark, *place.words[-2:]]
    count = end_of_server(place, words, mark)
    steps.check("a server is killed", count == 1, count)
    place.check(steps, "a server that was killed is named with its session", 1,
                "  its recorder says: the server was ended by SIGKILL before the client left",
                words=["--json", str(told)])
    steps.check("and counted", json.loads(told.read_text())["crashed"] == 1, told.read_text())
    place.session("mkdir d")
    place.check(steps, "one that ended in order is not", 0, "1 session accepted; " + ENDS_WELL)
    with Spooled(place) as spool:
        end_of_server(place, [*spool.words[:-3], mark, *spool.words[-2:]], mark)
        place.check(steps, "the same of a record in a spool", 1, "its recorder says: the server was ended by SIGKILL")


TRIALS = (mixed, of_one_that_fails, waiting, kept_for_days, kept_in_bytes, crashed)
