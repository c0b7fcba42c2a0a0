"""Servers whose files are not those of the tree: nothing of theirs is changed, and no server is blamed for them."""
import os

from probe_trials.runs import probe
from sftpv3 import codec
from sftpv3.codec import trees
from sftpv3.probe import starting
from sftpv3.system.program import TOP, program
from trials.probes import planted

START = os.path.join(TOP, "examples", "servers", "start.tree")

# What leaves the large scenes out.
SMALL = ["--requests", "5", "--skip", "transfers,crowds,unusual-names,links,deep,many-handles,read-back"]


def asked_in(transcript):
    """The names of what was asked in a session."""
    with open(transcript, "rb") as file:
        return {codec.decode(packet).name for side, packet in codec.records(file.read())[2:] if side == b"C"}


def try_without_tree(steps, folder):
    """A command without {tree}: its server may have files of its own."""
    started, transcript = (os.path.join(folder, name) for name in ("started", "looked.transcript"))
    status, said, _ = probe("--", "touch", started)
    steps.check("a command without {tree}: status 2, and it is not started",
                status == 2 and "neither the command nor --reset has {tree}" in said and not os.path.exists(started),
                said)
    server = [program(), "serve", "--tree", START, "--record", transcript]
    for number, entries in enumerate(([], [trees.Entry(b"/other", trees.DIRECTORY)])):
        named = os.path.join(folder, f"other-{number}.tree")
        trees.write(trees.Tree(entries), named)
        status, said, _ = probe("--tree", named, "--", *server)
        steps.check(f"a server of other files than a tree with {number} names: status 2",
                    status == 2 and "it does not start from" in said, said)
        steps.check("nothing is changed there", asked_in(transcript) == {"OPENDIR", "READDIR", "CLOSE"})
    status, said, _ = probe("--seeds", "1-2", "--tree", START, "--", *server[:4])
    steps.check("a server of the files of --tree is played", status == 0 and "\naccepted: 2 " in said, said)


def try_tree_ignored(steps, folder):
    """A command with {tree}, whose server takes no notice of it."""
    home, transcript = (os.path.join(folder, name) for name in ("home.tree", "ignored.transcript"))
    names = (b"/bin", b"/etc", b"/f", b"/home")
    trees.write(trees.Tree([trees.Entry(name, trees.DIRECTORY) for name in names]), home)
    server = ["sh", "-c", 'exec "$0" serve --tree "$1" --record "$2"', program(), home, transcript, "{tree}"]
    status, said, _ = probe("--seeds", "1", "--budget", "0", "--keep", folder, "--", *server)
    steps.check("a server of other files than those of {tree}: status 2", status == 2 and
                "it does not start from" in said, said)
    steps.check("and nothing is changed there", asked_in(transcript) == {"OPENDIR", "READDIR", "CLOSE"})


def try_nothing_shown(steps, folder):
    """A server that shows nothing of the tree is played, and a line says what {tree} is."""
    blank = os.path.join(folder, "blank.tree")
    trees.write(trees.Tree([]), blank)
    words = ["--seeds", "1", *SMALL, "--budget", "0", "--keep", os.path.join(folder, "nothing")]
    status, said, _ = probe(*words, "--", "sh", "-c", 'exec "$0" serve --tree "$1"', program(), blank, "{tree}")
    steps.check("a server that shows no names of {tree}: a line says that it is a file", status == 1 and
                "{tree} is the name of a tree file, not of a folder" in said, said)
    status, said, _ = probe(*words, "--", *planted("wrong-byte"))
    steps.check("of another one, no line says so", "not of a folder" not in said, said)


def try_kept(steps, folder):
    """A session that finds what an earlier one left says nothing about a server, so there is no second one."""
    start, live = (os.path.join(folder, name) for name in ("kept-start.tree", "live.tree"))
    trees.write(starting.usual(), start)
    words = ["--seeds", "1-2", "--keep", os.path.join(folder, "kept"), "--tree", start, "--skip", "lasting",
             "--budget", "0"]
    server = [program(), "serve", "--tree", live, "--save", live]
    trees.write(starting.usual(), live)
    status, said, _ = probe(*words, "--", *server)
    steps.check("a server that keeps what a session left: status 2, and what to do", status == 2 and
                "give --reset a command" in said and said.count("\n") == 1, (status, said))
    os.remove(live)
    status, said, _ = probe(*words, "--reset", f"[ -e {live} ] || cp {start} {live}", "--", *server)
    steps.check("and a --reset that puts nothing back: status 2, and why", status == 2 and
                "--reset does not put them back" in said and said.count("\n") == 1, (status, said))
    status, said, _ = probe(*words, "--reset", f"cp {start} {live}", "--", *server)
    steps.check("one whose files --reset puts back is played", status == 0 and "\naccepted: 2 " in said, said)
    status, said, _ = probe(*words, "--reset", f"cp {start} {{folder}}/live", "--", program(), "serve", "--tree",
                            "{folder}/live", "--save", "{folder}/live")
    steps.check("and so is one in {folder}", status == 0 and "\naccepted: 2 " in said, said)


TRIALS = (try_without_tree, try_tree_ignored, try_nothing_shown, try_kept)
