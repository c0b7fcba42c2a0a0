"""Sessions with one wrong reply each, in which the client was told something else before; and the same where the client
has looked at everything first. All are refused with their true tree."""
import os
import random
from pathlib import Path

from broken import mutated
from infer_trials import judging
from sftpv3 import codec
from sftpv3.codec import trees
from sftpv3.system import program
from trials.probes import Plan

# The seeds, and the most sessions with a mistake of a kind that come from one.
SEEDS, MOST = range(1, 41), 2


class Looks(Plan):
    """A plan with looks of several requests each."""

    def listing(self, path, count):
        handle = self.ask("OPENDIR", path)
        for _ in range(count):
            self.ask("READDIR", handle)
        self.ask("CLOSE", handle)

    def reading(self, path):
        handle = self.ask("OPEN", path, codec.READ, {})
        self.ask("READ", handle, 0, 32768)
        self.ask("READ", handle, 32768, 32768)
        self.ask("CLOSE", handle)


def look(plan, tree):
    """Looks at everything that is there, as clients/walk does."""
    plan.ask("REALPATH", b".")
    for entry in [tree.root] + tree.entries:
        plan.ask("LSTAT", entry.path)
        if entry.kind == trees.DIRECTORY:
            plan.listing(entry.path, 3)
        elif entry.kind == trees.LINK:
            plan.ask("READLINK", entry.path)
        else:
            plan.reading(entry.path)


def write(plan, draw, path, flags):
    """WRITEs of random bytes to a file, each with a READ behind it, and a size that is set and shown."""
    file = plan.ask("OPEN", path, codec.READ | codec.WRITE | flags, {})
    for _ in range(8):
        plan.ask("WRITE", file, draw.randint(0, 20), draw.randbytes(draw.randint(3, 20)))
        plan.ask("READ", file, 0, 100)
    plan.ask("FSETSTAT", file, {"size": draw.randint(0, 60)})
    plan.ask("FSTAT", file)
    plan.ask("CLOSE", file)
    plan.ask("SETSTAT", path, {"size": draw.randint(0, 60)})
    plan.ask("LSTAT", path)


def work(plan, draw, tree):
    """Changes a file that is there and a new one, and lists directories in which something was made."""
    files = [entry.path for entry in tree.entries if entry.kind == trees.FILE]
    write(plan, draw, draw.choice(files), 0)
    write(plan, draw, b"/made-file", codec.CREAT | codec.EXCL)
    directories = [b""] + [entry.path for entry in tree.entries if entry.kind == trees.DIRECTORY]
    for path in draw.sample(directories, min(2, len(directories))):
        plan.ask("MKDIR", path + b"/made-directory", {})
        plan.ask("SYMLINK", b"made-directory", path + b"/made-link")
        plan.listing(path or b"/", 3)


def plan_of(seed, tree, looks_first):
    plan, draw = Looks(), random.Random(f"mistakes {seed}")
    if looks_first:
        look(plan, tree)
    work(plan, draw, tree)
    return plan.steps


def wrong_byte(records):
    """A byte that the session wrote is another."""
    for write_of, read in mutated.readings(records):
        data, begin = read.data(), write_of.asked.fields[1] - read.asked.fields[1]
        place = begin + read.asked.number % len(write_of.asked.fields[2])
        changed = data[:place] + bytes([data[place] ^ 0x20]) + data[place + 1:]
        yield mutated.with_reply(records, read, mutated.data_packet(read, changed))


def swapped(records):
    """A READ and the WRITE before it are swapped."""
    for one, read in mutated.readings(records):
        if read.at == one.answered + 1:
            yield records[:one.at] + records[read.at:read.answered + 1] + records[one.at:one.answered + 1] \
                + records[read.answered + 1:]


def wrong_size(records):
    """A size that was set is shown as another in the next reply."""
    done = mutated.exchanges(records)
    for one, shown in zip(done, done[1:]):
        if one.asked.name in ("SETSTAT", "FSETSTAT") and shown.kind == codec.ATTRS:
            given = codec.attributes_in(shown.reply)
            body = codec.attributes({**given, "size": given["size"] + 12345})
            yield mutated.with_reply(records, shown, codec.packet(codec.ATTRS, shown.reply[5:9] + body))


def missing_name(records):
    """A name that the session made is missing in a listing."""
    for one in mutated.listings(records):
        items = codec.names_in(one.reply)
        for place, (name, _, _) in enumerate(items):
            if name.startswith(b"made-"):
                left = items[:place] + items[place + 1:]
                yield mutated.with_reply(records, one, mutated.name_packet(one, left))


MISTAKES = [wrong_byte, mutated.lost_write, swapped, mutated.exchanged_writes, wrong_size, missing_name]


def attempt(folder, seed, looks_first):
    """For each kind of mistake, pairs of whether it was caught and where its transcript is."""
    tree = judging.start(seed, seed % judging.LINKS == 0, False)
    steps = plan_of(seed, tree, looks_first)
    records, tree_file, transcript = judging.record(folder, tree, steps, seed, 1)
    is_right, said = judging.accepted_without(program.program(), transcript)
    if not is_right:
        raise judging.Wrong(f"seed {seed}: the session without a mistake is refused: {said}")
    return {mistake.__name__: [judge(one, tree_file, f"{transcript}.{mistake.__name__}.{number}")
                               for number, one in enumerate(made(mistake, records, tree_file, transcript, seed))]
            for mistake in MISTAKES}


def made(mistake, records, tree_file, transcript, seed):
    """The sessions with a mistake that are refused with the true tree, some of them if there are many."""
    found = [one for one in mistake(records) if is_mistake(one, tree_file, transcript + ".tried")]
    return found if len(found) <= MOST else random.Random(seed).sample(found, MOST)


def is_mistake(records, tree_file, name):
    Path(name).write_bytes(codec.put_records(records))
    is_right = judging.accepted_with(program.program(), tree_file, name)[0]
    os.remove(name)
    return not is_right


def judge(records, tree_file, name):
    Path(name).write_bytes(codec.put_records(records))
    return not judging.accepted_without(program.program(), name)[0], name
