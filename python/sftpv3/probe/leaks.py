"""What a server took of the system in a session, and did not give back, though all that was opened was closed."""
from sftpv3 import codec
from sftpv3.probe import restarts

# So many descriptors more than handles that are open are a leak: a server may open some files of its own, once.
MANY = 24

# More memory than so many bytes, and so many times what was written, is told: a store in memory has less.
MUCH, STORED = 64 << 20, 16

# What takes descriptors, in words.
OPENERS = {"OPENDIR": "listing", "OPEN": "file"}


def first_part(session):
    """The records up to the place where the server was started again."""
    return session.records[:session.again]


def done(records):
    """How many OPENDIRs and OPENs gave a handle."""
    asked, found = {}, dict.fromkeys(OPENERS, 0)
    for side, packet in records[2:]:
        if side == codec.CLIENT:
            asked[packet[5:9]] = packet
        elif packet[4] == codec.HANDLE and packet[5:9] in asked:
            name = codec.decode(asked[packet[5:9]]).name
            found[name] = found.get(name, 0) + 1
    return found


def descriptors(session):
    """How many descriptors a server holds behind a session that nothing open needs, and what took them, as far as their
    number tells: `56 descriptors more after 56 listings`. None if there are few."""
    if session.taken is None:
        return None
    before, after = session.taken
    records = first_part(session)
    more = after.descriptors - before.descriptors - len(restarts.left_open(records))
    if more < MANY:
        return None
    counts = done(records)
    nearest = min(OPENERS, key=lambda name: abs(counts[name] - more))
    what = f"{counts[nearest]} {OPENERS[nearest]}s" if abs(counts[nearest] - more) <= more // 8 else \
        f"{session.asked()} requests"
    return f"{more} descriptors more after {what}"


def written(records):
    """How many bytes the packets of the client have."""
    return sum(len(packet) for side, packet in records if side == codec.CLIENT)


def memory(session):
    """How many bytes more a server has behind a session than what it may store takes; 0 if that is little."""
    if session.taken is None:
        return 0
    before, after = session.taken
    more = after.memory - before.memory
    return more if more > MUCH + STORED * written(first_part(session)) else 0


def advice(played):
    """What to say of the session behind which a server had most memory; None if that was little in each."""
    most = max(played, key=lambda one: one.memory, default=None)
    if most is None or not most.memory:
        return None
    return (f"the server's processes had {most.memory >> 20:,} MiB more at the end of the session of seed {most.seed} "
            "than at its beginning, much more than it wrote: it may keep memory that nothing needs")
