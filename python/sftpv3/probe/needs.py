"""Guesses at what the last step of a session needs: which steps before it, and which entries of the tree."""
from sftpv3 import codec
from sftpv3.codec import trees
from sftpv3.probe import plans


def names_of(step):
    """The names in the paths of a step, also in the target of a link."""
    if step.name in ("WRITE", "EXTENDED"):
        return set()
    paths = [value for value in step.fields if isinstance(value, bytes)]
    return {name for path in paths for name in path.split(b"/") if name not in (b"", b".", b"..")}


def opener(step):
    """The number of the step that gives the handle of this one, or what begins it, or None."""
    return plans.opener(step.handle()) if step.name in codec.REQUESTS else None


def of_handles(steps, last):
    """The step, and those that give its handle."""
    return of_last(steps, last, 0)


def of_last(steps, last, count):
    """The step, so many that come just before it, and those that give their handles."""
    start = max(steps.index(last) - count, 0)
    kept = steps[start:steps.index(last) + 1]
    wanted = {opener(step) for step in kept}
    for step in reversed(steps[:start]):
        if step.number in wanted:
            kept.insert(0, step)
            wanted.add(opener(step))
    return kept


def of_names(steps, last):
    """The step, and those before it that use its handles, or names of its paths."""
    before = steps[:steps.index(last)]
    opened = {step.number: step for step in before if step.name in ("OPEN", "OPENDIR")}
    names, handles = names_of(last), {opener(last)} - {None}
    for number in handles & set(opened):
        names |= names_of(opened[number])
    kept = [step for step in before if step.number in handles or opener(step) in handles or names & names_of(step)]
    wanted = {opener(step) for step in kept} - {None} | {step.number for step in kept}
    return [step for step in before if step.number in wanted or opener(step) in wanted] + [last]


# How many requests just before that of a difference are guessed to matter, as where a server misread the one before.
JUST_BEFORE = (8, 4, 2, 1, 0)


def of_steps(steps, number):
    """Guesses at the steps that the difference of this step needs, the shortest first."""
    last = next((step for step in steps if step.number == number), None)
    if last is None:
        return []
    guesses = [of_names(steps, last), *(of_last(steps, last, count) for count in JUST_BEFORE)]
    return sorted({len(guess): guess for guess in guesses}.values(), key=len)


def of_entries(steps, entries):
    """The entries that the names in the steps lead to, also through links."""
    names = set().union(*(names_of(step) for step in steps)) if steps else set()
    for _ in range(4):
        links = [entry for entry in entries if entry.kind == trees.LINK and set(entry.names()) <= names]
        names |= {name for entry in links for name in entry.content.split(b"/")}
    firsts = {entry.content for entry in entries if entry.kind == trees.FURTHER and set(entry.names()) <= names}
    return [entry for entry in entries if set(entry.names()) <= names or entry.path in firsts]
