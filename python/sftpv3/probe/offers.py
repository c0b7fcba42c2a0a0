"""Options that are offered where differences show how a server is meant to be: it resolves paths by their text, nobody
can change its files, its root is a folder, which links with absolute targets leave, or it keeps even seconds."""
from sftpv3 import codec
from sftpv3.codec import trees
from sftpv3.probe import bytext, dating, groups, lacking, readonly
from sftpv3.probe.model import LINK, Entry, Model

# The option of a server that resolves paths by their text.
BY_TEXT = ("--paths", bytext.TEXT)

# From how many requests on that are refused it is said that nobody may change the server's files.
MANY_REFUSED = 3

# Where a copy of a model has links with absolute targets lead to.
LEFT = b"/\xff left"


def request_of(difference):
    """The request that differs, or None."""
    place = difference.request
    return None if place is None or place < 2 else codec.decode(difference.session.records[place][1])


def is_spelled(difference, link_first):
    """Whether the request that differs has a path that is another than its text makes."""
    asked = request_of(difference)
    return asked is not None and bytext.is_spelled(asked, link_first)


def of_paths(found):
    """What to say where paths by their text would explain differences; None if they explain none."""
    option = " ".join(BY_TEXT)
    count = sum(option in group.accepted_with for group in found)
    return f"{of_kinds(count, found)} accepted with {option}: if your server takes `..` by the text of a path, play " \
        f"again with {option}" if count else None


def of_changes(found):
    """What to say where a server refuses all that would change something; None if it does something of it."""
    refused = {group.request for group in found if is_refused_change(group)}
    if len(refused) < MANY_REFUSED or any(readonly.done(group.first.session.records) for group in found):
        return None
    count = sum(is_refused_change(group) for group in found)
    return (f"{of_kinds(count, found)} changes that are refused, and no change is done: if nobody is to change your "
            f"server's files, play again with --without {lacking.CHANGES}")


def without_refused(found):
    """These groups without those of a change that was refused, whatever was expected: if nobody may change anything,
    each refusal is right."""
    return [group for group in found if not (is_of_change(group) and is_refusal(group))]


def is_refusal(group):
    """Whether the first difference of a group is a refusal."""
    return group.found.startswith("STATUS with code") and group.found != groups.of_code(codec.OK)


def is_of_change(group):
    """Whether the first difference of a group is the reply to a request that would change something."""
    asked = request_of(group.first)
    return asked is not None and readonly.is_change(asked)


def is_refused_change(group):
    """Whether the first difference of a group is a change that is refused, and was to be done."""
    return is_of_change(group) and is_refusal(group) and \
        (group.expected.startswith("HANDLE") or group.expected == groups.of_code(codec.OK))


def of_links(found, tree):
    """What to say where paths lead through links with absolute targets, on a server of a folder; None if none does."""
    count = sum(leaves(group, tree) for group in found)
    return (f"{of_kinds(count, found)} of paths through a link with an absolute target: if your server shows a folder "
            "as its root, such a link leaves that folder, and leads to what the machine has at this path; play again "
            "with --skip absolute-links") if count else None


def leaves(group, tree):
    """Whether a path of the first difference of a group leads through a link with an absolute target."""
    step = next((one for one in group.steps if one.number == group.first.number), None)
    if step is None or step.name not in groups.BY_PATH:
        return False
    if group.first.session.start:
        tree = trees.get(group.first.session.start)
    model = groups.Things(group.steps[:group.steps.index(step)], tree).model
    other = without_absolute(model)
    paths = [value for value in step.fields if isinstance(value, bytes)]
    return any(model.walk(path, follow) != other.walk(path, follow) for path in paths for follow in (False, True))


def without_absolute(model: Model) -> Model:
    """The model, with other targets of the links that have absolute ones."""
    found = model.copy()
    for place, entry in model.places.items():
        if entry.kind == LINK and entry.target.startswith(b"/"):
            found.places[place] = Entry(LINK, target=LEFT)
    return found


def of_seconds(found):
    """What to say where times differ in the scene of odd seconds alone; None if they differ elsewhere, or nowhere."""
    shown = [group for group in found if group.first.verdict.kind == "Times"]
    if not shown or any(scene_of(group) != dating.ODD for group in shown):
        return None
    return (f"{of_kinds(len(shown), found)} of times of odd seconds alone: if your file system keeps even seconds, as "
            "FAT does, play again with --skip odd-seconds")


def scene_of(group):
    """The scene of the request of a group's first difference, or None."""
    return next((one.scene for one in group.steps if one.number == group.first.number), None)


def of_kinds(count, found):
    """How many of these groups are meant."""
    return f"{count} of {len(found)} kinds {'is' if count == 1 else 'are'}" if len(found) > 1 else "the difference is"
