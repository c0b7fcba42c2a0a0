"""What `sftpv3 audit` says of a tree file and a transcript (docs/FORMATS.md, docs/PROTOCOL.md)."""
from model.replies import Session
from model.trees import tree_of
from sftpv3.codec import CLIENT, Malformed, each_record

WINDOW = 1024


class Asked:
    """A request, the record that it is in, and its reply with that one's record once it is there."""

    def __init__(self, record, request):
        self.record, self.request, self.reply, self.replied = record, request, None, None


class Refused(Exception):
    """Why a session is refused, as the program says it."""


class Auditor:
    def __init__(self, tree):
        self.session, self.asked, self.done = Session(tree), [], 0

    def waiting(self, id):
        """The request that has this id and no reply, if there is one."""
        return next((it for it in self.asked[self.done:] if it.reply is None and it.request.number == id), None)

    def ask(self, record, request):
        if self.waiting(request.number):
            raise Refused(f"refused record {record}: IdInUse")
        if len(self.asked) - self.done >= WINDOW:
            raise Refused(f"refused record {record}: Window")
        self.asked.append(Asked(record, request))

    def reply(self, record, reply):
        it = self.waiting(reply.number)
        if it is None:
            raise Refused(f"refused record {record}: UnknownReply")
        it.reply, it.replied = reply, record
        while self.done < len(self.asked) and self.asked[self.done].reply:
            first = self.asked[self.done]
            if not self.session.accept(first.request, first.reply):
                raise Refused(f"refused record {first.replied}: NotAllowed")
            self.done += 1

    def finish(self):
        if self.done < len(self.asked):
            raise Refused(f"refused record {self.asked[self.done].record}: Unanswered")
        return f"accepted {len(self.asked)} requests"


def audit(file, transcript):
    """What the program says of a tree file and a transcript, and the tree at the end, or None."""
    of_what = "tree"
    try:
        tree = tree_of(file)
        auditor, of_what = Auditor(tree), "transcript"
        for record, (side, _, packet) in enumerate(each_record(transcript), 1):
            if record > 2:
                (auditor.ask if side == CLIENT else auditor.reply)(record, packet)
        return auditor.finish(), tree
    except Malformed as error:
        return f"{of_what}: {error}", None
    except Refused as error:
        return str(error), None
