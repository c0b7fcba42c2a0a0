"""What stands between a client and a sound server, and changes what passes: the base of all faults, and the streams of
packets.

A fault is a sentence that says what goes wrong, and a function in the place of a method: `fault` makes it.
"""
import contextlib
import os

from sftpv3 import codec


class Bug:
    """What a server does right: each change gives packets to pass on. A class says in its first line what it keeps, as
    in `class append_read(Bug, opens=set)`: it is made anew for each server."""

    ANEW: dict = {}

    def __init_subclass__(cls, **kept):
        super().__init_subclass__()
        cls.ANEW = kept

    def __init__(self):
        # the requests by their ids, and what leads to the server
        self.names, self.pipe = {}, None
        for above in type(self).__mro__:
            vars(self).update((name, make()) for name, make in vars(above).get("ANEW", {}).items())

    @classmethod
    def but(cls, text, **members):
        """The same with other attributes, and what goes wrong then."""
        return type(cls.__name__, (cls,), {"__doc__": text, "__module__": cls.__module__, **members})

    def opening(self, packet):
        return packet

    def begun(self, left):
        """Sees the bytes of a request that came without its end, or none."""

    def requests(self, packets):
        """What the server gets in place of these requests, which came together."""
        found = []
        for packet in packets:
            asked = codec.decode(packet)
            self.names[asked.number] = asked.name
            found.append(self.request(asked, packet))
        return found

    def request(self, _asked, packet):
        """What the server gets in place of this request."""
        return packet

    def replies(self, packets):
        """What the client gets in place of these packets, which came together."""
        return [self.opening(packet) if packet[4] == codec.VERSION else self.reply(packet) for packet in packets]

    def reply(self, packet):
        """What the client gets in place of this reply."""
        return self.changed(self.names.get(int.from_bytes(packet[5:9], "big")), packet)

    def changed(self, _name, packet):
        """The same, of a reply to a request of this name."""
        return packet


def fault(hook, *above):
    """What makes faults that override one method of these classes. Each has a sentence, and a function in the place of
    the method; or it is the function below a decorator, whose text is the sentence:

        write_lost_by_size = loses("A WRITE of more than 20,000 bytes is lost.",
                                   lambda self, asked, offset, data: len(data) > 20000)

        @ask(made=set, HIDDEN_BY=("slash",))
        def directory_is_made_once(self, asked):

    Words in small letters say what the fault keeps: it is made anew for each server. Those in capitals are attributes.
    """
    def make(*given, **members):
        if not given:
            return lambda act: make(act, **members)
        text, act = given if len(given) == 2 else (given[0].__doc__, given[0])
        fixed = {name: value for name, value in members.items() if name.isupper()}
        kept = {name: value for name, value in members.items() if name not in fixed}
        own = {"__doc__": text, "__module__": act.__module__, hook: act}
        return type(act.__name__, above, {**own, **fixed}, **kept)
    return make


changed, request = fault("changed", Bug), fault("request", Bug)


def packets_of(data):
    """The whole packets at the front, and what is left."""
    found = []
    while codec.length(data) is not None and codec.length(data) <= len(data):
        found.append(data[:codec.length(data)])
        data = data[len(found[-1]):]
    return found, data


def write(target, packet):
    """Writes a whole packet."""
    view = memoryview(packet)
    while view:
        view = view[os.write(target, view):]


def pass_on(source, target, change, see=lambda left: None):
    """Passes packets on until the stream ends, those that come together at once, or until nobody takes them. `see` gets
    what is no whole packet."""
    left = b""
    piece = os.read(source, 1 << 18)
    with contextlib.suppress(BrokenPipeError):
        while piece:
            found, left = packets_of(left + piece)
            for packet in change(found):
                write(target, packet)
            see(left)
            piece = os.read(source, 1 << 18)
    os.close(target)
