"""What clients do at once on one folder: each workload is a function of a client, of its number, of pseudorandom
choices and of the count of requests. Paths are below the folder that the clients share. A client has `ask`, `ask_all`
and `handle`, and counts what it asked."""
from __future__ import annotations

from sftpv3.codec import APPEND, CREAT, EXCL, READ, TRUNC, WRITE

NEW = READ | WRITE | CREAT


def payload(number, at, length):
    """Bytes that tell who wrote them."""
    return (b"%d.%d;" % (number, at) * length)[:length]


def list_folder(client, path):
    handle = client.handle("OPENDIR", path)
    while handle is not None and client.ask("READDIR", handle).name == "NAME":
        pass
    if handle is not None:
        client.ask("CLOSE", handle)


def use_file(client, path, flags, requests):
    """Opens a file, has some requests through its handle, and closes it."""
    handle = client.handle("OPEN", path, flags, {})
    if handle is not None:
        for name, *fields in requests:
            client.ask(name, handle, *fields)
        client.ask("CLOSE", handle)


def opened(client, path, flags, count):
    """A handle of a file. Where none is given, there is nothing else to be asked."""
    handle = None
    while handle is None and client.asked < count:
        handle = client.handle("OPEN", path, flags, {})
    return handle


def size_in(reply):
    """The size in a reply, or 0."""
    return reply.fields[0].get("size", 0) if reply.name == "ATTRS" else 0


def disjoint(client, number, choice, count):
    folder = b"own%d" % number
    client.ask("MKDIR", folder, {})
    while client.asked < count:
        path = folder + b"/f%d" % choice.randrange(3)
        use_file(client, path, NEW, [("WRITE", choice.randrange(50), payload(number, client.asked, 20)),
                                     ("READ", 0, 100)])
        client.ask(choice.choice(["STAT", "LSTAT", "REMOVE"]), path)


def mix(client, number, choice, count):
    names = [b"a", b"b", b"d/a", b"d/b", b"d", b"l"]
    while client.asked < count:
        path, other = choice.choices(names, k=2)
        act = choice.randrange(12)
        if act < 3:
            use_file(client, path, NEW, [("WRITE", choice.randrange(40), payload(number, client.asked, 12)),
                                         ("READ", 0, 60)])
        elif act < 5:
            list_folder(client, choice.choice([b".", b"d"]))
        elif act == 5:
            client.ask("MKDIR", b"d", {})
        elif act == 6:
            client.ask("SYMLINK", other, b"l")
        else:
            one_path(client, choice, path, other)


def one_path(client, choice, path, other):
    """A request with a path. The directory stays where it is: OpenSSH's server lists one that moved without its
    names, which one session alone shows."""
    name = choice.choice(["STAT", "LSTAT", "REMOVE", "RMDIR", "READLINK", "POSIX-RENAME"])
    if name == "POSIX-RENAME" and path == b"d":
        path = b"d/a"
    client.ask(name, path, *([other] if name == "POSIX-RENAME" else []))


def rename(client, number, choice, count):
    while client.asked < count:
        name = b"page%d" % choice.randrange(3)
        if choice.randrange(2):
            own = b"tmp%d" % number
            use_file(client, own, WRITE | CREAT | TRUNC, [("WRITE", 0, payload(number, client.asked, 30))])
            client.ask("POSIX-RENAME", own, name)
        else:
            use_file(client, name, READ, [("READ", 0, 100), ("FSTAT",)])


def append(client, number, choice, count):
    handle, size = opened(client, b"log", NEW | APPEND, count), 0
    while client.asked < count:
        act = choice.randrange(6)
        if act < 3:
            client.ask("WRITE", handle, 0, payload(number, client.asked, 16 + choice.randrange(16)))
        elif act == 3:
            size = size_in(client.ask("FSTAT", handle))
        else:
            client.ask("READ", handle, max(0, size - 200 - choice.randrange(100)), 400)


def ranges(client, number, choice, count):
    handle = opened(client, b"file", NEW, count)
    while client.asked < count:
        place = 50 * choice.randrange(30)
        if choice.randrange(2):
            client.ask("WRITE", handle, place, payload(number, client.asked, 100))
        else:
            client.ask("READ", handle, place, 100)


def dirs(client, number, choice, count):
    while client.asked < count:
        folder = b"dir%d" % choice.randrange(2)
        path = folder + b"/%d" % choice.randrange(6)
        act = choice.randrange(7)
        if act < 3:
            client.ask("MKDIR", folder, {})
            use_file(client, path, WRITE | CREAT, [])
            client.ask("HARDLINK", path, folder + b"/%d" % choice.randrange(6))
        elif act < 5:
            list_folder(client, folder)
        elif act == 5:
            client.ask("REMOVE", path)
        else:
            client.ask("RMDIR", folder)


def locks(client, number, choice, count):
    while client.asked < count:
        lock = b"lock%d" % choice.randrange(2)
        handle = client.handle("OPEN", lock, WRITE | CREAT | EXCL, {})
        if handle is not None:
            client.ask("CLOSE", handle)
            client.ask("STAT", lock)
            client.ask("REMOVE", lock)
        elif choice.randrange(2):
            client.ask("STAT", lock)


def swaps(client, number, choice, count):
    for it in (b"v0", b"v1", b"v2"):
        use_file(client, it, NEW, [("WRITE", 0, it * 10)])
    while client.asked < count:
        act = choice.randrange(6)
        if act < 2:
            own = b"next%d" % number
            client.ask("SYMLINK", b"v%d" % choice.randrange(3), own)
            client.ask("POSIX-RENAME", own, b"current")
        elif act == 2:
            client.ask("READLINK", b"current")
        elif act == 3:
            use_file(client, b"current", WRITE, [("WRITE", 0, payload(number, client.asked, 20))])
        else:
            use_file(client, b"current", READ, [("READ", 0, 100)])


def setstat(client, number, choice, count):
    use_file(client, b"file", NEW, [])
    while client.asked < count:
        act = choice.randrange(5)
        given = {"permissions": 0o600 + choice.randrange(64)}
        if choice.randrange(2):
            given["size"] = choice.randrange(100)
        if act < 2:
            client.ask("SETSTAT", b"file", given)
        elif act == 2:
            use_file(client, b"file", READ | WRITE, [("FSETSTAT", given), ("FSTAT",)])
        else:
            client.ask("STAT", b"file")


def big(client, number, choice, count):
    handle = opened(client, b"big", NEW, count)
    while client.asked < count:
        place = 16384 * choice.randrange(6)
        if choice.randrange(2):
            client.ask("WRITE", handle, place, payload(number, client.asked, 32768))
        else:
            client.ask("READ", handle, place, 32768)


def piped(client, number, choice, count):
    handle = opened(client, b"shared", NEW, count)
    while client.asked < count:
        client.ask_all([one_piped(number, client.asked + at, choice, handle) for at in range(choice.randrange(2, 9))])


def one_piped(number, at, choice, handle):
    act, place = choice.randrange(8), 20 * choice.randrange(20)
    if act < 3:
        return "WRITE", handle, place, payload(number, at, 20)
    if act < 6:
        return "READ", handle, place, 20
    return ("STAT", b"shared") if act == 6 else ("MKDIR", b"p%d" % choice.randrange(5), {})


WORKLOADS = {it.__name__: it for it in (append, big, dirs, disjoint, locks, mix, piped, ranges, rename, setstat, swaps)}
