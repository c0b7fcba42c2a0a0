"""A server that resolves paths by their text (`--paths text`): it leaves out `.` and empty names, and lets `..` take
the name before it away, whatever is there, before it looks at a file. So `/f/.` and `/f/` lead to the file `/f`, and
`/absent/../d` to `/d`. Each request is judged as if it had the path that comes of this. The target that SYMLINK gives a
link stays: the server resolves that when it meets the link."""
from sftpv3 import codec

# Which fields of a request are paths; the target of a link is none.
PATHS = {name: [place for place, field in enumerate(fields.split()) if field in ("path", "new_path", "link")]
         for name, (_, fields) in codec.REQUESTS.items()}

# The value of the option.
TEXT = "text"


def resolved(path: bytes) -> bytes:
    """The path that the text of this one makes. A relative one stays relative, and an empty one empty."""
    start, kept = path[:1] if path.startswith(b"/") else b"", []
    for name in path.split(b"/"):
        if name == b".." and kept and kept[-1] != b"..":
            kept.pop()
        elif name == b".." and start or name in (b"", b"."):
            continue
        else:
            kept.append(name)
    return start + b"/".join(kept) or path and b"."


def places(name, link_first):
    """The places of a request's paths among its fields."""
    return [0] if name == "SYMLINK" and link_first else PATHS.get(name, [])


def is_spelled(asked, link_first=False):
    """Whether a path of a request is another than its text makes."""
    return any(asked.fields[place] != resolved(asked.fields[place]) for place in places(asked.name, link_first))


def request(packet, link_first):
    """The request with the paths that the texts of its own make."""
    asked = codec.decode(packet)
    if not is_spelled(asked, link_first):
        return packet
    for place in places(asked.name, link_first):
        asked.fields[place] = resolved(asked.fields[place])
    return codec.encode(asked)


def records(found, link_first=False):
    """The records as they are judged."""
    return found[:2] + [(side, request(packet, link_first) if side == codec.CLIENT else packet)
                        for side, packet in found[2:]]
