"""What a server could have got wrong in a session that is right: each function gives sessions with one mistake each,
for tests/test-profiles. A session has one request in flight. No mistake is one that a profile could excuse."""
from sftpv3 import codec

FILE_TYPE, LINK_TYPE, DIRECTORY_TYPE, TYPES = 0o100000, 0o120000, 0o040000, 0o170000

# Requests that change which names there are.
CHANGERS = {"OPEN", "REMOVE", "MKDIR", "RMDIR", "RENAME", "SYMLINK", "POSIX-RENAME", "HARDLINK"}

# Requests that may change a file's bytes.
WRITERS = CHANGERS | {"WRITE", "SETSTAT", "FSETSTAT"}

# Changes that no departure lets a server refuse or do as it likes, if their paths are plain.
STEADY = {"MKDIR", "RMDIR", "REMOVE", "RENAME", "SYMLINK", "WRITE", "CLOSE"}


class Exchange:
    """A request, its reply, and the places of both among the records."""

    def __init__(self, asked, reply, at, answered):
        self.asked, self.reply, self.at, self.answered = asked, reply, at, answered
        self.kind = reply[4]

    def code(self):
        return codec.Reply(self.reply).code

    def data(self):
        """The bytes of DATA, or None."""
        return codec.string_in(self.reply) if self.kind == codec.DATA else None


def exchanges(records):
    """The requests with their replies, in order."""
    found, asked = [], {}
    for place, (side, packet) in enumerate(records[2:], 2):
        if side == b"C":
            request = codec.decode(packet)
            asked[request.number] = (request, place)
        else:
            request, at = asked[codec.Reply(packet).number]
            found.append(Exchange(request, packet, at, place))
    return found


def with_reply(records, one, packet):
    return records[:one.answered] + [(b"S", packet)] + records[one.answered + 1:]


def with_request(records, one, fields):
    packet = codec.request(one.asked.number, one.asked.name, *fields)
    return records[:one.at] + [(b"C", packet)] + records[one.at + 1:]


def data_packet(one, data):
    return codec.packet(codec.DATA, one.reply[5:9] + codec.string(data))


def wrong_byte(records):
    """A byte of DATA is another."""
    for one in exchanges(records):
        data = one.data()
        if data:
            place = one.asked.number % len(data)
            yield with_reply(records, one, data_packet(
                one, data[:place] + bytes([data[place] ^ 0x20]) + data[place + 1:]))


def data_short(records):
    """DATA has a byte less than the file, and fewer than a server has to give."""
    for one in exchanges(records):
        data = one.data()
        if data and len(data) <= 32768:
            yield with_reply(records, one, data_packet(one, data[:-1]))


def shows(read, write):
    """Whether the DATA of a READ has the bytes of a WRITE at its offset."""
    data, begin = read.data(), write.asked.fields[1] - read.asked.fields[1]
    return data is not None and begin >= 0 and data[begin:begin + len(write.asked.fields[2])] == write.asked.fields[2]


def readings(records):
    """WRITEs with a READ that shows them, while nothing else writes."""
    done = exchanges(records)
    for place, one in enumerate(done):
        if one.asked.name != "WRITE" or one.code() != codec.OK or not one.asked.fields[2]:
            continue
        for later in done[place + 1:]:
            if later.asked.name in WRITERS:
                break
            if later.asked.name == "READ" and later.asked.fields[0] == one.asked.fields[0] and shows(later, one):
                yield one, later
                break


def lost_write(records):
    """A WRITE is done with other bytes, and a READ shows it."""
    for one, _ in readings(records):
        handle, offset, data = one.asked.fields
        yield with_request(records, one, [handle, offset, bytes(byte ^ 0x55 for byte in data)])


def name_packet(one, items):
    return codec.packet(codec.NAME, one.reply[5:9] + codec.names(items))


def listings(records):
    """The replies with names of each listing from OPENDIR to EOF in whose time no name came or went."""
    done = exchanges(records)
    for place, one in enumerate(done):
        if one.asked.name != "OPENDIR" or one.kind != codec.HANDLE:
            continue
        handle, given = codec.Reply(one.reply).handle, []
        for later in done[place + 1:]:
            if later.asked.name in CHANGERS or later.asked.name == "CLOSE" and later.asked.fields[0] == handle:
                break
            if later.asked.name == "READDIR" and later.asked.fields[0] == handle:
                if later.kind != codec.NAME:
                    yield from given
                    break
                given.append(later)


def missing_name(records):
    """A name is missing in a listing that ends."""
    for one in listings(records):
        items = codec.names_in(one.reply)
        own = [item for item in items if item[0] not in (b".", b"..")]
        if own and len(items) > 1:
            yield with_reply(records, one, name_packet(one, [item for item in items if item is not own[-1]]))


def name_twice(records):
    """A name is in a reply twice."""
    for one in exchanges(records):
        items = codec.names_in(one.reply) if one.asked.name == "READDIR" and one.kind == codec.NAME else []
        own = [item for item in items if item[0] not in (b".", b"..")]
        if own:
            yield with_reply(records, one, name_packet(one, items + own[:1]))


def with_attributes(records, kinds, change):
    """Each reply to STAT, LSTAT and FSTAT that shows something of these kinds, and each listing with such a name, with
    attributes that are changed."""
    for one in exchanges(records):
        if one.kind == codec.ATTRS:
            given = codec.attributes_in(one.reply)
            # of a directory whose handle is open while it is removed, anything may be shown
            of_handle = one.asked.name == "FSTAT" and given.get("permissions", 0) & TYPES == DIRECTORY_TYPE
            if given.get("permissions", 0) & TYPES in kinds and not of_handle:
                body = codec.attributes(change(given))
                yield with_reply(records, one, codec.packet(codec.ATTRS, one.reply[5:9] + body))
        elif one.asked.name == "READDIR" and one.kind == codec.NAME:
            items = codec.names_in(one.reply)
            places = [place for place, (name, _, given) in enumerate(items)
                      if given.get("permissions", 0) & TYPES in kinds and name not in (b".", b"..")]
            for place in places[:1]:
                name, long, given = items[place]
                changed = items[:place] + [(name, long, change(given))] + items[place + 1:]
                yield with_reply(records, one, name_packet(one, changed))


def wrong_size(records):
    """The size of a file or link is another."""
    return with_attributes(records, (FILE_TYPE, LINK_TYPE), lambda given: {**given, "size": given["size"] + 12345})


def wrong_permission(records):
    """A permission of a file or directory is another."""
    return with_attributes(records, (FILE_TYPE, DIRECTORY_TYPE),
                           lambda given: {**given, "permissions": given["permissions"] ^ 1})


def is_plain(asked):
    """Whether no path of a request is long or ends in a slash or a dot."""
    paths = [field for field in asked.fields if isinstance(field, bytes)] if asked.name in CHANGERS else []
    return all(0 < len(path) < 1000 and not path.endswith((b"/", b"/.", b"/..")) and path not in (b".", b"..")
               for path in paths)


def with_code(records, right, wrong):
    for one in exchanges(records):
        if one.asked.name in STEADY and is_plain(one.asked) and one.kind == codec.STATUS and right(one.code()):
            yield with_reply(records, one, one.reply[:9] + wrong.to_bytes(4, "big") + one.reply[13:])


def done_told_failed(records):
    """FAILURE for what was done."""
    return with_code(records, lambda code: code == codec.OK, codec.FAILURE)


def extension_told_failed(records, is_meant):
    """FAILURE for extensions that were done, of those meant by their names and data."""
    for one in exchanges(records):
        if one.asked.name == "EXTENDED" and one.code() == codec.OK and is_meant(*one.asked.fields):
            yield with_reply(records, one, one.reply[:9] + codec.FAILURE.to_bytes(4, "big") + one.reply[13:])


def failed_told_done(records):
    """OK for what was refused."""
    return with_code(records, lambda code: code > codec.EOF, codec.OK)


def exchanged_writes(records):
    """Two WRITEs are exchanged, and a READ between them shows the first."""
    done = exchanges(records)
    for first, read in readings(records):
        later = done[done.index(next(one for one in done if one.at == read.at)) + 1:][:1]
        if later and later[0].asked.name == "WRITE" and later[0].asked.fields[0] == first.asked.fields[0] \
                and later[0].asked.fields[1:] != first.asked.fields[1:] and later[0].code() == codec.OK:
            changed = with_request(records, first, later[0].asked.fields)
            yield with_request(changed, later[0], first.asked.fields)


def exchanged_replies(records):
    """The replies to two WRITEs are exchanged, with a READ between."""
    done = exchanges(records)
    for first, second, third in zip(done, done[1:], done[2:]):
        if [one.asked.name for one in (first, second, third)] == ["WRITE", "READ", "WRITE"]:
            yield with_reply(with_reply(records, first, third.reply), third, first.reply)


MISTAKES = [wrong_byte, data_short, lost_write, missing_name, name_twice, wrong_size, wrong_permission,
            done_told_failed, failed_told_done, exchanged_writes, exchanged_replies]
