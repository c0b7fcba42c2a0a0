"""The text of packets as cases have it (docs/CASES.md), and random numbers by a seed that are the same everywhere."""
import re
import struct
import sys
import textwrap

from sftpv3.codec.packets import CLIENT, FLAGS, LAYOUTS, SIDES


class Generator:
    """A linear congruential generator; the high half of its state counts."""

    def __init__(self, seed):
        self.state = seed

    def below(self, bound):
        """A number below this one, or 0 if there is none."""
        self.state = (self.state * 1_664_525 + 1_013_904_223) % 2 ** 32
        return (self.state >> 16) % max(bound, 1)

    def one_of(self, all):
        return all[self.below(len(all))]


def print_comment(text):
    """Prints a comment, in lines of at most 120 characters."""
    print(textwrap.fill(text, 120, initial_indent="# ", subsequent_indent="# ", break_long_words=False,
                        break_on_hyphens=False))


def print_lines(keyword, lines):
    print("\n".join([keyword, *lines]))


def print_packets(*packets):
    for packet in packets:
        print("\n".join(lines_of(text_of(packet))))


def words_of(usage):
    """The words of the command line; where there are none, or for `--help`, it prints the usage and ends the script."""
    if sys.argv[1:] in (["-h"], ["--help"]):
        print(usage)
        sys.exit(0)
    if not sys.argv[1:]:
        print(usage, file=sys.stderr)
        sys.exit(2)
    return sys.argv[1:]


def parts_of_word(word, usual):
    """The parts of `SEED/REST:COUNT`; without a colon the usual count."""
    front, _, count = word.partition(":")
    seed, _, rest = front.partition("/")
    return int(seed), rest, int(count or usual)


def text_of_bytes(text):
    """Bytes in quotes; what repeats often is `"x"*1000`, and texts with nothing between them are one."""
    parts, start, at = [], 0, 0
    while at < len(text):
        length, count = max(((it, repeats(text, at, it)) for it in (1, 2)), key=lambda it: it[0] * it[1])
        if length * count >= 20:
            if start < at:
                parts.append(quoted(text[start:at]))
            parts.append(f"{quoted(text[at:at + length])}*{count}")
            at += length * count
            start = at
        else:
            at += 1
    if start < len(text) or not parts:
        parts.append(quoted(text[start:]))
    return "".join(parts)


def repeats(text, at, length):
    """How many times the bytes of this length at a place stand there, one after the other."""
    part, count = text[at:at + length], 0
    while len(part) == length and text[at + count * length:at + (count + 1) * length] == part:
        count += 1
    return count


def quoted(text):
    shown = "".join(chr(it) if 0x20 <= it <= 0x7e and it not in b'"\\' else f"\\x{it:02x}" for it in text)
    return f'"{shown}"'


def text_of_pairs(pairs, separator):
    return separator.join(f"{text_of_bytes(name)}={text_of_bytes(data)}" for name, data in pairs)


def text_of_handle(handle):
    """A handle as `serve` names them is `#SLOT.SERIAL`, or `#N` if both are N."""
    if len(handle) == 12:
        slot, serial = struct.unpack(">QI", handle)
        return f"#{slot}" if slot == serial else f"#{slot}.{serial}"
    return text_of_bytes(handle)


def text_of_flags(flags):
    names = "|".join(name for name, bit in FLAGS.items() if flags & bit)
    return names if flags and not flags & ~63 else str(flags)


def words_of_attributes(attributes):
    texts = {"size": str, "owner": "%d,%d".__mod__, "permissions": "0%o".__mod__, "times": "%d,%d".__mod__,
             "extended": lambda pairs: text_of_pairs(pairs, ",")}
    return [f"{name}={text(attributes[name])}" for name, text in texts.items() if name in attributes]


def words_of_status(code, message, language):
    return [str(code), *(text_of_bytes(it) for it in (message, language) if message or language)]


def words_of_names(items):
    texts = [" ".join([text_of_bytes(name), text_of_bytes(long), *words_of_attributes(it)]) for name, long, it in items]
    return ["; ".join(texts)] if texts else []


# How the fields of some kinds are shown.
FIELDS = {"flags": lambda value: [text_of_flags(value)], "handle": lambda value: [text_of_handle(value)],
          "attributes": words_of_attributes, "names": words_of_names,
          "pairs": lambda value: [text_of_pairs(value, " ")] if value else []}


def words_of_field(field, value):
    if field in FIELDS:
        return FIELDS[field](value)
    return [text_of_bytes(value) if isinstance(value, bytes) else str(value)]


def text_of(packet):
    side = "C" if packet.name in SIDES[CLIENT] else "S"
    words = [side, *([] if packet.number is None else [str(packet.number)]), packet.name]
    if packet.name == "STATUS":
        return " ".join(words + words_of_status(*packet.fields))
    for field, value in zip(LAYOUTS[packet.name][1].split(), packet.fields):
        words += words_of_field(field, value)
    return " ".join(words)


def lines_of(line):
    """A line below a block: indented, and cut at spaces outside of quotes where it would be too long."""
    lines, current = [], "  "
    for word in re.findall(r'(?:[^" ]|"[^"]*")+', line):
        if current.strip() and len(current) + 1 + len(word) > 120:
            lines.append(current)
            current = "        " + word
        else:
            current += word if not current.strip() else " " + word
    return [*lines, current]
