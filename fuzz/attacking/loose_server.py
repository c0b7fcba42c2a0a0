"""A server that makes directories without the permissions that were asked for: a session of the program, which saves
its tree, to which MKDIR goes without attributes.

    loose_server.py LOG KIND PROGRAM TREE

With KIND `deaf` it does so to SETSTAT, too; with `later` as well, but not before the second directory of a run. The
file LOG gets a line for each request that makes or changes something at a path: its name, the path in hexadecimal, and
the permissions that it asks for.
"""
import subprocess
import sys

sys.dont_write_bytecode = True

from sftpv3 import codec


def is_first(log):
    """Whether no directory was made before in this run."""
    with open(log, "rb") as file:
        return not any(line.startswith(b"MKDIR ") for line in file)


def loosened(packet, log, kind):
    asked = codec.decode(packet)
    if asked.name not in ("MKDIR", "SETSTAT", "OPEN", "SYMLINK"):
        return packet
    is_kept = kind == "later" and is_first(log)
    wanted = 0 if asked.name == "SYMLINK" else asked.fields[-1].get("permissions", 0)
    with open(log, "a", encoding="ascii") as file:
        file.write(f"{asked.name} {asked.fields[0].hex()} {wanted:o}\n")
    if asked.name == "MKDIR" and not is_kept or asked.name == "SETSTAT" and kind != "loose":
        return codec.request(asked.number, asked.name, asked.fields[0], {})
    return packet


def main():
    log, kind, program, tree = sys.argv[1:]
    with subprocess.Popen([program, "serve", "--tree", tree, "--save", tree], stdin=subprocess.PIPE) as server:
        while True:
            head = sys.stdin.buffer.read(4)
            if len(head) < 4:
                break
            packet = head + sys.stdin.buffer.read(int.from_bytes(head, "big"))
            server.stdin.write(packet if packet[4] == codec.INIT else loosened(packet, log, kind))
            server.stdin.flush()
        server.stdin.close()


if __name__ == "__main__":
    main()
