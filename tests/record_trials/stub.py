#!/usr/bin/python3 -I
"""A server for trials: VERSION for INIT, 32 KiB for READ, OK for all else.

    stub.py [WORD ...]    stays: it goes on after the end of its input; ignores: SIGTERM, too; closes-input,
                          closes-output: it closes that pipe after the VERSION and sleeps; ends: it ends after the
                          VERSION with status 7; dies: by SIGKILL there; wrong: its third reply has a wrong id;
                          late: it takes two seconds for each reply but the VERSION; saves: it works for two seconds
                          after the end of its input and prints `saved` to standard error; floods: after the end of
                          its input it sends replies that nobody asked for, without end; endless: a packet without
                          end, as part of which its reply to a STAT begins; drips: a byte of its reply to a STAT ten
                          times a second; leaves: it ends, and a process that it leaves behind floods; crashes: by
                          SIGKILL at a STAT, with no reply; gives-up: there with status 9; half: there by SIGKILL in
                          the middle of its reply
"""
import os
import signal
import struct
import sys
import time

BLOCK = bytes(range(256)) * 128


def read_exactly(count):
    data = b""
    while len(data) < count:
        piece = os.read(0, count - len(data))
        if not piece:
            return None
        data += piece
    return data


def packet(kind, body):
    return struct.pack(">IB", len(body) + 1, kind) + body


def answer(request):
    number = request[1:5]
    if request[0] == 1:
        return packet(2, struct.pack(">I", 3))
    if request[0] == 5:
        return packet(103, number + struct.pack(">I", len(BLOCK)) + BLOCK)
    return packet(101, number + bytes(12))


def write_all(data):
    while data:
        data = data[os.write(1, data):]


def behave(words):
    """What a word asks for once the VERSION is sent."""
    if "ends" in words:
        sys.exit(7)
    if "dies" in words:
        os.kill(os.getpid(), signal.SIGKILL)
    for word, number in (("closes-input", 0), ("closes-output", 1)):
        if word in words:
            os.close(number)
            time.sleep(1000)


def work(seconds):
    end = time.monotonic() + seconds
    while time.monotonic() < end:
        pass


def go_on(piece, pause=0.0):
    """Sends this without end, also if nobody takes it."""
    signal.signal(signal.SIGPIPE, signal.SIG_IGN)
    while True:
        try:
            write_all(piece)
        except OSError:
            time.sleep(0.01)
        time.sleep(pause)


def end_at_stat(words, reply):
    """What a word asks for in place of the reply to a STAT."""
    if "half" in words:
        write_all(reply[:-3])
    if {"crashes", "half"} & set(words):
        os.kill(os.getpid(), signal.SIGKILL)
    if "gives-up" in words:
        sys.exit(9)


def end_badly(words):
    """What a word asks for once the input has ended."""
    if "leaves" in words:
        if os.fork():
            os._exit(0)
        os.setsid()
    if {"floods", "leaves"} & set(words):
        go_on(packet(101, bytes(16)))


def main(words):
    if not {"stays", "ignores"} & set(words):
        signal.signal(signal.SIGPIPE, signal.SIG_DFL)
    if "ignores" in words:
        signal.signal(signal.SIGTERM, signal.SIG_IGN)
    count = 0
    while True:
        head = read_exactly(4)
        request = head and read_exactly(struct.unpack(">I", head)[0])
        if not request:
            break
        count += 1
        if request[0] == 17 and "endless" in words:
            go_on(b"\xff" * 4096)
        if request[0] == 17 and "drips" in words:
            write_all(bytes.fromhex("0003ffff65"))
            go_on(b"x", 0.1)
        reply = answer(request)
        if request[0] == 17:
            end_at_stat(words, reply)
        if "wrong" in words and count == 4:
            reply = reply[:5] + b"\xff\xff\xff\xfe" + reply[9:]
        if "late" in words and count > 1:
            time.sleep(2)
        try:
            write_all(reply)
        except BrokenPipeError:
            break
        if count == 1:
            behave(words)
    end_badly(words)
    if "saves" in words:
        work(2)
        print("saved", file=sys.stderr)
    while "stays" in words or "ignores" in words:
        time.sleep(1000)


main(sys.argv[1:])
