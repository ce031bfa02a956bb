#!/usr/bin/env python3
"""Writes a message file of about as many MiB as asked: answers, texts and control messages, from a fixed seed.

They are from hosts 1 to 63, or 1 to the second number. The file has version 1, or the version in the third number: in
version 2 the same messages all arrive at host 1."""
import argparse
import random
import struct
import sys

COMMANDS = [
    lambda r: b"\x00",
    lambda r: struct.pack(">BIIB", 1, 2 * r.randrange(1 << 31), 2 * r.randrange(1 << 31) + 1, r.randrange(2, 72)),
    lambda r: struct.pack(">BIIB", 2, 2 * r.randrange(1 << 31) + 1, 2 * r.randrange(1 << 31), 8),
    lambda r: struct.pack(">BII", 3, r.randrange(1 << 32), r.randrange(1 << 32)),
    lambda r: struct.pack(">BBHI", 4, r.randrange(2, 72), r.randrange(1 << 16), r.randrange(1 << 20)),
    lambda r: struct.pack(">BBBB", 5, r.randrange(2, 72), r.randrange(129), r.randrange(129)),
    lambda r: struct.pack(">BBHI", 6, r.randrange(2, 72), r.randrange(1 << 16), r.randrange(1 << 20)),
    lambda r: struct.pack(">BB", 7, r.randrange(2, 72)),
    lambda r: struct.pack(">BB", 8, r.randrange(2, 72)),
    lambda r: struct.pack(">BB", 9, r.randrange(256)),
    lambda r: struct.pack(">BB", 10, r.randrange(256)),
    lambda r: struct.pack(">BB", 11, r.randrange(1, 6)) + r.randbytes(10),
    lambda r: b"\x0c",
    lambda r: b"\x0d",
]


def leader(kind, host, link):
    return bytes([kind, host, link, 0])


def record(message):
    return struct.pack(">H", 8 * len(message)) + message


def control(r, host):
    text = b""
    for _ in range(r.randrange(1, 9)):
        text += r.choice(COMMANDS)(r)
    return record(leader(0, host, 0) + struct.pack(">BBHB", 0, 8, len(text), 0) + text)


def text(r, host):
    count = r.choice((1, 2, 20, 80, 80, 400, 991))
    return record(leader(0, host, r.randrange(2, 72)) + struct.pack(">BBHB", 0, 8, count, 0) + r.randbytes(count))


def answer(r, host):
    return record(leader(r.choice((5, 5, 5, 5, 9, 7)), host, r.randrange(72)))


def main():
    parser = argparse.ArgumentParser(description=__doc__)
    parser.add_argument("size", type=int)
    parser.add_argument("hosts", type=int, nargs="?", default=63)
    parser.add_argument("version", type=int, nargs="?", default=1, choices=(1, 2))
    asked = parser.parse_args()
    if not 1 <= asked.hosts <= 255:
        parser.error("hosts are 1 to 255")
    size, hosts = asked.size << 20, asked.hosts
    header, place = (b"NCPJ", b"I\x01") if asked.version == 2 else (b"NCPI", b"")
    r = random.Random(1972)
    # In large blocks, as a copy is written: the kernel is slower to read data written in small ones.
    with open(sys.stdout.fileno(), "wb", buffering=1 << 20, closefd=False) as out:
        written = out.write(header)
        while written < size:
            host = r.randrange(1, hosts + 1)
            out.write(place)
            written += out.write(r.choice((control, text, text, answer, answer, answer))(r, host))


main()
