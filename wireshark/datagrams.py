#!/usr/bin/env python3
"""Writes the messages of a message file of version 2 as datagrams of simulated host interfaces, in a pcapng file with times.

    datagrams.py [--words N] [--port P] < FILE.ncp > FILE.pcapng

The host with number H sends from port P + 2 H to port P + 2 H + 1, the port of its IMP, all on 127.0.0.1. A message is
sent in datagrams of at most N words of 16 bits (30 by default), padded with zeros to whole words. The first message has
the time 29 October 1972, 22:30 UTC, and each datagram is a hundredth of a second after the last. With `--send` the
datagrams are sent at full speed instead, to be captured on the loopback interface.

Prints on standard error the preference with the ports of the hosts for the dissector.
"""
import argparse
import os
import socket
import struct
import sys

sys.path.insert(0, os.path.join(os.path.dirname(os.path.abspath(__file__)), "testing"))
import records

FINAL, READY = 1, 2
BEGIN = 89_245_800  # 29 October 1972, 22:30 UTC
LINK_TYPE_IPV4 = 228


def datagrams(data, words, port):
    """Source port, destination port and bytes of each datagram."""
    sequences = {}
    for direction, host, bits, message in records.split(data):
        message += b"\0" * (len(message) % 2)
        ports = (port + 2 * host, port + 2 * host + 1)
        source, sink = ports if direction == "H" else ports[::-1]
        pieces = [message[at : at + 2 * words] for at in range(0, len(message), 2 * words)] or [b""]
        for i, piece in enumerate(pieces):
            flags = READY | (FINAL if i == len(pieces) - 1 else 0)
            sequence = sequences.get(source, 0)
            sequences[source] = sequence + 1
            yield source, sink, b"H316" + struct.pack(">IHH", sequence, len(piece) // 2, flags) + piece


def packet(source, sink, payload):
    """A UDP datagram in an IPv4 packet over the loopback, without checksum."""
    udp = struct.pack(">HHHH", source, sink, 8 + len(payload), 0) + payload
    head = struct.pack(">BBHHHBBH4s4s", 0x45, 0, 20 + len(udp), 0, 0, 64, 17, 0, b"\x7f\0\0\1", b"\x7f\0\0\1")
    total = sum(struct.unpack(">10H", head))
    total = (total & 0xFFFF) + (total >> 16)
    head = head[:10] + struct.pack(">H", ~(total + (total >> 16)) & 0xFFFF) + head[12:]
    return head + udp


def block(kind, body):
    """A block of a pcapng file."""
    body += b"\0" * (-len(body) % 4)
    return struct.pack("<II", kind, len(body) + 12) + body + struct.pack("<I", len(body) + 12)


def blocks(packets, begin, link_type=LINK_TYPE_IPV4):
    """The blocks of a capture of these packets, the first `begin` seconds after the beginning of 1970."""
    yield block(0x0A0D0D0A, struct.pack("<IHHq", 0x1A2B3C4D, 1, 0, -1))
    yield block(1, struct.pack("<HHI", link_type, 0, 0))
    for i, data in enumerate(packets):
        micros = begin * 1_000_000 + i * 10_000
        yield block(6, struct.pack("<IIIII", 0, micros >> 32, micros & 0xFFFFFFFF, len(data), len(data)) + data)


def pcapng(packets, begin, link_type=LINK_TYPE_IPV4):
    """A capture of these packets."""
    return b"".join(blocks(packets, begin, link_type))


def main():
    words = argparse.ArgumentParser(description=__doc__, formatter_class=argparse.RawDescriptionHelpFormatter)
    words.add_argument("--words", type=int, default=30, help="most words of a datagram")
    words.add_argument("--port", type=int, default=20000, help="the port behind which those of the hosts stand")
    words.add_argument("--send", action="store_true", help="send them in place of writing a file")
    chosen = words.parse_args()
    data = sys.stdin.buffer.read()
    if data[:4] != b"NCPJ":
        sys.exit("datagrams: no message file of version 2")
    hosts = sorted({host for _, host, _, _ in records.split(data)})
    print("-o 'h316.hosts:%s'" % " ".join("%d=%d" % (chosen.port + 2 * host, host) for host in hosts), file=sys.stderr)
    made = list(datagrams(data, chosen.words, chosen.port))
    if not chosen.send:
        sys.stdout.buffer.write(pcapng([packet(*datagram) for datagram in made], BEGIN))
        return
    doors = {}
    for source, sink, payload in made:
        if source not in doors:
            doors[source] = socket.socket(socket.AF_INET, socket.SOCK_DGRAM)
            doors[source].bind(("127.0.0.1", source))
        doors[source].sendto(payload, ("127.0.0.1", sink))


if __name__ == "__main__":
    main()
