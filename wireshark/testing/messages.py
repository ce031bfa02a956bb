#!/usr/bin/env python3
"""Tests of wireshark/messages: cases by hand, captures of each link type, wrong and hostile input, times, and live."""
import argparse
import contextlib
import io
import os
import random
import re
import select
import shutil
import signal
import socket
import struct
import subprocess
import sys
import tempfile
import time
import tracemalloc

WIRESHARK = os.path.dirname(os.path.dirname(os.path.abspath(__file__)))
TOP = os.path.dirname(WIRESHARK)
sys.path.insert(0, WIRESHARK)
sys.path.insert(0, os.path.join(WIRESHARK, "testing"))
sys.path.insert(0, os.path.join(TOP, "bindings", "python"))
import datagrams as inverse
import ncp_lines
import records
import shark
from capture import lines, segments
from capture.counts import Counts, Stop
from capture.flows import Joiner
from capture.records import record
from capture.shark import Datagram, Lines

HOSTS = ["21001=1", "21003=2"]
NAMED = [word for host in HOSTS for word in ("--line", host)]
EPOCH = 89_245_800  # 29 October 1972, 22:30 UTC
RST, RRP = bytes.fromhex("0002000000080001000c"), bytes.fromhex("0002000000080001000d")
PATIENCE = 300  # seconds that a busy machine may take
RFNM, NOP = bytes.fromhex("05020000"), bytes.fromhex("04000000")
failures = []
printed = []  # by each run of wireshark/messages


def tell(what, wrong):
    print(f"{'DIFFERS' if wrong else 'ok'}: {what}", flush=True)
    for it in wrong[:5]:
        print(f"    {it}")
    failures.extend(wrong)


# ---------------------------------------------------------------- cases by hand


class Case:
    def __init__(self, text):
        title, *listed = text.splitlines()
        self.title = title.strip("[]")
        self.datagrams, self.wanted, self.counts = [], [(1, None, b"")], []
        for line in listed:
            line = line.partition(";")[0].rstrip()
            if line.startswith("= segment "):
                segment, reason = re.fullmatch(r"= segment (\d+): (.*)", line).groups()
                self.wanted.append((int(segment), reason, b""))
            elif line.startswith("="):
                segment, reason, data = self.wanted[-1]
                self.wanted[-1] = segment, reason, data + spelled(line[1:])
            elif line.startswith("- "):
                self.counts.append(line[2:])
            elif line and not line.startswith("#"):
                self.datagrams.append(self.datagram(*line.split(None, 1)))

    def datagram(self, ends, rest):
        is_cut = rest.startswith("cut ")
        source, sink = (f"127.0.0.1:{port}" for port in ends.split(">"))
        return Datagram(len(self.datagrams) * 10**6, (source, sink), spelled(rest[4:] if is_cut else rest), is_cut)


def spelled(text):
    """Bytes in hexadecimal digits, with `*N` for N bytes of zeros."""
    return bytes.fromhex(re.sub(r"\*(\d+)", lambda found: "00" * int(found[1]), text))


def cases():
    text = read(os.path.join(WIRESHARK, "testing", "datagrams.txt")).decode()
    return [Case(part) for part in re.split(r"^(?=\[)", text, flags=re.M)[1:]]


def made_of(datagrams, named=HOSTS):
    """Segments with their records, the counts, and the output."""
    tally, made = Counts(), [(1, None, b"")]
    with contextlib.redirect_stderr(io.StringIO()) as said:
        read_all(datagrams, named, tally, made)
    return made, [f"{count} {what}" for what, count in tally.times.items()], said.getvalue()


def read_all(datagrams, named, tally, made):
    def put(segment, reason, message):
        if segment != made[-1][0]:
            made.append((segment, reason, b""))
        made[-1] = segment, made[-1][1], made[-1][2] + record(*message.flow.side, message.words)

    who = lines.NamedLines(named, tally) if named else lines.GuessedLines(tally)
    joiner, parts = Joiner(who, tally), segments.Segments(put, is_live=False)
    for datagram in datagrams:
        message = joiner.take(datagram)
        for each in who.take(message) if message else ():
            parts.take(each)
    for each in who.end():
        parts.take(each)
    parts.end()


def test_cases():
    wrong, made = [], cases()
    for case in made:
        got, counted, _ = made_of(case.datagrams)
        if got != case.wanted:
            wrong.append((case.title, [(segment, reason, data.hex()) for segment, reason, data in got]))
        if counted != case.counts:
            wrong.append((case.title, counted))
    tell(f"{len(made)} cases of datagrams by hand: their records, segments and counts", wrong)


def test_fields():
    """Lines as tshark prints them, with the datagrams that they are: of one, of two in a frame, and of a tunnel."""
    nop = h316(0, NOP)
    text, colons = nop.hex(), ":".join(nop.hex()[place : place + 2] for place in range(0, 2 * len(nop), 2))
    one = ("127.0.0.1:21001", "127.0.0.1:21000")
    rows = [
        (f"1.000000001\t127.0.0.1\t\t21001\t127.0.0.1\t\t21000\t24\t{text}", [Datagram(1_000_000_001, one, nop, False)]),
        (f"1\t127.0.0.1\t\t21001\t127.0.0.1\t\t21000\t24\t{colons}", [Datagram(10**9, one, nop, False)]),
        (f"1.5\t127.0.0.1\t\t21001\t127.0.0.1\t\t21000\t26\t{text}", [Datagram(1_500_000_000, one, nop, True)]),
        (f"2.0\t\t::1\t21001\t\t::1\t21000\t24\t{text}", [Datagram(2 * 10**9, ("::1:21001", "::1:21000"), nop, False)]),
        (f"2.0\t127.0.0.1,127.0.0.2\t\t21001,21003\t127.0.0.1,127.0.0.2\t\t21000,21002\t24,24\t{text},{text}", [Datagram(2 * 10**9, one, nop, False), Datagram(2 * 10**9, ("127.0.0.2:21003", "127.0.0.2:21002"), nop, False)]),
        (f"2.0\t10.0.0.1,127.0.0.1\t\t21001\t10.0.0.2,127.0.0.1\t\t21000\t24\t{text}", [Datagram(2 * 10**9, one, nop, False)]),
    ]
    wrong = [(line, got) for line, wanted in rows if (got := list(Lines().datagrams(line.encode()))) != wanted]
    tunnel = f"2.0\t10.0.0.1,127.0.0.1\t\t9,21001\t10.0.0.2,127.0.0.1\t\t4789,21000\t60,24\t{'08' * 52},{text}"
    made, counted, _ = made_of(Lines().datagrams(tunnel.encode()))
    if made != [(1, None, bytes((0x48, 1, 0, 32)) + NOP)] or counted:
        wrong.append(("a tunnel over UDP", made, counted))
    tell(f"{len(rows) + 1} lines of fields", wrong)


# ---------------------------------------------------------------- guesses


class Net:
    """Datagrams of hosts whose numbers are not given: host H sends from port 20000 + 2 H to the port after it."""

    def __init__(self):
        self.datagrams, self.sequences = [], {}

    def goes(self, source, sink, words, address="127.0.0.1"):
        ends = f"{address}:{source}", f"{address}:{sink}"
        sequence = self.sequences.get(ends, 0)
        self.sequences[ends] = sequence + 1
        payload = b"H316" + struct.pack(">IHH", sequence, len(words) // 2, 3) + words
        self.datagrams.append(Datagram(len(self.datagrams) * 10**6, ends, payload, False))

    def out(self, host, words):
        self.goes(20000 + 2 * host, 20001 + 2 * host, words)

    def comes(self, host, words):
        self.goes(20001 + 2 * host, 20000 + 2 * host, words)

    def carried(self, sender, receiver, text):
        """A control message that is delivered, and its RFNM."""
        self.out(sender, bytes((0, receiver, 0, 0, 0, 8, 0, len(text), 0)) + text)
        self.comes(receiver, bytes((0, sender, 0, 0, 0, 8, 0, len(text), 0)) + text)
        self.comes(sender, bytes((5, receiver, 0, 0)))


def guessed(net):
    """The guess, as `--line` arguments, or why there is none."""
    try:
        made, counted, said = made_of(net.datagrams, named=None)
    except Stop as stop:
        return None, None, str(stop)
    return set(re.findall(r"guessed --line 127.0.0.1:(\S+)", said)), made, counted


def test_guesses():
    wrong = []

    def want(what, net, hosts, records_wanted=None, said=""):
        found, made, counted = guessed(net)
        if found != hosts or said not in str(counted):
            wrong.append((what, found, counted))
        if records_wanted is not None and (made is None or records.split(b"NCPJ" + made[0][2]) != records_wanted):
            wrong.append((what, made))

    rst, rfnm = bytes.fromhex("0005000000080001000c"), bytes.fromhex("05050000")
    came = bytes.fromhex("0003000000080001000c")
    net = Net()
    net.out(3, NOP)
    net.carried(3, 5, b"\x0c")
    want("two hosts", net, {"20006=3", "20010=5"}, [("H", 3, 32, NOP), ("H", 3, 80, rst), ("I", 5, 80, came), ("I", 3, 32, rfnm)])

    net = Net()
    for host in (3, 5):
        net.goes(31001, 31002, bytes((7, 77, host, 0)))  # a line between IMPs, whose words mean something else
        net.goes(31002, 31001, bytes((0, 3, 0, 0, 0, 8, 0, host, 0, 12)))
    net.carried(3, 5, b"\x0c")
    want("a modem line beside", net, {"20006=3", "20010=5"}, [("H", 3, 80, rst), ("I", 5, 80, came), ("I", 3, 32, rfnm)], said="4 messages of lines whose host could not be guessed")

    net = Net()
    for one, other in ((3, 5), (5, 3)):
        net.out(one, bytes((0, other, 0, 0, 0, 8, 0, 1, 0, 12)))  # both send RST at once
    for one, other in ((3, 5), (5, 3)):
        net.comes(one, bytes((0, other, 0, 0, 0, 8, 0, 1, 0, 12)))
        net.comes(one, bytes((5, other, 0, 0)))
    want("the same text from both", net, None, said="no host could be guessed")
    net.carried(3, 5, b"\x09\x07\x00")
    want("and then another", net, {"20006=3", "20010=5"})

    net = Net()
    net.out(3, bytes((0, 9, 0, 0, 0, 8, 0, 1, 0, 12)))  # to host 9, which is dead
    net.comes(5, bytes((0, 7, 0, 0, 0, 8, 0, 1, 0, 12)))  # from host 7, the only message from it
    net.comes(3, bytes((7, 9, 0, 0)))
    want("a message that looks like another", net, None, said="no host could be guessed")

    net = Net()
    net.carried(3, 5, b"\x0c")
    net.carried(3, 5, b"\x0d")
    net.out(8, bytes((0, 3, 0, 0, 0, 8, 0, 1, 0, 9)))  # the end 20016 sends as host 5, which is at 20010
    net.comes(3, bytes((0, 5, 0, 0, 0, 8, 0, 1, 0, 9)))
    net.comes(8, bytes((5, 3, 0, 0)))
    want("a contradiction", net, None, said="contradict each other")

    net = Net()
    for host in (3, 5):
        net.out(host, NOP)
    want("NOPs alone", net, None, said="no host could be guessed")

    net, tally = Net(), Counts()
    net.out(8, NOP)
    net.carried(3, 5, b"\x0c")
    who = lines.GuessedLines(tally)
    joiner = Joiner(who, tally)
    with contextlib.redirect_stderr(io.StringIO()):
        passed = [len(list(who.take(joiner.take(datagram)))) for datagram in net.datagrams]
    if passed != [0, 0, 0, 3]:
        wrong.append(("a line that says NOPs alone holds nothing back", passed))
    tell("hosts that are guessed, and such as cannot be", wrong)


def test_kept():
    """While hosts are unknown 64 MiB are buffered, in at most one and a half times the memory."""
    tally = Counts()
    who = lines.GuessedLines(tally)
    joiner, wrong, kept = Joiner(who, tally), [], 0
    words = bytes((0, 2, 0, 0, 0, 8, 3, 232, 0)) + bytes(1001)
    tracemalloc.start()
    try:
        for number in range(10**6):
            text = words[:-5] + struct.pack(">I", number) + b"\0"
            payload = b"H316" + struct.pack(">IHH", number, len(text) // 2, 3) + text
            message = joiner.take(Datagram(number, ("127.0.0.1:21001", "127.0.0.1:21000"), payload, False))
            list(who.take(message))
            kept += len(text)
        wrong.append("nothing stops it")
    except Stop as stop:
        if "name each by --line PORT=HOST" not in str(stop) or "64 MiB" not in str(stop):
            wrong.append(str(stop))
    peak = tracemalloc.get_traced_memory()[1]
    tracemalloc.stop()
    if not 30 * 2**20 < kept <= peak < 96 * 2**20:
        wrong.append((kept, peak))
    tell(f"while hosts are unknown {kept / 2**20:.0f} MiB of words are kept in {peak / 2**20:.0f} MiB, and then --line is asked for", wrong)


# ---------------------------------------------------------------- hostile datagrams


def hostile(dice, count):
    """Datagrams of few senders with numbers and words of chance."""
    made, ends = [], [("127.0.0.1:21001", "127.0.0.1:21000"), ("127.0.0.1:21000", "127.0.0.1:21001"), ("127.0.0.1:21003", "127.0.0.1:21002"), ("127.0.0.1:21002", "127.0.0.1:21003"), ("127.0.0.1:7", "127.0.0.1:8")]
    sequences = dict.fromkeys(ends, 0)
    for number in range(count):
        end = dice.choice(ends)
        sequences[end] = (sequences[end] + 1) % 2**32
        chance = dice.random()
        if chance < 0.02:
            sequences[end] = dice.choice([0, 1, 5, 2**31, 2**32 - 1, dice.randrange(2**32)])
        sequence = dice.randrange(2**32) if chance > 0.99 else sequences[end]
        words = dice.randbytes(2 * dice.choice([0, 1, 2, 2, 5, 5, 40, 600]))
        if dice.random() < 0.6:
            words = dice.choice([NOP, RST, RRP, RFNM, words])
        payload = b"H316" + struct.pack(">IHH", sequence, len(words) // 2 + (chance < 0.03), dice.choice([0, 2, 3, 3, 3, 3, 1, 65535])) + words
        made.append(Datagram(dice.randrange(-(10**12), 10**19), end, payload[: dice.choice([9999] * 50 + [3, 11])], dice.random() < 0.01))
    return made


def is_sound(data):
    """Whether records have no fault of a message file."""
    made = records.split(b"NCPJ" + data)
    return all(way in "HI" and bits <= 8192 and records.message(bits, message)[1] == message for way, _, bits, message in made)


def test_hostile(seeds):
    """For any input: no exception except Stop, valid records, and time linear in the datagrams."""
    wrong, total, stopped, begun = [], 0, 0, time.process_time()
    for seed in range(seeds):
        datagrams = hostile(random.Random(seed), 4000)
        total += len(datagrams)
        for named in (HOSTS, None):
            try:
                made, _, _ = made_of(datagrams, named)
            except Stop:
                stopped += 1
                continue
            wrong += [(seed, segment, data[:40].hex()) for segment, _, data in made if not is_sound(data)]
    # No message ever ends.
    tally = Counts()
    joiner = Joiner(lines.NamedLines(HOSTS, tally), tally)
    for sequence in range(5000):
        joiner.take(Datagram(0, ("127.0.0.1:21001", "127.0.0.1:21000"), h316(sequence, NOP if sequence % 2 else b"", 2), False))
    (flow,) = joiner.flows.values()
    if len(flow.parts) > 300:
        wrong.append(f"{len(flow.parts)} parts are kept")
    # Each gap of one of 500 senders affects all messages of the others since before it.
    senders = [(f"10.0.{host}.1:21001", f"10.0.{host}.1:21000") for host in range(250)]
    named = [f"10.0.{host}.1:21001={host}" for host in range(250)]
    slow = [Datagram(0, end, b"H316" + struct.pack(">IHH", 2 * turn + 2, 2, 3) + NOP, False) for turn in range(10) for pair in senders for end in (pair, pair[::-1])]
    total += len(slow)
    made_of(slow, named)
    seconds = time.process_time() - begun
    if seconds > total * 0.0005:
        wrong.append(f"{seconds:.0f} s")
    tell(f"{total} hostile datagrams of {seeds} seeds in {seconds:.0f} s of the processor, {stopped} readings stopped by a sentence", wrong)


def test_losses(seeds):
    """Recordings of honest hosts with lost datagrams: in no segment is a violation by a host reported."""
    wrong, lost, count = [], 0, 0
    for seed in range(seeds):
        dice = random.Random(seed)
        data = ncp("record", bytes(records.Script(seed)))[0]
        hosts = sorted({host for _, host, _, _ in records.split(data)})
        whole = list(inverse.datagrams(data, dice.choice([4, 30]), 20000))
        left = [each for each in whole if dice.random() > 0.01]
        lost += len(whole) - len(left)
        datagrams = [Datagram(0, (f"127.0.0.1:{source}", f"127.0.0.1:{sink}"), payload, False) for source, sink, payload in left]
        made, _, _ = made_of(datagrams, [f"{20000 + 2 * host}={host}" for host in hosts])
        count += len(made)
        for segment, _, part in made:
            found = ncp("audit", b"NCPJ" + part, "--standard", *(["--part"] if segment > 1 else []))[0].decode()
            wrong += [(seed, segment, line) for line in found.splitlines() if " imp " not in line]
    tell(f"{seeds} recordings of honest hosts without {lost} of their datagrams: no host is blamed in {count} segments", wrong + ([] if lost and count > seeds else ["nothing is lost"]))


def test_segments_stop():
    """A capture that has more holes than messages: its segments are bounded."""
    datagrams = [Datagram(0, ("127.0.0.1:21001", "127.0.0.1:21000"), b"H316" + struct.pack(">IHH", 2 * number, 5, 3) + RST, False) for number in range(3000)]
    try:
        made_of(datagrams)
        wrong = ["nothing stops it"]
    except Stop as stop:
        wrong = [] if "1000 segments" in str(stop) else [str(stop)]
    tell("a capture of holes is given up after 1,000 segments", wrong)


# ---------------------------------------------------------------- captures


def ncp(word, data, *more):
    done = subprocess.run([NCP, word, *more], input=data, capture_output=True)
    return done.stdout, done.stderr, done.returncode if word != "check" or done.returncode == 2 else 0


def read(path):
    with open(path, "rb") as file:
        return file.read()


class Folder:
    def __init__(self):
        self.folder = tempfile.TemporaryDirectory()
        self.path = self.folder.name

    def put(self, name, data, mode=None):
        path = os.path.join(self.path, name)
        with open(path, "wb") as file:
            file.write(data)
        if mode:
            os.chmod(path, mode)
        return path


def messages(*words, cwd=None, environment=None, stdin=subprocess.DEVNULL, data=None):
    """Runs wireshark/messages: its output, the lines on standard error, its status."""
    how = {"input": data} if data is not None else {"stdin": stdin}
    done = subprocess.run([sys.executable, "-B", os.path.join(WIRESHARK, "messages"), *words], capture_output=True, cwd=cwd or folder.path, env={**os.environ, "NCP": NCP, **(environment or {})}, timeout=600, **how)
    printed.append(done.stdout)
    return done.stdout.decode(), done.stderr.decode().splitlines(), done.returncode


def udp(source, sink, payload):
    return struct.pack(">HHHH", source, sink, 8 + len(payload), 0) + payload


def ipv4(body, protocol=17, fragment=0, identity=0):
    return struct.pack(">BBHHHBBH4s4s", 0x45, 0, 20 + len(body), identity, fragment, 64, protocol, 0, b"\x7f\0\0\1", b"\x7f\0\0\1") + body


def ipv6(body):
    return struct.pack(">IHBB", 0x60000000, len(body), 17, 64) + b"\0" * 15 + b"\1" + b"\0" * 15 + b"\1" + body


def h316(sequence, words, flags=3):
    return b"H316" + struct.pack(">IHH", sequence, len(words) // 2, flags) + words


ETHERNET = b"\2\0\0\0\0\1\2\0\0\0\0\2"
# Link types by number, and the bytes before an IPv4 packet.
LINKS = {
    "Ethernet": (1, lambda packet: ETHERNET + b"\x08\0" + packet),
    "VLAN": (1, lambda packet: ETHERNET + b"\x81\0\0\5\x08\0" + packet),
    "SLL": (113, lambda packet: b"\0\0\3\4\0\6" + bytes(8) + b"\x08\0" + packet),
    "SLL2": (276, lambda packet: b"\x08\0\0\0" + bytes(16) + packet),
    "raw": (101, lambda packet: packet),
    "IPv4": (228, lambda packet: packet),
    "null": (0, lambda packet: b"\2\0\0\0" + packet),
}


def pcapng(interfaces, packets):
    """A capture of packets (interface, microseconds since 1970, bytes, length on the wire), little endian."""
    parts = [inverse.block(0x0A0D0D0A, struct.pack("<IHHq", 0x1A2B3C4D, 1, 0, -1))]
    parts += [inverse.block(1, struct.pack("<HHI", link, 0, 0)) for link in interfaces]
    for interface, micros, data, length in packets:
        parts.append(inverse.block(6, struct.pack("<IIIII", interface, micros >> 32, micros & 0xFFFFFFFF, len(data), length) + data))
    return b"".join(parts)


def capture(packets):
    """A capture of IPv4 packets, a tenth of a second between them."""
    return pcapng([228], [(0, EPOCH * 10**6 + place * 100_000, packet, len(packet)) for place, packet in enumerate(packets)])


def talk():
    """Two hosts: an RST, its delivery, its RFNM; each a packet."""
    return [
        ipv4(udp(21001, 21000, h316(0, RST))),
        ipv4(udp(21002, 21003, h316(0, bytes.fromhex("0001000000080001000c")))),
        ipv4(udp(21000, 21001, h316(0, RFNM))),
    ]



def test_links():
    """The same message over each link type, in fragments, over IPv6, and quoted by an ICMP error, in one capture."""
    packets, wanted, named = [], b"NCPJ", []
    for host, (name, (link, front)) in enumerate(LINKS.items(), 1):
        packets.append((host - 1, front(ipv4(udp(22000 + host, 23000, h316(0, RST))))))
        wanted += bytes((0x48, host, 0, 80)) + RST
        named += ["--line", f"{22000 + host}={host}"]
    long = bytes.fromhex("000200000008") + (2 * 50).to_bytes(2, "big") + b"\0" + b"\0" * 101
    body = udp(22020, 23000, h316(0, long))
    for at in range(0, len(body), 64):
        packets.append((6, b"\2\0\0\0" + ipv4(body[at : at + 64], fragment=(0x2000 if at + 64 < len(body) else 0) | at // 8, identity=7)))
    wanted += bytes((0x48, 20)) + (872).to_bytes(2, "big") + long[:109]
    packets.append((4, ipv6(udp(22021, 23000, h316(0, RST)))))
    wanted += bytes((0x48, 21, 0, 80)) + RST
    quoted = ipv4(udp(22001, 23000, h316(1, RRP)))
    packets.append((5, ipv4(struct.pack(">BBHI", 3, 3, 0, 0) + quoted, protocol=1)))
    named += ["--line", "22020=20", "--line", "[::1]:22021=21"]
    data = pcapng([link for link, _ in LINKS.values()], [(interface, EPOCH * 10**6, packet, len(packet)) for interface, packet in packets])
    made = os.path.join(folder.path, "links.ncp")
    _, said, status = messages("-r", folder.put("links.pcapng", data), *named, "-w", made)
    got = read(made) if os.path.exists(made) else b""
    wrong = [] if (got, status) == (wanted, 0) else [(got.hex(), wanted.hex(), said, status)]
    tell(f"{len(LINKS)} link types, fragments, IPv6, and an ICMP error that quotes a datagram: the same records", wrong)


def test_times():
    """Each way to print times, before lines of show, audit and follow, by pcap of both orders, in nanoseconds too."""
    packets = [ipv4(udp(21001, 21000, h316(0, RST))), ipv4(udp(21000, 21001, h316(0, RFNM))), ipv4(udp(21001, 21000, h316(1, bytes.fromhex("00020100000800010061"))))]
    at = (1_000_000_000, 1_250_000_001, 12_000_000_999)

    def pcap(order, magic, unit):
        made = struct.pack(order + "IHHiIII", magic, 2, 4, 0, 0, 262144, 228)
        for nanos, packet in zip(at, packets):
            nanos += EPOCH * 10**9
            made += struct.pack(order + "IIII", nanos // 10**9, nanos % 10**9 // unit, len(packet), len(packet)) + packet
        return made

    wrong = []
    little, big = folder.put("micros.pcap", pcap("<", 0xA1B2C3D4, 1000)), folder.put("nanos.pcap", pcap(">", 0xA1B23C4D, 1))
    wanted = "0.000000 1 to-imp at=1 regular host=2 link=0\n0.000000   size=8 count=1\n0.000000   RST\n0.250000 2 from-imp at=1 rfnm host=2 link=0\n11.000000 3 to-imp at=1 regular host=2 link=1\n11.000000   size=8 count=1\n11.000000   text bits=8 61\n"
    rows = [((little, "show"), wanted), ((big, "show"), wanted)]
    rows.append(((big, "--time", "absolute", "audit"), "1972-10-29T22:30:12.000000Z 3 at=1 host=1 wrong-link link=1\n"))
    rows.append(((big, "--time", "since-last", "show"), wanted.replace("0.250000 2", "0.250000 2").replace("11.000000 3", "10.750000 3").replace("11.000000  ", "0.000000  ")))
    rows.append(((little, "check"), "messages=3 short=0 regular=2 faults=0 bad=0\n"))
    for (path, *words), lines_wanted in rows:
        got, said, status = messages("-r", path, "--line", "21001=1", *words)
        if got != lines_wanted:
            wrong.append((words, got, said, status))
    tell("times since the start and the last line, absolute and none; pcap of both orders", wrong)


def test_verdicts():
    """A capture with a gap: what each subcommand prints of its segments, the files, and the statuses."""
    strs = bytes.fromhex("0002000000 08000a00 02 00000003 00000002 08 00")
    begins = [
        ipv4(udp(21001, 21000, h316(0, RST))),
        ipv4(udp(21000, 21001, h316(0, RFNM))),
        ipv4(udp(21000, 21001, h316(1, RRP))),
    ]
    opens = [
        ipv4(udp(21001, 21000, h316(1, strs))),
        ipv4(udp(21000, 21001, h316(2, RFNM))),
        ipv4(udp(21000, 21001, h316(3, bytes.fromhex("0002000000 08000a00 01 00000002 00000003 02 00")))),
    ]
    after = [
        ipv4(udp(21001, 21000, h316(2, NOP))),
        ipv4(udp(21001, 21000, h316(5, bytes.fromhex("00020200 00080001 00 60")))),
        ipv4(udp(21001, 21000, h316(6, bytes.fromhex("00020200 00080001 00 61")))),
        ipv4(udp(21000, 21001, h316(4, bytes.fromhex("05020500")))),  # to what may be lost: by --part it is no stray
    ]
    path = folder.put("gap.pcapng", capture(begins + opens + after))
    wrong = []

    def want(words, lines_wanted, status_wanted, said_wanted=()):
        got, said, status = messages("-r", path, "--line", "21001=1", *words)
        if got != lines_wanted or status != status_wanted or any(line not in said for line in said_wanted):
            wrong.append((words, got, said, status))

    counted = ("messages: 10 datagrams, 10 messages, 2 segments", "messages: 2 datagrams lost")
    want(("follow",), "0.500000 1 at=1 host=2 send local=3 remote=2 link=2 size=8 opened=6 ended=- by=end messages=0 bits=0 late=0 granted=0/0 returned=0/0\n0.500000   text bits=0\nsegment 2 at 0.700000: 2 datagrams lost\n- - at=1 host=2 sent=2/16 came=0/0\n", 0, counted)
    want(("audit", "--standard"), "segment 2 at 0.700000: 2 datagrams lost\n0.800000 2 at=1 host=1 occupied link=2\n", 1, counted)
    want(("check",), "messages=7 short=0 regular=4 faults=0 bad=0\nsegment 2 at 0.700000: 2 datagrams lost\nmessages=3 short=0 regular=2 faults=0 bad=0\n", 0)
    want(("-w", "gap.ncp"), "", 0, ("messages: segment 2 at 0.700000: 2 datagrams lost: gap.2.ncp",))
    first = ncp("check", read(os.path.join(folder.path, "gap.ncp")))[0]
    second = read(os.path.join(folder.path, "gap.2.ncp"))
    if first != b"messages=7 short=0 regular=4 faults=0 bad=0\n" or second != bytes.fromhex("4e43504a 48010050 00020200000800010060 48010050 00020200000800010061 49010020 05020500"):
        wrong.append((first, second.hex()))
    tell("a gap: lines, files and statuses of its segments; follow has the time of opened=", wrong)


def test_wrong_input():
    """Each wrong input gives its message, status 2, and the output before it."""
    wrong = []
    good = folder.put("good.pcapng", capture(talk()))

    def want(what, words, sentence, status=2, output="", **how):
        got, said, ended = messages(*words, **how)
        if ended != status or got != output or not any(sentence in line for line in said) or any("Traceback" in line for line in said):
            wrong.append((what, got, said, ended))

    check = "messages=3 short=0 regular=2 faults=0 bad=0\n"
    for word, sentence in (("0=1", "a port from 1 to 65535"), ("x=1", "a port from 1"), ("65536=1", "a port from 1"), ("21001=256", "a host from 0 to 255"), ("21001=", "a host from 0"), ("21001", "PORT=HOST is wanted")):
        want(word, ("-r", good, "--line", word, "check"), sentence)
    want("a host on two lines", ("-r", good, "--line", "21001=1", "--line", "21003=1", "check"), "host 1 is on two lines")
    want("a port twice", ("-r", good, "--line", "21001=1", "--line", "21001=2", "check"), "21001 is named twice")
    want("nothing to read", ("check",), "-r FILE or -i INTERFACE is wanted")
    want("nothing to do", ("-r", good), "either -w FILE or one of show, check, follow, audit is wanted")
    want("two things to do", ("-r", good, "-w", "x.ncp", "check"), "either -w FILE or one of")
    want("another subcommand", ("-r", good, "convert"), "convert: one of show")
    want("a file for ncp", ("-r", good, "audit", "x.ncp"), "only options of ncp stand here")
    want("bytes", ("-r", good, "follow", "--bytes=1"), "only options of ncp stand here")
    want("no file", ("-r", "nosuch", "check"), "cannot open 'nosuch': No such file or directory")
    want("no folder to write", ("-r", good, *NAMED, "-w", "nosuch/x.ncp"), "cannot write nosuch/x.ncp: No such file or directory")
    want("no tshark", ("-r", good, *NAMED, "check"), "tshark is not found", environment={"PATH": folder.path})
    want("no dumpcap", ("-i", "lo", *NAMED, "check"), "dumpcap is not found", environment={"PATH": folder.path})
    stubs = os.path.join(folder.path, "stubs")
    os.makedirs(stubs, exist_ok=True)
    here = {"PATH": stubs + os.pathsep + os.environ["PATH"]}
    folder.put("stubs/dumpcap", b"#!/bin/sh\necho \"dumpcap: You do not have permission to capture on device 'lo'.\" >&2\nexit 1\n", 0o755)
    want("no right by dumpcap", ("-i", "lo", *NAMED, "check"), "in the group wireshark", environment=here)
    folder.put("stubs/dumpcap", b"", 0o644)
    want("no right to run dumpcap", ("-i", "lo", *NAMED, "check"), "in the group wireshark", environment={"PATH": stubs})
    want("no such interface", ("-i", "nosuch0", *NAMED, "check"), "dumpcap: ")
    want("no capture", ("-r", folder.put("text", b"no capture at all, but a text\n"), *NAMED, "check"), "this is no capture that tshark reads")
    want("nothing of H316", ("-r", folder.put("other.pcapng", capture([ipv4(udp(53, 5353, b"something"))])), *NAMED, "check"), "no datagram of a simulated host interface (H316)")
    want("a capture that is cut", ("-r", folder.put("cut.pcapng", capture(talk() + [ipv4(udp(21001, 21000, h316(number, NOP))) for number in (1, 2)])[:-20]), *NAMED, "check"), "ends inside a packet", output="messages=4 short=0 regular=2 faults=0 bad=0\n")
    want("both ends", ("-r", good, "--line", "21001=1", "--line", "21000=2", "check"), "both ends of a line are named as hosts")
    want("swapped", ("-r", good, "--line", "21000=1", "check"), "127.0.0.1:21000 sends what only an IMP sends: is 127.0.0.1:21001 the port of host 1?", 0, "messages=2 short=0 regular=1 faults=0 bad=0\n")
    want("a port that is not there", ("-r", good, *NAMED, "--line", "9999=9", "check"), "no datagram of 9999, which is named as host 9", 0, check)
    want("a guess", ("-r", good, "check"), "guessed --line 127.0.0.1:21001=1", 0, check)
    want("one line alone", ("-r", folder.put("one.pcapng", capture([talk()[0], talk()[2]])), "check"), "no host could be guessed")
    snapped = pcapng([228], [(0, EPOCH * 10**6, packet[:44], len(packet)) for packet in talk()])
    want("a snap length", ("-r", folder.put("snap.pcapng", snapped), *NAMED, "check"), "2 datagrams that the snap length cut", 0, "messages=1 short=0 regular=0 faults=0 bad=0\n")
    want("no ncp", ("-r", good, *NAMED, "check"), "cannot run nosuch/ncp", environment={"NCP": "nosuch/ncp"})
    tell("wrong input: a sentence each, and status 2 if it stops the reading", wrong)


def test_names():
    """Names of files are no options, and an installed plugin is not loaded."""
    marker = os.path.join(folder.path, "marker")
    evil = f"io.open('{marker}', 'w'):close()\n".encode()
    folder.put("evil.lua", evil)
    names = ["-Xlua_script:evil.lua", "x -Xlua_script:evil.lua y.pcapng", "$(touch marker)", "--line"]
    wrong = []
    for name in names:
        folder.put(name, capture(talk()))
        got, said, status = messages(f"-r{name}" if name.startswith("-") else "-r", *([] if name.startswith("-") else [name]), *NAMED, "check")
        if got != "messages=3 short=0 regular=2 faults=0 bad=0\n" or status:
            wrong.append((name, got, said, status))
    plugins = os.path.join(folder.path, "home", ".local", "lib", "wireshark", "plugins")
    os.makedirs(plugins)
    folder.put("home/.local/lib/wireshark/plugins/evil.lua", evil)
    home = {"HOME": os.path.join(folder.path, "home"), "XDG_CONFIG_HOME": os.path.join(folder.path, "home", ".config")}
    messages("-r", folder.put("good.pcapng", capture(talk())), *NAMED, "check", environment=home)
    if os.path.exists(marker):
        wrong.append("a script of a stranger was run")
    tell(f"{len(names)} names of files that look like options, and an installed plugin: none does anything", wrong)


def test_inverse():
    """Recordings and generated records as datagrams, and back: the same bytes; with padding if no size and count show the end of a text."""
    wrong, total = [], 0
    for name, data in [(name, ncp("record", read(os.path.join(TOP, "examples", name)))[0]) for name in ("three_hosts.script", "lost_twice.script")] + [("generated", records.a_file("j", 20000, 88))]:
        hosts = sorted({host for _, host, _, _ in records.split(data)})
        made = list(inverse.datagrams(data, 4, 20000))
        named = [word for host in hosts for word in ("--line", f"{20000 + 2 * host}={host}")]
        path = folder.put("inverse.pcapng", inverse.pcapng([inverse.packet(*datagram) for datagram in made], EPOCH))
        back = os.path.join(folder.path, "inverse.ncp")
        _, said, status = messages("-r", path, *named, "-w", back)
        got = records.split(read(back)) if os.path.exists(back) else []
        wanted = [(way, host, *padded(bits, message)) for way, host, bits, message in records.split(data) if bits]
        wrong += [(name, one, other) for one, other in zip(got, wanted) if one != other]
        if len(got) != len(wanted) or status or name != "generated" and read(back) != data:
            wrong.append((name, len(got), len(wanted), said, status))
        total += len(made)
    tell(f"recordings and 20,000 generated records as {total} datagrams, and back", wrong)


def padded(bits, message):
    """The rest of a message padded to whole words: with the padding, except for a regular message whose text ends there."""
    whole = -(-bits // 16) * 16
    if len(message) >= 9 and message[0] % 16 == 0:
        end = 72 + message[5] * int.from_bytes(message[6:8], "big")
        if end < whole <= end + 52:
            return records.message(end, message.ljust(whole // 8, b"\0")[: -(-end // 8)])
    return whole, message.ljust(whole // 8, b"\0")


# ---------------------------------------------------------------- the plugin


def shown(data):
    """The lines of `ncp show`, record by record, without their numbers."""
    made = []
    for line in ncp("show", data)[0].decode().splitlines():
        if line.startswith("  "):
            made[-1].append(line)
        else:
            made.append([line.split(" ", 1)[1]])
    return made


def test_plugin():
    """The plugin joins the same messages in each case, and reports why it does not join others."""
    home = shark.Shark()
    # A line of the plugin is not bound to the IMP's port, and its messages have their padding.
    made = [case for case in cases() if not case.title.startswith(("a stranger", "8,192 bits"))]
    packets, wrong = [], []
    for number, case in enumerate(made):
        for datagram in case.datagrams:
            source, sink = (int(lines.port_of(end)) for end in datagram.ends)
            cut = 12 + 2 * int.from_bytes(datagram.payload[8:10], "big") - len(datagram.payload) if datagram.is_cut else 0
            packet = bytearray(ipv4(udp(source, sink, datagram.payload + bytes(cut))))
            packet[12:16] = packet[16:20] = bytes((10, 0, 0, number))
            packets.append((number, bytes(packet), cut))
    data = pcapng([228], [(0, EPOCH * 10**6, packet[: len(packet) - cut], len(packet)) for _, packet, cut in packets])
    frames, complaints = home.frames(folder.put("cases.pcapng", data), "-o", "h316.hosts:21001=1 21003=2")
    wrong += complaints
    for number, case in enumerate(made):
        mine = [frame for frame, (which, _, _) in zip(frames, packets) if which == number and frame["ncp1822.bits"]]
        got = [[line if line.startswith("  ") else line.split(" ", 1)[1] for line in shark.lines_of(frame)] for frame in mine]
        wanted = shown(b"NCPJ" + b"".join(data for _, _, data in case.wanted))
        if got != wanted:
            wrong.append((case.title, got, wanted))
        extras = [found for frame in mine for found in re.findall("extras ([^,]*)", frame["ahhp.finding"])]
        if extras != (["flags=0 low=0 text=3 rest=53"] if case.title.startswith("52 bits") else []):
            wrong.append((case.title, extras))
    if len(frames) != len(packets):
        wrong.append((len(frames), len(packets)))
    tell(f"{len(made)} cases by hand in the plugin: the same messages, and no finding of padding up to 52 bits", wrong)
    wrong = []
    for hosts, wanted in (("21000=1", "Only an IMP sends this"), ("31001=1", "")):
        stdout, _, _ = home.run("-r", folder.put("good.pcapng", capture(talk())), "-o", f"h316.hosts:{hosts}", "-T", "fields", "-E", "separator=|", "-e", "ncp1822.name", "-e", "_ws.expert.message")
        got = stdout.splitlines()
        if hosts == "21000=1" and (not got[2].startswith("type-5|") or wanted not in got[2] or wanted in got[0]):
            wrong.append((hosts, got))
        if hosts == "31001=1" and got != ["|"] * 3:
            wrong.append((hosts, got))
    cut = [line for line in home.run("-r", os.path.join(folder.path, "cases.pcapng"), "-Y", "h316.cut", "-T", "fields", "-e", "frame.number")[0].splitlines()]
    if len(cut) != 1 or not packets[int(cut[0]) - 1][2]:
        wrong.append(("cut", cut))
    tell("the plugin: a hint if sides are swapped, ports that are not named, what the snap length cut", wrong)


# ---------------------------------------------------------------- live


def page_commands():
    """The commands of docs/WIRESHARK.md, section Live, without the prompt."""
    page = read(os.path.join(TOP, "docs", "WIRESHARK.md")).decode()
    section = page.split("\n## Live\n", 1)[1].split("\n## ", 1)[0]
    return re.findall(r"^\$ (.*)$", section, re.M)


class Live:
    """A command of the page in a shell of its own."""

    def __init__(self, command):
        self.said = open(os.path.join(folder.path, f"said{id(self)}"), "w+b")
        self.shell = subprocess.Popen(["sh", "-c", command], cwd=TOP, env={**os.environ, "NCP": NCP}, stdin=subprocess.DEVNULL, stdout=subprocess.PIPE, stderr=self.said, start_new_session=True)

    def line(self, seconds):
        """The next line, if one arrives within this many seconds."""
        ready, _, _ = select.select([self.shell.stdout], [], [], seconds)
        return self.shell.stdout.readline().decode() if ready else ""

    def end(self):
        """Interrupts it, as Ctrl-C does: its remaining output on standard output and standard error."""
        os.killpg(self.shell.pid, signal.SIGINT)
        try:
            printed = self.shell.communicate(timeout=PATIENCE)[0].decode()
        finally:
            with contextlib.suppress(ProcessLookupError):
                os.killpg(self.shell.pid, signal.SIGKILL)
        self.said.seek(0)
        return printed, self.said.read().decode()


def captures_running():
    """How many sockets capture on this machine."""
    return len(read("/proc/net/packet").splitlines()) - 1


def live(commands):
    """The commands, once they capture."""
    before = captures_running()
    running = [Live(command) for command in commands]
    begun = time.monotonic()
    while captures_running() < before + len(commands) and time.monotonic() < begun + PATIENCE:
        time.sleep(0.05)
    time.sleep(1)
    return running


def build():
    """The example's host and IMP, over the prebuilt library."""
    made = []
    for name in ("h316", "h316_imp"):
        made.append(os.path.join(folder.path, name))
        subprocess.run(["cc", "-O1", "-I" + os.path.join(TOP, "include"), "-o", made[-1], os.path.join(TOP, "examples", "embed", name + ".c"), os.path.join(TOP, "prebuilt", "libncp.a")], check=True)
    return made


def start(*words):
    return subprocess.Popen([str(word) for word in words], stdout=subprocess.DEVNULL, stderr=subprocess.DEVNULL)


def test_live_text(commands, host, imp):
    """The hosts and the IMP of the example: follow prints the text at both, audit finds nothing, show prints with the time of day."""
    follow, audit, show = running = live(commands)
    programs = [start(imp, 21000, 21001, 21002, 21003), start(host, 2, 1, 21003, 21002), start(host, 1, 2, 21001, 21000)]
    wrong = [program.args for program in programs if program.wait(PATIENCE)]
    time.sleep(2)
    (followed, *said), (found, *_), (shown_lines, *_) = [each.end() for each in running]
    text = bytes(place % 256 for place in range(500)).hex()
    wanted = [("at=1 host=2 send local=3 remote=2", f"  text bits=4000 {text}"), ("at=2 host=1 receive local=2 remote=3", f"  text bits=4000 {text}")]
    got = followed.splitlines()
    pairs = sorted((re.search(r"at=.* remote=\d", one)[0] if "remote" in one else one, other.partition(" ")[2]) for one, other in zip(got[::2], got[1::2]))
    if pairs != wanted:
        wrong.append((got, said))
    if found:
        wrong.append(found)
    today = time.strftime("%Y-%m-%dT%H:", time.gmtime())
    lines_shown = shown_lines.splitlines()
    if not lines_shown or not all(re.match(r"\d{4}-\d\d-\d\dT\d\d:\d\d:\d\d\.\d{6}Z ", line) for line in lines_shown) or not lines_shown[-1].startswith(today[:11]):
        wrong.append(lines_shown[:3])
    if sum(" type-10 " in line for line in lines_shown) != 2 or sum(line.endswith(" rfnm host=2 link=2") for line in lines_shown) != 1:
        wrong.append([line for line in lines_shown if "text" not in line])
    tell("live: follow prints the text of the example's hosts, audit nothing, show each message", wrong)


def test_live_fault(command, host, imp):
    """A fault is printed while the hosts still run."""
    wrong, programs = [], []
    (audit,) = live([command])
    with socket.socket(socket.AF_INET, socket.SOCK_DGRAM) as door:
        door.bind(("127.0.0.1", 21001))
        door.settimeout(0.2)
        sequence = iter(range(10**6))

        def send(words):
            with contextlib.suppress(ConnectionRefusedError):
                door.sendto(h316(next(sequence), words), ("127.0.0.1", 21000))

        send(bytes.fromhex("00020100 00080001 00 61"))  # a text on link 1: nobody is there yet, and all programs are waited for
        if "wrong-link link=1\n" not in audit.line(PATIENCE):
            wrong.append("nothing is found")
        programs += [start(imp, 21000, 21001, 21002, 21003), start(host, 2, 1, 21003, 21002)]
        for _ in range(100):
            send(NOP)
            with contextlib.suppress(TimeoutError, ConnectionRefusedError):
                if door.recv(99):
                    break
        begun = time.monotonic()
        send(bytes.fromhex("00026400 00080001 00 61"))  # and one on link 100
        line = audit.line(PATIENCE)
        delay = time.monotonic() - begun
        if "at=1 host=1 wrong-link link=100\n" not in line or any(program.poll() is not None for program in programs):
            wrong.append((line, [program.poll() for program in programs]))
    for program in programs:
        program.kill()
        program.wait()
    audit.end()
    tell(f"live: a fault is printed {delay:.2f} s after its datagram, while the hosts run", wrong)


def test_live():
    commands = page_commands()
    if len(commands) != 3:
        tell("the page has three commands", commands)
        return
    if not shutil.which("cc"):
        print("messages: the live tests are left out: there is no C compiler")
    elif subprocess.run(["dumpcap", "-q", "-i", "lo", "-c", "1", "-a", "duration:1", "-w", os.devnull], capture_output=True).returncode:
        print("messages: the live tests are left out: there is no right to capture")
    else:
        host, imp = build()
        test_live_text(commands, host, imp)
        test_live_fault(next(command for command in commands if " audit" in command), host, imp)


# ---------------------------------------------------------------- objects


def test_objects():
    """All that was printed is objects, with times and segments, and goes back to the same bytes."""
    wrong, made = [], []
    for text in printed:
        found = list(ncp_lines.read(text))
        made += found
        wrong += [it for it in found if "line" in it or "bytes" in it]
        if b"".join(map(ncp_lines.lines_of, found)) != text:
            wrong.append(text)
    times = {type(it["time"]).__name__ for it in made if "time" in it}
    if times != {"float", "str", "NoneType"} or not any("segment" in it for it in made) or not any("detail_time" in it for it in made):
        wrong.append((times, len(made)))
    tell(f"{sum(len(text.splitlines()) for text in printed)} lines that were printed, as {len(made)} objects and back", wrong)


def main():
    global NCP, folder
    words = argparse.ArgumentParser(description=__doc__)
    words.add_argument("program", help="the path of ncp")
    words.add_argument("--long", action="store_true")
    chosen = words.parse_args()
    NCP, folder = os.path.abspath(chosen.program), Folder()
    test_cases()
    test_fields()
    test_guesses()
    test_kept()
    test_hostile(20 if chosen.long else 3)
    test_losses(50 if chosen.long else 5)
    test_segments_stop()
    test_links()
    test_times()
    test_verdicts()
    test_wrong_input()
    test_names()
    test_inverse()
    test_objects()
    test_plugin()
    test_live()
    print(f"{len(failures)} of what was compared differ" if failures else "all is the same")
    return 1 if failures else 0


if __name__ == "__main__":
    sys.exit(main())
