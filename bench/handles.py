"""The library for C: texts that arrive, are answered and sent, with many hosts in one process, and the memory for a peer."""
import functools
import os
import subprocess
import sys

from measuring import HERE, TOP, Row, instructions, least, prebuilt, resident

COUNT, FEW = 100_000, 8_000
MANY = ((125, 8), (1_000, 1))  # hosts, and the peers of each
SHAPES = ((1, 1), (1, 8), *MANY)
STATES = [("make", "made"), ("open", "open")]
MOST_PEERS = 8
# The blocks of a new host, in bytes: its own, and these for each peer. The peers themselves are together in one block.
HOST, PEER = 64, 2_560
ROOMS = [
    ("slots, 71 with room for a message", 71 * 1_048),
    ("entries, room for 128", 128 * 96),
    ("commands that wait, room for 512", 512 * 16),
    ("errors, room for 16", 16 * 11),
]
WRAPPED = "-Wl," + ",".join(f"--wrap={name}" for name in ("malloc", "realloc", "free"))


@functools.cache
def library(room):
    """The archive of these sources: that of prebuilt/, or else it is proved and built."""
    if archive := prebuilt("libncp.a"):
        return archive
    if subprocess.run([os.path.join(TOP, "include", "library"), room], stdout=subprocess.DEVNULL).returncode:
        sys.exit("the library for C was not built")
    return os.path.join(room, "libncp.a")


@functools.cache
def linked(archive, room):
    """The program over an archive."""
    path = os.path.join(room, "handles")
    words = ["-std=c99", "-O2", "-Wall", "-Wextra", "-Werror", "-I", os.path.join(TOP, "include"), WRAPPED]
    subprocess.run(["cc", *words, "-o", path, os.path.join(HERE, "handles.c"), archive], check=True)
    return path


def of_hosts(hosts, peers):
    return f"{hosts:,} host{'s' if hosts > 1 else ''} of {peers} peer{'s' if peers > 1 else ''}"


def asked(hosts, peers, count):
    """The program's input, and its expected output: all texts passed."""
    return f"pass {hosts} {peers} {count}\n", f"{count}\n"


def rows(room):
    program = linked(library(room), room)
    for hosts, peers in SHAPES:
        whole, none = (least(program, *asked(hosts, peers, count)) for count in (COUNT, 0))
        _, peak = resident(program, asked(hosts, peers, COUNT)[0])
        yield Row("C: text in and out", of_hosts(hosts, peers), COUNT, "texts", max(whole - none, 1e-6), peak // 1024)


def counts(room):
    """Instructions for a text that arrives and is sent back."""
    program = linked(library(room), room)
    for hosts, peers in SHAPES:
        whole, none = (instructions([program], given, room, wanted) for given, wanted in (asked(hosts, peers, count) for count in (FEW, 0)))
        yield f"text in and out, {of_hosts(hosts, peers)}", (whole - none) / FEW


def memory(program, word, hosts, peers):
    """The bytes that are resident, those that the library has of malloc, and their blocks."""
    line, resides = resident(program, f"{word} {hosts} {peers} 0\n")
    asked, _, blocks = map(int, line.split())
    return resides, asked, blocks


def of_new(program, peers):
    """The blocks that `ncp_new` asks of malloc, their bytes together, and what malloc takes for them."""
    *blocks, asked, taken, count = map(int, resident(program, f"list 1 {peers} 0\n")[0].split())
    if sum(blocks) != asked or len(blocks) != count:
        sys.exit(f"list 1 {peers}: some blocks were given back")
    return blocks, asked, taken


def rooms(room):
    """The memory of `ncp_new` by the number of peers. Stops if it is not what is counted for each peer."""
    program = linked(library(room), room)
    yield "the host", HOST
    yield "a peer: in itself", PEER
    for what, size in ROOMS:
        yield f"a peer: {what}", size
    for peers in range(1, MOST_PEERS + 1):
        blocks, asked, taken = of_new(program, peers)
        if sorted(blocks) != sorted([HOST, peers * PEER] + peers * [size for _, size in ROOMS]):
            sys.exit(f"a host of {peers} peers has other blocks: {blocks}")
        yield f"asked of malloc, {of_hosts(1, peers)}", asked
        yield f"taken by malloc, {of_hosts(1, peers)}", taken


def weights(room):
    """The memory of a peer, with many hosts, and with one host of as many peers."""
    program = linked(library(room), room)
    for hosts, peers in MANY:
        for word, state in STATES:
            whole, one = (memory(program, word, count, peers) for count in (hosts, 1))
            for what, of_all, of_one in zip(("bytes resident", "bytes of malloc", "blocks of malloc"), whole, one):
                yield f"{what}, {of_hosts(hosts, peers)}, {state}", (of_all - of_one) / ((hosts - 1) * peers)
