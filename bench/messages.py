"""Messages through `receive` and `send_next` of a host with one peer and with eight."""
from measuring import Row, built, instructions, least

NAMES = ("ncp_bits", "ncp_host", "anyhow")
COUNT, FEW = 60_000, 800
PEERS = (1, 8)
WORK = [
    ("text of 8 bytes in", "text-in", 8),
    ("text of 991 bytes in", "text-in", 991),
    ("text of 8 bytes out", "text-out", 8),
    ("text of 991 bytes out", "text-out", 991),
    ("control of 1 command in", "control-in", 1),
    ("control of 15 commands in", "control-in", 15),
    ("control of 1 command out", "control-out", 1),
    ("control of 15 commands out", "control-out", 15),
]


def of_peers(peers):
    return "1 peer" if peers == 1 else f"{peers} peers"


def asked(word, size, peers, count):
    """The program's input, and its expected output: all messages were correct."""
    return f"{word} {size} {peers} {count}\n", f"{count}\n"


def rows(room):
    program = built("messages.txt", "host_messages", NAMES, room)
    for what, word, size in WORK:
        for peers in PEERS:
            whole, none = (least(program, *asked(word, size, peers, count)) for count in (COUNT, 0))
            yield Row(what, of_peers(peers), COUNT, "messages", max(whole - none, 1e-6), None)


def counts(room):
    """Instructions a message."""
    program = built("messages.txt", "host_messages", NAMES, room)
    for what, word, size in WORK:
        for peers in PEERS:
            whole, none = (instructions([program], given, room, wanted) for given, wanted in (asked(word, size, peers, count) for count in (FEW, 0)))
            yield f"{what}, {of_peers(peers)}", (whole - none) / FEW
