"""Events of two hosts, as `ncp world` and `run` play them, with one connection and with 64."""
import os
import subprocess
import sys

from measuring import Row, best, built, least, ncp

NAMES = ("ncp_bits", "ncp_host", "ncp_transcript", "ncp_world", "anyhow")
CONNECTIONS = (1, 64)
EVENTS = (10_000, 100_000, 1_000_000)
BEGINNING, OPENING, TEXT = 7, 8, 9  # how many events each of these has


def passing(side, link):
    return f"{side} out\n{side} deliver {link}\n{side} answer {link}\n"


def opening(connection):
    receiver, sender = 2 * connection + 2, 2 * connection + 3
    asks = f"b ask-receive {receiver} {sender} 1024\na ask-send {sender} {receiver} 8 1024\n"
    return asks + passing("b", 0) + passing("a", 0)


def text(connection):
    receiver, sender = 2 * connection + 2, 2 * connection + 3
    allocate = f"b allocate {receiver} {sender} 1 64\n" + passing("b", 0)
    give = f"a give {sender} {receiver} 64 6162636465666768\n" + passing("a", connection + 2)
    return allocate + give + f"b take {receiver} {sender} 64\n"


def texts_in(events, connections):
    """How many texts pass in about this many events, and the exact number of events."""
    texts = (events - BEGINNING - OPENING * connections) // TEXT
    return texts, BEGINNING + OPENING * connections + TEXT * texts


def scripted(room, connections, texts):
    """A script with the events that `events.txt` makes."""
    path = os.path.join(room, "events.script")
    with open(path, "w", encoding="ascii") as script:
        script.write("hosts 1 2\na reset\n" + passing("a", 0) + passing("b", 0))
        script.writelines(opening(connection) for connection in range(connections))
        script.writelines(text(place % connections) for place in range(texts))
    return path


def is_played(path, events, texts):
    """Stops if not all texts of a script are taken."""
    with open(path, encoding="ascii") as source:
        lines = subprocess.run([ncp(), "world"], stdin=source, text=True, capture_output=True, check=True).stdout
    last = lines[lines.rindex("\n", 0, -1) + 1:].split()[0]
    if int(last) != events or lines.count(" take ok bits=64 ") != texts:
        sys.exit(f"{path}: {last} events, not all as they should be")


def rows(room):
    program = built("events.txt", "many_events", NAMES, room)
    for connections in CONNECTIONS:
        for wanted in EVENTS:
            texts, events = texts_in(wanted, connections)
            of = f"{connections} connection{'s' if connections > 1 else ''}, {events:,} events"
            path = scripted(room, connections, texts)
            is_played(path, events, texts)
            seconds, peak = best([ncp(), "world"], path)
            yield Row("ncp world", of, events, "events", seconds, peak)
            whole = least(program, f"run {connections} {texts}\n", f"{events} {texts}\n")
            making = least(program, f"make {connections} {texts}\n", f"{events} 0\n")
            yield Row("run", of, events, "events", max(whole - making, 1e-6), None)
