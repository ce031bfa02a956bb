"""Bytes of memory that a note of a host's transcript takes, over 100,000 inputs of one kind."""
import sys

from measuring import built, resident

NAMES = ("ncp_bits", "ncp_host", "ncp_transcript", "anyhow")
COUNT = 100_000
KINDS = [
    ("phase", "a reading of the flags"),
    ("in", "a message of 10 bytes that comes"),
    ("out", "no link is ready"),
    ("again", "a message of 10 bytes that goes out, and is lost"),
]


def memory(program, kind, count):
    """How many bytes the program has in memory once it made its notes."""
    line, resides = resident(program, f"{kind} {count}\n")
    notes = count + (kind == "again")  # one for the RST at the beginning
    if line != f"{notes}\n":
        sys.exit(f"{kind} {count}: not so many notes")
    return resides


def counts(room):
    program = built("notes.txt", "many_notes", NAMES, room)
    for kind, what in KINDS:
        yield what, (memory(program, kind, COUNT) - memory(program, kind, 0)) / COUNT
