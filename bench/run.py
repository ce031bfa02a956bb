#!/usr/bin/env python3
"""Measures the program, its crates and the library for C, in one table with ratios, and counts instructions and memory.

`run.py` measures everything; `run.py times` or `run.py counts` one half. With `--note` it also records the ratios to `xxd -p`
in history.csv, if the sources are those of a commit."""
import argparse
import itertools
import tempfile

import feed
import files
import handles
import history
import messages
import notes
import table
import world

# The message files are first: all rates are compared with theirs.
TIMES = (files.rows, feed.rows, world.rows, messages.rows, handles.rows)
COUNTS = [
    ("instructions", files.counts),
    ("instructions a message of a host", messages.counts),
    ("instructions a text of the library for C", handles.counts),
    ("instructions a call of a table", table.counts),
    ("notes of a run", feed.counts),
    ("bytes of memory a note", notes.counts),
    ("bytes of memory of ncp_new", handles.rooms),
    ("memory a peer of the library for C", handles.weights),
]
HEAD = f"{'':28} {'':32} {'seconds':>8} {'a second':>16} {'memory':>9} {'to xxd -p':>11} {'last':>11} {'to cat':>9} {'to ncp show':>11}"


def ratio(row, rates, other):
    """The rate of a row relative to that of another: of bytes as a ratio, of others as a number for each MB."""
    return row.amount / row.seconds / rates[other] * (1 if row.unit == "bytes" else 1e6)


def short(number):
    return f"{number:.0f}" if number >= 100 else f"{number:.2f}" if number >= 1 else f"{number:.3f}"


def line(row, rates, last):
    """A row for printing; `last` has the ratios of the last landing by name."""
    rate = row.amount / row.seconds
    said = f"{rate / 1e6:,.1f} MB" if row.unit == "bytes" else f"{rate:,.0f}"
    memory = "" if row.peak is None else f"{row.peak:,} K"
    before = last.get(named(row)) or ""
    xxd, cat, show = (short(ratio(row, rates, other)) for other in (files.XXD, files.CAT, files.SHOW))
    return f"{row.what:28} {row.of:32} {row.seconds:8.3f} {said:>16} {memory:>9} {xxd:>11} {before:>11} {cat:>9} {show:>11}"


def named(row):
    return f"{row.what}, {row.of}"


def times(room, last):
    """Prints the rows while they are measured, and returns their ratios to `xxd -p`."""
    if last:
        print(f"last: {last['commit']}, {last['kit']}")
    print(HEAD)
    first, *others = TIMES
    beside, found = list(first(room)), {}
    # Of the sizes of message files the last is the largest.
    rates = {row.what: row.amount / row.seconds for row in beside}
    for row in itertools.chain(beside, *(part(room) for part in others)):
        print(line(row, rates, last), flush=True)
        found[named(row)] = short(ratio(row, rates, files.XXD))
    for name, before in last.items():
        if before and name not in (*found, *history.LANDING):
            print(f"not measured, at the last landing {before}: {name}")
    return found


def counts(room):
    for head, part in COUNTS:
        print(f"\n{head}")
        for what, number in part(room):
            print(f"{what:56} {number:14,.1f}", flush=True)


def main(words=None):
    parser = argparse.ArgumentParser(description=__doc__)
    parser.add_argument("half", nargs="?", choices=("times", "counts"))
    parser.add_argument("--note", action="store_true", help="note the ratios to `xxd -p` in history.csv")
    asked = parser.parse_args(words)
    if asked.note and asked.half == "counts":
        parser.error("--note is of times")
    here = history.here() if asked.note else {}
    with tempfile.TemporaryDirectory(prefix="ncp-bench-") as room:
        if asked.half != "counts":
            found = times(room, history.last(history.PATH))
            if here:
                history.note(history.PATH, {**here, **found})
        if asked.half != "times":
            counts(room)


if __name__ == "__main__":
    main()
