#!/usr/bin/env python3
"""How fast the program is that `cc -O2` makes of prebuilt/ncp_program.c, beside the prebuilt one.

    bench/one_file.py [PROGRAM]      PROGRAM: one that was compiled already

Both are run in turns, and the least time of the processor counts. It ends with status 1 if what is asked of a row is not reached.
"""
import os
import subprocess
import sys
import tempfile

import files
import world
from measuring import best_of, ncp, once, prebuilt

SIZE, EVENTS, ROUNDS = 32, 100_000, 10
# What is run, on a message file of this version or on a script, and how fast it has to be, as a part of the other.
WORK = (("show", 1, 1 / 3), ("check", 1, 0), ("audit", 2, 0), ("follow", 2, 0), ("world", None, 2 / 3))


def compiled(room):
    source = prebuilt("ncp_program.c") or sys.exit("there is no ncp_program.c of these sources in prebuilt/")
    program = os.path.join(room, "ncp")
    subprocess.run(["cc", "-O2", "-o", program, source], check=True)
    return program


def given(version, room):
    """The path of what is read, and what it is called."""
    if version is not None:
        return files.made(SIZE, version), f"{SIZE} MiB, version {version}"
    texts, events = world.texts_in(EVENTS, 1)
    return world.scripted(room, 1, texts), f"{events:,} events"


def main():
    if len(sys.argv) > 2 or sys.argv[1:] and not os.path.isfile(sys.argv[1]):
        print("usage: bench/one_file.py [PROGRAM]", file=sys.stderr)
        return 2
    is_well = True
    with tempfile.TemporaryDirectory(prefix="ncp-bench-") as room:
        programs = ncp(), os.path.abspath(sys.argv[1]) if sys.argv[1:] else compiled(room)
        print(f"{'':12} {'':24} {'prebuilt':>10} {'C file':>10} {'memory':>20} {'speed':>7} {'at least':>9}")
        for word, version, wanted in WORK:
            path, what = given(version, room)
            runs = [[], []]
            for _ in range(ROUNDS):
                for program, of in zip(programs, runs):
                    of.append(once([program, word], path, {0, 1} if word == "audit" else {0}))
            (native, weighs), (other, weighs_too) = map(best_of, runs)
            is_well &= native / other >= wanted
            print(f"ncp {word:8} {what:24} {native:8.3f} s {other:8.3f} s {weighs:7,} and {weighs_too:6,} K {native / other:7.2f} {wanted or '':9.3}", flush=True)
    return 0 if is_well else 1


if __name__ == "__main__":
    sys.exit(main())
