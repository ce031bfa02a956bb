"""`ncp host` on feeds of mixed messages from eight peers."""
import os
import subprocess

from measuring import Row, best, generated, kept, ncp

PEERS = 8
SCRIPT = b"host 100 1 2 3 4 5 6 7 8\nfeed\n"
SIZES = (16, 32, 64)  # MiB


def write(file, size):
    file.write(SCRIPT)
    generated(file, size, PEERS)


def made(size):
    return kept(f"feed-{size}.script", lambda file: write(file, size))


def rows(_room):
    for size in SIZES:
        path = made(size)
        seconds, peak = best([ncp(), "host"], path)
        yield Row("ncp host", f"feed of {size} MiB", os.path.getsize(path), "bytes", seconds, peak)


def counts(_room):
    """How many notes a run has: the number of its last line."""
    for size in SIZES:
        with open(made(size), "rb") as source:
            lines = subprocess.run([ncp(), "host"], stdin=source, capture_output=True, check=True).stdout
        yield f"feed of {size} MiB", int(lines[lines.rindex(b"\n", 0, -1) + 1:].split()[0])
