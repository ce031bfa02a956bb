#!/usr/bin/env python3
"""Measures wireshark/messages: a capture of a million datagrams, or of as many thousands as asked, through the whole chain, as
a ratio to tshark alone, which prints the same fields. Times are of the processor (user and system), and of the clock."""
import os
import subprocess
import sys
import time

from measuring import DATA, TOP, kept, ncp, processor

WIRESHARK = os.path.join(TOP, "wireshark")
sys.path.insert(0, WIRESHARK)
import datagrams  # noqa: E402
from capture.shark import FIELDS, WANTED  # noqa: E402

MIB_OF_A_THOUSAND = 0.1  # of a message file, and somewhat more
WORDS = 512  # each message is one datagram
PORT, HOST = 20000, 1


def write_messages(file, thousands):
    """A message file of as many thousands of messages."""
    generated = subprocess.run([sys.executable, os.path.join(TOP, "bench", "generate.py"), str(int(thousands * MIB_OF_A_THOUSAND) + 1), "63", "2"], stdout=subprocess.PIPE, check=True).stdout
    end = 4
    for _ in range(1000 * thousands):
        end += 4 + (int.from_bytes(generated[end + 2 : end + 4], "big") + 7) // 8
    file.write(generated[:end])


def write_capture(file, messages):
    made = datagrams.datagrams(read(messages), WORDS, PORT)
    file.writelines(datagrams.blocks((datagrams.packet(*each) for each in made), datagrams.BEGIN))


def read(path):
    with open(path, "rb") as file:
        return file.read()


def seconds(words):
    """Of the processor and of the clock."""
    used, begun = processor(), time.monotonic()
    status = subprocess.run(words, stdout=subprocess.DEVNULL, stderr=subprocess.PIPE, env={**os.environ, "NCP": ncp()})
    if status.returncode == 2:
        sys.exit(status.stderr.decode())
    return processor() - used, time.monotonic() - begun


def main():
    thousands = int(sys.argv[1]) if sys.argv[1:] else 1000
    wanted, made = kept(f"wire-{thousands}.ncp", lambda file: write_messages(file, thousands)), os.path.join(DATA, "wire.ncp")
    capture = kept(f"wire-{thousands}.pcapng", lambda file: write_capture(file, wanted))
    tshark = ["tshark", "-n", "-r", capture, "-Y", WANTED, "-T", "fields", *(word for field in FIELDS for word in ("-e", field))]
    messages = [sys.executable, os.path.join(WIRESHARK, "messages"), "-r", capture, "--line", f"{PORT + 2 * HOST}={HOST}"]
    rows = [("tshark alone", tshark), ("messages -w", [*messages, "-w", made]), ("messages check", [*messages, "check"]), ("messages audit", [*messages, "audit", "--standard"])]
    print(f"{thousands},000 datagrams        processor      ratio        clock      ratio")
    first = None
    for name, words in rows:
        took = seconds(words)
        first = first or took
        print(f"{name:24} {took[0]:10.1f} s {took[0] / first[0]:10.2f} {took[1]:10.1f} s {took[1] / first[1]:10.2f}", flush=True)
    if read(made) != read(wanted):
        sys.exit("the message file is another than that of which the datagrams were made")


if __name__ == "__main__":
    main()
