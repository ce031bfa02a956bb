# SPDX-License-Identifier: MIT
"""Datagrams by tshark, which handles file formats, link types and fragments; dumpcap captures. They cannot mistake the name of a
file or an interface for an option: a file is passed on standard input, an interface as a separate word after `-i`."""
from __future__ import annotations

import os
import re
import select
import signal
import subprocess
import tempfile
from typing import NamedTuple

from .counts import Stop, say

FIELDS = ("frame.time_epoch", "ip.src", "ipv6.src", "udp.srcport", "ip.dst", "ipv6.dst", "udp.dstport", "udp.length", "udp.payload")
# Datagrams that begin with H316, but those that an ICMP error quotes.
WANTED = "udp.payload[0:4] == 48:33:31:36 && !icmp && !icmpv6"
UDP_HEAD = 8
CHUNK = 2**18
MOST_ENDS = 2**13
NO_RIGHT = "no right to capture: be root, or in the group wireshark (sudo usermod -a -G wireshark $USER, and log in again)"


class Datagram(NamedTuple):
    time: int  # in nanoseconds since 1970
    ends: tuple  # ADDRESS:PORT of its sender and receiver
    payload: bytes
    is_cut: bool  # by the snap length


class Lines:
    """Lines of fields as datagrams."""

    def __init__(self):
        self.ends = {}

    def datagrams(self, line):
        time, _, rest = line.partition(b"\t")
        if b"," in rest:
            yield from self.of_many(time, rest)
            return
        rest, _, payload = rest.rpartition(b"\t")
        rest, _, length = rest.rpartition(b"\t")
        yield self.datagram(time, rest, length, payload)

    def of_many(self, time, rest):
        """A frame with several datagrams, or a tunnel: the innermost addresses are those of the datagrams."""
        columns = [column.split(b",") for column in rest.split(b"\t")]
        for place in range(-len(columns[-1]), 0):
            *ends, length, payload = [column[place] if -place <= len(column) else b"" for column in columns]
            yield self.datagram(time, b"\t".join(ends), length, payload)

    def datagram(self, time, ends, length, payload):
        payload = bytes.fromhex(payload.replace(b":", b"").decode())
        return Datagram(nanoseconds(time), self.ends.get(ends) or self.read_ends(ends), payload, UDP_HEAD + len(payload) < int(length or 0))

    def read_ends(self, ends):
        from_4, from_6, from_port, to_4, to_6, to_port = ends.decode().split("\t")
        if len(self.ends) >= MOST_ENDS:
            self.ends.clear()
        self.ends[ends] = f"{from_4 or from_6}:{from_port}", f"{to_4 or to_6}:{to_port}"
        return self.ends[ends]


def nanoseconds(text):
    seconds, _, rest = text.partition(b".")
    return int(seconds or 0) * 10**9 + int(rest[:9].ljust(9, b"0"))


class Shark:
    """tshark over a file, a pipe or an interface. It has a home of its own, so that no installed plugin is loaded."""

    def __init__(self, file=None, interface=None, is_live=True):
        self.home = tempfile.TemporaryDirectory()
        self.said = open(os.path.join(self.home.name, "said"), "w+b")
        self.dumpcap = None
        self.tshark = None
        self.is_stopped = False
        try:
            if interface is not None:
                self.dumpcap = self.start("dumpcap", "-q", "-i", interface, "-f", "udp", "-w", "-")
                file = self.dumpcap.stdout
            asked = [word for field in FIELDS for word in ("-e", field)]
            at_once = ["-l"] if is_live else []
            self.tshark = self.start("tshark", *at_once, "-n", "-r", "-", "-Y", WANTED, "-T", "fields", "-E", "occurrence=a", *asked, stdin=file)
        except BaseException:
            self.close()
            raise
        if self.dumpcap:
            self.dumpcap.stdout.close()

    def start(self, *words, stdin=subprocess.DEVNULL):
        """A program that a signal of the terminal does not reach: it ends when its input does."""
        home = self.home.name
        environment = dict(os.environ, HOME=home, XDG_CONFIG_HOME=home, WIRESHARK_CONFIG_DIR=home, LC_ALL="C", TZ="UTC")
        try:
            return subprocess.Popen(words, stdin=stdin, stdout=subprocess.PIPE, stderr=self.said, env=environment, start_new_session=True)
        except FileNotFoundError:
            raise Stop(f"{words[0]} is not found: it comes with Wireshark (Debian: apt-get install tshark)") from None
        except PermissionError:
            raise Stop(NO_RIGHT if words[0] == "dumpcap" else f"{words[0]} may not be run") from None

    def batches(self, patience=lambda: None):
        """Whole lines as they arrive; None after this many seconds without one."""
        pipe, rest = self.tshark.stdout, b""
        while True:
            ready, _, _ = select.select([pipe], [], [], patience())
            if not ready:
                yield ()
                continue
            data = os.read(pipe.fileno(), CHUNK)
            if not data:
                return
            *lines, rest = (rest + data).split(b"\n")
            yield lines

    def stop(self):
        """Ends the capture. What was captured is read to its end; asked once more, it is not."""
        if self.dumpcap and not self.is_stopped:
            self.dumpcap.terminate()
        elif self.is_stopped and self.tshark:
            self.tshark.terminate()
        self.is_stopped = True

    def end(self):
        """After the last line: raises what was wrong with the capture."""
        status = self.tshark.wait()
        captured = self.dumpcap.wait() if self.dumpcap else 0
        self.said.seek(0)
        said = self.said.read().decode(errors="replace")
        dropped = re.search(r"received/dropped on interface .*: \d+/([1-9]\d*)", said)
        if dropped:
            say(f"dumpcap dropped {dropped[1]} packets")
        if captured not in (0, -signal.SIGTERM):
            raise Stop(NO_RIGHT if "permission" in said.lower() else f"dumpcap: {complaint(said)}")
        if status and not self.is_stopped:
            raise Stop(reason(said))

    def close(self):
        """Stops running processes."""
        for program in (self.dumpcap, self.tshark):
            if program:
                if program.poll() is None:
                    program.kill()
                program.wait()
                program.stdout.close()
        self.said.close()
        self.home.cleanup()


def complaint(said):
    lines = [line.strip() for line in said.splitlines() if line.strip() and "Running as user" not in line]
    return " ".join(lines[-2:]) or "it ended without a word"


def reason(said):
    """Why tshark stopped, in a sentence."""
    if "cut short" in said:
        return "the capture ends inside a packet; all before it was read"
    if "isn't a capture file" in said:
        return "this is no capture that tshark reads (a message file is read by ncp itself)"
    return f"tshark: {complaint(said)}"
