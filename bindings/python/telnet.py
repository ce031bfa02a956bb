#!/usr/bin/env python3
# SPDX-License-Identifier: MIT
"""An old Telnet (RFC 318) over the initial connection protocol, at the host interface of a simulated IMP (h316.py):

    telnet.py server ME PEER[,PEER..] HERE THERE    sends back each line, on contact socket 1, until it is ended
    telnet.py user ME PEER HERE THERE               sends the lines of standard input, and prints what it receives

ME and PEER are numbers of hosts, HERE and THERE UDP ports of 127.0.0.1, of this host and of its IMP. `--capture FILE` writes the
messages at the interface to a message file. Received text is printed in letters: any control character as \\xNN.

Status 0 if the session ended, 1 if there was none, 2 for a wrong command line or an unavailable port.
"""
from __future__ import annotations

import argparse
import os
import select
import signal
import sys
import time
from typing import BinaryIO, Callable, Iterator, List, NoReturn, Optional

import h316
import icp
import ncp

CONTACT = 1
END = b"\r\n"
MOST_LINE = 1000  # bytes: a longer line is treated as several
PATIENCE, PAUSE = 10, 0.2  # seconds: for an IMP to come up, a host to answer, and an end; between NOPs
ENOUGH = 8000  # queued bits: then standard input is not read further


class Lines:
    """The lines of a session: text arrives in parts of them, or in several."""

    def __init__(self) -> None:
        self.rest = b""

    def taken(self, text: bytes) -> Iterator[bytes]:
        """The lines that this text ends, without their ends."""
        self.rest += text
        while True:
            line, end, rest = self.rest.partition(END)
            if len(line) > MOST_LINE:
                line, rest = self.rest[:MOST_LINE], self.rest[MOST_LINE:]
            elif not end:
                return
            self.rest = rest
            yield line


def shown(line: bytes) -> str:
    """A line in letters: what is no letter, digit or sign of ASCII is never printed raw."""
    return "".join(chr(it) if 32 <= it < 127 else f"\\x{it:02x}" for it in line)


def tell(line: str) -> None:
    print(f"telnet: {line}", file=sys.stderr, flush=True)


class Echo(icp.Session):
    """Sends back each line, and ends at BYE."""

    def opened(self) -> None:
        self.lines = Lines()
        tell(f"host {self.peer} has a session")

    def is_ready(self) -> bool:
        return not self.sender.waits

    def arrived(self, text: bytes) -> None:
        for line in self.lines.taken(text):
            if line == b"BYE":
                self.finish()
            else:
                self.write(b"ECHO " + line + END)

    def ended(self) -> None:
        tell(f"the session of host {self.peer} is over")


class Terminal(icp.Session):
    """Prints each line."""
    has_opened = has_ended = False

    def opened(self) -> None:
        self.lines, self.has_opened = Lines(), True
        tell(f"host {self.peer} has a session")

    def arrived(self, text: bytes) -> None:
        for line in self.lines.taken(text):
            print(shown(line), flush=True)

    def ended(self) -> None:
        if self.has_opened and self.lines.rest:
            print(shown(self.lines.rest), flush=True)
        self.has_ended = True


class Program:
    """A host at its line: messages go in and out, and what happens then is done."""

    def __init__(self, me: int, peers: List[int], line: h316.Line, file: Optional[BinaryIO], patience: int) -> None:
        self.patience = patience
        self.node, self.line, self.file = icp.Node(ncp.Host(me, peers), tell), line, file
        self.capture = ncp.Capture(file) if file else None

    def close(self) -> None:
        self.line.close()
        if self.file:
            self.file.close()

    def record(self, direction: int, message: ncp.Bits) -> None:
        if self.capture:
            self.capture.message(direction, self.node.host.me, message)

    def come_up(self) -> bool:
        """Sends NOPs until the IMP is ready, and returns whether it is."""
        until = time.monotonic() + self.patience
        while not self.line.is_ready and time.monotonic() < until:
            self.line.send_nops()
            if self.is_there(PAUSE):
                self.take()
        return self.line.is_ready

    def is_there(self, seconds: float) -> bool:
        return bool(select.select([self.line], [], [], seconds)[0])

    def take(self) -> None:
        """Receives from the IMP. After a restart of the IMP its messages are lost, and are sent again."""
        message = self.line.receive()
        if message is None:
            return
        self.record(ncp.FROM_IMP, message)
        if self.node.host.receive(message).kind == ncp.INTERFACE_RESET:
            tell("the IMP was restarted")
            self.line.send_nops()
            for peer in self.node.host.peers:
                self.node.host.restart(peer)
        self.work()

    def work(self) -> None:
        """Does what can be done now, and sends what is ready."""
        self.node.work()
        for message in self.node.host.outputs():
            self.record(ncp.TO_IMP, message)
            self.line.send(message)


def serve(program: Program) -> NoReturn:
    """Serves until it is ended, also while the IMP is not ready."""
    program.node.listen(CONTACT, Echo)
    while True:
        if not program.line.is_ready:
            program.come_up()
        elif program.is_there(program.patience):
            program.take()


def typed(data: bytes) -> bytes:
    """Lines of standard input as they go out: in ASCII, with the end that Telnet has."""
    return data.decode("utf-8", "replace").encode("ascii", "replace").replace(b"\r\n", b"\n").replace(b"\n", END)


class User:
    """A user's session, from the call to its end."""

    def __init__(self, program: Program, peer: int) -> None:
        self.program, self.peer, self.why = program, peer, ""
        self.session: Optional[Terminal] = None
        self.is_typing = True
        self.until = time.monotonic() + program.patience
        program.node.call(peer, CONTACT, self.begun, self.refused)
        program.work()

    def begun(self, node: icp.Node, peer: int, here: int, there: int) -> Terminal:
        self.session = Terminal(node, peer, here, there)
        return self.session

    def refused(self, why: str) -> None:
        self.why = why

    def is_over(self) -> bool:
        """Whether the session is finished, with the reason if there was no session, or no end."""
        has_opened = self.session is not None and self.session.has_opened
        if self.session and self.session.has_ended and not has_opened:
            self.why = f"host {self.peer} ends the session before it begins"
        elif not self.program.line.is_ready:
            self.why = "the IMP is not ready any more"
        elif time.monotonic() > self.until and not (has_opened and self.is_typing):
            self.why = f"host {self.peer} does not answer"
        return bool(self.why or self.session and self.session.has_ended)

    def may_type(self) -> bool:
        session = self.session
        return session is not None and session.has_opened and self.is_typing and session.sender.waits < ENOUGH

    def go_on(self) -> None:
        """Waits for input from the IMP, or from standard input."""
        ready = select.select([self.program.line, *([sys.stdin] if self.may_type() else [])], [], [], PAUSE)[0]
        if self.program.line in ready:
            self.program.take()
        if sys.stdin in ready and self.session:
            data = os.read(sys.stdin.fileno(), 500)
            self.session.write(typed(data))
            if not data:
                self.is_typing, self.until = False, time.monotonic() + self.program.patience
                self.session.finish()
            self.program.work()


def use(program: Program, peer: int) -> int:
    """Calls a peer, and returns the status in the end."""
    user = User(program, peer)
    while not user.is_over():
        user.go_on()
    if user.why:
        tell(user.why)
    return 1 if user.why else 0


def number(least: int, most: int) -> Callable[[str], int]:
    """Reads a number of an argument."""
    def read(word: str) -> int:
        if not (word.isascii() and word.isdigit() and len(word) <= 5 and least <= int(word) <= most):
            raise argparse.ArgumentTypeError(f"'{word}' is no number from {least} to {most}")
        return int(word)
    return read


def hosts(word: str) -> List[int]:
    return [number(0, 255)(it) for it in word.split(",")]


def attached(chosen: argparse.Namespace) -> Program:
    """The program at its line. OSError if a port or a file cannot be had. Refused: BadPeers."""
    line = h316.Line(chosen.here, chosen.there)
    try:
        file = open(chosen.capture, "wb", buffering=0) if chosen.capture else None
        return Program(chosen.me, chosen.peers, line, file, chosen.patience)
    except BaseException:
        line.close()
        raise


def run(chosen: argparse.Namespace) -> int:
    try:
        program = attached(chosen)
    except OSError as error:
        tell(f"{error.filename or f'port {chosen.here}'}: {error.strerror}")
        return 2
    except ncp.BadPeers:
        tell("the peers are one to eight, each another host than this one, and named once")
        return 2
    try:
        if chosen.what == "server":
            serve(program)
        if program.come_up():
            return use(program, chosen.peers[0])
        tell("the IMP is not ready")
        return 1
    finally:
        program.close()


def main() -> int:
    words = argparse.ArgumentParser(description=__doc__, formatter_class=argparse.RawDescriptionHelpFormatter)
    words.add_argument("what", choices=("server", "user"))
    words.add_argument("me", metavar="ME", type=number(0, 255))
    words.add_argument("peers", metavar="PEER", type=hosts)
    words.add_argument("here", metavar="HERE", type=number(1, 65535))
    words.add_argument("there", metavar="THERE", type=number(1, 65535))
    words.add_argument("--capture", metavar="FILE", help="a message file of what crosses the interface")
    words.add_argument("--patience", metavar="SECONDS", type=number(0, 3600), default=PATIENCE, help="how long an IMP and a host have for an answer")
    signal.signal(signal.SIGTERM, lambda *_: sys.exit(0))
    try:
        return run(words.parse_args())
    except KeyboardInterrupt:
        return 0
    except BrokenPipeError:
        os.dup2(os.open(os.devnull, os.O_WRONLY), sys.stdout.fileno())
        return 1


if __name__ == "__main__":
    sys.exit(main())
