#!/usr/bin/env python3
# SPDX-License-Identifier: MIT
"""The initial connection protocol (RFC 123, NIC 7101), user and server, above the library.

    user, at its socket U (even)                     server, which listens on its contact socket L (odd)
    asks to receive at U from L                      asks to send from L to U, and sends S, an even socket, in 32 bits
    has S, and closes                                closes once S is delivered
    asks for U + 2 from S + 1 and for U + 3 to S     asks for the other ends of both

    node = Node(ncp.Host(1, [2]))
    node.listen(1, Echo)                # a class of sessions: a server
    node.call(2, 1, Printer, print)     # and a user, who may be refused
    ...
    node.host.receive(message)          # after each message that arrived
    node.work()
    for message in node.host.outputs():
        ...

`icp.py [FILE]` plays two such hosts and the subnet between them, and writes what crossed both interfaces as a message file.
"""
from __future__ import annotations

import os
import sys
from typing import Callable, Dict, List, Optional, Set, Tuple

import ncp

ROOM = 8000  # bits, of each direction of a session
SOCKET_BITS, LAST_SOCKET = 32, 2**32 - 1
FIRST, STEP = 0x100, 4  # of the sockets that a node assigns: four at a time


class Session:
    """Text in both directions between a user and a server. `here` and `there` are the even sockets of both sides: text arrives at
    `here` from `there` + 1, and goes from `here` + 1 to `there`. A program has a class of its own with some of the first four methods."""

    def opened(self) -> None:
        """Both connections are open."""

    def arrived(self, text: bytes) -> None:
        """Text arrived: a part of a line, or several."""

    def ended(self) -> None:
        """Both connections are over."""

    def is_ready(self) -> bool:
        """Whether it takes text now: else the text stays in the host, and the other side gets no further allocation."""
        return True

    def __init__(self, node: Node, peer: int, here: int, there: int) -> None:
        """Asks for both connections. Refused as `ncp.Stream`: then neither is there."""
        self.node, self.peer = node, peer
        self.receiver = ncp.Stream(node.host, peer, here, there + 1, room=ROOM)
        try:
            self.sender = ncp.Stream(node.host, peer, here + 1, there, room=ROOM)
        except ncp.Refused:
            node.close(self.receiver.at)
            raise
        self._has_opened = self._has_finished = False

    def write(self, text: bytes) -> None:
        """Sends a text of any length, as the other side allows it. What is written while it closes is dropped."""
        try:
            self.sender.write(text)
        except (ncp.NoEntry, ncp.Closing):
            pass

    def finish(self) -> None:
        """Closes the connection to the other side, once all that was written is delivered; the other side then closes its own."""
        self._has_finished = True
        self.sender.finish()

    def close(self) -> None:
        """Closes both connections at once, and drops what is not delivered or taken."""
        for stream in self.sender, self.receiver:
            self.node.close(stream.at)

    def pump(self) -> bool:
        """Does what can be done now, and returns whether the session goes on."""
        self.sender.pump()
        if not self._has_opened and self.sender.is_open and self.receiver.is_open:
            self._has_opened = True
            self.opened()
        while self.is_ready() and (text := self.receiver.read().data):
            self.arrived(text)
        if self.receiver.is_over:
            self.finish()
        elif self.sender.is_over and not self._has_finished:
            self.close()
        if not (self.sender.is_over and self.receiver.is_over):
            return True
        self.ended()
        return False


# A factory of sessions: a class, or a function that sets more arguments.
Maker = Callable[["Node", int, int, int], Session]


class _Exchange:
    """The connection at a contact socket, by which one side sends the other a socket. `sockets` is the first of four of this side."""

    def __init__(self, node: Node, at: ncp.Key, make: Maker) -> None:
        self.node, self.at, self.make = node, at, make
        self.sockets = node.fresh()
        self.is_done = False

    def take(self, event: ncp.Event) -> None:
        """An event of the connection, while it is not done."""

    def pump(self) -> None:
        """Does what can be done now."""


class _Call(_Exchange):
    """A user's, until the server's socket is there."""

    def __init__(self, node: Node, peer: int, contact: int, make: Maker, refused: Callable[[str], object]) -> None:
        super().__init__(node, (peer, 0, contact), make)
        self.at, self.refused = (peer, self.sockets, contact), refused

    def start(self) -> bool:
        """Asks at the contact socket, and returns whether that is done; else it is for later."""
        try:
            self.node.host.ask_receive(*self.at, room=SOCKET_BITS)
        except (ncp.NotUp, ncp.QueueFull):
            return False
        except ncp.Refused as refusal:
            self.fail(type(refusal).__name__)
        return True

    def take(self, event: ncp.Event) -> None:
        host = self.node.host
        try:
            if event.what == "opened":
                host.allocate(*self.at, messages=1, bits=SOCKET_BITS)
            elif event.what == "text":
                self.go_on(host.take(*self.at))
            elif event.what == "refused":
                self.fail("nobody listens")
            elif event.what == "ended":
                self.fail("it ends without a socket")
        except ncp.Refused as refusal:
            self.fail(type(refusal).__name__)

    def go_on(self, text: ncp.Bits) -> None:
        """Asks for both connections of the session, if the text is a socket for it."""
        there = int.from_bytes(text.data, "big")
        if text.count != SOCKET_BITS:
            self.fail(f"{text.count} bits are no socket")
        elif there % 2:
            self.fail(f"socket {there} is odd")
        else:
            self.node.begin(self.make, self.at[0], self.sockets + 2, there)
            self.end()

    def fail(self, why: str) -> None:
        self.end()
        self.refused(f"host {self.at[0]}, socket {self.at[2]}: {why}")

    def end(self) -> None:
        self.is_done = True
        self.node.close(self.at)


class _Offer(_Exchange):
    """A server's, until its socket is delivered. Refused as `ncp.Stream`."""

    def __init__(self, node: Node, at: ncp.Key, make: Maker) -> None:
        self.stream = ncp.Stream(node.host, *at, size=SOCKET_BITS, room=SOCKET_BITS)
        super().__init__(node, at, make)
        self.stream.write(self.sockets.to_bytes(SOCKET_BITS // 8, "big"))
        self.stream.finish()

    def take(self, event: ncp.Event) -> None:
        if event.what != "delivered":
            return
        self.is_done = True
        peer, contact, user = self.at
        try:
            self.node.begin(self.make, peer, self.sockets, user + 2)
        except ncp.Refused as refusal:
            self.node.refuse(None, f"host {peer} has no session on socket {contact}: {type(refusal).__name__}")

    def pump(self) -> None:
        self.stream.pump()


class Node:
    """A host with its sessions, its calls and the sockets on which it listens. `report` has a line for each request that is refused here."""

    def __init__(self, host: ncp.Host, report: Callable[[str], object] = lambda line: None) -> None:
        self.host, self.report = host, report
        self.sessions: List[Session] = []
        self._listeners: Dict[int, Maker] = {}
        self._exchanges: Dict[ncp.Key, _Exchange] = {}
        self._later: List[_Call] = []  # calls whose peer is not up yet
        self._to_close: Set[ncp.Key] = set()
        self._next = FIRST

    def listen(self, contact: int, make: Maker) -> None:
        """Each who asks at this socket has a session from now on. ValueError if it is no odd number of 32 bits."""
        self._listeners[_contact(contact)] = make

    def call(self, peer: int, contact: int, make: Maker, refused: Callable[[str], object] = lambda why: None) -> None:
        """Asks for a session at a contact socket of a peer; the host comes up with the peer first. If there is none, `refused` is called with
        the reason. ValueError if the socket is no odd number of 32 bits. Refused: UnknownPeer."""
        if not self.host.is_up(peer):
            self.host.wake(peer)
            try:
                self.host.reset(peer)
            except ncp.Busy:
                pass
        self._later.append(_Call(self, peer, _contact(contact), make, refused))

    def work(self) -> None:
        """Does what can be done now. Call it after each message that arrived, and after calls; then send the host's outputs."""
        for event in self.host.events():
            if event.what == "held":
                self._give_up(event.peer)
            elif event.local is not None and event.at in self._exchanges:
                self._take(event, self._exchanges[event.at])
        self._later = [call for call in self._later if not call.is_done and not self._starts(call)]
        self._answer_requests()
        for at in [*self._to_close]:
            self.close(at)
        for exchange in [*self._exchanges.values()]:
            exchange.pump()
        self.sessions = [it for it in self.sessions if it.pump()]

    def _take(self, event: ncp.Event, exchange: _Exchange) -> None:
        if not exchange.is_done:
            exchange.take(event)
        if event.what in ("closed", "refused", "ended"):
            del self._exchanges[event.at]

    def _starts(self, call: _Call) -> bool:
        if not call.start():
            return False
        self._exchanges[call.at] = call
        return True

    def _give_up(self, peer: int) -> None:
        """The peer is dead: no call to it goes on."""
        for call in [*self._later, *self._exchanges.values()]:
            if isinstance(call, _Call) and call.at[0] == peer and not call.is_done:
                call.fail("the host is dead")

    def _answer_requests(self) -> None:
        """Accepts or refuses each request of a peer, but what a session is to ask for here soon."""
        for peer in self.host.peers:
            for local, remote, it in self.host.connections(peer):
                at, is_request = (peer, local, remote), it.heard and not (it.asked or it.leaving or it.left or it.cls)
                if is_request and at not in self._to_close and not self._is_expected(local, peer):
                    self._answer(at)

    def _is_expected(self, socket: int, peer: Optional[int] = None) -> bool:
        """Whether a socket is one of the four of an exchange, with any peer or with this one."""
        exchanges = [*self._later, *self._exchanges.values()]
        return any(it.sockets // STEP == socket // STEP and not it.is_done and peer in (None, it.at[0]) for it in exchanges)

    def _answer(self, at: ncp.Key) -> None:
        peer, contact, user = at
        if contact not in self._listeners:
            self.refuse(at, f"host {peer} asks for socket {contact}, on which nobody listens")
        elif user + 3 > LAST_SOCKET:
            self.refuse(at, f"host {peer} asks from socket {user}, which has no three after it")
        else:
            try:
                self._exchanges[at] = _Offer(self, at, self._listeners[contact])
            except ncp.QueueFull:
                pass  # it is asked again
            except ncp.Refused as refusal:
                self.refuse(at, f"host {peer} asks for socket {contact}: {type(refusal).__name__}")

    def refuse(self, at: Optional[ncp.Key], why: str) -> None:
        """Reports a request that is refused, and closes what it asked for, if there is that."""
        self.report(why)
        if at:
            self.close(at)

    def begin(self, make: Maker, peer: int, here: int, there: int) -> None:
        """Begins a session. Refused as `ncp.Stream`."""
        self.sessions.append(make(self, peer, here, there))

    def close(self, at: ncp.Key) -> None:
        """Closes a connection, as soon as there is place for the command."""
        self._to_close.discard(at)
        try:
            self.host.close(*at)
        except ncp.QueueFull:
            self._to_close.add(at)
        except (ncp.NoEntry, ncp.NotUp, ncp.Closing):
            pass

    def fresh(self) -> int:
        """The first of four sockets, an even one, that are of no connection, and were not given out of late."""
        taken = {local // STEP for peer in self.host.peers for local, _, _ in self.host.connections(peer)}
        while True:
            socket = self._next
            self._next = socket + STEP if socket + 2 * STEP <= LAST_SOCKET else FIRST
            if socket // STEP not in taken and not self._is_expected(socket):
                return socket


def _contact(socket: int) -> int:
    if not 0 <= socket <= LAST_SOCKET or socket % 2 == 0:
        raise ValueError(f"socket {socket} is no odd number of {SOCKET_BITS} bits")
    return socket


class Echo(Session):
    """A server that sends back what it receives, and closes after BYE."""

    def is_ready(self) -> bool:
        return not self.sender.waits

    def arrived(self, text: bytes) -> None:
        self.write(text)
        if text == b"BYE\r\n":
            self.finish()


class Talk(Session):
    """A user that sends some lines, each once the last one was returned, and prints what it receives."""
    lines = [b"HELLO\r\n", b"X" * 2000 + b"\r\n", b"BYE\r\n"]

    def opened(self) -> None:
        print(f"host {self.node.host.me} has a session with host {self.peer}")
        self.rest, self.heard = [*self.lines], b""
        self.say()

    def say(self) -> None:
        self.heard = b""
        if self.rest:
            self.write(self.rest.pop(0))

    def arrived(self, text: bytes) -> None:
        self.heard += text
        if self.heard.endswith(b"\r\n"):
            print(f"host {self.peer} sends {len(self.heard)} letters, {self.heard[:6]!r} at first")
            self.say()

    def ended(self) -> None:
        print("the session is over")


def settle(nodes: Tuple[Node, ...], subnet: ncp.Subnet, capture: Optional[ncp.Capture] = None) -> None:
    """Carries all messages between hosts, each delivered, and lets their nodes work, until nothing is left to be done."""
    hosts = {node.host.me: node for node in nodes}
    moved = True
    while moved:
        moved = False
        for node in nodes:
            node.work()
            for message in node.host.outputs():
                moved, sender, way = True, node.host.me, (node.host.me, message.host, message.link)
                subnet.accept(sender, message)
                for direction, at, bits in ((ncp.TO_IMP, sender, message), (ncp.FROM_IMP, message.host, subnet.deliver(*way)), (ncp.FROM_IMP, sender, subnet.answer(*way))):
                    if bits and capture:
                        capture.message(direction, at, bits)
                    if bits and direction == ncp.FROM_IMP:
                        hosts[at].host.receive(bits)
                        hosts[at].work()


def main() -> None:
    """A user at host 1 calls host 2 on socket 1, and then on socket 7."""
    user, server = Node(ncp.Host(1, [2])), Node(ncp.Host(2, [1]), print)
    server.listen(1, Echo)
    for contact in 1, 7:
        user.call(2, contact, Talk, print)
    with open(sys.argv[1] if sys.argv[1:] else os.devnull, "wb") as file:
        settle((user, server), ncp.Subnet([1, 2]), ncp.Capture(file))


if __name__ == "__main__":
    main()
