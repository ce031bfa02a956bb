# SPDX-License-Identifier: MIT
"""Which end of a line between a host and its IMP is the host, and which number it has: as the user names it, or guessed."""
from __future__ import annotations

from collections import deque
from typing import NamedTuple

from . import counts
from .counts import Stop, say
from .records import BY_AN_IMP, FROM_IMP, REGULAR, RFNM, TO_IMP, is_nop, kind_of

MOST_KEPT = 64 * 2**20  # bytes, while hosts are unknown
COST = 1024  # of a buffered message, besides its words
MOST_HOST, MOST_PORT = 255, 65535


class Side(NamedTuple):
    direction: int
    host: int


def port_of(end):
    return end.rpartition(":")[2]


class NamedLines:
    """Lines whose hosts the user names by PORT=HOST or ADDRESS:PORT=HOST."""

    def __init__(self, words, tally):
        self.tally = tally
        self.hosts = {}
        for word in words:
            place, host = self.read(word)
            if place in self.hosts:
                raise Stop(f"{place} is named twice")
            if host in self.hosts.values():
                raise Stop(f"host {host} is on two lines: {word} and another")
            self.hosts[place] = host
        self.pairs = {}  # by host, the ends of its line
        self.hinted = set()

    @staticmethod
    def read(word):
        place, _, host = word.rpartition("=")
        address, _, port = place.rpartition(":")
        if not (port.isascii() and port.isdigit() and 0 < int(port) <= MOST_PORT):
            raise Stop(f"--line {word}: PORT=HOST is wanted, with a port from 1 to {MOST_PORT}")
        if not (host.isascii() and host.isdigit() and int(host) <= MOST_HOST):
            raise Stop(f"--line {word}: PORT=HOST is wanted, with a host from 0 to {MOST_HOST}")
        address = address.strip("[]")
        return (f"{address}:{int(port)}" if address else str(int(port))), int(host)

    def host_at(self, end):
        host = self.hosts.get(end)
        return self.hosts.get(port_of(end)) if host is None else host

    def admits(self, flow):
        from_host, to_host = self.host_at(flow.source), self.host_at(flow.sink)
        if from_host is None and to_host is None:
            self.tally.add(counts.OTHER_PORT)
            return False
        if from_host is not None and to_host is not None:
            raise Stop(f"both ends of a line are named as hosts: {flow.source} and {flow.sink}; one of them is the IMP's")
        flow.side = Side(TO_IMP, from_host) if to_host is None else Side(FROM_IMP, to_host)
        if self.pairs.setdefault(flow.side.host, flow.line) != flow.line:
            self.tally.add(counts.OTHER_END)
            return False
        return True

    def take(self, message):
        """The messages that go on, now that this one is there."""
        side = message.flow.side
        if side.direction == TO_IMP and kind_of(message.words) in BY_AN_IMP and side.host not in self.hinted:
            self.hinted.add(side.host)
            say(f"{message.flow.source} sends what only an IMP sends: is {message.flow.sink} the port of host {side.host}?")
        return (message,)

    def end(self):
        """The buffered messages, once no further one arrives."""
        for place, host in self.hosts.items():
            if host not in self.pairs:
                say(f"no datagram of {place}, which is named as host {host}")
        return ()


class Sight(NamedTuple):
    """Where the text of a message was seen: by flow, the host in its leader; and the flows whose message an RFNM answered."""

    hosts: dict
    answered: set


class GuessedLines:
    """Lines whose hosts are guessed. If an end sends a message to host D, it arrives at another end from host S, and the first
    end gets an RFNM for it, then the first end is host S and the other host D. A message that several ends sent or received
    shows nothing. Messages are buffered until each active line is known."""

    def __init__(self, tally):
        self.tally = tally
        self.flows = {}  # by their ends
        self.hosts = {}  # by end
        self.known = set()  # lines
        self.forget()

    def forget(self):
        self.kept, self.cost = deque(), 0
        self.unknown = set()  # lines with more than NOPs
        self.sights, self.last = {}, {}

    def admits(self, flow):
        self.flows[flow.source, flow.sink] = flow
        return True

    def take(self, message):
        line = message.flow.line
        if line in self.known and not self.kept:
            return self.named((message,))
        self.kept.append(message)
        self.cost += COST + len(message.words)
        if not is_nop(message.words):
            if line not in self.known:
                self.unknown.add(line)
            self.learn(message)
        if not self.unknown and self.known:
            return self.released()
        if self.cost > MOST_KEPT:
            raise Stop(f"{MOST_KEPT // 2**20} MiB of messages do not tell which host is where: name each by --line PORT=HOST (the ends are {self.ends()})")
        return ()

    def learn(self, message):
        flow, words = message.flow, message.words
        kind = kind_of(words)
        if kind == REGULAR and len(words) > 4:
            text = hash(words[2:])
            sight = self.sights.setdefault(text, Sight({}, set()))
            if sight.hosts.setdefault(flow, words[1]) != words[1]:
                sight.hosts[flow] = None
            self.last[flow, words[1:3]] = text
            self.conclude(sight)
        elif kind == RFNM:
            out = self.opposite(flow)
            sight = self.sights.get(self.last.pop((out, words[1:3]), None))
            if sight:
                sight.answered.add(out)
                self.conclude(sight)

    def opposite(self, flow):
        """The flow the other way."""
        return self.flows.get((flow.sink, flow.source))

    def conclude(self, sight):
        if len(sight.hosts) != 2 or len(sight.answered) != 1:
            return
        (out,) = sight.answered
        (into,) = set(sight.hosts) - sight.answered
        receiver, sender = sight.hosts[out], sight.hosts[into]
        if receiver is None or sender is None or out.line == into.line:
            return
        self.name(out.source, sender, out.line)
        self.name(into.sink, receiver, into.line)

    def name(self, end, host, line):
        others = [other for other, number in self.hosts.items() if number == host and other != end]
        if self.hosts.get(end, host) != host or others or (line in self.known and end not in self.hosts):
            raise Stop(f"the messages contradict each other on which host is where ({end} as host {host}): name each by --line PORT=HOST")
        if line not in self.known:
            say(f"guessed --line {end}={host}")
        self.hosts[end] = host
        self.known.add(line)
        self.unknown.discard(line)

    def released(self):
        kept = self.kept
        self.forget()
        return self.named(kept)

    def named(self, messages):
        """The messages of known lines, each with its side."""
        for message in messages:
            flow = message.flow
            if flow.side is None and flow.line in self.known:
                from_host = self.hosts.get(flow.source)
                flow.side = Side(TO_IMP, from_host) if from_host is not None else Side(FROM_IMP, self.hosts[flow.sink])
            if flow.side is None:
                self.tally.add(counts.UNKNOWN_HOST)
            else:
                yield message

    def ends(self):
        ends = sorted({end for line in self.unknown or {message.flow.line for message in self.kept} for end in line})
        return ", ".join(ends[:8]) + (" and more" if len(ends) > 8 else "")

    def end(self):
        if self.unknown:
            say(f"which host is where could not be guessed of {self.ends()}: --line PORT=HOST names one")
        if self.kept and not self.known:
            raise Stop("no host could be guessed, so nothing can be said: name each by --line PORT=HOST")
        return self.released()
