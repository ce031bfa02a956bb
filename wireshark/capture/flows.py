# SPDX-License-Identifier: MIT
"""Datagrams joined to messages, sender by sender.

A datagram is `H316`, a sequence number of 32 bits, a count of words and flags of 16 bits each, and the words of 16 bits, all
with the most significant byte first. A message is the words of the datagrams up to one with the flag FINAL.
"""
from __future__ import annotations

import struct
from collections import deque
from typing import NamedTuple

from . import counts
from .records import INTERFACE_RESET, MOST_BYTES, is_nop, is_too_long, is_whole, kind_of

MAGIC = b"H316"
HEAD = struct.Struct(">4sIHH")
FINAL, READY = 1, 2
NUMBERS = 2**32  # the last sequence number is followed by 0
FIRST = 1  # a sender begins with 0 or 1
RECENT = 16  # how many of the last datagrams are recognized as duplicates, and at most lost when the numbers restart
MOST_SENDERS = 4096


class Break(NamedTuple):
    """Why a message does not follow on those before. A loss lies between the datagram `after` and this message."""

    reason: str
    after: int | None = None


class Message(NamedTuple):
    number: int  # of the datagram that ends it
    time: int  # in nanoseconds since 1970
    flow: Flow
    words: bytes
    broken: Break | None


class Flow:
    """The datagrams of one sender to one receiver."""

    def __init__(self, source, sink, hosts, starts, tally):
        self.source, self.sink = source, sink
        self.line = (source, sink) if source < sink else (sink, source)
        self.side = None  # direction and host, once they are known
        self.starts = starts  # the first numbers of all senders
        self.tally = tally
        self.next = None
        self.begun = FIRST  # the number with which its senders begin, as far as that is known
        self.number = 0  # of the last datagram that was taken
        self.recent = deque(maxlen=RECENT)
        self.stray = None  # the sequence number that would follow on the last one out of order
        self.is_ready = False
        self.anew = None  # why the next message is a restart
        self.lost, self.lost_after = 0, None
        self.hosts = set(hosts)  # that are named, and those of leaders
        self.begin(is_torn=False)

    def begin(self, is_torn):
        """The next datagram begins a message or, if torn, may be the middle of one."""
        self.parts, self.count, self.size, self.is_torn, self.before = [], 0, 0, is_torn, self.number

    def take(self, number, time, payload):
        """The message that a datagram ends, if it ends one."""
        _, sequence, _, flags = HEAD.unpack_from(payload)
        seen = (sequence, hash(payload))
        if sequence != self.next and not self.is_taken(sequence, seen):
            return None
        self.next, self.stray = (sequence + 1) % NUMBERS, None
        self.recent.append(seen)
        self.look_at(flags)
        self.number = number
        self.count += 1
        self.size += len(payload) - HEAD.size
        if HEAD.size < len(payload) and self.size <= MOST_BYTES:
            self.parts.append(payload[HEAD.size :])
        if not flags & FINAL:
            return None
        words = self.joined()
        return Message(number, time, self, words, self.broken(words)) if words else None

    def is_taken(self, sequence, seen):
        """Whether to accept a datagram whose number is not the next one, and what the number means."""
        if self.next is None:
            if FIRST < sequence <= RECENT or sequence == FIRST and 0 in self.starts:
                self.lose(sequence, 0)
            self.starts.add(sequence)
            self.run(sequence)
            return True
        ahead = (sequence - self.next) % NUMBERS
        if seen in self.recent and (sequence > self.begun or seen == self.recent[-1]):
            self.tally.add(counts.TWICE)
        elif ahead > RECENT and (sequence <= self.begun or sequence == self.stray):
            self.tally.add(counts.RESTARTED)
            self.anew = "restart"
            self.run(sequence)
            return True
        elif ahead < NUMBERS // 2:
            self.lose(ahead, self.number)
            self.begin(is_torn=True)
            return True
        else:
            self.stray = (sequence + 1) % NUMBERS
            self.tally.add(counts.OUT_OF_ORDER)
        return False

    def run(self, sequence):
        """Starts a run of numbers at the first one seen. Unless it is 0, there may have been another before it."""
        self.recent.clear()
        if sequence <= FIRST:
            self.begun = sequence
        self.begin(is_torn=sequence > 0)

    def look_at(self, flags):
        if self.is_ready and not flags & READY:
            self.tally.add(counts.WENT_DOWN)
            self.anew = "interface down"
        self.is_ready = flags & READY != 0

    def lose(self, count, after):
        self.tally.add(counts.LOST, count)
        if not self.lost:
            self.lost_after = after
        self.lost += count

    def joined(self):
        """The words of the datagrams up to this one, if they are a message."""
        words, size, is_torn, count, before = b"".join(self.parts), self.size, self.is_torn, self.count, self.before
        self.begin(is_torn=False)
        if size > MOST_BYTES or is_too_long(words):
            self.tally.add(counts.TOO_LONG)
            self.lose(count, before)
            return None
        if is_torn and size and not is_whole(words, self.hosts):
            self.tally.add(counts.PART_OF_MESSAGE)
            return None
        self.hosts.update(words[1:2])
        return words

    def broken(self, words):
        """Why this message does not continue its sender's last one. A NOP does not count, so a restart is reported at the message after it."""
        if self.lost:
            broken = Break(f"{self.lost} datagrams lost", self.lost_after)
            self.lost, self.anew = 0, None
            return broken
        if not self.anew or is_nop(words):
            return None
        reason, self.anew = self.anew, None
        if kind_of(words) == INTERFACE_RESET:
            self.tally.add(counts.IMP_RESTARTED)
            return None
        return Break(reason)


class Joiner:
    """All senders."""

    def __init__(self, lines, tally):
        self.lines, self.tally = lines, tally
        self.flows = {}
        self.starts = set()
        self.datagrams = 0

    def take(self, datagram):
        """The message that a datagram ends, if it ends one."""
        payload = datagram.payload
        if not payload.startswith(MAGIC):  # another in one frame with it
            return None
        if len(payload) < HEAD.size:
            self.tally.add(counts.TOO_SHORT)
            return None
        self.datagrams += 1
        flow = self.flows.get(datagram.ends) or self.new_flow(*datagram.ends)
        if not flow:
            return None
        if datagram.is_cut:
            self.tally.add(counts.CUT_SHORT)
        elif len(payload) - HEAD.size != 2 * int.from_bytes(payload[8:10], "big"):
            self.tally.add(counts.WRONG_COUNT)
        else:
            return flow.take(self.datagrams, datagram.time, payload)
        return None

    def new_flow(self, source, sink):
        """The flow from one end to another, if it is one of a host interface."""
        if len(self.flows) >= MOST_SENDERS:
            self.tally.add(counts.TOO_MANY_SENDERS)
            return None
        flow = Flow(source, sink, self.lines.hosts.values(), self.starts, self.tally)
        if not self.lines.admits(flow):
            return None
        self.flows[source, sink] = flow
        return flow
