# SPDX-License-Identifier: MIT
"""Segments: parts of a capture in which no line has a gap.

A loss is detected late, by the next datagram of its sender, and happened some time after the last one. The messages of
other senders in between can be judged neither with those before nor with those after, so messages are delayed for a while.
"""
from __future__ import annotations

import time
from collections import deque
from typing import NamedTuple

from .counts import Stop
from .records import REGULAR, is_nop, kind_of

HELD = 1024  # messages at most
LIVE_SECONDS = 0.25  # the maximal delay of a message that arrived over a pipe, in seconds
MOST_SEGMENTS = 1000


class Cut(NamedTuple):
    """A segment may begin, since of a line something is not known. It does if the segment has more than NOPs of that line, or is
    the first, which is taken to have all from the start on: then a loss does too."""

    line: tuple
    reason: str
    is_loss: bool


class Held:
    """A message with the cuts before it."""

    __slots__ = ("message", "cuts", "came")

    def __init__(self, message, came):
        self.message, self.cuts, self.came = message, [], came


class Segments:
    """Passes messages on to `put(segment, reason, message)`; the reason is of the segment."""

    def __init__(self, put, is_live):
        self.put, self.is_live = put, is_live
        self.held = deque()
        self.segment, self.reason = 1, None
        self.spoken = set()  # lines with more than NOPs in this segment

    def take(self, message):
        held = Held(message, time.monotonic() if self.is_live else None)
        broken = message.broken
        if broken:
            cut = Cut(message.flow.line, broken.reason, broken.after is not None)
            if cut.is_loss:
                self.cut_since(broken.after, cut)
            held.cuts.append(cut)
        self.held.append(held)
        if len(self.held) > HELD:
            self.release()

    def cut_since(self, after, cut):
        """The loss may precede any of the messages since: the first of them begins a segment. One sent on a link whose answer has
        not arrived begins another, since the answer may be what was lost."""
        since = []
        for held in reversed(self.held):
            if held.message.number <= after:
                break
            since.append(held)
        links = set()
        for place, held in enumerate(reversed(since)):
            message = held.message
            link = message.words[1:3] if message.flow.line == cut.line and kind_of(message.words) == REGULAR else None
            if place == 0 or link in links:
                held.cuts.append(cut)
                links = set()
            if link:
                links.add(link)

    def release(self):
        held = self.held.popleft()
        message = held.message
        for cut in held.cuts:
            if cut.line in self.spoken or cut.is_loss and self.segment == 1:
                self.begin(cut.reason)
                break
        if not is_nop(message.words):
            self.spoken.add(message.flow.line)
        self.put(self.segment, self.reason, message)

    def begin(self, reason):
        if self.segment == MOST_SEGMENTS:
            self.held.clear()
            raise Stop(f"more than {MOST_SEGMENTS} segments: so much is missing that nothing can be said of the rest")
        self.segment, self.reason, self.spoken = self.segment + 1, reason, set()

    def release_due(self):
        """Of a pipe: those that were held long enough."""
        while self.is_live and self.held and self.held[0].came + LIVE_SECONDS <= time.monotonic():
            self.release()

    def patience(self):
        """The seconds until the next one is due; None if none is."""
        if not (self.is_live and self.held):
            return None
        return max(0.0, self.held[0].came + LIVE_SECONDS - time.monotonic())

    def end(self):
        while self.held:
            self.release()
