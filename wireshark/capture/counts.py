# SPDX-License-Identifier: MIT
"""Counts of dropped input by reason, and the message for a fatal error."""
import sys

OUT_OF_ORDER = "datagrams out of order, dropped"
TWICE = "datagrams that came twice, taken once"
CUT_SHORT = "datagrams that the snap length cut, taken as lost"
WRONG_COUNT = "datagrams whose count is not that of their words, dropped"
LOST = "datagrams lost"
PART_OF_MESSAGE = "messages of which a part is missing, dropped"
TOO_LONG = "messages of more than 8,192 bits, dropped"
TOO_SHORT = "datagrams that end in the header, dropped"
OTHER_PORT = "datagrams of ports that no --line names, dropped"
OTHER_END = "datagrams between a named port and another end than its IMP, dropped: --line ADDRESS:PORT=HOST tells lines of one port apart"
TOO_MANY_SENDERS = "datagrams of more senders than are followed while hosts are guessed, dropped"
UNKNOWN_HOST = "messages of lines whose host could not be guessed, dropped"
RESTARTED = "senders whose sequence numbers began again"
IMP_RESTARTED = "IMPs that began again and said so (type 10): the segment goes on"
WENT_DOWN = "interfaces that went down"


class Stop(Exception):
    """A fatal error, with a message for the user."""


class Counts:
    """How often each thing happened, in the order in which it was first met."""

    def __init__(self):
        self.times = {}

    def add(self, what, count=1):
        self.times[what] = self.times.get(what, 0) + count

    def report(self):
        for what, count in self.times.items():
            say(f"{count:,} {what}")


def say(sentence):
    print(f"messages: {sentence}", file=sys.stderr, flush=True)
