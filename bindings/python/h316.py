# SPDX-License-Identifier: MIT
"""The line between a host and the IMP of an H316 simulator, over UDP datagrams: examples/embed/h316.h in Python, with its README.

A datagram is `H316`, a sequence number, a count of words and flags, and words of 16 bits, the most significant byte first. A message is
the words of the datagrams up to one with the flag FINAL, filled up with zeros to a whole word."""
from __future__ import annotations

import socket
import struct
from typing import Optional, Union

import ncp

HEAD = struct.Struct(">4sIHH")
MAGIC = b"H316"
FINAL, READY = 1, 2
PART = 128  # bytes of a message in a datagram
AHEAD = 16  # how many datagrams may be lost, at most, if the next one is to be accepted at once
NUMBERS = 2**32  # the last sequence number is followed by 0
NOP = b"\4\0\0\0"
NOPS = 3  # how many, on coming up
# Bytes of a regular message before its text (NIC 8246): the leader, a zero, the byte size, the count of bytes, a zero.
BEFORE_TEXT, SIZE, COUNT = 9, 5, slice(6, 8)


def without_padding(message: bytes) -> ncp.Bits:
    """The bits of a message, without what fills up its last word."""
    bits = 8 * len(message)
    if message[0] & 15 == 0 and len(message) >= BEFORE_TEXT:
        bits = min(bits, 8 * BEFORE_TEXT + message[SIZE] * int.from_bytes(message[COUNT], "big"))
    whole, spare = message[:(bits + 7) // 8], -bits % 8
    return ncp.Bits(whole[:-1] + bytes([whole[-1] >> spare << spare]), bits)


class Line:
    """A line from a port here to one there, both of 127.0.0.1. `dropped` counts the datagrams that were of no use."""

    def __init__(self, here: int, there: int) -> None:
        """OSError if the port is in use, OverflowError if it is none."""
        self.socket = socket.socket(socket.AF_INET, socket.SOCK_DGRAM)
        try:
            self.socket.bind(("127.0.0.1", here))
            self.socket.connect(("127.0.0.1", there))
        except BaseException:
            self.socket.close()
            raise
        self.is_ready = False  # whether the other end is ready, by its last datagram
        self.dropped = 0
        self._next = 0  # the sequence number of the next datagram
        self._taken: Optional[int] = None  # that of the last one that was taken
        self._seen = 0  # and of the last one that arrived
        self._parts = b""

    def close(self) -> None:
        """Announces that this end is no longer ready, and frees the port."""
        self._send(b"", FINAL)
        self.socket.close()

    def fileno(self) -> int:
        return self.socket.fileno()

    def send(self, message: Union[bytes, ncp.Bits]) -> None:
        """Sends a message, as datagrams."""
        data = message.data if isinstance(message, ncp.Bits) else message
        data += bytes(len(data) % 2)
        for at in range(0, len(data), PART):
            self._send(data[at:at + PART], READY | (FINAL if at + PART >= len(data) else 0))

    def send_nops(self) -> None:
        """Sends the messages that both ends send when they come up."""
        for _ in range(NOPS):
            self.send(NOP)

    def _send(self, words: bytes, flags: int) -> None:
        try:
            self.socket.send(HEAD.pack(MAGIC, self._next, len(words) // 2, flags) + words)
        except ConnectionRefusedError:
            pass  # nobody listens yet: it is lost
        self._next = (self._next + 1) % NUMBERS

    def receive(self) -> Optional[ncp.Bits]:
        """Waits for a datagram, and returns the message that it ends, without padding, or None."""
        try:
            datagram = self.socket.recv(65535)
        except ConnectionRefusedError:
            return None
        words = datagram[HEAD.size:]
        magic, sequence, count, flags = HEAD.unpack(datagram[:HEAD.size]) if len(datagram) >= HEAD.size else (b"", 0, 0, 0)
        if magic != MAGIC or 2 * count != len(words) or not self._is_next(sequence):
            self.dropped += 1
            return None
        if self._taken is None or sequence != (self._taken + 1) % NUMBERS:
            self._parts = b""  # a part is missing, so those before are useless
        self._taken, self.is_ready = sequence, bool(flags & READY)
        self._parts = (self._parts + words)[:ncp.LONGEST_MESSAGE]
        if not flags & FINAL:
            return None
        message, self._parts = self._parts, b""
        return without_padding(message) if message else None

    def _is_next(self, sequence: int) -> bool:
        """Whether a sequence number is acceptable: any at first, then up to AHEAD more than the last accepted one, or 0 or 1, since the
        other end may have restarted. Any other is old or wrong, and accepted only if it follows the last one that arrived."""
        follows, self._seen = sequence == (self._seen + 1) % NUMBERS, sequence
        more = AHEAD if self._taken is None else (sequence - self._taken) % NUMBERS
        return more != 0 and (more <= AHEAD or sequence <= 1 or follows)
