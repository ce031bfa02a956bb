#!/usr/bin/env python3
"""Captures by hand of interface resets, errors in messages, NOPs and padding, with the findings and connections that are wanted.

    wireshark/testing/resets.py [LUA]

Each is judged by the plugin in plain Lua, without Wireshark; run.py judges them in Wireshark too.
"""
import os
import subprocess
import sys
import tempfile
from typing import NamedTuple

from captures import NOP, RRP, RST, Capture, all_, eco, erp, err, regular, rts, str_
from records import message

HERE = os.path.dirname(os.path.abspath(__file__))
RFNM, DEAD, ERROR, INCOMPLETE, RESET = 5, 7, 8, 9, 10
TEXT = b"abc"
STR = str_(3, 2, 8)


class Row(NamedTuple):
    title: str
    words: str  # of `ncp`
    capture: Capture
    wanted: list


def sender(number, opened, late=0, allowed=(1, 24)):
    """The lines of `follow` for the connection at host 1, which sent `abc` once."""
    return [f"{number} at=1 host=2 send local=3 remote=2 link=2 size=8 opened={opened} ended=- by=end messages=1 bits=24 late={late} "
            f"granted={allowed[0]}/{allowed[1]} returned=0/0", "  text bits=24 616263"]


def receiver(number, opened, times=1, late=0, allowed=(1, 24)):
    """And at host 2, which received it so often."""
    return [f"{number} at=2 host=1 receive local=2 remote=3 link=2 size=8 opened={opened} ended=- by=end messages={times} bits={24 * times} late={late} "
            f"granted={allowed[0]}/{allowed[1]} returned=0/0", f"  text bits={24 * times} " + "616263" * times]


class Wire(Capture):
    """Records at the interfaces of host 1 and host 2; `sent` and `came` are control messages of or to host 1."""

    def up(self):
        """The two hosts are up, at the interface of host 1: records 1 to 3."""
        self.begin()
        return self

    def up_both(self):
        """The same at both interfaces: records 1 to 6."""
        self.both(1, 2, RST)
        self.both(2, 1, RRP)
        return self

    def sent(self, *commands, answered=True):
        self.out(1, 2, 0, 8, b"".join(commands), answered)

    def came(self, *commands):
        self.come(1, 2, 0, 8, b"".join(commands))

    def both(self, here, there, *commands):
        """A control message that is sent, delivered and answered."""
        self.out(here, there, 0, 8, b"".join(commands), answered=False)
        self.come(there, here, 0, 8, b"".join(commands))
        self.answer(here, there, 0)

    def opened(self):
        """Host 1 may send 24 bits on link 2, at its interface: records 4 to 7."""
        self.sent(STR)
        self.came(rts(2, 3, 2))
        self.came(all_(2, 1, 24))
        return self

    def opened_both(self, messages=1, bits=24):
        """The same at both interfaces: records 7 to 15."""
        self.both(1, 2, STR)
        self.both(2, 1, rts(2, 3, 2))
        self.both(2, 1, all_(2, messages, bits))
        return self

    def text(self, answered=False, text=TEXT, at=1, host=2):
        self.out(at, host, 2, 8, text, answered)

    def text_came(self, text=TEXT):
        self.come(2, 1, 2, 8, text)

    def reset(self, at=1):
        """Type 10."""
        self.add("I", at, 32, bytes([RESET, 0, 0, 0]))

    def error(self, link, at=1, host=2):
        """Type 8."""
        self.answer(at, host, link, ERROR)


def table():
    """The worked rows, by their numbers. The doubt of a pair has no end: so R10 and R11 find nothing."""
    wire = Wire().up().opened()
    wire.text()
    wire.reset()
    wire.text(answered=True)
    yield "R1: a text that was lost, sent again", wire, [], sender(1, 6)

    wire = Wire().up_both().opened_both()
    wire.text()
    wire.text_came()
    wire.reset()
    wire.text()
    wire.text_came()
    wire.answer(1, 2, 2)
    yield "R2: at both interfaces, a text that had arrived arrives again", wire, [], receiver(1, 10, late=1) + sender(2, 11)

    wire = Wire().up()
    wire.sent(STR, answered=False)
    wire.reset()
    wire.sent(STR)
    wire.came(err(3, STR))
    yield "R3: a request that arrived twice: ERR 3 is no fault of host 2", wire, [], []

    wire = Wire()
    wire.sent(RST, answered=False)
    wire.reset()
    wire.sent(RST)
    wire.came(RRP)
    wire.came(RRP)
    yield "R4: an RST that arrived twice: two RRPs", wire, [], []

    wire = Wire().up()
    wire.sent(eco(1), answered=False)
    wire.reset()
    wire.sent(eco(2))
    yield "R5: another message in place of the one in doubt", wire, ["6 at=1 host=1 changed link=0"], []

    wire = Wire().up()
    wire.sent(eco(1), answered=False)
    wire.reset()
    wire.sent(eco(1), answered=False)
    wire.sent(eco(1), answered=False)
    yield "R6: sent again twice without an answer", wire, ["7 at=1 host=1 occupied link=0", "7 at=1 host=1 eco-again ECO data=1"], []

    wire = Wire().up()
    wire.sent(eco(1), answered=False)
    wire.reset()
    wire.answer(1, 2, 0)
    wire.came(erp(1))
    wire.sent(eco(2))
    yield "R7: a host that does not heed the reset, and an RFNM after it", wire, [], []

    wire = Wire().up()
    wire.sent(eco(1), answered=False)
    wire.reset()
    wire.answer(1, 2, 0)
    wire.sent(eco(1))
    yield "R8: a host that heeds it, and an RFNM before it sends again", wire, [], []

    wire = Wire().up().opened()
    wire.text()
    wire.error(2)
    wire.text(answered=True)
    yield "R9: an error in a text, which is sent again", wire, [], sender(1, 6)

    wire = Wire().up().opened()
    wire.reset()
    wire.came(erp(7))
    wire.sent(RST)
    wire.came(erp(7))
    wire.came(RRP)
    wire.came(erp(7))
    yield "R10: host 2 is not judged at the interface of host 1 after a reset of both hosts either", wire, [], None

    wire = Wire()
    wire.sent(RST, answered=False)
    wire.reset()
    for said in ((RST,), (RRP,), (RST,), (RRP,), (erp(7),), (eco(5),), (erp(5),), (RST,), (RRP,), (erp(7),)):
        (wire.sent if said[0][0] in (RST[0], eco(5)[0]) else wire.came)(*said)
    yield "R11: nor if an RST was in doubt", wire, [], []

    wire = Wire()
    wire.reset()
    wire.reset()
    wire.up()
    wire.came(erp(7))
    yield "R12: nothing was said yet: host 2 is judged", wire, ["6 at=1 host=2 erp-unasked ERP data=7"], []

    wire = Wire().up_both()
    wire.sent(eco(1), answered=False)
    wire.reset()
    wire.sent(eco(1), answered=False)
    wire.come(2, 1, 0, 8, eco(1))
    wire.come(2, 1, 0, 8, eco(1))
    wire.answer(1, 2, 0)
    wire.both(1, 2, NOP)
    wire.come(2, 1, 0, 8, eco(1))
    yield "R13: a copy may arrive until the next message, not after it", wire, ["16 at=2 imp unsent host=1 link=0 not-out"], []

    wire = Wire().up_both()
    wire.out(2, 1, 0, 8, eco(1), answered=False)
    wire.came(eco(1))
    wire.reset()
    wire.answer(2, 1, 0, INCOMPLETE)
    wire.both(2, 1, eco(1))
    wire.both(1, 2, erp(1), erp(1))
    yield "R14: Incomplete Transmission for what arrived at the host whose interface was reset", wire, [], []

    wire = Wire().up().opened()
    wire.text()
    wire.reset()
    wire.text(answered=True)
    wire.text()
    yield "R15: host 1 is judged at its own interface all the while", wire, ["12 at=1 host=1 text-over link=2 messages=1 of=0 bits=24 of=0"], sender(1, 6, late=1)

    wire = Wire()
    wire.reset(at=0)
    yield "R16: a reset at host 0", wire, [], []


def more():
    """Each sentence of the rule that no row above needs, and both sides of it."""
    wire = Wire().up_both().opened_both()
    wire.text()
    wire.reset()
    wire.text()
    wire.text_came(b"abd")
    yield "while a copy may arrive, an altered message is none", wire, [], None

    wire = Wire().up_both().opened_both()
    wire.text()
    wire.error(2)
    wire.text()
    wire.text_came(b"abd")
    yield "after an error in it it is", wire, ["19 at=2 imp unsent host=1 link=2 altered"], None

    wire = Wire().up_both().opened_both()
    wire.text()
    wire.error(2)
    wire.text()
    wire.text_came()
    wire.text_came()
    yield "after an error in a message there are no copies of it", wire, ["20 at=2 imp unsent host=1 link=2 twice", "20 at=2 host=1 text-over link=2 messages=1 of=0 bits=24 of=0"], None

    wire = Wire().up_both().opened_both()
    wire.text()
    wire.text_came()
    wire.error(2)
    wire.answer(1, 2, 2, INCOMPLETE)
    yield "nor is an answer to it right that is wrong", wire, ["19 at=1 imp false-answer type=9 host=2 link=2 came"], None

    wire = Wire().up_both().opened_both()
    wire.text()
    wire.text_came()
    wire.reset()
    wire.answer(1, 2, 2, DEAD)
    wire.text_came()
    wire.text()
    wire.answer(1, 2, 2)
    wire.answer(1, 2, 2)
    yield "an answer to a message in doubt is no false one; one too many is stray", wire, ["23 at=1 imp stray type=5 link=2"], None

    wire = Wire().up_both()
    wire.out(2, 1, 0, 8, eco(1), answered=False)
    wire.reset()
    wire.answer(2, 1, 0)
    wire.came(eco(1))
    yield "an RFNM ends the doubt of a message toward the host", wire, ["10 at=1 imp unsent host=2 link=0 not-out"], None

    wire = Wire().up()
    wire.sent(eco(1), answered=False)
    wire.reset()
    wire.answer(1, 2, 0)
    wire.out(1, 3, 2, 8, b"", answered=False)
    wire.out(1, 3, 2, 8, b"a", answered=False)
    wire.sent(NOP)
    wire.out(1, 3, 2, 8, b"b", answered=False)
    yield "a host that got an RFNM for what it may send again is not judged at its own interface", wire, [], None

    wire = Wire().up()
    wire.reset()
    wire.come(1, 2, 0, 7, b"")
    wire.come(1, 2, 72, 8, b"a")
    wire.come(1, 2, 2, 8, b"")
    wire.came(b"\xff")
    wire.came(erp(7))
    wire.come(1, 3, 0, 8, erp(7))
    yield "of a host in doubt the layout is judged; of another one all", wire, [
        "5 at=1 host=2 wrong-size size=7", "6 at=1 host=2 wrong-link link=72", "7 at=1 host=2 extras flags=0 low=0 text=0 rest=0",
        "8 at=1 host=2 bad code=1 data=ff000000000000000000", "10 at=1 host=3 early ERP began=0 wait=0 owe=0"], None

    wire = Wire().up_both()
    wire.reset()
    wire.both(1, 2, erp(7))
    wire.sent(eco(1))
    yield "at the other interface the host is not judged, and at its own it is", wire, ["8 at=1 host=1 erp-unasked ERP data=7", "12 at=1 imp false-answer type=5 host=2 link=0 not-come"], None

    wire = Wire().up().opened()
    wire.text(answered=True)
    wire.error(2)
    wire.came(erp(7))
    wire.text()
    yield "an error on a link on which nothing is outstanding changes nothing", wire, ["11 at=1 host=2 erp-unasked ERP data=7", "12 at=1 host=1 text-over link=2 messages=1 of=0 bits=24 of=0"], None

    wire = Wire().up()
    wire.sent(eco(1), answered=False)
    wire.error(0)
    wire.sent(eco(2))
    yield "another message in place of one with an error", wire, ["6 at=1 host=1 changed link=0"], None

    wire = Wire().up().opened()
    wire.text()
    wire.error(2)
    wire.answer(1, 2, 2)
    wire.text()
    yield "a host that heeds an error, and an RFNM", wire, [], sender(1, 6)

    wire = Wire().up_both().opened_both(messages=2, bits=48)
    wire.text()
    wire.text_came()
    wire.reset()
    wire.text()
    wire.text_came()
    wire.answer(1, 2, 2)
    yield "a text that arrives twice within the allocation: the sender's once, the receiver's twice", wire, [], receiver(1, 10, times=2, allowed=(2, 48)) + sender(2, 11, allowed=(2, 48))

    wire = Wire().up().opened()
    wire.text()
    wire.reset()
    wire.reset()
    wire.text()
    wire.reset()
    wire.text(answered=True)
    wire.text()
    yield "a text that is sent again after each of three resets", wire, ["15 at=1 host=1 text-over link=2 messages=1 of=0 bits=24 of=0"], sender(1, 6, late=1)

    wire = Wire()
    wire.sent(RST)
    wire.came(RRP)
    wire.came(erp(7))
    wire.reset(at=3)
    wire.came(erp(7))
    yield "a reset at another interface changes nothing", wire, ["4 at=1 host=2 erp-unasked ERP data=7", "6 at=1 host=2 erp-unasked ERP data=7"], None

    wire = Wire().up()
    wire.add("H", 1, 32, bytes([RESET, 2, 0, 0]))
    wire.add("H", 1, 32, bytes([ERROR, 2, 0, 0]))
    wire.came(erp(7))
    yield "a host says neither type", wire, ["4 at=1 host=1 kind type=10", "5 at=1 host=1 kind type=8", "6 at=1 host=2 erp-unasked ERP data=7"], None

    wire = Wire().up()
    wire.sent(eco(1), answered=False)
    wire.error(0)
    wire.answer(1, 2, 0)
    wire.came(erp(1))
    wire.came(erp(7))
    wire.sent(eco(1))
    wire.came(erp(1))
    wire.came(erp(7))
    yield "an error puts no pair in doubt, even if the host sends again what was answered", wire, [
        "8 at=1 host=2 erp-unasked ERP data=7", "12 at=1 host=2 erp-unasked ERP data=7"], None

    wire = Wire()
    wire.sent(NOP, answered=False)
    wire.reset()
    wire.came(erp(7))
    yield "nor need a host have begun: a message in doubt suffices", wire, ["1 at=1 host=1 early NOP began=0 wait=0 owe=0"], None

    wire = Wire().up_both()
    wire.out(2, 1, 0, 8, eco(1), answered=False)
    wire.error(0, at=2, host=1)
    wire.reset()
    wire.both(2, 1, eco(1))
    yield "an error in a message, and then a reset of the host that it was for", wire, [], None

    wire = Wire().up_both().opened_both()
    wire.text()
    wire.reset()
    wire.error(2)
    wire.reset()
    wire.text()
    wire.text_came()
    wire.text_came()
    yield "a reset, an error and a reset: copies may arrive", wire, [], None

    wire = Wire().up_both().opened_both(messages=4, bits=96)
    wire.text()
    wire.reset()
    wire.text()
    wire.error(2)
    wire.text()
    wire.text_came()
    wire.text_came()
    wire.answer(1, 2, 2)
    yield "a reset and an error in what is sent again: copies may arrive", wire, [], None

    wire = Wire().up_both().opened_both(messages=4, bits=96)
    wire.text()
    wire.reset()
    wire.text(text=b"abd")
    wire.text_came(b"abd")
    wire.text_came(b"abd")
    yield "another message in place of the one in doubt, of which copies may still arrive", wire, ["18 at=1 host=1 changed link=2"], None

    wire = Wire().up()
    wire.sent(eco(1), answered=False)
    wire.reset()
    wire.answer(1, 2, 0, INCOMPLETE)
    wire.answer(1, 2, 0)
    wire.sent(eco(1))
    wire.sent(eco(2))
    yield "after Incomplete Transmission an RFNM is stray, and the host is judged", wire, ["7 at=1 imp stray type=5 link=0", "10 at=1 host=1 eco-again ECO data=2"], None

    wire = Wire().up().opened()
    wire.text()
    wire.reset()
    wire.text()
    wire.text()
    yield "a text that is sent twice after a reset: the second is a new one", wire, ["11 at=1 host=1 occupied link=2", "11 at=1 host=1 text-over link=2 messages=1 of=0 bits=24 of=0"], sender(1, 6, late=1)


def nops():
    wire = Wire()
    for host in (2, 1, 0, 255):
        wire.add("H", 1, 32, bytes([4, host, 0, 0]))
        wire.add("I", 1, 32, bytes([4, host, 0, 0]))
    wire.add("H", 1, 48, bytes([0xF4, 2, 9, 9, 1, 2]))
    wire.add("H", 1, 32, bytes([3, 2, 0, 0]))
    wire.add("H", 1, 31, bytes([4, 2, 0, 0]))
    yield "NOPs from a host and from its IMP, whatever host they name", wire, ["10 at=1 host=1 kind type=3", "11 at=1 host=1 short bits=31"], None


EARLY = "1 at=1 host=1 early text began=0 wait=0 owe=0"


def padded(bits, ones=(), link=2, flags=0, low=0, size=8, text=b"a", count=None, missing=0):
    """A message with `bits` bits after its text, of which these are ones; `missing` bytes of the text are not there."""
    whole, data = regular(2, link, size, text, count)
    longer = bytearray(data.ljust(-(-(whole + bits) // 8), b"\0"))
    for one in ones:
        longer[(whole + one) // 8] |= 0x80 >> (whole + one) % 8
    longer[0], longer[3], longer[7] = flags << 4, low, longer[7] + missing
    return message(whole + bits, bytes(longer))


def extras(number, text, rest, flags=0, low=0):
    return f"{number} at=1 host=1 extras flags={flags} low={low} text={text} rest={rest}"


def paddings():
    right = [(0, ()), (1, ()), (1, (0,))] + [(bits, ones) for bits in (2, 35, 51, 52) for ones in ((), (0,), (1,), (bits - 1,))]
    wrong = [(bits, ones) for bits in (53, 60, 100) for ones in ((), (0,))]
    wrong += [(bits, ones) for bits in (2, 35, 51, 52) for ones in ((0, bits - 1), range(bits))]
    wire = Wire()
    for bits, ones in right + wrong:
        wire.add("H", 1, *padded(bits, ones))
        wire.answer(1, 2, 2)
    first = 2 * len(right) + 1
    yield "bits after a text", wire, [EARLY] + [extras(first + 2 * place, 8, bits) for place, (bits, _) in enumerate(wrong)], None

    wire, found = Wire(), [EARLY]
    for bits in range(1, 9):
        for ones in ((1,), (0, 1)):
            wire.add("H", 1, *padded(52 - bits, ones, size=1, text=b"\xff", count=bits))
            wire.answer(1, 2, 2)
        found.append(extras(4 * bits - 1, bits, 52 - bits))
    yield "bits after a text that ends within a byte", wire, found, None

    wire = Wire()
    for more in ({"flags": 1}, {"low": 1}, {"text": b""}, {"text": bytes(992)}):
        wire.add("H", 1, *padded(8, **more))
        wire.answer(1, 2, 2)
    yield "padding hides nothing else", wire, [extras(1, 8, 0, flags=1), EARLY, extras(3, 8, 0, low=1), extras(5, 0, 0), extras(7, 7936, 0)], None

    wire = Wire().up()
    wire.add("I", 1, *padded(52, (0,), link=0, text=NOP))
    wire.add("I", 1, *padded(52, (0, 2), link=0, text=NOP))
    for bits in (0, 3, 7):
        wire.add("H", 1, *padded(bits, link=0, text=b"", missing=1))
        wire.answer(1, 2, 0)
    yield "bits after a control text, and a text that is not whole", wire, ["5 at=1 host=2 extras flags=0 low=0 text=8 rest=52"] + [
        f"{number} at=1 host=1 fault name=TextMissing link=0" for number in (6, 8, 10)], None


def part():
    wire = Wire()
    wire.sent(NOP)
    wire.sent(NOP)
    wire.sent(RST)
    wire.came(RRP)
    wire.came(erp(7))
    yield "a capture that begins in the middle", wire, ["8 at=1 host=2 erp-unasked ERP data=7"]

    after = Wire()
    after.reset()
    after.parts += wire.parts[1:]
    yield "with a reset first: the two hosts may have begun before", after, []


def rows():
    for title, wire, found, followed in (*table(), *more(), *nops(), *paddings()):
        yield Row(title, "audit", wire, found)
        if followed is not None:
            yield Row(title, "follow", wire, followed)
    for title, wire, found in part():
        yield Row(title, "audit --part", wire, found)


def found_by(lua, words, path):
    """The lines of the plugin in plain Lua for a file, as `ncp` prints them with these words; and errors."""
    kinds = ("C ", "er") if "follow" in words else ("S ", "er") if "--standard" in words else ("S ", "P ", "er")
    alone = [lua, os.path.join(HERE, "alone.lua"), os.path.join(HERE, "..", "plugin"), "part" if "--part" in words else "whole", path]
    done = subprocess.run(alone, capture_output=True, text=True, check=False)
    return [line[2:] for line in done.stdout.splitlines() if line[:2] in kinds] + done.stderr.splitlines()


def main():
    lua, wrong = (sys.argv[1:] or ["lua5.2"])[0], 0
    with tempfile.TemporaryDirectory() as folder:
        path = os.path.join(folder, "row.ncp")
        for row in rows():
            with open(path, "wb") as file:
                file.write(bytes(row.capture))
            got = found_by(lua, row.words, path)
            if got != row.wanted:
                wrong += 1
                print(f"{row.title} ({row.words}):\n  wanted {row.wanted}\n  got    {got}")
    print(f"resets: {wrong} of {len(list(rows()))} differ")
    return 1 if wrong else 0


if __name__ == "__main__":
    sys.exit(main())
