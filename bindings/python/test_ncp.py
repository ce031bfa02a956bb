# SPDX-License-Identifier: MIT
"""The binding: refusals, what is answered, captures and events, which library it loads; two_hosts.py prints what the example in C
prints; and the examples of README.md are as they print."""
import array
import contextlib
import doctest
import io
import itertools
import mmap
import os
import pickle
import random
import re
import shutil
import signal
import struct
import subprocess
import sys
import tempfile
import threading
import unittest
from pathlib import Path

import ncp
import two_hosts

HERE = Path(__file__).resolve().parent
TOP = HERE.parent.parent
RST, RRP, RFNM = "0002000000080001000c", "0002000000080001000d", "05020000"


def up_with(peer):
    """A host that is up with a peer, with nothing queued for it."""
    host = ncp.Host(1, [peer])
    host.receive(bytes([0, peer]) + bytes.fromhex("000000080001000c"))
    list(host.outputs())
    host.receive(bytes([5, peer, 0, 0]))
    return host


def fill(test, host, peer, room):
    """Brings a host up with a peer, and fills all that it keeps for it: 128 connections, half of them asked for by each, with full rooms;
    16 errors; a control message that is held; and 512 commands after it."""
    def arrive(link, data):
        return host.receive(bytes([0, peer, link, 0, 0, 8, len(data) >> 8, len(data) & 255, 0]) + data)

    def request(code, there, here, last):
        arrive(0, struct.pack(">BIIB", code, there, here, last))

    host.reset(peer)
    list(host.outputs())
    host.receive(bytes([5, peer, 0, 0]))
    arrive(0, b"\15")
    for k in range(0, 64, 2):
        host.ask_send(peer, k + 1, k, 8, room)
        host.ask_receive(peer, k, k + 1, room)
        request(1, k, k + 1, 2 + k // 2)
        request(2, k + 1, k, 8)
    for k in range(64):
        request(2, 2 * k + 1, 254, 8)
    for k in range(0, 64, 2):
        for _ in range(8):
            host.give(peer, k + 1, k, bytes(1024))
        with test.assertRaises(ncp.NoRoom):
            host.give(peer, k + 1, k, b"\0")
        host.allocate(peer, k, k + 1, 9, room)
        link = host.state(peer, k, k + 1).link
        for start in range(0, room // 8, 1000):
            arrive(link, bytes(min(1000, room // 8 - start)))
        test.assertEqual(host.state(peer, k, k + 1).stored, room)
    for _ in range(17):
        arrive(0, b"\13\3" + bytes(10))
    while message := host.next_output():
        if message.link == 0:
            host.receive(bytes([7, peer, 0, 0]))
    free = 512 - len(host.waiting(peer))
    for start in range(0, free, 50):
        arrive(0, b"\11A" * min(50, free - start))


def carry(hosts, subnet):
    """Passes each message of the hosts, as the loop of a program at each does: receive, then send what is ready. Returns whether there was one."""
    moved = False
    for one in hosts:
        for message in one.outputs():
            moved, way = True, (one.me, message.host, message.link)
            subnet.accept(one.me, message)
            other = next(it for it in hosts if it.me == message.host)
            other.receive(subnet.deliver(*way))
            one.receive(subnet.answer(*way))
    return moved


def two_with_a_connection(room=64, messages=9, bits=64, size=8):
    """Two hosts; host 1 may send from its socket 3 to socket 2 of host 2, without pending events; and the subnet."""
    a, b, subnet = ncp.Host(1, [2]), ncp.Host(2, [1]), ncp.Subnet([1, 2])
    hosts = a, b
    a.reset(2)
    while carry(hosts, subnet):
        pass
    b.ask_receive(1, 2, 3, room)
    a.ask_send(2, 3, 2, size, room)
    while carry(hosts, subnet):
        pass
    b.allocate(1, 2, 3, messages, bits)
    while carry(hosts, subnet):
        pass
    list(a.events()), list(b.events())
    return hosts, subnet


class Number:
    """A number that is no int, as numpy has them."""

    def __init__(self, number):
        self.number = number

    def __index__(self):
        return self.number


class Liar(bytes):
    def __len__(self):
        return 1


class Interrupted(ncp.Host):
    """A host that another thread calls while it is saved."""

    def _answer(self, name, *words):
        number = super()._answer(name, *words)
        if name == "save" and words[1] == 0 and hasattr(self, "other") and not self.other.ident:
            self.other.start()
            self.other.join(0.2)
        return number


class Binding(unittest.TestCase):
    def test_two_hosts(self):
        said = io.StringIO()
        with contextlib.redirect_stdout(said):
            two_hosts.main()
        self.assertEqual(said.getvalue(), (HERE.parent.parent / "examples/embed/two_hosts.txt").read_text(encoding="utf-8"))
        ran = subprocess.run([sys.executable, HERE / "two_hosts.py"], stdout=subprocess.PIPE, text=True, check=True)
        self.assertEqual(ran.stdout, said.getvalue())

    def test_refusals_have_their_names_and_numbers(self):
        host = ncp.Host(1, [2])
        for name, number, call in (
            ("UnknownPeer", 1, lambda: host.reset(3)), ("NotUp", 2, lambda: host.ask_send(2, 3, 2)), ("BadPeers", 65, lambda: ncp.Host(1, [1])),
            ("BadPeers", 65, lambda: ncp.Host(1, range(2, 11))), ("TooLong", 41, lambda: host.receive(bytes(1025))),
            ("ShortBytes", 42, lambda: host.receive(b"\0", 9)), ("SpareNotZero", 43, lambda: host.receive(b"\1", 7)),
            ("UnknownPeer", 1, lambda: host.state(3, 2, 3)), ("UnknownPeer", 1, lambda: host.errors(3)),
        ):
            with self.assertRaises(getattr(ncp, name)) as found:
                call()
            self.assertEqual(found.exception.number, number)
            self.assertIsInstance(found.exception, ncp.Refused)

    def test_numbers_that_have_no_place(self):
        host = ncp.Host(1, [2])
        for call in (lambda: host.reset(258), lambda: host.reset(-1), lambda: host.ask_send(2, 1 << 32, 2), lambda: host.allocate(2, 3, 2, 1 << 16, 8)):
            with self.assertRaises(OverflowError):
                call()

    def test_what_can_be_an_index_is_judged_as_a_number(self):
        host = ncp.Host(Number(1), [Number(2)])
        self.assertEqual((host.me, host.peers), (1, (2,)))
        host.reset(Number(2))
        for call in (lambda: host.reset(Number(258)), lambda: host.receive(bytes(4), Number(1 << 64)), lambda: ncp.Host(1, [258]),
                     lambda: ncp.commands(bytes(4), -1), lambda: ncp.Subnet([1, 256])):
            with self.assertRaises(OverflowError):
                call()
        for call in (lambda: host.reset(2.0), lambda: host.receive(bytes(4), 32.0), lambda: host.echo(2, "A")):
            with self.assertRaises(TypeError):
                call()

    def test_bytes_are_those_of_the_buffer(self):
        host = up_with(2)
        host.ask_receive(2, 2, 3, room=64)
        # The peer's STR, as five items of sixteen bits, and as ten with a wrong len.
        text = bytes.fromhex("000200000008000a00" "02" "00000003" "00000002" "08")
        self.assertEqual(host.receive(array.array("B", text)).what, "control")
        host.allocate(2, 2, 3, 4, 64)
        words = array.array("H", bytes.fromhex("000202000008000200" "6869" "00"))
        self.assertEqual(host.receive(words), ("text", 1, 2, 2, 2, 3, 0, 0, 0))
        self.assertEqual(host.take(2, 2, 3), (b"hi", 16))
        self.assertEqual(host.receive(Liar(bytes.fromhex("000202000008000200" "6869"))).what, "text")
        self.assertEqual(host.receive(ncp.Bits(Liar(bytes.fromhex("000202000008000200" "6869")), 88)).what, "text")
        with self.assertRaises(ncp.ShortBytes):
            host.receive(ncp.Bits(Liar(b"\0\2\0\0"), 8000))
        self.assertEqual(ncp.Host.load(Liar(host.save())).save(), host.save())
        self.assertEqual(host.receive(array.array("H")).what, "short")
        with self.assertRaises(TypeError):
            host.receive(4)

    def test_a_host_is_saved_while_another_thread_calls_it(self):
        host = Interrupted(1, [2])
        host.receive(bytes.fromhex(RST))
        before = ncp.Host.save(host)
        host.other = threading.Thread(target=host.echo, args=(2, 65))
        self.assertEqual(host.save(), before)
        host.other.join()
        self.assertEqual(host.waiting(2)[-1], b"\x09\x41")
        self.assertGreater(len(host.save()), len(before))

    def test_nothing_grows_if_nobody_asks_for_events(self):
        host = up_with(2)
        for each in range(1000):
            # The peer asks to send, is answered, and both close.
            local, remote = 2 * each, 2 * each + 1
            both = remote.to_bytes(4, "big") + local.to_bytes(4, "big")
            host.receive(bytes.fromhex("000200000008000a00" "02") + both + b"\x08")
            host.ask_receive(2, local, remote, room=64)
            host.close(2, local, remote)
            for message in host.outputs():
                host.receive(bytes([5, *message.data[1:3], 0]))
            host.receive(bytes.fromhex("000200000008000900" "03") + both)
        self.assertEqual(host.connections(2), [])
        self.assertLessEqual(len(host._known), 256)
        # What is there is an event nevertheless, and what ended of late.
        host.ask_receive(2, 2, 3, room=64)
        host.receive(bytes.fromhex("000200000008000a00" "02" "00000003" "00000002" "08"))
        given = list(host.events())
        self.assertIn(("opened", 2, 2, 3, None), given)
        self.assertIn(("closed", 2, 1998, 1999, None), given)

    def test_two_go_through_the_events_at_once(self):
        host = up_with(2)
        list(host.events())
        for local in 2, 4:
            host.ask_receive(2, local, 3, room=64)
        # The peer refuses both.
        host.receive(bytes.fromhex("000200000008001200" "03" "00000003" "00000002" "03" "00000003" "00000004"))
        one, other = host.events(), host.events()
        given = [next(one), next(other), *one, *other]
        self.assertEqual(sorted(given), [("refused", 2, 2, 3, None), ("refused", 2, 4, 3, None)])

    def test_no_host_once_it_is_free(self):
        with ncp.Host(1, [2]) as host:
            host.reset(2)
        host.free()
        with self.assertRaises(ncp.NoHost):
            host.reset(2)

    def test_a_copy_is_another_host(self):
        host = up_with(2)
        host.ask_receive(2, 2, 3, room=64)
        list(host.events())
        copy = host.copy()
        self.assertEqual((copy.me, copy.peers, list(copy.events())), (1, (2,), []))
        self.assertEqual(copy.connections(2), host.connections(2))
        # What is refused there is not refused here.
        copy.receive(bytes.fromhex("000200000008000900" "03" "00000003" "00000002"))
        self.assertEqual([it.what for it in copy.events()], ["refused"])
        self.assertEqual((list(host.events()), host.state(2, 2, 3).asked), ([], True))
        host.free()
        self.assertEqual([it.data.hex() for it in copy.outputs()],
                         ["000200000008001300" "01" "00000002" "00000003" "02" "03" "00000002" "00000003"])  # an RTS and a CLS
        with self.assertRaises(ncp.NoHost):
            host.copy()

    def test_a_host_is_saved_and_loaded(self):
        host = up_with(2)
        host.ask_receive(2, 2, 3, room=64)
        saved = host.save()
        self.assertEqual(saved[:10], b"NCP host\1\1")
        for again in (ncp.Host.load(saved), pickle.loads(pickle.dumps(host))):
            self.assertEqual((again.me, again.peers, again.save()), (1, (2,), saved))
            self.assertEqual((again.connections(2), again.waiting(2)), (host.connections(2), host.waiting(2)))
        for name, data in (("NotAHost", b""), ("NotAHost", saved[:-1]), ("NotAHost", saved + b"\0"), ("OtherVersion", b"NCP host\2")):
            with self.assertRaises(getattr(ncp, name)):
                ncp.Host.load(data)

    def test_a_host_at_every_limit_is_saved_and_loaded(self):
        peers, room = range(2, 10), 65536
        host = ncp.Host(1, peers)
        for peer in peers:
            fill(self, host, peer, room)
        self.assertEqual([len(host.connections(peer)) for peer in peers], [128] * 8)
        self.assertEqual([(len(host.waiting(peer)), len(host.errors(peer)), host.is_held(peer, 0)) for peer in peers], [(512, 16, True)] * 8)
        saved = host.save()
        self.assertGreater(len(saved), 8 * 64 * room // 8)
        again = ncp.Host.load(saved)
        self.assertEqual(again.save(), saved)
        for peer in peers:
            self.assertEqual((again.connections(peer), again.waiting(peer)), (host.connections(peer), host.waiting(peer)))

    def test_what_arrived(self):
        host = ncp.Host(1, [2])
        host.reset(2)
        self.assertEqual(host.next_output(), ncp.Bits(bytes.fromhex(RST), 80))
        self.assertIsNone(host.next_output())
        self.assertEqual(host.receive(bytes.fromhex("07020000")), ("answered", 7, 2, 0, 0, 0, 7, 0, 0))
        self.assertEqual(host.receive(b"\4\7\0\0"), ("other", 4, 7, 0, 0, 0, 4, 0, 0))
        self.assertEqual(host.receive(b"\0", 8), ("short", 0, 0, 0, 0, 0, 0, 0, 0))
        said = ncp.ERROR_IN_LEADER, ncp.ERROR_IN_MESSAGE, ncp.INTERFACE_RESET
        self.assertEqual([host.receive(bytes([kind, 2, 5, 0])).kind for kind in said], [1, 8, 10])
        self.assertEqual(host.ignored(), ncp.Discarded(short_bits=1, other=4))
        # An ERR, an NOP and an RST.
        arrived = host.receive(bytes.fromhex("000200000008000e00" "0b03" "00000000000000000000" "00" "0c"))
        self.assertEqual((arrived.what, arrived.detail, arrived.errors, arrived.resets), ("control", 3, 1, 1))
        self.assertEqual(host.kept(2, 0).data, bytes.fromhex(RST))
        self.assertEqual(host.phase(2), ncp.Flags(wait=True))

    def test_what_waits_and_what_is_echoed(self):
        host = up_with(2)
        self.assertTrue(host.is_up(2))
        host.echo(2, 65)
        self.assertEqual(host.waiting(2), [b"\x09\x41"])
        self.assertIsNone(host.echoed(2))
        list(host.outputs())
        host.receive(bytes.fromhex("0002000000080002000a41"))
        self.assertEqual(host.echoed(2), 65)
        self.assertEqual(host.counts(2), ncp.Counted())

    def test_commands(self):
        self.assertEqual(ncp.commands(bytes.fromhex("0002000000080004000c09410e")), [b"\x0c", b"\x09\x41"])
        self.assertEqual(ncp.commands(bytes.fromhex("0002020000080004000c09410e")), [])
        self.assertEqual(ncp.commands(b""), [])
        with self.assertRaises(ncp.ShortBytes):
            ncp.commands(b"", 1)

    def test_events(self):
        host = ncp.Host(1, [2])
        self.assertEqual(list(host.events()), [])
        host.reset(2)
        list(host.outputs())
        host.receive(bytes.fromhex(RFNM))
        host.receive(bytes.fromhex(RRP))
        self.assertEqual(list(host.events()), [("up", 2, None, None, None)])
        # The peer asks to receive on link 2, and allows two messages and 64 bits.
        host.ask_send(2, 3, 2)
        host.receive(bytes.fromhex("000200000008000a00" "01" "00000002" "00000003" "02"))
        host.receive(bytes.fromhex("000200000008000800" "04" "02" "0002" "00000040"))
        self.assertEqual(list(host.events()), [("opened", 2, 3, 2, None), ("allowed", 2, 3, 2, (2, 64))])
        self.assertEqual(list(host.events()), [])
        # It resets: the RRP is made at once, since no data link has an unanswered message, so the host is not down in between.
        host.receive(bytes.fromhex("0002000000080001000c"))
        self.assertEqual(list(host.events()), [("ended", 2, 3, 2, None)])

    def test_how_a_connection_ends_is_an_event(self):
        host = up_with(2)
        list(host.events())
        cls = "000200000008000900" "03" "00000002" "00000003"
        rts = "000200000008000a00" "01" "00000002" "00000003" "02"
        # The request is refused by a CLS.
        host.ask_send(2, 3, 2)
        host.receive(bytes.fromhex(cls))
        self.assertEqual(list(host.events()), [("refused", 2, 3, 2, None)])
        # It opens, and the peer closes it.
        host.ask_send(2, 3, 2)
        host.receive(bytes.fromhex(rts))
        self.assertEqual([it.what for it in host.events()], ["opened"])
        host.receive(bytes.fromhex(cls))
        self.assertEqual(list(host.events()), [("ended", 2, 3, 2, None)])
        # It opens, is interrupted by the receiver, and this side closes it.
        host.ask_send(2, 3, 2)
        host.receive(bytes.fromhex(rts))
        host.receive(bytes.fromhex("000200000008000200" "07" "02"))
        self.assertEqual(list(host.events()), [("opened", 2, 3, 2, None), ("interrupted", 2, 3, 2, 1)])
        host.close(2, 3, 2)
        self.assertEqual(list(host.events()), [])
        host.receive(bytes.fromhex(cls))
        self.assertEqual(list(host.events()), [("closed", 2, 3, 2, None)])

    def test_changes(self):
        host, seen = up_with(2), ncp.Connection()
        self.assertEqual(host.changes(2, 1, 4, seen), ncp.Changes())
        host.receive(bytes.fromhex("000200000008000a00" "01" "00000004" "00000001" "07"))
        self.assertEqual(host.changes(2, 1, 4, seen), ncp.Changes(asks=True))
        self.assertEqual((seen.link, seen.sends, seen), (7, True, host.state(2, 1, 4)))
        self.assertEqual(host.changes(2, 1, 4, seen), ncp.Changes())
        with self.assertRaises(ncp.UnknownPeer):
            host.changes(3, 1, 4, seen)

    def test_a_text_is_an_event(self):
        host = up_with(2)
        list(host.events())
        host.ask_receive(2, 2, 3, room=64)
        host.receive(bytes.fromhex("000200000008000a00" "02" "00000003" "00000002" "08"))
        host.allocate(2, 2, 3, 1, 64)
        self.assertEqual([it.what for it in host.events()], ["opened"])
        self.assertEqual(host.receive(bytes.fromhex("000202000008000200" "6869")), ("text", 1, 2, 2, 2, 3, 0, 0, 0))
        self.assertEqual(list(host.events()), [("text", 2, 2, 3, 16)])
        self.assertEqual(host.take(2, 2, 3), (b"hi", 16))

    def test_who_asks_is_listed(self):
        host = up_with(2)
        self.assertEqual(host.connections(2), [])
        # It asks to send from 3 here to 2 there, and host 2 to receive at 4 from 1 here, on link 7.
        host.ask_send(2, 3, 2, room=64)
        host.receive(bytes.fromhex("000200000008000a00" "01" "00000004" "00000001" "07"))
        self.assertIn(("asks", 2, 1, 4, 7), list(host.events()))
        who, own = host.connections(2)
        self.assertEqual((who[:2], who[2].heard, who[2].asked, who[2].link), ((1, 4), True, False, 7))
        self.assertEqual((own[:2], own[2].heard, own[2].asked), ((3, 2), False, True))
        self.assertEqual((host.room(2, 3, 2), host.room(2, 1, 4)), (64, 0))
        self.assertEqual((host.pair_on(2, True, 7), host.pair_on(2, False, 7)), ((1, 4), None))
        for call in (lambda: host.connections(3), lambda: host.room(3, 3, 2), lambda: host.pair_on(3, True, 7)):
            with self.assertRaises(ncp.UnknownPeer):
                call()
        with self.assertRaises(ncp.NoEntry):
            host.room(2, 5, 2)

    def test_what_is_out_goes_out_again(self):
        host = ncp.Host(1, [2])
        host.reset(2)
        self.assertEqual([it.data.hex() for it in host.outputs()], [RST])
        host.restart(2)
        self.assertEqual([it.data.hex() for it in host.outputs()], [RST])
        self.assertFalse(host.is_held(2, 0))
        host.receive(bytes.fromhex("07020000"))
        self.assertTrue(host.is_held(2, 0))
        host.wake(2)
        self.assertFalse(host.is_held(2, 0))

    def test_what_is_unacknowledged(self):
        host = ncp.Host(1, [2])
        host.reset(2)
        self.assertEqual(host.unacknowledged(2), "nothing")  # the RST is queued
        list(host.outputs())
        self.assertEqual(host.unacknowledged(2), "reset")
        host.restart(2)
        self.assertEqual(host.unacknowledged(2), "reset")  # it is to be sent again
        list(host.outputs())
        host.receive(bytes.fromhex("07020000"))
        self.assertEqual(host.unacknowledged(2), "nothing")  # it is held
        host.wake(2)
        self.assertEqual(host.unacknowledged(2), "reset")
        with self.assertRaises(ncp.UnknownPeer):
            host.unacknowledged(3)

    def test_an_rrp_and_a_request_and_a_text_are_unacknowledged(self):
        host = ncp.Host(1, [2])
        host.receive(bytes.fromhex(RST))
        self.assertEqual([it.data.hex() for it in host.outputs()], [RRP])
        self.assertEqual(host.unacknowledged(2), "reset")
        host.receive(bytes.fromhex(RFNM))
        self.assertEqual(host.unacknowledged(2), "nothing")
        # It asks to send from 3 here to 2 there; host 2 asks to receive that on link 7, and allows a message of 64 bits.
        host.ask_send(2, 3, 2, room=64)
        list(host.outputs())
        self.assertEqual(host.unacknowledged(2), "message")
        host.receive(bytes.fromhex(RFNM))
        self.assertEqual(host.unacknowledged(2), "nothing")
        host.receive(bytes.fromhex("000200000008001200" "01" "00000002" "00000003" "07" "04" "07" "0001" "00000040"))
        host.give(2, 3, 2, b"hi")
        self.assertEqual([it.link for it in host.outputs()], [7])
        self.assertEqual(host.unacknowledged(2), "message")
        host.receive(bytes.fromhex("09020700"))
        self.assertEqual(host.unacknowledged(2), "message")  # it is to be sent again
        list(host.outputs())
        host.receive(bytes.fromhex("05020700"))
        self.assertEqual(host.unacknowledged(2), "nothing")

    def test_each_text_is_an_event_at_both_ends(self):
        """Each text of five letters is sent, delivered and answered between two looks, and read after the second."""
        (a, b), subnet = two_with_a_connection(room=400, bits=400)
        for _ in range(3):
            a.give(2, 3, 2, b"hello")
            self.assertTrue(carry((a, b), subnet))
            self.assertEqual(list(a.events()), [("delivered", 2, 3, 2, None)])
            self.assertEqual(list(b.events()), [("text", 1, 2, 3, 40)])
            self.assertEqual(b.take(1, 2, 3), (b"hello", 40))
        self.assertEqual(([*a.events()], [*b.events()]), ([], []))

    def test_delivered_though_the_next_text_is_out(self):
        host = up_with(2)
        host.ask_send(2, 3, 2)
        # Its RTS for link 2, and an ALL of 2 messages and 16 bits.
        host.receive(bytes.fromhex("000200000008000a00" "01" "00000002" "00000003" "02"))
        host.receive(bytes.fromhex("000200000008000800" "04" "02" "0002" "00000010"))
        for message in host.outputs():
            host.receive(bytes([5, 2, message.link, 0]))
        host.give(2, 3, 2, b"hi")
        self.assertEqual(host.next_output().data, bytes.fromhex("000202000008000200" "6869"))
        self.assertEqual([it.what for it in host.events()], ["up", "opened", "allowed"])
        # An Incomplete Transmission is no delivery: the same text is sent again.
        host.receive(bytes.fromhex("09020200"))
        self.assertEqual(host.next_output().data, bytes.fromhex("000202000008000200" "6869"))
        self.assertEqual(list(host.events()), [])
        # It is delivered; and two more letters are given, allowed and sent, all before anybody looks.
        host.give(2, 3, 2, b"ho")
        host.receive(bytes.fromhex("05020200"))
        host.receive(bytes.fromhex("000200000008000800" "04" "02" "0001" "00000010"))
        self.assertEqual(host.next_output().data, bytes.fromhex("000202000008000200" "686f"))
        self.assertEqual(list(host.events()), [("delivered", 2, 3, 2, None)])
        # An answer without an unanswered message is no delivery either.
        host.receive(bytes.fromhex("05020300"))
        self.assertEqual(list(host.events()), [])

    def test_as_much_is_allowed_again(self):
        (a, b), subnet = two_with_a_connection(messages=2, bits=32)
        a.give(2, 3, 2, b"hi")
        self.assertEqual([it.what for it in a.events()], [])
        self.assertTrue(carry((a, b), subnet))
        b.take(1, 2, 3)
        b.allocate(1, 2, 3, 1, 16)
        self.assertTrue(carry((a, b), subnet))
        self.assertEqual(list(a.events()), [("allowed", 2, 3, 2, (2, 32)), ("delivered", 2, 3, 2, None)])

    def test_delivered_comes_before_the_end(self):
        (a, b), subnet = two_with_a_connection()
        a.give(2, 3, 2, b"hi")
        self.assertTrue(carry((a, b), subnet))
        b.take(1, 2, 3)
        b.close(1, 2, 3)
        while carry((a, b), subnet):
            pass
        self.assertEqual([it.what for it in a.events()], ["delivered", "ended"])
        self.assertEqual([it.what for it in b.events()], ["closed"])

    def test_a_copy_and_what_was_delivered(self):
        (a, b), subnet = two_with_a_connection()
        a.give(2, 3, 2, b"hi")
        message = a.next_output()
        before = a.copy()
        again = ncp.Host.load(a.save())
        a.receive(b"\5\2\2\0")
        after = a.copy()
        for host, delivered in ((before, 0), (a, 1), (after, 1), (a, 0), (after, 0)):
            self.assertEqual([it.what for it in host.events()], ["delivered"] * delivered)
        # A host that is loaded has the text out, and its RFNM is its delivery.
        again.receive(b"\5\2\2\0")
        self.assertEqual([it.what for it in again.events()], ["up", "opened", "allowed", "delivered"])
        self.assertEqual(message.link, 2)

    def test_a_message_that_is_held_is_an_event(self):
        host = ncp.Host(1, [2, 4])
        host.reset(2)
        dead = bytes.fromhex("07020000")
        for _ in range(2):
            self.assertEqual([it.host for it in host.outputs()], [2])
            host.receive(dead)
            self.assertTrue(host.is_held(2, 0))
            copy = host.copy()
            for it in host, copy, ncp.Host.load(host.save()):
                self.assertEqual(list(it.events()), [("held", 2, None, None, None)])
                self.assertEqual(list(it.events()), [])
            host.wake(2)
        # Awake, and dead again before anybody looks.
        self.assertEqual([it.host for it in host.outputs()], [2])
        self.assertEqual(list(host.events()), [])
        host.receive(dead)
        self.assertEqual(list(host.events()), [("held", 2, None, None, None)])
        # A peer that comes up by itself has none held.
        host.wake(2)
        list(host.outputs())
        host.receive(bytes.fromhex(RFNM))
        host.receive(bytes.fromhex(RRP))
        self.assertEqual(list(host.events()), [("up", 2, None, None, None)])

    def test_what_an_event_is_about(self):
        self.assertEqual(ncp.Event("text", 2, 4, 3, 8).at, (2, 4, 3))
        for event in ncp.Event("up", 2), ncp.Event("echoed", 2, value=0):
            with self.assertRaises(ValueError):
                event.at

    def test_a_subnet(self):
        subnet, way = ncp.Subnet([1, 2]), (1, 2, 0)
        self.assertIsNone(subnet.deliver(*way))
        self.assertFalse(subnet.lose(*way))
        subnet.accept(1, bytes.fromhex(RST))
        with self.assertRaises(ncp.Occupied):
            subnet.accept(1, bytes.fromhex(RST))
        self.assertIsNone(subnet.answer(*way))
        self.assertEqual(subnet.deliver(*way), (bytes.fromhex("0001000000080001000c"), 80))
        self.assertEqual(subnet.answer(*way), (bytes.fromhex(RFNM), 32))
        for becomes, answer in ((subnet.lose, "09020000"), (subnet.dead, "07020000")):
            subnet.accept(1, bytes.fromhex(RST))
            self.assertTrue(becomes(*way))
            self.assertEqual(subnet.answer(*way).data, bytes.fromhex(answer))
        for name, number, sender, message in (("NotRegular", 73, 1, RFNM), ("NoHost", 74, 3, RST), ("ShortBytes", 42, 1, "")):
            with self.assertRaises(getattr(ncp, name)) as found:
                subnet.accept(sender, bytes.fromhex(message), 32)
            self.assertEqual(found.exception.number, number)
        subnet.free()
        with self.assertRaises(ncp.NoSubnet):
            subnet.deliver(*way)

    def test_a_capture(self):
        file = io.BytesIO()
        capture = ncp.Capture(file)
        capture.message(ncp.TO_IMP, 1, ncp.Bits(bytes.fromhex("04000000"), 32))
        capture.message(ncp.FROM_IMP, 1, ncp.Bits(b"\xf8", 5))
        self.assertEqual(file.getvalue(), bytes.fromhex("4e43504a" "48010020" "04000000" "49010005" "f8"))

    def test_the_version(self):
        header = (TOP / "include/ncp.h").read_text(encoding="utf-8")
        self.assertIn(f'#define NCP_VERSION "{ncp.VERSION}"\n', header)

    def test_the_structs_are_those_of_the_library(self):
        lines = [ncp.SONAME]
        for name, struct in ncp._STRUCTS.items():
            lines += [f"{name} {ncp.ctypes.sizeof(struct)}"]
            lines += [f"{name}.{field} {getattr(struct, field).offset} {getattr(struct, field).size}" for field, _ in struct._fields_]
        why = "a struct never changes within a soname: give the library a new one, and all bindings its structs"
        self.assertEqual((TOP / "include/abi.txt").read_text(encoding="utf-8").splitlines(), lines, why)


class Raw(io.RawIOBase):
    """A file that notes what each write brings it, and takes as many bytes of it as it has space for."""

    def __init__(self, space=1 << 20, answer=None):
        super().__init__()
        self.space, self.answer, self.writes = space, answer, []

    def writable(self):
        return True

    def write(self, data):
        taken = min(len(data), self.space)
        self.space -= taken
        self.writes.append(bytes(data[:taken]))
        return taken or self.answer


class Captures(unittest.TestCase):
    """What a capture has written it has passed on."""
    KILLS, MOST_RECORDS = 1000, 60
    NOP = ncp.Bits(bytes.fromhex("04000000"), 32)
    RECORD = bytes.fromhex("48010020" "04000000")

    def test_each_record_is_one_write(self):
        longest = ncp.Bits(b"\x5a" * 1024, 8192)
        for buffered in (lambda raw: raw, io.BufferedWriter, lambda raw: io.BufferedWriter(raw, 16)):
            raw = Raw()
            file = buffered(raw)
            capture = ncp.Capture(file)
            capture.message(ncp.TO_IMP, 1, self.NOP)
            capture.message(ncp.FROM_IMP, 255, longest)
            self.assertEqual(raw.writes, [b"NCPJ", self.RECORD, bytes.fromhex("49ff2000") + longest.data])
            file.close()

    def test_what_is_no_message_is_refused(self):
        file = io.BytesIO()
        capture = ncp.Capture(file)
        for kind, call in (
            (ncp.TooLong, lambda: capture.message(ncp.TO_IMP, 1, bytes(1025))), (ncp.ShortBytes, lambda: capture.message(ncp.TO_IMP, 1, ncp.Bits(b"", 32))),
            (ncp.SpareNotZero, lambda: capture.message(ncp.TO_IMP, 1, ncp.Bits(b"\1", 7))), (OverflowError, lambda: capture.message(ncp.TO_IMP, 256, b"")),
            (ValueError, lambda: capture.message(0x4A, 1, b"")), (TypeError, lambda: capture.message(ncp.TO_IMP, 1, "text")),
        ):
            with self.assertRaises(kind):
                call()
        capture.message(ncp.FROM_IMP, 0, b"")
        capture.message(ncp.TO_IMP, 2, ncp.Bits(b"\x80\xff", 1))
        self.assertEqual(file.getvalue(), b"NCPJ" + bytes.fromhex("49000000" "48020001" "80"))

    def test_a_file_without_space(self):
        for space, answer in itertools.product(range(4, 13), (None, 0)):
            raw = Raw(space, answer)
            capture = ncp.Capture(raw)
            if space == 12:
                capture.message(ncp.TO_IMP, 1, self.NOP)
            with self.assertRaises(BlockingIOError):
                capture.message(ncp.TO_IMP, 1, self.NOP)
            raw.space = 100
            with self.assertRaises(OSError):
                capture.message(ncp.TO_IMP, 1, self.NOP)
            self.assertEqual(b"".join(raw.writes), (b"NCPJ" + self.RECORD)[:space])

    def test_a_file_whose_write_returns_nothing(self):
        written = []

        class File:
            write = staticmethod(lambda data: written.append(data))
            flush = staticmethod(lambda: None)

        ncp.Capture(File()).message(ncp.TO_IMP, 1, self.NOP)
        self.assertEqual(b"".join(written), b"NCPJ" + self.RECORD)

    def messages(self, chance):
        """Messages of a seed, without end."""
        while True:
            count = chance.randrange(8193) if chance.randrange(4) == 0 else chance.randrange(400)
            data = chance.getrandbits(count) << -count % 8
            yield chance.choice((ncp.TO_IMP, ncp.FROM_IMP)), chance.randrange(256), ncp.Bits(data.to_bytes((count + 7) // 8, "big"), count)

    def write_until_killed(self, file, seed, said):
        """In a process of its own: reports after each record."""
        try:
            capture = ncp.Capture(file)
            for message in self.messages(random.Random(seed)):
                capture.message(*message)
                if said is not None:
                    os.write(said, b".")
        finally:
            os._exit(2)

    def killed(self, file, seed, wanted, ends, says):
        """The bytes that came through a pipe from a process that is killed once a number of them arrived."""
        process = os.fork()
        if not process:
            os.close(ends[0])
            self.write_until_killed(file, seed, ends[1] if says else None)
        os.close(ends[1])
        came, is_killed = b"", False
        while more := os.read(ends[0], 1 << 16):
            came += more
            if len(came) > wanted and not is_killed:
                os.kill(process, signal.SIGKILL)
                is_killed = True
        os.close(ends[0])
        self.assertEqual(os.waitpid(process, 0)[1], signal.SIGKILL)
        return came

    def whole_records(self, data, seed):
        """How many records of a seed these bytes begin with, and how many bytes are left after them."""
        count, at = 0, 4
        self.assertEqual(data[:4], b"NCPJ")
        for direction, host, bits in self.messages(random.Random(seed)):
            record = bytes((direction, host, bits.count >> 8, bits.count & 255)) + bits.data
            if not data.startswith(record, at):
                self.assertTrue(record.startswith(data[at:]))
                return count, len(data) - at
            count, at = count + 1, at + len(record)

    def test_a_program_that_is_killed_has_lost_no_record(self):
        """A thousand kills of programs that write files, buffered or not, and pipes. In a file, the last write may be cut at a page boundary."""
        with tempfile.TemporaryDirectory() as room:
            for seed in range(self.KILLS):
                wanted, path = random.Random(-seed).randrange(1, self.MOST_RECORDS), os.path.join(room, "killed.ncp")
                if seed % 3 == 2:
                    ends = os.pipe()
                    with open(ends[1], "wb", closefd=False) as file:
                        _, rest = self.whole_records(self.killed(file, seed, 100 * wanted, ends, False), seed)
                    self.assertEqual(rest, 0, seed)
                    continue
                with open(path, "wb", buffering=-1 if seed % 3 else 0) as file:
                    said = len(self.killed(file, seed, wanted, os.pipe(), True))
                with open(path, "rb") as file:
                    data = file.read()
                count, rest = self.whole_records(data, seed)
                self.assertIn(count - said, (0, 1), seed)
                self.assertTrue(rest == 0 or count == said and len(data) % mmap.PAGESIZE == 0, seed)


class Streams(unittest.TestCase):
    def setUp(self):
        self.a, self.b, self.subnet = ncp.Host(1, [2]), ncp.Host(2, [1]), ncp.Subnet([1, 2])
        self.streams = ()
        self.a.reset(2)
        self.settle()

    def settle(self):
        """All that can happen without a call, and each stream is pumped after each message."""
        while carry((self.a, self.b), self.subnet):
            for stream in self.streams:
                stream.pump()

    def connected(self, size=8, room=8000, messages=8):
        """A sender at one host and a receiver at the other."""
        self.streams = ncp.Stream(self.b, 1, 2, 3, room=room, messages=messages), ncp.Stream(self.a, 2, 3, 2, size=size, room=room)
        self.settle()
        return self.streams

    def test_what_fits_is_given_and_allowed(self):
        receiver, sender = self.connected(room=40, messages=2)
        self.assertEqual((sender.sends, receiver.sends, sender.is_open, receiver.is_open), (True, False, True, True))
        # The receiver has allowed all its room, in two messages; the sender has all of its own.
        self.assertEqual((receiver.space, sender.space), (0, 40))
        self.assertEqual((self.a.state(2, 3, 2).messages, self.a.state(2, 3, 2).bits), (2, 40))
        # Five letters fit, and take no space once they are sent.
        self.assertEqual((sender.give(b"seven letters"), sender.space, sender.give(b"x"), sender.waits), (40, 0, 0, 0))
        self.settle()
        self.assertEqual((receiver.space, sender.space), (0, 40))
        self.assertEqual(receiver.read(), (b"seven", 40))
        self.assertEqual((receiver.read(), receiver.space), ((b"", 0), 0))
        self.settle()
        self.assertEqual((self.a.state(2, 3, 2).messages, self.a.state(2, 3, 2).bits), (2, 40))

    def test_a_long_text_through_a_small_room(self):
        receiver, sender = self.connected(room=100)
        text, got = bytes(it % 251 for it in range(5000)), b""
        sender.write(text[:1])
        sender.write(text[1:])
        self.assertEqual(sender.waits, 8 * 5000 - 96)
        while len(got) < 5000:
            self.settle()
            piece = receiver.read().data
            self.assertTrue(0 < len(piece) <= 12)
            got += piece
        self.assertEqual((got, sender.waits), (text, 0))

    def test_bytes_of_36_bits(self):
        """Three bytes of 36 bits, through a room of 80: two of them fit."""
        receiver, sender = self.connected(size=36, room=80)
        text = bytes.fromhex("123456789abcdef0123456789abcd0")
        with self.assertRaises(ncp.NotWhole):
            sender.write(text)
        sender.write(text, 108)
        self.assertEqual(sender.waits, 36)
        self.settle()
        self.assertEqual(receiver.read(), (bytes.fromhex("123456789abcdef012"), 72))
        self.settle()
        self.assertEqual(receiver.read(), (bytes.fromhex("3456789ab0"), 36))
        # Read at once, the pieces are joined bit by bit.
        sender.write(text, 36)
        self.settle()
        sender.write(ncp.Bits(text, 36))
        self.settle()
        self.assertEqual(receiver.read(), (bytes.fromhex("123456789123456789"), 72))

    def test_before_it_opens(self):
        sender = ncp.Stream(self.a, 2, 3, 2)
        self.assertEqual((sender.space, sender.is_open, sender.is_over, sender.give(b"hi")), (0, False, False, 0))
        sender.write(b"hi")
        self.assertEqual(sender.waits, 16)
        receiver = ncp.Stream(self.b, 1, 2, 3)
        self.assertEqual((receiver.read(), receiver.allow(), receiver.is_open), ((b"", 0), 0, False))
        self.streams = sender, receiver
        self.settle()
        self.assertEqual((receiver.read().data, sender.waits), (b"hi", 0))

    def test_what_is_finished_is_delivered_first(self):
        receiver, sender = self.connected(room=16)
        sender.write(b"goodbye")
        sender.finish()
        with self.assertRaises(ncp.Closing):
            sender.write(b"?")
        got = b""
        for _ in range(10):
            self.settle()
            got += receiver.read().data
        self.assertEqual((got, sender.is_over, receiver.is_over), (b"goodbye", True, True))
        self.assertEqual(receiver.read(), (b"", 0))
        with self.assertRaises(ncp.NoEntry):
            sender.give(b"?")
        for stream in sender, receiver:
            stream.close()
            stream.pump()

    def test_what_is_closed_is_not(self):
        receiver, sender = self.connected(room=16)
        sender.write(b"goodbye")
        sender.close()
        sender.close()
        with self.assertRaises(ncp.Closing):
            sender.write(b"?")
        self.settle()
        self.assertEqual((receiver.read().data, sender.is_over, sender.waits), (b"", True, 0))
        self.settle()
        self.assertTrue(receiver.is_over)
        # A request is withdrawn, and a receiver closes at once.
        for stream in ncp.Stream(self.a, 2, 5, 4), ncp.Stream(self.b, 1, 2, 3):
            stream.finish()
            self.settle()
            self.assertTrue(stream.is_over)

    def test_a_receiver_whose_peer_closes_has_the_rest(self):
        receiver, sender = self.connected()
        sender.write(b"the rest")
        sender.finish()
        self.settle()
        self.assertEqual((receiver.is_over, receiver.allow()), (False, 0))
        self.assertEqual(receiver.read().data, b"the rest")
        self.settle()
        self.assertTrue(receiver.is_over and sender.is_over)

    def test_a_reset_is_the_end(self):
        receiver, sender = self.connected(room=16)
        sender.write(b"goodbye")
        self.b.reset(1)
        self.settle()
        self.assertEqual((sender.is_over, receiver.is_over, sender.waits, receiver.read()), (True, True, 0, (b"", 0)))

    def test_who_may_not(self):
        receiver, sender = self.connected()
        for refusal, call in ((ncp.WrongEnd, lambda: receiver.write(b"x")), (ncp.WrongEnd, lambda: receiver.give(b"x")), (ncp.WrongEnd, sender.read),
                              (ncp.WrongEnd, sender.allow), (ncp.ShortBytes, lambda: sender.write(b"x", 16)), (ncp.NotWhole, lambda: sender.give(b"x", 7)),
                              (ncp.AlreadyAsked, lambda: ncp.Stream(self.a, 2, 3, 2)), (ncp.BadSex, lambda: ncp.Stream(self.a, 2, 5, 3)),
                              (ncp.UnknownPeer, lambda: ncp.Stream(self.a, 3, 5, 2))):
            with self.assertRaises(refusal):
                call()
        # A spare bit that is set does not reach the host.
        self.assertEqual(sender.give(b"hi\xff", 16), 16)

    def test_messages_are_allowed_though_no_bit_is_left(self):
        """40 bits are held and 40 outstanding, but no message."""
        receiver, sender = self.connected(room=80, messages=1)
        sender.give(b"hello")
        self.assertTrue(carry((self.a, self.b), self.subnet))
        self.assertEqual((receiver.space, self.b.state(1, 2, 3).messages, receiver.allow()), (0, 0, 0))
        self.assertTrue(carry((self.a, self.b), self.subnet))
        self.assertEqual((self.a.state(2, 3, 2).messages, self.a.state(2, 3, 2).bits), (1, 40))
        # With a message left, nothing is sent for nothing.
        receiver.pump()
        self.assertFalse(carry((self.a, self.b), self.subnet))

    def test_a_full_queue_is_for_later(self):
        """256 commands are queued for the peer, since nothing is sent: an ALL and a CLS are made once there is room again."""
        receiver, sender = self.connected(room=16)
        sender.write(b"hi")
        self.settle()
        for host, peer, at in ((self.b, 1, (2, 3)), (self.a, 2, (3, 2))):
            with self.assertRaises(ncp.QueueFull):
                while True:
                    host.interrupt(peer, *at)
            self.assertEqual(len(host.waiting(peer)), 256)
        self.assertEqual((receiver.read().data, receiver.space), (b"hi", 16))
        sender.finish()
        self.assertTrue(sender.is_open)
        self.settle()
        self.assertTrue(sender.is_over and receiver.is_over)


class Words(unittest.TestCase):
    """All public names have docstrings, with the refusals of ncp.h."""

    # The functions of ncp.h by their methods, if these have another name.
    NAMES = {"ncp_new": ncp.Host.__init__, "ncp_subnet_new": ncp.Subnet.__init__, "ncp_command": ncp.commands, "ncp_error": ncp.Host.errors,
             "ncp_connection_at": ncp.Host.connections}
    # Refusals that a method does not have: its buffers are long enough, and an absent result is None or an end.
    OF_C = ("NoPointer", "ShortBuffer", "Nothing")

    def public(self):
        """The public names and their values."""
        found = {name: it for name, it in vars(ncp).items() if not name.startswith("_") and getattr(it, "__module__", "") == "ncp" and callable(it)}
        for name, kind in [*found.items()]:
            if isinstance(kind, type):
                members = {it: value for base in kind.__mro__ if base.__module__ == "ncp" for it, value in vars(base).items()}
                found.update({f"{name}.{it}": value for it, value in members.items() if not it.startswith("_") and (callable(value) or isinstance(value, (property, classmethod)))})
        return found

    def test_all_that_is_public_has_a_docstring(self):
        found = self.public()
        self.assertGreater(len(found), 80)
        own = [name for name in found if not name.startswith("Capture")]
        self.assertEqual([name for name in own if not (found[name].__doc__ or "").strip()], [])

    def method(self, name):
        """The method of a function of ncp.h, or None."""
        if name in self.NAMES:
            return self.NAMES[name]
        kind, _, name = name.replace("ncp_subnet_", "Subnet.").replace("ncp_", "Host.").partition(".")
        return getattr(getattr(ncp, kind), name, None)

    def test_each_method_names_the_refusals_of_the_header(self):
        header = (TOP / "include/ncp.h").read_text(encoding="utf-8")
        numbers = {name: ncp._NUMBERS.get(int(number)) for name, number in re.findall(r"^    (NCP_\w+) = (\d+),?", header.partition("/* Lengths in bytes")[0], re.M)}
        compared = []
        for comment, name in re.findall(r"^/\*((?:(?!\*/).)*)\*/\nuint32_t (ncp_\w+)\(", header, re.M | re.S):
            errors = re.search(r"\bErrors?(?:, in order)?: (.*)", " ".join(comment.replace(" *", " ").split()))
            kinds = [numbers.get(it) for it in re.findall(r"NCP_\w+", errors[1] if errors else "")]
            wanted = [kind.__name__ for kind in kinds if kind and kind.__name__ not in self.OF_C]
            method = self.method(name)
            if method:
                named = re.findall(r"\b[A-Z]\w+", method.__doc__.partition("Refused")[2])
                self.assertEqual([it for it in named if it in ncp._CLASSES], [*dict.fromkeys(wanted)], name)
                compared.append(name)
        # All of the library that return a number, but ncp_name.
        of_the_library = header.partition("#ifdef NCP_IN")[0]
        self.assertEqual(len(compared), len(re.findall(r"^uint32_t ncp_", of_the_library, re.M)) - 1)

    def test_each_refusal_has_a_class(self):
        named = {ncp._ncp.ncp_word(number).decode() for number in range(1, 256)} - {""}
        self.assertEqual({*ncp._CLASSES}, named)


@unittest.skipUnless(shutil.which("mypy") and (HERE / "ncp.py").is_file(), "there is no mypy, or ncp.py is a package that is installed")
class Types(unittest.TestCase):
    def said(self, *files):
        """The output of mypy for files, in a process of its own, without the user's settings."""
        words = ["mypy", "--strict", "--config-file=", "--cache-dir=/dev/null", "--python-version=3.9", *files]
        ran = subprocess.run(words, cwd=HERE, env={**os.environ, "MYPYPATH": str(HERE)}, stdout=subprocess.PIPE, stderr=subprocess.STDOUT, text=True)
        return ran.stdout.splitlines()

    def test_the_binding_and_the_examples_have_types(self):
        files = sorted(it.name for it in HERE.glob("*.py") if not it.name.startswith("test_"))
        self.assertIn("ncp.py", files)
        self.assertEqual(self.said(*files), [f"Success: no issues found in {len(files)} source files"])

    def test_a_program_that_uses_it_wrongly(self):
        lines = ("import ncp", "host = ncp.Host(1, [2])", 'host.reset("2")', "message = host.next_output()", "print(message.data)", "host.opened()",
                 "try:", "    print(host.state(2, 3, 2).bits + 1, host.state(2, 3, 2).bits + '1')", "except (ncp.NoEntry, ncp.NoSuchThing):", "    pass",
                 "for event in host.events():", "    host.take(*event.at)", "    host.take(event.peer, event.local, 3)")
        with tempfile.TemporaryDirectory() as room:
            program = Path(room) / "program.py"
            program.write_text("\n".join(lines) + "\n", encoding="utf-8")
            wrong = [int(line.split(":")[1]) for line in self.said(program) if ": error: " in line]
        self.assertEqual(wrong, [3, 5, 6, 8, 9, 13])


class Loading(unittest.TestCase):
    """Which library a copy of ncp.py loads, in a process of its own."""

    def setUp(self):
        room = tempfile.TemporaryDirectory()
        self.addCleanup(room.cleanup)
        self.room = Path(room.name).resolve()
        self.installed = Path(ncp._ncp._name).parent

    def copied_to(self, folder):
        (self.room / folder).mkdir(parents=True, exist_ok=True)
        shutil.copy(ncp.__file__, self.room / folder / "ncp.py")
        return folder

    def library(self, source):
        """A shared library of a line of C, which is no host."""
        made = self.room / "made.so"
        subprocess.run(["cc", "-shared", "-fPIC", "-x", "c", "-o", made, "-"], input=source, text=True, check=True)
        return made

    def said(self, folder, before="", library=None):
        """The output of a program that imports it, with an installed library of this version."""
        env = {**os.environ, "LD_LIBRARY_PATH": str(self.installed), "NCP_LIBRARY": str(library or "")}
        code = f"{before}\ntry:\n    import ncp\n    print(ncp._ncp._name)\nexcept ImportError as error:\n    print(error)"
        ran = subprocess.run([sys.executable, "-B", "-c", code], cwd=self.room / folder, env=env, stdout=subprocess.PIPE, text=True, check=True)
        return ran.stdout.strip()

    def test_a_copy_trusts_no_folder(self):
        planted = self.room / "prebuilt" / ncp.SONAME
        planted.parent.mkdir()
        planted.write_text("of anybody")
        for folder in "any/folder", "bindings/python":
            self.assertEqual(self.said(self.copied_to(folder)), ncp.SONAME)

    def test_a_package_takes_the_library_inside(self):
        package = self.room / "any/ncp"
        package.mkdir(parents=True)
        shutil.copy(ncp.__file__, package / "__init__.py")
        self.assertEqual(self.said("any"), ncp.SONAME)
        inside = package / (ncp.SONAME if ncp.platform.machine() == "x86_64" else f"{ncp.platform.machine()}/{ncp.SONAME}")
        inside.parent.mkdir(exist_ok=True)
        shutil.copy(self.installed / ncp.SONAME, inside)
        self.assertEqual(self.said("any"), str(inside))
        self.assertIn("any.so: cannot open", self.said("any", before="import os; os.environ['NCP_LIBRARY'] = 'any.so'\ntry:\n    import ncp\nexcept OSError as error:\n    print(error, flush=True); os._exit(0)"))

    def test_in_the_repository_it_is_of_these_sources(self):
        folder = self.copied_to("bindings/python")
        for name in "crates.txt", "include/ncp.h":
            (self.room / name).parent.mkdir(exist_ok=True)
            (self.room / name).touch()
        name = ncp.SONAME if ncp.platform.machine() == "x86_64" else f"{ncp.platform.machine()}/{ncp.SONAME}"
        built, tool = self.room / "prebuilt" / name, self.room / "tools/prebuild"
        for it in built, tool:
            it.parent.mkdir(parents=True)
        shutil.copy(self.installed / ncp.SONAME, built)
        for status, said in (0, str(built)), (1, f"{built} is not built from the sources of this repository: run tools/prebuild, or set NCP_LIBRARY"):
            tool.write_text(f'#!/bin/sh\n[ "$1 $2" = "--has {name}" ] && exit {status}\n')
            tool.chmod(0o755)
            self.assertEqual(self.said(folder), said)

    @unittest.skipUnless(shutil.which("cc"), "there is no C compiler")
    def test_another_library_is_refused(self):
        folder = self.copied_to("any/folder")
        version = 'const char *ncp_version(void) { return "%s"; }'
        sizes = "const unsigned *ncp_sizes(void) { static const unsigned all[] = {8, 8, 12, 4, 28, 12, 11, 28, 10, 0}; return all; }"
        for source, said in (
            ("int none;", "is no libncp: it does not say its version"),
            (version % "1.1.0", "is version 1.1.0 of libncp, and ncp.py is for 2.0.0"),
            (version % "2.0.0" + sizes, "has structs of other sizes than ncp.py, though both are version 2.0.0"),
        ):
            made = self.library(source)
            self.assertEqual(self.said(folder, library=made), f"{made} {said}")

    def test_a_python_without_a_global_lock_is_refused(self):
        before = "import sys; sys._is_gil_enabled = lambda: False"
        self.assertEqual(self.said(self.copied_to("any/folder"), before), "ncp needs a Python with a global lock, and this one runs without it")


def load_tests(_loader, tests, _pattern):
    tests.addTests(doctest.DocFileSuite("README.md"))
    return tests


if __name__ == "__main__":
    unittest.main()
