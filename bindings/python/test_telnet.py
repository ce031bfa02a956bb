# SPDX-License-Identifier: MIT
"""Telnet over 127.0.0.1: two processes and an IMP between them, which is restarted; its lines, and its datagrams."""
import contextlib
import io
import os
import select
import shutil
import socket
import subprocess
import sys
import tempfile
import threading
import time
import unittest
from pathlib import Path

import h316
import icp
import ncp
import telnet
from test_icp import program

HERE = Path(__file__).resolve().parent
TOP = HERE.parent.parent
QUIET = 0.5  # seconds without a datagram, after which an IMP that answers at once has answered everything
PATIENCE = 300
# The library that is loaded here was found to be of these sources already.
ENVIRONMENT = {**os.environ, "NCP_LIBRARY": str(ncp._ncp._name)}


def free_ports(count):
    """Ports of 127.0.0.1 that nobody has now."""
    sockets = [socket.socket(socket.AF_INET, socket.SOCK_DGRAM) for _ in range(count)]
    for each in sockets:
        each.bind(("127.0.0.1", 0))
    ports = [each.getsockname()[1] for each in sockets]
    for each in sockets:
        each.close()
    return ports


class Imp(threading.Thread):
    """An IMP with the hosts 1 and 2: each message is delivered and answered at once. It is restarted while nothing is unanswered."""

    def __init__(self, ports):
        super().__init__(daemon=True)
        self.lines = {1: h316.Line(ports[0], ports[1]), 2: h316.Line(ports[2], ports[3])}
        self.is_ended, self.is_to_restart, self.has_restarted = False, threading.Event(), threading.Event()

    def run(self):
        begun = {host: False for host in self.lines}
        while not self.is_ended:
            ready = select.select([*self.lines.values()], [], [], QUIET)[0]
            if not ready and self.is_to_restart.is_set() and not self.has_restarted.is_set():
                self.restart()
            for host, line in self.lines.items():
                message = line.receive() if line in ready else None
                if line.is_ready and not begun[host]:
                    line.send_nops()
                begun[host] = line.is_ready
                if message and message.data[0] & 15 == 0:
                    self.carry(host, message)

    def restart(self):
        for line in self.lines.values():
            line.send(bytes([ncp.INTERFACE_RESET, 0, 0, 0]))
            line.send_nops()
        self.has_restarted.set()

    def carry(self, sender, message):
        data, other = message.data, self.lines.get(message.host)
        is_there = other is not None and other.is_ready
        if is_there:
            other.send(data[:1] + bytes([sender]) + data[2:])
        self.lines[sender].send(bytes([ncp.RFNM if is_there else ncp.DESTINATION_DEAD, message.host, message.link, 0]))

    def end(self):
        self.is_ended = True
        self.join()
        for line in self.lines.values():
            line.close()


class Processes(unittest.TestCase):
    def setUp(self):
        room = tempfile.TemporaryDirectory()
        self.addCleanup(room.cleanup)
        self.room, self.ports, self.running = Path(room.name), free_ports(4), {}

    def start(self, name, *words):
        """Starts telnet.py, with its standard error in a file of the room."""
        words = [sys.executable, "-B", "-W", "error", HERE / "telnet.py", *map(str, words), "--capture", self.room / f"{name}.ncp", "--patience", str(PATIENCE)]
        with open(self.room / name, "w", encoding="utf-8") as said:
            ran = subprocess.Popen(words, stdin=subprocess.PIPE, stdout=subprocess.PIPE, stderr=said, bufsize=0, env=ENVIRONMENT)
        self.running[name] = ran
        self.addCleanup(self.stop, ran)
        return ran

    def stop(self, ran):
        if ran.poll() is None:
            ran.terminate()
        for pipe in ran.stdin, ran.stdout:
            with contextlib.suppress(BrokenPipeError):
                pipe.close()
        ran.wait(PATIENCE)

    def with_an_imp(self):
        imp = Imp(self.ports)
        imp.start()
        self.addCleanup(imp.end)
        return imp

    def both(self, imp=None):
        """A server at host 2 and then, once it is there, a user at host 1."""
        a, b, c, d = self.ports
        server = self.start("server", "server", 2, 1, d, c)
        until = time.monotonic() + PATIENCE
        while imp and not imp.lines[2].is_ready and time.monotonic() < until:
            time.sleep(0.05)
        return server, self.start("user", "user", 1, 2, b, a)

    def says(self, user, line):
        user.stdin.write(line)
        return self.line(user)

    def line(self, user):
        """The next line that it prints; all of them if it prints none in time, which shows in what is wanted."""
        self.assertTrue(select.select([user.stdout], [], [], PATIENCE)[0], self.said("user") + self.said("server"))
        return user.stdout.readline()

    def said(self, name):
        return (self.room / name).read_text(encoding="utf-8")

    def audit(self, name):
        return program("audit", (self.room / f"{name}.ncp").read_bytes())

    def test_a_session_while_the_imp_is_restarted(self):
        imp = self.with_an_imp()
        server, user = self.both(imp)
        self.assertEqual(self.says(user, b"HELLO\n"), b"ECHO HELLO\n")
        # Everything is answered now: so the captures have an answer to each message.
        imp.is_to_restart.set()
        self.assertTrue(imp.has_restarted.wait(PATIENCE))
        self.assertEqual(self.says(user, b"STILL THERE\n"), b"ECHO STILL THERE\n")
        # Bytes that a terminal would act on are printed in letters; non-ASCII letters are not sent.
        self.assertEqual(self.says(user, b"\x1b[31mRED\x07\x00\xc3\xa9\n"), b"ECHO \\x1b[31mRED\\x07\\x00?\n")
        # Lines go out in parts, and several at once.
        user.stdin.write(b"one\ntwo\n")
        self.assertEqual((self.line(user), self.line(user)), (b"ECHO one\n", b"ECHO two\n"))
        user.stdin.write(b"BYE\n")
        self.assertEqual(user.wait(PATIENCE), 0)
        server.terminate()
        self.assertEqual(server.wait(PATIENCE), 0)
        restarted = "telnet: the IMP was restarted\n"
        self.assertEqual(self.said("user"), f"telnet: host 2 has a session\n{restarted}")
        self.assertEqual(self.said("server"), f"telnet: host 1 has a session\n{restarted}telnet: the session of host 1 is over\n")
        for name in "user", "server":
            self.assertEqual(self.audit(name), ("", 0), name)
            shown = program("show", (self.room / f"{name}.ncp").read_bytes())[0]
            self.assertIn("text bits=56 48454c4c4f0d0a\n", shown)
            self.assertIn("type-10", shown)

    def test_the_end_of_standard_input_ends_it(self):
        server, user = self.both(self.with_an_imp())
        said, _ = user.communicate(b"a line, and the beginning of one", timeout=PATIENCE)
        self.assertEqual((said, user.returncode), (b"", 0))
        said, _ = self.start("again", "user", 1, 2, self.ports[1], self.ports[0]).communicate(b"HELLO AGAIN\n", timeout=PATIENCE)
        self.assertEqual((said, self.running["again"].returncode), (b"ECHO HELLO AGAIN\n", 0))
        self.assertIsNone(server.poll())

    def test_a_host_that_is_dead(self):
        self.with_an_imp()
        user = self.start("user", "user", 1, 2, self.ports[1], self.ports[0])
        self.assertEqual(user.wait(PATIENCE), 1)
        self.assertEqual(self.said("user"), "telnet: host 2, socket 1: the host is dead\n")
        self.assertEqual(self.audit("user"), ("", 0))

    @unittest.skipUnless(shutil.which("cc"), "there is no C compiler")
    def test_the_imp_in_c(self):
        """It is restarted when the first text arrives, the server's socket: that has no answer, and is sent again. An audit reports
        nothing of this, since the captures have the message of the IMP that says so."""
        made = self.room / "imp"
        subprocess.run(["cc", "-O1", f"-I{TOP}/include", "-o", made, TOP / "examples/embed/h316_imp.c", Path(ncp._ncp._name).parent / "libncp.a"], check=True)
        server, user = self.both()
        # It gives up if nothing arrives for some seconds, so both hosts speak before it begins.
        for port in self.ports[0], self.ports[2]:
            with socket.socket(socket.AF_INET, socket.SOCK_DGRAM) as before:
                before.bind(("127.0.0.1", port))
                before.settimeout(PATIENCE)
                before.recv(1000)
        imp = subprocess.Popen([made, *map(str, self.ports)])
        self.addCleanup(imp.wait, PATIENCE)
        self.addCleanup(imp.kill)
        self.assertEqual(self.says(user, b"HELLO\n"), b"ECHO HELLO\n")
        user.stdin.write(b"x" * 3000 + b"\nBYE\n")
        # A long line is several of 1,000 letters to the server, and each of its answers is two.
        answers = [b"ECHO " + b"x" * 995 + b"\n", b"xxxxx\n"] * 3
        self.assertEqual([self.line(user) for _ in answers], answers)
        self.assertEqual(user.wait(PATIENCE), 0)
        server.terminate()
        self.assertEqual((server.wait(PATIENCE), imp.wait(PATIENCE)), (0, 0))
        self.assertIn("the IMP was restarted", self.said("server"))
        for name in ("user", "server"):
            self.assertEqual(self.audit(name), ("", 0))

    def test_what_it_cannot_have(self):
        with socket.socket(socket.AF_INET, socket.SOCK_DGRAM) as other:
            other.bind(("127.0.0.1", self.ports[1]))
            self.assertEqual(self.start("taken", "user", 1, 2, self.ports[1], self.ports[0]).wait(PATIENCE), 2)
        self.assertEqual(self.said("taken"), f"telnet: port {self.ports[1]}: Address already in use\n")
        for words, why in (("user 1 1 {} {}", "telnet: the peers are one to eight"), ("user 256 2 {} {}", "'256' is no number from 0 to 255"),
                           ("user 1 2,x {} {}", "argument PEER"), ("user 1 2 {} 0", "'0' is no number from 1 to 65535"), ("guest 1 2 {} {}", "invalid choice: 'guest'"),
                           ("user 1 2 {} {} --capture /nowhere/x.ncp", "telnet: /nowhere/x.ncp: No such file or directory")):
            ran = subprocess.run([sys.executable, "-B", HERE / "telnet.py", *words.format(*self.ports).split()], stdin=subprocess.DEVNULL, stderr=subprocess.PIPE, text=True, env=ENVIRONMENT)
            self.assertEqual(ran.returncode, 2, words)
            self.assertIn(why, ran.stderr)
            self.assertNotIn("Traceback", ran.stderr)

    def test_no_imp(self):
        words = [sys.executable, "-B", HERE / "telnet.py", "user", "1", "2", *map(str, self.ports[:2]), "--patience", "0"]
        ran = subprocess.run(words, stdin=subprocess.DEVNULL, stderr=subprocess.PIPE, text=True, env=ENVIRONMENT)
        self.assertEqual((ran.returncode, ran.stderr), (1, "telnet: the IMP is not ready\n"))


class Texts(unittest.TestCase):
    def test_lines(self):
        lines = telnet.Lines()
        taken = [[*lines.taken(it)] for it in (b"", b"one", b" line\r", b"\n", b"\r\nthree\r\nfour\r\nfi", b"ve\nis\rone\r\n")]
        self.assertEqual(taken, [[], [], [], [b"one line"], [b"", b"three", b"four"], [b"five\nis\rone"]])
        self.assertEqual(lines.rest, b"")

    def test_a_line_without_an_end(self):
        lines = telnet.Lines()
        for _ in range(1000):
            found = [*lines.taken(b"x" * 777)]
            self.assertLessEqual(len(lines.rest), telnet.MOST_LINE)
            self.assertTrue(all(len(it) == telnet.MOST_LINE for it in found))

    def test_nothing_is_printed_raw(self):
        said = telnet.shown(bytes(range(256)))
        self.assertTrue(said.isascii() and said.isprintable())
        self.assertEqual(telnet.shown(b"\0\x1b[2J\r\n\x7f\x82A~ "), "\\x00\\x1b[2J\\x0d\\x0a\\x7f\\x82A~ ")

    def test_what_is_typed(self):
        self.assertEqual(telnet.typed(b"one\ntwo\r\nth\xc3\xa9"), b"one\r\ntwo\r\nth?")

    def test_each_session_has_its_own_lines(self):
        user, server, subnet, made = icp.Node(ncp.Host(1, [2])), icp.Node(ncp.Host(2, [1])), ncp.Subnet([1, 2]), []

        class Keeps(icp.Session):
            def opened(self):
                made.append(self)
                self.text = b""

            def arrived(self, text):
                self.text += text
        server.listen(1, telnet.Echo)
        with contextlib.redirect_stderr(io.StringIO()):
            for _ in range(2):
                user.call(2, 1, Keeps)
            icp.settle((user, server), subnet)
            for one, other in ((b"HEL", b"GOOD"), (b"LO\r\nBY", b"DAY\r\n"), (b"E\r\n", b"BYEBYE\r\n")):
                made[0].write(one), made[1].write(other)
                icp.settle((user, server), subnet)
        self.assertEqual([it.text for it in made], [b"ECHO HELLO\r\n", b"ECHO GOODDAY\r\nECHO BYEBYE\r\n"])
        self.assertEqual(user.sessions, [made[1]])


class Datagrams(unittest.TestCase):
    """A line, and datagrams from a stranger or another program."""

    def setUp(self):
        here, there = free_ports(2)
        self.line, self.other = h316.Line(here, there), socket.socket(socket.AF_INET, socket.SOCK_DGRAM)
        self.addCleanup(self.other.close)
        self.addCleanup(self.line.socket.close)
        self.other.bind(("127.0.0.1", there))
        self.line.socket.settimeout(PATIENCE)
        self.other.settimeout(PATIENCE)
        self.here = here

    def takes(self, *datagrams):
        """The result of datagrams, each a sequence number, flags and words in hexadecimal digits, or raw bytes."""
        found = []
        for it in datagrams:
            data = it if isinstance(it, bytes) else b"H316" + it[0].to_bytes(4, "big") + (len(it[2]) // 4).to_bytes(2, "big") + it[1].to_bytes(2, "big") + bytes.fromhex(it[2])
            self.other.sendto(data, ("127.0.0.1", self.here))
            found.append(self.line.receive())
        return found

    def test_what_goes_out(self):
        self.line.send_nops()
        self.line.send(ncp.Bits(bytes(range(131)), 8 * 131))
        self.line.close()
        sent = [self.other.recv(1000).hex() for _ in range(6)]
        nop = "48333136" "0000000{}" "0002" "0003" "04000000"
        self.assertEqual(sent[:3], [nop.format(it) for it in range(3)])
        self.assertEqual(sent[3:], ["48333136" "00000003" "0040" "0002" + bytes(range(128)).hex(), "48333136" "00000004" "0002" "0003" "80818200",
                                    "48333136" "00000005" "0000" "0001"])

    def test_a_message_that_fills_its_datagrams(self):
        self.line.send(bytes(range(128)) * 2)
        sent = [self.other.recv(1000).hex() for _ in range(2)]
        self.assertEqual(sent, [f"48333136 {number:08x} 0040 {flags}".replace(" ", "") + bytes(range(128)).hex() for number, flags in ((0, "0002"), (1, "0003"))])

    def test_the_number_after_the_last_one_is_0(self):
        self.line._next = 2**32 - 1
        self.line.send(h316.NOP)
        self.line.send(h316.NOP)
        self.assertEqual([self.other.recv(1000)[4:8].hex() for _ in range(2)], ["ffffffff", "00000000"])

    def test_a_message_in_parts_without_its_padding(self):
        # An RST of 80 bits: five words. A text of one byte of 36 bits: 108 bits, seven words. An RFNM with a word of padding.
        rst, text = "0002000000080001000c", "00020200002400010012345678900000"
        self.assertEqual(self.takes((0, 3, rst)), [(bytes.fromhex(rst), 80)])
        self.assertEqual(self.takes((1, 2, text[:8]), (2, 3, text[8:])), [None, (bytes.fromhex("0002020000240001001234567890"), 108)])
        self.assertEqual(self.takes((3, 3, "050202000000")), [(bytes.fromhex("050202000000"), 48)])
        # The spare bits of the last byte are cut off too.
        self.assertEqual(self.takes((4, 3, "000202000003000100ff")), [(bytes.fromhex("000202000003000100e0"), 75)])
        self.assertTrue(self.line.is_ready)
        self.assertEqual(self.takes((5, 1, "")), [None])
        self.assertEqual((self.line.is_ready, self.line.dropped), (False, 0))

    def test_what_is_no_datagram(self):
        nop = (7, 3, "04000000")
        made = b"H316" + bytes.fromhex("00000008" "0002" "0003" "04000000")
        self.assertEqual(self.takes(nop), [(b"\4\0\0\0", 32)])
        wrong = [b"", b"H316", made[:11], made[:-1], made + b"\0", made + b"\0\0", b"H317" + made[4:], b"\xff" * 2000]
        self.assertEqual(self.takes(*wrong), [None] * len(wrong))
        self.assertEqual(self.line.dropped, len(wrong))
        self.assertEqual(self.takes(made), [(b"\4\0\0\0", 32)])
        # A datagram from another port does not reach it.
        with socket.socket(socket.AF_INET, socket.SOCK_DGRAM) as stranger:
            stranger.sendto(made, ("127.0.0.1", self.here))
        self.assertEqual(select.select([self.line], [], [], 0.1)[0], [])

    def test_which_numbers_are_taken(self):
        """Of each number whether it is taken: old ones are not, a few may be lost, and who begins again does so with 0 or 1."""
        for number, is_taken in ((1000, True), (1000, False), (1001, True), (1017, True), (1034, False), (1017, False), (999, False), (0, True), (1, True),
                                 (1, False), (0, True), (5000, False), (5001, True), (5002, True), (2**32 - 1, False), (0, True), (7000, False), (7001, True),
                                 (1, True)):
            self.assertEqual(self.takes((number, 3, "04000000")) != [None], is_taken, number)
        line = self.line
        line._taken = line._seen = 2**32 - 2
        self.assertEqual(self.takes((2**32 - 1, 3, "04000000"), (0, 3, "04000000")), [(b"\4\0\0\0", 32)] * 2)

    def test_a_part_that_is_lost(self):
        """The parts before it are useless; and no message is longer than the maximum."""
        self.assertEqual(self.takes((0, 2, "0002"), (2, 3, "04000000")), [None, (b"\4\0\0\0", 32)])
        for number in range(3, 60):
            self.assertEqual(self.takes((number, 2, "04" + "00" * 127)), [None])
            self.assertLessEqual(len(self.line._parts), 1024)
        self.assertEqual(self.takes((60, 3, "0000"))[0].count, 8192)

    def test_where_nobody_listens(self):
        self.other.close()
        self.line.send(h316.NOP)
        self.assertIsNone(self.line.receive())
        self.line.send(h316.NOP)
        self.line.send(h316.NOP)


if __name__ == "__main__":
    unittest.main()
