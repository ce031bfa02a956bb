# SPDX-License-Identifier: MIT
"""The initial connection protocol: what its two sides make of each other, and of what a stranger sends. What crosses both interfaces is
audited by the program of this repository."""
import io
import subprocess
import sys
import tempfile
import unittest
from pathlib import Path

import icp
import ncp

TOP = Path(__file__).resolve().parent.parent.parent
MAIN = """host 1 asks for socket 7, on which nobody listens
host 2, socket 7: nobody listens
host 1 has a session with host 2
host 2 sends 7 letters, b'HELLO\\r' at first
host 2 sends 2002 letters, b'XXXXXX' at first
host 2 sends 5 letters, b'BYE\\r\\n' at first
the session is over
"""


def program(word, data):
    """The output of `ncp` for a message file, and its status."""
    ran = subprocess.run([TOP / "ncp", word], input=data, stdout=subprocess.PIPE)
    return ran.stdout.decode(), ran.returncode


def control(*commands):
    """A control message from host 2, of commands in hexadecimal digits."""
    text = bytes.fromhex("".join(commands))
    return b"\0\2\0\0\0\10" + len(text).to_bytes(2, "big") + b"\0" + text


def rts(there, here, link):
    return f"01{there:08x}{here:08x}{link:02x}"


class Heard(icp.Session):
    """A session that records its events."""

    def __init__(self, *words):
        super().__init__(*words)
        self.text, self.happened = b"", []

    def opened(self):
        self.happened.append("opened")

    def arrived(self, text):
        self.text += text

    def ended(self):
        self.happened.append("ended")


class Nodes(unittest.TestCase):
    """Two nodes, 1 and 2, and the subnet between them."""

    def setUp(self):
        self.file, self.made, self.refused, self.reported = io.BytesIO(), [], [], []
        self.user, self.server = icp.Node(ncp.Host(1, [2])), icp.Node(ncp.Host(2, [1]), self.reported.append)
        self.subnet, self.capture = ncp.Subnet([1, 2]), ncp.Capture(self.file)

    def settle(self):
        icp.settle((self.user, self.server), self.subnet, self.capture)

    def make(self, *words):
        self.made.append(Heard(*words))
        return self.made[-1]

    def call(self, contact=1):
        self.user.call(2, contact, self.make, self.refused.append)

    def no_finding(self):
        self.assertEqual(program("audit", self.file.getvalue()), ("", 0))

    def nothing_is_left(self):
        for node in self.user, self.server:
            self.assertEqual((node.sessions, node._exchanges, node._later, node._to_close), ([], {}, [], set()))
            self.assertEqual(node.host.connections(3 - node.host.me), [])

    def test_the_sockets_of_both(self):
        self.server.listen(1, self.make)
        self.call()
        self.settle()
        # The user's session is made first. Its sockets are 256 (U), 258 and 259, the server's 256 and 257.
        user, server = self.made
        self.assertEqual((server.receiver.at, server.sender.at), ((1, 256, 259), (1, 257, 258)))
        self.assertEqual((user.receiver.at, user.sender.at), ((2, 258, 257), (2, 259, 256)))
        self.assertEqual(([server.happened, user.happened]), [["opened"], ["opened"]])
        self.assertIn("RTS receive=256 send=1 link=2", program("show", self.file.getvalue())[0])
        self.assertIn("text bits=32 00000100", program("show", self.file.getvalue())[0])
        for it in self.made:
            it.write(b"from %d" % it.node.host.me)
        user.finish()
        self.settle()
        self.assertEqual([server.text, user.text], [b"from 1", b"from 2"])
        self.assertEqual([server.happened, user.happened], [["opened", "ended"]] * 2)
        self.nothing_is_left()
        self.no_finding()

    def test_a_long_text_comes_back(self):
        self.server.listen(1, icp.Echo)
        self.call()
        self.settle()
        text = bytes(it % 251 for it in range(30_000))
        self.made[0].write(text[:20_000])
        self.made[0].write(text[20_000:])
        self.assertGreater(self.made[0].sender.waits, 8 * 20_000)
        self.settle()
        self.assertEqual(self.made[0].text, text)
        self.no_finding()

    def test_who_does_not_take_its_answers_is_not_read(self):
        self.server.listen(1, icp.Echo)
        self.call()
        self.settle()
        user, server = self.made[0], self.server.sessions[0]
        user.is_ready = lambda: False
        user.write(bytes(20_000))
        self.settle()
        # Four rooms are full, and no more than one waits at the server: the rest is at the user.
        self.assertLessEqual(server.sender.waits, icp.ROOM)
        self.assertGreaterEqual(user.sender.waits, 8 * 20_000 - 5 * icp.ROOM)
        user.is_ready = lambda: True
        self.user.work()
        self.settle()
        self.assertEqual(user.text, bytes(20_000))
        self.no_finding()

    def test_many_sessions_at_once(self):
        self.server.listen(1, icp.Echo)
        for _ in range(20):
            self.call()
        self.settle()
        for each, session in enumerate(self.made):
            session.write(b"%d" % each * 50)
        self.settle()
        self.assertEqual([it.text for it in self.made], [b"%d" % each * 50 for each in range(20)])
        self.assertEqual(len({it.sender.at for it in self.made} | {it.receiver.at for it in self.made}), 40)
        for session in self.made:
            session.finish()
        self.settle()
        self.nothing_is_left()
        self.no_finding()

    def test_more_than_there_is_place_for(self):
        """Of 40 calls some find the table of 64 full: these are refused, and no other is harmed."""
        self.server.listen(1, icp.Echo)
        for _ in range(40):
            self.call()
        self.settle()
        self.assertEqual(len(self.made) + len(self.refused), 40)
        self.assertEqual({*self.refused}, {"host 2, socket 1: TableFull"})
        opened = [it for it in self.made if it.happened == ["opened"]]
        self.assertGreater(len(opened), 10)
        self.assertEqual([it.happened for it in self.made if it not in opened], [["ended"]] * (len(self.made) - len(opened)))
        for session in opened:
            session.write(b"x")
        self.settle()
        self.assertEqual([it.text for it in opened], [b"x"] * len(opened))
        for session in self.made:
            session.finish()
        self.settle()
        self.nothing_is_left()
        self.no_finding()

    def test_nobody_listens(self):
        self.server.listen(1, icp.Echo)
        for contact in 3, 0xFFFFFFFF:
            self.call(contact)
        self.settle()
        self.assertEqual(self.refused, ["host 2, socket 3: nobody listens", "host 2, socket 4294967295: nobody listens"])
        self.assertEqual(self.reported, ["host 1 asks for socket 3, on which nobody listens", "host 1 asks for socket 4294967295, on which nobody listens"])
        self.nothing_is_left()
        self.no_finding()

    def test_no_contact_socket(self):
        for socket in 2, -1, 2**32, 2**32 + 1:
            with self.assertRaises(ValueError):
                self.server.listen(socket, icp.Echo)
            with self.assertRaises(ValueError):
                self.call(socket)
        with self.assertRaises(ncp.UnknownPeer):
            self.user.call(3, 1, self.make)

    def test_who_closes_one_connection_ends_both(self):
        """A user that closes both at once, and one that stops reading: the server's session ends too."""
        self.server.listen(1, self.make)
        for close in lambda it: it.close(), lambda it: it.receiver.close():
            self.made.clear()
            self.call()
            self.settle()
            user, server = self.made
            server.write(b"lost")
            close(user)
            self.settle()
            self.assertEqual([user.happened, server.happened], [["opened", "ended"]] * 2)
            self.nothing_is_left()
        self.no_finding()

    def test_a_reset_ends_it(self):
        self.server.listen(1, icp.Echo)
        self.call()
        self.settle()
        self.made[0].write(b"x" * 5000)
        self.user.work()
        self.server.host.reset(1)
        self.settle()
        self.assertEqual(self.made[0].happened, ["opened", "ended"])
        self.nothing_is_left()
        self.made[0].write(b"late")
        self.call()
        self.settle()
        self.assertEqual(len(self.made), 2)
        self.no_finding()

    def test_a_reset_ends_a_call(self):
        self.call()
        self.user.work()
        list(self.user.host.outputs())
        self.user.host.receive(bytes.fromhex("05020000"))
        self.user.host.receive(control("0d"))  # an RRP
        self.user.work()
        self.user.host.reset(2)
        self.user.work()
        self.assertEqual(self.refused, ["host 2, socket 1: nobody listens"])

    def test_a_dead_host(self):
        self.call()
        for _ in range(2):
            self.user.work()
            self.assertEqual([it.data.hex() for it in self.user.host.outputs()], ["0002000000080001000c"])
            self.user.host.receive(bytes.fromhex("07020000"))
            self.user.work()
            self.assertEqual(self.refused, ["host 2, socket 1: the host is dead"])
            self.assertEqual([*self.user.host.outputs()], [])
            self.refused.clear()
            self.call()  # the RST is sent again

    def test_the_example(self):
        with tempfile.TemporaryDirectory() as room:
            file = Path(room) / "icp.ncp"
            ran = subprocess.run([sys.executable, "-B", "-W", "error", TOP / "bindings/python/icp.py", file], stdout=subprocess.PIPE, text=True, check=True)
            self.assertEqual(ran.stdout, MAIN)
            self.assertEqual(program("audit", file.read_bytes()), ("", 0))


class Strangers(unittest.TestCase):
    """A node whose peer, host 2, sends what it likes."""

    def setUp(self):
        self.reported, self.refused, self.made = [], [], []
        self.node = icp.Node(ncp.Host(1, [2]), self.reported.append)
        self.node.host.receive(control("0c"))
        self.sent()

    def receive(self, *commands):
        self.node.host.receive(control(*commands))
        self.node.work()

    def sent(self):
        """The commands that go out, and the texts, each with its link; all of it is answered."""
        found = []
        for message in self.node.host.outputs():
            found += [it.hex() for it in ncp.commands(message)] or [(message.link, message.data[9:].hex())]
            self.node.host.receive(bytes([5, 2, message.link, 0]))
            self.node.work()
        return found

    def make(self, *words):
        self.made.append(Heard(*words))
        return self.made[-1]

    def call(self):
        """A call to socket 1, for which host 2 has the RTS."""
        self.node.call(2, 1, self.make, self.refused.append)
        self.node.work()
        self.assertEqual(self.sent(), [rts(256, 1, 2)])

    def answer(self, size, text):
        """Host 2 accepts with bytes of a size, and sends a text on the link."""
        self.receive(f"020000000100000100{size:02x}")
        self.assertEqual(self.sent(), ["0402" "0001" "00000020"])
        self.node.host.receive(bytes([0, 2, 2, 0, 0, size]) + (8 * len(text) // size).to_bytes(2, "big") + b"\0" + text)
        self.node.work()

    def test_the_65th_request(self):
        self.node.listen(1, self.make)
        for each in range(65):
            self.receive(rts(4 * each, 1, 2 + each))
        self.assertEqual(self.reported, ["host 2 asks for socket 1: TableFull"])
        sent = self.sent()
        self.assertEqual([it for it in sent if it[:2] == "02"], [f"0200000001{4 * each:08x}20" for each in range(64)])
        self.assertEqual([it for it in sent if it[:2] == "03"], [f"0300000001{4 * 64:08x}"])
        # One of the 64 goes, and there is place again.
        self.receive("03" "00000000" "00000001", "03" f"{4 * 64:08x}" "00000001")
        self.receive(rts(4 * 65, 1, 2))
        self.assertEqual(self.sent(), ["03" "00000001" "00000000", f"0200000001{4 * 65:08x}20"])
        self.assertEqual(len(self.reported), 1)

    def test_a_user_without_sockets(self):
        self.node.listen(1, self.make)
        self.receive(rts(0xFFFFFFFE, 1, 2))
        self.assertEqual(self.reported, ["host 2 asks from socket 4294967294, which has no three after it"])
        self.assertEqual(self.sent(), ["03" "00000001" "fffffffe"])

    def test_the_last_sockets_of_all(self):
        """The user's are 4294967292 to 4294967295; it asks for its two before it has the RFNM, and both sides wait for nothing."""
        self.node.listen(1, self.make)
        self.receive(rts(0xFFFFFFFC, 1, 2))
        self.assertEqual(self.sent(), ["02" "00000001" "fffffffc" "20"])
        self.receive("04" "02" "0001" "00000020")
        message = self.node.host.next_output()
        self.assertEqual((message.link, message.data[4:].hex()), (2, "0020" "000100" "00000100"))
        # The text is not answered yet, when the user asks for both connections and closes that one.
        self.receive(rts(0xFFFFFFFE, 257, 3), "02" "ffffffff" "00000100" "08", "03" "fffffffc" "00000001")
        self.assertEqual((self.sent(), self.made, self.reported), ([], [], []))
        self.node.host.receive(b"\5\2\2\0")
        self.node.work()
        self.assertEqual(self.sent(), ["03" "00000001" "fffffffc", rts(256, 0xFFFFFFFF, 2), "02" "00000101" "fffffffe" "08", "0402" "0008" "00001f40"])
        self.assertEqual(self.made[0].happened, ["opened"])

    def test_a_socket_that_is_odd(self):
        self.call()
        self.answer(32, b"\0\0\5\1")
        self.assertEqual(self.refused, ["host 2, socket 1: socket 1281 is odd"])
        self.assertEqual(self.sent(), ["03" "00000100" "00000001"])
        # Later requests are refused.
        self.receive(rts(1280, 259, 2))
        self.assertEqual(self.reported, ["host 2 asks for socket 259, on which nobody listens"])

    def test_a_socket_in_bytes_of_8_bits(self):
        self.call()
        self.answer(8, b"\xff\xff\xff\xfe")
        self.assertEqual(self.sent(), [rts(258, 0xFFFFFFFF, 3), "02" "00000103" "fffffffe" "08", "03" "00000100" "00000001"])

    def test_a_socket_of_other_sizes(self):
        self.call()
        self.answer(8, b"\0\0\5")
        self.assertEqual(self.refused, ["host 2, socket 1: 24 bits are no socket"])

    def test_an_end_without_a_socket(self):
        self.call()
        self.receive("02" "00000001" "00000100" "20")
        self.receive("03" "00000001" "00000100")
        self.assertEqual(self.refused, ["host 2, socket 1: it ends without a socket"])

    def test_a_server_that_asks_before_its_socket_is_there(self):
        """Its requests wait until the number says whose they are; another one is refused."""
        self.call()
        self.receive(rts(1280, 259, 2), "02" "00000501" "00000102" "08", "02" "00000503" "00000102" "08")
        self.assertEqual((self.sent(), self.reported), ([], []))
        self.answer(32, b"\0\0\5\0")
        self.assertEqual(self.made[0].happened, ["opened"])
        self.assertEqual(self.reported, ["host 2 asks for socket 258, on which nobody listens"])

    def test_a_full_queue_is_for_later(self):
        """256 replies to echoes are queued: a request, a refusal and a call wait until some are sent."""
        self.node.listen(1, self.make)
        for _ in range(8):
            self.receive("0941" * 32)
        self.assertEqual(len(self.node.host.waiting(2)), 256)
        self.receive(rts(2, 1, 2), rts(4, 7, 3))
        self.node.call(2, 9, self.make, self.refused.append)
        self.node.work()
        self.node.work()
        self.assertEqual(len(self.node.host.waiting(2)), 256)
        sent = self.sent()
        self.assertEqual((sent[:256], sorted(sent[256:])), (["0a41"] * 256, [rts(256, 9, 2), "02" "00000001" "00000002" "20", "03" "00000007" "00000004"]))
        self.assertEqual((self.reported, self.refused), (["host 2 asks for socket 7, on which nobody listens"], []))


if __name__ == "__main__":
    unittest.main()
