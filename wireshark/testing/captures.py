"""Random captures for the comparison of the plugin with the program, reproducible by number.

Most are conversations of a host with one or two peers, seen at its interface or at both: mostly correct, with a few
errors. Others are floods of one command, as from a hostile peer, up to a limit of the state and beyond it.
"""
import random

from records import a_message, message, record

RFNM, DEAD, ERROR_IN_MESSAGE, INCOMPLETE, INTERFACE_RESET = 5, 7, 8, 9, 10
MOST = 4096  # of what is kept
ROOMY, LONGEST = 108, 1000  # bytes of a control text
RST, RRP, NOP = b"\x0c", b"\x0d", b"\0"
ANSWER = "RFNM for a text on link 3"


def socket(number):
    return number.to_bytes(4, "big")


def rts(receive, send, link):
    return b"\1" + socket(receive) + socket(send) + bytes([link])


def str_(send, receive, size):
    return b"\2" + socket(send) + socket(receive) + bytes([size])


def cls(my, your):
    return b"\3" + socket(my) + socket(your)


def all_(link, messages, bits):
    return b"\4" + bytes([link]) + messages.to_bytes(2, "big") + bits.to_bytes(4, "big")


def gvb(link, messages, bits):
    return b"\5" + bytes([link, messages, bits])


def ret(link, messages, bits):
    return b"\6" + bytes([link]) + messages.to_bytes(2, "big") + bits.to_bytes(4, "big")


def eco(byte):
    return b"\x09" + bytes([byte])


def erp(byte):
    return b"\x0a" + bytes([byte])


def err(code, data):
    return b"\x0b" + bytes([code]) + data[:10].ljust(10, b"\0")


def regular(host, link, size, text, count=None):
    """The bits and bytes of a message of type 0."""
    count = len(text) * 8 // size if count is None else count
    return message(72 + size * count, bytes([0, host, link, 0, 0, size]) + count.to_bytes(2, "big") + b"\0" + text)


def pieces(commands, most):
    """These commands as control texts of at most this many bytes."""
    text = b""
    for command in commands:
        if len(text) + len(command) > most:
            yield text
            text = b""
        text += command
    if text:
        yield text


class Capture:
    """Records of version 2."""

    def __init__(self):
        self.parts = [b"NCPJ"]

    def add(self, way, at, bits, data):
        self.parts.append(record("j", bits, data, way, at))

    def answer(self, at, host, link, kind=RFNM):
        self.add("I", at, 32, bytes([kind, host, link, 0]))

    def out(self, at, host, link, size, text, answered=True):
        self.add("H", at, *regular(host, link, size, text))
        if answered:
            self.answer(at, host, link)

    def come(self, at, host, link, size, text):
        self.add("I", at, *regular(host, link, size, text))

    def say(self, sent, commands, most=ROOMY, at=1, host=2):
        """Control messages of the host, or of the other."""
        for text in pieces(commands, most):
            (self.out if sent else self.come)(at, host, 0, 8, text)

    def begin(self, at=1, host=2):
        self.say(False, [RST], at=at, host=host)
        self.say(True, [RRP], at=at, host=host)

    def __bytes__(self):
        return b"".join(self.parts)


class Talk:
    """A host and a peer by their messages: requests, connections, and pending replies. `True` is the host's."""

    SOCKETS = ((3, 2), (5, 4), (7, 2), (2, 3), (4, 5), (2, 7))  # of the host and of the peer

    def __init__(self, dice, wild):
        self.dice, self.wild = dice, wild
        self.clear()

    def clear(self):
        self.asked, self.left, self.links, self.sizes, self.allowed = {}, {}, {}, {}, {}
        self.due = {True: [], False: []}

    def command(self, sent):
        """One that is right, mostly."""
        dice = self.dice
        if dice.random() < self.wild:
            return self.any_command(sent)
        if self.due[sent] and dice.random() < 0.7:
            return self.due[sent].pop(0)
        pair = dice.choice(self.SOCKETS)
        asked = self.asked.get(pair, set())
        if len(asked) < 2:
            return self.request(sent, pair) if sent not in asked else self.other(sent)
        if dice.random() < 0.12 or pair in self.left:
            return self.close(sent, pair)
        return self.on_link(sent, pair)

    def request(self, sent, pair):
        here, there = pair
        own, others = (here, there) if sent else (there, here)
        self.asked.setdefault(pair, set()).add(sent)
        if own % 2 == 0:
            self.links[pair] = self.dice.choice([2, 3, 4, 5, 6, 7])
            return rts(own, others, self.links[pair])
        self.sizes[pair] = self.dice.choice([8, 8, 8, 7, 1])
        return str_(own, others, self.sizes[pair])

    def close(self, sent, pair):
        left = self.left.setdefault(pair, set())
        if sent in left:
            return self.other(sent)
        left.add(sent)
        if len(left) == 2:
            for table in (self.asked, self.left, self.links, self.sizes, self.allowed):
                table.pop(pair, None)
        return cls(*(pair if sent else pair[::-1]))

    def on_link(self, sent, pair):
        dice, link = self.dice, self.links.get(pair, 2)
        messages, bits = self.allowed.get(pair, (0, 0))
        if (pair[0] % 2 == 0) == sent:  # the receiver speaks
            chance = dice.random()
            if chance < 0.6:
                more = dice.randrange(4), dice.choice([0, 8, 16, 100, 400, 70000])
                self.allowed[pair] = messages + more[0], bits + more[1]
                return all_(link, *more)
            if chance < 0.85:
                parts = dice.choice([0, 1, 64, 128, 200]), dice.choice([0, 1, 64, 128, 200])
                back = [min(number, -(-number * part // 128)) for number, part in zip((messages, bits), parts)]
                self.allowed[pair] = messages - back[0], bits - back[1]
                self.due[not sent].append(ret(link, min(back[0], 65535), back[1]))
                return gvb(link, *parts)
            return b"\7" + bytes([link])
        return b"\x08" + bytes([link])

    def other(self, sent):
        byte = self.dice.randrange(4)
        chance = self.dice.random()
        if chance < 0.3:
            self.due[not sent].append(erp(byte))
            return eco(byte)
        return NOP

    def any_command(self, sent):
        dice = self.dice
        here, there = dice.choice(self.SOCKETS)
        own, others = (here, there) if sent else (there, here)
        if dice.random() < 0.2:
            own, others = dice.randrange(1, 6), dice.randrange(1, 6)
        link = dice.choice([2, 2, 3, 3, 4, 5, 6, 7, 1, 71, 72])
        command = dice.choice([
            rts(own, others, link), str_(own, others, dice.choice([8, 8, 7, 0])), cls(own, others), cls(own, others),
            all_(link, dice.choice([0, 1, 5, 65535]), dice.choice([0, 8, 100, 65536, 2**32 - 1])),
            gvb(link, dice.randrange(256), dice.randrange(256)), ret(link, dice.randrange(4), dice.choice([0, 8, 100, 2**32 - 1])),
            b"\7" + bytes([link]), b"\x08" + bytes([link]), eco(dice.randrange(4)), erp(dice.randrange(4)), NOP, RST, RRP,
            err(dice.randrange(6), dice.choice([dice.randbytes(10), NOP, eco(1)])),
        ])
        if command[0] in range(1, 9) and dice.random() < 0.5:
            self.due[not sent].append(err(dice.choice([3, 3, 4, 5, 5]), command))
        return command

    def text(self, sent):
        """Link, size and text, mostly within the allocation."""
        dice = self.dice
        mine = [pair for pair in self.links if (pair[0] % 2 == 1) == sent and len(self.asked.get(pair, ())) == 2]
        mine = [pair for pair in mine if self.allowed.get(pair, (0, 0))[0] or dice.random() < 0.1]
        if not mine or dice.random() < self.wild:
            if dice.random() < 0.8:
                return 0, 8, self.command(sent)
            link, size, text = dice.choice([2, 3, 4, 5]), dice.choice([8, 8, 7, 36]), dice.randbytes(dice.randrange(6))
        else:
            pair = dice.choice(mine)
            messages, bits = self.allowed.get(pair, (0, 0))
            link, size = self.links[pair], self.sizes.get(pair, 8)
            count = dice.choice([bits // 8, 1, 1, 2, 3]) % 50
            text = dice.randbytes(count)
            self.allowed[pair] = max(0, messages - 1), max(0, bits - 8 * count)
        if dice.random() < 0.3:
            shown = regular(2 if not sent else 1, link, size, text)[1]
            self.due[not sent].append(err(dice.choice([5, 5, 5, 3]), shown))
        return link, size, text


def spoil(dice, command):
    """A command with another number in it."""
    at = dice.randrange(1, len(command)) if len(command) > 1 else 0
    return command[:at] + bytes([dice.choice([0, 1, 2, 3, 71, 72, 255])]) + command[at + 1 :]


class Dialogue:
    """Talks of host 1 with one or two peers, at its interface; with `both` at that of the first peer too."""

    def __init__(self, seed):
        self.dice = dice = random.Random(seed)
        self.capture = Capture()
        self.wild = dice.choice([0, 0.01, 0.03, 0.1, 0.3])
        self.both = dice.random() < 0.3
        self.trouble = dice.choice([0, 0.02, 0.1])
        self.resets = dice.choice([0, 0, 0.1])
        self.talks = {host: Talk(dice, self.wild) for host in (2, 3)[: dice.choice([1, 1, 2])]}
        self.lost = {}
        for host in self.talks:
            self.begin(host)
        turns = dice.choice([10, 20, 30, 100])
        slip = dice.randrange(2 * turns)
        for turn in range(turns):
            self.turn(turn == slip)

    def begin(self, host):
        """A reset by either, mostly with its reply."""
        dice, first = self.dice, self.dice.random() < 0.5
        said = [(first, RST), (not first, RRP)]
        if dice.random() < self.wild + 0.05:
            said = [(dice.random() < 0.5, dice.choice([RST, RRP])) for _ in range(dice.randrange(5))]
        if dice.random() < 0.05:
            self.cross(host)
        for sent, command in said:
            self.control(host, sent, command)

    def cross(self, host):
        """A reset arrives while a text is unacknowledged, and the host makes its own."""
        self.capture.out(1, host, 3, 8, b"a", answered=False)
        self.capture.come(1, host, 0, 8, RST)
        self.capture.answer(1, host, 3)
        self.capture.out(1, host, 0, 8, RST)

    def turn(self, is_slip):
        dice = self.dice
        host, sent = dice.choice(list(self.talks)), dice.random() < 0.5
        talk = self.talks[host]
        chance = dice.random()
        if is_slip:
            self.control(host, sent, talk.any_command(sent) if dice.random() < 0.5 else spoil(dice, talk.command(sent)))
        elif chance < 0.03:
            talk.clear()
            self.begin(host)
        elif chance < 0.25:
            self.message(host, sent, *talk.text(sent))
        elif chance < 0.25 + self.trouble:
            self.odd(host)
        elif chance < 0.25 + self.trouble + self.resets:
            self.interface(host)
        else:
            commands = [talk.command(sent) for _ in range(dice.choice([1, 1, 1, 2, 3, 6]))]
            if dice.random() < self.wild:
                commands.append(dice.choice([b"\x0e\1", rts(2, 3, 4)[:-1], b"\xff", eco(1)[:1]]))
            self.control(host, sent, b"".join(commands))

    def odd(self, host):
        """A random record, an answer to nothing, or a message on the last one's link."""
        dice, capture = self.dice, self.capture
        chance = dice.random()
        if chance < 0.4:
            capture.answer(1, host, dice.choice([0, 0, 2, 3]), dice.choice([RFNM, DEAD, INCOMPLETE]))
        elif chance < 0.7:
            capture.add(dice.choice("HI"), dice.choice([1, 1, 2, 3]), *a_message(dice))
        else:
            text = dice.choice([b"", NOP * dice.randrange(1, 130), dice.randbytes(3)])
            (capture.out if dice.random() < 0.5 else capture.come)(1, host, dice.choice([0, 1, 2, 3, 72]), dice.choice([8, 8, 7, 36]), text)

    def interface(self, host):
        """An interface is reset, or an error is in a message, mostly while one is in flight, which is mostly sent again."""
        dice, capture = self.dice, self.capture
        sent = not self.both or dice.random() < 0.6
        here, there = (1, host) if sent else (host, 1)
        link, size, text = self.talks[host].text(sent)
        if dice.random() < 0.8:
            self.flies(here, there, link, size, text, 0.5)
        if dice.random() < 0.7:
            at = dice.choice([here, here, there])
            capture.add("I", at, *message(32, bytes([INTERFACE_RESET, dice.choice([0, 0, at, there]), 0, 0])))
        else:
            capture.answer(here, there, link, ERROR_IN_MESSAGE)
        if dice.random() < 0.3:
            capture.answer(here, there, link, dice.choice([RFNM, RFNM, INCOMPLETE, DEAD]))
        for _ in range(dice.choice([0, 1, 1, 1, 1, 2])):
            self.flies(here, there, link, size, text, 0.9)
        if dice.random() < 0.8:
            capture.answer(here, there, link)

    def flies(self, here, there, link, size, text, chance):
        """A message is sent, and perhaps delivered; what answers it is another matter."""
        self.capture.out(here, there, link, size, text, answered=False)
        while self.both and self.dice.random() < chance:
            self.capture.come(there, here, link, size, text)
            chance /= 3

    def control(self, host, sent, text):
        self.message(host, sent, 0, 8, text)

    def message(self, host, sent, link, size, text):
        count = len(text) * 8 // size
        here, there = (1, host) if sent else (host, 1)
        if self.both or sent:
            self.goes(here, there, link, size, text, count)
        else:
            self.capture.add("I", 1, *regular(host, link, size, text, count))

    def goes(self, here, there, link, size, text, count):
        """A message from one interface to the other; if not delivered, it is mostly sent again."""
        dice, capture = self.dice, self.capture
        for _ in range(3):
            lost = self.lost.pop((here, there, link), None)
            if lost and dice.random() < 0.95:
                self.deliver(here, there, link, lost)
        self.deliver(here, there, link, (size, text, count))

    def deliver(self, here, there, link, said):
        dice, capture = self.dice, self.capture
        size, text, count = said
        capture.add("H", here, *regular(there, link, size, text, count))
        fate = dice.choice([RFNM] * 12 + [DEAD, INCOMPLETE]) if dice.random() > self.trouble else dice.choice([None, RFNM, DEAD])
        came = fate == RFNM if dice.random() > self.trouble else dice.random() < 0.5
        if self.both and came:
            for _ in range(1 if dice.random() > self.trouble else 2):
                spoiled = text if dice.random() > self.trouble else dice.randbytes(len(text))
                capture.add("I", there, *regular(here, link, size, spoiled, count))
        if fate:
            capture.answer(here, there, link, fate)
            if fate != RFNM:
                self.lost[here, there, link] = said

    def __bytes__(self):
        return bytes(self.capture)


def connect(capture, link, here=2, there=3, size=8):
    """The host receives on a link."""
    capture.say(True, [rts(here, there, link)])
    capture.say(False, [str_(there, here, size)])


# The floods, between a host and a peer that are up; the host receives on link 2 and sends on link 3.
def flood_eco_erp(dice, n):
    return [(True, [eco(1)] * n), (False, [erp(1)] * n)]


def flood_eco_other_erp(dice, n):
    return [(True, [eco(1)] * n), (False, [erp(2)] * n)]


def flood_mixed_echoes(dice, n):
    return [(True, [eco(dice.randrange(256)) for _ in range(n)]), (False, [erp(dice.randrange(256)) for _ in range(n)])]


def flood_str(dice, n):
    return [(True, [str_(2 * i + 101, 2 * i + 100, 8) for i in range(n)]), (True, [NOP] * n)]


def flood_asked_again(dice, n):
    return [(False, [str_(5, 4, 8)] * n), (True, [err(3, str_(5, 4, 8))] * n), (True, [NOP] * 10)]


def flood_rst(dice, n):
    return [(dice.random() < 0.5, [RST] * n), (dice.random() < 0.5, [RRP] * n)]


def flood_rst_in_turn(dice, n):
    return [(i % 2 == 0, [dice.choice([RST, RRP])]) for i in range(min(n, 400))]


def flood_cls(dice, n):
    sent = dice.random() < 0.5
    return [(sent, [cls(2 * i + 2, 2 * i + 3) for i in range(n)]), (not sent, [cls(2 * i + 3, 2 * i + 2) for i in range(n)])]


def flood_left(dice, n):
    """The peer closes what it asked for, and the host answers nothing, or with a CLS for each."""
    asked, left, leaving = [dice.sample(range(n), n) if dice.random() < 0.6 else range(n) for _ in range(3)]
    return [
        (False, [str_(2 * i + 101, 2 * i + 100, 8) for i in asked]), (False, [cls(2 * i + 101, 2 * i + 100) for i in left]),
        (True, [NOP] * dice.randrange(50)), (True, [cls(2 * i + 100, 2 * i + 101) for i in leaving]),
    ]


def flood_open_close(dice, n):
    """Connections that open and close, one after the other, while the CLS of another is due."""
    said = [(False, [str_(9, 8, 8)]), (False, [cls(9, 8)])]
    for i in range(min(n, 1000)):
        said += [(False, [str_(2 * i + 101, 2 * i + 100, 8), cls(2 * i + 101, 2 * i + 100)]), (True, [cls(2 * i + 100, 2 * i + 101)])]
    return said


def flood_all(dice, n):
    """ALLs of messages alone, of bits alone, or of both, and texts that take them."""
    more = [all_(2, *dice.choice([(1, 0), (0, 48), (1, 48)])) for _ in range(n)]
    return [(True, more)] + [(False, (2, 8, b"abcdef"))] * min(n, 1000) + [(False, [ret(2, 1, 8)] * min(n, 1000))]


def flood_gvb_ret(dice, n):
    return [(True, [gvb(2, 1, 1)] * n), (False, [ret(2, 0, 0)] * n), (True, [gvb(2, 1, 1)]), (False, [ret(2, 9, 99)])]


def flood_gvb_rest(dice, n):
    return [(True, [gvb(2, 1, 1)] * n), (False, [cls(3, 2)]), (False, [all_(dice.randrange(2, 9), 1, 1)] * n)]


def flood_texts(dice, n):
    """Texts of no connection: each may be answered with an ERR."""
    n = min(n, MOST + 50)
    sent = dice.random() < 0.5
    texts = [(sent, (9, 8, bytes([i % 256]) * (1 + i // 256))) for i in range(n)]
    shown = regular(1 if sent else 2, 9, 8, b"\1\1")[1]
    return texts + [(not sent, [err(5, shown), err(5, shown)])]


def flood_bad(dice, n):
    return [(False, b"\x0e" + bytes([i % 256])) for i in range(min(n, MOST + 50))] + [(True, [err(1, b"\x0e" + bytes([i % 256])) for i in range(min(n, 1000))])]


def flood_err(dice, n):
    return [(False, [err(dice.randrange(6), dice.randbytes(10)) for _ in range(n)])]


def flood_not_open(dice, n):
    return [(dice.random() < 0.5, [dice.choice([all_(9, 1, 1), gvb(9, 1, 1), ret(9, 1, 1), b"\x07\x09", b"\x08\x09"]) for _ in range(n)]), (False, [err(5, all_(9, 1, 1))] * min(n, 1000))]


def flood_any(dice, n):
    talk = Talk(dice, 1)
    return [(sent, [talk.any_command(sent) for _ in range(100)]) for sent in [dice.random() < 0.5 for _ in range(n // 100)]]


def say_flood(capture, said, most):
    for sent, what in said:
        if what is ANSWER:
            capture.answer(1, 2, 3)
        elif isinstance(what, tuple):
            link, size, text = what
            capture.out(1, 2, link, size, text, answered=link != 3) if sent else capture.come(1, 2, link, size, text)
        elif isinstance(what, bytes):
            (capture.out if sent else capture.come)(1, 2, 0, 8, what)
        else:
            capture.say(sent, what, most)


def flood_returns(dice, n):
    """GVBs while a text is unacknowledged, and while none is: the RET is optional, or mandatory."""
    text, asked, answer, reply = (True, (3, 8, b"a")), (False, [gvb(3, 1, 1)]), (True, ANSWER), (True, [ret(3, 0, 0)])
    turns = ([text, asked, answer, asked, reply], [asked, reply], [text, asked, answer, reply], [asked, asked, reply])
    return [(False, [all_(3, 60000, 60000)])] + [one for _ in range(min(n, 300)) for one in dice.choice(turns)] + [asked, (True, [NOP])]


def flood_links(dice, count):
    """Messages to many hosts on many links, none of them answered; followed by some answers."""
    capture = Capture()
    outs = [(host, link) for host in range(3, 250) for link in range(256)]
    dice.shuffle(outs)
    for host, link in outs[:count]:
        capture.out(1, host, link, 8, b"a" if link else NOP, answered=False)
    for host, link in outs[: dice.randrange(200)]:
        capture.answer(1, host, link, dice.choice([RFNM, DEAD]))
    return capture


FLOODS = [value for name, value in sorted(globals().items()) if name.startswith("flood_")]

# First those that once made Wireshark hang, by their number of commands; then those that just fit, and one more: links,
# lives, replies and marks.
FIRST = [
    (flood_eco_erp, 5000), (flood_eco_other_erp, 5000), (flood_str, 5000), (flood_rst, 5000), (flood_eco_erp, 20000), (flood_eco_other_erp, 20000),
    (flood_links, MOST), (flood_links, MOST + 1), (flood_str, MOST - 2), (flood_str, MOST - 1), (flood_eco_erp, MOST), (flood_eco_erp, MOST + 1),
    (flood_texts, MOST - 1), (flood_texts, MOST),
]


def a_flood(seed, which):
    """A flood, mostly up to a limit or a little beyond it, followed by a conversation, to see what is still judged."""
    dice = random.Random(seed)
    turn = (which - len(FIRST)) // len(FLOODS)
    n, most = dice.choice([300, 1000] + [MOST - 2, MOST - 1, MOST, MOST + 1, MOST + 2, 5000] * (turn > 0)), dice.choice([12, ROOMY, 120, LONGEST])
    flood = FLOODS[(which - len(FIRST)) % len(FLOODS)]
    if which < len(FIRST):
        (flood, n), most = FIRST[which], ROOMY
    capture = Capture()
    capture.begin()
    connect(capture, 2)
    capture.say(False, [rts(6, 7, 3)])
    capture.say(True, [str_(7, 6, 8)])
    said = flood(dice, n)
    if isinstance(said, Capture):
        capture.parts += said.parts[1:]
    else:
        say_flood(capture, said, most)
    return bytes(capture) + bytes(Dialogue(dice.getrandbits(40)))[4:]


def spoiled(seed, recording):
    """A recording with some records missing, duplicated, swapped or altered."""
    from records import split

    dice = random.Random(seed)
    records = split(recording)
    for _ in range(dice.choice([1, 2, 5])):
        at = dice.randrange(len(records))
        what = dice.randrange(4)
        if what == 0:
            del records[at]
        elif what == 1:
            records.insert(dice.randrange(len(records)), records[at])
        elif what == 2:
            records[at - 1], records[at] = records[at], records[at - 1]
        else:
            direction, host, bits, data = records[at]
            place = dice.randrange(bits)
            altered = bytearray(data)
            altered[place // 8] ^= 128 >> place % 8
            records[at] = direction, host, bits, bytes(altered)
    return b"NCPJ" + b"".join(record("j", bits, data, direction, host) for direction, host, bits, data in records)
