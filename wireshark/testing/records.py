"""Random message files and scripts for the tests of the dissector, reproducible by number."""
import random

HEADERS = {"h": b"NCPH", "i": b"NCPI", "j": b"NCPJ"}
FIELDS = {1: (4, 4, 1), 2: (4, 4, 1), 3: (4, 4), 4: (1, 2, 4), 5: (1, 1, 1), 6: (1, 2, 4), 7: (1,), 8: (1,), 9: (1,), 10: (1,), 11: (1, 10)}


def message(bits, data):
    """The bits and the bytes of a message, spare bits zero."""
    data = data[: (bits + 7) // 8].ljust((bits + 7) // 8, b"\0")
    spare = -bits % 8
    if spare:
        data = data[:-1] + bytes([data[-1] & (0xFF << spare) & 0xFF])
    return bits, data


def record(version, bits, data, direction="H", host=1):
    front = direction.encode() + bytes([host]) if version == "j" else b""
    return front + bits.to_bytes(2, "big") + data


def a_command(dice):
    opcode = dice.randrange(14)
    fields = b""
    for width in FIELDS.get(opcode, ()):
        # Small numbers, so that sockets and links meet.
        value = dice.choice([dice.randrange(8), dice.getrandbits(8 * width)])
        fields += value.to_bytes(width, "big") if width < 10 else dice.randbytes(10)
    return bytes([opcode]) + fields


def a_message(dice):
    """A message: most are regular, and the others fail in each way."""
    kind = dice.choice([0] * 12 + [2, 4, 5, 5, 7, 9] + [dice.randrange(16)])
    flags = dice.choice([0] * 6 + [dice.randrange(16)])
    link = dice.choice([0, 0, 2, 3, 71, dice.randrange(256)])
    low = dice.choice([0] * 6 + [dice.randrange(256)])
    leader = bytes([flags << 4 | kind, dice.choice([1, 2, 3, dice.randrange(256)]), link, low])
    if kind:
        return message(32 + dice.choice([0, 0, 0, dice.randrange(100)]), leader + dice.randbytes(20))
    size = dice.choice([8, 8, 8, 8, 36, 7, 1, dice.randrange(256)])
    if link == 0 and size == 8:
        text = b"".join(a_command(dice) for _ in range(dice.randrange(12)))
        if dice.random() < 0.2:
            text += dice.choice([bytes([dice.randrange(14, 256)]), a_command(dice)[:-1]])
        count = len(text)
    else:
        count = dice.choice([0, 1, 2, dice.randrange(40), dice.randrange(120)])
        if size * count > 8000:
            count = 8000 // size if size else 0
        text = dice.randbytes((size * count + 7) // 8)
    bits = 72 + size * count
    prefix = bytearray(leader + bytes([0, size]) + count.to_bytes(2, "big") + b"\0")
    fault = dice.random()
    if fault < 0.03:
        prefix[4] = dice.randrange(1, 256)
    elif fault < 0.06:
        prefix[8] = dice.randrange(1, 256)
    elif fault < 0.10:
        bits = dice.randrange(0, max(1, bits))
    elif fault < 0.2:
        text += dice.randbytes(4)
        bits = min(8192, bits + dice.randrange(1, 32))
    return message(bits, bytes(prefix) + text)


def a_file(version, records, seed):
    """A message file of this version ("h", "i" or "j") with this many records."""
    dice = random.Random(seed)
    parts = [HEADERS[version]]
    for _ in range(records):
        bits, data = a_message(dice)
        parts.append(record(version, bits, data, dice.choice("HI"), dice.choice([1, 2, 3, dice.randrange(256)])))
    return b"".join(parts)


def split(data):
    """The records of a message file without a fault: direction and host (None in version 1), bits and bytes."""
    version = {head: version for version, head in HEADERS.items()}[data[:4]]
    at, records = 4, []
    while at < len(data):
        direction = host = None
        if version == "j":
            direction, host = chr(data[at]), data[at + 1]
            at += 2
        bits = int.from_bytes(data[at : at + 2], "big")
        at += 2
        records.append((direction, host, bits, data[at : at + (bits + 7) // 8]))
        at += (bits + 7) // 8
    return records


class Script:
    """A script of two to eight hosts: connections that open, send, close, are reset and opened again, over a subnet that
    loses messages and finds hosts dead."""

    def __init__(self, seed, rounds=12):
        self.dice = random.Random(seed)
        self.count = self.dice.randrange(2, 9)
        self.hosts = self.dice.sample(range(1, 250), self.count)
        self.lines = ["many " + " ".join(str(host) for host in self.hosts)]
        self.connections = []
        for _ in range(self.dice.randrange(1, 5)):
            self.connect()
        for here in self.hosts:
            for there in self.hosts:
                if here < there:
                    self.lines.append(f"{here} reset {there}")
        for _ in range(3):
            self.carry(0, 0)
        for _ in range(rounds):
            self.turn()
        for _ in range(3):
            self.carry(0, 0)

    def connect(self):
        sender, receiver = self.dice.sample(self.hosts, 2)
        odd = self.dice.randrange(0, 4) * 2 + 1
        even = self.dice.randrange(1, 4) * 2
        self.connections.append((sender, receiver, odd, even, self.dice.choice([8, 8, 8, 36, 7, 1])))

    def carry(self, loss, dead):
        dice = self.dice
        hosts = self.hosts[:]
        dice.shuffle(hosts)
        for host in hosts:
            for _ in range(dice.randrange(1, 10)):
                self.lines.append(f"{host} out")
        for here in hosts:
            for there in hosts:
                if here == there:
                    continue
                for link in (0, 2, 3, 4):
                    chance = dice.random()
                    if chance < 0.1:
                        continue
                    word = "lose" if chance < 0.1 + loss else "dead" if chance < 0.1 + loss + dead else "deliver"
                    self.lines.append(f"{here} {word} {there} {link}")
                    if dice.random() < 0.9:
                        self.lines.append(f"{here} answer {there} {link}")
                    if word == "dead":
                        self.lines.append(f"{here} wake {there}")

    def turn(self):
        dice, lines = self.dice, self.lines
        for sender, receiver, odd, even, size in self.connections:
            what = dice.random()
            if what < 0.5:
                lines.append(f"{receiver} ask-receive {sender} {even} {odd} 4096")
                lines.append(f"{sender} ask-send {receiver} {odd} {even} {size} 4096")
            if what < 0.8:
                lines.append(f"{receiver} allocate {sender} {even} {odd} {dice.randrange(1, 6)} {dice.randrange(1, 900)}")
                count = dice.randrange(1, 12)
                bits = size * count
                data = message(bits, dice.randbytes((bits + 7) // 8))[1]
                lines.append(f"{sender} give {receiver} {odd} {even} {bits} {data.hex()}")
            if what > 0.55:
                lines.append(f"{receiver} take {sender} {even} {odd} {dice.randrange(1, 300)}")
            if what > 0.9:
                lines.append(f"{receiver} call-back {sender} {even} {odd} {dice.randrange(0, 200)} {dice.randrange(0, 200)}")
            if what > 0.93:
                lines.append(f"{dice.choice([(sender), (receiver)])} interrupt {receiver} {odd} {even}")
            if 0.84 < what < 0.88:
                lines.append(f"{sender} close {receiver} {odd} {even}")
            if 0.80 < what < 0.84:
                lines.append(f"{receiver} close {sender} {even} {odd}")
        here, there = dice.sample(self.hosts, 2)
        if dice.random() < 0.25:
            lines.append(f"{here} echo {there} {dice.randrange(256)}")
        if dice.random() < 0.08:
            lines.append(f"{here} reset {there}")
        self.carry(0.12, 0.05)

    def __bytes__(self):
        return ("\n".join(self.lines) + "\n").encode()


def watched(seed):
    """A script of two hosts that watches one connection from a to b: it opens, sends, gives back, over a lossy subnet."""
    dice = random.Random(seed)
    lines = ["hosts 1 2 watch a 3 2", "a reset"]

    def carry(loss):
        for _ in range(3):
            for side in "ab":
                lines.append(side + " out")
                for link in (0, 2):
                    if dice.random() < 0.8:
                        lines.append("%s %s %d" % (side, "lose" if dice.random() < loss else "deliver", link))
                    if dice.random() < 0.8:
                        lines.append("%s answer %d" % (side, link))

    for _ in range(4):
        carry(0)
    lines += ["b ask-receive 2 3 8192", "a ask-send 3 2 8 8192"]
    for _ in range(3):
        carry(0)
    for _ in range(40):
        what = dice.random()
        if what < 0.5:
            lines.append("b allocate 2 3 %d %d" % (dice.randrange(1, 5), dice.randrange(8, 400)))
        if what < 0.6:
            count = dice.randrange(1, 20)
            lines.append("a give 3 2 %d %s" % (8 * count, dice.randbytes(count).hex()))
        if what > 0.4:
            lines.append("b take 2 3 %d" % dice.randrange(1, 100))
        if what > 0.85:
            lines.append("b call-back 2 3 %d %d" % (dice.randrange(130), dice.randrange(130)))
        carry(0.15)
    return ("\n".join(lines) + "\n").encode()


def hostile(seed, me, peer):
    """A script of one host whose peer sends arbitrary messages: requests, closes, allocations and texts of few sockets and
    links, with and without the resets that are due, and answers of each kind."""
    dice = random.Random(seed)
    lines = ["host %d %d" % (me, peer)]
    pairs = [(3, 2), (2, 3), (3, 2), (2, 3), (5, 4), (4, 5), (5, 2)][: dice.choice([2, 4, 7])]
    wild = dice.choice([0.0, 0.02, 0.1, 0.3])

    def comes(bits, data):
        lines.append("in %d %s" % (bits, data.hex()))

    def control(*commands):
        text = b"".join(commands)
        comes(72 + 8 * len(text), bytes([0, peer, 0, 0, 0, 8]) + len(text).to_bytes(2, "big") + b"\0" + text)

    def socket(number):
        return number.to_bytes(4, "big")

    def command():
        mine, theirs = dice.choice(pairs)
        link = bytes([dice.choice([2, 2, 2, 3, 3, 4] if dice.random() > wild else [1, 5, 71, 72])])
        chance = dice.random()
        if chance < wild / 4:
            return a_command(dice)
        if chance < 0.35:
            # The peer's request: an STR to a receiver here, an RTS to a sender here.
            if mine % 2 == 0:
                return b"\2" + socket(theirs) + socket(mine) + bytes([dice.choice([8, 8, 8, 7])])
            return b"\1" + socket(theirs) + socket(mine) + link
        if chance < 0.50:
            return b"\3" + socket(theirs) + socket(mine)
        if chance < 0.68:
            return b"\4" + link + dice.randrange(4).to_bytes(2, "big") + dice.randrange(60).to_bytes(4, "big")
        if chance < 0.76:
            return b"\5" + link + bytes([dice.randrange(140), dice.randrange(140)])
        if chance < 0.82:
            return b"\6" + link + dice.randrange(3).to_bytes(2, "big") + dice.randrange(30).to_bytes(4, "big")
        if chance < 0.86:
            return bytes([dice.choice([7, 8])]) + link
        if chance < 0.92:
            return bytes([dice.choice([9, 10]), dice.randrange(3)])
        if chance < 0.96:
            return b"\x0b" + bytes([dice.randrange(6)]) + dice.randbytes(10)
        return b"\0"

    def call():
        local, remote = dice.choice(pairs)
        which = dice.randrange(12)
        if which == 0 and dice.random() < 0.3:
            return "reset %d" % peer
        if which in (1, 2, 3):
            if local % 2:
                return "ask-send %d %d %d 8 256" % (peer, local, remote)
            return "ask-receive %d %d %d 256" % (peer, local, remote)
        if which == 4:
            return "close %d %d %d" % (peer, local, remote)
        receiver, sender = dice.choice([(2, 3), (4, 5), (2, 5)]), dice.choice([(3, 2), (5, 4), (5, 2)])
        if which in (5, 6):
            local, remote = receiver
        if which in (8, 9):
            local, remote = sender
        if which == 5:
            return "allocate %d %d %d %d %d" % (peer, local, remote, dice.randrange(4), dice.randrange(60))
        if which == 6:
            return "call-back %d %d %d %d %d" % (peer, local, remote, dice.randrange(140), dice.randrange(140))
        if which == 7:
            return "interrupt %d %d %d" % (peer, local, remote)
        if which in (8, 9):
            count = dice.randrange(1, 4)
            return "give %d %d %d %d %s" % (peer, local, remote, 8 * count, dice.randbytes(count).hex())
        if which == 10:
            return "take %d %d %d %d" % (peer, local, remote, dice.randrange(1, 9))
        return dice.choice(["echo %d %d" % (peer, dice.randrange(3)), "wake %d" % peer])

    def answer(link):
        comes(32, bytes([dice.choice([5, 5, 5, 5, 5, 9, 7]), peer, link, 0]))

    lines.append("reset %d" % peer)
    if dice.random() < 0.8:
        lines.append("out")
        comes(32, bytes([5, peer, 0, 0]))
        control(b"\x0d")
    restless = dice.choice([0.0, 0.01, 0.05])
    for _ in range(dice.randrange(40, 200)):
        chance = dice.random()
        if chance < 0.3:
            lines.append("out")
            for link in (0, 2, 3):
                if dice.random() < 0.6:
                    answer(link)
        elif chance < 0.36:
            answer(dice.choice([0, 2, 3, 4]))
        elif chance < 0.36 + restless:
            control(dice.choice([b"\x0c", b"\x0d", b"\x0d", b"\x0c\x0d"]))
        elif chance < 0.65:
            control(*[command() for _ in range(dice.choice([1, 1, 2, 3]))])
        elif chance < 0.72:
            size, count = dice.choice([(8, 1), (8, 2), (8, 3), (7, 1), (8, 0)])
            link = dice.choice([2, 2, 3])
            data = bytes([0, peer, link, 0, 0, size, 0, count, 0]) + dice.randbytes(count)
            comes(*message(72 + size * count, data))
        else:
            lines.append(call())
    return ("\n".join(lines) + "\n").encode()


# The bytes of a command's fields, in the order of its words.
WIDTHS = {"link": 1, "messages": 2, "bits": 4, "receive": 4, "send": 4, "my": 4, "your": 4, "size": 1, "fm": 1, "fb": 1, "code": 1}
NAMES = ["NOP", "RTS", "STR", "CLS", "ALL", "GVB", "RET", "INR", "INS", "ECO", "ERP", "ERR", "RST", "RRP"]


def spelled(line):
    """The bytes of a command by its line."""
    name, *words = line.split()
    data = bytes([NAMES.index(name)])
    for word in words:
        key, value = word.split("=")
        if key == "data":
            data += bytes.fromhex(value) if name == "ERR" else bytes([int(value)])
        else:
            data += int(value).to_bytes(WIDTHS[key], "big")
    return data


def interface(script, lines):
    """The records at the interface of the one host of a script, by the lines of what happened."""
    me = int(script.split()[1])
    came = [line.split()[1:] for line in script.decode().splitlines() if line.startswith("in ")]
    made, i = [], 0
    while i < len(lines):
        words = lines[i].split()
        i += 1
        if words[1] == "in":
            bits, *data = came.pop(0)
            made.append(("I", me, int(bits), bytes.fromhex("".join(data))))
        elif words[1] == "out" and words[2] != "nothing":
            host, link, bits = (int(word.split("=")[1]) for word in words[2:5])
            details = []
            while i < len(lines) and lines[i].startswith("  "):
                details.append(lines[i].strip())
                i += 1
            size, count = (int(word.split("=")[1]) for word in details[0].split())
            text = b""
            for line in details[1:]:
                text += bytes.fromhex(line.split()[2] if len(line.split()) > 2 else "") if line.startswith("text ") else spelled(line)
            made.append(("H", me, bits, bytes([0, host, link, 0, 0, size]) + count.to_bytes(2, "big") + b"\0" + text))
        else:
            while i < len(lines) and lines[i].startswith("  "):
                i += 1
    return made
