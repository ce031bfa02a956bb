#!/usr/bin/env python3
"""Draws the messages between two hosts.

Reads the lines of `ncp world` on standard input and writes a picture (SVG) on standard output:

    ./ncp world < examples/one_connection.script | tools/ladder.py > picture.svg

Each host is a vertical line, and time goes downwards: a row for each numbered line. A message is an arrow from
the row of its `out` to the row in which it was delivered, so a delayed one is long. A lost one is cut off by a
cross, one whose destination was dead by a bar, and one still in flight ends in a dot. An answer is a thin line
back to the sender. Calls are next to their host, each with its result; `settle` is between the hosts, after its
events.
"""

import sys
from html import escape

LEFT, RIGHT, TOP = 330, 730, 60     # positions of the two hosts, and of the first row
ROW, LINE = 22, 13                  # from one row to the next, and from one line of words to the next
MARGIN, LONGEST, LABEL = 14, 40, 50  # between a host and its words; letters next to a host, and on a message
COLUMN, OTHER = {"a": LEFT, "b": RIGHT}, {"a": "b", "b": "a"}
WIDTH = LEFT + RIGHT

STYLE = """<style>
text { font: 12px monospace; fill: #222 } .host { font-weight: bold; font-size: 14px }
.number { fill: #999; font-size: 10px } .call { fill: #555 } .refused { fill: #b00 }
.label { font-weight: bold } .outcome { fill: #777; font-size: 11px }
.line { stroke: #444; stroke-width: 2 } .control { stroke: #06c; stroke-width: 2 }
.data { stroke: #080; stroke-width: 2 } .lost { stroke: #b00; stroke-width: 2 }
.answer { stroke: #999; stroke-dasharray: 4 3 }
</style>"""

ARROW = "M0 0 L-8 -4 L-8 4 Z"
MARKERS = {  # the marker at the end of a line: its colour and its shape
    "control": ("#06c", ARROW), "data": ("#080", ARROW), "answer": ("#999", ARROW),
    "lose": ("#b00", "M-5 -5 L5 5 M-5 5 L5 -5"), "dead": ("#b00", "M0 -6 L0 6"),
    "underway": ("#444", "M-2 0 a2 2 0 1 0 4 0 a2 2 0 1 0 -4 0"),
}


class Message:
    """A message from the height of its `out` on; `fate` is what happened to it, at the height `end`."""

    def __init__(self, side, link, height):
        self.side, self.link, self.height = side, link, height
        self.fate, self.end, self.outcome, self.words = "underway", height + ROW, "", []

    def tip(self):
        """The end of its line: at the other host only if it was delivered."""
        start, end = COLUMN[self.side], COLUMN[OTHER[self.side]]
        return end if self.fate == "deliver" else start + 0.8 * (end - start)


class Ladder:
    """The contents of the picture, in the order of the lines."""

    def __init__(self, lines):
        self.messages, self.answers, self.notes, self.numbers, self.settled = [], [], [], [], []
        self.last = {}          # by side and link: the message sent last
        self.names = {}         # by side: the host's number, if a message named it
        self.height, self.message = TOP, None
        for line in lines:
            words = line.split()
            if line.startswith("  "):
                self.detail(words)
            elif len(words) == 3 and words[1] == "settle":
                self.settle(*words)
            elif words:
                if len(words) < 3 or words[1] not in COLUMN:
                    sys.exit("not a line that `ncp world` prints of two hosts: " + line.rstrip("\n"))
                self.event(words[0], words[1], words[2], words[3:])

    def detail(self, words):
        """Part of the message of the line before; sizes, and sums of a ledger, are left out."""
        if self.message and not words[0].startswith("size=") and words[0] != "ledger":
            if words[0] == "text" and len(words) > 2:
                words = ["text", readable(words[2])]
            self.message.words.append(" ".join(words))

    def settle(self, number, verb, count):
        """How many of the events before happened by themselves."""
        self.height += ROW
        self.numbers.append((self.height, number))
        self.settled.append((self.height, f"{verb} {count}"))
        self.message = None

    def event(self, number, side, verb, rest):
        moves = verb in ("deliver", "lose", "dead", "answer") and rest[-1] != "nothing"
        sends = verb == "out" and rest != ["nothing"]
        beside = [] if moves or sends else wrapped([verb] + rest)
        self.height += ROW + LINE * max(len(beside) - 1, 0)
        self.numbers.append((self.height, number))
        self.message = None
        if sends:
            host, link = (word.partition("=")[2] for word in rest[:2])
            self.names[OTHER[side]] = host
            self.message = self.last[side, link] = Message(side, link, self.height)
            self.messages.append(self.message)
        elif verb == "answer" and moves:
            self.answers.append((self.last[side, rest[0]], self.height, rest[1]))
        elif moves:
            message = self.last[side, rest[0]]
            message.fate, message.end, message.outcome = verb, self.height, " ".join(rest[1:])
        else:
            self.notes.append((side, self.height, beside, "refused" if "refused" in rest else "call"))


def readable(digits):
    """The bytes of a text: as letters if printable, else as digits."""
    letters = bytes.fromhex(digits)
    return '"%s"' % letters.decode() if all(32 <= byte < 127 for byte in letters) else digits


def wrapped(words):
    lines = [words[0]]
    for word in words[1:]:
        if len(lines[-1]) + len(word) < LONGEST:
            lines[-1] += " " + word
        else:
            lines.append(word)
    return lines


def line(kind, x1, y1, x2, y2, end=None):
    marker = ' marker-end="url(#%s)"' % end if end else ""
    return '<line class="%s" x1="%g" y1="%g" x2="%g" y2="%g"%s/>' % (kind, x1, y1, x2, y2, marker)


def words(kind, x, y, text, anchor="start"):
    return '<text class="%s" x="%g" y="%g" text-anchor="%s">%s</text>' % (kind, x, y, anchor, escape(text))


def draw_beside(side, height, lines, kind):
    """Words on the outer side of a host; the last line is at the height of its event."""
    x, anchor = (LEFT - MARGIN, "end") if side == "a" else (RIGHT + MARGIN, "start")
    first = height + 4 - LINE * (len(lines) - 1)
    return [words(kind, x, first + LINE * place, text, anchor) for place, text in enumerate(lines)]


def draw_message(message):
    start, tip = COLUMN[message.side], message.tip()
    towards, anchor = (1, "start") if message.side == "a" else (-1, "end")
    kind = "control" if message.link == "0" else "data"
    label = "; ".join(message.words)
    label = label if len(label) <= LABEL else label[:LABEL - 2] + ".."
    drawn = [words("label", start + 10 * towards, message.height - 4, label, anchor)]
    if message.fate == "deliver":
        drawn.append(line(kind, start, message.height, tip - towards, message.end, kind))
        if kind == "data":
            drawn += draw_beside(OTHER[message.side], message.end, [message.outcome], "outcome")
    else:
        drawn.append(line(kind if message.fate == "underway" else "lost", start, message.height, tip, message.end,
                          message.fate))
    return drawn


def draw_answer(message, height, name):
    """From the end of the message back to its sender."""
    end = COLUMN[message.side] + (1 if message.side == "a" else -1)
    return [line("answer", message.tip(), message.end + 5, end, height, "answer"),
            *draw_beside(message.side, height, [name], "outcome")]


def picture(ladder):
    bottom = ladder.height + ROW
    drawn = ['<svg xmlns="http://www.w3.org/2000/svg" width="%d" height="%d">' % (WIDTH, bottom + 10), STYLE]
    for name, (colour, shape) in MARKERS.items():
        drawn.append('<marker id="%s" viewBox="-8 -8 16 16" markerWidth="16" markerHeight="16" orient="auto" '
                     'markerUnits="userSpaceOnUse"><path d="%s" fill="%s" stroke="%s" stroke-width="1.5"/></marker>'
                     % (name, shape, colour, colour))
    drawn.append('<rect width="100%" height="100%" fill="white"/>')
    for side in "ab":
        title = "%s: host %s" % (side, ladder.names.get(side, "?"))
        drawn.append(words("host", COLUMN[side], TOP - 24, title, "middle"))
        drawn.append(line("line", COLUMN[side], TOP - 16, COLUMN[side], bottom))
    drawn += [words("number", 4, height + 4, number) for height, number in ladder.numbers]
    for answer in ladder.answers:
        drawn += draw_answer(*answer)
    for message in ladder.messages:
        drawn += draw_message(message)
    for note in ladder.notes:
        drawn += draw_beside(*note)
    drawn += [words("outcome", (LEFT + RIGHT) / 2, height + 4, said, "middle") for height, said in ladder.settled]
    return "\n".join(drawn + ["</svg>"])


if __name__ == "__main__":
    print(picture(Ladder(sys.stdin)))
