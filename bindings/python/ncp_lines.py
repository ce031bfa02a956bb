# SPDX-License-Identifier: MIT
"""Converts the lines of `ncp` to objects and back: those of show, check, count, audit, follow, host and world, also with the times and
segments of wireshark/messages.

    ncp show FILE | python3 -m ncp_lines      one JSON object a line for each record, finding, connection or event
    python3 -m ncp_lines --back < OBJECTS     their lines again, byte for byte

    for made in ncp_lines.read(lines):        lines as a file yields them, or a whole text: an object each
        ncp_lines.lines_of(made)              its lines again, as bytes

docs/FORMATS.md, "Objects", lists the members; share/ncp.schema.json is their schema. Any other line is an object of its own,
{"line": ..}, or {"bytes": ..} in hexadecimal digits if it is not UTF-8; so is each line of a record with a malformed line. If no
line feed ends it, it has "cut": true. So any input is converted back to the same bytes, and memory is bounded.
"""
from __future__ import annotations

import argparse
import json
import os
import re
import select
import signal
import sys
from functools import cached_property, partial
from itertools import combinations
from typing import Any, Callable, Dict, Iterable, Iterator, List, NamedTuple, Optional, Sequence, Tuple, Union

MOST_LINE = 16384  # bytes: a longer line is given in pieces; the longest of ncp has some 4,100
MOST_DETAILS = 1100  # lines after a first one; a message has 1,015 commands at most
MOST_OBJECT = 2**20  # bytes of JSON
CHUNK = 2**16
IDLE = 0.05  # seconds without input after which an object is given that may be whole
WRONG = 2
# An object of JSON: its members by their names.
Object = Dict[str, Any]
# A text of lines or a part of one, in characters or in bytes.
Text = Union[str, bytes, bytearray, memoryview]


class NoLines(ValueError):
    """An object has no lines."""


# ---------------------------------------------------------------- forms


class Kind(NamedTuple):
    """The form of a member in a line: a pattern, its value by its text, and its text by its value (an empty one if it has none)."""

    pattern: str
    value: Callable[[str], object]
    text: Callable[[Any], str]


class Form:
    """A line or a part of one, both ways. Members are in braces: `{x}` is a number, `{x?}` a number or `-`, `{x!}` a flag, `{x#}`
    hexadecimal digits, `{x*}` the name of a fault or a refusal, `{x^}` letters, `{x@}` a command, `{x~}` a time, `{x:a|b}` one of these
    words. The members of `always` are not in the line, and have these values."""

    MEMBER = re.compile(r"\{(\w+)(?:([?!#*^@~])|:([^}]*))?\}")

    def __init__(self, words: str, /, **always: object) -> None:
        self.words, self.always = words, always

    @cached_property
    def members(self) -> List[Tuple[str, Kind]]:
        return [(name, Kind(words, str, as_word) if words else KINDS[mark]) for name, mark, words in self.MEMBER.findall(self.words)]

    def pattern_with(self, group: str) -> str:
        literals = [re.escape(it) for it in self.MEMBER.sub("\n", self.words).split("\n")]
        return literals[0] + "".join(group % kind.pattern + literal for (_, kind), literal in zip(self.members, literals[1:]))

    @cached_property
    def pattern(self) -> re.Pattern[str]:
        return re.compile(self.pattern_with("(%s)"))

    @cached_property
    def layout(self) -> str:
        return self.MEMBER.sub("%s", self.words)

    def read(self, text: str) -> Optional[Object]:
        """The members of a text; None if it is none of this form."""
        found = self.pattern.fullmatch(text)
        if not found:
            return None
        made = {name: kind.value(part) for (name, kind), part in zip(self.members, found.groups())}
        made.update(self.always)
        return made

    def write(self, made: Object) -> Optional[str]:
        """The text with these members; None if there is none."""
        for name, value in self.always.items():
            if name not in made or made[name] != value:
                return None
        for name, _ in self.members:
            if name not in made:
                return None
        text = self.layout % tuple(kind.text(made[name]) for name, kind in self.members)
        return text if self.pattern.fullmatch(text) else None


def read_as(forms: Iterable[Form], text: str) -> Optional[Object]:
    for form in forms:
        made = form.read(text)
        if made is not None:
            return made
    return None


def write_as(forms: Iterable[Form], made: object) -> Optional[str]:
    if isinstance(made, dict):
        for form in forms:
            text = form.write(made)
            if text is not None:
                return text
    return None


def as_word(value: object) -> str:
    return value if isinstance(value, str) else ""


def as_number(value: object) -> str:
    return str(value) if type(value) is int else ""


def as_number_or_none(value: object) -> str:
    return "-" if value is None else as_number(value)


def as_flag(value: object) -> str:
    return {True: "1", False: "0"}[value] if type(value) is bool else ""


# ---------------------------------------------------------------- times

# A time that is a number has an exact value below 2^33 seconds.
SECONDS = r"(?:0|[1-9][0-9]{0,8}|[1-7][0-9]{9})\.[0-9]{6}"
DATE = r"[0-9]{4}-[0-9]{2}-[0-9]{2}T[0-9]{2}:[0-9]{2}:[0-9]{2}\.[0-9]{6}Z"
TIME = rf"{DATE}|(?!-0\.0{{6}})-?{SECONDS}"
BEFORE_A_LINE = re.compile(rf"(-(?! at=| judged )|{TIME}) ")


def time_of(text: str) -> Union[str, float, None]:
    if text == "-":
        return None
    return text if text.endswith("Z") else float(text)


def as_time(value: object) -> str:
    if isinstance(value, str):
        return value
    return f"{value:.6f}" if type(value) in (int, float) else ""


def stamp_of(value: object) -> str:
    """The time before a line."""
    text = "-" if value is None else as_time(value)
    if not BEFORE_A_LINE.fullmatch(text + " "):
        raise NoLines("no line of ncp has its time")
    return text


# ---------------------------------------------------------------- the lines

# The commands: how many bytes each has, and its words.
COMMANDS = {
    "NOP": (1, ""),
    "RTS": (10, " receive={receive} send={send} link={link}"),
    "STR": (10, " send={send} receive={receive} size={size}"),
    "CLS": (9, " my={my} your={your}"),
    "ALL": (8, " link={link} messages={messages} bits={bits}"),
    "GVB": (4, " link={link} fm={fm} fb={fb}"),
    "RET": (8, " link={link} messages={messages} bits={bits}"),
    "INR": (2, " link={link}"),
    "INS": (2, " link={link}"),
    "ECO": (2, " data={byte}"),
    "ERP": (2, " data={byte}"),
    "ERR": (12, " code={code} data={data#}"),
    "RST": (1, ""),
    "RRP": (1, ""),
}
COMMAND = {name: Form(f"{{name:{name}}}{words}") for name, (_, words) in COMMANDS.items()}


def read_command(text: str) -> Optional[Object]:
    form = COMMAND.get(text.partition(" ")[0])
    return form.read(text) if form else None


def write_command(made: Any) -> str:
    """The line of a command; an empty text if it is none."""
    form = isinstance(made, dict) and COMMAND.get(as_word(made.get("name")))
    return form and form.write(made) or ""


NUMBER = "0|[1-9][0-9]{0,19}"
KINDS = {
    "": Kind(NUMBER, int, as_number),
    "?": Kind(f"{NUMBER}|-", lambda text: None if text == "-" else int(text), as_number_or_none),
    "!": Kind("[01]", "1".__eq__, as_flag),
    "#": Kind("(?:[0-9a-f]{2})+", str, as_word),
    "*": Kind("[A-Z][0-9A-Za-z]*", str, as_word),
    "^": Kind("[ -~]+", str, as_word),
    "~": Kind(TIME, time_of, as_time),
}
KINDS["@"] = Kind("|".join(form.pattern_with("(?:%s)") for form in COMMAND.values()), read_command, write_command)

# Records: `N`, and in version 2 their passage; then the message.
TYPES = {"regular": 0, "going-down": 2, "nop": 4, "rfnm": 5, "dead": 7, "incomplete": 9}
NAME = "{name:" + "|".join(TYPES) + "|type-(?:[0-9]|1[0-5])}"
LEADER = NAME + " host={host} link={link}"
MESSAGES: Tuple[Tuple[str, Object], ...] = (("{name:short}", {}), (LEADER, {"flags": 0, "low": 0}), (f"{LEADER} flags={{flags}} low={{low}}", {}))
RECORDS = {
    version: [Form(front + words, **always) for words, always in MESSAGES]
    for version, front in ((1, "{record} "), (2, "{record} {direction:to-imp|from-imp} at={at} "))
}

# Findings: after the host that is judged, the rule and its words.
UNOPENED = "{why:no-pair|closed|not-asked}"
OVER = "messages={messages} of={of_messages} bits={bits} of={of_bits}"
BREAKS = {
    "short": "bits={bits}",
    "own-host": "type={type} link={link}",
    "stray": "type={type} link={link}",
    "kind": "type={type}",
    "fault": "name={name*} link={link}",
    "wrong-link": "link={link}",
    "occupied": "link={link}",
    "changed": "link={link}",
    "wrong-size": "size={size}",
    "extras": "flags={flags} low={low} text={text_bits} rest={rest_bits}",
    "unsent": "host={peer} link={link} {why:not-out|twice|altered}",
    "false-answer": "type={type} host={peer} link={link} {why:came|not-come}",
    "bad": "code={code} data={data#}",
    "rst-again": "",
    "rrp-unasked": "",
    "rrp-first": "",
    "early": "{what:" + "|".join(COMMANDS) + "|text|bad} began={began!} wait={wait!} owe={owe!}",
    "unquiet": "{what:RST|RRP} link={link}",
    **dict.fromkeys(("missing", "skipped", "sex", "link-range", "size-zero", "cls-unknown", "gvb-again", "ret-unasked"), "{command@}"),
    **dict.fromkeys(("eco-again", "erp-unasked", "err-unjust"), "{command@}"),
    **dict.fromkeys(("asked-again", "unended", "cls-again"), "{command@} since={since}"),
    "link-used": "{command@} by={by_local},{by_remote}",
    "text-out": "{command@} link={link}",
    "not-open": f"{{command@}} {UNOPENED}",
    "over-limit": f"{{command@}} {OVER}",
    "ret-other": "{command@} messages={messages} bits={bits}",
    "ret-over": "{command@} messages={messages} bits={bits}",
    "text-not-open": f"link={{link}} {UNOPENED}",
    "text-size": "link={link} size={size} of={of_size}",
    "text-over": f"link={{link}} {OVER}",
}
JUDGED: Tuple[Tuple[str, Object], ...] = (("host={host}", {}), ("imp", {"imp": True}))
FINDINGS = {
    rule: [Form(f"{{record}} at={{at}} {who} {{rule:{rule}}} {words}".rstrip(), **always) for who, always in JUDGED]
    for rule, words in BREAKS.items()
}

# How many records were judged, and what was not between two hosts.
COVERAGE = [
    Form("- judged {judged}"),
    Form("- at={at} host={host} not-judged {not_judged:messages|connections|late|crowded|suspended|restarted|connection|part|alone}"),
]

# Connections, and the texts of none.
CONNECTIONS = [
    Form(
        "{connection} at={at} host={host} {way:send|receive} local={local} remote={remote} link={link} size={size} opened={opened} ended={ended?}"
        " by={by:end|cls-sent|cls-came|cls|rst-came|rst-sent|rrp-came} messages={messages} bits={bits} late={late}"
        " granted={granted_messages}/{granted_bits} returned={returned_messages}/{returned_bits}"
    ),
    Form("- at={at} host={host} sent={sent_messages}/{sent_bits} came={came_messages}/{came_bits}", connection=None),
]

# Events: the number is followed by nothing, a side or a host, by the kind of the script; then the action.
ALONE, SIDE, MANY = "{event} ", "{event} {side:a|b} ", "{event} {at} "
FLAGS = ("down", "want", "owe", "wait")
PHASES: List[Tuple[str, Object]] = [(" up", {"up": True, **dict.fromkeys(FLAGS, False)})] + [
    ("".join(f" {flag}" for flag in flags), {"up": False, **{flag: flag in flags for flag in FLAGS}}) for count in range(1, 5) for flags in combinations(FLAGS, count)
]
RESULTS: Dict[str, List[Tuple[str, Object]]] = {
    **dict.fromkeys(("reset", "wake", "echo", "interrupt", "close", "ask-send", "ask-receive", "give", "allocate", "call-back"), [("", {})]),
    "phase": PHASES,
    "take": [(" bits={text_bits}", {"text": ""}), (" bits={text_bits} {text#}", {})],
    "state": [(
        " end={end:send|receive} asked={asked!} heard={heard!} opened={opened!} leaving={leaving!} left={left!} cls={cls!}"
        " link={link?} size={size?} messages={messages} bits={bits} stored={stored} interrupts={interrupts}", {},
    )],
    "echoed": [(" none", {"byte": None}), (" {byte}", {})],
    "errors": [(" {error_count}", {})],
    "counts": [(" stray={stray} faults={faults} wrong-link={wrong_link} wrong-size={wrong_size} not-up={not_up} late={late} over={over}", {})],
    "ignored": [(" short={short} other={other} unknown={unknown}", {})],
}
CAME = (
    "{what:short|unknown|stray|answered|wrong-link|wrong-size}", "{what:other} {type}", "{what:fault} {fault*}", "{what:control} {command_count}",
    "{what:text} {took:admitted|late|wrong-size|over|not-open|not-up}",
)
MOVES = {"deliver": (*CAME, "{what:nothing}"), "lose": ("{what:ok|nothing}",), "dead": ("{what:ok|nothing}",), "answer": ("{what:rfnm|incomplete|dead|nothing}",)}


def event_forms() -> Dict[str, List[Form]]:
    """The forms of events, by what is done; those that name a side or a host first, since all members of the others are theirs too."""
    forms = {"settle": [Form("{event} {do:settle} {events}")], "in": [Form(f"{ALONE}{{do:in}} {what}") for what in CAME]}
    forms["out"] = [Form(f"{front}{{do:out}} {words}") for front in (SIDE, MANY, ALONE) for words in ("host={host} link={link} bits={bits}", "{what:nothing}")]
    for move, outcomes in MOVES.items():
        forms[move] = [Form(f"{front}{{do:{move}}} {place} {what}") for front, place in ((SIDE, "{link}"), (MANY, "{to} {link}")) for what in outcomes]
    for call, results in RESULTS.items():
        forms[call] = []
        for front, peer in ((SIDE, ""), (MANY, " {peer}"), (ALONE, " {peer}")):
            begins = f"{front}{{do:{call}}}{'' if call == 'ignored' else peer}"
            forms[call] += [Form(f"{begins} ok{words}", ok=True, **always) for words, always in results]
            forms[call].append(Form(f"{begins} refused {{refused*}}", ok=False))
    return forms


EVENTS = event_forms()

# The rest.
COUNTS = [Form("messages={messages} short={short} regular={regular} faults={faults} bad={bad}")]
COUNTED = [Form("{kind:short|regular|going-down|nop|rfnm|dead|incomplete|other|" + "|".join(COMMANDS) + "}={counted}")]
SEGMENTS = [
    Form("segment {segment} at {time~}: {reason:restart|interface down}"),
    Form("segment {segment} at {time~}: {datagrams} datagrams lost", reason="lost"),
]
STOPS = [Form("ncp: line {script_line}: {stopped*}"), Form("ncp: {stopped*}")]

# Lines after a first one.
FAULT, SIZE, BAD = Form("fault {fault*}"), Form("size={size} count={count}"), Form("bad code={code} data={data#}")
TEXTS = [Form("text bits={text_bits}", text=""), Form("text bits={text_bits} {text#}")]
TEXTS_OF_MORE = [Form("text bits={text_bits} of={of_bits} {text#}")]
LETTERS = {True: [Form("letters", letters=""), Form("letters {letters^}")], False: [Form("letters size={size}", letters=None)]}
LEDGER = Form("ledger " + " ".join(f"{it}={{{it}_messages}}/{{{it}_bits}}" for it in ("out", "counters", "all", "text", "ret")))


def forms_of_line(text: str) -> Sequence[Form]:
    """The forms that a first line may have, by its words."""
    words = text.split(" ", 4)
    first, second, third, fourth = (words + 4 * [""])[:4]
    if second == "judged" or fourth == "not-judged":
        return COVERAGE
    if second.startswith("at="):
        return FINDINGS.get(fourth, CONNECTIONS)
    if second in ("to-imp", "from-imp"):
        return RECORDS[2]
    if second in EVENTS and second not in MOVES:
        return EVENTS[second]
    if third in EVENTS:
        return EVENTS[third]
    if first.startswith("messages="):
        return COUNTS
    if "=" in first and not second:
        return COUNTED
    return {"segment": SEGMENTS, "ncp:": STOPS}.get(first, RECORDS[1])


def forms_of_object(made: Object) -> Sequence[Form]:
    """The forms that the first line of an object may have, by its members."""
    if "event" in made:
        return EVENTS.get(as_word(made.get("do")), ())
    if "rule" in made:
        return FINDINGS.get(as_word(made["rule"]), ())
    if "judged" in made or "not_judged" in made:
        return COVERAGE
    for name, forms in ("connection", CONNECTIONS), ("record", RECORDS[2 if "direction" in made else 1]), ("counted", COUNTED), ("segment", SEGMENTS), ("stopped", STOPS):
        if name in made:
            return forms
    return COUNTS


def read_first(text: str) -> Optional[Object]:
    """The object of a first line; None if it is none."""
    made = read_as(forms_of_line(text), text)
    if made and "record" in made and "name" in made and "rule" not in made and made["name"] != "short":
        made["type"] = TYPES[made["name"]] if made["name"] in TYPES else int(made["name"][5:])
    return made


# ---------------------------------------------------------------- the lines after a first one


def is_message(made: Object) -> bool:
    """Whether the lines of a regular message follow."""
    return "host" in made and (made.get("name") == "regular" and "rule" not in made or made.get("do") == "out")


def has_times(made: Object) -> bool:
    """Whether wireshark/messages puts times before its lines."""
    return any(name in made for name in ("record", "connection", "judged", "not_judged"))


def is_connection(made: Object) -> bool:
    return made.get("connection") is not None


class Block:
    """An object whose lines are being read."""

    def __init__(self, made: Object, line: bytes, stamp: Optional[str]) -> None:
        self.made, self.lines, self.stamp = made, [line], stamp
        self.unread = 0  # bytes of a control text that were not read as commands
        if "error_count" in made:
            made["errors"] = []

    def add(self, text: str, line: bytes, stamp: Optional[str]) -> bool:
        """Takes a line after the first, without its two spaces; false if it does not belong to the object."""
        if (stamp is None) != (self.stamp is None) or len(self.lines) > MOST_DETAILS or not self.add_text(text):
            return False
        if stamp is not None and stamp != self.stamp:
            self.made["detail_time"] = time_of(stamp)
        self.lines.append(line)
        return True

    def add_text(self, text: str) -> bool:
        made = self.made
        if "event" in made and text.startswith("ledger "):
            made["ledger"] = LEDGER.read(text)  # None, which goes back to `ledger none` alone
            return True
        if is_message(made):
            return self.add_to_message(text)
        if is_connection(made):
            return self.add_to_connection(text)
        error = COMMAND["ERR"].read(text)
        if error is None or not self.lacks_lines():
            return False
        made["errors"].append(error)
        return True

    def add_to_message(self, text: str) -> bool:
        made = self.made
        if "count" not in made:
            return self.update(FAULT.read(text) or SIZE.read(text)) and self.begin_text()
        if "commands" not in made:
            return self.update(read_as(TEXTS, text))
        if text.startswith("bad "):
            made["bad"], self.unread = BAD.read(text), 0
            return made["bad"] is not None
        command = read_command(text)
        if command is None:
            return False
        made["commands"].append(command)
        self.unread -= COMMANDS[command["name"]][0]
        return self.unread >= 0

    def begin_text(self) -> bool:
        """On link 0 commands follow, if there are any."""
        made = self.made
        if made["link"] == 0 and made.get("size") == 8 and "count" in made:
            made["commands"], self.unread = [], made["count"]
        return True

    def add_to_connection(self, text: str) -> bool:
        made = self.made
        if "text" not in made:
            return self.update(read_as(TEXTS, text) or read_as(TEXTS_OF_MORE, text))
        return "letters" not in made and self.update(read_as(LETTERS[made["size"] == 8], text))

    def update(self, members: Optional[Object]) -> bool:
        if members is None:
            return False
        self.made.update(members)
        return True

    def lacks_lines(self) -> bool:
        """Whether lines have to follow."""
        made = self.made
        if is_message(made) and "fault" not in made:
            return "count" not in made or (self.unread > 0 if "commands" in made else "text" not in made)
        if is_connection(made):
            return "text" not in made
        return "errors" in made and len(made["errors"]) < made["error_count"]

    def may_go_on(self) -> bool:
        """Whether another line may follow."""
        made = self.made
        return "do" in made and made["do"] != "settle" and "ledger" not in made or is_connection(made) and "letters" not in made or self.lacks_lines()

    def is_as_read(self) -> bool:
        """Whether the object is one of whole lines, and goes back to them."""
        if self.lacks_lines() and len(self.lines) > 1:
            return False
        try:
            return lines_of(self.made) == b"".join(self.lines)
        except NoLines:
            return False


# ---------------------------------------------------------------- back


def shown(made: object) -> str:
    """How a message describes an object: the names of its members, which may be untrusted."""
    text = json.dumps(list(map(str, made)) if isinstance(made, dict) else type(made).__name__)
    return text if len(text) <= 100 else text[:100] + ".."


def wanted(text: Optional[str], what: str) -> str:
    if text is None:
        raise NoLines(f"no line of ncp has its {what}")
    return text


def command_line(made: object) -> str:
    return wanted(write_command(made) or None, "command")


def details(made: Object) -> Iterator[str]:
    """The lines after the first, without their two spaces."""
    if is_message(made):
        yield from message_details(made)
    if is_connection(made) and "text" in made:
        yield wanted(write_as(TEXTS_OF_MORE if "of_bits" in made else TEXTS, made), "text")
        if "letters" in made:
            yield wanted(write_as(LETTERS[made["size"] == 8], made), "letters")
    if "event" in made:
        for error in made.get("errors", ()):
            yield command_line(error)
        if "ledger" in made:
            yield "ledger none" if made["ledger"] is None else wanted(write_as([LEDGER], made["ledger"]), "ledger")


def message_details(made: Object) -> Iterator[str]:
    if "fault" in made:
        yield wanted(FAULT.write(made), "fault")
    elif "count" in made:
        yield wanted(SIZE.write(made), "size")
        for command in made.get("commands", ()):
            yield command_line(command)
        if "bad" in made:
            yield "bad " + wanted(BAD.write(made["bad"]), "bad")[len("bad ") :]
        if "text" in made:
            yield wanted(write_as(TEXTS, made), "text")


def raw_line(made: Object) -> bytes:
    """The line of an object that is no line of ncp."""
    data: bytes = made["line"].encode() if "line" in made else bytes.fromhex(made["bytes"])
    if b"\n" in data:
        raise NoLines("a line feed stands inside its line")
    return data if made.get("cut") is True else data + b"\n"


def lines_of(made: Object) -> bytes:
    """The lines of an object, as bytes. Members that are unknown are passed over; if it has none, that is a `NoLines`."""
    try:
        if "line" in made or "bytes" in made:
            return raw_line(made)
        first = wanted(write_as(forms_of_object(made), made), "members")
        before = after = ""
        if "time" in made and has_times(made):
            before = after = stamp_of(made["time"]) + " "
            if "detail_time" in made:
                after = stamp_of(made["detail_time"]) + " "
        text = before + first + "\n" + "".join(f"{after}  {detail}\n" for detail in details(made))
        return text.encode("ascii")
    except NoLines as why:
        raise NoLines(f"{why}: {shown(made)}") from None
    except (AttributeError, KeyError, TypeError, ValueError):
        raise NoLines(f"no line of ncp has its values: {shown(made)}") from None


# ---------------------------------------------------------------- reading


def raw(line: bytes) -> Object:
    """The object of a line that is none of ncp's."""
    is_cut = not line.endswith(b"\n")
    line = line if is_cut else line[:-1]
    try:
        made = {"line": line.decode()}
    except UnicodeDecodeError:
        made = {"bytes": line.hex()}
    return {**made, "cut": True} if is_cut else made


class Reader:
    """Lines on their way to objects, piece by piece."""

    def __init__(self) -> None:
        self.rest = b""
        self.is_inside = False  # of a line that is too long
        self.block: Optional[Block] = None
        self.had_last = False  # whether the last object had the line that not all have: a ledger, or letters

    def feed(self, data: bytes) -> Iterator[Object]:
        """The objects that are whole with these bytes."""
        *lines, self.rest = (self.rest + data).split(b"\n")
        for line in lines:
            yield from self.take(line + b"\n")
        while len(self.rest) > MOST_LINE:
            piece, self.rest = self.rest[:MOST_LINE], self.rest[MOST_LINE:]
            yield from self.take_piece(piece)

    def take(self, line: bytes) -> Iterator[Object]:
        """A line to its end."""
        while len(line) > MOST_LINE + 1:
            piece, line = line[:MOST_LINE], line[MOST_LINE:]
            yield from self.take_piece(piece)
        if self.is_inside:
            self.is_inside = False
            yield raw(line)
        else:
            yield from self.take_line(line)

    def take_piece(self, piece: bytes) -> Iterator[Object]:
        """A piece of a line that is too long."""
        yield from self.leave(piece)
        self.is_inside = True
        yield raw(piece)

    def take_line(self, line: bytes) -> Iterator[Object]:
        text = line[:-1].decode("ascii", "replace")
        found = BEFORE_A_LINE.match(text)
        stamp, text = (found[1], text[found.end() :]) if found else (None, text)
        if text.startswith("  "):
            if self.block and self.block.add(text[2:], line, stamp):
                if not self.block.may_go_on():
                    yield from self.finish()
            else:
                yield from self.give_up()
                yield raw(line)
            return
        yield from self.finish()
        made = read_first(text)
        if made is None or stamp is not None and not has_times(made):
            yield raw(line)
            return
        if stamp is not None:
            made["time"] = time_of(stamp)
        self.block = Block(made, line, stamp)
        if not self.block.may_go_on():
            yield from self.finish()

    def leave(self, piece: bytes) -> Iterator[Object]:
        """The object before a piece of a line, which is not known to be whole if the piece may begin a line of it."""
        found = BEFORE_A_LINE.match(piece[:99].decode("ascii", "replace"))
        text = piece[found.end() :] if found else piece
        is_time = self.block and self.block.stamp is not None and b" " not in piece
        yield from self.give_up() if text[:1] in (b"", b" ") or is_time else self.finish()

    def finish(self) -> Iterator[Object]:
        """The object whose lines were read, if there is one."""
        block, self.block = self.block, None
        if block and block.is_as_read():
            self.had_last = "ledger" in block.made or "letters" in block.made
            yield block.made
        elif block:
            yield from map(raw, block.lines)

    def give_up(self) -> Iterator[Object]:
        """The lines of an object with a malformed line."""
        block, self.block = self.block, None
        if block:
            yield from map(raw, block.lines)

    def is_waiting(self) -> bool:
        """Whether there is an object that may be whole."""
        return self.block is not None and not self.rest and not self.block.lacks_lines() and not self.had_last

    def idle(self) -> Iterator[Object]:
        """The object that may be complete, when nothing more arrives."""
        if self.is_waiting():
            yield from self.finish()

    def end(self) -> Iterator[Object]:
        """The objects of what is left. A last line without a line feed is cut."""
        if self.rest:
            yield from self.leave(self.rest)
            yield raw(self.rest)
            self.rest = b""
        yield from self.finish()


def pieces(text: Text) -> Iterator[Text]:
    return (text[place : place + CHUNK] for place in range(0, len(text), CHUNK))


def read(lines: Union[Text, Iterable[Text]]) -> Iterator[Object]:
    """The objects of lines as a file yields them, each with its line feed, or of a whole text; bytes or str."""
    reader, has_ended = Reader(), True
    for data in pieces(lines) if (is_whole := isinstance(lines, (str, bytes, bytearray, memoryview))) else lines:
        if not (is_whole or has_ended):
            raise ValueError("a line without a line feed stands before another: give lines as a file does (splitlines(keepends=True)), or the whole text")
        data = data.encode("utf-8", "surrogateescape") if isinstance(data, str) else bytes(memoryview(data))
        has_ended = data.endswith(b"\n")
        yield from reader.feed(data)
    yield from reader.end()


# ---------------------------------------------------------------- the command


def as_json(made: Object) -> bytes:
    """An object in a line of printable ASCII."""
    return json.dumps(made, separators=(",", ":")).encode("ascii") + b"\n"


def put(data: bytes) -> None:
    left = memoryview(data)
    while left:
        left = left[os.write(1, left) :]


def forth() -> int:
    """Lines from standard input, as objects."""
    reader = Reader()
    # Ctrl-C ends the producer, which may still have output; a second one ends this program too.
    signal.signal(signal.SIGINT, lambda *_: signal.signal(signal.SIGINT, signal.SIG_DFL))
    while True:
        ready, _, _ = select.select([0], [], [], IDLE if reader.is_waiting() else None)
        data = os.read(0, CHUNK) if ready else None
        made = reader.idle() if data is None else reader.feed(data) if data else reader.end()
        put(b"".join(map(as_json, made)))
        if data == b"":
            return 0


def spelled(data: bytes) -> bytes:
    """Bytes spelled for a terminal, which may act on others."""
    return re.sub(rb"[^\n -~]", lambda found: b"\\x%02x" % found[0][0], data)


def back() -> int:
    """Objects from standard input, as lines."""
    to_terminal = os.isatty(1)
    with open(0, "rb", closefd=False) as source:
        for number, text in enumerate(iter(partial(source.readline, MOST_OBJECT), b""), 1):
            try:
                lines = lines_of(parsed(text))
            except NoLines as why:
                return complain(f"object {number}: {why}")
            put(spelled(lines) if to_terminal else lines)
    return 0


def parsed(text: bytes) -> Object:
    """The object of a line of JSON."""
    if len(text) == MOST_OBJECT:
        raise NoLines(f"a line of {MOST_OBJECT} bytes or more is no object of ncp's lines")
    try:
        made = json.loads(text)
    except (ValueError, RecursionError):
        raise NoLines("this is no JSON object in one line, as `jq -c` writes it") from None
    if not isinstance(made, dict):
        raise NoLines("this is JSON, but no object")
    return made


def complain(sentence: Optional[str]) -> int:
    print(f"ncp_lines: {sentence}", file=sys.stderr)
    return WRONG


def main() -> int:
    words = argparse.ArgumentParser(prog="ncp_lines", description=__doc__, formatter_class=argparse.RawDescriptionHelpFormatter)
    words.add_argument("--back", action="store_true", help="objects from standard input, as lines")
    chosen = words.parse_args()
    try:
        return back() if chosen.back else forth()
    except BrokenPipeError:  # nobody reads any more what is written
        return WRONG
    except OSError as error:
        return complain(error.strerror)


if __name__ == "__main__":
    sys.exit(main())
