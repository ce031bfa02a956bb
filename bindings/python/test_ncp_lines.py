# SPDX-License-Identifier: MIT
"""Lines as objects and back: worked lines of each form, all expected output of the examples and of the gate's cases, random captures,
wrong and hostile lines and objects, the command, live too, and the questions of docs/WIRESHARK.md."""
import ast
import importlib.machinery
import importlib.util
import json
import os
import pty
import random
import re
import resource
import select
import shutil
import signal
import subprocess
import sys
import tempfile
import time
import unittest
from pathlib import Path

import ncp_lines

HERE = Path(__file__).resolve().parent
TOP = HERE.parent.parent
COMMAND = [sys.executable, "-B", "-W", "error", str(HERE / "ncp_lines.py")]
DEBIANS_PYTHON = "/usr/bin/python3"
PATIENCE = 300  # seconds that a busy machine may take
WITH_LINES = {"show", "check", "count", "audit", "follow", "host", "world"}


def read_text(path):
    return (TOP / path).read_text(encoding="utf-8")


# ---------------------------------------------------------------- the schema


class Schema:
    """share/ncp.schema.json, with so much of JSON Schema as it uses; more strict, since each member has to be described."""

    SAID = {"$schema", "$defs", "title", "description"}
    TYPES = {
        "object": lambda it: isinstance(it, dict), "array": lambda it: isinstance(it, list), "string": lambda it: isinstance(it, str), "null": lambda it: it is None,
        "boolean": lambda it: isinstance(it, bool), "integer": lambda it: type(it) is int, "number": lambda it: type(it) in (int, float),
    }

    def __init__(self):
        self.root = json.loads(read_text("share/ncp.schema.json"))

    def check(self, value, schema=None):
        """A `ValueError` if a value is not as described."""
        members = self.members(self.root if schema is None else schema, value)
        if isinstance(value, dict) and set(value) != members:
            raise ValueError(f"{sorted(set(value) - members)} are not described: {value}")

    def members(self, schema, value):
        """The members of a value that a schema describes."""
        found = set()
        for word, said in schema.items():
            if word not in self.SAID:
                found |= getattr(self, "by_" + word.strip("$").lower())(said, value) or set()
        return found

    @staticmethod
    def want(is_so, value, said):
        if not is_so:
            raise ValueError(f"{value!r} is not {said}")

    def by_ref(self, path, value):
        schema = self.root
        for name in path.split("/")[1:]:
            schema = schema[name]
        return self.members(schema, value)

    def by_type(self, names, value):
        self.want(any(self.TYPES[name](value) for name in ([names] if isinstance(names, str) else names)), value, names)

    def by_enum(self, values, value):
        self.want(value in values, value, values)

    def by_const(self, only, value):
        self.want(type(value) is type(only) and value == only, value, only)

    def by_pattern(self, pattern, value):
        self.want(not isinstance(value, str) or re.search(pattern, value), value, pattern)

    def by_minimum(self, least, value):
        self.want(not isinstance(value, int) or value >= least, value, least)

    def by_required(self, names, value):
        self.want(set(names) <= set(value), value, names)

    def by_items(self, schema, value):
        for each in value:
            self.check(each, schema)

    def by_properties(self, schemas, value):
        for name in schemas.keys() & value.keys():
            self.check(value[name], schemas[name])
        return schemas.keys() & value.keys()

    def by_allof(self, schemas, value):
        return set().union(*(self.members(schema, value) for schema in schemas))

    def by_oneof(self, schemas, value):
        fitting = []
        for schema in schemas:
            try:
                fitting.append(self.members(schema, value))
            except ValueError:
                pass
        self.want(len(fitting) == 1, value, f"one of these, but {len(fitting)}: {schemas}"[:400])
        return fitting[0]


SCHEMA = Schema()


# ---------------------------------------------------------------- worked lines


def worked():
    """The objects of test_lines.txt, each with its lines."""
    made, lines = [], b""
    for line in (HERE / "test_lines.txt").read_bytes().splitlines(keepends=True):
        if line.startswith(b"= "):
            made.append((lines, json.loads(line[2:])))
            lines = b""
        elif not line.startswith(b"#") and line != b"\n":
            lines += line
    return made


def spelled(made):
    """An object so that True is not 1."""
    return json.dumps(made, sort_keys=True)


def is_raw(made):
    return "line" in made or "bytes" in made


class ThereAndBack(unittest.TestCase):
    maxDiff = 2000

    def there_and_back(self, text, step=1):
        """The objects of lines, which convert back to the same bytes through JSON; each `step`-th conforms to the schema."""
        made = list(ncp_lines.read(text))
        for each in made[::step]:
            SCHEMA.check(each)
        as_json = b"".join(map(ncp_lines.as_json, made))
        self.assertEqual(b"".join(ncp_lines.lines_of(json.loads(it)) for it in as_json.splitlines()), text)
        return made


class Worked(ThereAndBack):
    def test_worked_lines(self):
        wanted = worked()
        for made, (lines, each) in zip(self.there_and_back(b"".join(lines for lines, _ in wanted)), wanted):
            self.assertEqual(spelled(made), spelled(each))
            self.assertEqual(ncp_lines.lines_of(each), lines)

    def test_each_line_may_come_alone(self):
        for lines, wanted in worked():
            made = self.there_and_back(lines)
            self.assertEqual([spelled(it) for it in made], [spelled(wanted)])

    def test_bytes_may_come_in_any_pieces(self):
        text = b"".join(lines for lines, _ in worked()) + b"1 rfnm host=2 li"
        wanted = list(ncp_lines.read(text))
        for size in 1, 7, 4000:
            reader = ncp_lines.Reader()
            made = [it for place in range(0, len(text), size) for it in reader.feed(text[place : place + size])]
            self.assertEqual([*made, *reader.end()], wanted)

    def test_worked_lines_are_of_all_kinds(self):
        made = [each for _, each in worked()]
        rules = re.findall(r"^\| `([\w-]+)` \| [SP] \|", read_text("docs/WIRESHARK.md"), re.M)
        self.assertEqual(len(rules), 41)
        self.assertEqual({it["rule"] for it in made if "rule" in it}, set(rules))
        self.assertEqual(set(SCHEMA.root["$defs"]["finding"]["properties"]["rule"]["enum"]), set(rules))
        commands = re.findall(r"^\| (?:[A-Z]{3}(?:, )?)+ \| (.*) \|$", read_text("docs/FORMATS.md"), re.M)
        names = set(re.findall(r"`([A-Z]{3})\b", " ".join(commands)))
        self.assertEqual({it["name"] for each in made for it in each.get("commands", ())}, names)
        self.assertEqual(len(names), 14)
        self.assertEqual({it["do"] for it in made if "do" in it}, set(ncp_lines.EVENTS))
        self.assertEqual({it.get("by") for it in made if "by" in it}, set(SCHEMA.root["$defs"]["connection"]["properties"]["by"]["enum"]))

    def test_lines_are_given_as_files_or_texts_give_them(self):
        wanted = [{"record": 1, "name": "short"}, {"record": 2, "name": "short"}]
        text = "1 short\n2 short\n"
        for lines in text, text.encode(), text.splitlines(keepends=True), text.encode().splitlines(keepends=True), bytearray(text.encode()), iter([bytearray(text.encode())]):
            self.assertEqual(list(ncp_lines.read(lines)), wanted)
        self.assertEqual(list(ncp_lines.read(["1 short\n", "2 short"])), [wanted[0], {"line": "2 short", "cut": True}])
        self.assertEqual(list(ncp_lines.read([])), [])
        with self.assertRaisesRegex(ValueError, r"splitlines\(keepends=True\)"):
            list(ncp_lines.read(text.splitlines()))
        with self.assertRaises(TypeError):
            list(ncp_lines.read([49]))
        self.assertEqual(list(ncp_lines.read(["\udcff\n"])), [{"bytes": "ff"}])


# ---------------------------------------------------------------- what is printed


def module_of(path):
    loader = importlib.machinery.SourceFileLoader(Path(path).name, str(TOP / path))
    made = importlib.util.module_from_spec(importlib.util.spec_from_loader(loader.name, loader))
    sys.dont_write_bytecode = True
    loader.exec_module(made)
    return made


def program():
    """The program of these sources, if there is one."""
    ran = subprocess.run([TOP / "tools/program"], stdout=subprocess.PIPE, stderr=subprocess.DEVNULL, stdin=subprocess.DEVNULL, text=True, timeout=PATIENCE)
    if ran.returncode:
        raise unittest.SkipTest("there is no program of these sources")
    return ran.stdout.strip()


class Printed(ThereAndBack):
    """The output of ncp converts to objects and back, and none of its lines is unknown."""

    def none_is_unknown(self, text, step=1):
        made = self.there_and_back(text, step)
        self.assertEqual([it for it in made if is_raw(it)], [])
        return made

    def test_examples(self):
        paths = [*sorted((TOP / "examples").glob("*.txt")), *sorted((TOP / "examples").glob("*.audit"))]
        self.assertGreater(len(paths), 20)
        for path in paths:
            self.assertTrue(self.none_is_unknown(path.read_bytes()), path)

    def test_documents(self):
        """The lines that pages show of commands over examples, and those of FORMATS."""
        found = 0
        for page in "FORMATS", "TOUR", "WIRESHARK":
            for block in re.findall(r"^```\n(.*?)^```", read_text(f"docs/{page}.md"), re.M | re.S):
                lines = [line + "\n" for line in block.splitlines() if re.match(r"\d+ (\w|-)|  \w", line) and "..." not in block]
                if lines and lines[0][0] != " ":
                    self.none_is_unknown("".join(lines).encode())
                    found += 1
        self.assertGreater(found, 8)
        line, made = re.search(r"^```\n(\d.*)\n(\{.*)\n```", read_text("docs/FORMATS.md"), re.M).groups()
        self.assertEqual([ncp_lines.as_json(it).decode() for it in ncp_lines.read(line + "\n")], [made + "\n"])

    def test_cases(self):
        cases_in, rules, count = module_of("examples/cases").cases_in, set(), 0
        for path in sorted((TOP / "crates/ncp_test_cases/data").glob("*.cases")):
            for case in cases_in(path):
                if case.words[0] not in WITH_LINES or "--bytes" in case.words:
                    self.there_and_back(bytes(case.output))
                    continue
                made = self.none_is_unknown(bytes(case.output))
                rules |= {it["rule"] for it in made if "rule" in it}
                stops = b"".join(line for line in bytes(case.errors).splitlines(keepends=True) if not line.startswith(b"  "))
                self.none_is_unknown(stops)
                count += 1
        self.assertEqual(len(rules), 41)
        self.assertGreater(count, 500)

    def test_captures_and_scripts_of_chance(self):
        kinds, lines, size = {}, 0, 0
        for text in outputs_of_chance(program(), 1):
            for made in self.none_is_unknown(text, 40):
                kind = next(iter(made.keys() & {"rule", "event", "connection"}), "record" if "record" in made else "counts")
                kinds[kind] = kinds.get(kind, 0) + 1
            lines, size = lines + text.count(b"\n"), size + len(text)
        self.assertEqual(set(kinds), {"rule", "event", "connection", "record", "counts"})
        self.assertGreater(lines, 15000)
        print(f"ncp_lines: {lines} lines of captures and scripts of chance, {size} bytes, as {sum(kinds.values())} objects and back: 0 differ", flush=True)


def outputs_of_chance(ncp, scale):
    """The output of ncp for random captures and scripts: more of them with a larger scale."""
    sys.path.insert(0, str(TOP / "wireshark/testing"))
    try:
        import captures
        import records
    finally:
        del sys.path[0]

    def printed(data, *words):
        return subprocess.run([ncp, *words], input=data, stdout=subprocess.PIPE, stderr=subprocess.DEVNULL, timeout=PATIENCE).stdout

    for seed, version in enumerate("hij"):
        yield printed(records.a_file(version, 500 * scale, seed), "show")
    judged = [records.a_file("j", 500 * scale, 9), *(bytes(captures.Dialogue(seed)) for seed in range(10 * scale)), *(captures.a_flood(seed, seed)[:20000] for seed in range(3 * scale))]
    for data in judged:
        for words in ("audit",), ("audit", "--part"), ("follow",), ("follow", "--letters"), ("check",), ("show",):
            yield printed(data, *words)
    for seed in range(2 * scale):
        yield printed(bytes(records.Script(seed, 4)), "world")
        yield printed(records.watched(seed), "world")
        yield printed(records.hostile(seed, 1, 2), "host")
    messages = (records.a_message(random.Random(seed)) for seed in range(100 * scale))
    yield printed(b"host 1 2\nreset 2\nfeed\nNCPI" + b"".join(records.record("i", *message) for message in messages), "host")


# ---------------------------------------------------------------- wrong and hostile


SHOWN = b"""1 to-imp at=1 regular host=2 link=0
  size=8 count=3
  ECO data=65
  NOP
2 from-imp at=1 rfnm host=2 link=0
"""


class Hostile(ThereAndBack):
    def raws(self, text):
        """The lines of what is none of ncp's."""
        return [it.get("line", it.get("bytes")) for it in self.there_and_back(text) if is_raw(it)]

    def test_a_record_with_a_wrong_line_is_given_line_by_line(self):
        lines = SHOWN.splitlines(keepends=True)
        self.assertEqual(len(self.there_and_back(SHOWN)), 2)
        for wrong in b"  hello\n", b"  size=8 count=3\n", b"  text bits=8 61\n", b"  ERR code=1 data=00\n", b"  ledger none\n", b"  ECO data=256 \n", b"  \n", b"  \xff\n":
            for place in 1, 2, 3:
                text = b"".join([*lines[:place], wrong, *lines[place:]])
                made = self.there_and_back(text)
                self.assertEqual([made[-1].get("record"), len(made)], [2, 6], text)
        self.assertEqual(self.raws(SHOWN[:-9]), ["2 from-imp at=1 rfnm host="])

    def test_a_record_that_ends_early_is_given_line_by_line(self):
        text = SHOWN.replace(b"  NOP\n", b"")
        self.assertEqual(self.raws(text), ["1 to-imp at=1 regular host=2 link=0", "  size=8 count=3", "  ECO data=65"])
        # First lines alone, as by grep, are objects.
        made = self.there_and_back(b"".join(line for line in SHOWN.splitlines(keepends=True) if line[:1] != b" "))
        self.assertEqual([("size" in it, it["record"]) for it in made], [(False, 1), (False, 2)])
        self.assertEqual(self.there_and_back(b"1 errors 2 ok 2\n")[0]["errors"], [])
        self.assertEqual(len(self.raws(b"1 errors 2 ok 2\n  ERR code=1 data=0e000000000000000000\n2 out nothing\n")), 2)

    def test_what_is_cut(self):
        """Wherever the input ends, no object is wrong: each is one of the whole text."""
        for text in SHOWN, b"1 a reset ok\n  ledger none\n2 a out nothing\n  ledger none\n", b"0.000000 " + SHOWN.rstrip().replace(b"\n", b"\n0.000000 ") + b"\n":
            whole = [spelled(it) for it in ncp_lines.read(text)]
            for end in range(len(text)):
                made = self.there_and_back(text[:end])
                for each in made:
                    is_first_line_at_the_end = each is made[-1] and text[end - 1 : end] == b"\n" and "commands" not in each
                    self.assertTrue(is_raw(each) or spelled(each) in whole or is_first_line_at_the_end, (text[:end], each))
                self.assertEqual(any("cut" in it for it in made), text[:end][-1:] not in (b"", b"\n"))
        # An object is complete at the first line of another.
        for text, count in (b"1 a reset ok\n2", 1), (b"1 a reset ok\n2 a ou", 1), (b"1 a reset ok\n ", 0), (b"1 a reset ok\n  led", 0), (b"- 1 at=1", 0):
            self.assertEqual(sum(not is_raw(it) for it in self.there_and_back(text)), count, text)
        connection = b"- " + next(lines for lines, each in worked() if "late" in each).replace(b"\n  text", b"\n-   text")
        for text, count in (b"-", 0), (b"- ", 0), (b"-   l", 0), (b"- 2", 1), (b"segm", 0), (b"segment ", 1):
            self.assertEqual(sum(not is_raw(it) for it in self.there_and_back(connection + text)), count, text)

    def test_times_that_differ(self):
        for text in (
            b"0.000000 1 regular host=2 link=2\n  size=8 count=1\n  text bits=8 61\n", b"1 regular host=2 link=2\n0.000000   size=8 count=1\n0.000000   text bits=8 61\n",
            b"0.000000 1 regular host=2 link=2\n0.000000   size=8 count=1\n0.000001   text bits=8 61\n", b"0.000000 1 regular host=2 link=2\n0.000001   size=8 count=1\n0.000000   text bits=8 61\n",
        ):
            self.assertEqual(len(self.raws(text)), 3)

    def test_what_is_whole_comes_at_once(self):
        """And one that may be complete if nothing follows; but one that is not, or lacks what the last one had, waits."""
        for said, at_once, idle in (
            ("1 short", 1, 0), ("1 rfnm host=2 link=0", 1, 0), ("1 at=1 host=2 rrp-first", 1, 0), ("1 settle 6", 1, 0), ("ncp: BadLine", 1, 0), ("messages=0 short=0 regular=0 faults=0 bad=0", 1, 0),
            ("- at=1 host=2 sent=1/8 came=2/9", 1, 0), ("1 regular host=2 link=2", 0, 0), ("1 regular host=2 link=2\n  size=8 count=1", 0, 0), ("1 regular host=2 link=2\n  size=8 count=1\n  text bits=8 61", 1, 0),
            ("1 regular host=2 link=0\n  fault TextMissing", 1, 0), ("1 regular host=2 link=0\n  size=8 count=2\n  NOP", 0, 0), ("1 regular host=2 link=0\n  size=8 count=2\n  ECO data=1", 1, 0),
            ("1 a reset ok", 0, 1), ("1 a reset ok\n  ledger none\n2 a reset ok", 1, 0), ("1 a reset ok\n  ledger none\n2 settle 6\n3 a reset ok", 2, 1), ("1 errors 2 ok 1", 0, 0), ("1 errors 2 ok 0", 0, 1),
        ):
            reader = ncp_lines.Reader()
            self.assertEqual([len(list(reader.feed(f"{said}\n".encode()))), len(list(reader.idle()))], [at_once, idle], said)
        reader = ncp_lines.Reader()
        self.assertEqual([*reader.feed(b"1 a reset ok\n2"), *reader.idle()], [])

    def test_long_lines(self):
        """A line that is too long is returned in pieces, wherever the bytes are cut, and no part of it is taken for a line."""
        most = ncp_lines.MOST_LINE
        for length in most - 1, most, most + 1, 2 * most, 2 * most + 1, 5 * most:
            text = b"1 short\n" + (b"x" * length)[: length - 8] + b" 1 short\n" + b"2 short\n"
            made = self.there_and_back(text)
            self.assertEqual([made[0]["record"], made[-1]["record"]], [1, 2])
            self.assertTrue(all(is_raw(it) and len(it["line"]) <= most for it in made[1:-1]))
            self.assertEqual(len(made) - 2, -(-length // most))
            reader = ncp_lines.Reader()
            self.assertEqual([it for place in range(0, len(text), 1000) for it in reader.feed(text[place : place + 1000])] + list(reader.end()), made)
            self.assertTrue(all(len(it["line"]) <= most for it in self.there_and_back(b"x" * length)))
        hidden = b"x" * most + b"3 short\n"
        self.assertEqual(self.raws(hidden), ["x" * most, "3 short"])

    def test_floods(self):
        """A record that never ends is given up."""
        for flood in b"1 regular host=2 link=0\n  size=8 count=99999999\n" + b"  NOP\n" * 2000, b"1 errors 2 ok 99999999\n" + b"  ERR code=1 data=0e000000000000000000\n" * 2000:
            made = self.there_and_back(flood, 100)
            self.assertEqual(len(made), flood.count(b"\n"))
            reader = ncp_lines.Reader()
            self.assertEqual(list(reader.feed(flood)), made)
            self.assertIsNone(reader.block)
        for flood in b"  NOP\n", b"\n", b"1 short\r\n", b" \n":
            self.assertTrue(all(map(is_raw, self.there_and_back(flood * 20))))
        # The longest message that there may be is none of these.
        self.assertEqual(len(self.there_and_back(b"1 regular host=2 link=0\n  size=8 count=1015\n" + b"  NOP\n" * 1015)[0]["commands"]), 1015)

    def test_mutations(self):
        """Lines with bytes changed, dropped and doubled: each converts back, and each object conforms to the schema."""
        dice, text = random.Random(88), b"".join(lines for lines, _ in worked())
        known = 0
        for _ in range(100):
            data = bytearray(text[(place := dice.randrange(len(text))) : place + 1500])
            for _ in range(dice.randrange(1, 8)):
                place = dice.randrange(len(data))
                choice = dice.randrange(5)
                if choice == 0:
                    data[place] = dice.randrange(256)
                elif choice == 1:
                    data[place] = dice.choice(b"0123456789 =-/\n")
                elif choice == 2:
                    del data[place : place + dice.randrange(1, 20)]
                elif choice == 3:
                    data[place:place] = data[dice.randrange(len(data)) :][: dice.randrange(30)]
                else:
                    ends = [at for at, byte in enumerate(data) if byte == 10]
                    data[place:place] = data[: dice.choice(ends or [0])]
            known += sum(not is_raw(it) for it in self.there_and_back(bytes(data)))
        self.assertGreater(known, 500)

    def test_objects_that_are_none_of_any_lines(self):
        connection = next(each for _, each in worked() if each.get("letters") == "ab")
        for made in (
            {}, [], 1, None, "1 short", {"record": 1}, {"record": -1, "name": "short"}, {"record": 1.5, "name": "short"}, {"record": "1", "name": "short"}, {"record": True, "name": "short"},
            {"record": 1, "name": "short\n2 short"}, {"record": 1, "name": ["short"]}, {"record": 1, "at": 1, "host": 1, "rule": ["bad"]}, {"record": 1, "at": 1, "host": 1, "rule": "none"},
            {"record": 1, "at": 1, "host": 1, "rule": "sex", "command": {"name": "RTS"}}, {"record": 1, "at": 1, "host": 1, "rule": "sex", "command": "NOP"},
            {"record": 1, "name": "regular", "host": 2, "link": 0, "flags": 0, "low": 0, "size": 8, "count": 1, "commands": 1},
            {"record": 1, "name": "regular", "host": 2, "link": 0, "flags": 0, "low": 0, "size": 8, "count": 1, "commands": [None]},
            {"record": 1, "name": "regular", "host": 2, "link": 0, "flags": 0, "low": 0, "size": 8, "count": 1, "commands": [{"name": []}]},
            {"record": 1, "name": "regular", "host": 2, "link": 0, "flags": 0, "low": 0, "size": 8, "count": 1, "commands": [], "bad": 7},
            {"record": 1, "name": "regular", "host": 2, "link": 0, "flags": 0, "low": 0, "size": 8, "count": 1, "text_bits": 8, "text": "6\n"},
            {"record": 1, "name": "regular", "host": 2, "link": 0, "flags": 0, "low": 0, "fault": "No\n"},
            {"record": 1, "name": "short", "time": "now"}, {"record": 1, "name": "short", "time": float("nan")}, {"record": 1, "name": "short", "time": [1]}, {"record": 1, "name": "short", "time": 1e300},
            {"event": 1, "do": "errors", "peer": 2, "ok": True, "error_count": 1, "errors": 5}, {"event": 1, "do": {}, "ok": True}, {"event": 1, "do": "reset", "peer": 2, "ok": True, "ledger": 3},
            {"record": 1, "at": 1, "host": 1, "rule": "early", "what": "ECO", "began": 1, "wait": False, "owe": False},
            {"connection": 1}, {**connection, "letters": "a\nb"}, {**connection, "letters": 5}, {"segment": 2, "time": None, "reason": "restart"},
            {"line": "a\nb"}, {"line": 5}, {"line": "\ud800"}, {"bytes": "0"}, {"bytes": "0a"}, {"bytes": None}, {"record": 10**5000, "name": "short"},
        ):
            with self.assertRaises(ncp_lines.NoLines) as found:
                ncp_lines.lines_of(made)
            self.assertTrue(re.fullmatch(r"[ -~]{10,250}", str(found.exception)), str(found.exception))
        self.assertTrue(ncp_lines.lines_of(connection))
        # Unknown members are ignored.
        self.assertEqual(ncp_lines.lines_of({"record": 1, "name": "short", "new": [1]}), b"1 short\n")


# ---------------------------------------------------------------- the command


def run(*words, data=b""):
    return subprocess.run([*COMMAND, *words], input=data, stdout=subprocess.PIPE, stderr=subprocess.PIPE, timeout=PATIENCE)


class Command(unittest.TestCase):
    def start(self):
        ran = subprocess.Popen(COMMAND, stdin=subprocess.PIPE, stdout=subprocess.PIPE, stderr=subprocess.PIPE)
        self.addCleanup(self.end, ran)
        return ran

    @staticmethod
    def end(ran):
        ran.kill()
        for stream in ran.stdin, ran.stdout, ran.stderr:
            stream.close()
        ran.wait()

    def line(self, ran, seconds=PATIENCE):
        ready, _, _ = select.select([ran.stdout], [], [], seconds)
        return json.loads(ran.stdout.readline()) if ready else None

    def test_there_and_back(self):
        text = b"".join(lines for lines, _ in worked()) + b"\xff\n\x7f\n\xc2\x80\n\n1 sho"
        there = run(data=text)
        self.assertEqual((there.returncode, there.stderr), (0, b""))
        self.assertTrue(re.fullmatch(rb"[ -~\n]*", there.stdout))
        back = run("--back", data=there.stdout)
        self.assertEqual((back.returncode, back.stderr, back.stdout), (0, b"", text))

    def test_live(self):
        """A complete object is returned at once, one that may be complete when nothing follows, and an incomplete one waits."""
        ran = self.start()
        for said, records in ((b"1 at=1 host=2 rrp-first\n", [1]), (b"2 nop host=2 link=0\n3 sho", [2]), (b"rt\n", [3]), (b"4 regular host=2 link=2\n  size=8 count=1\n", []), (b"  text bits=8 61\n", [4]),
                              (b"5 regular host=2 link=0\n  size=8 count=2\n", []), (b"  NOP\n  NOP\n", [5])):
            ran.stdin.write(said)
            ran.stdin.flush()
            for number in records:
                self.assertEqual(self.line(ran)["record"], number)
            if not records:
                self.assertIsNone(self.line(ran, 0.5))
        # A ledger may follow an event, so it is returned when nothing else arrives; if the last had one, this one waits for its own.
        for said, wanted in ((b"1 a reset ok\n", {}), (b"2 a reset ok\n  ledger none\n", {"ledger": None}), (b"3 a reset ok\n", None), (b"  ledger none\n", {"ledger": None})):
            ran.stdin.write(said)
            ran.stdin.flush()
            if wanted is None:
                self.assertIsNone(self.line(ran, 0.5))
            else:
                self.assertEqual({key: value for key, value in self.line(ran).items() if key == "ledger"}, wanted)
        ran.stdin.write(b"  ledger none\n4 a out nothing\n")
        ran.stdin.close()
        self.assertEqual([json.loads(it) for it in ran.stdout.read().splitlines()], [{"line": "  ledger none"}, {"event": 4, "side": "a", "do": "out", "what": "nothing"}])

    def test_an_interrupt_is_left_to_the_writer(self):
        ran = self.start()
        ran.stdin.write(b"1 short\n")
        ran.stdin.flush()
        self.assertEqual(self.line(ran), {"record": 1, "name": "short"})
        ran.send_signal(signal.SIGINT)
        ran.stdin.write(b"2 short\n")
        ran.stdin.close()
        self.assertEqual(self.line(ran), {"record": 2, "name": "short"})
        self.assertEqual(ran.wait(PATIENCE), 0)

    def test_wrong_objects(self):
        good = b'{"record":1,"name":"short"}\n'
        for wrong, said in (
            (b'{"record":1}', b'object 2: no line of ncp has its members: ["record"]'), (b"[1]", b"object 2: this is JSON, but no object"), (b"{", b"object 2: this is no JSON object in one line, as `jq -c` writes it"),
            (b"\xff", b"object 2: this is no JSON"), (b"", b"object 2: this is no JSON"), (b"[" * 100000, b"object 2: this is no JSON"), (b'{"a":' + b"[" * 900 + b"]" * 900 + b"}", b'no line of ncp has its members: ["a"]'),
            (b" " * 2**20, b"object 2: a line of 1048576 bytes or more"), (b'{"\\u001b[2J":1}', b'no line of ncp has its members: ["\\u001b[2J"]'),
        ):
            ran = run("--back", data=good + wrong + b"\n" + good)
            self.assertEqual((ran.returncode, ran.stdout), (2, b"1 short\n"), wrong[:40])
            self.assertIn(said, ran.stderr)
            self.assertTrue(re.fullmatch(rb"ncp_lines: [ -~]*\n", ran.stderr), ran.stderr)

    def test_wrong_streams(self):
        self.assertEqual(run("--forth").returncode, 2)
        with open(os.devnull, "wb") as nothing:
            for words in [], ["--back"]:
                ran = subprocess.run([*COMMAND, *words], stdin=nothing, stdout=subprocess.PIPE, stderr=subprocess.PIPE, timeout=PATIENCE)
                self.assertEqual((ran.returncode, ran.stderr), (2, b"ncp_lines: Bad file descriptor\n"))
        with open("/dev/full", "wb") as full:
            ran = subprocess.run(COMMAND, input=b"1 short\n", stdout=full, stderr=subprocess.PIPE, timeout=PATIENCE)
            self.assertEqual((ran.returncode, ran.stderr), (2, b"ncp_lines: No space left on device\n"))
        ran = self.start()
        ran.stdout.close()
        ran.stdin.write(b"1 short\n")
        ran.stdin.close()
        self.assertEqual((ran.wait(PATIENCE), ran.stderr.read()), (2, b""))

    def test_a_terminal_gets_no_byte_of_a_stranger(self):
        for words, data in ((["--back"], b'{"line":"\\u001b[2J\\u009b\\u00e9"}\n{"bytes":"ff07"}\n'), ([], b"\x1b[2J\x7f\xff\n")):
            front, back = pty.openpty()
            ran = subprocess.run([*COMMAND, *words], input=data, stdout=back, stderr=subprocess.PIPE, timeout=PATIENCE)
            os.close(back)
            shown = b""
            while select.select([front], [], [], 1)[0]:
                try:
                    shown += os.read(front, 4096)
                except OSError:
                    break
            os.close(front)
            self.assertEqual(ran.returncode, 0)
            self.assertTrue(re.fullmatch(rb"[ -~\r\n]+", shown), shown)
        self.assertIn(b"bytes", shown)

    def test_memory_is_bounded(self):
        """32 MiB without a line feed, in 16 MiB more than an empty input needs."""
        run(data=b"")
        before = resource.getrusage(resource.RUSAGE_CHILDREN).ru_maxrss
        ran = subprocess.Popen(COMMAND, stdin=subprocess.PIPE, stdout=subprocess.DEVNULL)
        for _ in range(32):
            ran.stdin.write(b"x" * 2**20)
        ran.stdin.close()
        self.assertEqual(ran.wait(PATIENCE), 0)
        self.assertLess(resource.getrusage(resource.RUSAGE_CHILDREN).ru_maxrss - before, 16 * 1024)


# ---------------------------------------------------------------- the questions of docs/WIRESHARK.md


# By hand from examples/texts.txt and texts.audit.
ANSWERS = (
    "10\t1\ttext-over\n14\t1\tret-other\n17\t1\ttext-size\n19\t1\ttext-not-open\n22\t1\tnot-open\n25\t2\tover-limit\n",
    "1\tsend\t2\t2\t1\n",
    '[{"receive":2,"send":3,"name":"RTS","n":4},{"receive":2,"send":3,"name":"STR","n":5}]\n',
    "7\tfrom-imp\tALL\t2\t24\n12\tfrom-imp\tALL\t3\t800\n14\tto-imp\tRET\t3\t300\n16\tfrom-imp\tALL\t1\t0\n22\tto-imp\tALL\t1\t8\n25\tfrom-imp\tALL\t1\t70000\n",
    "4\n7\n8\n9\n10\n11\n12\n13\n14\n16\n17\n18\n22\n25\n",
)
# The same as plain values.
VALUES = (
    "{it[0]: list(it[1]) for it in ({}).items()}", "({}).values.tolist()", "{it[0]: list(it[1]) for it in ({}).items()}", "({}).values.tolist()", "{}",
)
FRAMES = (
    {(1, "not-open"): [22], (1, "ret-other"): [14], (1, "text-not-open"): [19], (1, "text-over"): [10], (1, "text-size"): [17], (2, "over-limit"): [25]},
    [[1, "send", 2, 2, 1]],
    {(2, 3): [4, 5]},
    [[7, "from-imp", "ALL", 2, 24], [12, "from-imp", "ALL", 3, 800], [14, "to-imp", "RET", 3, 300], [16, "from-imp", "ALL", 1, 0], [22, "to-imp", "ALL", 1, 8], [25, "from-imp", "ALL", 1, 70000]],
    [4, 7, 8, 9, 10, 11, 12, 13, 14, 16, 17, 18, 22, 25],
)


def has_pandas():
    return os.path.exists(DEBIANS_PYTHON) and subprocess.run([DEBIANS_PYTHON, "-c", "import pandas"], stderr=subprocess.DEVNULL).returncode == 0


class Questions(unittest.TestCase):
    @classmethod
    def setUpClass(cls):
        page = read_text("docs/WIRESHARK.md").split("\n## As data\n")[1].split("\n## ")[0]
        cls.makes, cls.asked, cls.frames = (block.splitlines() for block in re.findall(r"^```\n(.*?)^```", page, re.M | re.S))
        program()
        folder = tempfile.TemporaryDirectory()
        cls.addClassCleanup(folder.cleanup)
        cls.folder = folder.name
        for line in cls.makes:
            command, name = line.split(" > ")
            made = subprocess.run(command, shell=True, cwd=TOP, stdout=subprocess.PIPE, timeout=PATIENCE).stdout
            Path(cls.folder, name).write_bytes(made)

    @unittest.skipUnless(shutil.which("jq"), "there is no jq")
    def test_with_jq(self):
        self.assertEqual([line.rpartition(" ")[2] for line in self.makes], ["show.json", "audit.json", "follow.json"])
        self.assertEqual(len(self.asked), 5)
        for line, answer in zip(self.asked, ANSWERS):
            ran = subprocess.run(line, shell=True, cwd=self.folder, stdout=subprocess.PIPE, stderr=subprocess.PIPE, text=True, timeout=PATIENCE)
            self.assertEqual((ran.stdout, ran.stderr), (answer, ""), line)

    @unittest.skipUnless(shutil.which("jq"), "there is no jq")
    def test_what_jq_writes_goes_back(self):
        text = b"".join(lines for lines, _ in worked())
        written = subprocess.run(["jq", "-c", "."], input=run(data=text).stdout, stdout=subprocess.PIPE, timeout=PATIENCE).stdout
        self.assertEqual(run("--back", data=written).stdout, text)

    @unittest.skipUnless(has_pandas(), "there is no pandas")
    def test_with_pandas(self):
        end = self.frames.index("")
        first, asked = self.frames[:end], self.frames[end + 1 :]
        self.assertEqual(len(asked), 5)
        script = "\n".join([*first, *(f"print({value.replace('{}', line)})" for line, value in zip(asked, VALUES))])
        ran = subprocess.run([DEBIANS_PYTHON, "-c", script], cwd=self.folder, stdout=subprocess.PIPE, stderr=subprocess.PIPE, text=True, timeout=PATIENCE)
        self.assertEqual(ran.stderr, "")
        self.assertEqual([ast.literal_eval(line) for line in ran.stdout.splitlines()], list(FRAMES))


if __name__ == "__main__":
    unittest.main()
