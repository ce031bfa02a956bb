#!/usr/bin/env python3
"""The tests of the dissector. `wireshark/test` calls it, with the program's path; `--long` tries more of each."""
import argparse
import glob
import importlib.machinery
import importlib.util
import os
import re
import shutil
import subprocess
import sys
import time

import captures
import records
import resets
from shark import AUDITS, FROM_IMP, MEANINGS, TO_IMP, TOP, Shark, by_record, info_of, lines_of

sys.path.insert(0, TOP)
EXAMPLES = os.path.join(os.path.dirname(TOP), "examples")
CASES = os.path.join(os.path.dirname(TOP), "crates", "ncp_test_cases", "data")
FAULTS = ("BadHeader", "Truncated", "TooLong", "SpareNotZero", "BadDirection")
LUAS = ("lua5.1", "lua5.2", "lua5.3", "lua5.4", "lua", "luajit")

LINK_TYPE_PPP = 9

NCP = None  # the program
shark = None
failures = []
began = time.time()


def reader_of_cases():
    """examples/cases, which reads files of cases."""
    loader = importlib.machinery.SourceFileLoader("cases", os.path.join(EXAMPLES, "cases"))
    module = importlib.util.module_from_spec(importlib.util.spec_from_loader("cases", loader))
    loader.exec_module(module)
    return module


case_files = reader_of_cases()


def tell(what, wrong):
    """Prints a line on a comparison; `wrong` is a list of the differences."""
    print("%6.1f s  %s %s" % (time.time() - began, "DIFFERS" if wrong else "same   ", what), flush=True)
    for line in wrong[:5]:
        print("          " + str(line)[:400])
    if wrong:
        failures.append(what)


def ncp(word, data):
    done = subprocess.run([NCP, word], input=data, capture_output=True)
    fault = done.stderr.decode().partition("\n")[0].removeprefix("ncp: ") or None
    return done.stdout, fault


def show(data):
    stdout, fault = ncp("show", data)
    return by_record(stdout.decode().splitlines()), fault


def differences(wanted, got):
    wrong = ["wanted %r, got %r" % pair for pair in zip(wanted, got) if pair[0] != pair[1]]
    if len(wanted) != len(got):
        wrong.append("wanted %d records, got %d" % (len(wanted), len(got)))
    return wrong


def compare_fields(data, path, *words):
    """Each record's lines from the fields, and its Info column, with the lines of `ncp show`."""
    wanted, _ = show(data)
    frames, _ = shark.frames(path, *words)
    wrong = differences(wanted, [lines_of(frame) for frame in frames])
    wrong += differences([info_of(lines) for lines in wanted], [frame["_ws.col.Info"] for frame in frames])
    wrong += compare_bytes(data, frames)
    # The fields that name a link or a socket of any command.
    for lines, frame in zip(wanted, frames):
        commands = [line for line in lines[1:] if re.match("  [A-Z]{3}", line)]
        links = [link for line in commands for link in re.findall(r" link=(\d+)", line)]
        sockets = [number for line in commands for number in re.findall(r" (?:my|your|send|receive)=(\d+)", line)]
        if links != frame["ahhp.link"].split(",") and (links or frame["ahhp.link"]):
            wrong.append((lines, frame["ahhp.link"]))
        if sockets != frame["ahhp.socket"].split(",") and (sockets or frame["ahhp.socket"]):
            wrong.append((lines, frame["ahhp.socket"]))
    return wrong, len(wanted)


def compare_bytes(data, frames):
    """The fields that no line of `ncp show` has, with the bytes of the records."""
    wrong = []
    for (direction, host, bits, message), frame in zip(records.split(data), frames):
        to_imp = direction == "H" or direction is None and data[3:4] == b"H"
        wanted = dict.fromkeys(("ncp1822.name", "ncp1822.meaning", "ncp1822.src", "ncp1822.dst", "ncp1822.rest", "ncp1822.short", "ahhp.m1", "ahhp.m2", "ahhp.text.ascii"), "")
        if bits < 32:
            wanted["ncp1822.short"] = message.hex()
        else:
            kind = message[0] & 15
            wanted["ncp1822.name"] = (TO_IMP if to_imp else FROM_IMP).get(kind, "type-%d" % kind)
            if kind:
                wanted["ncp1822.meaning"] = "" if to_imp else MEANINGS.get(kind, "")
                wanted["ncp1822.rest"] = message[4:].hex()
            else:
                hosts = ["" if host is None else str(host), str(message[1])]
                wanted["ncp1822.src"], wanted["ncp1822.dst"] = hosts if to_imp else hosts[::-1]
                if bits >= 72:
                    wanted["ahhp.m1"], wanted["ahhp.m2"] = str(message[4]), str(message[8])
                    size, count = message[5], int.from_bytes(message[6:8], "big")
                    if size == 8 and message[2] and not frame["ahhp.fault"]:
                        text = message[9 : 9 + count].decode("latin-1")
                        wanted["ahhp.text.ascii"] = re.sub("[^ -~]", ".", text)
        for field, value in wanted.items():
            got = frame[field].replace(":", "") if field in ("ncp1822.rest", "ncp1822.short") else frame[field]
            if got != value:
                wrong.append((field, frame["frame.number"], value, got))
    return wrong


def test_examples(recorded):
    for name in sorted(os.listdir(EXAMPLES)):
        if name.endswith(".ncp"):
            path = os.path.join(EXAMPLES, name)
            wrong, count = compare_fields(read(path), path)
            tell("examples/%s: fields and Info of %d records" % (name, count), wrong)
    for name, data, _ in recorded:
        wrong, count = compare_fields(data, shark.path("recorded.ncp", data))
        tell("the recording of examples/%s: fields and Info of %d records" % (name, count), wrong)


def test_labels():
    """The labels of the tree are the lines of `ncp show`."""
    path = os.path.join(EXAMPLES, "capture.ncp")
    stdout, _, _ = shark.run("-r", path, "-V")
    got = []
    for line in stdout.splitlines():
        found = re.match(r"    ((NOP|RTS|STR|CLS|ALL|GVB|RET|INR|INS|ECO|ERP|ERR|RST|RRP)( .*)?|bad code=.*)$", line)
        if found:
            got.append("  " + found.group(1))
        found = re.match(r"ARPANET Host/(?:IMP Interface \(BBN 1822\)|Host Protocol \(NIC 8246\)), (.*)$", line)
        if found:
            got.append(("  " if "Host Protocol" in line else "") + found.group(1))
    wanted = []
    for lines in show(read(path))[0]:
        wanted += [lines[0].split(" ", 1)[1]] + [line for line in lines[1:] if not line.startswith("  text")]
    tell("labels of capture.ncp", differences(wanted, got))


def read(path):
    with open(path, "rb") as file:
        return file.read()


def test_generated(count):
    for version in "hij":
        data = records.a_file(version, count, ord(version))
        wrong, seen = compare_fields(data, shark.path("generated.ncp", data))
        tell("%d generated records, header %s: fields and Info" % (seen, data[:4].decode()), wrong)


def test_truncated(recorded, long):
    """Every beginning of ten files: the same records, and the same fault."""
    files = [(name, read(os.path.join(EXAMPLES, name))) for name in ("answers.ncp", "first.ncp", "reset.ncp")]
    files += [("generated %s, %d" % (version, seed), records.a_file(version, 2, seed)) for version, seed in (("h", 1), ("h", 2), ("i", 3), ("i", 4), ("j", 5), ("j", 6), ("j", 7))]
    if long:
        files = [("capture.ncp", read(os.path.join(EXAMPLES, "capture.ncp")))] + [(name, data) for name, data, _ in recorded[:3]] + files
    wrong, total = [], 0
    for name, data in files:
        cuts = [data[:length] for length in range(len(data) + 1)]
        paths = [shark.path("cut%d.ncp" % i, cut) for i, cut in enumerate(cuts)]
        for cut, (infos, fault) in zip(cuts, shark.infos(paths)):
            wanted, wanted_fault = show(cut)
            # A prefix of fewer than four bytes is no message file.
            if wanted_fault == "BadHeader":
                fine = fault is None and len(cut) < 4
            else:
                fine = [info_of(lines) for lines in wanted] == infos and fault == (wanted_fault and "ncp: " + wanted_fault)
            if not fine:
                wrong.append((name, len(cut), wanted_fault, fault, len(wanted), len(infos)))
        total += len(cuts)
        for path in paths:
            os.remove(path)
    tell("%d beginnings of %d files: the same records and the same fault" % (total, len(files)), wrong)


def test_malformed():
    """Each fault by its name; a file with another header is none of ours."""
    whole = read(os.path.join(EXAMPLES, "reset.ncp"))
    cases = [
        whole[:-1], whole[:5], whole[:6], whole[:7],
        whole + b"\x48\x01\x20\x01", whole + b"\x48\x01\xff\xff",
        whole + b"\x48\x01\x00\x21\0\0\0\0\x40",
        whole + b"\x47", whole + b"\x47\x01\x00\x20\0\0\0\0",
        b"NCPH\x20\x01", b"NCPI\0\x21\0\0\0\0\x01", b"NCPI\0",
        b"", b"NCP", b"NCPK", b"NCPKJ", b"ncpj" + whole[4:],
    ]
    wrong = []
    for data in cases:
        wanted, fault = show(data)
        stdout, complaints, status = shark.run("-r", shark.path("malformed.ncp", data))
        said = " ".join(complaints)
        named = [name for name in FAULTS if "ncp: " + name in said]
        if fault == "BadHeader":
            # It is none of ours; a short one may look like a file of another kind.
            fine = not named and "1822" not in stdout and "AHHP" not in stdout
        else:
            fine = named == [fault] and len(stdout.splitlines()) == len(wanted) and status != 0
        if not fine:
            wrong.append((data, fault, complaints, status))
    tell("%d malformed files: refused, by the names of the program" % len(cases), wrong)


def test_round_trips(recorded):
    files = [read(os.path.join(EXAMPLES, name)) for name in sorted(os.listdir(EXAMPLES)) if name.endswith(".ncp")]
    files += [data for _, data, _ in recorded] + [records.a_file(version, 300, 9) for version in "hij"] + [b"NCPJ"]
    wrong = []
    by_pcapng = 0
    for data in files:
        path = shark.path("there.ncp", data)
        back, pcap, again = shark.path("back.ncp"), shark.path("back.pcapng"), shark.path("again.ncp")
        shark.run("-r", path, "-F", "ncp", "-w", back)
        if read(back) != data:
            wrong.append((len(data), len(read(back))))
        if len(data) > 1000 or len(data) == 40:
            by_pcapng += 1
            shark.run("-r", path, "-F", "pcapng", "-w", pcap)
            shark.run("-r", pcap, "-F", "ncp", "-w", again)
            if read(again) != data:
                wrong.append((len(data), len(read(again)), "by way of pcapng"))
    tell("%d files written by tshark, %d of them by way of pcapng too: the same bytes" % (len(files), by_pcapng), wrong)


def case_captures():
    """The captures that the gate's cases audit and follow: the words, the capture, and the lines. A faulty file is none, and
    texts as bytes or as letters are the program's alone, as are the lines of coverage."""
    for path in sorted(glob.glob(os.path.join(CASES, "audit_*.cases")) + glob.glob(os.path.join(CASES, "follow_*.cases"))):
        for case in case_files.cases_in(path):
            if not case.errors and not {"--bytes", "--letters"} & set(case.words):
                words = [it for it in case.words if it not in ("--coverage", "--strict")]
                lines = [it for it in case.output.decode().splitlines() if "audit" not in words or not it.startswith("- ")]
                yield " ".join(words), bytes(case.input), lines


def example_captures():
    """The examples that break rules, with their findings."""
    for path in sorted(glob.glob(os.path.join(EXAMPLES, "*.audit"))):
        yield "audit", read(path[: -len("audit")] + "ncp"), read(path).decode().splitlines()


def audited_by_sharkd(captured):
    """The captures that are audited, with the findings in Wireshark's list of experts: of one message in any order."""
    for words, settings in AUDITS.items():
        chosen = [(data, wanted) for asked, data, wanted in captured if asked == words]
        paths = [shark.path("rules%d.ncp" % i, data) for i, (data, _) in enumerate(chosen)]
        for (_, wanted), got in zip(chosen, shark.findings(paths, *settings)):
            yield words, sorted(wanted), sorted(got)


def audited_by_tshark(captured):
    """The same by a field of the messages."""
    for words, data, wanted in captured:
        stdout = shark.run("-r", shark.path("rules.ncp", data), "-T", "fields", "-E", "aggregator=;", "-e", "frame.number", "-e", "ahhp.finding")[0]
        frames = [line.split("\t") for line in stdout.splitlines()]
        yield words, sorted(wanted), sorted("%s %s" % (number, it) for number, found in frames for it in found.split(";") if it)


def followed_by_tshark(captured):
    """The captures that are followed, with the lines of the connections."""
    for words, data, wanted in captured:
        if words.startswith("follow"):
            part = "TRUE" if "--part" in words else "FALSE"
            path = shark.path("follow.ncp", data)
            listed = shark.run("-r", path, "-o", "ahhp.list:TRUE", "-o", "ahhp.part:" + part, "-Y", "frame.number == 0")[0]
            yield words, wanted, [line for line in listed.splitlines() if re.match(r"(\d+|-) at=|  text bits=", line)]


def by_each_lua(captured):
    """The same by the plugin alone, of each Lua that is there: its name, and what differs."""
    for lua in LUAS:
        if shutil.which(lua):
            got = [(words, wanted, resets.found_by(lua, words, shark.path("alone.ncp", data))) for words, data, wanted in captured]
            yield lua, [it for it in got if it[1] != it[2]]


def test_rules():
    """Captures that break each rule, with the findings that are wanted; connections; and the examples with those of `ncp audit`."""
    examples = list(example_captures())
    captured = [*case_captures(), *examples]
    compared = [*audited_by_sharkd(captured), *audited_by_tshark(examples), *followed_by_tshark(captured)]
    wrong = [it for it in compared if it[1] != it[2]]
    seen = {line.split()[3] for words, _, wanted in captured if "audit" in words for line in wanted}
    with open(os.path.join(TOP, "plugin", "arpanet_rules.lua")) as file:
        names = re.findall(r'^  \{ "([a-z-]+)", "[SP]"', file.read(), re.M)
    wrong += ["no capture breaks " + name for name in names if name not in seen]
    tell("%d captures that break the %d rules, or are followed: their findings and connections" % (len(captured), len(names)), wrong)
    for lua, wrong in by_each_lua(captured):
        for name in sorted(set(os.listdir(os.path.join(TOP, "plugin"))) - {"arpanet.lua"}):
            done = subprocess.run([lua, os.path.join(TOP, "plugin", name)], cwd=shark.home, capture_output=True, text=True)
            wrong += [done.stderr] if done.returncode else []
        tell("the same by %s alone; each file of the plugin but the first does nothing by itself" % lua, wrong)


def test_resets():
    """Captures by hand of interface resets, errors in messages, NOPs and padding; what is no longer judged; and the texts."""
    rows = list(resets.rows())
    captured = [(row.words, bytes(row.capture), row.wanted) for row in rows]
    wrong = [it for it in (*audited_by_sharkd(captured), *followed_by_tshark(captured)) if it[1] != it[2]]
    tell("%d captures of resets, errors in messages, NOPs and padding: their findings and connections" % len(captured), wrong)
    for lua, wrong in by_each_lua(captured):
        tell("the same by %s alone" % lua, wrong)
    path = shark.path("again.ncp", next(bytes(row.capture) for row in rows if row.title.startswith("R8")))
    frames = [line.split("\t") for line in shark.run("-r", path, "-Y", "ahhp.unjudged || ncp1822.again", "-T", "fields", "-e", "frame.number", "-e", "ahhp.unjudged", "-e", "ncp1822.again", "-e", "ncp1822.meaning")[0].splitlines()]
    wanted = [("5", "own interfaces only", "", "interface-reset"), ("6", "no longer judged at its own", "", ""), ("7", "", "4", "")]
    wrong = [(got, it) for got, it in zip(frames, wanted) if it[1] not in got[1] or bool(it[1]) != bool(got[1]) or (got[0], *got[2:]) != (it[0], *it[2:])]
    path = shark.path("twice.ncp", next(bytes(row.capture) for row in rows if "the sender's once" in row.title))
    text = shark.run("-r", path, "-o", "ahhp.follow:0")[0]
    for line in ("At host 1, which sends, 24 bits in 1 texts: frames 16\n", "At host 2, which receives, 48 bits in 2 texts: frames 17, 20\n"):
        if line not in text:
            wrong.append((line, text[-400:]))
    tell("from which messages on less is judged; a text that arrived twice, once at its sender", wrong + ([] if len(frames) == len(wanted) else [frames]))


def test_ends():
    """The message from which on something is judged no longer: two hosts, a link, and all for which there is no room."""
    early, out, asked = captures.Capture(), captures.Capture(), captures.Capture()
    early.out(1, 2, 0, 8, captures.NOP)
    for capture in (out, asked):
        capture.begin()
    for place in range(captures.MOST + 5):
        out.out(1, 3 + place // 100, 100 + place % 100, 8, captures.NOP, answered=False)  # links that are not used
        asked.out(1, 2, 0, 8, captures.str_(2 * place + 3, 2 * place + 2, 8))
    wrong = []
    wanted = (
        (bytes(early), 1, "what the two hosts say is not judged until a reset"),
        (bytes(out), 3 + captures.MOST + 1, "links and resets are no longer judged"),
        (bytes(asked), 2 * (captures.MOST + 1) + 2, "what hosts say is no longer judged"),
        (read(os.path.join(EXAMPLES, "texts.ncp")), 19, "link 3, on which host 2 receives, is not judged until a reset"),
    )
    for data, number, words in wanted:
        stdout, _, _ = shark.run("-r", shark.path("ends.ncp", data), "-Y", "ahhp.unjudged", "-T", "fields", "-e", "frame.number", "-e", "ahhp.unjudged")
        if len(stdout.splitlines()) != 1 or not stdout.startswith("%d\t" % number) or words not in stdout:
            wrong.append((number, words, stdout))
    tell("the messages from which on two hosts, a link and all are judged no longer", wrong)


def recordings(scripts):
    """Name, recording and lines of each script."""
    made = []
    for name, script in scripts:
        made.append((name, ncp("record", script)[0], ncp("world", script)[0].decode().splitlines()))
    return made


def judge(data, lines):
    """The errors of the dissector in a recording, by the lines of the run."""
    path = shark.path("recording.ncp", data)
    frames, complaints = shark.frames(path, "-2")
    wrong = list(complaints)
    wrong += ["%s %s" % (frame["frame.number"], frame["ahhp.finding"]) for frame in frames if frame["ahhp.finding"]]
    # Every answer belongs to a message; a delivered message was sent; a retransmission equals the message before.
    outs = {}
    for frame in frames:
        number, to_imp = frame["frame.number"], frame["ncp1822.direction"].strip("'") == "H"
        key = (frame["ncp1822.at"], frame["ncp1822.host"], frame["ncp1822.link"])
        if to_imp:
            before = outs.get(key)
            again = before and before[2]
            if bool(frame["ncp1822.again"]) != bool(again) or again and frame["ncp1822.again"] != before[1]:
                wrong.append(("again", number, frame["ncp1822.again"], before))
            outs[key] = [number, before[1] if again else number, False]
        elif frame["ncp1822.type"] == "0":
            there = outs[(key[1], key[0], key[2])]
            if frame["ncp1822.sent_in"] != there[0]:
                wrong.append(("sent in", number, frame["ncp1822.sent_in"], there))
        elif frame["ncp1822.type"] in ("5", "7", "9"):
            if frame["ncp1822.response_to"] != outs[key][0]:
                wrong.append(("response to", number, frame["ncp1822.response_to"], outs[key]))
            outs[key][2] = frame["ncp1822.type"] != "5"
    # Each connection's text at the receiver is a prefix of its text at the sender; and a text names one connection.
    texts = {}
    for frame in frames:
        if frame["ahhp.text.bits"] and frame["ncp1822.link"] != "0" and not frame["ncp1822.again"]:
            if not frame["ahhp.connection"] and frame["ncp1822.direction"].strip("'") == "H":
                wrong.append(("no connection", frame["frame.number"]))
            if frame["ahhp.connection"] and not frame["ahhp.text.late"]:
                side = texts.setdefault(frame["ahhp.stream"], {}).setdefault(frame["ncp1822.direction"], [])
                side.append((frame["ahhp.text.bits"], frame["ahhp.text"]))
    for stream, sides in texts.items():
        sent, got = sides.get("'H'", []), sides.get("'I'", [])
        if got != sent[: len(got)]:
            wrong.append(("beginning", stream, sent, got))
    # The number of texts of connections is that of the admitted ones, or a few more: the wire does not show that a text
    # arrived after a `close` or a `reset` of the user whose CLS or RST was not sent yet.
    admitted = sum(" text admitted" in line for line in lines)
    late = sum(" text late" in line or " text not-up" in line for line in lines)
    counted = sum(len(sides.get("'I'", [])) for sides in texts.values())
    if not admitted <= counted <= admitted + late:
        wrong.append(("admitted", admitted, late, counted))
    return wrong, len(frames), counted


def test_recordings(count):
    total = texts = 0
    wrong = []
    made = recordings([("script %d" % seed, bytes(records.Script(seed))) for seed in range(count)])
    for name, data, lines in made:
        judged, frames, counted = judge(data, lines)
        wrong += [(name, line) for line in judged]
        total, texts = total + frames, texts + counted
    tell("%d scripts of two to eight hosts, %d messages, %d texts that came: no finding, and each message in its place" % (count, total, texts), wrong)
    wrong = []
    for name, data, _ in made[:6]:
        differ, _ = compare_fields(data, shark.path("recording.ncp", data))
        wrong += [(name, line) for line in differ]
    tell("fields and Info of 6 of them", wrong)


def test_hostile(captures):
    """One host whose peer sends what it likes: nothing is found against the host. A capture has the interfaces of many such hosts."""
    wrong, total, against_peer = [], 0, set()
    for capture in captures:
        data = b"NCPJ"
        for me in range(1, 200):
            script = records.hostile(capture * 200 + me, me, 250)
            lines = ncp("host", script)[0].decode().splitlines()
            for direction, host, bits, message in records.interface(script, lines):
                data += records.record("j", bits, message, direction, host)
                total += 1
        stdout = shark.run("-r", shark.path("hostile.ncp", data), "-Y", "ahhp.finding", "-T", "fields", "-E", "aggregator=;", "-e", "frame.number", "-e", "ahhp.finding")[0]
        for line in stdout.splitlines():
            number, found = line.split("\t")
            for finding in found.split(";"):
                at, who, rule = finding.split()[:3]
                if who == "host=" + at.split("=")[1]:
                    wrong.append((capture, number, finding))
                against_peer.add(rule)
    tell("%d hosts with a peer that sends what it likes, %d messages: no finding against the host (against peer and IMP %d rules)"
        % (199 * len(captures), total, len(against_peer)), wrong)


def test_middle(count):
    """Recordings whose first messages are missing: with the preference for this nothing is found."""
    found = []
    for seed in range(count):
        data = ncp("record", bytes(records.Script(seed)))[0]
        whole = records.split(data)
        for part in (7, 3, 2):
            cut = b"NCPJ" + b"".join(records.record("j", bits, message, direction, host) for direction, host, bits, message in whole[len(whole) // part :])
            stdout = shark.run("-r", shark.path("middle.ncp", cut), "-o", "ahhp.part:TRUE", "-Y", "ahhp.finding", "-T", "fields", "-e", "frame.number", "-e", "ahhp.finding")[0]
            found += ["script %d from %d on: %s" % (seed, len(whole) // part, line) for line in stdout.splitlines()]
    tell("%d recordings that begin in the middle: no finding" % (3 * count), found)


def test_left(count):
    """The allocation left at each text equals the sender's counters, and is at most what the receiver has outstanding."""
    wrong, seen = [], 0
    for seed in range(count):
        script = records.watched(seed)
        lines = ncp("world", script)[0].decode().splitlines()
        frames, _ = shark.frames(shark.path("left.ncp", ncp("record", script)[0]))
        left = [(frame["ahhp.left.messages"], frame["ahhp.left.bits"], frame["ncp1822.direction"].strip("'")) for frame in frames]
        number = -1
        for i, line in enumerate(lines):
            if not re.match(r"\d+ [ab] (out host=|(deliver|answer) \d+ [^n\d])", line):
                continue
            number += 1
            ledger = next(later for later in lines[i + 1 :] if later.startswith("  ledger"))
            known = re.match(r"  ledger out=(\d+)/(\d+) counters=(\d+)/(\d+)", ledger)
            if not known or not left[number][0]:
                continue
            seen += 1
            messages, bits, direction = left[number]
            if direction == "H" and (messages, bits) != known.groups()[2:]:
                wrong.append((seed, number + 1, left[number], ledger))
            if direction == "I" and (int(messages) > int(known[1]) or int(bits) > int(known[2])):
                wrong.append((seed, number + 1, left[number], ledger))
    tell("%d watched scripts, %d texts: what is left of the allocation, by the ledger" % (count, seen), wrong + ([] if seen else ["none"]))


def test_datagrams(recorded):
    """The messages of recordings as datagrams: the same fields, of messages that are filled up to whole words; with times."""
    wrong, total = [], 0
    for name, data, _ in recorded:
        padded = b"NCPJ"
        for direction, host, bits, message in records.split(data):
            bits = (bits + 15) // 16 * 16
            padded += records.record("j", *records.message(bits, message), direction, host)
        for words in (30, 4):
            done = subprocess.run([os.path.join(TOP, "datagrams.py"), "--words", str(words)], input=data, capture_output=True)
            hosts = done.stderr.decode().strip().split("'")[1]
            path = shark.path("datagrams.pcapng", done.stdout)
            frames, complaints = shark.frames(path, "-2", "-o", hosts)
            wrong += complaints
            times = [float(frame["frame.time_epoch"]) for frame in frames]
            if not frames or times[0] != 89245800 or any(abs(b - a - 0.01) > 1e-5 for a, b in zip(times, times[1:])):
                wrong.append((name, "times", times[:3]))
            whole = [frame for frame in frames if frame["ncp1822.bits"]]
            for i, frame in enumerate(whole):
                frame["frame.number"] = str(i + 1)
            wanted = show(padded)[0]
            wrong += [(name, words, line) for line in differences(wanted, [lines_of(frame) for frame in whole])]
            wrong += [(name, words, frame["ahhp.finding"]) for frame in whole if frame["ahhp.finding"]]
            parts = len(frames) - len(whole)
            if words == 4 and (not parts or any(not frame["h316.message_in"] for frame in frames if not frame["ncp1822.bits"])):
                wrong.append((name, "parts", parts))
            total += len(frames)
    tell("%d recordings as datagrams, %d of these: joined to messages, with times" % (len(recorded), total), wrong)


def test_joined(count):
    """The texts that tshark lists are those of the messages of each connection, joined bit by bit."""
    wrong, seen = [], 0
    for seed in range(count):
        path = shark.path("joined.ncp", ncp("record", bytes(records.Script(seed)))[0])
        frames, _ = shark.frames(path)
        texts = {}
        for frame in frames:
            if frame["ahhp.text"] and frame["ahhp.stream"] and not frame["ncp1822.again"] and not frame["ahhp.text.late"]:
                bits, data = int(frame["ahhp.text.bits"]), bytes.fromhex(frame["ahhp.text"].replace(":", ""))
                spelled = "".join("{:08b}".format(byte) for byte in data)[:bits]
                key = (frame["ncp1822.at"], frame["ahhp.stream"])
                texts[key] = texts.get(key, "") + spelled
        wanted = sorted((at, len(text), "%0*x" % (-(-len(text) // 8) * 2, int(text.ljust(-(-len(text) // 8) * 8, "0"), 2))) for (at, _), text in texts.items())
        listed = shark.run("-r", path, "-o", "ahhp.list:TRUE", "-Y", "frame.number == 0")[0]
        got = sorted((at, int(bits), data) for at, bits, data in re.findall(r"^\d+ at=(\d+) .*\n  text bits=(\d+) ([0-9a-f]+)$", listed, re.M))
        seen += len(wanted)
        if wanted != got:
            wrong.append((seed, wanted, got))
    tell("%d scripts, %d texts of connections: as tshark lists them" % (count, seen), wrong + ([] if seen else ["none"]))


def test_torn():
    """Datagrams that are missing, duplicated or have a wrong count, and a capture without ports of hosts."""
    data = read(os.path.join(EXAMPLES, "reset.ncp"))
    import datagrams

    made = list(datagrams.datagrams(data, 2, 20000))
    wrong = []

    def seen(chosen, *words):
        path = shark.path("torn.pcapng", datagrams.pcapng([datagrams.packet(*datagram) for datagram in chosen], datagrams.BEGIN))
        return shark.run("-r", path, *words, "-T", "fields", "-e", "ncp1822.name", "-e", "_ws.expert.message", "-E", "separator=|")[0].splitlines()

    hosts = ("-o", "h316.hosts:20002=1 20004=2")
    if [line.split("|")[0] for line in seen(made, *hosts)] != ["", "", "regular", "", "", "regular", "rfnm"]:
        wrong.append(seen(made, *hosts))
    gap = seen(made[:1] + made[2:], *hosts)
    if "missing" not in gap[1] or [line.split("|")[0] for line in gap] != ["", "", "", "", "regular", "rfnm"]:
        wrong.append(gap)
    anew = seen(made[:3] + made[:3], *hosts)
    if [line.split("|")[0] for line in anew] != ["", "", "regular", "", "", "regular"]:
        wrong.append(anew)
    twice = seen(made[:1] + made, *hosts)
    if "earlier sequence" not in twice[1] or twice[3].split("|")[0] != "regular":
        wrong.append(twice)
    unknown = seen(made)
    if "not known" not in unknown[2] or unknown[-1].split("|")[0] != "rfnm":
        wrong.append(unknown)
    source, sink, payload = made[0]
    count = seen([(source, sink, payload[:9] + b"\x07" + payload[10:])] + made[1:], *hosts)
    if "count" not in count[0]:
        wrong.append(count)
    tell("datagrams missing, twice, with a wrong count, and without ports of hosts", wrong)


def test_frames():
    """A frame with two datagrams, and a host whose number is none."""
    import datagrams

    made = [datagrams.packet(*datagram) for datagram in datagrams.datagrams(read(os.path.join(EXAMPLES, "reset.ncp")), 30, 20000)]
    path = shark.path("frames.pcapng", datagrams.pcapng([in_one_frame(made[:2]), in_one_frame(made[2:])], 0, LINK_TYPE_PPP))
    asked = ("-T", "fields", "-E", "separator=|", "-e", "ncp1822.name", "-e", "ncp1822.at")
    wrong = []
    for hosts, wanted in (("20002=1 20004=2", ["regular,regular|1,2", "rfnm|1"]), ("20002=300 20004=2", ["regular|2", "|"])):
        for passes in ((), ("-2",)):
            stdout, complaints, _ = shark.run("-r", path, *passes, "-o", "h316.hosts:" + hosts, *asked)
            if stdout.splitlines() != wanted or complaints:
                wrong.append((hosts, stdout, complaints))
    tell("two datagrams in one frame, each a message of its own; a number of a host that is none", wrong)


def in_one_frame(packets):
    """IPv4 packets in one frame: PPP multiplexing (RFC 3153)."""
    parts = [(0xC000 | len(packet) + 2).to_bytes(2, "big") + b"\0\x21" + packet for packet in packets]
    return b"\xff\x03\0\x59" + b"".join(parts)


def test_failing():
    """A message of datagrams whose tree Wireshark ends leaves nothing: bits after the text of a record are found as ever."""
    import datagrams

    long = records.record("j", 72 + 880, bytes.fromhex("00020000000800") + b"\x6e\0" + bytes(110))
    made = [datagrams.packet(*datagram) for datagram in datagrams.datagrams(b"NCPJ" + long, 300, 20000)]
    record = records.record("j", 88, bytes.fromhex("0002000000080001000003"))
    path = shark.path("failing.pcapng", datagrams.pcapng(made, 0) + datagrams.pcapng([record], 0, 147))
    asked = ("-T", "fields", "-E", "separator=|", "-e", "_ws.expert.message", "-e", "ahhp.finding")
    stdout, _, _ = shark.run("-o", "gui.max_tree_items:200", "-r", path, *asked)
    ended, finding = (stdout.splitlines() + ["", ""])[:2]
    fine = "more than 200 items" in ended and "extras flags=0 low=0 text=8 rest=8" in finding
    tell("a message whose tree is ended, and a record after it", [] if fine else [stdout])


def test_garbage(count):
    """Packets of any bytes, as records and as datagrams: none stops the dissector."""
    import random

    import datagrams

    dice = random.Random(count)
    wrong = []
    packets = []
    for _ in range(count):
        bits = dice.choice([0, 31, 32, 40, 71, 72, 80, 200, 8192, 9000])
        data = dice.randbytes(dice.choice([0, 1, 3, 4, (bits + 7) // 8, dice.randrange(60)]))
        front = dice.choice([b"H", b"I", b"h", b"i", b"J"]) + bytes([dice.randrange(3)]) + bits.to_bytes(2, "big")
        packets.append((front + dice.choice([b"\0\1\0\0\0\x08", b""]) + data)[: dice.choice([2, 9999])])
    stdout, complaints, status = shark.run("-r", shark.path("garbage.pcapng", datagrams.pcapng(packets, 0, 147)), "-V")
    wrong += complaints + ([] if status == 0 else [status]) + re.findall(".*Lua Error.*", stdout)
    shown = stdout.count("ARPANET Host/IMP Interface")
    packets = [datagrams.packet(20002, 20003, b"H316"[: dice.choice([3, 4, 4, 4])] + dice.randbytes(dice.choice([0, 3, 7, 8, 9, 40]))) for _ in range(count)]
    stdout, complaints, status = shark.run("-r", shark.path("garbage.pcapng", datagrams.pcapng(packets, 0)), "-V")
    wrong += complaints + ([] if status == 0 else [status]) + re.findall(".*Lua Error.*", stdout)
    tell("%d packets of any bytes, %d of them taken as records, and %d datagrams: none stops the dissector" % (count, shown, count), wrong)


def test_words_of_tshark(recorded):
    """The list of connections and the text of one; filters and columns of the profiles; the other half of each pair."""
    data = {name: recording for name, recording, _ in recorded}["three_hosts.script"]
    path = shark.path("three.ncp", data)
    wrong = []
    stdout = shark.run("-r", path, "-o", "ahhp.list:TRUE", "-o", "ahhp.follow:0")[0]
    for wanted in (" send local=3 remote=2 link=2 size=8 ", " receive local=2 remote=3 link=2 size=8 ", "  text bits=16 6162\n", "Connection 0: 1:3 > 2:2\n", "61 62"):
        if wanted not in stdout:
            wrong.append((wanted, stdout[-900:]))
    filters = re.findall(r"^@[^@]+@([^@]+)@", read(os.path.join(TOP, "profiles", "colorfilters")).decode(), re.M)
    rules = len(filters)
    for profile in ("ARPANET", "ARPANET-connections", "ARPANET-datagrams"):
        filters += re.findall(r"%Cus:([a-z0-9_.]+):", read(os.path.join(TOP, "profiles", profile, "preferences")).decode())
    page = read(os.path.join(os.path.dirname(TOP), "docs", "WIRESHARK.md")).decode()
    on_page = re.findall(r"^\| `([^`]*(?:ahhp|ncp1822|h316)[^`]*)` \|", page, re.M)
    # All at once; and where tshark does not take them, each by itself.
    if shark.run("-r", path, "-Y", " || ".join("(%s)" % text for text in filters + on_page))[2]:
        wrong += [text for text in filters + on_page if shark.run("-r", path, "-Y", text)[2]]
    tell("lists and texts by tshark; %d colour rules, the columns of three profiles, %d filters of the page" % (rules, len(on_page)), wrong)
    wrong = []
    stdout = shark.run("-r", path, "-2", "-Y", "ahhp.text && (ncp1822.again || ncp1822.again_in)", "-T", "fields", "-e", "frame.number", "-e", "ahhp.text.ascii")[0]
    if [line.split("\t")[1] for line in stdout.splitlines()] != ["ab", "ab"]:
        wrong.append(stdout)
    tell("the text that was lost and sent again, by filters alone", wrong)


def main():
    global NCP, shark
    words = argparse.ArgumentParser(description=__doc__)
    words.add_argument("program", help="the path of ncp")
    words.add_argument("--long", action="store_true")
    chosen = words.parse_args()
    NCP, shark = chosen.program, Shark()
    scripts = []
    for name in sorted(os.listdir(EXAMPLES)):
        if name.endswith(".script") and name != "host.script":
            scripts.append((name, read(os.path.join(EXAMPLES, name))))
    recorded = recordings(scripts)
    test_rules()
    test_resets()
    test_ends()
    test_examples(recorded)
    test_labels()
    test_malformed()
    test_words_of_tshark(recorded)
    test_round_trips(recorded)
    test_datagrams(recorded)
    test_torn()
    test_frames()
    test_failing()
    test_garbage(2000)
    test_joined(20 if chosen.long else 4)
    test_left(20 if chosen.long else 6)
    test_recordings(300 if chosen.long else 25)
    # Some of these showed wrong findings once.
    test_hostile(range(20) if chosen.long else (0, 4, 7))
    test_middle(100 if chosen.long else 6)
    test_generated(20000 if chosen.long else 7000)
    test_truncated(recorded, chosen.long)
    print("%d of what was compared differ" % len(failures) if failures else "all is the same")
    return 1 if failures else 0


if __name__ == "__main__":
    sys.exit(main())
