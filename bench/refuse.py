#!/usr/bin/env python3
"""Refuses each allocation in turn, of each call that allocates and of the program, and reports the state afterwards.

The argument `calls` or `program` runs only one of the two."""
import argparse
import glob
import itertools
import os
import subprocess
import sys
import tempfile

sys.dont_write_bytecode = True
from measuring import HERE, TOP, below, built_ncp, prebuilt, uses_of_crates

# A call, the crate whose tests make it, and these tests. A test checks the state when an allocation fails, and prints it.
CALLS = [
    ("BitStore::with_room", "ncp_test_conn", ["refused::with_room"]),
    ("Subnet::new", "ncp_test_parts", ["refused::subnet_new"]),
    ("Subnet::among", "ncp_test_parts", ["refused::subnet_among"]),
    ("Slots::new", "ncp_test_host", ["refused::slots_new"]),
    ("run_link", "ncp_test_host", ["refused::running_a_link"]),
    ("Table::new", "ncp_test_conn", ["refused::table_new"]),
    ("Table::copy", "ncp_test_conn", ["refused::table_copy"]),
    ("Table::stored", "ncp_test_conn", ["refused::table_stored"]),
    ("order", "ncp_test_files", ["refused::reading_an_order"]),
    ("MemorySink::new", "ncp_test_files", ["refused::memory_sink_new"]),
    ("Host::new", "ncp_test_host", ["refused::host_new"]),
    ("Host::copy", "ncp_test_host", ["refused::host_copy"]),
    ("Host::save", "ncp_test_host", ["refused::host_save"]),
    ("Host::load", "ncp_test_host", ["refused::host_load"]),
    ("ask_send", "ncp_test_host", ["refused::ask_send"]),
    ("ask_receive", "ncp_test_host", ["refused::ask_receive"]),
    ("Message::from_bits", "ncp_test_host", ["alone::refused::message_from_bits"]),
    ("Message::copy", "ncp_test_host", ["alone::refused::message_copy"]),
    ("Alone::new", "ncp_test_host", ["alone::refused::alone_new"]),
    ("Alone::step", "ncp_test_host", ["alone::examples_are_noted"]),
    ("Auditor::new", "ncp_test_files", ["audits::refused::auditor_new"]),
    ("Auditor::with_coverage", "ncp_test_files", ["audits::refused::auditor_with_coverage"]),
    ("Follower::new", "ncp_test_files", ["follows::refused::follower_new"]),
    ("World::new", "ncp_test_world", ["refused::world::world_new"]),
    ("World::step", "ncp_test_world", ["refused::world::world_step"]),
    ("World::go_on", "ncp_test_world", ["refused::world::world_go_on"]),
    ("World::settle", "ncp_test_world", ["refused::world::world_settle"]),
    ("run", "ncp_test_world", ["refused::world::world_run"]),
    ("Many::new", "ncp_test_world", ["refused::many::many_new"]),
    ("Many::step", "ncp_test_world", ["refused::many::many_step"]),
    ("Many::go_on", "ncp_test_world", ["refused::many::many_go_on"]),
    ("Many::settle", "ncp_test_world", ["refused::many::many_settle"]),
    ("Many::run", "ncp_test_world", ["refused::many::many_run"]),
    ("play_host", "ncp_test_play", ["refused::playing_one_host"]),
    ("play_world", "ncp_test_play", ["world::refused::playing_two_hosts", "world::refused::playing_many_hosts"]),
    ("record_world", "ncp_test_play", ["world::refused::recorder::recording"]),
]
TOLD = "refused: "  # before the output of a test
PASSED = "test result: ok"

NO_MEMORY = b"ncp: OutOfMemory"
REFUSED = b"refused OutOfMemory\n"
HEADER = b"NCPJ"  # the header of a file that `record` writes
READ_FAILED, WRITE_FAILED = b"ncp: ReadFailed", b"ncp: WriteFailed"
# An unusable stream of the program, the shell's words for it, and the program's message.
SHUT = [("output closed", 'exec "$0" "$@" >&-', WRITE_FAILED), ("output full", 'exec "$0" "$@" >/dev/full', WRITE_FAILED), ("input closed", 'exec "$0" "$@" <&-', READ_FAILED)]
# What `count` prints if nothing could be read.
NO_COUNTS = b"".join(b"%s=0\n" % it for it in b"short regular going-down nop rfnm dead incomplete other NOP RTS STR CLS ALL GVB RET INR INS ECO ERP ERR RST RRP".split())


class Refuser:
    """Runs programs with the library loaded that refuses them memory."""

    def __init__(self, room):
        self.library = os.path.join(room, "refuse.so")
        self.counted = os.path.join(room, "counted")
        subprocess.run(["cc", "-shared", "-fPIC", "-O1", "-o", self.library, os.path.join(HERE, "refuse.c")], check=True)

    def run(self, words, number, given=os.devnull):
        """Status, output and error of a run whose allocation with this number fails, and how many it made."""
        settings = {"LD_PRELOAD": self.library, "COUNTED": self.counted, "REFUSED": str(number)}
        with open(self.counted, "w") as file:
            file.write("0")
        with open(given, "rb") as file:
            ran = subprocess.run(words, stdin=file, env=settings, capture_output=True)
        with open(self.counted) as file:
            return (ran.returncode, ran.stdout, ran.stderr), int(file.read())

    def runs(self, words, given=os.devnull):
        """A run for each request, which is refused there, up to the first that makes no such request."""
        for number in itertools.count(1):
            ran, many = self.run(words, number, given)
            if many and many < number:
                return
            yield number, ran


# ---- calls


def last_change(crate):
    """When the sources of a crate, or of one below it, last changed."""
    folders = [os.path.join(TOP, "crates", it, part) for it in below([crate], uses_of_crates()) for part in ("src", "specs", "proofs")]
    files = [os.path.join(at, name) for folder in folders for at, _, names in os.walk(folder) for name in names]
    return max(os.stat(it).st_mtime_ns for it in files)


def built_tests(crate, is_built):
    """The tests of a crate as a program. The toolchain proves them first; if they have to be built already, None if they are not."""
    folder = os.path.join(TOP, "crates", crate)
    made = os.path.join(folder, "out", f"{crate}_tests")
    if is_built:
        return made if os.path.isfile(made) and os.stat(made).st_mtime_ns > last_change(crate) else None
    ran = subprocess.run(["rt", "test", "--", "refused"], cwd=folder, text=True, capture_output=True)
    if ran.returncode:
        sys.exit(f"{ran.stdout[-3000:]}{ran.stderr[-3000:]}{crate}: the tests were not built")
    return made


def printed(test, number, ran):
    """What a test printed about a failed allocation, or None if its call did not fail."""
    status, output, error = ran
    lines = [line for line in output.decode().splitlines() if line and line != PASSED]
    if status or error or len(lines) > 1 or not all(line.startswith(TOLD) for line in lines):
        sys.exit(f"{test}, request {number}: status {status}\n{output.decode()}{error.decode()}")
    return lines[0].removeprefix(TOLD) if lines else None


def call_refused(refuser, program, tests):
    """How many requests of the call were refused in turn, and what stood."""
    many, stood = 0, set()
    for test in tests:
        if printed(test, 0, refuser.run([program, test], 0)[0]):
            sys.exit(f"{test}: it was refused memory that nothing refuses")
        for number, ran in refuser.runs([program, test]):
            what = printed(test, number, ran)
            if what:
                many += 1
                stood.add(what)
    if not many:
        sys.exit(f"{tests}: nothing was refused")
    return many, "; ".join(sorted(stood))


def calls(refuser, is_built):
    programs = {crate: built_tests(crate, is_built) for crate in dict.fromkeys(crate for _, crate, _ in CALLS)}
    rows = [it for it in CALLS if programs[it[1]]]
    print("| call | requests refused | what stood |\n|---|---|---|")
    all_refused = 0
    for call, crate, tests in rows:
        many, stood = call_refused(refuser, programs[crate], tests)
        all_refused += many
        print(f"| `{call}` | {many:,} | {stood} |", flush=True)
    for crate in (it for it, made in programs.items() if not made):
        print(f"left out: the calls of {crate}, whose tests are not built of these sources")
    print(f"{len(rows)} of {len(CALLS)} calls: {all_refused:,} requests refused")


# ---- the program


def is_front(word, told, lines):
    """Whether this is the output of the first things that were done: of lines, each with its details."""
    rest = lines[len(told):]
    whole = word in ("record", "convert") or ((not told or told.endswith(b"\n")) and not rest.startswith(b" "))
    return lines.startswith(told) and whole


def is_noted(word, told, lines):
    """Whether the first line that differs is that of a call refused for an allocation failure. (The output of `record` has no
    calls.)"""
    same = len(os.path.commonprefix([told, lines]))
    return same >= len(HEADER) if word == "record" else told[same:].startswith(REFUSED) and lines[same:].startswith(b"ok\n")


def is_named(error, name):
    """Whether the error output begins with the line of a fault; its explanation is indented."""
    line, *more = error.splitlines() or [b""]
    return line == name and all(it.startswith(b"  ") for it in more)


def stands(word, wanted, got):
    """The outcome of a failed allocation, if it is an allowed one."""
    status, told, error = got
    if got == wanted:
        return "nothing"
    if got[:2] == wanted[:2] and error.splitlines()[:1] == wanted[2].splitlines()[:1]:
        return "less explained"
    if status == 2 and is_named(error, NO_MEMORY) and is_front(word, told, wanted[1]):
        return "fault"
    if status == 1 and error == b"" and is_noted(word, told, wanted[1]):
        return "noted"
    if status == 2 and told == b"" and error:
        return "command line not read"
    return None


def run_refused(refuser, words, example):
    """The outcomes of a run, with each allocation refused in turn, and their counts."""
    wanted, _ = refuser.run(words, 0, example)
    found = {}
    for number, got in refuser.runs(words, example):
        what = stands(words[1], wanted, got)
        if what is None:
            sys.exit(f"{words[1:]} {example}, request {number}: {got}")
        found[what] = found.get(what, 0) + 1
    return found


def is_told(words, example):
    """Whether the program reports each unusable stream, writes nothing, but `count` that it read nothing, and exits with status 2."""
    for name, command, error in SHUT:
        with open(example, "rb") as file:
            ran = subprocess.run(["sh", "-c", command, *words], stdin=file, capture_output=True)
        written = NO_COUNTS if words[1] == "count" and error == READ_FAILED else b""
        if (ran.returncode, ran.stdout) != (2, written) or not is_named(ran.stderr, error):
            sys.exit(f"{words[1:]} {example}, {name}: {ran}")
    return len(SHUT)


def works():
    """Each subcommand with each example that it reads."""
    for file in sorted(glob.glob(os.path.join(TOP, "examples", "*.ncp"))):
        yield from ((["show"], file), (["check"], file), (["count"], file), (["convert", "--at", "1"], file))
    for word, file in (("audit", "broken.ncp"), ("follow", "texts.ncp")):
        yield [word], os.path.join(TOP, "examples", file)  # one with a finding, so that something is written
    for script in sorted(glob.glob(os.path.join(TOP, "examples", "*.script"))):
        with open(script) as lines:
            first = next(line for line in lines if line.strip() and not line.startswith("#")).split()[0]
        yield from ((["host"], script),) if first == "host" else ((["world"], script), (["record"], script))


def program(refuser, is_built):
    file = prebuilt("ncp") or (None if is_built else built_ncp())
    if file is None:
        print("left out: the program, which is not built of these sources")
        return
    all_found = {}
    for words, example in works():
        found = all_found.setdefault(words[0], {"runs": 0, "streams": 0})
        found["runs"] += 1
        for what, count in run_refused(refuser, [file, *words], example).items():
            found[what] = found.get(what, 0) + count
        found["streams"] += is_told([file, *words], example)
    kinds = ["command line not read", "fault", "noted", "less explained", "nothing"]
    print(f"\n| subcommand | runs | requests refused | {' | '.join(kinds)} | streams of no use told |\n|{'---|' * 9}")
    for word, found in all_found.items():
        counts = [found.get(kind, 0) for kind in kinds]
        row = [found["runs"], sum(counts), *counts, found["streams"]]
        print(f"| `{word}` | {' | '.join(f'{count:,}' for count in row)} |")
    runs, refused = (sum(counts) for counts in zip(*((it["runs"], sum(it.get(kind, 0) for kind in kinds)) for it in all_found.values())))
    print(f"{runs} runs of the program: {refused:,} requests refused")


def main():
    halves = {"calls": calls, "program": program}
    parser = argparse.ArgumentParser(description=__doc__)
    parser.add_argument("half", nargs="?", choices=halves)
    parser.add_argument("--built", action="store_true", help="takes what is built of these sources, proves nothing, and says what it leaves out")
    words = parser.parse_args()
    with tempfile.TemporaryDirectory(prefix="ncp-refuse-") as room:
        refuser = Refuser(room)
        for part in [words.half] if words.half else halves:
            halves[part](refuser, words.built)


if __name__ == "__main__":
    main()
