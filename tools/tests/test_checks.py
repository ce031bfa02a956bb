"""Calls each function of ncp.h over include/checks.c and a library that records how it is called.

A function is called with each set of its pointers null, with lengths that are zero or not, and with a host or subnet that is made or empty.
ncp.h says which of these calls are refused, and with which error: the order of errors is at its head, and the comment of a function names
the pointers that may be null or empty. A refused call must not reach the library, and changes nothing. Any other call must reach the
library's function once, with all its arguments, and returns its answer.

So a function without a row is found, and a row that leaves out a pointer, has another error, order or call, or swaps two arguments. The
last test plants such faults.

    python3 tools/tests/test_checks.py --faults [COUNT [SEED]]      plants COUNT faults of this seed, or without a number each
"""
import itertools
import random
import re
import shutil
import subprocess
import sys
import tempfile
import unittest
from pathlib import Path
from typing import NamedTuple

TOP = Path(__file__).resolve().parent.parent.parent
INCLUDE, MAKER = TOP / "include", TOP / "onefile/maker"
CHECKS, HEADER = INCLUDE / "checks.c", INCLUDE / "ncp.h"
OF_ONE_FILE = re.compile(r"^#ifdef NCP_IN\n(.*?)^#endif\n", re.M | re.S)
FUNCTION = re.compile(r"/\*((?:[^*]|\*(?!/))*)\*/\n([\w ]+[ *])(ncp_\w+)\(([^;]*)\);")
PROTOTYPE = re.compile(r"^(\w+) (ncp_embed_\w+)\((.*)\);$", re.M)
# The names of a parameter that is a host or a subnet, and the error without one.
HANDLES = {"host": "NCP_NO_HOST", "subnet": "NCP_NO_SUBNET"}
# The structs that checks.c lays out for the library, and their fields.
LAID_OUT = {"which": ("peer", "local", "remote"), "lane": ("from", "to", "link")}
# An argument that is not the caller's, and the sockets of the connection that the library finds.
ANY, FOUND = "ANY", {"local": "FOUND_LOCAL", "remote": "FOUND_REMOTE"}
# Functions that do not call the library.
OWN = ("ncp_is_made",)
SEED, COUNT = 1, 10

BASE = r"""
#include <signal.h>
#include <stdio.h>
#include <stdlib.h>
#include <string.h>

enum { MARK = 0xa5, THINGS = 8, SIZE = 256, OTHER = 1999, ANY = 77777777, FOUND_LOCAL = 0x11223344, FOUND_REMOTE = 0x55667788 };

/* The memory that pointers lead to, and a host and a subnet. */
static uint8_t *things[THINGS];
static struct ncp_host host;
static struct ncp_subnet subnet;
/* The case, and the last call of the library in it. */
static const char *now = "";
static const char *called;
static unsigned calls, count, wrong;
static uint64_t seen[16];
static uint32_t answer;

static void is(bool it, const char *what)
{
    if (it) return;
    printf("%s: %s\n", now, what);
    wrong++;
}

static void ended(int number)
{
    printf("%s: ended by signal %d\n", now, number);
    fflush(stdout);
    _Exit(1);
}

static uint64_t at(const void *pointer)
{
    return (uint64_t)(size_t)pointer;
}

static void note(const char *name)
{
    called = name, calls++, count = 0;
}

static void see(uint64_t value)
{
    seen[count++] = value;
}

static void begin(const char *name, bool is_made, uint32_t code)
{
    now = name, answer = code, calls = 0, called = "";
    for (int k = 0; k < THINGS; k++) memset(things[k], MARK, SIZE);
    host.at = is_made ? things[0] : NULL;
    subnet.at = is_made ? things[0] : NULL;
}

/* That no memory changed but that of one number, nor the host or subnet. */
static void is_unchanged(int but, const void *handle)
{
    for (int k = 0; k < THINGS; k++)
        for (int place = 0; k != but && place < SIZE; place++)
            if (things[k][place] != MARK) is(false, "it changed the memory of a pointer"), place = SIZE;
    is(host.at == handle && subnet.at == handle, "it changed the host or the subnet");
}

static void is_refused(uint32_t code, uint32_t wanted)
{
    const void *handle = host.at;
    is(code == wanted, "another error than ncp.h says");
    is(calls == 0, "the library was called");
    is_unchanged(-1, handle);
}

static void has_passed(uint32_t code, const char *name, unsigned many, const uint64_t *wanted)
{
    is(code == answer, "another answer than the library's");
    is(calls == 1 && strcmp(called, name) == 0, "another call of the library, or none");
    is(count == many, "another number of arguments");
    for (unsigned k = 0; k < many && k < count; k++) is(wanted[k] == ANY ? seen[k] != 0 : seen[k] == wanted[k], "another argument");
}

static void has_found(int local, int remote)
{
    const uint32_t sockets[] = {FOUND_LOCAL, FOUND_REMOTE};
    is(memcmp(things[local], &sockets[0], 4) == 0 && memcmp(things[remote], &sockets[1], 4) == 0, "other sockets than the library found");
    memset(things[local], MARK, 4), memset(things[remote], MARK, 4);
}
"""
MAIN = """
int main(void)
{{
    for (int k = 0; k < THINGS; k++) if ((things[k] = (uint8_t *)malloc(SIZE)) == NULL) return 2;
    signal(SIGSEGV, ended);
{}    for (int k = 0; k < THINGS; k++) free(things[k]);
    return wrong != 0;
}}
"""


class Parameter(NamedTuple):
    kind: str
    name: str

    def is_pointer(self):
        return self.kind.endswith("*")


class Function(NamedTuple):
    says: str
    result: str
    name: str
    params: list

    def pointers(self):
        return [it for it in self.params if it.is_pointer()]

    def handle(self):
        """Its parameter that is a host or a subnet, or None."""
        return next((it.name for it in self.pointers() if it.name in HANDLES), None)

    def takes_empty(self):
        return re.search(rf"`{self.handle()}` (?:may|has to) be empty", self.says) is not None

    def takes_null(self, name):
        """Whether a pointer may be null, with the length 0."""
        return f"with `len` 0; then alone `{name}` may be null" in self.says

    def length_of(self, name):
        """The parameter with the length of this one's memory."""
        after = self.params[[it.name for it in self.params].index(name) + 1:]
        return after[0].name if after and after[0].kind == "size_t" else None


def parameters(text):
    return [] if text == "void" else [Parameter(*re.fullmatch(r"(.*?)\s*(\w+)", it.strip()).groups()) for it in text.split(",")]


def functions(header):
    return [Function(re.sub(r"\s+(?:\* )?", " ", says), result.strip(), name, parameters(params)) for says, result, name, params in FUNCTION.findall(header)]


class Case(NamedTuple):
    """A call of a function: which pointers are null, whether its host or subnet is made, its lengths and flags, and the library's answer."""
    of: Function
    null: tuple
    is_made: bool
    length: int
    flag: int

    def error(self):
        """The error that ncp.h names for this call, or None."""
        handle = self.of.handle()
        if handle and (handle in self.null or not self.is_made and not self.of.takes_empty()):
            return HANDLES[handle]
        if any(it != handle and not (self.of.takes_null(it) and not self.length) for it in self.null):
            return "NCP_NO_POINTER"
        return "NCP_BUSY" if self.is_made and f"`{handle}` has to be empty" in self.of.says else None

    def value(self, place):
        """The argument for a parameter: another number for each, as wide as its type, or other memory."""
        kind, name = self.of.params[place]
        if name in self.null:
            return "NULL"
        if name in HANDLES:
            return f"&{name}"
        if kind.endswith("*"):
            return f"({kind})(void *)things[{place}]"
        wide = {"bool": self.flag, "uint8_t": 11 + place, "uint16_t": 0x1100 + place, "uint32_t": 0x11000000 + place, "size_t": 0x1000 + place}
        return str(self.length and wide[kind]) if place and self.of.params[place - 1].is_pointer() and kind == "size_t" else str(wide[kind])

    def values(self):
        return [self.value(place) for place in range(len(self.of.params))]

    def __str__(self):
        words = [f"{' and '.join(self.null) or 'none'} null", *([f"{self.of.handle()} {'made' if self.is_made else 'empty'}"] if self.of.handle() else []), f"length {self.length}"]
        return f"{self.of.name}: {', '.join(words)}"

    def given(self, params, is_found):
        """The arguments that the library must get."""
        mine = {it.name: value for it, value in zip(self.of.params, self.values())}
        found, last = [], None
        for kind, name in params:
            if name in LAID_OUT:
                found += ["0" if is_found and it in FOUND else mine[it] for it in LAID_OUT[name]]
            elif name in ("handle", "net"):
                found.append(f"at({mine[self.of.handle()]})")
            elif name.endswith("_len"):
                found.append(mine[self.of.length_of(last)])
            else:
                found.append((ANY if name in self.null else f"at({mine[name]})") if kind.endswith("*") else mine[name])
            last = name
        return found


def cases(function):
    """Each call of a function: with each set of null pointers, a host or subnet made or empty, and its lengths and flag."""
    pointers = [it.name for it in function.pointers()]
    sets = [them for size in range(len(pointers) + 1) for them in itertools.combinations(pointers, size)]
    made = (True, False) if function.handle() else (True,)
    lengths = (0, 1) if any(function.length_of(it) for it in pointers) else (1,)
    flags = (0, 1) if any(it.kind == "bool" for it in function.params) else (0,)
    return [Case(function, *them) for them in itertools.product(sets, made, lengths, flags)]


def call_of(case):
    """The call in C, with its answer as its value."""
    call = f"{case.of.name}({', '.join(case.values())})"
    return f"({call}, 0)" if case.of.result == "void" else call


def lines_of(case, library):
    """The C of one case."""
    function, error = case.of, case.error()
    call = call_of(case)

    def begins(answer):
        return f'    begin("{case}", {int(case.is_made)}, {answer}); '

    if error:
        return [f"{begins(0)}is_refused({call}, {error if function.result == 'uint32_t' else 0});"]
    if function.name in OWN:
        return [f"{begins(1)}is({call}, \"false\");"]
    params = library.get(function.name)
    if params is None:
        return [f"    is(false, \"{function.name}: no function of the library\");"]
    is_found = any(it.kind == "struct which *" for it in params)
    places = {it.name: place for place, it in enumerate(function.params)}
    given = case.given(params, is_found)
    lines = []
    for answer in {"uint32_t": ("NCP_DONE", "OTHER"), "bool": ("true", "false"), "void": ("0",)}[function.result]:
        line = f'{begins(answer)}has_passed({call}, "{function.name}", {len(given)}, (const uint64_t[]){{{", ".join(given)}}});'
        if is_found and answer == "NCP_DONE":
            line += f" has_found({places['local']}, {places['remote']});"
        lines.append(f"{line} is_unchanged({places.get('memory', -1)}, {'things[0]' if case.is_made else 'NULL'});")
    return lines


def stub(result, name, head, params):
    """A function of the library that records its arguments. If it finds a connection, it sets the sockets."""
    lines = [f'note("{name}");']
    for kind, it in params:
        if it in LAID_OUT:
            lines += [f"see({it}->{field});" for field in LAID_OUT[it]]
        else:
            lines.append(f"see(at({it}));" if kind.endswith("*") else f"see({it});")
    if any(it.kind == "struct which *" for it in params):
        lines += [f"which->{field} = {value};" for field, value in FOUND.items()]
    lines += {"uint32_t": ["return answer;"], "bool": ["return answer != 0;"], "void": []}[result]
    return f"{head}\n{{\n" + "".join(f"    {it}\n" for it in lines) + "}\n"


def program(header, checks):
    """The program that makes all calls of the header's functions, for these checks."""
    library, stubs = {}, ""
    for result, name, params in PROTOTYPE.findall(checks):
        of_header = name.replace("ncp_embed_", "ncp_")
        library[of_header] = parameters(params)
        stubs += stub(result, of_header, f"{result} {name}({params})", library[of_header])
    lines = []
    for function in functions(OF_ONE_FILE.sub("", header)):
        if function.pointers():
            lines += [line for case in cases(function) for line in lines_of(case, library)]
        else:
            lines.append(f"    (void){function.name}({', '.join('0' for _ in function.params)});")
    same = '    begin("ncp_copy: into itself", true, OTHER); is_refused(ncp_copy(&host, &host), NCP_DONE);\n'
    return '#include "checks.c"\n' + BASE + stubs + MAIN.format(same + "\n".join(lines) + "\n")


def program_of_one_file(header):
    """The program for the functions of ncp.c alone, in onefile/maker/lent.h."""
    params = [Parameter("struct ncp_host *", "host"), Parameter("uint8_t", "me"), Parameter("const uint8_t *", "peers"), Parameter("size_t", "count")]
    head = "static uint32_t new_with(struct heap *heap, struct ncp_host *host, uint8_t me, const uint8_t *peers, size_t count)"
    # The heap is in the memory that is given, and not compared.
    made = stub("uint32_t", "ncp_new_in", head, params).replace("\n{\n", "\n{\n    (void)heap;\n", 1)
    lines = []
    for function in functions(OF_ONE_FILE.search(header)[1]):
        if function.pointers():
            lines += [line for case in cases(function) for line in lines_of(case, {"ncp_new_in": params})]
    parts = '#define NCP_IN\n#include "ncp.h"\n#include "numbers.h"\n#include "heap.h"\n' + head + ";\n" + '#include "lent.h"\n'
    return parts + BASE + made + MAIN.format("\n".join(lines) + "\n")


def tried(text, checks, folder):
    """The output of compiling and running a program over these checks: empty if all calls went as ncp.h says."""
    room = Path(folder)
    (room / "checks.c").write_text(checks, encoding="utf-8")
    (room / "calls.c").write_text(text, encoding="utf-8")
    words = ["cc", "-std=c99", "-w", f"-I{room}", f"-I{INCLUDE}", f"-I{MAKER}", "-o", room / "calls", room / "calls.c"]
    ran = subprocess.run(words, stdout=subprocess.PIPE, stderr=subprocess.STDOUT, text=True)
    if not ran.returncode:
        try:
            ran = subprocess.run([room / "calls"], stdout=subprocess.PIPE, stderr=subprocess.STDOUT, text=True, timeout=60)
        except subprocess.TimeoutExpired:
            return "the calls do not end"
    return ran.stdout or (f"status {ran.returncode}" if ran.returncode else "")


# ---- faults

ROW = re.compile(r"^    (ON_HOST|ON_SUBNET|INTO_HOST|INTO_SUBNET|ON_NEITHER|FINDS)\((.*)\)$", re.M)
KINDS = {"ON_HOST": ("INTO_HOST", "ON_NEITHER"), "INTO_HOST": ("ON_HOST", "ON_NEITHER"), "ON_SUBNET": ("INTO_SUBNET", "ON_NEITHER"),
         "INTO_SUBNET": ("ON_SUBNET", "ON_NEITHER")}
# Texts outside the rows, or of single ones, and their faults.
TURNED = {"NCP_NO_HOST, pointers": ("NCP_NO_SUBNET, pointers", "NCP_NO_POINTER, pointers"), "NCP_NO_SUBNET, pointers": ("NCP_NO_HOST, pointers",),
          "return NCP_NO_POINTER;": ("return NCP_NO_HOST;", "return NCP_NOTHING;"), "!(needed)": ("(needed)",), "!(pointers)": ("(pointers)",),
          "&found, local, remote)": ("&found, remote, local)",), "code != NCP_DONE": ("code == NCP_DONE",), "{peer, 0, 0}": ("{0, peer, 0}",),
          "{peer, local, remote}": ("{peer, remote, local}",), "{from, to, link}": ("{to, from, link}", "{from, link, to}"), "->at != NULL": ("->at == NULL",),
          "ncp_is_made(host)": ("host", "true"), "has_subnet(subnet)": ("subnet", "true"), "host == copy": ("host != copy",),
          "(out || len == 0)": ("out", "(out || len != 0)", "true")}
CHECK_LINES = re.compile(r"( +if \(!\(needed\)\).*\n)( +if \(!\(pointers\)\).*\n)")


class Fault(NamedTuple):
    """Another text between two offsets of checks.c."""
    kind: str
    start: int
    end: int
    text: str

    def planted(self, checks):
        return checks[:self.start] + self.text + checks[self.end:]

    def line(self, checks):
        number = checks.count("\n", 0, self.start)
        return f"line {number + 1}: {self.planted(checks).splitlines()[number].strip()}"


def split(text, by=","):
    """The parts of a text between these marks outside parentheses."""
    parts, depth, at = [], 0, 0
    for place, letter in enumerate(text):
        depth += (letter in "([{") - (letter in ")]}")
        if depth == 0 and text.startswith(by, place):
            parts.append(text[at:place].strip())
            at = place + len(by)
    return [*parts, text[at:].strip()]


def left_out(pointers, start):
    """The row without one of its pointers, for each."""
    terms = split(pointers, "&&")
    for k in range(len(terms)):
        rest = " && ".join(terms[:k] + terms[k + 1:]) or "NO_OTHERS"
        if rest != pointers:
            yield Fault("a pointer left out", start, start + len(pointers), rest)


def swapped(call, start):
    """The call with two neighbouring arguments swapped, for each two."""
    first = call.index("(", call.index("ncp_embed_")) + 1
    parts = split(call[first:-1])
    for k in range(len(parts) - 1):
        other = [*parts[:k], parts[k + 1], parts[k], *parts[k + 2:]]
        yield Fault("two arguments swapped", start + first, start + len(call) - 1, ", ".join(other))


def faults(checks):
    """All faults: a pointer left out, another kind, answer or call, two arguments or checks swapped."""
    found, types = [], {name: [it.kind for it in parameters(params)] for _, name, params in PROTOTYPE.findall(checks)}
    for row in ROW.finditer(checks):
        pointers, call = split(row[2])
        name = re.search(r"ncp_embed_\w+", row[0])
        at = row.start() + name.start()
        found += left_out(pointers, row.start(2))
        found += [Fault("another kind", row.start(1), row.end(1), it) for it in KINDS.get(row[1], ())]
        found += swapped(call, row.end(2) - len(call))
        found += [Fault("another call", at, at + len(name[0]), it) for it in types if it != name[0] and types[it] == types[name[0]]]
    for before, others in TURNED.items():
        found += [Fault("another answer", it.start(), it.end(), other) for it in re.finditer(re.escape(before), checks) for other in others]
    return found + [Fault("two checks swapped", it.start(), it.end(), it[2] + it[1]) for it in CHECK_LINES.finditer(checks)]


def is_c(checks, folder):
    """Whether the compiler has no warning."""
    (Path(folder) / "checks.c").write_text(checks, encoding="utf-8")
    words = ["cc", "-std=c99", "-Wall", "-Wextra", "-pedantic", "-Werror", f"-I{INCLUDE}", "-fsyntax-only", Path(folder) / "checks.c"]
    return subprocess.run(words, stdout=subprocess.DEVNULL, stderr=subprocess.DEVNULL).returncode == 0


def planted(checks, folder, count, seed):
    """Faults without a warning of the compiler: all, or `count` from a seed, of each kind in turn."""
    kinds, dice, found = {}, random.Random(seed), 0
    for it in faults(checks):
        kinds.setdefault(it.kind, []).append(it)
    for them in kinds.values():
        dice.shuffle(them)
    for them in itertools.zip_longest(*kinds.values()):
        for it in them:
            if it and found != count and is_c(it.planted(checks), folder):
                found += 1
                yield it


@unittest.skipUnless(shutil.which("cc"), "there is no C compiler")
class Checks(unittest.TestCase):
    def setUp(self):
        room = tempfile.TemporaryDirectory()
        self.addCleanup(room.cleanup)
        self.folder = room.name
        self.header, self.checks = HEADER.read_text(encoding="utf-8"), CHECKS.read_text(encoding="utf-8")

    def test_each_pointer_of_each_function(self):
        self.assertEqual(tried(program(self.header, self.checks), self.checks, self.folder), "")

    def test_each_pointer_of_a_host_in_given_memory(self):
        self.assertEqual(tried(program_of_one_file(self.header), self.checks, self.folder), "")

    def test_each_function_of_the_header_is_called(self):
        declared = set(re.findall(r"\b(ncp_\w+)\(", re.sub(r"/\*.*?\*/", "", self.header, flags=re.S)))
        self.assertEqual(declared, {it.name for it in functions(self.header)})

    def test_a_function_without_a_row(self):
        more = self.header.replace("\n#ifdef __cplusplus\n}", "\n/* One more. */\nuint32_t ncp_more(struct ncp_host *host, uint8_t *out);\n#ifdef __cplusplus\n}")
        self.assertNotEqual(more, self.header)
        self.assertIn("ncp_more", tried(program(more, self.checks), self.checks, self.folder))

    def test_faults_are_found(self):
        text = program(self.header, self.checks)
        for it in planted(self.checks, self.folder, COUNT, SEED):
            with self.subTest(it.line(self.checks)):
                self.assertNotEqual(tried(text, it.planted(self.checks), self.folder), "")


def measure(count, seed):
    """Plants faults, and prints which were found."""
    checks = CHECKS.read_text(encoding="utf-8")
    text, kinds = program(HEADER.read_text(encoding="utf-8"), checks), {}
    with tempfile.TemporaryDirectory() as folder:
        for it in planted(checks, folder, count, seed):
            said = tried(text, it.planted(checks), folder)
            kinds.setdefault(it.kind, []).append(bool(said))
            if count > 0 or not said:
                print(f"{'found' if said else 'NOT FOUND'}: {it.kind}, {it.line(checks)}\n    {said.splitlines()[0] if said else ''}", flush=True)
    for kind, seen in sorted(kinds.items()):
        print(f"{kind}: {sum(seen)} of {len(seen)}")
    print(f"{sum(map(sum, kinds.values()))} of {sum(map(len, kinds.values()))} faults found")


if __name__ == "__main__":
    if sys.argv[1:2] == ["--faults"]:
        words = [int(it) for it in sys.argv[2:4]]
        measure(words[0] if words else -1, words[1] if words[1:] else SEED)
    else:
        unittest.main()
