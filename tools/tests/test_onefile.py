"""onefile/maker translates a WebAssembly module to C with the same semantics, and refuses what it does not know. The modules are assembled
here, instruction by instruction, and their results were worked out by hand."""
import contextlib
import io
import os
import re
import shutil
import struct
import subprocess
import sys
import tempfile
import unittest
from unittest import mock

TOP = os.path.dirname(os.path.dirname(os.path.dirname(os.path.abspath(__file__))))
sys.path[:0] = [os.path.join(TOP, "onefile"), os.path.join(TOP, "onefile", "maker"), os.path.join(TOP, "tools")]
import compilers
import file
import proved_module
import shim
import wasm
from translation import Translation

I32, I64, F64 = wasm.I32, wasm.I64, wasm.F64
CODES = {name: (code, after) for code, (name, after) in wasm.CODES.items()}
FIRST = 65536


def signed(value):
    found = bytearray()
    while True:
        part, value = value & 0x7F, value >> 7
        if (value, part & 0x40) in ((0, 0), (-1, 0x40)):
            return bytes([*found, part])
        found.append(part | 0x80)


def unsigned(value):
    found = bytearray()
    while value > 0x7F:
        found.append(value & 0x7F | 0x80)
        value >>= 7
    return bytes([*found, value])


def vector(parts):
    parts = list(parts)
    return unsigned(len(parts)) + b"".join(parts)


def named(text):
    return unsigned(len(text)) + text.encode()


def section(number, data):
    return bytes([number]) + unsigned(len(data)) + data


def instruction(text):
    """`i64.const 5` as bytes; `memory.copy` and `memory.fill` have theirs."""
    name, *words = text.split()
    long = {"memory.copy": b"\xfc\x0a\0\0", "memory.fill": b"\xfc\x0b\0"}
    if name in long:
        return long[name]
    code, after = CODES[name]
    if after == wasm.BLOCK:
        return bytes([code, {"": wasm.EMPTY, "i32": I32, "i64": I64, "f64": F64}["".join(words)]])
    if after == wasm.FLOAT:
        return bytes([code]) + struct.pack("<d", float(words[0]))
    values = [int(it, 0) for it in words]
    if after == wasm.LABELS:
        return bytes([code]) + vector(map(unsigned, values[:-1])) + unsigned(values[-1])
    if after == wasm.PLACE:
        return bytes([code, 0]) + unsigned(values[0] if values else 0)
    if after == wasm.NUMBER:
        bits = 32 if name.startswith("i32") else 64
        return bytes([code]) + signed((values[0] + (1 << (bits - 1))) % (1 << bits) - (1 << (bits - 1)))
    return bytes([code]) + b"".join(map(unsigned, values))


def function(params, result, text, kinds=()):
    """A function of a module: its type, and its body of instructions with semicolons between them."""
    code = b"".join(instruction(it) for it in [*filter(None, map(str.strip, text.split(";"))), "end"])
    body = vector(unsigned(1) + bytes([it]) for it in kinds) + code
    return bytes([wasm.FUNCTION]) + vector(bytes([it]) for it in params) + vector(bytes([it]) for it in result), unsigned(len(body)) + body


def module(functions, memory=4, data=b"", segment=".rodata", end=0, relocated=(), more=b""):
    types, bodies = zip(*functions)
    exports = [named(f"f{at}") + bytes([0]) + unsigned(at) for at in range(len(bodies))] + [named("__data_end") + b"\x03\x01"]
    globals_ = [bytes([I64, 1, 0x42]) + signed(FIRST) + b"\x0b", bytes([I64, 0, 0x42]) + signed(end or FIRST + len(data)) + b"\x0b"]
    segments = [b"\0\x42" + signed(FIRST) + b"\x0b" + unsigned(len(data)) + data] if data else []
    names = named("name") + section(wasm.SEGMENT_NAMES, vector([b"\0" + named(segment)] if data else []))
    relocs = named("reloc.DATA") + unsigned(6) + vector(b"\x10" + unsigned(it) + b"\0\0" for it in relocated)
    return wasm.MAGIC + b"".join([section(1, vector(types)), section(3, vector(unsigned(at) for at in range(len(types)))), section(5, bytes([1, memory, 2])),
                                  section(6, vector(globals_)), section(7, vector(exports)), section(10, vector(bodies)), section(11, vector(segments)),
                                  section(0, names), section(0, relocs), more])


MAIN = """#include <stdio.h>
static u8 *fresh(void)
{
    static u8 bytes[64];
    for (int k = 0; k < 64; k++) bytes[k] = (u8)k;
    return bytes;
}
int main(void)
{
    u64 m;
    %s
%s    (void)m;
    return 0;
}
"""


def text_of(data, is_program=False):
    return Translation(wasm.Module(data), "", is_program).text()


# The words for floating point by x87, and whether the C compiler knows them.
X87 = ("-mfpmath=387",)
HAS_X87 = shutil.which("cc") and subprocess.run(["cc", *X87, "-E", "-xc", os.devnull], stdout=subprocess.DEVNULL, stderr=subprocess.DEVNULL).returncode == 0


def computed(functions, calls, is_program=False, words=(), **how):
    """What calls of the functions return, as C. `m` is each time an address of 64 bytes that are their own numbers."""
    text = "".join(file.part(it) for it in ("numbers.h", "floats.h")) + text_of(module(functions, **how), is_program)
    lines = "".join(f'    m = ADDRESS(fresh());\n    printf("%llx\\n", (unsigned long long){it});\n' for it in calls)
    text += MAIN % ("put_addresses();" if is_program else "", lines)
    with tempfile.TemporaryDirectory() as folder:
        with open(f"{folder}/made.c", "w", encoding="utf-8") as made:
            made.write(text)
        subprocess.run(["cc", "-std=c99", "-Wall", "-Wextra", "-pedantic", "-Werror", "-fsanitize=undefined", "-fsanitize-undefined-trap-on-error", *words, "-o", f"{folder}/made", f"{folder}/made.c"], check=True)
        return [int(it, 16) for it in subprocess.run([f"{folder}/made"], stdout=subprocess.PIPE, text=True, check=True).stdout.split()]


# Operations on numbers: two of them, or one, and the result.
NUMBERS = (
    ("i32.add", 0xffffffff, 2, 1), ("i64.add", 0xffffffffffffffff, 2, 1), ("i32.add", 2, 0xffffffff, 1), ("i64.add", 2, 0xfffffffffffffffe, 0), ("i32.sub", 1, 2, 0xffffffff), ("i64.sub", 1, 2, 0xffffffffffffffff),
    ("i32.mul", 0x10001, 0x10001, 0x20001), ("i64.mul", 0x100000001, 0x100000001, 0x200000001),
    ("i32.div_s", 0xfffffff9, 2, 0xfffffffd), ("i32.div_u", 0xfffffff9, 2, 0x7ffffffc), ("i64.div_s", 0xfffffffffffffff9, 2, 0xfffffffffffffffd),
    ("i64.div_u", 0xfffffffffffffff9, 2, 0x7ffffffffffffffc), ("i32.rem_s", 0xfffffff9, 4, 0xfffffffd), ("i32.rem_u", 0xfffffff9, 4, 1),
    ("i64.rem_s", 0xfffffffffffffff9, 4, 0xfffffffffffffffd), ("i64.rem_u", 0xfffffffffffffff9, 4, 1),
    ("i32.and", 12, 10, 8), ("i32.or", 12, 10, 14), ("i32.xor", 12, 10, 6), ("i64.and", 12 << 40, 10 << 40, 8 << 40), ("i64.or", 12, 10, 14), ("i64.xor", 12, 10, 6),
    ("i32.shl", 1, 31, 0x80000000), ("i32.shl", 1, 33, 2), ("i64.shl", 1, 63, 1 << 63), ("i64.shl", 1, 33, 1 << 33), ("i64.shl", 1, 65, 2),
    ("i32.shr_u", 0x80000000, 31, 1), ("i32.shr_s", 0x80000000, 31, 0xffffffff), ("i64.shr_u", 1 << 63, 63, 1), ("i64.shr_s", 1 << 63, 63, 0xffffffffffffffff),
    ("i32.rotl", 0x80000001, 1, 3), ("i32.rotr", 3, 1, 0x80000001), ("i64.rotl", (1 << 63) + 1, 1, 3), ("i64.rotr", 3, 1, (1 << 63) + 1), ("i32.rotl", 5, 32, 5), ("i64.rotr", 5, 0, 5),
    ("i32.lt_s", 0xffffffff, 1, 1), ("i32.lt_u", 0xffffffff, 1, 0), ("i64.lt_s", 0xffffffffffffffff, 1, 1), ("i64.lt_u", 0xffffffffffffffff, 1, 0),
    ("i32.gt_s", 0xffffffff, 1, 0), ("i32.gt_u", 0xffffffff, 1, 1), ("i64.gt_s", 0xffffffffffffffff, 1, 0), ("i64.gt_u", 0xffffffffffffffff, 1, 1),
    ("i32.le_s", 0xffffffff, 1, 1), ("i32.le_u", 1, 1, 1), ("i64.le_s", 2, 1, 0), ("i64.le_u", 0xffffffffffffffff, 1, 0),
    ("i32.ge_s", 0xffffffff, 1, 0), ("i32.ge_u", 1, 2, 0), ("i64.ge_s", 1, 1, 1), ("i64.ge_u", 0xffffffffffffffff, 1, 1),
    ("i32.eq", 5, 5, 1), ("i32.ne", 5, 5, 0), ("i64.eq", 5, 1 << 32 | 5, 0), ("i64.ne", 5, 1 << 32 | 5, 1),
    ("i32.eqz", 0, 1), ("i32.eqz", 2, 0), ("i64.eqz", 1 << 32, 0), ("i64.eqz", 0, 1),
    ("i32.clz", 0, 32), ("i32.clz", 1, 31), ("i64.clz", 0, 64), ("i64.clz", 1 << 40, 23), ("i32.ctz", 0, 32), ("i32.ctz", 8, 3), ("i64.ctz", 0, 64), ("i64.ctz", 1 << 40, 40),
    ("i32.popcnt", 0xf0f1, 9), ("i64.popcnt", 0xf0f1 << 32 | 1, 10), ("i32.wrap_i64", 5 << 32 | 7, 7), ("i64.extend_i32_s", 0x80000000, 0xffffffff80000000),
    ("i64.extend_i32_u", 0x80000000, 0x80000000), ("i32.extend8_s", 0x1ff, 0xffffffff), ("i32.extend16_s", 0x18000, 0xffff8000), ("i64.extend8_s", 0x180, 0xffffffffffffff80),
    ("i64.extend16_s", 0x17fff, 0x7fff), ("i64.extend16_s", 0x18000, 0xffffffffffff8000), ("i64.extend32_s", 0x180000000, 0xffffffff80000000),
)
# Operations on floating-point numbers, and the result, a number or whether it is true.
FLOATS = (
    ("add", 0.1, 0.2, 0.30000000000000004), ("sub", 0.3, 0.1, 0.19999999999999998), ("mul", 0.1, 3.0, 0.30000000000000004), ("div", 1.0, 3.0, 0.3333333333333333), ("add", -0.0, 0.0, 0.0),
    ("div", 2.0, -0.5, -4.0), ("mul", 4294967296.0, 3.0, 12884901888.0), ("eq", 0.0, -0.0, 1), ("eq", 0.1, 0.2, 0), ("ne", 0.1, 0.2, 1), ("ne", 0.5, 0.5, 0), ("lt", -1.0, 0.5, 1),
    ("lt", 0.5, 0.5, 0), ("gt", -1.0, 0.5, 0), ("gt", 0.75, 0.5, 1), ("le", 0.5, 0.5, 1), ("le", 0.7, 0.5, 0), ("ge", 0.5, 0.5, 1), ("ge", -2.0, -1.0, 0),
)
# Bodies that are given the address of bytes 0, 1, 2 .. 63, and a number; what a call with this number returns.
BODIES = (
    ("loads, the least significant byte first", "local.get 0; i64.load 1", 0, 0x0807060504030201),
    ("of 32 bits", "local.get 0; i32.load 4; i64.extend_i32_u", 0, 0x07060504),
    ("of 16 bits, extended", "local.get 0; local.get 0; i64.const 0x8180; i64.store16; i64.load16_s", 0, 0xffffffffffff8180),
    ("of 8 bits, extended", "local.get 0; i32.const 0x80; i32.store8; local.get 0; i32.load8_s; i64.extend_i32_u", 0, 0xffffff80),
    ("of 32 bits, with a sign", "local.get 0; i64.const 0x80000000; i64.store32; local.get 0; i64.load32_s", 0, 0xffffffff80000000),
    ("what is stored", "local.get 0; i64.const 0x1122334455667788; i64.store; local.get 0; i64.load8_u 7", 0, 0x11),
    ("a store of 16 bits leaves the others", "local.get 0; i32.const 0xaabbcc; i32.store16; local.get 0; i64.load", 0, 0x070605040302bbcc),
    ("a number that was read before a store", "local.get 0; i64.load; local.get 0; i64.const 5; i64.store", 0, 0x0706050403020100),
    ("a local that was read before it changes", "local.get 1; i64.const 9; local.set 1", 4, 4),
    ("a local after it changes", "local.get 1; drop; i64.const 9; local.set 1; local.get 1", 4, 9),
    ("a tee", "local.get 1; i64.const 1; i64.add; local.tee 1; local.get 1; i64.mul", 4, 25),
    ("an if", "local.get 1; i64.eqz; if i64; i64.const 3; else; i64.const 4; end", 0, 3),
    ("its other side", "local.get 1; i64.eqz; if i64; i64.const 3; else; i64.const 4; end", 1, 4),
    ("a select", "i64.const 3; i64.const 4; local.get 1; i32.wrap_i64; select", 1, 3),
    ("its other side", "i64.const 3; i64.const 4; local.get 1; i32.wrap_i64; select", 0, 4),
    ("a loop that sums up", "i64.const 0; local.set 2; loop; local.get 2; local.get 1; i64.add; local.set 2; local.get 1; i64.const 1; i64.sub; local.tee 1; i64.eqz; i32.eqz; br_if 0; end; local.get 2", 10, 55),
    ("a way out of two blocks", "block i64; block; i64.const 7; local.get 1; i64.eqz; br_if 1; drop; end; i64.const 8; end", 0, 7),
    ("no way out", "block i64; block; i64.const 7; local.get 1; i64.eqz; br_if 1; drop; end; i64.const 8; end", 1, 8),
    ("a table of ways", "block; block; block; local.get 1; i32.wrap_i64; br_table 0 1 2; end; i64.const 10; return; end; i64.const 11; return; end; i64.const 12", 1, 11),
    ("its last way", "block; block; block; local.get 1; i32.wrap_i64; br_table 0 1 2; end; i64.const 10; return; end; i64.const 11; return; end; i64.const 12", 77, 12),
    ("after a return", "local.get 1; return; i64.const 4; i64.const 5; i64.add; block; nop; end", 6, 6),
    ("an end that only one side reaches", "local.get 1; i64.eqz; if; i64.const 1; return; else; i64.const 2; local.set 1; end; local.get 1", 3, 2),
    ("an end that only the first side reaches", "local.get 1; i64.eqz; if; i64.const 2; local.set 1; else; i64.const 1; return; end; local.get 1", 0, 2),
    ("a sum before an if that changes what it reads", "local.get 1; i64.const 1; i64.add; local.get 1; i64.eqz; if; i64.const 9; local.set 1; end", 4, 5),
    ("the same if it does", "local.get 1; i64.const 1; i64.add; local.get 1; i64.eqz; if; i64.const 9; local.set 1; end", 0, 1),
    ("a local before an if that changes it", "local.get 1; local.get 1; i64.eqz; if; i64.const 9; local.set 1; end", 4, 4),
    ("a sum with memory that changes", "local.get 0; i64.load; i64.const 1; i64.add; local.get 0; i64.const 5; i64.store", 0, 0x0706050403020101),
    ("a sum with memory on its right", "i64.const 1; local.get 0; i64.load; i64.add; local.get 0; i64.const 5; i64.store", 0, 0x0706050403020101),
    ("a count of what changes", "local.get 1; i64.popcnt; i64.const 0; local.set 1", 7, 3),
    ("a question about what changes", "local.get 1; i64.eqz; i64.const 0; local.set 1; i64.extend_i32_u", 7, 0),
    ("a select of what changes", "local.get 1; i64.const 4; i32.const 1; select; i64.const 9; local.set 1", 3, 3),
    ("a select of the other that changes", "i64.const 4; local.get 1; i32.const 0; select; i64.const 9; local.set 1", 3, 3),
    ("a select by what changes", "i64.const 3; i64.const 4; local.get 1; i32.wrap_i64; select; i64.const 0; local.set 1", 1, 3),
    ("a select of memory that changes", "local.get 0; i64.load; i64.const 4; i32.const 1; select; local.get 0; i64.const 5; i64.store", 0, 0x0706050403020100),
    ("a select of other memory that changes", "i64.const 4; local.get 0; i64.load; i32.const 0; select; local.get 0; i64.const 5; i64.store", 0, 0x0706050403020100),
    ("the place of a load that changes", "local.get 0; i64.load; i64.const 0; local.set 0", 0, 0x0706050403020100),
    ("memory that is moved", "local.get 0; i64.load; local.get 0; local.get 0; i64.const 8; i64.add; i64.const 8; memory.copy", 0, 0x0706050403020100),
    ("memory that is filled", "local.get 0; i64.load; local.get 0; i32.const 1; i64.const 8; memory.fill", 0, 0x0706050403020100),
    ("the top of the stack", "global.get 0; local.set 2; block; end; global.get 0; i64.const 32; i64.sub; local.set 1; local.get 2; local.get 1; i64.sub", 0, 32),
    ("a frame", "global.get 0; i64.const 32; i64.sub; local.tee 2; global.set 0; local.get 2; local.get 1; i64.store 24; local.get 2; i64.load 24; local.get 2; i64.const 32; i64.add; global.set 0", 5, 5),
    ("a frame that nothing is in", "global.get 0; i64.const 32; i64.sub; drop; local.get 1", 5, 5),
    ("bytes that are moved over themselves", "local.get 0; i64.const 1; i64.add; local.get 0; i64.const 7; memory.copy; local.get 0; i64.load", 0, 0x0605040302010000),
    ("bytes that are filled", "local.get 0; i32.const 0x1ab; i64.const 3; memory.fill; local.get 0; i64.load", 0, 0x0706050403ababab),
    ("a comparison as a number", "local.get 1; i64.eqz; i32.const 5; i32.add; i64.extend_i32_u", 0, 6),
    ("an integer as floating point", "local.get 1; f64.convert_i64_u; i64.reinterpret_f64", 3, 0x4008000000000000),
    ("the nearest one", "local.get 1; f64.convert_i64_u; i64.reinterpret_f64", 0xffffffffffffffff, 0x43f0000000000000),
    ("one of 32 bits", "local.get 1; i32.wrap_i64; f64.convert_i32_u; i64.reinterpret_f64", 0xffffffff, 0x41efffffffe00000),
    ("one of 32 bits with a sign", "local.get 1; i32.wrap_i64; f64.convert_i32_s; i64.reinterpret_f64", 0xffffffff, 0xbff0000000000000),
    ("one of 64 bits with a sign", "local.get 1; f64.convert_i64_s; i64.reinterpret_f64", 0xffffffffffffffff, 0xbff0000000000000),
    ("floating point in memory", "local.get 0; f64.const 0.7; f64.store 8; local.get 0; i64.load 8", 0, 0x3fe6666666666666),
    ("one that is read", "local.get 0; i64.const 0x3fe0000000000000; i64.store; local.get 0; f64.load; f64.const -1.5; f64.mul; i64.reinterpret_f64", 0, 0xbfe8000000000000),
    ("a select of them", "f64.const 0.5; f64.const 0.25; local.get 1; i32.wrap_i64; select; i64.reinterpret_f64", 0, 0x3fd0000000000000),
    ("an if of them", "local.get 1; i64.eqz; if f64; f64.const 0.5; else; f64.const 0.25; end; i64.reinterpret_f64", 0, 0x3fe0000000000000),
    ("one that was read before a store", "local.get 0; i64.const 0x3fe0000000000000; i64.store; local.get 0; f64.load; local.get 0; i64.const 5; i64.store; i64.reinterpret_f64", 0, 0x3fe0000000000000),
    ("a local with itself", "local.get 1; local.get 1; i64.eq; i32.const 2; i32.mul; local.get 1; local.get 1; i64.lt_u; i32.add; i64.extend_i32_u", 3, 2),
)
# A function for modules that are refused.
LITTLE = function([], [I64], "i64.const 1")


class Onefile(unittest.TestCase):
    def test_numbers(self):
        functions, calls = [], []
        for at, (name, *values) in enumerate(NUMBERS):
            kind = I32 if name.startswith("i32") and name != "i32.wrap_i64" or name.startswith("i64.extend_i32") else I64
            result = I32 if name.startswith("i32") or name.split(".")[1].split("_")[0] in ("eq", "ne", "lt", "gt", "le", "ge", "eqz") else I64
            values = values[:-1]
            functions.append(function([kind] * len(values), [result], "; ".join(f"local.get {k}" for k in range(len(values))) + f"; {name}"))
            calls.append(f"f{at}({', '.join(f'{it}ull' for it in values)})")
        for row, found in zip(NUMBERS, computed(functions, calls)):
            self.assertEqual(found, row[-1], row)

    def test_numbers_that_are_constants(self):
        """The same with the second number in the instructions."""
        rows = [it for it in NUMBERS if len(it) == 4]
        functions, calls = [], []
        for at, (name, one, other, _) in enumerate(rows):
            kind = I32 if name.startswith("i32") else I64
            result = kind if name.split(".")[1].split("_")[0] not in ("eq", "ne", "lt", "gt", "le", "ge") else I32
            functions.append(function([kind], [result], f"local.get 0; {name[:3]}.const {other}; {name}"))
            calls.append(f"f{at}({one}ull)")
        for row, found in zip(rows, computed(functions, calls)):
            self.assertEqual(found, row[-1], row)

    def test_floating_point(self):
        """Given as their bits, and in the instructions; by x87 too, which computes with more bits."""
        functions, calls = [], []
        for name, one, other, wanted in FLOATS:
            is_asked = isinstance(wanted, int)
            last = "i64.extend_i32_u" if is_asked else "i64.reinterpret_f64"
            first, second = (struct.unpack("<Q", struct.pack("<d", it))[0] for it in (one, other))
            functions.append(function([I64, I64], [I64], f"local.get 0; f64.reinterpret_i64; local.get 1; f64.reinterpret_i64; f64.{name}; {last}"))
            calls.append(f"f{len(functions) - 1}({first}ull, {second}ull)")
            functions.append(function([I64], [I64], f"local.get 0; f64.reinterpret_i64; local.tee 1; f64.const {other!r}; f64.{name}; {last}", [F64]))
            calls.append(f"f{len(functions) - 1}({first}ull)")
        wanted = [it[3] if isinstance(it[3], int) else struct.unpack("<Q", struct.pack("<d", it[3]))[0] for it in FLOATS for _ in range(2)]
        for words in ((), X87) if HAS_X87 else ((),):
            self.assertEqual(computed(functions, calls, words=words), wanted, words)

    def test_bodies(self):
        found = computed([function([I64, I64], [I64], text, [I64]) for _, text, _, _ in BODIES], [f"f{at}(m, {row[2]}ull)" for at, row in enumerate(BODIES)])
        self.assertEqual({row[0]: it for row, it in zip(BODIES, found)}, {what: wanted for what, _, _, wanted in BODIES})

    def test_calls(self):
        less = function([I64, I64], [I64], "local.get 0; local.get 1; i64.sub")
        clears = function([I64], [I64], "local.get 0; i64.const 0; i64.store; i64.const 1")
        # What was loaded before a call that clears it, and what is loaded after it.
        before = function([I64], [I64], "local.get 0; i64.load; local.get 0; call 1; i64.add")
        after = function([I64], [I64], "local.get 0; call 1; drop; local.get 0; i64.load; i64.const 3; call 0")
        self.assertEqual(computed([less, clears, before, after], ["f0(9, 4)", "f2(m)", "f3(m)"]), [5, 0x0706050403020101, 0xfffffffffffffffd])

    def test_data(self):
        """A number that the linker marked as an address is a place in the data, with what is added to it."""
        body = function([], [I64], "i64.const 65538; i64.load8_u 1")
        # The number follows the number of bodies, the size of this one, its locals, and the byte of the instruction.
        relocs = named("reloc.CODE") + unsigned(5) + vector([bytes([15, 4, 0, 0])])
        self.assertEqual(computed([body], ["f0()"], data=bytes([5, 6, 7, 8]), more=section(0, relocs)), [8])
        # So is what a load adds to an index.
        body = function([I64], [I64], "local.get 0; i64.load8_u 65537")
        relocs = named("reloc.CODE") + unsigned(5) + vector([bytes([14, 7, 0, 0])])
        self.assertEqual(computed([body], ["f0(2)"], data=bytes([5, 6, 7, 8]), more=section(0, relocs)), [8])

    def test_addresses_in_the_data_of_a_program(self):
        """The address at offset 8 is that of offset 2, and is stored there once."""
        body = function([], [I64], "i64.const 65544; i64.load; i64.load8_u")
        code = named("reloc.CODE") + unsigned(5) + vector([bytes([15, 4, 0, 0])])
        data = bytes(range(5, 13)) + (FIRST + 2).to_bytes(8, "little")
        # In the section eight bytes stand before the data: how many segments there are, and the place and the size of this one.
        found = computed([body], ["f0()", "f0()"], is_program=True, data=data, relocated=[16], more=section(0, code))
        self.assertEqual(found, [7, 7])
        for why, at in ("an address outside of the data: 0", 16), ("an address that is not in the data", 7):
            with self.assertRaisesRegex(wasm.Refused, why):
                text_of(module([body], data=bytes(16), relocated=[at]), True)

    def test_what_a_program_calls(self):
        """The C by hand has exactly the functions that the module calls."""
        types = section(1, vector([bytes([wasm.FUNCTION, 0, 0])]))
        lines = "static u32 import_one(void)\nstatic void import_two(u64 at)\n"
        for wanted, names in ((None, ("one", "two")), ("lacks: three", ("one", "two", "three")), ("not called: two", ("one",))):
            imports = section(2, vector(named("env") + named(it) + b"\0\0" for it in names))
            made = wasm.Module(wasm.MAGIC + types + imports + section(5, bytes([1, 4, 2])))
            with self.subTest(names), contextlib.nullcontext() if wanted is None else self.assertRaisesRegex(wasm.Refused, wanted):
                file.need_all(made, lines)

    def test_the_program_is_started_by_another_function(self):
        text = 'define i32 @main() #0 {\nstart:\n  %r0 = call i64 @look()\n  %r1 = call i32 @"ncp::main+start"()\n  ret i32 %r1\n}\n\ndefine i32 @other() {\n  ret i32 1\n}\n'
        self.assertEqual(proved_module.without_main(text), 'define i32 @program() {\n  %r = call i32 @"ncp::main+start"()\n  ret i32 %r\n}\n\ndefine i32 @other() {\n  ret i32 1\n}\n')
        self.assertEqual(proved_module.without_main(text[text.index("define i32 @other"):]), text[text.index("define i32 @other"):])

    def test_what_is_refused(self):
        rows = (
            ("no module", b"\0asm\2\0\0\0"),
            ("32 bits", module([LITTLE], memory=0)),
            ("instruction 43", module([(LITTLE[0], unsigned(7) + b"\0\x43\0\0\0\0\x0b")])),
            ("instruction 11", module([(LITTLE[0], unsigned(5) + b"\0\x11\0\0\x0b")])),
            ("instruction fc 8", module([(LITTLE[0], unsigned(5) + b"\0\xfc\x08\0\x0b")])),
            ("not constant: .data", module([LITTLE], data=b"\1", segment=".data")),
            ("not constant: zeros", module([LITTLE], data=b"\1", end=FIRST + 64)),
            ("addresses in them", module([LITTLE], data=b"\1" * 8, relocated=[8])),
            ("has its frame", module([function([], [], "global.get 0; i64.const 32; i64.sub; drop; global.get 0; drop")])),
            ("second frame", module([function([], [], "global.get 0; global.get 0; i64.const 32; i64.sub; drop; i64.const 16; i64.sub; drop")])),
            ("another sum", module([function([I64], [], "global.get 0; local.get 0; i64.sub; drop")])),
            ("multiple", module([function([], [], "global.get 0; i64.const 64; i64.sub; i64.const -32; i64.and; drop")])),
            ("without a frame", module([function([], [I64], "global.get 0")])),
            ("a global", module([function([], [I64], "global.get 1")])),
            ("several results", module([(bytes([wasm.FUNCTION, 0, 2, I64, I64]), LITTLE[1])])),
            ("takes values", module([(LITTLE[0], unsigned(6) + b"\0\x02\0\x42\0\x0b")])),
            ("in the middle", module([LITTLE])[:-3]),
        )
        for why, data in rows:
            with self.subTest(why), self.assertRaisesRegex(wasm.Refused, why):
                text_of(data)

    def test_structs_lie_as_in_the_module(self):
        """A number is aligned to its size, and so is the next struct."""
        fields, size = shim.structs_of("struct it {\n    uint8_t a;\n    uint32_t b; /* c */\n    uint16_t d;\n    uint8_t e[3];\n    bool f;\n};\n")["it"]
        self.assertEqual([tuple(it) for it in fields], [(0, "uint8_t", "a"), (4, "uint32_t", "b"), (8, "uint16_t", "d"), (10, "uint8_t", "e[0]"), (11, "uint8_t", "e[1]"),
                                                       (12, "uint8_t", "e[2]"), (13, "bool", "f")])
        self.assertEqual(size, 16)

    def test_the_licences(self):
        """Whose code is in the file, and the two licences."""
        text = file.licence(file.LICENCES.read_text(encoding="utf-8"), "ncp.c", "library")
        for wanted in ("Yaszkevo", 'Ulrik Sverdrup "bluss" 2015-2023', "Andrew Gallant", "Carl Lerche", "Andrea Corbellini", "thiserror", "Permission is hereby granted", "Neither the name"):
            self.assertIn(wanted, text)
        self.assertNotIn("clap", text)
        self.assertNotIn("Unicode", text)
        text = file.licence(file.LICENCES.read_text(encoding="utf-8"), "ncp_program.c", "program")
        for wanted in ("the program: MIT", "clap_builder", "Danny Guo", "itoa", "Andrea Corbellini", "Permission is hereby granted", "Neither the name",
                       "data of Unicode 18.0.0: Unicode License v3, Copyright © 1991-2023 Unicode, Inc.", "UNICODE LICENSE V3"):
            self.assertIn(wanted, text)

    def test_each_compiler_that_is_missing_is_named(self):
        """So that in CI, where nothing may be skipped, it is a failure."""
        for is_everywhere, count in (False, 5), (True, 12):
            said = io.StringIO()
            with mock.patch("shutil.which", lambda _: None), contextlib.redirect_stdout(said):
                self.assertEqual(compilers.those_here(is_everywhere), [])
            self.assertEqual(said.getvalue().count("  left out: "), count)
        self.assertIn("left out: s390x, 64 bits, big endian, since s390x-linux-gnu-gcc and qemu-s390x is not here", said.getvalue())
        with mock.patch("shutil.which", lambda it: f"/bin/{it}"):
            self.assertEqual([it.name for it in compilers.those_here(False)][:3], ["gcc", "clang", "tcc"])

    def test_the_head(self):
        """It names what the file is, its version, the sum of its sources, the kit and the licence."""
        head = file.HEAD.format(name="ncp.c", version="2.0.0", sum="ab" * 32, kit="kit one")
        self.assertTrue(head.startswith("/* SPDX-License-Identifier: MIT AND BSD-3-Clause */\n"))
        for wanted in "Version 2.0.0", "ab" * 32, "kit one", "not proved", "NCP_MALLOC", "NCP_IN":
            self.assertIn(wanted, head)
        head = file.PROGRAM_HEAD.format(name="ncp_program.c", version="2.0.0", sum="ab" * 32, crates="cd" * 32, kit="kit one")
        for wanted in "Version 2.0.0", "ab" * 32, "kit one", "not proved", "POSIX":
            self.assertIn(wanted, head)
        # The launcher looks for the sum of the crates there.
        self.assertIn("cd" * 32, "".join(head.splitlines()[:20]))
        for name in "ncp.c", "ncp_program.c":
            self.assertTrue(file.in_ascii(file.licence(file.LICENCES.read_text(encoding="utf-8"), name, "program")).isascii())

    def test_each_function_is_called(self):
        """By the digest of random calls: so each is compared with the library without C."""
        with open(os.path.join(TOP, "examples/embed/digest.c"), encoding="utf-8") as source:
            text = source.read()
        with open(os.path.join(TOP, "include/ncp.h"), encoding="utf-8") as header:
            functions = re.findall(r"^[\w ]+[ *](ncp_\w+)\([^;]*\);$", header.read(), re.M)
        self.assertGreater(len(functions), 48)
        self.assertEqual([it for it in functions if not re.search(rf"\b{it}\(", text)], [])

    @unittest.skipUnless(shutil.which("cc") and shutil.which("make"), "there is no C compiler, or no make")
    def test_the_makefile(self):
        """It compiles and installs the program: here a short one."""
        with tempfile.TemporaryDirectory() as folder:
            for name in "onefile", "prebuilt":
                os.mkdir(f"{folder}/{name}")
            shutil.copy(os.path.join(TOP, "onefile/Makefile"), f"{folder}/onefile")
            with open(f"{folder}/prebuilt/ncp_program.c", "w", encoding="utf-8") as short:
                short.write("int main(void) { return 7; }\n")
            ran = subprocess.run(["make", "-C", f"{folder}/onefile", "install", "PREFIX=/usr", f"DESTDIR={folder}/package"], stdout=subprocess.PIPE, stderr=subprocess.STDOUT, text=True)
            self.assertEqual(ran.returncode, 0, ran.stdout)
            self.assertEqual(subprocess.run([f"{folder}/package/usr/bin/ncp"]).returncode, 7)

    def test_usage(self):
        rows = {"build": ([], ["--module"], ["--from", "one"], ["--other"], ["one", "two"], ["ncp.c"], ["--module", "ncp.h", "two"]), "try": (["no such file"], ["one", "two"]),
                "try_program": (["no such file"], ["one", "two"]), "fuzz": (["x"], ["1", "2", "3"]),
                "faults": (["x"], ["1", "2", "3", "4"])}
        for name, each in rows.items():
            for words in each:
                ran = subprocess.run([f"{TOP}/onefile/{name}", *words], stdout=subprocess.PIPE, stderr=subprocess.PIPE, text=True)
                self.assertEqual((ran.returncode, ran.stdout, ran.stderr.split(":")[0]), (2, "", "usage"), (name, words))


if not shutil.which("cc"):
    for name in "test_numbers", "test_numbers_that_are_constants", "test_floating_point", "test_bodies", "test_calls", "test_data", "test_addresses_in_the_data_of_a_program":
        setattr(Onefile, name, unittest.skip("there is no C compiler")(getattr(Onefile, name)))

if __name__ == "__main__":
    unittest.main()
