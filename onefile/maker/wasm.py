"""Reads a linked module of WebAssembly: its functions as instructions, and its data.

It knows what a compiler makes of integers for addresses of 64 bits, and the little floating point that the program needs. It refuses
all else: calls by pointer, several memories or results.
"""
from typing import NamedTuple

I32, I64, F64 = 0x7F, 0x7E, 0x7C
EMPTY = 0x40
MAGIC = b"\0asm\1\0\0\0"
FUNCTION = 0x60
# Sections, by their numbers.
CUSTOM, TYPES, IMPORTS, FUNCTIONS, MEMORY, GLOBALS, EXPORTS, CODE, DATA = 0, 1, 2, 3, 5, 6, 7, 10, 11
# The kind of an export, and the part of the name section with the names of segments.
OF_FUNCTION, OF_GLOBAL, SEGMENT_NAMES = 0, 3, 9
# Relocations: of an index of a function, a type or a global, and of an address in the data; the last is the one of eight bytes, as data have it.
OF_INDEX, OF_PLACE, OF_EIGHT_BYTES = {0, 6, 7}, {3, 4, 5, 14, 15, 16}, 16
COMPARED = ("eq", "ne", "lt_s", "lt_u", "gt_s", "gt_u", "le_s", "le_u", "ge_s", "ge_u")
ARITHMETIC = ("clz", "ctz", "popcnt", "add", "sub", "mul", "div_s", "div_u", "rem_s", "rem_u", "and", "or", "xor", "shl", "shr_s", "shr_u", "rotl", "rotr")
# Floating point of 64 bits.
FLOAT_CODES = {"eq": 0x61, "ne": 0x62, "lt": 0x63, "gt": 0x64, "le": 0x65, "ge": 0x66, "add": 0xA0, "sub": 0xA1, "mul": 0xA2, "div": 0xA3}
# The operand of an instruction: nothing, the type of a block, an index, a table of labels, a memory address, an integer, the bits of a floating-point number.
NOTHING, BLOCK, INDEX, LABELS, PLACE, NUMBER, FLOAT = range(7)
CODES = {
    0x00: ("unreachable", NOTHING), 0x01: ("nop", NOTHING), 0x02: ("block", BLOCK), 0x03: ("loop", BLOCK), 0x04: ("if", BLOCK), 0x05: ("else", NOTHING),
    0x0B: ("end", NOTHING), 0x0C: ("br", INDEX), 0x0D: ("br_if", INDEX), 0x0E: ("br_table", LABELS), 0x0F: ("return", NOTHING), 0x10: ("call", INDEX),
    0x1A: ("drop", NOTHING), 0x1B: ("select", NOTHING), 0x20: ("local.get", INDEX), 0x21: ("local.set", INDEX), 0x22: ("local.tee", INDEX),
    0x23: ("global.get", INDEX), 0x24: ("global.set", INDEX),
    0x28: ("i32.load", PLACE), 0x29: ("i64.load", PLACE), 0x2C: ("i32.load8_s", PLACE), 0x2D: ("i32.load8_u", PLACE), 0x2E: ("i32.load16_s", PLACE),
    0x2F: ("i32.load16_u", PLACE), 0x30: ("i64.load8_s", PLACE), 0x31: ("i64.load8_u", PLACE), 0x32: ("i64.load16_s", PLACE), 0x33: ("i64.load16_u", PLACE),
    0x34: ("i64.load32_s", PLACE), 0x35: ("i64.load32_u", PLACE), 0x36: ("i32.store", PLACE), 0x37: ("i64.store", PLACE), 0x3A: ("i32.store8", PLACE),
    0x3B: ("i32.store16", PLACE), 0x3C: ("i64.store8", PLACE), 0x3D: ("i64.store16", PLACE), 0x3E: ("i64.store32", PLACE),
    0x41: ("i32.const", NUMBER), 0x42: ("i64.const", NUMBER), 0x45: ("i32.eqz", NOTHING), 0x50: ("i64.eqz", NOTHING),
    0xA7: ("i32.wrap_i64", NOTHING), 0xAC: ("i64.extend_i32_s", NOTHING), 0xAD: ("i64.extend_i32_u", NOTHING), 0xC0: ("i32.extend8_s", NOTHING),
    0xC1: ("i32.extend16_s", NOTHING), 0xC2: ("i64.extend8_s", NOTHING), 0xC3: ("i64.extend16_s", NOTHING), 0xC4: ("i64.extend32_s", NOTHING),
    0x2B: ("f64.load", PLACE), 0x39: ("f64.store", PLACE), 0x44: ("f64.const", FLOAT), 0xB7: ("f64.convert_i32_s", NOTHING),
    0xB8: ("f64.convert_i32_u", NOTHING), 0xB9: ("f64.convert_i64_s", NOTHING), 0xBA: ("f64.convert_i64_u", NOTHING), 0xBD: ("i64.reinterpret_f64", NOTHING), 0xBF: ("f64.reinterpret_i64", NOTHING),
    **{code: (f"f64.{name}", NOTHING) for name, code in FLOAT_CODES.items()},
    **{first + at: (f"{kind}.{name}", NOTHING) for kind, first in (("i32", 0x46), ("i64", 0x51)) for at, name in enumerate(COMPARED)},
    **{first + at: (f"{kind}.{name}", NOTHING) for kind, first in (("i32", 0x67), ("i64", 0x79)) for at, name in enumerate(ARITHMETIC)},
}
# The instructions that begin with the byte 0xFC, and how many zero bytes follow each.
LONG, LONG_CODES = 0xFC, {10: ("memory.copy", 2), 11: ("memory.fill", 1)}


class Refused(Exception):
    """Why a module is not translated."""


class Instruction(NamedTuple):
    name: str
    # Its index, labels or number; of a block its parameters and results.
    value: object = None
    # Whether the number is a place in the data.
    is_place: bool = False


class Segment(NamedTuple):
    """Bytes of the data, their address, and their offset in the section."""
    address: int
    data: bytes
    offset: int


class Type(NamedTuple):
    params: list
    results: list


class Body(NamedTuple):
    # The types of the locals, after those of the parameters.
    kinds: list
    instructions: list


class Reader:
    def __init__(self, data, at=0, end=None):
        self.data, self.at, self.end = data, at, len(data) if end is None else end

    def is_over(self):
        return self.at >= self.end

    def take(self, count):
        if self.at + count > self.end:
            raise Refused("the module ends in the middle of a part")
        self.at += count
        return self.data[self.at - count:self.at]

    def byte(self):
        return self.take(1)[0]

    def number(self, is_signed):
        value = shift = 0
        while True:
            it = self.byte()
            value |= (it & 0x7F) << shift
            shift += 7
            if not it & 0x80:
                return value - (1 << shift) if is_signed and it & 0x40 else value

    def unsigned(self):
        return self.number(False)

    def signed(self):
        return self.number(True)

    def name(self):
        return self.take(self.unsigned()).decode()

    def vector(self, each):
        return [each() for _ in range(self.unsigned())]

    def part(self):
        """A reader of the part that begins here with its size; this one goes on after it."""
        size = self.unsigned()
        self.take(size)
        return Reader(self.data, self.at - size, self.at)


class Module:
    """The contents of a module. Functions are numbered from the imported ones on."""

    def __init__(self, data):
        self.types, self.imports, self.functions, self.exports = [], [], [], {}
        self.segments, self.bodies, self.globals, self.segment_names = [], [], [], []
        self.is_wide, self.end_of_data = False, None
        self.places_in_code, self.places_in_data = set(), set()
        reader = Reader(data)
        if reader.take(len(MAGIC)) != MAGIC:
            raise Refused("this is no module of WebAssembly")
        sections = {}
        while not reader.is_over():
            number = reader.byte()
            sections.setdefault(number, []).append(reader.part())
        # The relocations are at the end, and are needed for the code.
        read = {CUSTOM: self.read_custom, TYPES: self.read_types, IMPORTS: self.read_imports, FUNCTIONS: self.read_functions, MEMORY: self.read_memory,
                GLOBALS: self.read_globals, EXPORTS: self.read_exports, CODE: self.read_code, DATA: self.read_data}
        for number, each in read.items():
            for section in sections.get(number, ()):
                each(section)
        if not self.is_wide:
            raise Refused("its addresses have 32 bits")

    def type_of(self, index):
        count = len(self.imports)
        return self.types[self.imports[index][1] if index < count else self.functions[index - count]]

    def read_custom(self, it):
        name = it.name()
        if name == "name":
            self.read_names(it)
        if name not in ("reloc.CODE", "reloc.DATA"):
            return
        it.unsigned()
        for _ in range(it.unsigned()):
            kind, offset = it.byte(), it.unsigned()
            it.unsigned()
            if kind in OF_PLACE and (kind == OF_EIGHT_BYTES or name == "reloc.CODE"):
                it.signed()
                (self.places_in_code if name == "reloc.CODE" else self.places_in_data).add(offset)
            elif kind not in OF_INDEX:
                raise Refused(f"a relocation of kind {kind}")

    def read_names(self, it):
        while not it.is_over():
            number, part = it.byte(), it.part()
            if number == SEGMENT_NAMES:
                self.segment_names = part.vector(lambda: (part.unsigned(), part.name())[1])

    def read_types(self, it):
        def one():
            if it.byte() != FUNCTION:
                raise Refused("a type that is no function's")
            return Type(it.vector(it.byte), it.vector(it.byte))
        self.types = it.vector(one)

    def read_imports(self, it):
        def one():
            module, name, kind = it.name(), it.name(), it.byte()
            if kind != 0:
                raise Refused(f"an import that is no function: {module}.{name}")
            return name, it.unsigned()
        self.imports = it.vector(one)

    def read_functions(self, it):
        self.functions = it.vector(it.unsigned)

    def read_memory(self, it):
        it.unsigned()
        self.is_wide = bool(it.byte() & 4)

    def read_globals(self, it):
        def one():
            it.take(2)
            if it.byte() not in (0x41, 0x42):
                raise Refused("a global that is no number")
            value = it.signed()
            it.byte()
            return value
        self.globals = it.vector(one)

    def read_exports(self, it):
        for _ in range(it.unsigned()):
            name, kind, index = it.name(), it.byte(), it.unsigned()
            if kind == OF_FUNCTION:
                self.exports[name] = index
            elif kind == OF_GLOBAL and name == "__data_end":
                self.end_of_data = self.globals[index]

    def read_data(self, it):
        start = it.at
        for _ in range(it.unsigned()):
            if it.unsigned() != 0 or it.byte() != 0x42:
                raise Refused("data that have no place of their own")
            address = it.signed()
            it.byte()
            size = it.unsigned()
            offset = it.at - start
            self.segments.append(Segment(address, it.take(size), offset))

    def read_code(self, it):
        start = it.at
        self.bodies = it.vector(lambda: self.body(it.part(), start))

    def body(self, it, start):
        kinds = []
        for _ in range(it.unsigned()):
            count = it.unsigned()
            kinds += [it.byte()] * count
        instructions = []
        while not it.is_over():
            instructions.append(self.instruction(it, start))
        return Body(kinds, instructions)

    def instruction(self, it, start):
        code = it.byte()
        if code == LONG:
            number = it.unsigned()
            if number not in LONG_CODES:
                raise Refused(f"the instruction fc {number}")
            name, zeros = LONG_CODES[number]
            it.take(zeros)
            return Instruction(name)
        if code not in CODES:
            raise Refused(f"the instruction {code:02x}")
        name, after = CODES[code]
        if after == BLOCK:
            return Instruction(name, self.block_type(it))
        if after == INDEX:
            return Instruction(name, it.unsigned())
        if after == LABELS:
            return Instruction(name, (it.vector(it.unsigned), it.unsigned()))
        if after == PLACE:
            it.unsigned()
        if after == FLOAT:
            return Instruction(name, int.from_bytes(it.take(8), "little"))
        if after in (PLACE, NUMBER):
            at = it.at - start
            return Instruction(name, it.unsigned() if after == PLACE else it.signed(), at in self.places_in_code)
        return Instruction(name)

    def block_type(self, it):
        """The results of a block."""
        first = it.byte()
        if first == EMPTY:
            return []
        if first in (I32, I64, F64):
            return [first]
        raise Refused("a block that takes values, or has several results")
