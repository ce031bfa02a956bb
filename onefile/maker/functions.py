"""Writes the functions of a module of WebAssembly as C99.

An address of the module is a pointer of the process, and each frame of its stack an array in the C function that has it. For that
each function takes its frame once, as compilers do; what takes it in another way is refused.

The stack of values that WebAssembly has is one of expressions here. An expression that is not written yet gets a name, a variable
of its own, before anything that it reads changes.
"""
import re
from typing import NamedTuple

from wasm import ARITHMETIC, COMPARED, F64, I32, I64, Refused

WORD = {I32: "u32", I64: "u64", F64: "double"}
KIND = {"i32": I32, "i64": I64, "f64": F64}
# The first letters of the names of variables.
LETTERS = {I32: "a", I64: "b", F64: "c"}
# Letters of an expression, before it gets a name.
LONGEST = 160
ALIGNMENT = 16
AS_C = {"eq": "==", "ne": "!=", "lt": "<", "gt": ">", "le": "<=", "ge": ">=", "add": "+", "sub": "-", "mul": "*", "div_u": "/", "rem_u": "%", "and": "&",
        "or": "|", "xor": "^", "shl": "<<", "shr_u": ">>", "div": "/"}
DIVIDES = {"div_s": "/", "rem_s": "%"}
COUNTS = ("clz", "ctz", "popcnt")
# The comparisons of floating point.
FLOAT_COMPARISONS = ("eq", "ne", "lt", "gt", "le", "ge")
# The comparisons that are true for two equal sides.
OF_EQUALS = ("eq", "le", "ge")
CASTS = {"i32.wrap_i64": (I32, "(u32)({})"), "i64.extend_i32_s": (I64, "(u64)(s64)(s32)({})"), "i64.extend_i32_u": (I64, "(u64)({})"),
         "i32.extend8_s": (I32, "(u32)(s32)(s8)({})"), "i32.extend16_s": (I32, "(u32)(s32)(s16)({})"), "i64.extend8_s": (I64, "(u64)(s64)(s8)({})"),
         "i64.extend16_s": (I64, "(u64)(s64)(s16)({})"), "i64.extend32_s": (I64, "(u64)(s64)(s32)({})"), "f64.convert_i32_s": (F64, "rounded((double)(s32)({}))"),
         "f64.convert_i32_u": (F64, "rounded((double)({}))"), "f64.convert_i64_s": (F64, "rounded((double)(s64)({}))"), "f64.convert_i64_u": (F64, "rounded((double)({}))"),
         "i64.reinterpret_f64": (I64, "bits_of({})"), "f64.reinterpret_i64": (F64, "of_bits({})")}
# The origin of a pointer to the module's stack: its top at the start of the function, or the frame.
TOP, FRAME = "top", "frame"
STACK_POINTER = 0
# The word for the top of the stack, until the size of the frame is known.
TOP_WORD = "TOP_OF_STACK"


class Value(NamedTuple):
    """An expression that is not written yet."""
    text: str
    kind: int
    # The locals that it reads, and whether it reads memory.
    reads: frozenset = frozenset()
    reads_memory: bool = False
    # Whether it is a variable or a number.
    is_plain: bool = False
    # Whether C has it as an int, as what is compared.
    is_bool: bool = False
    number: object = None
    origin: object = None

    def as_number(self):
        return f"(u32)({self.text})" if self.is_bool else self.text

    def never_changes(self):
        return self.number is not None or self.is_plain and not self.reads


class Block:
    def __init__(self, kind, label, height, results):
        self.kind, self.label, self.height, self.results = kind, label, height, results
        self.variables, self.is_used, self.is_reached = [], False, False


def bare(text):
    """A text without parentheses around all of it."""
    if not text.startswith("("):
        return text
    depth = 0
    for at, letter in enumerate(text):
        depth += (letter == "(") - (letter == ")")
        if depth == 0:
            return text[1:-1] if at == len(text) - 1 else text
    return text


def number_as_c(kind, value):
    """A number, with the width of its type."""
    if kind == I32:
        return f"{value}u"
    return f"{value}ull" if value < 1 << 31 else f"0x{value:x}ull"


class Function:
    """Writes one function. `names` are those of all functions in C, `takes_heap` the numbers of those that get a heap, `place` returns what an address
    of the data is in C."""

    def __init__(self, module, index, names, takes_heap, place):
        self.module, self.index, self.names, self.takes_heap, self.place = module, index, names, takes_heap, place
        self.params, self.results = module.type_of(index)
        if len(self.results) > 1:
            raise Refused("a function with several results")
        kinds, self.instructions = module.bodies[index - len(module.imports)]
        self.kinds = [*self.params, *kinds]
        self.lines, self.stack, self.blocks = [], [], []
        self.variables, self.labels, self.depth = [], 0, 1
        self.frame, self.holds_top = 0, set()
        self.is_reachable, self.skipped = True, 0

    # What is written

    def emit(self, text):
        self.lines.append(" " * self.depth + text)

    def variable(self, kind):
        name = f"{LETTERS[kind]}{len(self.variables)}"
        self.variables.append((name, kind))
        return name

    def local(self, index):
        return f"{'p' if index < len(self.params) else 'v'}{index}"

    def push(self, value):
        self.stack.append(self.named(value) if len(value.text) > LONGEST else value)

    def pop(self):
        return self.stack.pop()

    def pop_condition(self):
        """A value as C asks for it, and the value itself."""
        value = self.pop()
        return (bare(value.text) if value.is_bool or value.is_plain else f"{value.text} != 0"), value

    def pop_number(self):
        return self.pop().as_number()

    def named(self, value):
        """The value in a variable of its own."""
        name = self.variable(value.kind)
        self.emit(f"{name} = {bare(value.as_number())};")
        return Value(name, value.kind, is_plain=True)

    def settle(self, touches):
        """Names the values that are not written yet and read what changes next."""
        self.stack = [self.named(it) if touches(it) else it for it in self.stack]

    def settle_memory(self):
        self.settle(lambda it: it.reads_memory)

    def settle_all(self):
        """Before the ways part or meet: no local is known to hold the top of the stack from here on."""
        self.settle(lambda it: not it.never_changes())
        self.holds_top.clear()

    # Blocks

    def enter(self, kind, results):
        self.settle_all()
        self.labels += 1
        block = Block(kind, f"L{self.labels}", len(self.stack), results)
        block.variables = [self.variable(it) for it in results]
        self.blocks.append(block)
        return block

    def hand_over(self, block):
        """Assigns the result of a block to its variable."""
        if block.results:
            self.emit(f"{block.variables[0]} = {bare(self.stack[-1].as_number())};")

    def go(self, depth):
        block = self.blocks[-1 - depth]
        if block.kind == "body":
            self.give_back()
            return
        block.is_used = True
        if block.kind == "loop":
            self.emit(f"goto {block.label};")
        else:
            self.hand_over(block)
            block.is_reached = True
            self.emit(f"goto {block.label}e;")

    def give_back(self):
        self.emit(f"return {bare(self.stack[-1].as_number())};" if self.results else "return;")

    def do_block(self, results):
        self.enter("block", results)

    def do_loop(self, results):
        block = self.enter("loop", results)
        self.emit(f"{block.label}:;")

    def do_if(self, results):
        condition, _ = self.pop_condition()
        block = self.enter("if", results)
        block.is_reached = True
        self.emit(f"if ({condition}) {{")
        self.depth += 1

    def do_else(self, _):
        block = self.blocks[-1]
        if self.is_reachable:
            self.hand_over(block)
        self.holds_top.clear()
        del self.stack[block.height:]
        self.depth -= 1
        self.emit("} else {")
        self.depth += 1
        block.kind, block.is_reached, self.is_reachable = "else", self.is_reachable or block.is_used, True

    def do_end(self, _):
        block = self.blocks.pop()
        if self.is_reachable:
            self.give_back() if block.kind == "body" else self.hand_over(block)
        if block.kind in ("if", "else"):
            self.depth -= 1
            self.emit("}")
        if block.kind == "loop":
            if not block.is_used:
                self.lines.remove(next(it for it in self.lines if it.strip() == f"{block.label}:;"))
        elif block.is_used and block.kind != "body":
            self.emit(f"{block.label}e:;")
        self.is_reachable = self.is_reachable or block.is_reached
        self.holds_top.clear()
        del self.stack[block.height:]
        self.stack += [Value(name, kind, is_plain=True) for name, kind in zip(block.variables, block.results)]

    def do_br(self, depth):
        self.go(depth)
        self.is_reachable = False

    def do_br_if(self, depth):
        condition, _ = self.pop_condition()
        self.emit(f"if ({condition}) {{")
        self.depth += 1
        self.go(depth)
        self.depth -= 1
        self.emit("}")

    def do_br_table(self, labels):
        listed, last = labels
        self.emit(f"switch ({bare(self.pop_number())}) {{")
        for depth in dict.fromkeys(it for it in listed if it != last):
            self.emit(" ".join(f"case {at}:" for at, to in enumerate(listed) if to == depth))
            self.depth += 1
            self.go(depth)
            self.depth -= 1
        self.emit("default:")
        self.depth += 1
        self.go(last)
        self.depth -= 1
        self.emit("}")
        self.is_reachable = False

    def do_return(self, _):
        self.give_back()
        self.is_reachable = False

    def do_unreachable(self, _):
        self.emit("UNREACHABLE;")
        self.is_reachable = False

    def do_nop(self, _):
        pass

    # Calls and variables

    def do_call(self, index):
        params, results = self.module.type_of(index)
        words = [self.pop_number() for _ in params][::-1]
        self.settle_memory()
        heap = "" if index not in self.takes_heap else "HEAP " if words else "HEAP_ALONE"
        text = f"{self.names[index]}({heap}{', '.join(words)})"
        if not results:
            self.emit(f"{text};")
            return
        name = self.variable(results[0])
        self.emit(f"{name} = {text};")
        self.stack.append(Value(name, results[0], is_plain=True))

    def do_drop(self, _):
        self.pop()

    def do_select(self, _):
        condition, asked = self.pop_condition()
        other, one = self.pop(), self.pop()
        self.push(Value(f"({condition} ? {one.as_number()} : {other.as_number()})", one.kind, asked.reads | other.reads | one.reads,
                        asked.reads_memory or other.reads_memory or one.reads_memory))

    def read_local(self, index):
        return Value(self.local(index), self.kinds[index], frozenset([index]), is_plain=True, origin=TOP if index in self.holds_top else None)

    def do_local_get(self, index):
        self.stack.append(self.read_local(index))

    def do_local_set(self, index):
        value = self.pop()
        self.settle(lambda held: index in held.reads)
        (self.holds_top.add if value.origin == TOP else self.holds_top.discard)(index)
        if value.text != self.local(index):
            self.emit(f"{self.local(index)} = {bare(value.as_number())};")

    def do_local_tee(self, index):
        value = self.stack[-1]
        self.do_local_set(index)
        self.stack.append(self.read_local(index)._replace(origin=value.origin))

    def do_global_get(self, index):
        if index != STACK_POINTER or self.frame:
            raise Refused("a global, or the stack pointer of a function that has its frame")
        self.stack.append(Value(TOP_WORD, I64, is_plain=True, origin=TOP))

    def do_global_set(self, index):
        """The stack pointer moves to the frame or back: no one reads it here."""
        self.pop()
        if index != STACK_POINTER:
            raise Refused("a global")

    # Memory

    def address(self, instruction):
        base = self.pop()
        if instruction.is_place:
            place = self.place(instruction.value)
            return (place if base.number == 0 else f"{base.text} + {place}"), base
        return (f"{base.text} + {instruction.value}" if instruction.value else bare(base.text)), base

    def load(self, instruction):
        kind, name = instruction.name.split(".")
        kind = KIND[kind]
        bits, _, sign = name.removeprefix("load").partition("_")
        text, base = self.address(instruction)
        size = int(bits or (32 if kind == I32 else 64))
        if kind == F64:
            word = f"of_bits(load64({text}))"
        elif sign == "s":
            word = f"({WORD[kind]})(s{32 if kind == I32 else 64})(s{size})load{size}({text})"
        elif kind == I64 and size < 64:
            word = f"(u64)load{size}({text})"
        else:
            word = f"load{size}({text})"
        self.push(Value(word, kind, base.reads, True))

    def store(self, instruction):
        kind, name = instruction.name.split(".")
        value = self.pop()
        size = int(name.removeprefix("store") or (32 if KIND[kind] == I32 else 64))
        text, _ = self.address(instruction)
        self.settle_memory()
        given = f"bits_of({bare(value.text)})" if value.kind == F64 else bare(value.as_number()) if WORD[value.kind] == f"u{size}" else f"(u{size})({bare(value.as_number())})"
        self.emit(f"store{size}({text}, {given});")

    def do_memory_copy(self, _):
        size, source, to = self.pop_number(), self.pop_number(), self.pop_number()
        self.settle_memory()
        self.emit(f"move({to}, {source}, {size});")

    def do_memory_fill(self, _):
        size, byte, to = self.pop_number(), self.pop_number(), self.pop_number()
        self.settle_memory()
        self.emit(f"fill({to}, {byte}, {size});")

    # Numbers

    def do_const(self, instruction):
        kind = KIND[instruction.name[:3]]
        if kind == F64:
            # By its bits: from digits, a compiler for x87 makes a number with more bits.
            self.stack.append(Value(f"of_bits({number_as_c(I64, instruction.value)})", kind, is_plain=True))
            return
        value = instruction.value & ((1 << (32 if kind == I32 else 64)) - 1)
        if instruction.is_place:
            self.stack.append(Value(self.place(value), kind, is_plain=True))
        else:
            self.stack.append(Value(number_as_c(kind, value), kind, is_plain=True, number=value))

    def do_eqz(self, _):
        value = self.pop()
        text = f"(!{value.text})" if value.is_bool or value.is_plain else f"({value.text} == 0)"
        self.push(Value(text, I32, value.reads, value.reads_memory, is_bool=True))

    def unary(self, kind, text):
        value = self.pop()
        self.push(Value(text.format(bare(value.as_number())), kind, value.reads, value.reads_memory))

    def take_frame(self, name, value):
        """The frame: below the top of the stack by its size."""
        if name not in ("add", "sub") or value.number is None or self.frame:
            raise Refused("another sum with the stack pointer, or a second frame")
        size = value.number if name == "sub" else (1 << 64) - value.number
        if not 0 < size < 1 << 31:
            raise Refused("a frame of no size")
        self.frame = size
        self.stack.append(Value("frame", I64, is_plain=True, origin=FRAME))

    def binary(self, kind, name):
        right, left = self.pop(), self.pop()
        if left.origin == TOP:
            self.take_frame(name, right)
            return
        if left.origin == FRAME and name == "and":
            raise Refused("a frame at a multiple of another number")
        reads, reads_memory = left.reads | right.reads, left.reads_memory or right.reads_memory
        text, is_bool = self.operation(kind, name, left, right)
        self.push(Value(text, kind if not is_bool else I32, reads, reads_memory, is_bool=is_bool))

    def operation(self, kind, name, left, right):
        """The C expression for two values, and whether it is an int in C."""
        if kind == F64:
            text = f"({left.text} {AS_C[name]} {right.text})"
            return (text, True) if name in FLOAT_COMPARISONS else (f"rounded({bare(text)})", False)
        bits = 32 if kind == I32 else 64
        signed, base = f"s{bits}", name.partition("_")[0]
        one, other = left.as_number(), right.as_number()
        if name in COMPARED:
            if one == other and left.is_plain:
                return ("1" if base in OF_EQUALS else "0"), True
            if right.number == 0 and name in ("lt_u", "ge_u"):
                return ("0" if base == "lt" else "1"), True
            if name.endswith("_s"):
                one, other = f"({signed}){one}", f"({signed}){other}"
            return f"({one} {AS_C[base]} {other})", True
        if name in DIVIDES:
            return f"({WORD[kind]})(({signed}){one} {DIVIDES[name]} ({signed}){other})", False
        if name == "add" and right.number is not None and right.number >= 1 << (bits - 1):
            return f"({one} - {number_as_c(kind, (1 << bits) - right.number)})", False
        if name in ("shl", "shr_u", "shr_s", "rotl", "rotr"):
            by = f"{right.number & (bits - 1)}" if right.number is not None else f"({other} & {bits - 1})"
            if name.startswith("rot"):
                return f"{name}{bits}({bare(one)}, {bare(by)})", False
            return (f"({WORD[kind]})(({signed}){one} >> {by})" if name == "shr_s" else f"({one} {AS_C[name]} {by})"), False
        return f"({one} {AS_C[name]} {other})", False

    # All

    def instruct(self, it):
        kind, _, name = it.name.partition(".")
        if it.name in CASTS:
            self.unary(*CASTS[it.name])
        elif name.startswith("load"):
            self.load(it)
        elif name.startswith("store"):
            self.store(it)
        elif name == "const":
            self.do_const(it)
        elif name in COUNTS:
            self.unary(KIND[kind], f"{name}{kind[1:]}({{}})")
        elif name in COMPARED or name in ARITHMETIC or kind == "f64":
            self.binary(KIND[kind], name)
        elif name == "eqz":
            self.do_eqz(None)
        else:
            getattr(self, f"do_{it.name.replace('.', '_')}")(it.value)

    def skip(self, it):
        """Skips an unreachable instruction, up to the end of its block, or to the branch for the other condition."""
        if it.name in ("block", "loop", "if"):
            self.skipped += 1
        elif it.name == "end" and self.skipped:
            self.skipped -= 1
        elif it.name in ("else", "end") and not self.skipped:
            self.instruct(it)

    def signature(self):
        words = [f"{WORD[kind]} p{at}" for at, kind in enumerate(self.params)]
        heap = "" if self.index not in self.takes_heap else "HEAP_IS " if words else "HEAP_IS_ALONE"
        result = WORD[self.results[0]] if self.results else "void"
        return f"static {result} {self.names[self.index]}({heap}{', '.join(words) or ('' if heap else 'void')})"

    def declared(self, text):
        """The variables, and what nothing reads of them and of the parameters."""
        locals_ = [(self.local(at), self.kinds[at]) for at in range(len(self.params), len(self.kinds))]
        used = set(re.findall(r"\w+", text))
        named = [(name, kind) for name, kind in [*locals_, *self.variables] if name in used]
        lines = []
        for kind, word in WORD.items():
            names = [f"{name} = 0" for name, of in named if of == kind]
            lines += [f" {word} {', '.join(names[at:at + 16])};" for at in range(0, len(names), 16)]
        # Some frames are left over: the compiler removed all that was in them.
        if self.frame and "frame" in used:
            lines.append(f" FRAME_OF({-(-self.frame // ALIGNMENT) * ALIGNMENT // 8});")
        params = [self.local(at) for at in range(len(self.params))]
        read = set(re.findall(r"\w+", re.sub(r"^ *(\w+) = ", "", text, flags=re.M)))
        lines += [f" (void){name};" for name in [*params, *(name for name, _ in named)] if name not in read]
        return lines

    def written(self):
        self.blocks = [Block("body", "", 0, self.results)]
        for it in self.instructions:
            self.instruct(it) if self.is_reachable else self.skip(it)
        if self.results and not self.lines[-1].strip().startswith("return"):
            self.lines += [" UNREACHABLE;", " return 0;"]
        text = "\n".join(self.lines)
        if TOP_WORD in text and not self.frame:
            raise Refused("the stack pointer in a function without a frame")
        text = text.replace(TOP_WORD, f"(frame + {self.frame}u)")
        return "\n".join([f"{self.signature()}\n{{", *self.declared(text), text, "}"])


def those_that_reach(module, name):
    """The numbers of the functions that call an import, directly or by others, and its own."""
    count = len(module.imports)
    found = {at for at, (imported, _) in enumerate(module.imports) if imported == name}
    calls = {count + at: {it.value for it in body.instructions if it.name == "call"} for at, body in enumerate(module.bodies)}
    while True:
        more = {index for index, called in calls.items() if index not in found and called & found}
        if not more:
            return found
        found |= more
