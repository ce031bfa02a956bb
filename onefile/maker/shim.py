"""The functions ncp_embed_* of include/checks.c over those of the module, by their prototypes there and the structs of ncp.h.

The module lays structs out as WebAssembly of 64 bits does, with pointers and sizes of eight bytes and the least significant byte first.
So what is passed by a pointer, and is no string of bytes, is written to a small block and read back.
"""
import re
from typing import NamedTuple

SIZES = {"uint8_t": 1, "bool": 1, "uint16_t": 2, "uint32_t": 4}
HANDLES = ("ncp_host", "ncp_subnet")
# The structs and parameters that are read though a function also writes them.
READ_TOO = ("seen", "which")
ALIGNMENT = 16
PROTOTYPE = re.compile(r"^(\w+) (ncp_embed_\w+)\((.*?)\);\n", re.M | re.S)
# The one that makes a host gets the memory for it from its caller, and the names are not the module's.
MAKES, NAMES = "ncp_embed_new", "ncp_embed_name"


class Field(NamedTuple):
    offset: int
    kind: str
    name: str


class Parameter(NamedTuple):
    """How one parameter is passed: the code before the call, the argument to the module, and the code after it."""
    word: str
    before: list = []
    after: list = []
    # Code that follows only a call that returned NCP_DONE.
    if_done: list = []
    # How many bytes it has in the frame.
    size: int = 0


def structs_of(text):
    """The fields of each struct of a header, with their offsets, and its size."""
    found = {}
    for name, body in re.findall(r"^struct (\w+) \{\n(.*?)^\};", re.sub(r"/\*.*?\*/", "", text, flags=re.S), re.M | re.S):
        if name in HANDLES:
            continue
        fields, at, widest = [], 0, 1
        for kind, field, count in re.findall(r"(\w+) (\w+)(?:\[(\d+)\])?;", body):
            size = SIZES[kind]
            widest, at = max(widest, size), -(-at // size) * size
            fields += [Field(at + size * k, kind, f"{field}[{k}]" if count else field) for k in range(int(count or 1))]
            at += size * int(count or 1)
        found[name] = fields, -(-at // widest) * widest
    return found


def put(struct, field, at):
    return f"store{8 * SIZES[field.kind]}(frame + {at + field.offset}, {struct}->{field.name});"


def got(kind, at):
    return f"load8(frame + {at}) != 0" if kind == "bool" else f"({kind})load{8 * SIZES[kind]}(frame + {at})"


def of_struct(name, fields, size, is_const, at):
    before = [put(name, it, at) for it in fields] if is_const or name in READ_TOO else []
    return Parameter(f"frame + {at}", before, if_done=[] if is_const else [f"{name}->{it.name} = {got(it.kind, at + it.offset)};" for it in fields], size=size)


def passed(declared, structs, at):
    """How a parameter with this declaration is passed, if its place in the frame is there."""
    kind, stars, name = re.fullmatch(r"((?:const )?(?:struct )?\w+) (\**)(\w+)", declared).groups()
    is_const, plain = kind.startswith("const "), kind.removeprefix("const ").removeprefix("struct ")
    if not stars:
        return Parameter(name)
    if plain in HANDLES:
        return Parameter(f"frame + {at}", [f"store64(frame + {at}, ADDRESS({name}->at));"], [f"{name}->at = AT(load64(frame + {at}));"], size=8)
    if plain in structs:
        return of_struct(name, *structs[plain], is_const, at)
    if plain == "uint8_t" and (is_const or name == "out"):
        return Parameter(f"ADDRESS({name})")
    if plain == "size_t":
        return Parameter(f"frame + {at}", [f"store64(frame + {at}, UNSET);"], [f"if (load64(frame + {at}) != UNSET) *{name} = (size_t)load64(frame + {at});"], size=8)
    return Parameter(f"frame + {at}", if_done=[f"*{name} = {got(plain, at)};"], size=SIZES[plain])


def heap_for(name, params):
    """The memory that the module's function allocates in: that of its first host."""
    host = re.search(r"struct ncp_host \*(\w+)", params)
    return "HEAP " if name == MAKES else f"HEAP_OF({host[1]}) " if host else "NO_HEAP "


def wrapper(result, name, params, structs, takes_heap):
    """One function of C over one of the module."""
    listed, at = [], 0
    for it in params.split(","):
        listed.append(passed(it.strip(), structs, at))
        at += -(-listed[-1].size // ALIGNMENT) * ALIGNMENT
    call = f"module_{name}({heap_for(name, params) if takes_heap else ''}{', '.join(it.word for it in listed)})"
    lines = [f"FRAME_OF({at // 8});"] if at else []
    lines += [] if result == "void" else ["u32 answer;"]
    lines += [line for it in listed for line in it.before]
    lines.append(f"{call};" if result == "void" else f"answer = {call};")
    lines += [line for it in listed for line in it.after]
    if_done = [line for it in listed for line in it.if_done]
    if if_done:
        lines += ["if (answer == NCP_DONE) {", *(f"    {it}" for it in if_done), "}"]
    if result != "void":
        lines.append("return answer != 0;" if result == "bool" else "return answer;")
    head = f"static {result} {'new_with(HEAP_IS ' if name == MAKES else f'{name}('}{params})"
    return head + "\n{\n" + "".join(f"    {it}\n" for it in lines) + "}\n"


def prototypes(checks):
    """The functions of the module that include/checks.c calls: result, name and parameters of each."""
    return [it for it in PROTOTYPE.findall(checks) if it[1] != NAMES]


def shim(header, checks, takes_heap):
    structs = {**structs_of(header), **structs_of(checks)}
    return "\n".join(wrapper(*it, structs, takes_heap(it[1])) for it in prototypes(checks))
