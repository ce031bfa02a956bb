"""The library for C, and the program, as one file each: its head, and the module as C. In the library include/checks.c comes after it, in the
program the functions that it calls of the system come before it."""
import re
from pathlib import Path

import shim
from translation import Translation
from wasm import Refused

HERE = Path(__file__).resolve().parent
TOP = HERE.parent.parent
HEADER, CHECKS, LICENCES = TOP / "include/ncp.h", TOP / "include/checks.c", TOP / "THIRD-PARTY.md"
COMMAND_LINE = TOP / "crates/ncp_play_command_line/src/command_line.rt"
NAME, PROGRAM = "ncp.c", "ncp_program.c"
HEAD = """/* SPDX-License-Identifier: MIT AND BSD-3-Clause */
/* {name}: a host of the ARPANET with its peers, and a subnet between hosts, as one C file beside ncp.h. Version {version}.
 *
 *     cc -O2 -Iinclude my_emulator.c {name}
 *
 * ncp.h says what each function does. This file is made, not written: of the sources with the sum
 * {sum},
 * by {kit}. Whoever wants to read how it works reads crates/ncp_embed there, and what it stands on.
 *
 * The library is proved: each function of the module below was proved to do what its contract says, before it was compiled. Between the
 * proof and this file stand a compiler for WebAssembly and a translation into C, which are trusted and tested, not proved. So are the C
 * by hand around the module, and your compiler. docs/EMBEDDING.md has the whole list. The memory of the module is not fenced in.
 *
 * It is C99, for machines with 8-bit bytes, 32 or 64-bit pointers that keep their value as a number, either order of bytes, negative
 * numbers in two's complement, and shifts of these to the right that keep the sign. It calls malloc, free, memcpy, memmove, memset, strlen,
 * and abort, which never happens. Nothing static is written.
 *
 * When it is compiled these may be defined:
 *     NCP_MALLOC, NCP_FREE    what is called in place of malloc and free
 *     NCP_IN                  ncp_new_in, which makes a host in memory that its caller lends, and ncp_size
 */
"""
PROGRAM_HEAD = """/* SPDX-License-Identifier: MIT AND BSD-3-Clause AND Unicode-3.0 */
/* {name}: the program ncp as one C file. Version {version}.
 *
 *     cc -O2 -o ncp {name}
 *
 * `ncp --help` says what it does. This file is generated from the sources with the sum
 * {sum}; their crates have the sum
 * {crates}.
 * It was made by {kit}. To read how it works, read crates/ncp there, and its dependencies.
 *
 * The program is proved: each function of the module below was proved to do what its contract says, before it was compiled. Between the
 * proof and this file are a compiler for WebAssembly and a translation into C, which are trusted and tested, not proved. So are the C
 * by hand before the module, which reads, writes and allocates, and your compiler. docs/EMBEDDING.md has the whole list. Nothing limits
 * the module to its own memory.
 *
 * It is C99, for POSIX and for Windows, and for machines with 8-bit bytes, 32 or 64-bit pointers that keep their value as a number, either
 * order of bytes, negative numbers in two's complement, shifts of these to the right that keep the sign, and a double of 64 bits.
 */
"""
LICENCE = """
/* The licence of this file, and of what it is compiled from beside the {what}, with the copyright lines:
 *
{owners}
 *
{texts}
 */
"""
# The licences that each file has. Only the program has tables of Unicode: which characters are printed unchanged.
UNICODE = "Unicode License v3"
TEXTS = {NAME: ("MIT", "BSD-3-Clause"), PROGRAM: ("MIT", "BSD-3-Clause", UNICODE)}


def commented(text):
    return "\n".join(f" * {it}".rstrip() for it in text.splitlines())


def owners(page, name, what):
    """The lines of the page's table that name a file: what is compiled in it, and whose it is."""
    table = page.partition("## Crates\n")[2].partition("\n## ")[0]
    rows = [line.strip("| ").split(" | ") for line in table.splitlines() if line.startswith("| `")]
    lines = [f"{after}: {licence}" + ("" if owner == "none" else f", {owner}") for _, after, licence, owner, files in rows if f"`{name}`" in files]
    if UNICODE in TEXTS[name]:
        lines.append("{}: {}, {}".format(*re.search(rf"\| (data of Unicode [\d.]+) \| ({UNICODE}) \| (.*?) \(", page).groups()))
    return [f"the {what}: MIT, Copyright (c) 2026 the Yaszkevo authors", *lines]


def licence_texts(page, names):
    """The texts of these licences, which the page quotes."""
    found = re.findall(rf"^### ({'|'.join(names)}).*?\n\n(?:[^>\n].*\n\n)?((?:>.*\n)+)", page, re.M)
    return "\n\n".join(f"{name}\n\n" + re.sub(r"^> ?", "", text, flags=re.M).strip() for name, text in found)


def licence(page, name, what):
    return LICENCE.format(what=what, owners=commented("\n".join(owners(page, name, what))), texts=commented(licence_texts(page, TEXTS[name])))


def in_ascii(text):
    """The text in letters that each compiler reads."""
    for letter, other in {"©": "(c)", "“": '"', "”": '"'}.items():
        text = text.replace(letter, other)
    return text


def part(name):
    return (HERE / name).read_text(encoding="utf-8")


def version_in(header):
    return re.search(r'#define NCP_VERSION "(.*)"', header)[1]


def version_of_program():
    return re.search(r'^const VERSION: &str = "(.*)";$', COMMAND_LINE.read_text(encoding="utf-8"), re.M)[1]


def program(module, sources, crates, kit):
    """The whole file of the program, from a module of the crate ncp, the sums of all sources and of those of the crates, and the name of the kit."""
    page = LICENCES.read_text(encoding="utf-8")
    head = PROGRAM_HEAD.format(name=PROGRAM, version=version_of_program(), sum=sources, crates=crates, kit=kit)
    parts = "\n".join(part(it) for it in ("headers.h", "numbers.h", "floats.h", "blocks.h", "system.h"))
    need_all(module, parts)
    return in_ascii("".join([head, licence(page, PROGRAM, "program"), "\n", parts, "\n/* The module. */\n", Translation(module, "module_", is_program=True).text(),
                             "\n", part("main.h")]))


def need_all(module, text):
    """Refuses a module that calls a function that the C by hand lacks, or does not call one that it has."""
    wanted, there = {name for name, _ in module.imports}, set(re.findall(r"^static \w+ import_(\w+)\(", text, re.M))
    if wanted != there:
        raise Refused(f"functions that C by hand lacks: {', '.join(sorted(wanted - there)) or 'none'}; or that are not called: {', '.join(sorted(there - wanted)) or 'none'}")


def library(module, sources, _crates, kit):
    """The whole file of the library, of a module of the crate ncp_embed, the sum of the sources, and the name of the kit."""
    header, checks, page = (path.read_text(encoding="utf-8") for path in (HEADER, CHECKS, LICENCES))
    translation = Translation(module, "module_")
    first = shim.PROTOTYPE.search(checks).start()
    before, after = checks[:first], shim.PROTOTYPE.sub("", checks[first:])
    head = HEAD.format(name=NAME, version=version_in(header), sum=sources, kit=kit)
    return in_ascii("".join([head, licence(page, NAME, "library"), '\n#include "ncp.h"\n\n', part("numbers.h"), "\n", part("heap.h"), "\n/* The module. */\n", translation.text(),
                    "\n", re.sub(r'^/\* SPDX.*\n|^#include "ncp.h"\n', "", before, flags=re.M), part("around.h"), "\n",
                    shim.shim(header, checks, translation.takes_heap_by_name), part("by_hand.h"), after, part("lent.h")]))
