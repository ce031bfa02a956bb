"""The compilers that the C files are tried with, and what runs their programs here."""
import os
import shutil
from typing import NamedTuple


class Compiler(NamedTuple):
    name: str
    words: tuple
    # The command prefix that runs a program.
    runner: tuple = ()
    # Whether ./test has it too, and not ./test everywhere alone.
    is_usual: bool = False
    # Whether it is to find nothing to warn of.
    is_strict: bool = True

    def lacks(self):
        """The commands of it that are not here."""
        return [it for it in (*self.words[:1], *self.runner[:1]) if shutil.which(it) is None]


def cross(name, prefix, runner, is_usual=False):
    return Compiler(name, (f"{prefix}-gcc", "-O1", "-static"), (runner,), is_usual)


COMPILERS = (
    Compiler("gcc", ("gcc", "-O2"), is_usual=True),
    Compiler("clang", ("clang", "-O2"), is_usual=True),
    Compiler("tcc", ("tcc",), is_usual=True, is_strict=False),
    cross("s390x, 64 bits, big endian", "s390x-linux-gnu", "qemu-s390x", True),
    cross("armhf, 32 bits", "arm-linux-gnueabihf", "qemu-arm", True),
    Compiler("musl", ("musl-gcc", "-O2", "-static")),
    cross("i686, 32 bits", "i686-linux-gnu", "qemu-i386"),
    cross("aarch64", "aarch64-linux-gnu", "qemu-aarch64"),
    cross("riscv64", "riscv64-linux-gnu", "qemu-riscv64"),
    cross("powerpc, 32 bits, big endian", "powerpc-linux-gnu", "qemu-ppc"),
    cross("powerpc64le", "powerpc64le-linux-gnu", "qemu-ppc64le"),
    Compiler("Windows", ("x86_64-w64-mingw32-gcc", "-O2", "-static"), ("/usr/lib/wine/wine64",)),
)
STRICT = ("-std=c99", "-Wall", "-Wextra", "-pedantic", "-Werror")


def those_here(is_everywhere):
    """The compilers that are here, of the usual ones or of all. Each that is not is named."""
    found = []
    for it in COMPILERS:
        if not (it.is_usual or is_everywhere):
            continue
        lacks = it.lacks()
        if lacks:
            print(f"  left out: {it.name}, since {' and '.join(lacks)} is not here", flush=True)
        else:
            found.append(it)
    return found


def around(folder):
    """The environment of their programs. Wine makes its files in this folder."""
    return {**os.environ, "WINEPREFIX": f"{folder}/wine", "WINEDEBUG": "-all"}
