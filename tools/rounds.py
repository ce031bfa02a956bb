"""Edits that one check tries: a round has edits of the bodies of different functions.

What is proved of a function rests on its own body, and on no other body: of the functions that it calls the contracts count. So a
function of a round that is not proved is one whose contract refuses the edit of its own body. An edit that changes anything but
one body, or whose function is proved all the same, is tried alone: then another function may refuse it.
"""
import re
from typing import NamedTuple

import edits as mutants
from reading import Function, crates, text_of

FUNCTION = re.compile(r"^fn (\S+): (?P<unproved>not proved|no proof)?")
PLACE = re.compile(r"^(?:note: )?(?:\./)?(?P<file>\S+?):(?P<line>\d+):\d+:")
# A proof that names what an edit has removed: this shows little of the contract.
OF_NAMES = re.compile(r"(?:\./)?proofs/.*(?:has no field|is not in scope|has no `|was not admitted)")


class Turned(NamedTuple):
    """An edit of one body: its function, the first and the last line of the body, and the lines that it changes."""
    edit: mutants.Edit
    function: Function
    first: int
    last: int
    lines: dict

    @property
    def names(self):
        """What the prover may print as the function's name: a method stands in the module of its type, whose name may be followed by
        parameters and by a trait."""
        it, owner = self.function, self.function.owner
        if not owner:
            return re.escape("::".join([self.edit.crate, *it.crate.module_of(it.path), it.name]))
        return rf"{self.edit.crate}::(?:\w+::)*{owner.name}(?:\+\w+)*{f'{owner.of_trait}[+A-Za-z0-9_]*' if owner.of_trait else ''}::{it.name}"


def body_of(it, lines):
    """The numbers of the lines with the brackets of a function's body, if these have their own lines."""
    indent = "    " if it.owner else ""
    level = [number for number in range(it.line, it.last + 1) if re.match(rf"{indent}\S", lines[number - 1])]
    first = next((number for number in level if lines[number - 1].endswith("{") and not re.match(r"\s*(requires|ensures)\b", lines[number - 1])), None)
    last = next((number for number in level if first and number > first and lines[number - 1] == f"{indent}}}"), None)
    return (first, last) if last else None


def turned(edit):
    """The edit with the body that it changes, if it changes nothing else."""
    crate = crates()[edit.crate]
    texts, why = mutants.turned(edit, crate.folder)
    if why or len(texts) != 1 or edit.above:
        return None
    (file, text), = texts.items()
    was, now = text_of(crate.folder / file).split("\n"), text.split("\n")
    lines = {number: new for number, (old, new) in enumerate(zip(was, now), 1) if old != new}
    for it in crate.functions:
        body = body_of(it, was) if it.path == crate.folder / file and len(was) == len(now) and lines else None
        if body and all(body[0] < number < body[1] for number in lines):
            return Turned(edit, it, *body, lines)
    return None


def in_rounds(edits):
    """The rounds of the edits of a crate, and the edits that are in none, or would be the only one of theirs."""
    rounds, alone = [], []
    for edit in edits:
        found = turned(edit)
        if not found:
            alone.append(edit)
            continue
        free = next((it for it in rounds if all(each.function is not found.function for each in it)), None)
        if free is None:
            rounds.append(free := [])
        free.append(found)
    return [it for it in rounds if len(it) > 1], alone + [it[0].edit for it in rounds if len(it) == 1]


def texts_of(round_):
    """The texts of the files that a round changes, by their paths in the crate's folder."""
    found = {}
    for it in round_:
        path = it.function.path
        lines = found.setdefault(str(path.relative_to(it.function.crate.folder)), text_of(path).split("\n"))
        for number, line in it.lines.items():
            lines[number - 1] = line
    return {file: "\n".join(lines) for file, lines in found.items()}


def is_of(it, name, line):
    """Whether a line of the prover's is about a function, which it prints with this name, or about its proof."""
    at = PLACE.match(line)
    if not at:
        return False
    own = it.function.path.relative_to(it.function.crate.folder)
    return at["file"] == str(own) and it.function.line <= int(at["line"]) <= it.last or at["file"].startswith("/".join(["proofs", *name.split("::")[1:], ""]))


def refused(round_, lines):
    """The edits of a round that their functions refuse, with the first line about that, from the output of its check."""
    functions = {found[1]: found["unproved"] for found in map(FUNCTION.match, lines) if found}
    found = {}
    for it in round_:
        names = [name for name in functions if re.fullmatch(it.names, name)]
        told = [line for line in lines if len(names) == 1 and functions[names[0]] and is_of(it, names[0], line)
                and not OF_NAMES.match(line) and (": error" in line or line.startswith("note: "))]
        if told:
            found[it.edit.name] = told[0]
    return found
