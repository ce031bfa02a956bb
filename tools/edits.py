"""The files of mutants: edits of a crate that the prover has to refuse.

The gate tries those of crates/CRATE/must-fail, each in its own file, NAME.edit. The others are in mutants/CRATE.edits, all of
a crate in the order of their names:

    edit: NAME
    above: OTHER          if a law of another crate has to refuse it
    file: src/bits.rt
    old: a text that occurs there once
    new: its replacement

Further lines `old:` and `new:` are for the same file, after the edits before them.

mutants/refused.csv has the clause that refused each in a full run: its file, its function, and its name, empty if the clause
has none. tools/refusals writes it. mutants/planted.csv is written by tools/planted.
"""
import csv
import os
import re
from collections import Counter
from typing import NamedTuple

ENDING, PASSED = ".edits", ".passed"
REFUSALS, PLANTED = "refused.csv", "planted.csv"
COLUMNS = ["edit", "file", "function", "clause"]
NAME = re.compile(r"[A-Za-z0-9_-][A-Za-z0-9_.-]*")
PARTS = ("src/", "specs/", "proofs/")


class Edit(NamedTuple):
    """An edit of a crate, by its name. Its lines are those of the toolchain's form, and the line `above:`."""
    crate: str
    name: str
    lines: tuple

    @property
    def label(self):
        return f"{self.crate}/{self.name}"

    @property
    def text(self):
        return "".join(f"{line}\n" for line in self.lines)

    @property
    def above(self):
        """The crate that has to refuse the edit, if it is not its own."""
        return next((line.removeprefix("above: ") for line in self.lines[:1] if line.startswith("above: ")), None)

    @property
    def changes(self):
        """The file, the old text and the new one of each change."""
        file = old = None
        found = []
        for line in self.lines:
            word, _, text = line.partition(": ")
            if word == "file":
                file = text
            elif word == "old":
                old = text
            elif line.startswith("new:") and file and old:
                found.append((file, old, text))
                old = None
        return found


def text_of(path):
    with open(path, encoding="utf-8") as file:
        return file.read()


def lines_of(text):
    return tuple(line for line in text.split("\n") if line.strip())


def wrong_lines(edit):
    """The errors in the lines of a single edit."""
    file = old = None
    found = []
    for number, line in enumerate(edit.lines):
        word, _, text = line.partition(":")
        if word not in ("above", "file", "old", "new") or not text.startswith(" ") and line != "new:":
            found.append(f"no line of an edit: {line}")
        elif word == "above" and number:
            found.append("a line 'above:' is not its first")
        elif word == "file":
            file = text.strip()
            if os.path.normpath(file) != file or not file.startswith(PARTS):
                found.append(f"{file} is no file below {', '.join(PARTS)}")
        elif word == "old":
            found += ["an old text without a new one"] if old else []
            old = text
        elif word == "new":
            found += [] if file else ["a new text without a file"]
            found += [] if old else ["a new text without an old one"]
            old = None
    if old:
        found.append("an old text without a new one")
    return found if found or edit.changes else ["it has no old text and no new one"]


def turned(edit, folder):
    """The texts of the files that an edit changes, by their paths in the crate's folder, and why it cannot be done, if so."""
    texts = {}
    for file, old, new in edit.changes:
        if file not in texts:
            if not os.path.isfile(f"{folder}/{file}"):
                return {}, f"there is no {file}"
            texts[file] = text_of(f"{folder}/{file}")
        count = texts[file].count(old)
        if count != 1:
            return {}, f"an old text is in {file} {count} times, and not once: {old.strip()}"
        texts[file] = texts[file].replace(old, new)
    return texts, None


def parsed(crate, text):
    """The edits of a file of edits, and the lines before the first."""
    front, *parts = re.split(r"^edit: ", text, flags=re.M)
    edits = [Edit(crate, name, lines_of(rest)) for name, _, rest in (part.partition("\n") for part in parts)]
    return edits, lines_of(front)


def of_gate(top, crate):
    """The edits of a crate that the gate tries."""
    folder = f"{top}/crates/{crate}/must-fail"
    names = sorted(it for it in os.listdir(folder) if it.endswith(".edit")) if os.path.isdir(folder) else []
    return [Edit(crate, it.removesuffix(".edit"), lines_of(text_of(f"{folder}/{it}"))) for it in names]


def of_crate(top, crate):
    """The other edits of a crate."""
    path = f"{top}/mutants/{crate}{ENDING}"
    return parsed(crate, text_of(path))[0] if os.path.isfile(path) else []


def refusals(top):
    """The file, the function and the clause that refused edits in a whole run, by their labels."""
    path = f"{top}/mutants/{REFUSALS}"
    if not os.path.isfile(path):
        return {}
    with open(path, encoding="utf-8", newline="") as file:
        return {label: tuple(place) for label, *place in list(csv.reader(file))[1:]}


def write_refusals(top, found):
    """Writes the file that `refusals` reads, in the order of the labels."""
    with open(f"{top}/mutants/{REFUSALS}", "w", encoding="utf-8", newline="") as file:
        csv.writer(file, lineterminator="\n").writerows([COLUMNS, *([label, *found[label]] for label in sorted(found))])


def wrong_file(top, crates, crate):
    """The errors in the edits of one crate."""
    if crate not in crates:
        return ["there is no such crate"]
    found, front = parsed(crate, text_of(f"{top}/mutants/{crate}{ENDING}"))
    names = Counter(it.name for it in (*found, *of_gate(top, crate)))
    wrong = [f"a line in front of the first edit: {line}" for line in front]
    for last, edit in zip([*found[:1], *found], found):
        said = wrong_lines(edit)
        said += [] if NAME.fullmatch(edit.name) else ["a name is of letters, digits, _, - and ."]
        said += ["another has this name"] if names[edit.name] > 1 else []
        said += [f"its place is in front of {last.name}"] if last.name > edit.name else []
        said += [f"there is no crate {edit.above}"] if edit.above and edit.above not in crates else []
        why = None if said else turned(edit, f"{top}/crates/{crate}")[1]
        wrong += [f"{edit.name}: {it}" for it in (*said, *filter(None, [why]))]
    return wrong


def wrong(top, crates):
    """The errors in the form of the edits that the gate does not try: lines with their files."""
    files = sorted(os.listdir(f"{top}/mutants")) if os.path.isdir(f"{top}/mutants") else []
    named = [it.removesuffix(ENDING) for it in files if it.endswith(ENDING)]
    known = {REFUSALS, PLANTED, *(f"{it}{ending}" for it in named for ending in (ENDING, PASSED))}
    return [f"mutants/{it}: no file of edits, and of none what was passed" for it in files if it not in known] + [
        f"mutants/{it}{ENDING}: {why}" for it in named for why in wrong_file(top, crates, it)]
