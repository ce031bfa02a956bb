"""The inputs on which the prover's verdict on an edit depends, and their sum.

- Of the edit's own crate: all code and definitions, without comments. No proofs: a false clause has none.
- Of the crates below: the definitions reachable from the clauses of the functions that it changes, the contracts of the
  functions that these name, and the data that either mentions. Of data with a view only its public part.

Reachability is by names, as in docs/believed.py: a name counts for all that it can mean, so the list may be too long, never too
short. The functions that an edit changes are those with changed lines in their bodies; for a changed definition, those that
reach a definition of its file. An edit of anything else, such as a constant or a contract, counts as one of all functions of
its crate, and so does an edit that a law of another crate has to refuse; then it depends on that crate too.
"""
import difflib
import functools
import hashlib
import os
import re

import edits as mutants
import once

TOP = os.path.dirname(os.path.dirname(os.path.abspath(__file__)))
CRATES = f"{TOP}/crates"
reading = once.loaded(f"{TOP}/tools/reading.py")
believed = once.loaded(f"{TOP}/docs/believed.py")
# The first line of a declaration, and its last: a closing bracket where it began, or the first line itself.
DECLARES = re.compile(r"\s*(?:pub(?:\(\w+\))? )?(struct|enum|type|const(?! fn)|static|trait) (\w+)")
ENDS_ON_ITS_LINE = re.compile(r"[;}]$")
ENDS = re.compile(r"[\]})]")
# Data of which others see a view, not the fields; and the visible part of an implementation: all except what is about the fields.
VIEWED = re.compile(r"^impl(?:<[^>]*>)? Model for (\w+)")
SEEN = re.compile(r"\s+(?:pub )?ghost (?!use\b|view\b|coded\b|invariant\b)\w+")
ENDS_WHAT_IS_SEEN = re.compile(r".*;$")
IMPORTS = re.compile(r"\s*(?:(?:pub(?:\(\w+\))?|ghost) )*use ")
RENAMED = re.compile(r"\b(\w+) as (\w+)")
WORD = re.compile(r"(\.|::)?(?<![\w'])([A-Za-z_]\w*)(\(|::<)?")
# The methods of traits that are called without being named.
UNNAMED = ("cmp", "deref", "deref_mut", "drop", "eq", "fmt", "from", "index", "index_mut", "into_iter", "ne", "next", "partial_cmp")
# The digits of a sum.
SUM = 32


@functools.cache
def lines_of(path):
    """The lines of a file without comments: nothing rests on these."""
    begins = "--" if path.endswith(".antt") else "//"
    return [without_comment(line, begins) for line in mutants.text_of(f"{CRATES}/{path}").splitlines()]


def without_comment(line, begins):
    """A line up to its comment, if it has one: a string may have the same characters."""
    if line.lstrip().startswith(begins):
        return ""
    found = re.match(rf"""((?:"(?:\\.|[^"\\])*"|'"'|(?!\s{begins} )[^"])*)\s+{begins} """, line)
    return found[1].rstrip() if found else line


def text_of(lines):
    return "".join(f"{line}\n" for line in lines if line.strip())


@functools.cache
def files_of(crate, part):
    found = [f"{at}/{name}" for at, _, names in os.walk(f"{CRATES}/{crate}/{part}") for name in names]
    return sorted(os.path.relpath(it, CRATES) for it in found)


@functools.cache
def reach_of_names(crate):
    """A crate and those below it, whose names it can use."""
    return sorted({crate, *reading.below(crate)})


def crate_of(path):
    return path.partition("/")[0]


# --- functions

class Function:
    """A function with the lines of its contract and of its body."""

    def __init__(self, found):
        self.path = os.path.relpath(found.path, CRATES)
        self.name, self.owner, self.first = found.name, found.owner, found.line - 1
        lines = lines_of(self.path)
        indent = re.match(" *", lines[self.first])[0]
        numbers = range(self.first, len(lines))
        # Its head ends with the bracket of its body, or of a function that has none with a semicolon.
        self.opened = next(it for it in numbers if lines[it].endswith(";") or re.match(rf"{indent}\S.*[{{}}]$|{indent}[{{}}]$", lines[it]))
        has_lines = lines[self.opened].endswith("{")
        self.last = next(it for it in numbers if it > self.opened and lines[it] == f"{indent}}}") if has_lines else self.opened

    @property
    def contract(self):
        return text_of(lines_of(self.path)[self.first : self.opened + 1])

    @property
    def text(self):
        return text_of(lines_of(self.path)[self.first : self.last + 1])


@functools.cache
def functions_of(crate):
    return [Function(it) for it in reading.crates()[crate].functions]


@functools.cache
def functions_named(crate):
    """The functions that a crate can call, by their names."""
    found = {}
    for name in reach_of_names(crate):
        for it in functions_of(name):
            found.setdefault(it.name, []).append(it)
    return found


def called_in(crate, text):
    """The functions that a text of a crate can call."""
    known = functions_named(crate)
    for before, name, behind in WORD.findall(text):
        is_called = behind or before == "::"
        yield from (it for it in known.get(name, ()) if is_called or not it.owner and before != ".")
    for name in UNNAMED:
        yield from (it for it in known.get(name, ()) if it.owner and it.owner.of_trait)


# --- data

def declared_in(path):
    """The lines of a file of code that declare data: types, constants and traits, with their implementations' declarations; of data
    with a view no field that is not `pub`."""
    lines = lines_of(path)
    viewed = {found[1] for found in map(VIEWED.match, lines) if found}
    kept, ends, is_viewed = [], None, False
    for line in lines:
        begins, is_seen = (None, None) if ends else (DECLARES.match(line), SEEN.match(line))
        if begins:
            ends, is_viewed = ENDS, begins[1] == "struct" and begins[2] in viewed
        elif is_seen:
            ends = ENDS_WHAT_IS_SEEN
        is_end = ends and ends.match(line) or begins and ENDS_ON_ITS_LINE.search(line)
        if ends and (begins or is_end or not is_viewed or line.strip().startswith("pub")):
            kept.append(line)
        if is_end:
            ends, is_viewed = None, False
    return kept


@functools.cache
def frame_of(path):
    """A file of code without its functions, and without what it imports."""
    inside = {number for it in functions_of(crate_of(path)) if it.path == path for number in range(it.first, it.last + 1)}
    return text_of(line for number, line in enumerate(lines_of(path)) if number not in inside and not IMPORTS.match(line))


@functools.cache
def types_named(crate):
    """The files that declare the types, constants and traits that a crate can name."""
    found = {}
    for name in reach_of_names(crate):
        for path in files_of(name, "src"):
            for declared in filter(None, map(DECLARES.match, lines_of(path))):
                found.setdefault(declared[2], set()).add(path)
    return found


@functools.cache
def renamed_in(path):
    """The names of other code to which the imports of a file give another one, with that."""
    return [it for line in lines_of(path) if IMPORTS.match(line) and "ghost" not in line for it in RENAMED.findall(line)]


def unrenamed(path, text):
    """A text of a file of code with the names for which it has others."""
    return text + "".join(f"{old}(\n" for old, new in renamed_in(path) if re.search(rf"\b{new}\b", text))


def types_in(crate, text):
    known = types_named(crate)
    return {path for name in set(re.findall(r"\b[A-Z]\w*", text)) for path in known.get(name, ())}


# --- what is reached: a definition, the data of a file of code, the contract of a function, each with its file and its name

@functools.cache
def reached_from(kind, path, name):
    """The names that one thing uses directly."""
    if kind == "definition":
        return frozenset(map(named, believed.named_by(path, name)))
    owners = [owned_by(it) for it in functions_of(crate_of(path)) if kind == "contract" and (it.path, it.name) == (path, name)]
    return named_in(path, contents(kind, path, name)).union(*owners)


def named(found):
    path, name = found
    return ("definition", path, name) if name else ("data", path, "")


def contents(kind, path, name):
    """The text of all that can be reached, which counts in the sum of an edit of another crate."""
    if kind == "definition":
        return text_of(believed.file_at(path).lines[name])
    if kind == "data":
        return text_of(declared_in(path))
    return "".join(it.contract for it in functions_of(crate_of(path)) if (it.path, it.name) == (path, name))


def named_in(path, text):
    """The names in a text of a file of code, except the functions that it calls."""
    data = types_in(crate_of(path), unrenamed(path, text))
    return frozenset({*map(named, believed.cited(path, text)), *(("data", it, "") for it in data)})


@functools.cache
def named_in_frame(path):
    return named_in(path, frame_of(path))


def owned_by(it):
    """The data that a function is a method of, and the trait."""
    owners = (it.owner.name, it.owner.of_trait) if it.owner else ()
    return {("data", path, "") for name in owners for path in types_named(crate_of(it.path)).get(name, ())}


def begun_at(it, more=""):
    """The names in a function: its contract, its body, and further lines in its place."""
    text = unrenamed(it.path, it.text + more)
    calls = {("contract", other.path, other.name) for other in called_in(crate_of(it.path), text)}
    return {*named_in(it.path, text), *named_in_frame(it.path), *owned_by(it), *calls}


def begun_at_all(crate):
    """The names in all code and all definitions of a crate."""
    found = {("definition", path, name) for path in files_of(crate, "specs") for name in believed.file_at(path).lines}
    for it in functions_of(crate):
        found |= begun_at(it)
    return found.union(*map(named_in_frame, files_of(crate, "src")))


def reached(start, crate):
    """All that is reached, right away or through others. Of the crate's own data its hidden fields and its view count too."""
    found, todo = set(), list(start)
    while todo:
        one = todo.pop()
        if one not in found:
            found.add(one)
            todo += reached_from(*one)
            kind, path, _ = one
            if kind == "data" and crate_of(path) == crate:
                todo += named_in_frame(path)
    return found


@functools.cache
def reached_by_all(crate):
    return frozenset(reached(begun_at_all(crate), crate))


@functools.cache
def reached_by(crate, number):
    """All that one function of a crate reaches."""
    return frozenset(reached(begun_at(functions_of(crate)[number]), crate))


# --- edits

def turned_functions(crate, path, text):
    """The functions in whose bodies a new text of a file of code differs, or None if it differs elsewhere too."""
    was, found = mutants.text_of(f"{CRATES}/{path}").splitlines(), []
    for kind, first, last, _, _ in difflib.SequenceMatcher(None, was, text.splitlines(), autojunk=False).get_opcodes():
        if kind != "equal":
            inside = [it for it in functions_of(crate) if it.path == path and it.opened < first and max(first + 1, last) <= it.last]
            if not inside:
                return None
            found += inside
    return found


def reached_by_body(crate, path, text, more):
    """The names reachable from the functions in whose bodies a file of code differs, and from the new lines; None if it differs elsewhere too."""
    functions = turned_functions(crate, path, text)
    return None if functions is None else reached(set().union(*(begun_at(it, more) for it in functions)), crate)


def reached_by_definitions(crate, path, more):
    """The names reachable from the functions of a crate that reach a definition of this file, and from its new lines; None if there is none."""
    each = [reached_by(crate, number) for number in range(len(functions_of(crate)))]
    those = [it for it in each if any(kind == "definition" and at == path for kind, at, _ in it)]
    return reached(map(named, believed.cited(path, more)), crate).union(*those) if those else None


def reached_by_edit(edit):
    """The inputs that must be unchanged for an edit that its own crate has to refuse."""
    crate, found = edit.crate, set()
    more = text_of(new for _, _, new in edit.changes)
    for file, text in mutants.turned(edit, f"{CRATES}/{crate}")[0].items():
        path, folder = f"{crate}/{file}", file.partition("/")[0]
        these = reached_by_body(crate, path, text, more) if folder == "src" else reached_by_definitions(crate, path, more) if folder == "specs" else None
        if these is None:
            return reached_by_all(crate)
        found |= these
    return found


@functools.cache
def sum_of_own(crate):
    """The sum of a crate's own code and definitions."""
    summed = hashlib.sha256()
    for path in (*files_of(crate, "src"), *files_of(crate, "specs")):
        summed.update(f"{path}\n{text_of(lines_of(path))}".encode())
    return summed.hexdigest()


@functools.cache
def sum_of_one(one):
    return hashlib.sha256(f"{' '.join(one)}\n{contents(*one)}".encode()).hexdigest()


def sum_of(edit):
    """The sum of an edit with its inputs."""
    own = [it for it in (edit.crate, edit.above) if it]
    found = reached_by_edit(edit) if not edit.above else frozenset().union(*map(reached_by_all, own))
    summed = hashlib.sha256(edit.text.encode())
    for text in (*map(sum_of_own, own), *sorted(sum_of_one(it) for it in found if crate_of(it[1]) not in own)):
        summed.update(text.encode())
    return summed.hexdigest()[:SUM]
