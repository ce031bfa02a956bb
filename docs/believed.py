#!/usr/bin/env python3
"""Prints the definitions on which a statement rests, as rows `file,definition,lines`, and how many they are.

    docs/believed.py                of the headline, from the record that the clauses `headline` cite, and of the conclusion that each
                                    pair is a pipe; status 1 if docs/believed.csv has not these and no others, or if one of the two
                                    has more lines than it may
    docs/believed.py FILE NAME      of a definition of a file under crates/, or of the clauses of a function of a file of code:
                                    premises and conclusion apart

A definition rests on those that its own lines name. Names that are bound in a line count too where a definition has the
same name, so the list may be too long, never too short; a module with parameters counts whole. Comments and blank lines are
not counted."""
import csv
import functools
import os
import re
import sys

TOP = os.path.join(os.path.dirname(os.path.abspath(__file__)), "..")
CRATES = os.path.join(TOP, "crates")
LISTED = os.path.join(TOP, "docs", "believed.csv")
HEADLINE = ("ncp_statement/specs/Statement.antt", "Headline")
PIPE = ("ncp_proof_pipe/src/notes.rt", "each_pair_is_a_pipe")
# What the headline, and the conclusion that each pair is a pipe, may have beside the plain types of notes.
MOST_LINES = {"headline": 400, "pipe": 450}

USE = re.compile(r"^ *(?:(?:ghost|unfoldable|pub) )*use Rattle\.(\w+)\.((?:specs|proofs)\.[\w.]+?)(?:\.\{([^}]*)\})?(?: as (\w+))?;?$", re.M)
HEAD = re.compile(r"^(?:(?:pub|abbrev|unfoldable|opaque|data|record) )+(?=[\w'◌-])")
NAME = re.compile(r"[^\s:({]+")
WORD = re.compile(r"(?<![\w.'-])(?:(\w+)\.)?([\w'-]+)")
CONSTRUCTOR = re.compile(r"\s+(?:pub )?(\w+) :")
DATA = re.compile(r"^(?:pub )?data ")
# A definition in a module of parameters, which is taken with the whole module.
INSIDE = re.compile(r"(?:  |    (?=abbrev |(?:pub )?(?:data|record) ))(?:(?:pub|abbrev|unfoldable|opaque|data|record) )+([^\s:({]+)")
TOKEN = re.compile(r"[()\[\]{}]|[^\s()\[\]{}]+")
OPENS, CLOSES = "([{", ")]}"
# What a function of code ensures, up to its body.
ENSURES = re.compile(r"^ *ensures\*? ?(\w*) ?\{", re.M)
BODY = re.compile(r"^ *\{", re.M)
# Parameters that a definition may have before its equation is put in its place.
PLAIN = re.compile(r"\w[\w'-]*")


def path_of(crate, module):
    """The file of a module of definitions, or of the plain data that is declared in the code, if it is this repository's."""
    folder, first, *rest = module.split(".")
    if first in ("declared", "contracts"):
        paths = [f"{crate}/src/{'/'.join(rest[:end])}.rt" for end in range(len(rest), 0, -1)]
    else:
        paths = [f"{crate}/{folder}/{first}.antt"]
    return next((it for it in paths if os.path.exists(os.path.join(CRATES, it))), None) or passed_on(crate, folder, first)


@functools.cache
def passed_on(crate, folder, name):
    """The file of a module of another crate that this one passes on as its own."""
    lib = f"{crate}/{folder}/Lib.antt"
    text = text_of(lib) if os.path.exists(os.path.join(CRATES, lib)) else ""
    found = re.search(rf"^pub use Rattle\.(\w+)\.({folder}\.{name})$", text, re.M)
    return path_of(*found.groups()) if found else None


def text_of(path):
    with open(os.path.join(CRATES, path), encoding="utf-8") as file:
        return file.read()


class File:
    """What one file of definitions names and defines, and on which lines a definition stands."""

    def __init__(self, path):
        self.names, self.modules, self.lines, self.makers, self.places, self.library = {}, {}, {}, {}, {}, {}
        text = text_of(path)
        for crate, module, names, alias in USE.findall(text):
            used = path_of(crate, module)
            for name in names.split(",") if names else ():
                old, _, new = name.strip().partition(" as ")
                if used:
                    self.names.setdefault(new or old, []).append((used, old))
                else:
                    self.library[new or old] = f"{crate}.{module}"
            if used and not names:
                self.modules[alias or module.split(".")[-1]] = used
        if path.endswith(".antt"):
            self.read(text)
        self.signs = [it for it in (*self.names, *self.lines) if "◌" in it]

    def read(self, text):
        at = None
        for number, line in enumerate(text.split("\n"), 1):
            line = line.split("--")[0].rstrip()
            head, inside = HEAD.match(line), INSIDE.match(line)
            if line.startswith("module "):
                at = line
                self.lines.setdefault(at, []).append(line)
            elif inside and at in self.lines and at.startswith("module "):
                self.makers[inside.group(1)] = at
                self.lines[at].append(line)
            elif head:
                at = NAME.match(line, head.end()).group()
                self.lines[at] = [line]
            elif line.startswith(("use ", "pub use ", "unfoldable pub use ")):
                at = None
            elif line and at:
                self.lines[at].append(line)
                made = CONSTRUCTOR.match(line)
                if made and DATA.match(self.lines[at][0]):
                    self.makers[made.group(1)] = at
            if line and at:
                first, _ = self.places.get(at, (number, number))
                self.places[at] = first, number


file_at = functools.cache(File)


def known(path, name):
    """The definitions that a name of a file can stand for, which is one but where parts of a file of code have imports of their own."""
    file = file_at(path)
    if name in file.lines:
        return [(path, name)]
    if name in file.makers:
        return [(path, file.makers[name])]
    return [it for used, old in file.names.get(name, ()) for it in meant(used, old)]


def meant(path, name):
    """What another file takes of this one by a name: a definition, or of code, which declares plain data, the file alone."""
    return [(path, "")] if path.endswith(".rt") else known(path, name)


def cited(path, text):
    """What a text cites by the names of a file."""
    file = file_at(path)
    for module, word in WORD.findall(text):
        yield from meant(file.modules[module], word) if module in file.modules else known(path, module or word)
    for name in file.signs:
        if all(sign in text for sign in name.split("◌")):
            yield from known(path, name)


@functools.cache
def named_by(path, name):
    return frozenset(cited(path, "\n".join(file_at(path).lines[name])))


def rests_on(*starts):
    found, todo = set(), list(starts)
    while todo:
        one = todo.pop()
        if one not in found:
            found.add(one)
            todo += named_by(*one) if one[1] else []
    return found


# --- premises and conclusion

def read(path, text):
    """The tokens of a text, each with the file by whose names it is read."""
    return [(token, path) for token in TOKEN.findall(text)]


def said(tokens):
    """Tokens as one text."""
    text = " ".join(token for token, _ in tokens)
    return re.sub(r"(?<=[(\[{]) | (?=[)\]}])|(?<=[)\]}]) (?=\.\w)", "", text)


def cited_by(tokens):
    """What tokens cite, each by the names of its own file."""
    texts = {}
    for token, path in tokens:
        texts.setdefault(path, []).append(token)
    return {it for path, those in texts.items() for it in cited(path, " ".join(those))}


def cut(tokens, sign):
    """The parts of tokens between the signs that stand in no brackets."""
    parts, depth = [[]], 0
    for one in tokens:
        depth += (one[0] in OPENS) - (one[0] in CLOSES)
        if one[0] == sign and not depth:
            parts.append([])
        else:
            parts[-1].append(one)
    return parts


def groups(tokens):
    """The tokens as an application has them: single ones, and those in brackets with these."""
    found, depth = [], 0
    for one in tokens:
        depth -= one[0] in CLOSES
        if depth or one[0] in CLOSES:
            found[-1].append(one)
        else:
            found.append([one])
        depth += one[0] in OPENS
    return found


def bare(tokens):
    """An application without brackets around it or around its head."""
    each = groups(tokens)
    while each and each[0][0][0] == "(":
        each = [*groups(each[0][1:-1]), *each[1:]]
    return each


def equation_of(path, name):
    """The parameters and the right side of a definition that is one equation with plain parameters."""
    lines = file_at(path).lines[name]
    begins = [at for at, line in enumerate(lines) if re.match(re.escape(name) + r"( |$)", line)]
    if len(begins) != 1 or DATA.match(lines[0]):
        return None
    left, *right = cut(read(path, "\n".join(lines[begins[0]:])), "=")
    parameters = [token for token, _ in left[1:]]
    return (parameters, [one for at, part in enumerate(right) for one in ([("=", path)] if at else []) + part]) if right and all(map(PLAIN.fullmatch, parameters)) else None


def unfolded(tokens):
    """The definition at the head of an application, and what it says of its arguments; or nothing, if it is none that can be put there."""
    head, *arguments = bare(tokens) or [[]]
    if len(head) != 1 or any(one[0] in ("×", "≡", "⊎", "↔", "let", "λ") for one in [head[0], *(it[0] for it in arguments)]):
        return None
    (token, path), = head
    found = [it for it in cited(path, token) if it[1]]
    equation = equation_of(*found[0]) if len(found) == 1 and not token[:1] == "." else None
    if not equation or len(equation[0]) != len(arguments):
        return None
    given = dict(zip(equation[0], arguments))
    return found[0], [one for it in equation[1] for one in put(given, it)]


def put(given, one):
    """What stands in the place of a token, if it is a parameter or begins with one."""
    name, dot, fields = one[0].partition(".")
    if name not in given:
        return [one]
    argument = given[name]
    if not dot:
        return argument
    return [(f"{argument[0][0]}.{fields}", argument[0][1])] if len(argument) == 1 else [*argument, (f".{fields}", one[1])]


def apart(tokens):
    """The premises of a statement, its conclusion, and the definitions that were put in their places to find them."""
    *premises, last = cut(tokens, "→")
    one = unfolded(last)
    if one:
        more, conclusion, names = apart(one[1])
        if more:
            return [*premises, *more], conclusion, [one[0], *names]
    return premises, last, []


def binds(premise):
    """Whether a part before an arrow says no more than which names there are."""
    return all(it[0][0] in ("(", "{") and len(it) > 3 and any(one[0] == ":" for one in it) for it in groups(premise))


class Statement:
    """A statement, as the names of a file read its text: its premises, its conclusion, and on what each rests."""

    def __init__(self, path, text):
        found, self.conclusion, names = apart(read(path, text))
        self.premises = [it for it in found if not binds(it)]
        self.all = rests_on(*cited(path, text))
        self.of_conclusion = rests_on(*cited_by(self.conclusion)) | {*names}
        self.of_premises = self.all - self.of_conclusion


def inside(text, start):
    """The text in the braces that begin right before this place."""
    depth = 1
    for at in range(start, len(text)):
        depth += (text[at] == "{") - (text[at] == "}")
        if not depth:
            return text[start:at]
    return text[start:]


def clauses_of(path, name):
    """What a function of a file of code ensures: the name and the text of each clause, without comments."""
    text = re.sub(r"^ *//.*\n", "", text_of(path), flags=re.M)
    found = re.search(rf"\bfn {re.escape(name)}\b", text)
    if not found:
        return []
    body = BODY.search(text, found.end())
    return [(it.group(1), inside(text, it.end())) for it in ENSURES.finditer(text, found.end(), body.start() if body else len(text))]


def statements(path, name):
    """The statements of a function of code, each with its name; of a definition the one."""
    if path.endswith(".rt"):
        return [(clause, Statement(path, text)) for clause, text in clauses_of(path, name)]
    equation = equation_of(*known(path, name)[0]) if known(path, name) else None
    found = Statement(path, said(equation[1]) if equation else name) if known(path, name) else None
    return [("", found)] if found else []


def lines_in(found):
    """How many definitions these are, and how many lines they have."""
    definitions = [it for it in found if it[1]]
    return len(definitions), sum(len(file_at(path).lines[name]) for path, name in definitions)


# --- what the gate compares

def laws():
    """The headline and the conclusion that each pair is a pipe, as far as they are here: what each rests on."""
    found = {"headline": rests_on(HEADLINE)}
    if os.path.exists(os.path.join(CRATES, PIPE[0])):
        found["pipe"] = frozenset().union(*(it.of_conclusion for _, it in statements(*PIPE)))
    return found


def rows(found):
    """The rows of definitions, by files; of plain data, which is declared in the code, the file alone."""
    order = {path: list(file_at(path).lines) for path, name in found if name}
    each = sorted(found, key=lambda it: (not it[1], it[0], order[it[0]].index(it[1]) if it[1] else 0))
    return [(path, name, str(len(file_at(path).lines[name])) if name else "") for path, name in each]


def table():
    """The rows of docs/believed.csv: each definition with the laws that rest on it."""
    found = laws()
    every = rows(frozenset().union(*found.values()))
    return [("file", "definition", "lines", "law"), *((*row, " ".join(law for law in found if (row[0], row[1]) in found[law])) for row in every)]


def listed():
    """The rows of docs/believed.csv."""
    if not os.path.exists(LISTED):
        return []
    with open(LISTED, encoding="utf-8", newline="") as file:
        return [*map(tuple, csv.reader(file))]


def printed(what, found):
    count, lines = lines_in(found)
    print(f"{what}{count} definitions, {lines} lines, {len({path for path, name in found if name})} files")


def print_both(path, name):
    """What the statements of a definition or a function rest on, premises and conclusion apart. Of a definition it counts too."""
    own = {it for it in known(path, name) if it[1]} if path.endswith(".antt") else set()
    each = statements(path, name)
    everything = own.union(*(it.all for _, it in each))
    for row in rows(everything):
        print(",".join(row))
    for clause, it in each:
        of = f"{clause}: " if clause else ""
        printed(f"{of}the conclusion: ", it.of_conclusion | own)
        printed(f"{of}besides, the premises: ", it.of_premises - own)
    printed("", everything)


def print_laws():
    """What the laws rest on, and what is wrong about it. Returns whether nothing is."""
    found = table()
    for row in found:
        print(",".join(row))
    wrong = [f"NOT LISTED {' '.join(row[:2])}" for row in found if row not in listed()]
    wrong += [f"LISTED WITHOUT NEED {' '.join(row[:2])}" for row in listed() if row not in found]
    for law, those in laws().items():
        printed(f"{law}: ", those)
        wrong += [f"MORE THAN {MOST_LINES[law]} LINES: {law}"] if lines_in(those)[1] > MOST_LINES[law] else []
    print("\n".join(wrong), end="\n" if wrong else "")
    return not wrong


def main():
    words = sys.argv[1:]
    if not words:
        sys.exit(0 if print_laws() else 1)
    if len(words) != 2 or not os.path.isfile(os.path.join(CRATES, words[0])) or not statements(*words):
        sys.exit("usage: docs/believed.py [FILE NAME], a file under crates/ and a definition of it, or a function of a file of code")
    print_both(*words)


if __name__ == "__main__":
    main()
