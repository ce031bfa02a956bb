"""Reads the sources of the crates: functions with the text of their clauses, types, tests, mutants, and dependencies.

It relies on the layout that the formatter gives a source: the parts of an item are indented further than the item.
"""
import functools
import re
from collections import defaultdict
from pathlib import Path
from typing import NamedTuple

import edits as mutants

TOP = Path(__file__).resolve().parent.parent
CRATES = TOP / "crates"
FUNCTION = re.compile(r"^( *)(pub(?:\(\w+\))? )?(?:const )?(?:unsafe )?(extern \"C\" )?fn (\w+)")
OWNER = re.compile(r"^(pub(?:\(\w+\))? )?(?:unsafe )?(impl|trait)\b(.*)")
CLAUSE = re.compile(r"^\s*(requires|ensures)\*?(?: (\w+))? \{")
ITEM = re.compile(r"^(?:pub(?:\(\w+\))? )?(struct|enum|trait|type|union|const(?! fn)|static) (\w+)")
# A comment directly above a clause that states it in plain words.
THEOREM = "theorem: "


@functools.cache
def text_of(path):
    return path.read_text(encoding="utf-8") if path.is_file() else ""


def first_sentence(text):
    """The first sentence of a paragraph."""
    text = " ".join(text.split())
    found = re.match(r"(.*?[.!?:])(?= [A-Z`(]|$)", text)
    return found.group(1) if found else text


def sentence_of(text):
    """The first sentence, as a cell of a table."""
    said = re.sub(r"\[(`[^`]*`)\](?:\([^)]*\))?", r"\1", first_sentence(text))
    return (said[:-1] + "." if said.endswith(":") else said).replace("|", "\\|")


def head_of(path, mark):
    """The comment at the head of a file, paragraph by paragraph."""
    lines = []
    for line in text_of(path).splitlines():
        if not line.startswith(mark):
            break
        lines.append(line[len(mark):].strip())
    return [" ".join(it.split()) for it in "\n".join(lines).split("\n\n") if it.strip()]


class Clause(NamedTuple):
    """A clause of a contract: `requires` or `ensures`, its name if it has one, the text between its brackets, its line, and the
    comment directly above it."""
    kind: str
    name: str
    text: str
    line: int
    comment: str

    @property
    def theorem(self):
        """The claim that the clause states, in plain words, if it is marked as one."""
        return self.comment.removeprefix(THEOREM) if self.comment.startswith(THEOREM) else ""


class Function:
    """A function of the code, with its doc comment, its signature, its clauses and its place."""

    def __init__(self, crate, path, line, owner, found, doc):
        self.crate, self.path, self.line, self.owner = crate, path, line, owner
        self.is_pub, self.is_exported, self.name = found.group(2) == "pub ", bool(found.group(3)), found.group(4)
        self.doc, self.last, self.signature, self.clauses = doc, line, "", []

    @property
    def requires(self):
        return [it.name for it in self.clauses if it.kind == "requires"]

    @property
    def ensures(self):
        return [it.name for it in self.clauses if it.kind == "ensures"]

    def shown(self):
        modules = [it for it in self.crate.module_of(self.path) if self.crate.is_public_module(self.crate.module_of(self.path))]
        return f"{self.owner.name}::{self.name}" if self.owner else "::".join([*modules, self.name])


class Item(NamedTuple):
    """A type, a trait or a constant of the code."""
    kind: str
    name: str
    path: Path
    line: int
    doc: str
    text: str


class Owner:
    """The type or the trait of a method."""

    def __init__(self, kind, rest):
        rest = re.sub(r"^<[^{]*?>(?= )", "", rest.strip()) if kind == "impl" else rest.strip()
        rest = re.sub(r"\{.*", "", rest)
        names = [re.match(r"[&\w:']*?(\w+)(?=\W|$)", it.strip()) for it in re.split(r" for ", rest)]
        names = [it.group(1) if it else "" for it in names]
        self.is_trait, self.of_trait = kind == "trait", names[0] if len(names) > 1 else None
        self.name = names[-1]


class Crate:
    def __init__(self, name, words, uses):
        self.name, self.words, self.uses = name, words, uses
        self.folder = CRATES / name
        self.root = self.folder / "src" / ("main.rt" if (self.folder / "src/main.rt").is_file() else "lib.rt")

    @functools.cached_property
    def head(self):
        return head_of(self.root, "//!") or [""]

    @functools.cached_property
    def files(self):
        return sorted((self.folder / "src").rglob("*.rt"))

    @functools.cached_property
    def specs(self):
        return [it for it in sorted((self.folder / "specs").glob("*.antt")) if it.stem != "Lib"]

    def module_of(self, path):
        inside = path.relative_to(self.folder / "src").with_suffix("")
        return [] if path == self.root else list(inside.parts)

    def is_public_module(self, modules):
        """Whether each module on the way from the root is declared `pub`."""
        file = self.root
        for at, name in enumerate(modules):
            if not re.search(rf"^pub mod {name}\b", text_of(file), re.M):
                return False
            file = (self.folder / "src").joinpath(*modules[: at + 1]).with_suffix(".rt")
        return True

    @functools.cached_property
    def exported(self):
        """The names that the crate passes on by `pub use`."""
        found = set()
        for path in self.files:
            if path == self.root or self.is_public_module(self.module_of(path)):
                for used in re.findall(r"^pub use ([^;]+);", text_of(path), re.M):
                    found |= set(re.findall(r"(\w+)(?=\s*[,}\n]|$)", used))
        return found

    @functools.cached_property
    def passed_on(self):
        """The names of other crates that the crate passes on by `pub use`."""
        found = []
        for path, names in re.findall(r"^pub use (\w+)::([^;]+);", text_of(self.root), re.M):
            if path in self.uses:
                found += re.findall(r"(\w+)(?=\s*[,}\n]|$)", names)
        return found

    def shows_type(self, name):
        if name in self.exported:
            return True
        places = [it for it in self.files if re.search(rf"^pub (?:struct|enum|trait|type|union) {name}\b", text_of(it), re.M)]
        return any(self.is_public_module(self.module_of(it)) for it in places)

    @functools.cached_property
    def functions(self):
        return [it for path in self.files for it in functions_in(self, path)]

    @functools.cached_property
    def items(self):
        return [it for path in self.files for it in items_in(path)]

    def is_public(self, it):
        if it.is_exported:
            return True
        if it.owner is None:
            return it.is_pub and (self.is_public_module(self.module_of(it.path)) or it.name in self.exported)
        if not self.shows_type(it.owner.name) and not (it.owner.of_trait and it.owner.name not in own_types(self)):
            return False
        return it.is_pub or it.owner.is_trait or bool(it.owner.of_trait and it.ensures)

    @functools.cached_property
    def public(self):
        return [it for it in self.functions if self.is_public(it)]

    @functools.cached_property
    def tests(self):
        """The test functions, by their files."""
        found = {}
        for path in self.files:
            names = re.findall(r"#\[test\]\n(?:\s*#\[[^\n]*\]\n)*\s*fn (\w+)", text_of(path))
            if names:
                found[path] = names
        return found

    @functools.cached_property
    def edits_of_gate(self):
        return mutants.of_gate(TOP, self.name)

    @functools.cached_property
    def other_edits(self):
        return mutants.of_crate(TOP, self.name)


@functools.cache
def own_types(crate):
    return {name for path in crate.files for name in re.findall(r"^(?:pub(?:\(\w+\))? )?(?:struct|enum|trait) (\w+)", text_of(path), re.M)}


def read_contract(lines, at, indent):
    """The signature and the clauses of the function that begins on a line, counted from 0."""
    signature, clauses, comment = [], [], []
    while at < len(lines):
        line = lines[at]
        clause, is_body = CLAUSE.match(line), line in (indent + "{", indent + "{}")
        if clause:
            text, number = line[clause.end():], at + 1
            while text.count("{") >= text.count("}") and at + 1 < len(lines):
                at += 1
                text += f"\n{lines[at]}"
            clauses.append(Clause(clause.group(1), clause.group(2) or "", without_margin(text[: text.rindex("}")]), number, " ".join(comment)))
            comment = []
            if lines[at].rstrip().endswith(";"):
                break
        elif is_body:
            break
        elif line.strip().startswith("//"):
            said = line.strip()[2:].strip()
            comment = [*([] if said.startswith(THEOREM) else comment), said]
        elif clauses or not line.strip():
            comment = []
        else:
            signature.append(line)
            if line.rstrip().endswith(("{", "{}", ";")):
                break
        at += 1
    return without_margin("\n".join(signature)).rstrip("{};").rstrip(), clauses


def without_margin(text):
    """A text without the margin that its lines from the second on have in common."""
    first, *rest = text.strip().split("\n")
    margin = min((len(it) - len(it.lstrip()) for it in rest if it.strip()), default=0)
    return "\n".join([first.rstrip(), *((it[margin:] if rest else it).rstrip() for it in rest)])


def functions_in(crate, path, text=None):
    """The functions of a file, or of another text in its place."""
    owner, doc, current, found = None, [], None, []
    lines = (text_of(path) if text is None else text).splitlines()
    for number, line in enumerate(lines, 1):
        stripped = line.strip()
        begun = OWNER.match(line)
        if begun and not line.startswith(" "):
            owner = Owner(begun.group(2), begun.group(3))
        if line == "}":
            owner = None
        begun = FUNCTION.match(line)
        if begun and len(begun.group(1)) == (4 if owner else 0):
            current = Function(crate, path, number, owner, begun, "\n".join(doc))
            current.signature, current.clauses = read_contract(lines, number - 1, begun.group(1))
            found.append(current)
        if current:
            current.last = number
        if stripped.startswith("///"):
            doc.append(stripped[3:].strip())
        elif not stripped.startswith(("#[", "//")):
            doc = []
    return found


def items_in(path):
    """The types, traits and constants of a file: each ends at the line that begins with its closing bracket."""
    found, doc, lines = [], [], text_of(path).splitlines()
    for number, line in enumerate(lines, 1):
        begun = ITEM.match(line)
        if begun:
            last = number
            while not lines[last - 1].endswith(";") and lines[last - 1][:1] not in ("}", ")") and not lines[last - 1].endswith("}") and last < len(lines):
                last += 1
            found.append(Item(begun.group(1), begun.group(2), path, number, "\n".join(doc), "\n".join(lines[number - 1 : last])))
        if line.startswith("///"):
            doc.append(line[3:].strip())
        elif not line.startswith(("#[", "//")):
            doc = []
    return found


@functools.cache
def crates():
    found = {}
    for line in text_of(TOP / "crates.txt").splitlines():
        name, colon, used = line.split("#")[0].partition(":")
        if colon:
            words = name.split()
            found[words[0]] = Crate(words[0], words[1:], used.split())
    return found


@functools.cache
def below(name):
    """All crates of this repository on which one depends."""
    found = set()
    for each in crates()[name].uses:
        if each in crates():
            found |= {each} | below(each)
    return frozenset(found)


@functools.cache
def height(name):
    return 1 + max((height(it) for it in crates()[name].uses if it in crates()), default=-1)


@functools.cache
def in_order():
    """The crates in order of dependency, in the order of crates.txt if possible."""
    order = list(crates())
    return tuple(sorted(order, key=lambda it: (height(it), order.index(it))))


def right_below(name):
    """The direct dependencies of a crate that are not dependencies of its other dependencies."""
    own = [it for it in crates()[name].uses if it in crates()]
    return [it for it in own if not any(it in below(other) for other in own if other != it)]


# --- mutants

@functools.cache
def turned_by(crate, edit):
    """The functions that an edit changes, and the changed lines of other files, each with its file."""
    found = []
    for file, text in mutants.turned(edit, crate.folder)[0].items():
        was = text_of(crate.folder / file).splitlines()
        now = text.splitlines()
        at = next((i for i, (a, b) in enumerate(zip(was, now)) if a != b), None)
        if at is None:
            continue
        if file.startswith("src/"):
            inside = [it for it in crate.functions if it.path == crate.folder / file and it.line <= at + 1 <= it.last]
            found.append(inside[-1] if inside else (file, at + 1))
        else:
            found.append((file, at + 1))
    return found


def reached_by(crate, it):
    """The private functions that a function calls, directly or through others: of its own type, by names that are unique in the
    crate, or by its own name, as when a call is forwarded."""
    found, left = [], [it]
    while left:
        inside = left.pop()
        body = "\n".join(text_of(inside.path).splitlines()[inside.line : inside.last])
        called, own = set(re.findall(r"\b(\w+)\(", body)), set(re.findall(r"\b(?:self\.|Self::)(\w+)\(", body))
        for other in crate.functions:
            is_of_it = other.name in own and other.owner and inside.owner and other.owner.name == inside.owner.name
            is_meant = is_of_it or other.name in called and (other.name == it.name or sum(each.name == other.name for each in crate.functions) == 1)
            if is_meant and other not in found and other is not it and not crate.is_public(other):
                found.append(other)
                left.append(other)
    return found


@functools.cache
def edits_by_function(crate):
    found, others = defaultdict(list), defaultdict(list)
    for edit in [*crate.edits_of_gate, *crate.other_edits]:
        for it in turned_by(crate, edit):
            (found[it] if isinstance(it, Function) else others[it]).append(edit.name)
    return found, others


@functools.cache
def refusals():
    """The clause that refused each mutant in a full run, from mutants/refused.csv: its file, function and name."""
    return mutants.refusals(TOP)


def wrong_bodies(theorem):
    """The mutants that a clause is known to refuse; and those that change its function, or a private one that it calls, if no
    run has recorded their clause yet."""
    it, clause = theorem
    place = (str(it.path.relative_to(CRATES)), it.shown(), clause.name)
    turned = edits_by_function(it.crate)[0]
    unknown = [name for other in [it, *reached_by(it.crate, it)] for name in turned.get(other, []) if f"{it.crate.name}/{name}" not in refusals()]
    return [label for label, found in refusals().items() if found == place], list(dict.fromkeys(unknown))


# --- tests

@functools.cache
def words_of(path):
    return frozenset(re.findall(r"\w+", text_of(path)))


@functools.cache
def calls_of(path, of_type):
    """The functions that a file calls; of a type, those after a dot or its name, so none of the file's own."""
    return frozenset(re.findall(rf"{r'(?:[.]|::)' if of_type else ''}\b(\w+)(?:::<[^>]*>)?\(", text_of(path)))


@functools.cache
def test_files():
    return tuple(path for crate in crates().values() for path in crate.files if crate.tests)


def tests_of(it):
    """The files of tests that call a function: those that name its type or crate, or else its crate."""
    owner = it.owner.name if it.owner else None
    calls = [path for path in test_files() if it.name in calls_of(path, bool(owner))]
    return [path for path in calls if (owner or it.crate.name) in words_of(path)] or [path for path in calls if it.crate.name in words_of(path)]


def shown_specs(crate):
    return set(re.findall(r"^pub mod (\w+)", text_of(crate.folder / "specs/Lib.antt"), re.M))


class Theorem(NamedTuple):
    """A claim, with the function and the clause that state it."""
    function: Function
    clause: Clause

    @property
    def name(self):
        return f"{self.function.shown()} {self.clause.name}".rstrip()


def theorems():
    """The clauses that are marked as claims, by crates from the bottom up."""
    found = [Theorem(it, clause) for name in in_order() for it in crates()[name].functions for clause in it.clauses if clause.theorem]
    return sorted(found, key=lambda it: (in_order().index(it.function.crate.name), str(it.function.path), it.clause.line))


def theorems_of(name):
    """The claims of a crate, or of one of its types: `CRATE` or `CRATE::TYPE`."""
    crate, _, owner = name.partition("::")
    return [it for it in theorems() if it.function.crate.name == crate and it.function.shown().startswith(f"{owner}::" if owner else "")]
