"""Faults that are put into a source at random: which there can be, a choice of them, and how many are seen.

A fault changes one line. It is in code: comments and strings of a language are no code (`code_of`). `onefile/faults` draws its faults in a translated
file, `tools/faults` in what is written by hand.
"""
import re
from typing import NamedTuple


class Fault(NamedTuple):
    """A line, counted from 0, of a function or a file, and what becomes of it."""
    line: int
    name: str
    before: str
    after: str

    def put_into(self, lines):
        return [*lines[:self.line], self.after, *lines[self.line + 1:]]


def changed(at, name, line, changes, code=None):
    """The faults of a line: for each place of a pattern its replacement. The patterns are searched for in `code`, which is as long as the line."""
    found = []
    for pattern, to in changes:
        for it in re.finditer(pattern, line if code is None else code):
            new = to(it) if callable(to) else it.expand(to)
            found.append(Fault(at, name, line, line[:it.start()] + new + line[it.end():]))
    return found


def drawn(faults, dice):
    """The faults that change their line, in a random order, each once."""
    remaining = {it for it in faults if it.before != it.after}
    while remaining:
        fault = dice.choice(faults)
        if fault in remaining:
            remaining.remove(fault)
            yield fault


def tally(found, change, see):
    """Prints how many were seen of those that matter, and returns which part. A fault that changes nothing is None."""
    matter = [it for it in found if it is not None]
    share = sum(matter) / len(matter) if matter else 1.0
    print(f"{len(found)} faults: {len(matter)} {change}, {see} {sum(matter)} of these: {100 * share:.1f} %", flush=True)
    return share


class Language(NamedTuple):
    """What is no code, the replacements in code, and the conditions: how one begins, with what it ends, and how it is negated."""
    no_code: str
    changes: tuple
    begin: str = ""
    ends: tuple = ()
    negation: tuple = ()


def by_one(it):
    """A number that differs by one: 0 for 1, and else one more."""
    text = it.group()
    number = int(text.replace("_", ""), 16 if text.startswith("0x") else 10)
    number = 0 if number == 1 else number + 1
    return hex(number) if text.startswith("0x") else str(number)


def swapped(*pairs):
    """Each word for the other of its pair, with blanks around them."""
    words = {one: other for pair in pairs for one, other in (pair, pair[::-1])}
    return tuple((rf" {re.escape(one)} ", f" {other} ") for one, other in words.items())


NUMBER = (r"(?<![\w.$-])(?:0x[0-9A-Fa-f]+|\d[\d_]*)(?![\w.])", by_one)
COMPARED = swapped(("<", "<="), (">", ">="))
COUNTED = (*swapped(("+", "-"), ("+=", "-="), ("&", "|"), ("<<", ">>")), (r" \* ", " + "), (r" % ", " + "))
QUOTED = r"\"(?:\\.|[^\"\\\n])*\"|'(?:\\.|[^'\\\n])*'"
C_COMMENT = r"//[^\n]*|/\*.*?\*/"

PYTHON = Language(rf"#[^\n]*|\"\"\".*?\"\"\"|{QUOTED}",
                  (NUMBER, *COMPARED, *COUNTED, *swapped(("==", "!="), ("and", "or"), ("is", "is not")), (r" // ", " * "), (r" not in ", " in "), (r"\bnot (?!in\b)", ""),
                   (r"\bTrue\b", "False"), (r"\bFalse\b", "True"), (r"\bany\(", "all("), (r"\ball\(", "any(")),
                  r"\b(?:if|elif|while) ", (":", " else ", " if ", " for "), ("not (", ")"))
LUA = Language(rf"--\[\[.*?\]\]|--[^\n]*|\[\[.*?\]\]|{QUOTED}",
               (NUMBER, *COMPARED, *COUNTED, *swapped(("==", "~="), ("and", "or")), (r"\bnot ", ""), (r"\btrue\b", "false"), (r"\bfalse\b", "true")),
               r"\b(?:if|elseif|while) ", (" then", " do"), ("not (", ")"))
LIKE_C = (NUMBER, *COMPARED, *COUNTED, *swapped(("==", "!="), ("&&", "||")), (r"(?<![\w!])!(?=[\w(])", ""), (r"\btrue\b", "false"), (r"\bfalse\b", "true"))
JAVASCRIPT = Language(rf"{C_COMMENT}|`(?:\\.|[^`\\])*`|{QUOTED}|(?<=[(,=:\[!&|?;]) */(?![/*])(?:\\.|\[(?:\\.|[^\]\\])*\]|[^/\\\n])+/[a-z]*",
                      (*LIKE_C, *swapped(("===", "!==")), (r" \?\? ", " && "), (r"\+\+", "--")), r"\b(?:if|while) \(", (), ("!(", ")"))
# A module of tests, at the end of a file, is no code.
RUST = Language(rf"{C_COMMENT}|^#\[cfg\(test\)\].*\Z|\"(?:\\.|[^\"\\])*\"|'(?:\\.|[^'\\\n])'", LIKE_C, r"\b(?:if|while) (?!let\b)", (" {",), ("!(", ")"))
C = Language(rf"{C_COMMENT}|{QUOTED}|^#[^\n]*", LIKE_C, r"\b(?:if|while) \(", (), ("!(", ")"))
# Text over several lines in single quotes is a program in another language.
SHELL = Language(r"(?:(?<=\s)|^)#[^\n]*|'[^'\n]*'|\"[^\"$`\n]*\"",
                 ((r"(?<![\w.${&-])\d+(?![\w.>])", by_one), *COMPARED, *swapped(("=", "!="), ("&&", "||"), ("-gt", "-ge"), ("-lt", "-le"), ("-eq", "-ne")), (r"\[ -n ", "[ -z "), (r"\[ -z ", "[ -n "),
                  (r"\b(if|elif) (?!!)", r"\1 ! "), (r"\b(if|elif) ! ", r"\1 "), (r"(?<!\S)\[ (?!!)", "[ ! "), (r"(?<!\S)\[ ! ", "[ "), (r"\btrue\b", "false"), (r"\bfalse\b", "true")))
BY_ENDING = {".py": PYTHON, ".lua": LUA, ".js": JAVASCRIPT, ".rs": RUST, ".c": C, ".h": C}
OPEN, CLOSED = "([{", ")]}"


def language_of(path, text):
    """The language of a source by the ending of its name, or by its first line."""
    first = text.partition("\n")[0]
    by_first = PYTHON if "python" in first else SHELL if first.startswith("#!") else None
    return next((language for ending, language in BY_ENDING.items() if path.endswith(ending)), by_first)


def code_of(language, text):
    """The text with another sign in place of each sign that is no code."""
    return re.sub(language.no_code, lambda it: re.sub(r"[^\n]", "\0", it.group()), text, flags=re.S | re.M)


def end_of(code, start, ends):
    """Where a condition ends that begins at `start` of a line: before one of `ends`, or the bracket in which it is; None if on another line."""
    depth = 0
    for at in range(start, len(code)):
        if depth == 0 and (code[at] in CLOSED or code.startswith(ends or "\n", at)):
            return at
        depth += (code[at] in OPEN) - (code[at] in CLOSED)
    return None


def negated(at, name, line, language, code):
    """The faults of a line in which a condition is negated."""
    found = []
    for it in re.finditer(language.begin, code) if language.begin else ():
        start = it.end()
        end = end_of(code, start, language.ends)
        if end is not None:
            before, after = language.negation
            found.append(Fault(at, name, line, line[:start] + before + line[start:end] + after + line[end:]))
    return found


def faults_of(name, text):
    """All faults of a source."""
    language = language_of(name, text)
    code, found = code_of(language, text).split("\n"), []
    for at, line in enumerate(text.split("\n")):
        found += changed(at, name, line, language.changes, code[at]) + negated(at, name, line, language, code[at])
    return found
