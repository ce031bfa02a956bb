"""Each word that a line prints has a meaning, which `ncp explain` prints: the literals of the crates that print are compared with its tables."""
import re
import unittest
from pathlib import Path

CRATES = Path(__file__).resolve().parents[2] / "crates"
# The crates whose literals are in lines, or are read in scripts.
PRINTING = ("files", "script", "notes", "audit", "follow", "feed", "host", "simulation", "world", "world_lines")
TABLES = ("ncp_play_explain/src/names.rt", "ncp_play_explain/src/message_words.rt", "ncp_play_explain/src/report_words.rt", "ncp_play_explain/src/script_words.rt", "ncp_play_audit/src/rules.rt", "ncp_play_follow/src/ends.rt")
# What is in no line: the letters of files, the words of a script's first line, and of the line of a fault.
OTHERS = {"NCPH", "NCPI", "NCPJ", "hosts", "many", "watch", "ncp", "line"}
LITERAL = re.compile(r'b"((?:[^"\\]|\\.)*)"')
WORD = re.compile(r"[A-Za-z](?:[A-Za-z-]*[A-Za-z])?")
ENTRY = re.compile(r'\(\s*"((?:[^"\\]|\\.)*)",\s*"((?:[^"\\]|\\.)*)",?\s*\)')


def words_in(source):
    """The words of the literals in a source."""
    return {word for literal in LITERAL.findall(source) for word in WORD.findall(literal.replace("\\n", " "))}


def meanings():
    """Each name and word that has a meaning, with the meanings that it has."""
    found = {}
    for table in TABLES:
        for name, text in ENTRY.findall((CRATES / table).read_text(encoding="utf-8")):
            found.setdefault(name, []).append(text)
    return found


class TestWordsOfLines(unittest.TestCase):
    def test_each_word_has_a_meaning(self):
        known = meanings()
        for crate in PRINTING:
            for file in sorted((CRATES / f"ncp_play_{crate}/src").glob("**/*.rt")):
                self.assertEqual(words_in(file.read_text(encoding="utf-8")) - OTHERS - set(known), set(), file)

    def test_each_type_has_a_meaning(self):
        self.assertEqual([it for it in range(16) if f"type-{it}" not in meanings()], [])

    def test_words_of_a_literal_are_found(self):
        self.assertEqual(words_in('push_field(page, b" not-up=", 1); b"x\\n" "other"'), {"not-up", "x"})

    def test_a_meaning_is_a_sentence(self):
        for name, texts in meanings().items():
            for text in texts:
                self.assertRegex(text, r"^[A-Z0-9'].*[.?]$", name)


if __name__ == "__main__":
    unittest.main()
