"""Each rule of an audit is named by a law: by a clause of a function with an empty body that states the findings of a worked case."""
import re
import unittest
from pathlib import Path

CRATES = Path(__file__).resolve().parents[2] / "crates"
# The crates whose laws are about what an audit finds; others have laws about the words of a rule.
ABOUT_FINDINGS = ("ncp_monitor", "ncp_proof_monitor")
FUNCTION = re.compile(r"^pub fn (\w+)\(\)\n((?:    ensures .*\n)+)\{\}", re.M)
CLAUSE = re.compile(r"    ensures (?:\w+ )?\{ (.*) \}")
# A rule that is found: one of a list of findings or of rules, or the only one.
FOUND = re.compile(r"≡ .*\b[Rr]ule\.(\w+)")
EACH = re.compile(r"\b[Rr]ule\.(\w+)")


def rules():
    """The rules, as they are declared."""
    text = (CRATES / "ncp_monitor/src/finding.rt").read_text(encoding="utf-8")
    declared = text[text.index("pub enum Rule {"):]
    return re.findall(r"^    ([A-Z]\w+)", declared[:declared.index("\n}\n")], re.M)


def cases(crates=CRATES):
    """Of each rule the laws that find it."""
    found = {}
    for folder in sorted(it for it in crates.iterdir() if it.name.startswith(ABOUT_FINDINGS)):
        for file in sorted(folder.glob("src/*.rt")):
            for law, clauses in FUNCTION.findall(file.read_text(encoding="utf-8")):
                for said in CLAUSE.findall(clauses):
                    if FOUND.search(said):
                        for rule in EACH.findall(said.partition("≡ ")[2]):
                            found.setdefault(rule, {})[law] = None
    return found


class TestRules(unittest.TestCase):
    def test_each_rule_has_a_case(self):
        found = cases()

        for rule in rules():
            print(f"{rule}: {' '.join(found.get(rule, ['-']))}")
        self.assertEqual(len(rules()), 42, "a rule more or less: is it read off as it is declared?")
        self.assertEqual([it for it in rules() if it not in found], [])

    def test_a_rule_that_is_only_named_before_the_equation_has_none(self):
        self.assertFalse(FOUND.search("words_of (Rule.Kind 5) ≡ []"))
        self.assertTrue(FOUND.search("findings_in (new_monitor false) file ≡ by_host 1 (Rule.Kind 5) ∷ []"))


if __name__ == "__main__":
    unittest.main()
