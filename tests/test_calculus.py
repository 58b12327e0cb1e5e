"""Compares the axioms and the axiomatic rules of the program with the tables of docs/CALCULUS.md, which were written by hand."""

import re
import subprocess
import unittest

from helping import Case, PROGRAM, ROOT, needs_program
from dlkt.calculus import AXIOMATIC_RULES, AXIOMS, CONNECTIVES, DERIVES, LIBRARY, OTHER_WORDS, PREMISES, STEPS
from dlkt.trees import ROWS

AXIOM = re.compile(r"\| `(\w+)` \| ([EQCRIF]) \| `(.*?)` \| ")
RULE = re.compile(r"\| `(\w+)` \| `(.*?)` \| `(.*?)` \| ")


def rows(pattern):
    """The rows of the tables that a pattern finds, a bar in a formula without its backslash."""
    text = (ROOT / "docs" / "CALCULUS.md").read_text(encoding="utf-8")
    found = [pattern.match(line) for line in text.splitlines()]
    return [[it.replace("\\|", "|") for it in row.groups()] for row in found if row]


def drawn():
    """How many premises each rule has that is drawn on the page: those on the line above its own have blanks between."""
    lines = (ROOT / "docs" / "CALCULUS.md").read_text(encoding="utf-8").splitlines()
    found = {}
    for above, line in zip(lines, lines[1:]):
        rule = re.fullmatch(r" +-+ (\w+)\(.*\)", line)
        if rule:
            found[rule[1]] = len(re.findall(r"==>", above))
    return found


class Tables(unittest.TestCase):
    def test_rules_have_the_premises_that_are_drawn(self):
        self.assertEqual(drawn(), PREMISES)

    def test_axiomatic_rules(self):
        found = {name: (premise, conclusion) for name, premise, conclusion in rows(RULE)}
        self.assertEqual(found, AXIOMATIC_RULES)

    def test_words_are_those_of_the_page_of_strategies(self):
        text = (ROOT / "docs" / "STRATEGIES.md").read_text(encoding="utf-8")
        for word in (*LIBRARY, *OTHER_WORDS):
            self.assertRegex(text, rf"\n\| `{word}\b", word)
        self.assertLessEqual(set(DERIVES) | set(STEPS), set(AXIOMS))
        self.assertLessEqual(set(CONNECTIVES), set(PREMISES))

    def test_operators_are_those_of_node_lines(self):
        text = (ROOT / "docs" / "FILES.md").read_text(encoding="utf-8")
        words = {}
        for sort, cells in re.findall(r"^\| (term|formula|program) \| (.*) \|$", text, re.MULTILINE):
            for word in re.findall(r"`([a-z]+)(?: [^`]*)?`", cells):
                words[word] = sort
        self.assertEqual(words, {word: row.sort for word, row in ROWS.items()})


@needs_program
class Calculus(Case):
    """A term of one line says what an axiom or a rule is: its row is compared with the text of the table as a model."""

    def report(self, formula, line):
        """What `check` prints of a model and of a term of one line."""
        words = [PROGRAM, "check", self.file("model", formula + "\n"), self.file("term", f"1 {line}\ndone\n")]
        return subprocess.run(words, capture_output=True, text=True, check=False).stdout.splitlines()

    def test_each_axiom_is_that_of_the_table(self):
        found = rows(AXIOM)
        self.assertEqual({name: form for name, form, _ in found}, AXIOMS)
        for name, _, formula in found:
            with self.subTest(name):
                # the table has more brackets than the conclusion is printed with
                told = self.report(formula, f"axiom {name}")
                self.assertEqual(told[:1] + told[2:], ["closed", "goals 0", "leaves 0", "lines 1"])

    def test_each_axiomatic_rule_is_that_of_the_table(self):
        found = rows(RULE)
        self.assertEqual(sorted(name for name, _, _ in found), ["CE", "CQ", "CT", "G", "allgen", "mon"])
        for name, premise, conclusion in found:
            with self.subTest(name):
                told = ["open", f"conclusion ==> {conclusion}", "goals 1", f"goal 1 ==> {premise}", "leaves 0", "lines 1"]
                self.assertEqual(self.report(conclusion, f"rule {name}"), told)


if __name__ == "__main__":
    unittest.main()
