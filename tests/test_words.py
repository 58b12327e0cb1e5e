"""Tests of the map from the lines of a term to the words of its strategy."""

import unittest

from helping import BRAKE, CHOICE, CLOSES_BRAKE, CLOSES_CHOICE, Case, PROGRAM, ROOT, needs_program
from dlkt import program, strategies, words


class Reading(unittest.TestCase):
    def test_the_strategies_of_the_repository(self):
        for path in sorted(ROOT.glob("examples/**/strategy")):
            text = path.read_text(encoding="latin-1")
            tree = strategies.read(text)
            for atom in strategies.atoms(tree):
                self.assertTrue(text.startswith(atom.name, atom.begin), path)
                self.assertIs(strategies.way_to(tree, atom.begin)[-1], atom)

    def test_parts(self):
        tree = strategies.read(" a ; <( (b|c) , d(-1.0,'L,\"x,y\")*3 ) ")
        self.assertEqual([atom.name for atom in strategies.atoms(tree)], ["a", "b", "c", "d"])
        self.assertEqual([(it.kind, it.text) for it in strategies.atoms(tree)[3].arguments], [("place", "-1.0"), ("locator", "'L"), ("text", "x,y")])

    def test_what_is_none(self):
        for text, byte in (("", 0), ("(nil", 4), ("nil;", 4), ("implyR()", 7), ("nil | | nil", 6), ("a)", 1), ("<(a)", 0), ("(" * 70 + "a" + ")" * 70, 64)):
            with self.assertRaises(strategies.Wrong) as fault:
                strategies.read(text)
            self.assertEqual(fault.exception.byte, byte, text)


def executed(folder, model, text, count):
    """The bytes of the words that a strategy runs, one after another, those that fail included, as the program tells them: with so many
    words run before that the budget ends at each in turn."""
    found = []
    for left in range(count):
        idle = 16_000 - left
        spent = "; ".join(["((nil*1000)*" + str(idle // 1000) + ")"] * (idle >= 1000) + [f"nil*{idle % 1000}"] * (idle % 1000 > 0))
        begin = f"{spent}; ("
        strategy = folder / "spent"
        strategy.write_text(f"{begin}{text})")
        said = program.answer(PROGRAM, "prove", model, strategy, folder / "none")
        refusal = program.refusal_in(said.text)
        if refusal is None or refusal.what != "budget":
            return found
        found.append(refusal.byte - len(begin))
    return found


@needs_program
class Words(Case):
    def runs(self, model, text):
        return words.word_runs(self.file("model", model), self.file("strategy", text), PROGRAM)

    def told(self, model, text):
        return [(run.first, run.last, run.word) for run in self.runs(model, text)]

    def test_each_line_has_its_word(self):
        found = words.words_of_lines(self.runs(CHOICE, CLOSES_CHOICE), 59)
        self.assertEqual(found[:3], [None, (0, "implyR(1)"), (11, "step(1)")])
        self.assertEqual(found[-1], (CLOSES_CHOICE.index("leaf"), "leaf"))
        self.assertNotIn(None, found[1:])

    def test_words_that_make_many_lines(self):
        found = self.told(BRAKE, CLOSES_BRAKE)
        self.assertEqual([word for _, _, word in found][:5], ["implyR(1)", "andL(-1)", "dI(1)", "close", "derive(1.1)"])
        self.assertEqual([first for first, _, _ in found[1:]], [last + 1 for _, last, _ in found[:-1]])

    def test_what_a_choice_takes_back(self):
        model = "x>=0 -> y>=0 -> x>=0\n"
        self.assertEqual(
            self.runs(model, "(implyR(1)*2; closeTrue(1)) | (implyR(1); implyR(1); close)"),
            [(2, 2, 31, "implyR(1)", 1), (3, 3, 42, "implyR(1)", 1), (4, 4, 53, "close", 1)],
        )

    def test_lines_that_two_words_could_have_made(self):
        # The first part has the same lines, if its repeat is thought to end early. It did not: it would have done one more and failed.
        text = "(implyR(1)*2; close) | (implyR(1); close)"
        self.assertEqual([run.byte for run in self.runs("x>=0 -> (x>=0 -> x>=0)\n", text)][:2], [1, 1])
        model = "(y>=0 -> x>=0) -> (y>=0 -> y>=0)\n"
        text = "(implyR(1)*2; closeTrue(1)) | (implyR(1)*1; nil; (andR(1) | implyR(1)); close)"
        found = self.runs(model, text)
        self.assertEqual([run.byte for run in found], [text.index("implyR(1)*1"), text.index("implyR(1))"), text.rindex("close")])

    def test_uses_at_other_paths(self):
        for order in (("1.0", "1.1"), ("1.1", "1.0")):
            text = "(" + " | ".join(f"useAt(Dvar,{path})" for path in order) + ")*3"
            self.assertEqual([run.byte for run in self.runs("(x)'>=(y)'\n", text)], [1, text.rindex("useAt")])

    def test_cuts_of_other_formulas(self):
        text = '(cut("x>=1"); closeTrue(1)) | (cut("x>=2"); <(nil, nil))'
        self.assertEqual([run.byte for run in self.runs("x>=0\n", text)], [text.rindex("cut")])

    def test_a_repeat_over_several_goals(self):
        text = "(andR(1) | implyR(1))*9; close"
        found = self.runs("(x>=0 -> x>=0)&((y>=0 -> y>=0)&(z>=0 -> z>=0))\n", text)
        self.assertEqual([run.word for run in found], ["andR(1)", "implyR(1)", "andR(1)", "implyR(1)", "implyR(1)", "close", "close", "close"])

    def test_open_proofs_and_no_lines(self):
        self.assertEqual(self.told("x>=0\n", "nil"), [])
        self.assertEqual(self.told("x>=0 -> x>=0\n", "implyR(1)"), [(2, 2, "implyR(1)")])

    def test_the_words_are_among_those_that_ran(self):
        text = "andR(1) | (implyR(1); close)"
        found = self.runs("x>=0 -> x>=0\n", text)
        self.assertEqual(executed(self.folder, self.folder / "model", text, 4), [0, 11, 22])
        self.assertEqual([run.byte for run in found], [11, 22])

    def test_another_term(self):
        model, strategy = self.file("model", CHOICE), self.file("strategy", CLOSES_CHOICE)
        term = self.file("term", "1 start ==> x>=0\ndone\n")
        self.assertIsNone(words.word_runs(model, strategy, PROGRAM, term))

    def test_a_strategy_that_fails(self):
        with self.assertRaises(program.Refused):
            self.runs("x>=0\n", "implyR(1)")

    def test_the_tool(self):
        run = self.tool("words", self.file("model", CHOICE), self.file("strategy", CLOSES_CHOICE))
        self.assertEqual(run.returncode, 0)
        self.assertIn("strategy:1:12: step(1): lines 3 to 12\n", run.stdout)
        self.assertEqual(self.tool("words", "nope", "nope").returncode, 2)


if __name__ == "__main__":
    unittest.main()
