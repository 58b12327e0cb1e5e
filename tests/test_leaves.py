"""Tests of dlkt leaves with solvers that say what the test wants."""

import json
import random
import unittest
from fractions import Fraction

from helping import CLOSES_INCREMENT, Case, INCREMENT, PROGRAM, needs_program
from dlkt import leaves, program
from dlkt.leaves import LeafAnswer
from dlkt.solvers import Reply, Word, together


class Computing(unittest.TestCase):
    def test_exponents(self):
        self.assertEqual(leaves.folded("x^(2-1)*y^(3-1)>=z^(1-1)"), ("x^1*y^2>=z^(1-1)", [("^(2-1)", "^1"), ("^(3-1)", "^2")]))
        self.assertIsNone(leaves.computed("1/0"))

    def test_random_exponents(self):
        choose = random.Random(7)

        def drawn(levels):
            """A text of numbers, and its value as Python has it, or none where something is divided by 0."""
            if not levels or choose.random() < 0.2:
                number = choose.choice(("0", "1", "2", "3", "0.5", "2.25", "10"))
                return number, f"Fraction('{number}')"
            left, right = drawn(levels - 1), drawn(levels - 1)
            shape = choose.choice(("-{}", "({})", "{}+{}", "{}-{}", "{}*{}", "{}/{}"))
            return shape.format(left[0], right[0]), shape.format(left[1], right[1])

        for _ in range(500):
            text, python = drawn(4)
            try:
                value = eval(python, {"Fraction": Fraction})
            except ZeroDivisionError:
                value = None
            self.assertEqual(leaves.computed(text), value, text)

    def test_one_formula(self):
        self.assertEqual(leaves.implication("x>0, y>0 ==> z>0"), "((x>0)&(y>0)) -> ((z>0))".replace("((z>0))", "((z>0))"))
        self.assertEqual(leaves.implication(" ==> "), "(true) -> (false)")

    def test_several_answers(self):
        valid, false, unknown = Reply(Word.VALID), Reply(Word.FALSE, {"x": "1"}), Reply(Word.UNKNOWN)
        for one, other, word in ((valid, unknown, "valid"), (valid, false, "unknown"), (unknown, false, "false"), (unknown, unknown, "unknown")):
            self.assertEqual(together({"z3": one, "cvc5": other}).word, word)
        self.assertEqual(together({"z3": Reply(Word.FALSE), "cvc5": false}).values, {"x": "1"})

    def test_each_must_say_so(self):
        for by, word in ((("valid", "unknown"), "unknown"), (("valid", "valid"), "valid")):
            said = LeafAnswer("valid", by=dict(zip(("z3", "cvc5"), by)))
            self.assertEqual(leaves.each_says_so(said).word, word)


@needs_program
class Asking(Case):
    def setUp(self):
        super().setUp()
        self.model = self.file("model", INCREMENT)
        self.term = str(self.folder / "term")
        program.answer(PROGRAM, "prove", self.model, self.file("strategy", CLOSES_INCREMENT), self.term)

    def ask(self, *words):
        return self.tool("leaves", self.model, self.term, *words)

    def test_valid(self):
        self.solver("z3", "unsat")
        self.assertEqual((self.ask().returncode, self.ask().stdout), (0, "leaf 1: valid\n"))

    def test_false_with_values(self):
        self.solver("z3", "sat", "((define-fun |v.x| () Real (- 1.0)))")
        self.assertEqual((self.ask().returncode, self.ask().stdout), (1, "leaf 1: false at x=-1\n"))

    def test_both_are_wanted(self):
        self.solver("z3", "unsat")
        self.solver("cvc5", "unknown")
        run = self.ask("--all-solvers")
        self.assertEqual((run.returncode, run.stdout), (1, "leaf 1: unknown, for z3 says valid, cvc5 says unknown\n"))
        told = json.loads(self.ask("--all-solvers", "--json").stdout)
        self.assertEqual((told["all_valid"], told["leaves"][0]["answer"]), (False, "unknown"))
        self.solver("cvc5", "unsat")
        self.assertEqual(self.ask("--all-solvers").stdout, "leaf 1: valid\n")

    def test_nonsense(self):
        for lines in (["sat", ")))"], ["sat", "((define-fun (x) () Real 1) (define-fun |v.x| () Real ()))"]):
            self.solver("z3", *lines)
            self.assertEqual(self.ask().returncode, 1, lines)
        self.solver("z3", "unsat")
        self.script_of_solver("z3", "kill -9 $$\n")
        self.assertEqual((self.ask().returncode, self.ask().stdout), (1, "leaf 1: unknown\n"))
        self.assertEqual((self.ask("--dlk", "/bin/true").returncode, self.ask("--seconds", "0").returncode), (2, 2))

    def test_no_solver(self):
        run = self.ask()
        self.assertEqual((run.returncode, run.stderr), (2, "dlkt leaves: no solver is there: install z3 or cvc5\n"))

    def test_no_proof(self):
        self.solver("z3", "unsat")
        for term in ("nope", self.file("bad", "1 start ==> x>=0\n"), str(self.folder)):
            run = self.tool("leaves", self.model, term)
            self.assertEqual((run.returncode, run.stdout, run.stderr.count("\n")), (2, "", 1))


if __name__ == "__main__":
    unittest.main()
