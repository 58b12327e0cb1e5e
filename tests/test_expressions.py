"""The normal form of terms and formulas: what it makes of a formula says the same as the formula."""

import random
import unittest
from fractions import Fraction

import helping  # noqa: F401  (it sets the path)
from dlkt import reader, semantics
from dlkt.trees import Trees

TREES = Trees()
needs_z3 = unittest.skipUnless(semantics.is_there(), semantics.NEEDED)
if semantics.is_there():
    import z3
    from dlkt.semantics import exactly, expressions, solver, syntax
    from dlkt.semantics.meaning import Meaning
    from dlkt.semantics.values import State

WORDS = ("lt", "eq", "gt", "le", "ge", "ne")
MARKS = {"lt": "<", "eq": "=", "gt": ">", "le": "<=", "ge": ">=", "ne": "!="}


class Drawn:
    """Draws formulas twice: as texts of the logic, and as formulas of a solver."""

    def __init__(self, seed):
        self.rng = random.Random(seed)

    def term(self, depth):
        """The text of a term."""
        if depth == 0:
            return self.rng.choice(["x", "y", "x'", "y'", "k()", "0", "1", "2", "0.5"])
        one, other, part = self.term(depth - 1), self.term(depth - 1), self.rng.random()
        if part < 0.75:
            return f"({one}{self.rng.choice(['+', '-', '*', '*', '/'])}{other})"
        return self.rng.choice([f"(-{one})", f"({one})^2", f"({one})^3", f"({one})^-1", f"({self.rng.choice(['x*y', 'x^2', 'x/y', 'k()*x'])})'"])

    def formula(self, depth):
        """The text of a formula."""
        if depth == 0:
            return f"{self.term(2)}{MARKS[self.rng.choice(WORDS)]}{self.term(self.rng.choice([0, 1]))}"
        one, other = self.formula(depth - 1), self.formula(depth - 1)
        return self.rng.choice([f"({one}&{other})", f"({one}|{other})", f"({one}->{other})", f"({one}<->{other})", f"(!({one}))", f"({one})'"])

    def pair(self, names, depth):
        """A formula of `expressions`, and the same as it was drawn for z3. Quantifiers bind what comes."""
        part = self.rng.random()
        if depth == 0 or part < 0.15:
            return self.sign(names)
        if part < 0.45:
            name = f"{self.rng.choice('uvw')}{depth}"
            one, other = self.pair([*names, name], depth - 1)
            is_for_all = self.rng.random() < 0.5
            quantifier = z3.ForAll if is_for_all else z3.Exists
            return solver.quantified(is_for_all, solver.real(name), one), quantifier([z3.Real(name)], other)
        if part < 0.55:
            one, other = self.pair(names, depth - 1)
            return solver.no(one), z3.Not(other)
        (one, first), (other, second) = self.pair(names, depth - 1), self.pair(names, depth - 1)
        is_all = self.rng.random() < 0.5
        return (solver.both if is_all else solver.either)([one, other]), (z3.And if is_all else z3.Or)(first, second)

    def sign(self, names):
        """A comparison, mostly linear in what is bound last."""
        word, number = self.rng.choice(WORDS), self.rng.choice([0, 0, 1, -2])
        factor, name, other = self.rng.choice([1, 1, -1, 2]), names[-1], self.rng.choice(names)
        is_square = self.rng.random() < 0.25
        one = solver.real(name).scaled(factor).plus(solver.number(number))
        also = solver.real(other).times(solver.real(other)) if is_square else solver.real(other)
        first, second = factor * z3.Real(name) + number, z3.Real(other) * z3.Real(other) if is_square else z3.Real(other)
        told = {"lt": first < second, "eq": first == second, "gt": first > second, "le": first <= second, "ge": first >= second, "ne": first != second}
        return solver.compare(word, one, also), told[word]


@needs_z3
class SaysTheSame(unittest.TestCase):
    """What is made simpler keeps its truth."""

    def test_meaning_is_what_fractions_compute(self):
        """Formulas without quantifiers and programs, at random values: divisions by 0, powers and differentials too."""
        drawn, compared = Drawn(1), 0
        for _ in range(400):
            tree = reader.formula(drawn.formula(drawn.rng.choice([0, 1, 2])), TREES)
            try:
                meaning = Meaning().formula(tree, State())
            except syntax.Unsupported:
                continue
            for _ in range(8):
                numbers = {name: Fraction(drawn.rng.choice([-2, -1, 0, 0, 1, 2, Fraction(1, 2)])) for name in ("x", "y", "x'", "y'", "k()")}
                told = expressions.holds(meaning, numbers, {})
                self.assertEqual(told, exactly.holds(tree, numbers), (tree, numbers))
                self.assertEqual(expressions.holds(solver.no(meaning), numbers, {}), not told)
                compared += 1
        self.assertGreater(compared, 2_000)

    def test_quantifiers_keep_their_meaning(self):
        """Random formulas with quantifiers, as they were written and in their normal form: z3 finds no difference."""
        drawn, decided, seen = Drawn(2), 0, 0
        for _ in range(200):
            made, written = drawn.pair(["x", "y"], 3)
            solving = z3.Solver()
            solving.set("rlimit", 150_000)
            solving.add(solver.IN_Z3.formula(made) != written)
            said = solving.check()
            self.assertNotEqual(said, z3.sat, (made, written))
            decided += said == z3.unsat
            seen += "exists" in repr(made) or "forall" in repr(made)
        self.assertGreater(decided, 130)
        self.assertGreater(seen, 10)

    def test_what_exists_may_be_opened(self):
        """A formula has a solution where it has one with its outer `exists` opened."""
        drawn = Drawn(3)
        for _ in range(80):
            made, _ = drawn.pair(["x", "y"], 2)
            answers = []
            for asked in (made, expressions.opened(made)):
                solving = z3.Solver()
                solving.set("rlimit", 150_000)
                solving.add(solver.IN_Z3.formula(asked))
                answers.append(str(solving.check()))
            self.assertNotEqual({*answers}, {"sat", "unsat"}, made)


@needs_z3
class Simplifies(unittest.TestCase):
    """What is one object, and what is true or false by itself."""

    def test_names_of_what_is_bound_do_not_matter(self):
        """Two quantifiers written alike with other names are one formula."""
        made = []
        for _ in range(2):
            time = solver.fresh("time")
            there = solver.compare("ge", solver.real("x").plus(time.times(time)), solver.ZERO)
            made.append(solver.quantified(True, time, solver.either([solver.compare("lt", time, solver.ZERO), there])))
        self.assertIs(*made)
        self.assertIs(solver.both([made[0], solver.no(made[1])]), solver.FALSE)

    def test_signs_are_joined(self):
        """`x>=0` and `x<=0` are `x=0`; a square isn't below 0; a number times a term has the term's sign."""
        x = solver.real("x")
        least, most = solver.compare("ge", x, solver.ZERO), solver.compare("le", x.scaled(Fraction(3, 2)), solver.ZERO)
        self.assertIs(solver.both([least, most]), solver.compare("eq", x, solver.ZERO))
        self.assertIs(solver.either([least, most]), solver.TRUE)
        self.assertIs(solver.compare("lt", x.times(x), solver.ZERO), solver.FALSE)
        self.assertIs(solver.compare("gt", x.times(x), solver.ZERO), solver.compare("ne", x, solver.ZERO))

    def test_an_equation_says_what_is_bound(self):
        """Some `z` with `z=x+1` and `z>0` there is where `x+1>0`."""
        x, z = solver.real("x"), solver.real("z")
        above = x.plus(solver.ONE)
        body = solver.both([solver.compare("eq", z, above), solver.compare("gt", z, solver.ZERO)])
        self.assertIs(solver.quantified(False, z, body), solver.compare("gt", above, solver.ZERO))

    def test_a_constant_of_truth_is_no_number(self):
        """`p()` may be a predicate and a function: each has its own value."""
        both = solver.both([solver.truth("p()"), solver.compare("gt", solver.real("p()"), solver.ZERO)])
        self.assertFalse(solver.is_refuted_by(both, {"p()": 1}, 1000))
        self.assertTrue(solver.is_refuted_by(both, {"p()": 0}, 1000))

    def test_a_long_polynomial_is_refused(self):
        """It is said so, and no time is spent."""
        whole = solver.ONE
        for name in "abcdefgh":
            whole = whole.plus(solver.real(name))
        with self.assertRaises(syntax.Unsupported):
            whole.power(12)

    def test_forgetting_leaves_formulas_right(self):
        """What was made before is still what it was."""
        before = solver.compare("gt", solver.real("x"), solver.ZERO)
        solver.forget()
        self.assertTrue(solver.is_refuted_by(before, {"x": 0}, 1000))
        self.assertFalse(solver.is_refuted_by(before, {"x": 1}, 1000))


if __name__ == "__main__":
    unittest.main()
