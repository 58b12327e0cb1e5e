"""The second semantics: what formulas mean, what is decided of them, and the pitfalls of a solver and of floating point."""

import time
import unittest
from fractions import Fraction
from unittest import mock

import helping  # noqa: F401  (it sets the path)
from dlkt import reader, semantics
from dlkt.trees import Trees

TREES = Trees()
needs_z3 = unittest.skipUnless(semantics.is_there(), semantics.NEEDED)
if semantics.is_there():
    from dlkt.semantics import deciding, exactly, floats, paths, polynomials, simulation, solver, syntax, systems
    from dlkt.semantics.deciding import Verdict
    from dlkt.semantics.meaning import Meaning
    from dlkt.semantics.values import State


def formula(text):
    """The tree of a formula."""
    return reader.formula(text, TREES)


def term(text):
    """The tree of a term."""
    return formula(f"{text}=0").kids[0]


def verdict(text):
    """What is decided of a formula."""
    return deciding.decided(formula(text), 3000).verdict


@needs_z3
class Decides(unittest.TestCase):
    """Formulas whose truth is known."""

    def test_what_is_valid_is_valid(self):
        """Assignments, choices, tests, systems, loops, quantifiers, differentials."""
        for text in (
            "x>=0 -> [x:=x+1;]x>=1", "[x:=1;++x:=2;]x>=1", "[?x>0;]x>0", "[x:=*;]x^2>=0", "x>=0 -> [{x'=1}]x>=0",
            "v>=0&a>=0 -> [{x'=v,v'=a}]v>=0", "x>=0 -> [{x'=v,v'=a&v>=0}]x>=0", "[{x'=-1&x>=0}]x>=0", "<{x'=1}>x>y", "\\exists z z>x",
            "(x*y)'=x'*y+x*y'", "(x>=y)' <-> x'>=y'", "(x>0|y>0)' <-> x'>=0&y'>=0", "!((!x>0)')", "[{x:=0;}*](x=0|x=y) <-> (x=0|x=y)",
            "<{x'=1&x<=3}>x=3 <-> x<=3", "x=1 -> [{x'=1,y'=x}]y>=y",
        ):
            self.assertEqual(verdict(text), Verdict.VALID, text)

    def test_what_is_not_valid_is_not(self):
        """The same kinds, with a counterexample that is put in."""
        for text in (
            "x>=0 -> [x:=x+1;]x>1", "[x:=1;++x:=2;]x>=2", "[x:=*;]x>0", "x>0 -> [{x'=-1}]x>0", "[{x'=1&x<=3}]x<3", "<{x'=-1}>x>y",
            "(x*x)'=x'*x", "[{x:=*;}*]x>=0", "[{x'=1}]x'=2", "[{x'=1&x'=1}]false", "<{x'=1&x'=2}>true",
        ):
            self.assertEqual(verdict(text), Verdict.INVALID, text)

    def test_by_zero_is_zero(self):
        """`a/0` is 0, and `0^-1` too."""
        self.assertEqual(verdict("x/0=0"), Verdict.VALID)
        self.assertEqual(verdict("x=0 -> 1/x=0 & x^-1=0"), Verdict.VALID)
        self.assertEqual(verdict("x/x=1"), Verdict.INVALID)

    def test_the_four_places(self):
        """The rows of docs/SOUNDNESS.md that are derived and not valid."""
        for text in (
            "(B'=1 -> [{x'=1&B'=1}](x=B)') -> ([{x'=1&B'=1}]x=B <-> [?B'=1;]x=B)",
            "[{x'=1}](x*x*(1/(x*x))=1)' -> ([{x'=1}]x*x*(1/(x*x))=1 <-> [?true;]x*x*(1/(x*x))=1)",
            "(x'=1 -> [{x'=1&x'=1}](false)') -> ([{x'=1&x'=1}]false <-> [?x'=1;]false)",
            "[{x'=-1}]x!=0 <-> \\exists y_ [{x'=-1,y_'=2/x*y_+0}]x!=0",
            "(0=0)' <-> (0=0|x_=0)'",
        ):
            self.assertEqual(verdict(text), Verdict.INVALID, text)

    def test_what_is_not_in_its_part_is_said(self):
        """Cycles of equations, arguments, and exponents that aren't whole numbers are refused, and never guessed."""
        for text in ("[{x'=y,y'=-x}]x>=0", "f(x)>=0", "x^y>=0", "x^0.5>=0", "p(||)"):
            with self.assertRaises(syntax.Unsupported, msg=text):
                verdict(text)


@needs_z3
class Pitfalls(unittest.TestCase):
    """What once made a wrong answer."""

    def test_a_late_answer_is_not_believed(self):
        """z3 now and then answers `sat` as it is stopped."""

        def late(asked, milliseconds):
            time.sleep(milliseconds / 1000)
            return solver.Answer(solver.Said.SOLVED, None)

        with mock.patch.object(solver, "ask", late):
            self.assertEqual(solver.timely(solver.TRUE, 50).said, solver.Said.UNKNOWN)
        self.assertEqual(solver.timely(solver.TRUE, 5000).said, solver.Said.SOLVED)

    def test_a_false_solution_is_no_counterexample(self):
        """An answer in time that is wrong comes to `doubt`: with its numbers put in the formula is true."""
        whole, three = solver.timely, solver.compare("eq", solver.real("x"), solver.number(3))
        asked = []

        def wrong_at_first(wanted, milliseconds):
            asked.append(wanted)
            return whole(three, milliseconds) if len(asked) == 1 else whole(wanted, milliseconds)

        with mock.patch.object(solver, "timely", wrong_at_first):
            self.assertEqual(deciding.decided(formula("x*x>=0")).verdict, Verdict.DOUBT)
        self.assertGreater(len(asked), 1)

    def test_a_false_solution_is_no_run(self):
        """A path with a wrong solution is computed again, and dropped."""
        from dlkt.semantics import refuting
        model = formula("x>=0 -> [x:=x+1;]x>=1")
        search = paths.Paths(paths.Clock(5))
        path, fails = next(iter(search.falsify(model, paths.Path(State()))))
        asked = solver.compare("eq", solver.real("x"), solver.number(3))
        wrong = solver.ask(asked, 1000).solution
        self.assertIsNone(refuting.run_of(paths.Found(path, fails, asked, wrong), model, search.clock))

    def test_what_rounding_leaves_is_no_failure(self):
        """A speed of -1e-9 isn't below 0, and one of 1e-9 isn't above it."""
        self.assertFalse(floats.fails(formula("v>=0"), {"v": -1e-9}))
        self.assertFalse(floats.holds(formula("v>0"), {"v": 1e-9}))
        self.assertTrue(floats.fails(formula("v>=0"), {"v": -1e-3}))
        self.assertTrue(floats.holds(formula("v>0"), {"v": 1e-3}))

    def test_a_failure_goes_with_the_size_of_what_is_added_up(self):
        """What is lost where great numbers cancel isn't taken for a failure."""
        self.assertFalse(floats.fails(formula("x-y>=0"), {"x": 1e9, "y": 1e9 + 1}))
        self.assertTrue(floats.fails(formula("x-y>=0"), {"x": 1.0, "y": 2.0}))

    def test_a_run_to_infinity_is_broken_off(self):
        """`x'=x^2` has no solution behind 1/x."""
        system = formula("[{x'=x^2}]true").kids[0]
        run = simulation.Simulation(formula("x>0"), 0, simulation.Choices(mock.Mock(random=lambda: 1.0)), {"x": 1.0})
        run.run(system)
        self.assertTrue(run.done)
        self.assertLess(run.done[-1].duration, 1.0)
        self.assertLess(run.state["x"], simulation.GREATEST * 10)
        self.assertFalse(run.fails)

    def test_a_dropped_variable_is_poisoned(self):
        """A ghost's equation is dropped; where the ghost is read, nothing is said."""
        self.assertEqual(verdict("x>0 -> [{x'=1,y'=-y}]x>0"), Verdict.VALID)
        for text in ("x>0 -> [{x'=-x}]x>0", "[{x'=1,y'=-y}]y>0"):
            with self.assertRaises(syntax.Unsupported, msg=text):
                verdict(text)

    def test_an_unrolled_loop_is_a_bound_by_its_place(self):
        """A box over a loop is unrolled to a bound from above, a diamond to one from below: neither makes a wrong answer."""
        rounds = "{x:=x+1;}*"
        self.assertEqual(verdict(f"x=0 -> [{rounds}]x<2"), Verdict.INVALID)
        for text in (f"x=0 -> <{rounds}>x>=9", f"!(x=0 & [{rounds}]x<9)"):  # valid, but not by two rounds
            self.assertNotEqual(verdict(text), Verdict.INVALID, text)
        for text in (f"x=0 -> [{rounds}]x<9", f"!(x=0 & <{rounds}>x>=9)"):  # not valid, but so by two rounds
            self.assertNotEqual(verdict(text), Verdict.VALID, text)

    def test_a_pole_ends_runs(self):
        """A dropped equation with a pole has runs up to it, and goes on where its solution does."""
        self.assertEqual(verdict("x=1 -> [{x'=-1,y'=1/x}]x>0"), Verdict.VALID)
        self.assertEqual(verdict("x=1 -> [{x'=-1}]x>0"), Verdict.INVALID)
        self.assertEqual(verdict("x=1 & y=0 -> [{x'=-1,y'=-2/x*y}]x>0"), Verdict.INVALID)


@needs_z3
class Computes(unittest.TestCase):
    """Runs with their numbers put in, by fractions."""

    def signs(self, word, *coefficients, duration):
        """Whether a polynomial compares with 0 so along a time."""
        return exactly.stays(word, [Fraction(coefficient) for coefficient in coefficients], Fraction(duration))

    def test_signs_along_a_time(self):
        """Roots at the ends, within, double ones, and none."""
        self.assertTrue(self.signs("ge", 1, -2, 1, duration=5))  # (t-1)^2
        self.assertFalse(self.signs("gt", 1, -2, 1, duration=5))
        self.assertTrue(self.signs("gt", 1, -2, 1, duration="1/2"))
        self.assertTrue(self.signs("ge", 0, 1, duration=3))
        self.assertFalse(self.signs("gt", 0, 1, duration=3))
        self.assertFalse(self.signs("ge", 1, -1, duration=2))
        self.assertTrue(self.signs("ge", 1, -1, duration=1))
        self.assertFalse(self.signs("ge", -2, 0, 1, duration=1))
        self.assertFalse(self.signs("le", -2, 0, 1, duration=2))  # the root of 2 is within
        self.assertTrue(self.signs("le", -2, 0, 1, duration="7/5"))
        self.assertFalse(self.signs("ge", 1, -3, 2, duration=2))  # (1-t)*(1-2t)
        self.assertFalse(self.signs("ne", 1, -3, 2, duration=2))
        self.assertTrue(self.signs("ne", 3, 0, 1, duration=9))
        self.assertTrue(self.signs("eq", 0, duration=9))
        self.assertFalse(self.signs("eq", 0, 1, duration=9))
        self.assertTrue(self.signs("eq", 0, 1, duration=0))

    def test_a_dip_between_two_roots_near_to_each_other(self):
        """(t-1/2)*(t-501/1000) is below 0 between them."""
        one, other = Fraction(1, 2), Fraction(501, 1000)
        self.assertFalse(exactly.stays("ge", [one * other, -one - other, Fraction(1)], Fraction(2)))
        self.assertTrue(exactly.stays("ge", [one * other, -one - other, Fraction(1)], one))

    def test_polynomials_agree_with_the_solver(self):
        """Bernstein's coefficients are at least 0 only where the polynomial is."""
        time_ = solver.real("t")
        values = [Meaning().term(term(text), State()) for text in ("2", "x", "1")]
        coefficients = polynomials.bernstein(values, time_)
        holds = solver.both(exactly_least(value) for value in coefficients)
        moment = solver.real("s")
        below = solver.both([*(solver.compare("ge", one, solver.ZERO) for one in (time_, moment)), solver.compare("le", moment, time_), holds])
        fails = solver.no(exactly_least(polynomials.at(values, moment)))
        self.assertEqual(solver.ask(solver.both([below, fails]), 5000).said, solver.Said.IMPOSSIBLE)

    def test_systems_are_solved_by_polynomials(self):
        """`x'=y^2, y'=1` is solved, a cycle isn't, and a slope that its own side reads is solved for."""
        meaning = Meaning()
        system = formula("[{x'=y^2,y'=1}]true").kids[0]
        self.assertEqual(len(systems.solved(meaning, system, State()).along["x"]), 4)
        self.assertIsNone(systems.solved(meaning, formula("[{x'=x'+1}]true").kids[0], State()))
        halved = systems.solved(meaning, formula("[{x'=1-x'}]true").kids[0], State())
        self.assertEqual(exactly.solution(formula("[{x'=1}]true").kids[0], {"x": Fraction(0)})["x"], [0, 1])
        self.assertEqual(len(halved.along["x"]), 2)


def exactly_least(value):
    """That a value is at least 0."""
    from dlkt.semantics.values import NOUGHT, compared
    return compared("ge", value, NOUGHT)


if __name__ == "__main__":
    unittest.main()
