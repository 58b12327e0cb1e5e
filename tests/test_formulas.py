"""Tests of the library of formulas: names, substitution, slopes, polynomials, divisions, SMT-LIB text."""

import random
import unittest
from fractions import Fraction

import helping  # noqa: F401  (it finds the package)
from dlkt import formulas
from dlkt.formulas import (
    NoSmt, NotPolynomial, bound, cleared, conjunction, conjuncts, differentiable, formula, free, is_arithmetic, make, match, normal_form, number,
    polynomial, polynomial_product, polynomial_quotients, polynomial_sum, slope, slope_formula, smt, substituted, term_of, text, variable,
)
from dlkt.search.points import Point


def term(source):
    """The term of a text."""
    return formula(f"{source}=0").kids[0]


class Names(unittest.TestCase):
    """Free and bound names."""

    def test_free_names_are_those_that_are_read(self):
        self.assertEqual(free(formula("x>=c() -> [y:=z;{u'=v&w>0}]a=0")), {"x", "c()", "z", "u", "v", "w", "a"})
        self.assertEqual(free(formula("\\forall x x>y")), {"y"})

    def test_bound_names_are_those_that_may_be_written(self):
        program = formula("[x:=1;{y:=*;++{z'=1}}]true").kids[0]
        self.assertEqual(bound(program), {"x", "y", "z", "z'"})
        self.assertEqual(bound(formula("[{?x>0;x:=2;}*]true").kids[0]), {"x"})

    def test_arithmetic_has_neither_programs_nor_symbols(self):
        self.assertTrue(is_arithmetic(formula("\\exists x x*c()>=y")))
        for source in ("[x:=1;]x>0", "p(x)", "f(x)>0", "(x>0)'", "(x)'>0"):
            self.assertFalse(is_arithmetic(formula(source)), source)


class Shapes(unittest.TestCase):
    """Connectives, substitution, matching."""

    def test_a_conjunction_and_its_parts(self):
        parts = [formula(one) for one in ("x>0", "y>0", "z>0")]
        self.assertEqual(conjuncts(conjunction(parts)), parts)
        self.assertIs(conjunction([]), formulas.TRUE)
        self.assertIs(conjunction(parts), formula("x>0&y>0&z>0"))

    def test_normal_form_has_negations_at_comparisons(self):
        self.assertEqual(text(normal_form(formula("!(x>0 -> y=1 & !z<0)"))), "x>0&(y!=1|z<0)")
        self.assertEqual(text(normal_form(formula("!(x>0 <-> true)"))), "x>0&false|true&x<=0")

    def test_normal_form_says_the_same(self):
        rng = random.Random(1)
        source = "!(x>0 <-> (y>=x -> !(x=y | y!=1)))"
        for _ in range(50):
            point = Point({name: Fraction(rng.randint(-2, 2)) for name in "xy"})
            self.assertEqual(point.holds(formula(source)), point.holds(normal_form(formula(source))))

    def test_substitution_takes_terms_for_names(self):
        self.assertEqual(text(substituted(formula("x+c()>=y"), {"x": term("z*2"), "c()": term("1")})), "z*2+1>=y")

    def test_a_system_evolves_what_a_variable_is_replaced_by(self):
        self.assertEqual(text(substituted(formula("[{x'=x}]x>0"), {"x": variable("u")})), "[{u'=u}]u>0")

    def test_matching_finds_the_terms(self):
        values = {}
        self.assertTrue(match(formula("[{x'=v}]true").kids[0], formula("[{x'=-b()}]true").kids[0], values))
        self.assertEqual({name: text(value) for name, value in values.items()}, {"x": "x", "v": "-b()"})
        self.assertFalse(match(formula("x+x>0"), formula("y+z>0"), {}))


class Slopes(unittest.TestCase):
    """Lie derivatives."""

    def test_slopes_of_terms(self):
        field = {"x": term("y"), "y": term("-x")}
        self.assertEqual(polynomial(slope(term("x^2+y^2"), field)), {})
        self.assertEqual(text(slope(term("c()*x"), field)), "c()*y")
        self.assertRaises(NotPolynomial, slope, term("1/x"), field)

    def test_a_strict_comparison_asks_for_a_weak_one(self):
        self.assertEqual(text(slope_formula(formula("x>0|y!=0"), {"x": term("1"), "y": term("x")})), "1>=0&x=0")

    def test_what_derive_takes(self):
        self.assertTrue(differentiable(formula("x^2+c()*y>=0")))
        for source in ("x/y>0", "x^y>0", "x^17>0", "x'>0", "\\forall x x>0"):
            self.assertFalse(differentiable(formula(source)), source)


class Polynomials(unittest.TestCase):
    """Polynomials, their texts, and division."""

    def test_numbers_are_decimals_where_they_can_be(self):
        for value, said in ((Fraction(1, 2), "0.5"), (Fraction(-3, 8), "-0.375"), (Fraction(1, 3), "1/3"), (12, "12"), (Fraction(1, 25), "0.04")):
            self.assertEqual(text(number(value)), said)

    def test_the_term_of_a_polynomial_says_the_same(self):
        rng = random.Random(2)
        for _ in range(100):
            whole = {}
            for _ in range(rng.randint(1, 4)):
                key = tuple(sorted({name: rng.randint(1, 3) for name in rng.sample(["x", "y", "c()"], rng.randint(0, 2))}.items()))
                whole = polynomial_sum(whole, {key: Fraction(rng.randint(-5, 5) or 1, rng.choice([1, 2, 3]))})
            self.assertEqual(polynomial(term_of(whole)), whole)
            self.assertIs(term(text(term_of(whole))), term_of(whole))

    def test_division_gives_quotient_and_rest(self):
        whole, below = polynomial(term("x^2-y^2+3")), polynomial(term("x+y"))
        for quotient, rest in polynomial_quotients(whole, below):
            self.assertEqual(polynomial_sum(polynomial_product(quotient, below), rest), whole)
        self.assertTrue(polynomial_quotients(whole, below))

    def test_a_division_is_cleared_by_the_sign_of_its_divisor(self):
        one = formula("x/c()+y>=z/(2*c())")
        self.assertEqual(text(cleared(one, lambda _: 1)), "2*c()*y+2*x>=z")
        self.assertEqual(text(cleared(one, lambda _: -1)), "2*c()*y+2*x<=z")
        self.assertIsNone(cleared(one, lambda _: None))

    def test_clearing_says_the_same(self):
        rng = random.Random(3)
        for source in ("x/y+1>=y/x", "1/(x*y)<x", "x/(y*y)=2-y"):
            for _ in range(60):
                numbers = {name: Fraction(rng.choice([-3, -2, -1, 1, 2, 3])) for name in "xy"}
                point = Point(numbers)
                new = cleared(formula(source), lambda it: 1 if point.value(it) > 0 else -1)  # noqa: B023
                self.assertEqual(point.holds(formula(source)), point.holds(new), (source, numbers))


class Smt(unittest.TestCase):
    """SMT-LIB texts."""

    def test_texts(self):
        self.assertEqual(smt(formula("x+c()>=1")), "(>= (+ |v.x| |f.c|) 1.0)")
        self.assertEqual(smt(formula("x!=0.5")), "(not (= |v.x| 0.5))")
        self.assertEqual(smt(formula("\\forall x x^2>=0")), "(forall ((|v.x| Real)) (>= (let ((|e| |v.x|)) (* |e| |e|)) 0.0))")

    def test_what_has_none(self):
        for source in ("f(x)>0", "x^y>0", "x^17>0", "[x:=1;]x>0"):
            self.assertRaises(NoSmt, smt, formula(source))

    def test_trees_are_made_once(self):
        self.assertIs(make("var", "x"), term("x"))


if __name__ == "__main__":
    unittest.main()
