"""Darboux: p>=0 stays where the slope of p is at least a multiple of p, p'=g*p+r with r>=0, for p can't get to 0 faster than exp does.

g is the cofactor. The ghost y with y'=-(g/2)*y turns it into a differential invariant: p*y^2 has the slope r*y^2, and y stays away from 0
(Darboux 1878; Platzer and Tan, Differential equation axiomatization, LICS 2018; ghosts: Platzer, LMCS 2012). Cofactors are found by polynomial
division of p' by p, among some numbers, and in two shapes more:

- A strict barrier: where p'>0 for p<=d, p'>=-c*p^2 or p'>=-c*(p'^2+1)*p^2 everywhere, so the cofactor -c*p, or -c*(p'^2+1)*p, does (Prajna and
  Jadbabaie, Safety verification of hybrid systems using barrier certificates, HSCC 2004).
- A quotient g/d, where d isn't 0 by a part of the domain in these words, which is what the guard wants.
"""

from collections.abc import Iterator
from fractions import Fraction
from typing import TYPE_CHECKING, NamedTuple

from dlkt.formulas import (
    COMPARISONS, NotPolynomial, Polynomial, TRUE, ZERO, conjuncts, free, has_division, is_arithmetic, make, multiplied, normal_form, polynomial,
    polynomial_product, polynomial_quotients, polynomial_sum, slope, slope_formula, substituted, subtracted, term_of, variable,
)
from dlkt.trees import Tree

if TYPE_CHECKING:
    from dlkt.search.systems import System

NUMBERS = (-1, 1, -2, 2, -10, 10)
MOST_BARRIER = 8  # parts of a slope for which a strict barrier is tried


class Cofactor(NamedTuple):
    """The term p of p~0, the factor g of p'=g*p+r, and the condition that r must satisfy."""

    term: Tree
    factor: Tree
    condition: Tree


def left_of_zero(formula: Tree) -> Tree:
    """The term p where a comparison says p>=0, p>0 or p=0."""
    one, other = formula.kids if formula.word in ("ge", "gt", "eq") else formula.kids[::-1]
    return one if other is ZERO else subtracted(one, other)


def above_zero(formula: Tree, rest: Tree) -> Tree:
    """That the rest r of p'=g*p+r doesn't lead out of a comparison."""
    return make("eq" if formula.word == "eq" else "ge", "", rest, ZERO)


def darboux(system: "System", formula: Tree, domain: list[Tree], seconds: float) -> Cofactor | None:
    """A cofactor of a comparison, whose condition follows from the domain; none where none is found."""
    if formula.word not in COMPARISONS or formula.word == "ne":
        return None
    term = left_of_zero(formula)
    try:
        rise, mine = polynomial(slope(term, system.field)), polynomial(term)
        options = list(splits_of(system, formula, rise, mine))
    except NotPolynomial:
        return by_quotient(system, formula, term, domain, seconds)
    for factor, rest in options:
        if factor:
            condition = condition_on(system, formula, term, term_of(factor), rest)
            if condition is not None and (condition is TRUE or system.solver.holds(domain, condition, seconds)):
                return Cofactor(term, term_of(factor), condition)
    return None


def splits_of(system: "System", formula: Tree, rise: Polynomial, mine: Polynomial) -> Iterator[tuple[Polynomial, Polynomial]]:
    """Pairs of a factor g and a rest r with p'=g*p+r."""
    def with_factor(factor: Polynomial) -> tuple[Polynomial, Polynomial]:
        return factor, polynomial_sum(rise, polynomial_product(factor, mine), -1)

    if formula in system.cofactors:
        yield with_factor(polynomial(system.cofactors[formula]))
    yield from polynomial_quotients(rise, mine)
    yield from (with_factor({(): Fraction(value)}) for value in NUMBERS)
    is_wanted = is_arithmetic(system.post) and formula in conjuncts(normal_form(system.post))
    if formula in system.cofactors or formula.word == "eq" or len(rise) >= MOST_BARRIER or not is_wanted:
        return
    steeper = polynomial_sum(polynomial_product(rise, rise), {(): Fraction(1)})
    for value in (1, 100):
        below = polynomial_product({(): Fraction(-value)}, mine)
        yield with_factor(below)
        yield with_factor(polynomial_product(below, steeper))


def condition_on(system: "System", formula: Tree, term: Tree, factor: Tree, rest: Polynomial) -> Tree | None:
    """What must follow from the domain: that the rest is at least 0, or, where something is divided, the slope as the leaf will have it, for the
    leaf has the divisors, which must be known not to be 0."""
    remainder = term_of(rest)
    if has_division(factor) or has_division(remainder) or any(map(has_division, system.field.values())):
        ghost = variable("ghost")
        kept = make("eq" if formula.word == "eq" else "ge", "", multiplied(multiplied(term, ghost), ghost), ZERO)
        try:
            return slope_formula(kept, {**system.field, "ghost": multiplied(scaled(factor, Fraction(-1, 2), system.bound), ghost)})
        except NotPolynomial:
            return None
    return above_zero(formula, remainder) if rest else TRUE


def by_quotient(system: "System", formula: Tree, term: Tree, domain: list[Tree], seconds: float) -> Cofactor | None:
    """A cofactor g/d, where the domain says that d isn't 0, in these words."""
    same = {one.kids[0].detail: one.kids[1] for one in system.domain
            if one.word == "eq" and one.kids[0].word == "var" and one.kids[0].detail not in free(one.kids[1])}
    try:
        rise = polynomial(substituted(slope(term, system.field), same), free(system.program))
        mine = polynomial(substituted(term, same))
    except NotPolynomial:
        return None
    for one in system.domain:
        if one.word not in ("gt", "ne", "lt") or one.kids[1] is not ZERO:
            continue
        try:
            above = polynomial_product(rise, polynomial(one.kids[0]))
        except NotPolynomial:
            continue
        if any(power < 0 for key in above for name, power in key if not name.endswith("()")):
            continue
        for factor, rest in polynomial_quotients(above, mine):
            condition = above_zero(formula, term_of(rest)) if rest else TRUE
            if factor and (condition is TRUE or one.word == "gt" and system.solver.holds(domain, condition, seconds)):
                return Cofactor(term, make("div", "", term_of(factor), one.kids[0]), condition)
    return None


def scaled(term: Tree, by: Fraction, moving: frozenset[str]) -> Tree:
    """A term times a number; a divisor that a system changes stays below."""
    if term.word == "div" and free(term.kids[1]) & moving:
        return make("div", "", scaled(term.kids[0], by, moving), term.kids[1])
    return term_of({key: value * by for key, value in polynomial(term).items()})
