"""Values along a time, as polynomials in it: lists of coefficients, the constant one first.

Sums, products and whole powers of polynomials are polynomials, and so are antiderivatives. By Bernstein's coefficients over [0,t] a polynomial is
at least 0 there where all of them are: that is enough, and not always needed.
"""

from __future__ import annotations

import math
from fractions import Fraction
from typing import Mapping, TypeAlias

from dlkt.semantics import solver
from dlkt.semantics.solver import Term
from dlkt.semantics.syntax import differential, exponent, reads
from dlkt.semantics.values import NOUGHT, State, Terms, Value
from dlkt.trees import Tree

Polynomial: TypeAlias = list[Value]
MOST_COEFFICIENTS = 14


class NoPolynomial(Exception):
    """A value along the time that isn't known as a polynomial in it."""


def trimmed(polynomial: Polynomial) -> Polynomial:
    """A polynomial without coefficients of 0 at its end."""
    while len(polynomial) > 1 and polynomial[-1].is_zero():
        polynomial = polynomial[:-1]
    return polynomial


def added(one: Polynomial, other: Polynomial) -> Polynomial:
    """The sum."""
    longer, shorter = (one, other) if len(one) >= len(other) else (other, one)
    return trimmed([value.plus(shorter[place]) if place < len(shorter) else value for place, value in enumerate(longer)])


def negated(polynomial: Polynomial) -> Polynomial:
    """The polynomial below a minus sign."""
    return [value.negated() for value in polynomial]


def multiplied(one: Polynomial, other: Polynomial) -> Polynomial:
    """The product."""
    count = len(one) + len(other) - 1
    if count > MOST_COEFFICIENTS:
        raise NoPolynomial
    found = [NOUGHT] * count
    for place, first in enumerate(one):
        for further, second in enumerate(other):
            found[place + further] = found[place + further].plus(first.times(second))
    return trimmed(found)


def antiderivative(start: Value, polynomial: Polynomial) -> Polynomial:
    """What begins with a value and has this polynomial as its slope."""
    found = [value.times(Value.of(solver.number(Fraction(1, place)))) for place, value in enumerate(polynomial, 1)]
    return trimmed([start, *found])


def at(polynomial: Polynomial, time: Term) -> Value:
    """The value at a time."""
    found, power = NOUGHT, solver.ONE
    for value in polynomial:
        found = found.plus(value.times(Value.of(power)))
        power = power.times(time)
    return found


def evaluated(terms: Terms, term: Tree, state: State, along: Mapping[str, Polynomial | None]) -> Polynomial:
    """The value of a term along the time, where the variables that change are these polynomials, or aren't known."""
    if not any(name in along for name in reads(term)):
        return [terms.term(term, state)]
    if term.word == "var":
        known = along[term.detail]
        if known is None:
            raise NoPolynomial
        return known
    if term.word == "diff":
        return evaluated(terms, differential(term.kids[0]), state, along)
    if term.word == "pow":
        return powered(evaluated(terms, term.kids[0], state, along), exponent(term))
    parts = [evaluated(terms, kid, state, along) for kid in term.kids]
    if term.word == "neg":
        return negated(parts[0])
    if term.word in ("add", "sub"):
        return added(parts[0], parts[1] if term.word == "add" else negated(parts[1]))
    if term.word == "mul":
        return multiplied(parts[0], parts[1])
    if term.word == "div" and len(parts[1]) == 1:
        return [value.over(parts[1][0]) for value in parts[0]]
    raise NoPolynomial


def powered(polynomial: Polynomial, times: int) -> Polynomial:
    """A power."""
    if times < 0:
        raise NoPolynomial
    found = [Value.of(solver.ONE)]
    for _ in range(times):
        found = multiplied(found, polynomial)
    return found


def difference(terms: Terms, comparison: Tree, state: State, along: Mapping[str, Polynomial | None]) -> Polynomial:
    """The left side of a comparison minus its right side, along the time."""
    left, right = (evaluated(terms, kid, state, along) for kid in comparison.kids)
    return added(left, negated(right))


def bernstein(polynomial: Polynomial, time: Term) -> list[Value]:
    """The coefficients of a polynomial over [0,time]."""
    degree = len(polynomial) - 1
    scaled, power = [], Value.of(solver.ONE)
    for value in polynomial:
        scaled.append(value.times(power))
        power = power.times(Value.of(time))
    found = []
    for place in range(degree + 1):
        coefficient = NOUGHT
        for lower in range(place + 1):
            part = Fraction(math.comb(place, lower), math.comb(degree, lower))
            coefficient = coefficient.plus(scaled[lower].times(Value.of(solver.number(part))))
        found.append(coefficient)
    return found
