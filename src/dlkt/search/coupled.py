"""Two bounds that need each other: a vectorial Darboux argument, by the left Perron vector of a matrix.

Let p1>=0 and p2>=0 at first, and p'=G*p+r along the system, with G12>0, G21>0 and r>=0 (G is cooperative, so that p never leaves the positive
quadrant). There is k>0 with G12*k^2+(G22-G11)*k-G21=0: (k,1) is the left Perron vector of G. So u=k*p1+p2 has u'>=m*u for m=G12*k+G22, and stays
at least 0 by Darboux. Then p2>=-k*p1, and each p has p'>=n*p for n=G11-G12*k, the other eigenvalue: both stay at least 0, by Darboux again
(vectorial Darboux: Ghorbal, Sogokon, Platzer, A hierarchy of proof rules for checking positive invariance of algebraic and semi-algebraic sets,
Comput. Lang. Syst. Struct. 2017; Perron and Frobenius, 1907 and 1912).
"""

from typing import NamedTuple

from dlkt.formulas import (
    NotPolynomial, Polynomial, ZERO, added, conjuncts, free, free_of_all, is_arithmetic, make, multiplied, normal_form, polynomial, polynomial_product,
    polynomial_sum, slope, subtracted, term_of, unique, variable, variables,
)
from dlkt.search.context import Search, fresh
from dlkt.search.cuts import text_for_arithmetic
from dlkt.search.freezing import freeze
from dlkt.search.kernel import Goal
from dlkt.search.pool import pool
from dlkt.search.systems import System
from dlkt.search.writing import branch, quoted, remark, seq
from dlkt.trees import Tree
from fractions import Fraction


class Shape(NamedTuple):
    """A bound p~0 with p=s*x+c for an evolved x and a number s."""

    formula: Tree
    term: Tree
    name: str
    factor: Fraction


class Row(NamedTuple):
    """The slope of a bound: its factors of both bounds, and the rest."""

    first: Tree
    second: Tree
    rest: Tree


def shape_of(system: System, formula: Tree) -> Shape | None:
    """The shape of a bound, or none."""
    if formula.word not in ("ge", "gt", "le", "lt"):
        return None
    term = subtracted(*(formula.kids if formula.word in ("ge", "gt") else formula.kids[::-1]))
    try:
        mine = polynomial(term)
    except NotPolynomial:
        return None
    moving = [key for key in mine if any(name in system.bound for name, _ in key)]
    if len(moving) != 1 or len(moving[0]) != 1 or moving[0][0][1] != 1 or moving[0][0][0] not in system.field:
        return None
    return Shape(formula, term, moving[0][0][0], mine[moving[0]])


def row_of(system: System, term: Tree, pair: tuple[Shape, Shape]) -> Row | None:
    """The slope of a term, by two bounds."""
    try:
        rise = polynomial(slope(term, system.field))
        factors: list[Polynomial] = []
        rest = rise
        for one in pair:
            part = {tuple((name, power) for name, power in key if name != one.name): value / one.factor
                    for key, value in rise.items() if dict(key).get(one.name) == 1}
            factors.append(part)
            rest = polynomial_sum(rest, polynomial_product(part, polynomial(one.term)), -1)
    except NotPolynomial:
        return None
    row = Row(term_of(factors[0]), term_of(factors[1]), term_of(rest))
    return None if free_of_all(row) & system.bound else row


def pairs(system: System) -> list[tuple[Shape, Shape, Row, Row]]:
    """Pairs of bounds with the rows of their slopes."""
    given = [*conjuncts(normal_form(system.post)), *system.left]
    wanted = unique(part for one in given if is_arithmetic(one) for part in conjuncts(normal_form(one)) if free(part) & system.bound)
    shaped = [one for one in (shape_of(system, part) for part in wanted) if one is not None]
    found = []
    for place, one in enumerate(shaped):
        for other in shaped[:place]:
            if one.name != other.name:
                rows = [row_of(system, part.term, (one, other)) for part in (one, other)]
                if rows[0] is not None and rows[1] is not None:
                    found.append((one, other, rows[0], rows[1]))
    return found


def coupled(search: Search, goal: Goal) -> str | None:
    """A goal with a system: a text or none."""
    system = System(search, goal)
    if not is_arithmetic(system.post):
        return None
    for one, other, first, second in pairs(system):
        above = [make("gt", "", first.second, ZERO), make("gt", "", second.first, ZERO), make("ge", "", first.rest, ZERO), make("ge", "", second.rest, ZERO)]
        if all(search.solver.holds(system.start, part, 1.0) for part in above):
            found = by_vector(search, system, (one, other), first, second)
            if found:
                return found
    return None


def by_vector(search: Search, system: System, bounds: tuple[Shape, Shape], first: Row, second: Row) -> str | None:
    """Two bounds whose matrix is cooperative: by the vector (k,1), whose k is there by a leaf."""
    goal = system.goal
    name = fresh("k", search.names(goal))
    k = variable(name)
    square = added(multiplied(first.second, multiplied(k, k)), subtracted(multiplied(subtracted(second.second, first.first), k), second.first))
    some = make("and", "", make("gt", "", k, ZERO), make("eq", "", term_of(polynomial(square)), ZERO))
    place = len(goal.left) + 1
    others = variables(free_of_all([goal.right, *goal.left]))
    names = sorted({one for one in others if one not in system.bound and not one.endswith("'")} | {name})
    one, other = bounds
    both = make("ge", "", term_of(polynomial(added(multiplied(k, one.term), other.term))), ZERO)
    small = term_of(polynomial(subtracted(first.first, multiplied(first.second, k))))

    def inner(frozen: Goal) -> str | None:
        here = System(search, frozen, names)
        here.cofactors = {both: term_of(polynomial(added(multiplied(first.second, k), second.second))), one.formula: small, other.formula: small}
        return text_for_arithmetic(here) if here.collect(unique([*here.constants, both, one.formula, other.formula, *pool(here)])) else None

    rest = freeze(search, Goal((*goal.left, *some.kids), goal.right), names, inner)
    if rest is None:
        return None
    begin = seq(f"skolemL(-{place})", f"andL(-{place})")
    kept = remark("k times the first bound and the second are kept together", seq(begin, rest))
    return seq(f"cut({quoted(make('exists', name, some))})", branch(kept, "hideR(1); leaf"))
