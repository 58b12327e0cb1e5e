"""A barrier from a template, where nothing is annotated: V<=0 for a polynomial V of degree 2 that separates.

Wanted is V with V<=0 at first, V>0 wherever the post fails, and V'<=m*V along the system for a fixed number m: a Darboux inequality, and for m=0 a
differential invariant. For fixed m all three are linear in the coefficients of V at each point, so V is found by linear arithmetic over points, to
which z3 adds each time the point where the last V was wrong: counterexample-guided synthesis (Solar-Lezama 2006; Kapinski, Deshmukh, Sankaranarayanan,
Arechiga, Simulation-guided Lyapunov analysis for hybrid dynamical systems, HSCC 2014). Where no m does, a strict barrier is looked for: V'<=4*V^2,
which says that V falls wherever it is near 0, and is Darboux with the cofactor 4*V (Prajna and Jadbabaie, HSCC 2004).
"""

from dataclasses import dataclass, field
from fractions import Fraction
from typing import NamedTuple

from dlkt.formulas import (
    Monomial, NotPolynomial, Polynomial, ZERO, free, free_of_all, is_arithmetic, make, number, polynomial, polynomial_product, polynomial_sum, term_of,
)
from dlkt.search.conserved import monomials, polynomial_slope
from dlkt.search.context import OutOfWork, Search
from dlkt.search.solver import FALSE, SECOND, VALID
from dlkt.search.systems import System
from dlkt.trees import Tree

MOST_ROUNDS, MOST_NAMES, DEGREE = 40, 4, 2
BUDGET = 5.0  # seconds for each m
STEEP = 4  # the c of a strict barrier V'<=c*V^2
RATES: tuple[Fraction | None, ...] = (Fraction(0), Fraction(-1), Fraction(-1, 2), Fraction(-2), Fraction(1))
RATES_BENT: tuple[Fraction | None, ...] = (Fraction(0), None, Fraction(-1), Fraction(1))

Point = dict[str, Fraction]
Constraint = tuple[list[Fraction], Fraction]  # a row, and the least value of its product with the coefficients


class Barrier(NamedTuple):
    """V<=0, and the cofactor of V."""

    formula: Tree
    factor: Tree


@dataclass
class Points:
    """Points with how much more than the least is asked for there: where V<=0, where V>0, and where the slope counts."""

    first: list[tuple[Point, int]] = field(default_factory=list)
    bad: list[tuple[Point, int]] = field(default_factory=list)
    along: list[tuple[Point, int]] = field(default_factory=list)


class Template(NamedTuple):
    """What a barrier is looked for: the system, the names, the monomials of V, their slopes, and what holds at first."""

    system: System
    names: list[str]
    shape: list[Monomial]
    slopes: list[Polynomial]
    first: list[Tree]


def at_point(whole: Polynomial, point: Point) -> Fraction:
    """The value of a polynomial at a point."""
    total = Fraction(0)
    for key, value in whole.items():
        for name, power in key:
            value = value * point[name] ** power
        total += value
    return total


def point_of(values: dict[str, str], names: list[str]) -> Point | None:
    """The point of z3's values, which may be roots, and are rounded."""
    found = {}
    for name in names:
        try:
            found[name] = Fraction(values.get(name, "0").replace("..", "")).limit_denominator(10000)
        except (ValueError, ZeroDivisionError):
            return None
    return found


def smt_number(value: Fraction) -> str:
    """A number in SMT-LIB."""
    if value < 0:
        return f"(- {smt_number(-value)})"
    return f"{value.numerator}.0" if value.denominator == 1 else f"(/ {value.numerator}.0 {value.denominator}.0)"


def coefficients(search: Search, rows: list[Constraint], count: int) -> list[Fraction] | None:
    """Numbers that satisfy all rows, small and round ones where that goes; none where there are none."""
    for most in (4, 64):
        body = "".join(f"(declare-const c{i} Real)\n(assert (and (<= c{i} {most}.0) (>= c{i} (- {most}.0))))\n" for i in range(count))
        for row, least in rows:
            parts = " ".join(f"(* {smt_number(factor)} c{i})" for i, factor in enumerate(row) if factor) or "0.0"
            body += f"(assert (>= (+ 0.0 {parts}) {smt_number(least)}))\n"
        _, values = search.solver.check(body, 2.0, "QF_LRA", "(set-option :pp.decimal false)\n")
        found = {int(name[1:]): Fraction(value) for name, value in values.items()}
        if len(found) == count:
            return rounded([found[place] for place in range(count)], rows)
    return None


def rounded(exact: list[Fraction], rows: list[Constraint]) -> list[Fraction]:
    """Rounder numbers, where the rows let them."""
    for scale in (1, 2, 4, 8, 16):
        round_ones = [Fraction(round(value * scale), scale) for value in exact]
        if all(sum(a * b for a, b in zip(row, round_ones)) >= least / 4 for row, least in rows):
            return round_ones
    return exact


def template_of(system: System) -> Template | None:
    """The template for a system with a few variables and no constants; none for others."""
    names = list(system.evolved)
    used = free_of_all([*system.field.values(), system.post, *system.domain])
    if not is_arithmetic(system.post) or len(names) > MOST_NAMES or not used <= frozenset(names):
        return None
    try:
        slopes = {name: polynomial(term) for name, term in system.field.items()}
    except NotPolynomial:
        return None
    shape = [key for degree in range(DEGREE + 1) for key in monomials(names, degree)]
    turned = [polynomial_slope({key: Fraction(1)}, slopes) for key in shape]
    return Template(system, names, shape, turned, [one for one in system.start if free(one) <= frozenset(names)])


def constraints(template: Template, points: Points, rate: Fraction | None) -> list[Constraint]:
    """What the points ask of the coefficients."""
    def values(point: Point) -> list[Fraction]:
        return [at_point({key: Fraction(1)}, point) for key in template.shape]

    rows: list[Constraint] = [([-value for value in values(point)], Fraction(1 + more, 64)) for point, more in points.first]
    rows += [(values(point), Fraction(1, 4)) for point, _ in points.bad]
    for point, more in points.along:
        row = [(rate or 0) * value - at_point(rise, point) for value, rise in zip(values(point), template.slopes)]
        rows.append((row, Fraction(more, 64) if rate is not None else Fraction(4 + more, 64)))
    return rows


def is_linear(system: System) -> bool:
    """Whether the equations are linear."""
    return all(sum(power for _, power in key) <= 1 for term in system.field.values() for key in polynomial(term))


def barrier(search: Search, system: System) -> Barrier | None:
    """A barrier of a system, or none."""
    template = template_of(system)
    if template is None:
        return None
    for rate in (*RATES, None) if is_linear(system) else RATES_BENT:
        before, search.limit = search.limit, min(search.limit, search.work() + BUDGET * SECOND)
        try:
            found = with_rate(search, template, rate)
            if found:
                return found
        except OutOfWork:
            if search.work() > before:
                raise
        finally:
            search.limit = before
    return None


def with_rate(search: Search, template: Template, rate: Fraction | None) -> Barrier | None:
    """A barrier with V'<=rate*V, or a strict one for no rate."""
    points = Points()
    for _ in range(MOST_ROUNDS):
        search.tick()
        rows = constraints(template, points, rate)
        found = coefficients(search, rows, len(template.shape)) if rows else [Fraction(0)] * len(template.shape)
        if found is None:
            return None
        whole = {key: value for key, value in zip(template.shape, found) if value}
        rise: Polynomial = {}
        for value, one in zip(found, template.slopes):
            rise = polynomial_sum(rise, one, value)
        flow = polynomial_sum(rise, whole, -rate) if rate is not None else polynomial_sum(rise, polynomial_product(whole, whole), -STEEP)
        is_right, has_learnt = judged(search, template, points, term_of(whole), term_of(flow))
        if is_right:
            return Barrier(tidy(whole), number(rate) if rate is not None else term_of({key: STEEP * value for key, value in whole.items()}))
        if not has_learnt:
            return None
    return None


def judged(search: Search, template: Template, points: Points, term: Tree, flow: Tree) -> tuple[bool, bool]:
    """Whether V is a barrier, and else whether points were found where it isn't one."""
    system, inside = template.system, make("le", "", term, ZERO)
    is_right, has_learnt = True, False
    for left, wanted, known in ((template.first, inside, points.first), (system.domain + [inside], system.post, points.bad),
                                (system.domain, make("le", "", flow, ZERO), points.along)):
        said = search.solver.valid(left, wanted, 1.5)
        if said.answer == VALID:
            continue
        is_right = False
        point = point_of(said.values, template.names) if said.answer == FALSE else None
        if point is None:
            continue
        again = next((place for place, (one, _) in enumerate(known) if one == point), None)
        if again is None:
            known.append((point, 0))
        else:  # the point is only nearly the one where it was wrong: more is asked there
            known[again] = point, known[again][1] + 1
        has_learnt = True
    return is_right, has_learnt


def tidy(whole: Polynomial) -> Tree:
    """V<=0 as a comparison without fractions, the constant on the right."""
    scale = 1
    for value in whole.values():
        scale *= (value * scale).denominator
    scaled = {key: value * scale for key, value in whole.items()}
    constant = scaled.pop((), Fraction(0))
    return make("le", "", term_of(scaled), number(-constant))
