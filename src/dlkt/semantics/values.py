"""Values of terms as lists of cases, and states.

A case is a condition, a numerator and a denominator, so that no division gets to z3: under its condition the denominator isn't 0. `a/0` is 0.
What is kept: that the conditions of a value's cases exclude each other and that one of them holds.
"""

from __future__ import annotations

from fractions import Fraction
from typing import Callable, Iterator, Mapping, NamedTuple, Protocol, Sequence

from dlkt.semantics import solver
from dlkt.semantics.solver import Formula, Term
from dlkt.semantics.syntax import Unsupported
from dlkt.trees import Tree

MOST_CASES = 24
MOST_POWER = 12


class Case(NamedTuple):
    """A value under conditions; the denominator is 1 where there is none."""

    conditions: tuple[Formula, ...]
    numerator: Term
    denominator: Term | None


def product(one: Term | None, other: Term | None) -> Term | None:
    """The product of two denominators."""
    return one if other is None else other if one is None else one.times(other)


def scaled(numerator: Term, factor: Term | None) -> Term:
    """A numerator times a denominator, where there is one."""
    return numerator if factor is None else numerator.times(factor)


class Value:
    """A value of a term."""

    __slots__ = ("cases",)

    def __init__(self, cases: list[Case]) -> None:
        if len(cases) > MOST_CASES:
            raise Unsupported("so many divisions")
        self.cases = cases

    @staticmethod
    def of(term: Term) -> Value:
        """The value that a term of constants is."""
        return Value([Case((), term, None)])

    def pairs(self, other: Value) -> Iterator[tuple[tuple[Formula, ...], Case, Case]]:
        """The cases of both that can come together, with their conditions."""
        for one in self.cases:
            for two in other.cases:
                new = [part for part in two.conditions if part not in one.conditions]
                if not new or not contradict(one.conditions, new):
                    yield (*one.conditions, *new), one, two

    def plus(self, other: Value) -> Value:
        """The sum."""
        found = []
        for conditions, one, two in self.pairs(other):
            first, second = one.denominator, two.denominator
            if first == second:
                found.append(Case(conditions, one.numerator.plus(two.numerator), first))
            else:
                top = scaled(one.numerator, second).plus(scaled(two.numerator, first))
                found.append(Case(conditions, top, product(first, second)))
        return Value(found)

    def negated(self) -> Value:
        """The value below a minus sign."""
        return Value([case._replace(numerator=case.numerator.scaled(-1)) for case in self.cases])

    def minus(self, other: Value) -> Value:
        """The difference."""
        return self.plus(other.negated())

    def times(self, other: Value) -> Value:
        """The product."""
        return Value([
            Case(conditions, one.numerator.times(two.numerator), product(one.denominator, two.denominator))
            for conditions, one, two in self.pairs(other)
        ])

    def over(self, other: Value) -> Value:
        """The quotient: a case more for each divisor that may be 0."""
        found: list[Case] = []
        for conditions, one, two in self.pairs(other):
            divisor = two.numerator
            known = divisor.number()
            if known is not None:
                found.append(by_number(conditions, one, two, known))
                continue
            is_zero = TESTS["eq"](divisor)
            is_known, is_denied = is_zero in conditions, solver.no(is_zero) in conditions
            if not is_denied:
                found.append(Case(conditions if is_known else (*conditions, is_zero), solver.ZERO, None))
            if not is_known:
                where = conditions if is_denied else (*conditions, solver.no(is_zero))
                found.append(Case(where, scaled(one.numerator, two.denominator), product(one.denominator, divisor)))
        return Value(found)

    def power(self, exponent: int) -> Value:
        """A power with a whole exponent."""
        if exponent < 0:
            return Value.of(solver.ONE).over(self.power(-exponent))
        if exponent > MOST_POWER:
            raise Unsupported("so large a power")
        found = Value.of(solver.ONE)
        for _ in range(exponent):
            found = found.times(self)
        return found

    def is_zero(self) -> bool:
        """Whether the value is 0 as it stands."""
        return not any(case.numerator.coefficients for case in self.cases)


def contradict(some: Sequence[Formula], others: Sequence[Formula]) -> bool:
    """Whether one of some conditions is the negation of one of others."""
    return any(solver.no(part) in some for part in others)


def by_number(conditions: tuple[Formula, ...], one: Case, two: Case, divisor: Fraction | int) -> Case:
    """A quotient by a number."""
    if divisor == 0:
        return Case(conditions, solver.ZERO, None)
    return Case(conditions, scaled(one.numerator.scaled(Fraction(1) / divisor), two.denominator), one.denominator)


def test(word: str) -> Callable[[Term], Formula]:
    """That a term compares so with 0."""
    return lambda term: solver.compare(word, term, solver.ZERO)


TESTS: Mapping[str, Callable[[Term], Formula]] = {word: test(word) for word in ("eq", "ne", "ge", "gt", "le", "lt")}


def compared(word: str, one: Value, other: Value) -> Formula:
    """That two values compare so."""
    found = []
    for case in one.minus(other).cases:
        sign = case.numerator if word in ("eq", "ne") else scaled(case.numerator, case.denominator)
        found.append(solver.both([*case.conditions, TESTS[word](sign)]))
    return solver.either(found)


NOUGHT = Value.of(solver.ZERO)


class State:
    """A value for each variable and each slope: a constant of its name where none was set."""

    def __init__(self, values: dict[str, Value] | None = None) -> None:
        self.values = values or {}

    def get(self, name: str) -> Value:
        """The value of a variable."""
        found = self.values.get(name)
        return Value.of(solver.real(name)) if found is None else found

    def put(self, pairs: Mapping[str, Value]) -> State:
        """The state with these values set."""
        return State({**self.values, **pairs})


class Terms(Protocol):
    """What says the value of a term in a state."""

    def term(self, term: Tree, state: State) -> Value:
        """The value of a term."""
