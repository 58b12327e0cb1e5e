"""Systems of differential equations that are solved by polynomials in time.

Solved is a variable whose right side is a polynomial in what is solved before it: no cycle of equations. A variable that nothing else reads, and
whose equation is linear in it with coefficients that are polynomials in time, has a solution for all time, whatever it is: it is dropped, and its
values are poisoned, so that nothing is said where they are read. Where such a coefficient has one pole, a number over a polynomial in time, it is
decided from which durations the equation has a solution. A right side that reads its own slope is solved for it, where it is linear in it.
"""

from __future__ import annotations

from enum import Enum
from typing import NamedTuple

from dlkt.semantics import polynomials, solver
from dlkt.semantics.polynomials import NoPolynomial, Polynomial
from dlkt.semantics.solver import Formula, Term
from dlkt.semantics.syntax import Unsupported, affine, equations, folded, is_slope, linear, make, mentioned, numeral, reads, shorter, slope, union
from dlkt.semantics.values import NOUGHT, State, Terms, Value, compared
from dlkt.trees import Tree

POISON = "POISON"


class Poles(Enum):
    """What is taken of a pole that isn't understood: nothing is said of the system, all runs go on, or none does."""

    REFUSED, PASSED, STOPPED = "refused", "passed", "stopped"


class Pole(NamedTuple):
    """A number over a polynomial in time, as a coefficient (`is_factor`) or a summand of a dropped equation; the variable's first value. Without
    the number, no run goes on from where the polynomial is 0."""

    top: Value | None
    divisor: Polynomial
    is_factor: bool
    first: Value


class Solution(NamedTuple):
    """The variables that a system changes, and their slopes, as polynomials in time; and the poles that end runs."""

    state: State
    along: dict[str, Polynomial | None]
    poles: list[Pole]

    def at(self, time: Term) -> State:
        """The state at a time."""
        return self.state.put({name: polynomials.at(known, time) for name, known in self.along.items() if known is not None})

    def allowed(self, time: Term) -> Formula:
        """That a run can last so long."""
        return solver.both(solver.no(ends(pole, time)) for pole in self.poles)

    def is_poisoned(self) -> bool:
        """Whether an equation was dropped."""
        return any(POISON in case.numerator.names() for known in self.along.values() for value in known or [] for case in value.cases)


def ends(pole: Pole, time: Term) -> Formula:
    """That a pole ends each run before this time."""
    moment = solver.fresh("moment")
    between = [solver.compare("ge", moment, solver.ZERO), solver.compare("le", moment, time)]
    is_hit = solver.both([*between, compared("eq", polynomials.at(pole.divisor, moment), NOUGHT)])
    moves = solver.either(compared("ne", value, NOUGHT) for value in pole.divisor[1:])
    later = solver.compare("gt", time, solver.ZERO)
    if pole.top is None:
        return solver.both([later, solver.quantified(False, moment, is_hit)])
    if not pole.is_factor:  # the variable is the integral of top/divisor, which has no limit where the divisor gets to 0
        return solver.both([later, moves, solver.quantified(False, moment, is_hit)])
    # the variable is first*|divisor|^(top/slope): it goes on through 0 where that exponent is above 1, and never from a divisor of 0
    is_slow = compared("le", pole.top.over(pole.divisor[1]), Value.of(solver.ONE))
    stays = solver.either([solver.compare("eq", moment, solver.ZERO), is_slow])
    return solver.both([later, moves, compared("ne", pole.first, NOUGHT), solver.quantified(False, moment, solver.both([is_hit, stays]))])


class Solving:
    """Solves a system from a state."""

    def __init__(self, terms: Terms, system: Tree, state: State, poles: Poles) -> None:
        self.terms, self.state, self.how = terms, state, poles
        self.rights, self.domain = equations(system), system.kids[-1]
        self.along: dict[str, Polynomial | None] = {name: None for item in self.rights for name in (item, slope(item))}
        self.busy: set[str] = set()
        self.poles: list[Pole] = []

    def solution(self) -> Solution | None:
        """The solution; none where the system has no run at all."""
        for name in self.rights:
            if not self.without_own_slope(name):
                return None
        dropped = [name for name in self.rights if not self.is_solved(name)]
        for name in dropped:
            self.drop(name)
        for name in dropped:
            self.along[name] = self.along[slope(name)] = [Value.of(solver.real(POISON))]
        return Solution(self.state, self.along, self.poles)

    def without_own_slope(self, name: str) -> bool:
        """Solves a right side for the slope that it reads; false where no slope is right."""
        own = slope(name)
        if own not in reads(self.rights[name]):
            return True
        parts = linear(self.rights[name], own)
        if parts is None:
            raise Unsupported("a right side that reads its own slope")
        factor, rest = parts
        if factor == 1:
            if folded(rest):
                return False
            raise Unsupported("a slope that may be any")
        self.rights[name] = make("mul", "", numeral(1 / (1 - factor)), rest)
        return True

    def is_solved(self, name: str) -> bool:
        """Solves the equation of a variable behind those that it reads; otherwise sees to it that it can be dropped."""
        try:
            self.solve(name)
            return True
        except NoPolynomial:
            self.busy.clear()
        others = union([*(reads(right) for other, right in self.rights.items() if other != name), mentioned(self.domain)])
        if {name, slope(name)} & others or slope(name) in reads(self.rights[name]) or affine(self.rights[name], name) is None:
            raise Unsupported("the solution of a system")
        return False

    def solve(self, name: str) -> None:
        """Solves the equation of a variable."""
        if self.along[slope(name)] is not None:
            return
        if name in self.busy:
            raise NoPolynomial
        self.busy.add(name)
        right = self.rights[name]
        for read in reads(right):
            self.solve_read(read)
        found = polynomials.evaluated(self.terms, right, self.state, self.along)
        self.along[slope(name)] = found
        self.along[name] = polynomials.antiderivative(self.state.get(name), found)

    def solve_read(self, read: str) -> None:
        """Solves the equation of a variable that a right side reads, or whose slope it reads."""
        item = read[:-1] if is_slope(read) else read
        if item in self.rights:
            self.solve(item)

    def drop(self, name: str) -> None:
        """Drops the linear equation of a variable that nothing else reads, and keeps its poles."""
        parts = affine(self.rights[name], name)
        assert parts is not None
        factor, summand = map(shorter, parts)
        of_factor, of_summand = self.pole_of(factor, name), self.pole_of(summand, name)
        first = self.state.get(name)
        if of_factor and (of_summand or folded(summand) != 0 or len(of_factor[1]) > 2):
            if self.how == Poles.REFUSED:
                raise Unsupported("a pole")
            if self.how == Poles.STOPPED:
                self.poles += [Pole(None, found[1], False, first) for found in (of_factor, of_summand) if found]
        elif of_summand:
            self.poles.append(Pole(*of_summand, False, first))
        elif of_factor:
            self.poles.append(Pole(*of_factor, True, first))

    def pole_of(self, coefficient: Tree, name: str) -> tuple[Value, Polynomial] | None:
        """The number and the polynomial that a coefficient divides; none where it is a polynomial in time itself."""
        try:
            for read in reads(coefficient):
                if read not in (name, slope(name)):
                    self.solve_read(read)
            polynomials.evaluated(self.terms, coefficient, self.state, self.along)
            return None
        except NoPolynomial:
            self.busy.clear()
        top = folded(coefficient.kids[0]) if coefficient.word == "div" else None
        try:
            if top:
                divisor = polynomials.evaluated(self.terms, coefficient.kids[1], self.state, self.along)
                return Value.of(solver.number(top)), divisor
        except NoPolynomial:
            pass
        raise Unsupported("the coefficients of a linear equation")


def solved(terms: Terms, system: Tree, state: State, poles: Poles = Poles.REFUSED) -> Solution | None:
    """The solution of a system from a state; none where it has no run at all."""
    return Solving(terms, system, state, poles).solution()


def no_longer_poisoned(formula: Formula) -> None:
    """Refuses a formula that reads a variable whose equation was dropped."""
    if POISON in formula.names:
        raise Unsupported("a variable whose equation isn't solved")
