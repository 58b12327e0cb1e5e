"""A run with its numbers put in, by fractions, without z3: what each statement does is computed again from the text of the program.

Systems are solved by polynomials in time with fractions as coefficients. Whether such a polynomial keeps its sign from 0 to a time is decided by
Sturm's sequences, which count its roots between two numbers. So a run that is confirmed here is one, whatever z3 said.
"""

from __future__ import annotations

from fractions import Fraction
from typing import Mapping, NamedTuple, Sequence

from dlkt.semantics import solver
from dlkt.semantics.meaning import Meaning
from dlkt.semantics.paths import Taken
from dlkt.semantics.runs import Amount, Kind, Step
from dlkt.semantics.syntax import Unsupported, combined, differential, equations, exponent, formula_differential, is_slope, reads, slope
from dlkt.semantics.values import State, Value
from dlkt.trees import Tree, text

Numbers = dict[str, Fraction]
Coefficients = list[Fraction]
MILLISECONDS = 2000
MOST_DIGITS = 60  # of a number of a run


class NoRun(Exception):
    """The numbers don't make a run that breaks the model."""


# Terms and formulas

def value(term: Tree, numbers: Mapping[str, Fraction]) -> Fraction:
    """The value of a term."""
    if term.word == "var":
        return numbers.get(term.detail, Fraction(0))
    if term.word == "num":
        return Fraction(term.detail)
    if term.word == "app" and not term.kids:
        return numbers[f"{term.detail}()"]
    if term.word == "diff":
        return value(differential(term.kids[0]), numbers)
    if term.word not in ("neg", "add", "sub", "mul", "div", "pow"):
        raise Unsupported(f"{term.word} in a term")
    found = combined(term.word, [value(kid, numbers) for kid in term.kids])
    if found is None:
        raise Unsupported("a power")
    return found


def compares(word: str, left: Fraction, right: Fraction) -> bool:
    """Whether two numbers compare so."""
    by_word = {"eq": left == right, "ne": left != right, "ge": left >= right, "gt": left > right, "le": left <= right, "lt": left < right}
    return by_word[word]


def holds(formula: Tree, numbers: Mapping[str, Fraction]) -> bool:
    """Whether a formula holds. One with a quantifier or a program is asked of z3, both ways."""
    kids = formula.kids
    if formula.word in ("true", "false"):
        return bool(formula.word == "true")
    if formula.word in ("eq", "ne", "ge", "gt", "le", "lt"):
        return compares(formula.word, value(kids[0], numbers), value(kids[1], numbers))
    if formula.word == "not":
        return not holds(kids[0], numbers)
    if formula.word == "and":
        return all(holds(kid, numbers) for kid in kids)
    if formula.word == "or":
        return any(holds(kid, numbers) for kid in kids)
    if formula.word == "imply":
        return not holds(kids[0], numbers) or holds(kids[1], numbers)
    if formula.word == "equiv":
        return holds(kids[0], numbers) == holds(kids[1], numbers)
    if formula.word == "difff":
        return holds(formula_differential(kids[0]), numbers)
    return holds_by_solver(formula, numbers)


def holds_by_solver(formula: Tree, numbers: Mapping[str, Fraction]) -> bool:
    """Whether a formula with a quantifier or a program holds: z3 must say so of it, and of its negation that it doesn't."""
    state = State({name: Value.of(solver.number(known)) for name, known in numbers.items()})
    constants = {name: known for name, known in numbers.items() if name.endswith("()")}
    above, below = (Meaning(3).formula(formula, state, from_above) for from_above in (True, False))
    if solver.is_refuted_by(above, constants, MILLISECONDS):
        return False
    if solver.is_refuted_by(solver.no(below), constants, MILLISECONDS):
        return True
    raise Unsupported(f"{formula.word} in a formula")


# Polynomials in time

def trimmed(polynomial: Coefficients) -> Coefficients:
    """A polynomial without coefficients of 0 at its end."""
    while len(polynomial) > 1 and polynomial[-1] == 0:
        polynomial = polynomial[:-1]
    return polynomial


def at(polynomial: Coefficients, time: Fraction) -> Fraction:
    """The value at a time."""
    found = Fraction(0)
    for coefficient in reversed(polynomial):
        found = found * time + coefficient
    return found


def added(one: Coefficients, other: Coefficients, sign: int = 1) -> Coefficients:
    """The sum, or the difference."""
    count = max(len(one), len(other))
    first, second = ([*part, *[Fraction(0)] * (count - len(part))] for part in (one, other))
    return trimmed([left + sign * right for left, right in zip(first, second)])


def multiplied(one: Coefficients, other: Coefficients) -> Coefficients:
    """The product."""
    found = [Fraction(0)] * (len(one) + len(other) - 1)
    for place, left in enumerate(one):
        for further, right in enumerate(other):
            found[place + further] += left * right
    return trimmed(found)


def along_time(term: Tree, numbers: Mapping[str, Fraction], along: Mapping[str, Coefficients]) -> Coefficients:
    """The value of a term along a time, as a polynomial in it."""
    if not any(name in along for name in reads(term)):
        return [value(term, numbers)]
    if term.word == "var":
        return along[term.detail]
    if term.word == "diff":
        return along_time(differential(term.kids[0]), numbers, along)
    parts = [along_time(kid, numbers, along) for kid in term.kids[: 1 if term.word == "pow" else None]]
    if term.word == "neg":
        return [-coefficient for coefficient in parts[0]]
    if term.word in ("add", "sub"):
        return added(parts[0], parts[1], 1 if term.word == "add" else -1)
    if term.word == "mul":
        return multiplied(parts[0], parts[1])
    if term.word == "div" and len(parts[1]) == 1:
        divisor = parts[1][0]
        return [coefficient / divisor if divisor else Fraction(0) for coefficient in parts[0]]
    if term.word == "pow" and exponent(term) >= 0:
        found = [Fraction(1)]
        for _ in range(exponent(term)):
            found = multiplied(found, parts[0])
        return found
    raise Unsupported("a term that is no polynomial in time")


def solution(system: Tree, numbers: Mapping[str, Fraction]) -> dict[str, Coefficients]:
    """The variables that a system evolves, and their slopes, as polynomials in time."""
    rights, found, busy = equations(system), dict[str, Coefficients](), set[str]()

    def solve(name: str) -> None:
        if slope(name) in found:
            return
        if name in busy:
            raise Unsupported("the solution of a system")
        busy.add(name)
        for read in reads(rights[name]):
            item = read[:-1] if is_slope(read) else read
            if item in rights:
                solve(item)
        found[slope(name)] = along_time(rights[name], numbers, found)
        summed = [coefficient / place for place, coefficient in enumerate(found[slope(name)], 1)]
        found[name] = trimmed([numbers.get(name, Fraction(0)), *summed])

    for name in rights:
        solve(name)
    return found


# Signs along a time

def divided(one: Coefficients, other: Coefficients) -> tuple[Coefficients, Coefficients]:
    """The quotient and the remainder of a division."""
    quotient, rest = [Fraction(0)], trimmed(one)
    while len(rest) >= len(other) and rest != [0]:
        factor: Coefficients = [*[Fraction(0)] * (len(rest) - len(other)), rest[-1] / other[-1]]
        quotient, rest = added(quotient, factor), added(rest, multiplied(factor, other), -1)
    return quotient, rest


def derivative(polynomial: Coefficients) -> Coefficients:
    """The derivative."""
    return trimmed([place * coefficient for place, coefficient in enumerate(polynomial)][1:] or [Fraction(0)])


def sturm(polynomial: Coefficients) -> list[Coefficients]:
    """The sequence of Sturm: a polynomial, its derivative, and negated remainders. Its last is the greatest common divisor of the first two."""
    sequence = [polynomial, derivative(polynomial)]
    while sequence[-1] != [0]:
        sequence.append([-coefficient for coefficient in divided(sequence[-2], sequence[-1])[1]])
    return sequence[:-1]


class Roots:
    """The roots of a polynomial, each once."""

    def __init__(self, polynomial: Coefficients) -> None:
        self.single = divided(polynomial, sturm(polynomial)[-1])[0]  # with the same roots, each of them simple
        self.sequence = sturm(self.single)

    def is_root(self, time: Fraction) -> bool:
        """Whether there is a root at this time."""
        return at(self.single, time) == 0

    def changes(self, time: Fraction) -> int:
        """How often the sign changes in the sequence at a time."""
        signs = [number > 0 for number in (at(part, time) for part in self.sequence) if number]
        return sum(one != other for one, other in zip(signs, signs[1:]))

    def count(self, begin: Fraction, end: Fraction) -> int:
        """How many roots there are behind one time, up to another and there, by Sturm's theorem."""
        return self.changes(begin) - self.changes(end)

    def between(self, begin: Fraction, end: Fraction) -> list[Fraction]:
        """Times from one to another, none of them a root, one at least in each gap between the roots."""
        count = self.count(begin, end)
        if count == 0 or (count == 1 and self.is_root(end)):
            return [(begin + end) / 2]
        if count == 1 and not self.is_root(begin):
            return [begin, end]
        middle = (begin + end) / 2
        return [*self.between(begin, middle), *self.between(middle, end)]


def stays(word: str, polynomial: Coefficients, duration: Fraction) -> bool:
    """Whether a polynomial compares with 0 so from 0 to a time."""
    zero = Fraction(0)
    if duration == 0 or len(polynomial) == 1:
        return compares(word, polynomial[0], zero)
    if word == "eq" or not compares(word, polynomial[0], zero):
        return False
    roots = Roots(polynomial)
    if word in ("gt", "lt", "ne"):
        return roots.count(zero, duration) == 0
    return all(compares(word, at(polynomial, time), zero) for time in roots.between(zero, duration))


def holds_along(domain: Tree, numbers: Mapping[str, Fraction], along: Mapping[str, Coefficients], duration: Fraction) -> bool:
    """Whether a domain holds from 0 to a time. Of `|`, one part must hold all the time."""
    if domain.word == "true":
        return True
    if domain.word in ("and", "or"):
        parts = [holds_along(kid, numbers, along, duration) for kid in domain.kids]
        return all(parts) if domain.word == "and" else any(parts)
    if domain.word in ("eq", "ne", "ge", "gt", "le", "lt"):
        left, right = (along_time(kid, numbers, along) for kid in domain.kids)
        return stays(domain.word, added(left, right, -1), duration)
    raise Unsupported(f"{domain.word} in a domain")


# Runs

class Replayed(NamedTuple):
    """A run that was computed again: its steps with their values, and the numbers at its end."""

    steps: list[Step]
    end: Numbers


def replayed(taken: Sequence[Taken], first: Numbers, chosen: Mapping[str, Fraction]) -> Replayed:
    """The run that takes these steps from the first values, with these values for what it chooses. `NoRun` where there is none."""
    numbers, steps = dict(first), list[Step]()
    for step in taken:
        steps.append(step_done(step, numbers, chosen))
        if any(len(str(number)) > MOST_DIGITS for number in numbers.values()):
            raise Unsupported("such long numbers")
    return Replayed(steps, numbers)


def step_done(step: Taken, numbers: Numbers, chosen: Mapping[str, Fraction]) -> Step:
    """Does a step: sets what it sets, and tells it."""
    tree = step.tree
    if step.kind == Kind.ROUND:
        return Step(Kind.ROUND, f"round {step.round}", round=step.round)
    if step.kind in (Kind.TEST, Kind.ASSUMED):
        if not holds(tree.kids[0] if step.kind == Kind.TEST else tree, numbers):
            raise NoRun
        return Step(step.kind, text(tree))
    if step.kind == Kind.SET:
        numbers[tree.detail] = value(tree.kids[0], numbers)
        return Step(Kind.SET, text(tree), {tree.detail: Amount.of(numbers[tree.detail])})
    number = chosen.get(solver.name_of(step.constant) if step.constant is not None else "", Fraction(0))
    if step.kind == Kind.CHOSEN:
        numbers[tree.detail] = number
        shown = text(tree) if tree.word == "any" else f"\\forall {tree.detail}"
        return Step(Kind.CHOSEN, shown, {tree.detail: Amount.of(number)})
    return flow_done(tree, numbers, number)


def flow_done(system: Tree, numbers: Numbers, duration: Fraction) -> Step:
    """Runs a system for a time."""
    if duration < 0:
        raise NoRun
    rights = equations(system)
    if duration == 0:
        if any(is_slope(name) and name[:-1] in rights for right in rights.values() for name in reads(right)):
            raise Unsupported("a right side that reads a slope of its system")
        numbers |= {slope(name): value(right, numbers) for name, right in rights.items()}
        if not holds(system.kids[-1], numbers):
            raise NoRun
    else:
        along = solution(system, numbers)
        if not holds_along(system.kids[-1], numbers, along, duration):
            raise NoRun
        numbers |= {name: at(polynomial, duration) for name, polynomial in along.items()}
    values = {name: Amount.of(numbers[name]) for name in rights}
    return Step(Kind.FLOW, text(system), values, Amount.of(duration))
