"""Whether a formula is valid: whether its meaning holds for all real numbers.

It is asked whether the negation has a solution: first simple numbers are put in, then z3 is asked. A counterexample counts where with its numbers put
in the formula is false and its negation true.
"""

from __future__ import annotations

import random
from enum import Enum
from fractions import Fraction
from typing import Mapping, NamedTuple

from dlkt.semantics import expressions, solver
from dlkt.semantics.meaning import Meaning
from dlkt.semantics.solver import Formula, Said
from dlkt.semantics.systems import Poles, no_longer_poisoned
from dlkt.semantics.values import State
from dlkt.trees import Tree

SAMPLES, NUMBERS = 6, 30  # how often values are put in where z3 must be asked of what is left, and where nothing is left
SAMPLED = [Fraction(value) for value in (-2, -1, 0, 1, 2, 3)]
NEAR: list[int | Fraction] = [-2, -1, -1, 0, 0, 1, 1, 2, 3, Fraction(1, 2), Fraction(-1, 2)]


class Verdict(Enum):
    """What is known of a formula: it is valid; it isn't; no counterexample was found up to the rounds to which loops were unrolled; z3 gives one
    that isn't confirmed; nothing."""

    VALID, INVALID, BOUNDED, DOUBT, UNKNOWN = "valid", "invalid", "bounded", "doubt", "unknown"


class Decided(NamedTuple):
    """A verdict, with the values of a counterexample."""

    verdict: Verdict
    values: Mapping[str, Fraction | bool]


def translated(formula: Tree, rounds: int = 2, poles: Poles = Poles.REFUSED) -> tuple[Formula, bool]:
    """The meaning of a formula, which bounds it from above, and whether it is exact."""
    meaning = Meaning(rounds, poles)
    found = meaning.formula(formula, State())
    no_longer_poisoned(found)
    return found, meaning.is_exact


def decided(formula: Tree, milliseconds: int = 2000, poles: Poles = Poles.REFUSED, sampling: random.Random | None = None) -> Decided:
    """Whether a formula is valid."""
    meaning, is_exact = translated(formula, poles=poles)
    denial = expressions.opened(solver.no(meaning))
    if denial is not solver.FALSE:
        values = met_by_numbers(denial, sampling or random.Random(1))
        if values is not None:
            return Decided(Verdict.INVALID, values)
    answer = solver.timely(denial, milliseconds)
    if answer.said == Said.IMPOSSIBLE:
        return Decided(Verdict.VALID if is_exact else Verdict.BOUNDED, {})
    return by_solution(meaning, answer, milliseconds, sampling)


def by_solution(meaning: Formula, answer: solver.Answer, milliseconds: int, sampling: random.Random | None) -> Decided:
    """What comes of a formula whose negation has a solution, as z3 says, or may have one."""
    is_doubted = answer.said == Said.SOLVED
    values: Mapping[str, Fraction | bool] = {}
    if is_doubted:
        values = solver.chosen(answer.solution) if answer.solution else {}
        if solver.is_refuted_by(meaning, values, milliseconds):
            return Decided(Verdict.INVALID, values)
    if sampling is not None or is_doubted:
        sampling = sampling or random.Random(1)
        names = sorted(name for name in meaning.names if not name.startswith("?"))
        for _ in range(SAMPLES):
            tried: dict[str, Fraction | bool] = {name: sampling.choice(SAMPLED) for name in names}
            if solver.is_refuted_by(meaning, tried, max(50, milliseconds // 5)):
                return Decided(Verdict.INVALID, tried)
    return Decided(Verdict.DOUBT if is_doubted else Verdict.UNKNOWN, values)


def met_by_numbers(formula: Formula, rng: random.Random) -> dict[str, Fraction | bool] | None:
    """Simple values with which a formula without quantifiers is true, those of its own constants; none where none were found, or it has some."""
    if solver.has_quantifier(formula):
        return None
    names = sorted(name for name in formula.names if not name.startswith("?"))
    truths = sorted(name[1:] for name in formula.names if name.startswith("?"))
    for _ in range(NUMBERS):
        values: dict[str, int | Fraction] = {name: rng.choice(NEAR) for name in names}
        true = {name: rng.random() < 0.5 for name in truths}
        if expressions.holds(formula, values, true):
            found: dict[str, Fraction | bool] = {name: Fraction(value) for name, value in values.items() if "!" not in name}
            return {**found, **true}
    return None
