"""The search for a run that breaks a model by simulation: first values that satisfy the assumptions, and choices that are bettered step by step.

First values are put together from random ones, heavy tails among them, as long as z3 finds that the assumptions can hold. From there choices and
values are changed, and kept where the postcondition comes nearer to failing. A run counts where its tests hold and the postcondition fails by a
margin; where the program is in the part that is solved exactly, it only shows the way.
"""

from __future__ import annotations

import itertools
import random
from fractions import Fraction
from typing import Callable, Iterator, NamedTuple, Sequence

from dlkt.semantics import solver
from dlkt.semantics.floats import Floats, holds, value
from dlkt.semantics.meaning import Meaning
from dlkt.semantics.paths import Clock, first_names, pinned
from dlkt.semantics.runs import Accuracy, Amount, Kind, Run, Step
from dlkt.semantics.simulation import Choices, Did, Simulation
from dlkt.semantics.solver import Said
from dlkt.semantics.syntax import Unsupported, make
from dlkt.semantics.values import State
from dlkt.trees import Tree, text

TRIES, STALE, DOUBTED = 150, 45, 5  # runs from one first state, those of them that better nothing, and what an unconfirmed one counts as
PATIENCE, MORE_PATIENCE = 8, 3  # so many that better nothing are let pass from the first state, and so many more from each further one
SIMPLE_STARTS = 3  # that are made of small numbers alone
PINNED, WHOLE = 150, 300  # milliseconds of a question
COMPARISONS = {"eq": "=", "ne": "!=", "ge": ">=", "gt": ">", "le": "<=", "lt": "<"}


class Shape(NamedTuple):
    """A model as assumptions, a program, and a postcondition."""

    assumptions: list[Tree]
    program: Tree
    postcondition: Tree


class Tried(NamedTuple):
    """A simulated run from first values."""

    first: Floats
    choices: Choices
    simulation: Simulation


def shape_of(model: Tree) -> Shape | None:
    """The shape of a model; none where it has none."""
    assumptions = []
    while model.word == "imply":
        assumptions.append(model.kids[0])
        model = model.kids[1]
    if model.word != "box":
        return None
    program, postcondition = model.kids
    while postcondition.word == "box":
        program, postcondition = make("seq", "", program, postcondition.kids[0]), postcondition.kids[1]
    return Shape(assumptions, program, postcondition)


def some_value(rng: random.Random, is_simple: bool) -> Fraction:
    """A number to begin with: a small one, one of a few digits, or one of up to four."""
    if is_simple:
        return Fraction(rng.choice([0, 1, 1, 2, -1, 3]))
    return Fraction(rng.choice([
        Fraction(rng.choice([0, 1, 2, 5, -1])), Fraction(rng.randint(-40, 40), 10), Fraction(rng.randint(0, 30), 10),
        rng.choice([-1, 1, 1]) * Fraction(int(10 * 10 ** (3 * rng.random())), 10),
    ]))


def starts(shape: Shape, names: Sequence[str], rng: random.Random, clock: Clock) -> Iterator[Floats]:
    """First values that satisfy the assumptions."""
    assumed = solver.both(Meaning().formula(formula, State(), False) for formula in shape.assumptions)
    for number in itertools.count():
        if clock.left() < 0:
            return
        wanted = assumed
        for name in rng.sample(list(names), len(names)):
            for _ in range(2):
                here = solver.both([wanted, pinned(name, some_value(rng, number < SIMPLE_STARTS))])
                if solver.timely(here, PINNED).said == Said.SOLVED:
                    wanted = here
                    break
        answer = solver.timely(wanted, WHOLE)
        if answer.said != Said.SOLVED:
            continue
        values = {name: solver.near(answer.solution.value(solver.real(name))) if answer.solution else None for name in names}
        yield {name: float(known or 0) for name, known in values.items()}


class Numeric:
    """The search by simulation. A run is handed to `confirms`, which says whether it counts."""

    def __init__(self, model: Tree, rounds: int, clock: Clock, seed: int) -> None:
        self.model, self.shape, self.rounds, self.clock = model, shape_of(model), rounds, clock
        self.rng, self.names, self.runs = random.Random(seed), first_names(model), 0

    def search(self, confirms: Callable[[Tried], bool]) -> Tried | None:
        """A run that breaks the model, where one is found in time."""
        if self.shape is None:
            return None
        for number, first in enumerate(starts(self.shape, self.names, self.rng, self.clock)):
            found = self.climbed(self.shape, first, confirms, min(STALE, PATIENCE + MORE_PATIENCE * number))
            if found:
                return found
        return None

    def climbed(self, shape: Shape, start: Floats, confirms: Callable[[Tried], bool], patience: int = STALE) -> Tried | None:
        """A run that breaks the model from about these first values, by changes that bring the postcondition nearer to failing."""
        best: Tried | None = None
        stale = 0
        for _ in range(TRIES):
            if self.clock.left() < 0 or stale > patience:
                return None
            first, choices = start, Choices(self.rng)
            if best is not None and self.rng.random() < 0.8:
                first, choices = self.moved(shape, best.first), best.choices.changed()
            simulation = Simulation(shape.postcondition, self.rounds, choices, first)
            tried = Tried(first, choices, simulation)
            simulation.run(shape.program)
            self.runs += 1
            if simulation.fails:
                if confirms(tried):
                    return tried
                stale += DOUBTED
            elif simulation.end and (best is None or simulation.guide < best.simulation.guide):
                best, stale = tried, 0
            else:
                stale += 1
        return None

    def moved(self, shape: Shape, first: Floats) -> Floats:
        """First values with one or two of them changed, where the assumptions still hold."""
        if self.rng.random() >= 0.5:
            return first
        moved = dict(first)
        for name in self.rng.sample(self.names, min(len(self.names), self.rng.choice([1, 1, 2]))):
            factor, summand = 10 ** self.rng.gauss(0, 0.4), self.rng.gauss(0, 1)
            moved[name] = float(f"{moved[name] * factor if self.rng.random() < 0.7 else moved[name] + summand:.3g}")
        return moved if all(holds(formula, moved) for formula in shape.assumptions) else first


# The run as it is told

def simulated_run(tried: Tried) -> Run:
    """The run by numbers."""
    simulation = tried.simulation
    assert simulation.end is not None
    state, done = simulation.end
    steps, number = list[Step](), 0
    for did in done:
        number += did.program.word == "loop"
        steps.append(step_of(did, number))
    sides = [f"{Amount(left).text()} {mark} {Amount(right).text()}" for left, mark, right in sides_of(simulation.postcondition, state)]
    first = {name: Amount.given(known) for name, known in tried.first.items()}
    accuracy = Accuracy(max((did.step for did in done), default=0.0), -simulation.least)
    return Run(False, first, steps, text(simulation.postcondition), sides, number, accuracy)


def step_of(did: Did, number: int) -> Step:
    """A step of a simulated run."""
    word = did.program.word
    if word == "loop":
        return Step(Kind.ROUND, f"round {number}", round=number)
    kind = {"test": Kind.TEST, "assign": Kind.SET, "any": Kind.CHOSEN, "system": Kind.FLOW}[word]
    values = {name: Amount(known) for name, known in did.values.items()}
    return Step(kind, text(did.program), values, None if did.duration is None else Amount(did.duration))


def sides_of(formula: Tree, state: Floats) -> list[tuple[float, str, float]]:
    """Both sides of each comparison of a formula."""
    if formula.word in COMPARISONS:
        try:
            return [(value(formula.kids[0], state), COMPARISONS[formula.word], value(formula.kids[1], state))]
        except (Unsupported, KeyError, ArithmeticError):
            return []
    if formula.word in ("and", "or", "imply", "equiv", "not"):
        return [side for kid in formula.kids for side in sides_of(kid, state)]
    return []
