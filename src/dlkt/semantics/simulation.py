"""Runs by floating point: a program is run from first values, with its choices taken from a list of numbers.

Systems run by the Runge-Kutta method of order 4, with steps halved until two half steps differ little from a whole one; the time at which a domain
is left is looked for by bisection. What grows beyond a bound is broken off, as it may be on its way to infinity. Nothing of this is exact.
"""

from __future__ import annotations

import contextlib
import math
import random
from typing import Callable, NamedTuple, Sequence, TypeAlias

from dlkt.semantics.floats import Floats, distance, fails, holds, value
from dlkt.semantics.syntax import Unsupported, equations, reads, slope
from dlkt.trees import Tree

GREATEST = 1e5  # of a value along a system
ERROR, SMALL_ERROR = 1e-7, 1e-9  # of a step, relative
FAILS_BY, PLAIN = 1e-5, 0.05  # the margins by which a formula must fail, and fails plainly, relative to the size of what is added up in it
DOMAIN = -1e-9  # how far a domain may be from holding
MOST_STEPS, BISECTIONS, TRIES, ATTEMPTS = 400, 40, 3, 40
LEAST_STEP = 1e-9


class Dead(Exception):
    """The run can't go on: a test or a domain doesn't hold."""


class Did(NamedTuple):
    """A step of a simulated run: the statement, or the loop whose round begins; what it set; how long a system ran; its greatest step."""

    program: Tree
    values: Floats
    duration: float | None = None
    step: float = 0.0


class Choices:
    """Numbers from 0 to 1, taken in order: a run is a function of them."""

    def __init__(self, rng: random.Random, numbers: Sequence[float] = ()) -> None:
        self.rng, self.numbers, self.taken = rng, list(numbers), 0

    def next(self) -> float:
        """The next number."""
        if self.taken == len(self.numbers):
            self.numbers.append(self.rng.random())
        self.taken += 1
        return self.numbers[self.taken - 1]

    def changed(self) -> Choices:
        """The numbers with a few of them changed."""
        numbers = list(self.numbers)
        for _ in range(self.rng.choice([1, 1, 2, 3]) if numbers else 0):
            place = self.rng.randrange(len(numbers))
            moved = min(0.999999, max(0.0, numbers[place] + self.rng.gauss(0, 0.08)))
            numbers[place] = self.rng.random() if self.rng.random() < 0.5 else moved
        return Choices(self.rng, numbers)


def parts_of(program: Tree, word: str) -> list[Tree]:
    """What an operator that groups to the right joins."""
    if program.word != word:
        return [program]
    return [part for kid in program.kids for part in parts_of(kid, word)]


Looking: TypeAlias = Callable[[], None]


def look_away() -> None:
    """What is done at a place where the program hasn't ended."""


class Simulation:
    """A run of a program from first values. At each place where the program may have ended it is looked how far the postcondition is from
    failing: the first statement is kept behind which it fails by the margin, and else the place where it comes nearest to that."""

    def __init__(self, postcondition: Tree, rounds: int, choices: Choices, first: Floats) -> None:
        self.postcondition, self.rounds, self.choices = postcondition, rounds, choices
        self.state, self.done = dict(first), list[Did]()
        self.least, self.guide, self.fails = math.inf, math.inf, False
        self.end: tuple[Floats, list[Did]] | None = None

    def run(self, program: Tree) -> None:
        """Runs the program as far as it goes."""
        with contextlib.suppress(Dead, OverflowError, ZeroDivisionError):
            self.step(program, self.look)

    def look(self) -> None:
        """Looks how far the postcondition is from failing."""
        far = distance(self.postcondition, self.state)
        if self.done:
            self.guide = min(self.guide, far / (1 + max([abs(known) for known in self.state.values()], default=0.0)))
        if far < self.least and (not self.fails or self.may_be_plainer()):
            self.least, self.end = far, (dict(self.state), list(self.done))
            self.fails = far < 0 and fails(self.postcondition, self.state, FAILS_BY)

    def may_be_plainer(self) -> bool:
        """Whether the same statement goes on to where the postcondition fails by more, and it doesn't fail plainly yet."""
        assert self.end is not None
        return len(self.done) == len(self.end[1]) and not fails(self.postcondition, self.end[0], PLAIN)

    def saved(self) -> tuple[Floats, int]:
        """The place of a run, to come back to it."""
        return dict(self.state), len(self.done)

    def back(self, place: tuple[Floats, int]) -> None:
        """Goes back to a place of the run."""
        self.state = dict(place[0])
        del self.done[place[1]:]

    def step(self, program: Tree, ending: Looking) -> None:
        """Runs a part of the program, and looks at its end."""
        if program.word == "seq":
            self.sequence(parts_of(program, "seq"), ending)
        elif program.word == "choice":
            self.choice(parts_of(program, "choice"), ending)
        elif program.word == "loop":
            self.loop(program, ending)
        elif program.word == "system":
            Flow(self, program).run(ending)
        elif program.word == "test":
            if not holds(program.kids[0], self.state):
                raise Dead
            self.done.append(Did(program, {}))
            ending()
        elif program.word in ("assign", "any"):
            found = value(program.kids[0], self.state) if program.word == "assign" else self.any_value()
            self.set(program, found)
            ending()
        else:
            raise Unsupported(f"{program.word} in a program")

    def set(self, program: Tree, found: float) -> None:
        """Sets the variable of an assignment."""
        self.state[program.detail] = found
        self.done.append(Did(program, {program.detail: found}))

    def choice(self, parts: Sequence[Tree], ending: Looking) -> None:
        """Runs a part of a choice, the next one where it is dead."""
        begin, place = int(self.choices.next() * len(parts)), self.saved()
        for further in range(len(parts)):
            try:
                self.step(parts[(begin + further) % len(parts)], look_away)
                ending()
                return
            except Dead:
                self.back(place)
        raise Dead

    def loop(self, loop: Tree, ending: Looking) -> None:
        """Runs rounds of a loop, and looks after each."""
        ending()
        for _ in range(self.rounds):
            place = self.saved()
            for _ in range(TRIES):
                self.done.append(Did(loop, {}))
                try:
                    self.step(loop.kids[0], look_away)
                    break
                except Dead:
                    self.back(place)
            else:
                return
            ending()

    def any_value(self) -> float:
        """A value for a choice: often that of another variable, with a sign or a part of it; else any, with heavy tails."""
        first, second = self.choices.next(), self.choices.next()
        known = list(self.state.values())
        if first < 0.5 and known:
            return known[int(first * 2 * len(known))] * (1 if second < 0.5 else -1 if second < 0.75 else second)
        return math.tan((second - 0.5) * 2.8)

    def sequence(self, parts: Sequence[Tree], ending: Looking) -> None:
        """Runs parts one after another. Choices of values with a test behind them are tried a few times."""
        place = 0
        while place < len(parts):
            behind = place
            while behind < len(parts) and parts[behind].word == "any":
                behind += 1
            if place < behind < len(parts) and parts[behind].word == "test":
                self.choose(parts[place:behind], parts[behind].kids[0])
                place = behind
            else:
                self.step(parts[place], ending if place == len(parts) - 1 else look_away)
                place += 1

    def choose(self, choices: Sequence[Tree], test: Tree) -> None:
        """Chooses values that pass a test."""
        for attempt in range(ATTEMPTS):
            for choice in choices:
                self.state[choice.detail] = self.bounded_value(test, choice.detail) if attempt % 2 == 0 else self.any_value()
            if holds(test, self.state):
                break
        else:
            raise Dead
        for choice in choices:
            self.set(choice, self.state[choice.detail])

    def bounded_value(self, test: Tree, name: str) -> float:
        """A value between the bounds that a test has for a variable, the bounds themselves often."""
        lows, highs = bounds(test, name, self.state)
        if not lows and not highs:
            return self.any_value()
        part = self.choices.next()
        low = max(lows) if lows else min(highs) - abs(min(highs)) - 1
        high = min(highs) if highs else low + abs(low) + 1
        return low if part < 0.2 else high if part > 0.8 else low + (high - low) * (part - 0.2) / 0.6


def bounds(test: Tree, name: str, state: Floats) -> tuple[list[float], list[float]]:
    """The bounds from below and from above that the comparisons of a test have for a variable."""
    lows: list[float] = []
    highs: list[float] = []
    for part in parts_of(test, "and"):
        if part.word not in ("ge", "gt", "le", "lt", "eq"):
            continue
        left, right = part.kids
        for one, other, is_left in ((left, right, True), (right, left, False)):
            if one.word == "var" and one.detail == name and name not in reads(other):
                bound = value(other, state)
                if part.word == "eq" or (part.word in ("ge", "gt")) == is_left:
                    lows.append(bound)
                if part.word == "eq" or (part.word in ("le", "lt")) == is_left:
                    highs.append(bound)
    return lows, highs


class Flow:
    """A system that runs for a time."""

    def __init__(self, simulation: Simulation, system: Tree) -> None:
        self.simulation, self.system = simulation, system
        self.rights, self.domain = equations(system), system.kids[-1]
        self.names, self.greatest = list(self.rights), 0.0

    def slopes(self, point: Sequence[float]) -> list[float]:
        """The slopes at a point."""
        there = {**self.simulation.state, **dict(zip(self.names, point))}
        return [value(right, there) for right in self.rights.values()]

    def state(self, point: Sequence[float]) -> Floats:
        """The state at a point, with its slopes."""
        there = {**self.simulation.state, **dict(zip(self.names, point))}
        return {**there, **{slope(name): value(right, there) for name, right in self.rights.items()}}

    def stepped(self, point: Sequence[float], step: float) -> list[float]:
        """The point after a step, by Runge and Kutta."""
        first = self.slopes(point)
        second = self.slopes([here + step / 2 * change for here, change in zip(point, first)])
        third = self.slopes([here + step / 2 * change for here, change in zip(point, second)])
        last = self.slopes([here + step * change for here, change in zip(point, third)])
        return [here + step / 6 * (a + 2 * b + 2 * c + d) for here, a, b, c, d in zip(point, first, second, third, last)]

    def is_inside(self, point: Sequence[float]) -> bool:
        """Whether the domain holds at a point."""
        return distance(self.domain, self.state(point)) >= DOMAIN

    def run(self, ending: Looking) -> None:
        """Runs for a time that the choices say, a part of it or all that the domain allows, and looks along the way."""
        point = [self.simulation.state.get(name, 0.0) for name in self.names]
        if not self.is_inside(point):
            raise Dead
        part, size = self.simulation.choices.next(), self.simulation.choices.next()
        most = 10 ** (2.5 * size - 1.5)
        horizon = most * part * 2 if part < 0.5 else most
        time, step, steps = 0.0, most / 40, 0
        while time < horizon - 1e-15 and steps < MOST_STEPS:
            steps += 1
            step = min(step, horizon - time)
            try:
                whole, halves = self.stepped(point, step), self.stepped(self.stepped(point, step / 2), step / 2)
            except OverflowError:
                break
            error = max(abs(one - other) / (1 + abs(other)) for one, other in zip(whole, halves))
            if not error < ERROR and step > LEAST_STEP:
                step /= 2
                continue
            if not all(abs(here) < GREATEST for here in halves):
                break
            if not self.is_inside(halves):
                point, time = self.until_left(point, time, step)
                break
            point, time, self.greatest = halves, time + step, max(self.greatest, step)
            step *= 1.6 if error < SMALL_ERROR else 1
            self.look_between(point, time, ending)
        self.simulation.state = self.state(point)
        self.simulation.done.append(self.did(point, time))
        ending()

    def until_left(self, point: list[float], time: float, step: float) -> tuple[list[float], float]:
        """The last point in the domain, within a step that leads out of it, and its time."""
        low, high = 0.0, step
        for _ in range(BISECTIONS):
            middle = (low + high) / 2
            low, high = (middle, high) if self.is_inside(self.stepped(point, middle)) else (low, middle)
        self.greatest = max(self.greatest, low)
        return self.stepped(point, low), time + low

    def look_between(self, point: Sequence[float], time: float, ending: Looking) -> None:
        """Looks at a point from which the system could go on."""
        place = self.simulation.saved()
        self.simulation.state = self.state(point)
        self.simulation.done.append(self.did(point, time))
        ending()
        self.simulation.back(place)

    def did(self, point: Sequence[float], time: float) -> Did:
        """What the system did."""
        return Did(self.system, dict(zip(self.names, point)), time, self.greatest)
