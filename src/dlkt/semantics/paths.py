"""The paths of a program, each one question to z3 without quantifiers.

A path is what a run takes: one part of each choice, a number of rounds of each loop, a value for each choice of one, a time for each system. Its
conditions are that the assumptions hold at the start, each test where it is met, each domain along its system, and that a formula fails at the
end. A solution gives a run that breaks the model; values aren't bounded, and a path without a solution gives none.

Paths come by their number of rounds, the shortest first. That a domain holds along a system is asked by Bernstein's coefficients: a solution then
satisfies it, though not each that does is found. A system that polynomials in time don't solve is left at once: its run of length 0.
"""

from __future__ import annotations

import random
import time
from fractions import Fraction
from typing import Iterator, Mapping, NamedTuple, Sequence

from dlkt.semantics import polynomials, solver
from dlkt.semantics.meaning import Meaning
from dlkt.semantics.polynomials import NoPolynomial
from dlkt.semantics.runs import Kind
from dlkt.semantics.solver import Formula, Said, Term
from dlkt.semantics.syntax import Unsupported, equations, is_slope, reads, slope
from dlkt.semantics.systems import Solution, no_longer_poisoned, solved
from dlkt.semantics.values import NOUGHT, State, Value, compared
from dlkt.trees import Tree

FEASIBLE, PATH, PINNED = 300, 2000, 300  # milliseconds of a question: whether a path goes on, of a whole path, with values pinned
ATTEMPTS = 12
PINS = [Fraction(value) for value in (0, 0, 1, 1, 2, 4, 10, -1, 100)] + [Fraction(1, 10)]


class OutOfTime(Exception):
    """The time of a search is over."""


class Clock:
    """The time that a search has."""

    def __init__(self, seconds: float) -> None:
        self.end = time.monotonic() + seconds

    def left(self) -> float:
        """How many seconds are left."""
        return self.end - time.monotonic()

    def check(self) -> None:
        """Ends a search whose time is over."""
        if self.left() < 0:
            raise OutOfTime


class Taken(NamedTuple):
    """A step that a path takes: its tree, the constant of a choice or of a time, the round that it begins, and the state behind it."""

    kind: Kind
    tree: Tree
    constant: Term | None = None
    round: int = 0
    state: State | None = None


class Path(NamedTuple):
    """A path up to a place: the state there, the conditions so far, the steps, how many rounds, and the turns by which it is known again."""

    state: State
    conditions: tuple[Formula, ...] = ()
    taken: tuple[Taken, ...] = ()
    rounds: int = 0
    turns: tuple[int, ...] = ()

    def on(self, step: Taken, state: State | None = None, *conditions: Formula) -> Path:
        """The path behind a step."""
        state = state or self.state
        return self._replace(state=state, conditions=(*self.conditions, *conditions), taken=(*self.taken, step._replace(state=state)))

    def turned(self, turn: int) -> Path:
        """The path behind a turn."""
        return self._replace(turns=(*self.turns, turn))


class Found(NamedTuple):
    """A path with a solution: the formula that fails at its end, what was asked, and the solution where it needs one."""

    path: Path
    fails: Tree
    asked: Formula
    solution: solver.Solution | None


class Paths:
    """Searches the paths of a model with up to so many rounds."""

    def __init__(self, clock: Clock, prunes: bool = True) -> None:
        self.clock, self.prunes, self.meaning, self.rounds = clock, prunes, Meaning(0), 0
        self.asked = self.unknown = 0
        self.is_partial = self.has_more = False
        self.feasible: dict[tuple[int, ...], bool] = {}

    # Runs of programs

    def runs(self, program: Tree, path: Path) -> Iterator[Path]:
        """The paths through a program."""
        kids = program.kids
        if program.word == "assign":
            value = self.meaning.term(kids[0], path.state)
            yield path.on(Taken(Kind.SET, program), path.state.put({program.detail: value}))
        elif program.word == "any":
            constant = solver.fresh(program.detail)
            yield path.on(Taken(Kind.CHOSEN, program, constant), path.state.put({program.detail: Value.of(constant)}))
        elif program.word == "test":
            condition = self.meaning.formula(kids[0], path.state, False)
            if condition is not solver.FALSE:
                yield path.on(Taken(Kind.TEST, program), None, condition)
        elif program.word == "choice":
            for turn, kid in enumerate(kids):
                yield from self.runs(kid, path.turned(turn))
        elif program.word == "seq":
            for middle in self.runs(kids[0], path):
                yield from self.runs(kids[1], middle)
        elif program.word == "loop":
            yield from self.again(kids[0], path, 1)
        elif program.word == "system":
            yield self.along(program, path)
        else:
            raise Unsupported(f"{program.word} in a program")

    def again(self, body: Tree, path: Path, number: int) -> Iterator[Path]:
        """The paths through a loop, from the beginning of a round on."""
        yield path.turned(-1)
        if path.rounds >= self.rounds:
            self.has_more = True
            return
        start = path.turned(-2)._replace(rounds=path.rounds + 1).on(Taken(Kind.ROUND, body, None, number))
        for end in self.runs(body, start):
            if self.is_feasible(end):
                yield from self.again(body, end, number + 1)

    def is_feasible(self, path: Path) -> bool:
        """Whether it isn't known that no run takes a path."""
        self.clock.check()
        if not self.prunes:
            return True
        if path.turns not in self.feasible:
            self.asked += 1
            self.feasible[path.turns] = solver.timely(solver.both(path.conditions), FEASIBLE).said != Said.IMPOSSIBLE
        return self.feasible[path.turns]

    def along(self, system: Tree, path: Path) -> Path:
        """The path through a system."""
        duration = solver.fresh("time")
        try:
            solution = solved(self.meaning, system, path.state)
            if solution is not None and solution.is_poisoned():
                raise Unsupported("the solution of a system")
        except Unsupported:
            return self.at_once(system, path, duration)
        if solution is None:
            return path.on(Taken(Kind.FLOW, system, duration), None, solver.FALSE)
        inside = inside_enough(self.meaning, system.kids[-1], solution, duration)
        conditions = solver.compare("ge", duration, solver.ZERO), inside, solution.allowed(duration)
        return path.on(Taken(Kind.FLOW, system, duration), solution.at(duration), *conditions)

    def at_once(self, system: Tree, path: Path, duration: Term) -> Path:
        """The path through a system that isn't solved: the run of length 0."""
        self.is_partial = True
        rights = equations(system)
        if any(is_slope(name) and name[:-1] in rights for right in rights.values() for name in reads(right)):
            raise Unsupported("a right side that reads a slope of its system")
        end = path.state.put({slope(name): self.meaning.term(right, path.state) for name, right in rights.items()})
        here = self.meaning.formula(system.kids[-1], end, False)
        return path.on(Taken(Kind.FLOW, system, duration), end, here, solver.compare("eq", duration, solver.ZERO))

    # Formulas that fail

    def falsify(self, formula: Tree, path: Path) -> Iterator[tuple[Path, Tree]]:
        """The paths at whose end a formula fails, with that formula."""
        kids = formula.kids
        if formula.word == "imply":
            premise = self.meaning.formula(kids[0], path.state, False)
            yield from self.falsify(kids[1], path.on(Taken(Kind.ASSUMED, kids[0]), None, premise))
        elif formula.word == "box":
            for end in self.runs(kids[0], path):
                yield from self.falsify(kids[1], end)
        elif formula.word == "and":
            for turn, kid in enumerate(kids):
                yield from self.falsify(kid, path.turned(turn))
        elif formula.word == "forall":
            constant = solver.fresh(formula.detail)
            step = Taken(Kind.CHOSEN, formula, constant)
            yield from self.falsify(kids[0], path.on(step, path.state.put({formula.detail: Value.of(constant)})))
        else:
            fails = solver.no(self.meaning.formula(formula, path.state))
            yield path._replace(conditions=(*path.conditions, fails)), formula

    def search(self, formula: Tree, rounds: int) -> Iterator[Found]:
        """The paths with so many rounds that have a solution."""
        self.rounds, self.has_more = rounds, False
        for path, fails in self.falsify(formula, Path(State())):
            self.clock.check()
            if path.rounds == rounds:
                found = self.solution(path, fails, formula)
                if found:
                    yield found

    def solution(self, path: Path, fails: Tree, formula: Tree) -> Found | None:
        """The path with a solution, where z3 finds one in time."""
        wanted = solver.both(path.conditions)
        no_longer_poisoned(wanted)
        if wanted is solver.TRUE:
            return Found(path, fails, wanted, None)
        self.asked += 1
        answer = solver.timely(wanted, self.milliseconds(PATH))
        if answer.said == Said.IMPOSSIBLE:
            return None
        if answer.solution and (solver.has_quantifier(wanted) or answer.solution.holds(wanted)):
            return Found(path, fails, wanted, answer.solution)
        self.unknown += 1
        solution = self.with_pins(wanted, first_names(formula))
        return Found(path, fails, wanted, solution) if solution else None

    def milliseconds(self, most: int) -> int:
        """The time of a question, which ends with the search."""
        self.clock.check()
        return max(1, min(most, int(self.clock.left() * 1000)))

    def with_pins(self, wanted: Formula, names: Sequence[str]) -> solver.Solution | None:
        """A solution of a hard question with some first values set at random."""
        rng = random.Random(self.unknown)
        for _ in range(ATTEMPTS if names else 0):
            some = rng.sample(names, max(1, int(len(names) * rng.choice([0.4, 0.6, 0.8]))))
            pins = [pinned(name, rng.choice(PINS)) for name in some]
            answer = solver.timely(solver.both([wanted, *pins]), self.milliseconds(PINNED))
            if answer.solution and (solver.has_quantifier(wanted) or answer.solution.holds(wanted)):
                return answer.solution
        return None

    def following(self, formula: Tree, steps: Sequence[Tree], first: Mapping[str, float]) -> Found | None:
        """The path that takes the steps of a run by numbers, asked exactly: from its first values, and from any."""
        self.rounds = sum(1 for step in steps if step.word == "loop")
        pins = [pinned(name, Fraction(value).limit_denominator(10**6)) for name, value in first.items()]
        for path, fails in self.falsify(formula, Path(State())):
            have = [step.tree for step in path.taken if step.kind not in (Kind.ROUND, Kind.ASSUMED) and step.tree.word != "forall"]
            if have != [step for step in steps if step.word != "loop"]:
                continue
            for more in (tuple(pins), ()):
                wanted = solver.both([*path.conditions, *more])
                no_longer_poisoned(wanted)
                answer = solver.timely(wanted, self.milliseconds(PATH))
                if answer.said == Said.SOLVED and (answer.solution or wanted is solver.TRUE):
                    return Found(path, fails, solver.both(path.conditions), answer.solution)
        return None


def pinned(name: str, value: Fraction) -> Formula:
    """That a constant has a value."""
    return solver.compare("eq", solver.real(name), solver.number(value))


def inside_enough(meaning: Meaning, domain: Tree, solution: Solution, duration: Term) -> Formula:
    """That a domain holds from the start to a time, or something stronger, without a quantifier where that can be said."""
    if domain.word == "true":
        return solver.TRUE
    if domain.word in ("and", "or"):  # of `|`: one part all the time
        parts = [inside_enough(meaning, kid, solution, duration) for kid in domain.kids]
        return solver.both(parts) if domain.word == "and" else solver.either(parts)
    if domain.word in ("eq", "ne", "ge", "gt", "le", "lt"):
        try:
            polynomial = polynomials.difference(meaning, domain, solution.state, solution.along)
            return keeps_sign(domain.word, polynomial, duration)
        except NoPolynomial:
            pass
    moment = solver.fresh("moment")
    holds = meaning.formula(domain, solution.at(moment), False)
    return solver.quantified(True, moment, solver.either([solver.compare("lt", moment, solver.ZERO), solver.compare("gt", moment, duration), holds]))


def keeps_sign(word: str, polynomial: polynomials.Polynomial, duration: Term) -> Formula:
    """That a polynomial compares with 0 so from the start to a time, or something stronger."""
    if word == "eq":
        stays = solver.both(compared("eq", value, NOUGHT) for value in polynomial[1:])
        return solver.both([compared("eq", polynomial[0], NOUGHT), solver.either([solver.compare("eq", duration, solver.ZERO), stays])])
    coefficients = polynomials.bernstein(polynomial, duration)
    if word == "ne":
        return solver.either(solver.both(compared(side, value, NOUGHT) for value in coefficients) for side in ("gt", "lt"))
    return solver.both(compared(word, value, NOUGHT) for value in coefficients)


def first_names(formula: Tree) -> list[str]:
    """What the first state gives: variables that are read or that systems evolve, and functions without arguments as `A()`, in their order in
    the text."""
    found: dict[str, None] = {}
    seen: set[Tree] = set()

    def look(tree: Tree) -> None:
        if tree in seen:
            return
        seen.add(tree)
        if tree.word == "var":
            found[tree.detail] = None
        elif tree.word == "app" and not tree.kids:
            found[f"{tree.detail}()"] = None
        elif tree.word == "system":
            found.update(dict.fromkeys(equations(tree)))
        for kid in tree.kids:
            look(kid)

    look(formula)
    return list(found)
