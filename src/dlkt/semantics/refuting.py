"""The search for a run that breaks a model: `run_that_breaks`, and `refuted` with what was tried.

First exactly: paths with no round, one, two, and so on; each that has a solution is made round, by asking again with simple values set, and
computed again by fractions. Then by numbers, from simulated runs; where the program is in the part that is solved exactly, such a run only shows
the way, and its path is asked exactly. A search that finds nothing says nothing.
"""

from __future__ import annotations

import time
from fractions import Fraction
from typing import Mapping, NamedTuple, Sequence

from dlkt.reader import Note
from dlkt.semantics import exactly, invariants, solver
from dlkt.semantics.exactly import NoRun, Numbers
from dlkt.semantics.meaning import Meaning
from dlkt.semantics.numerically import Numeric, Tried, simulated_run
from dlkt.semantics.paths import Clock, Found, OutOfTime, Paths, Taken, first_names, pinned
from dlkt.semantics.runs import Amount, Answer, Kind, Run, Status, Step, counted
from dlkt.semantics.solver import Expression, Formula, Term
from dlkt.semantics.syntax import Unsupported, equations
from dlkt.semantics.values import State, Value
from dlkt.trees import Tree, text

SECONDS, ROUNDS = 20.0, 3
HINTS_PART, LEAST_SECONDS = 0.5, 0.01  # of the time of the search for all hints; half of what is left is for each, down to so much
EXACT_PART = 0.5  # of the time, where a search by numbers may follow
SIMPLE = [Fraction(value) for value in ("1", "0", "2", "1/2", "-1", "3", "4", "5", "10", "1/4", "-1/2", "-2")]
GREATER = [Fraction(5), Fraction(10), Fraction(100)]
ROUND_QUESTIONS, ROUND_MILLISECONDS, ROUND_SECONDS = 50, 100, 0.2  # of the clock for a question, of the processor for all
COMPARISONS = {"eq": "=", "ne": "!=", "ge": ">=", "gt": ">", "le": "<=", "lt": "<"}


class Settings(NamedTuple):
    """How long is searched, up to how many rounds, and by which random numbers."""

    seconds: float = SECONDS
    rounds: int = ROUNDS
    seed: int = 1


def run_that_breaks(model: Tree, notes: Sequence[Note] = (), seconds: float = SECONDS, rounds: int = ROUNDS) -> Run | None:
    """A run that breaks a model, where one is found in this time and up to this number of rounds. None says nothing of the model. The annotations
    say nothing of its runs: `answered` has hints on them."""
    return refuted(model, Settings(seconds, rounds)).run


def refuted(model: Tree, settings: Settings = Settings()) -> Answer:
    """What comes of the search for a run that breaks a model."""
    begin = time.monotonic()
    run, tried = searched(model, settings)
    status = Status.NOTHING if run is None else Status.REFUTED if run.is_exact else Status.BY_NUMBERS
    return Answer(status, run, tried, time.monotonic() - begin)


def answered(model: Tree, notes: Sequence[Note], settings: Settings) -> Answer:
    """What comes of the search, with hints on the annotations, for which half as much time is taken again."""
    answer = refuted(model, settings)
    clock = Clock(settings.seconds * HINTS_PART)

    def search(question: Tree) -> Run | None:
        """A run that breaks a small model, where there is time left."""
        small = Settings(clock.left() / 2, 0, settings.seed)
        return searched(question, small)[0] if small.seconds > LEAST_SECONDS else None

    return answer._replace(hints=invariants.hints(model, notes, search))


def searched(model: Tree, settings: Settings) -> tuple[Run | None, str]:
    """A run, and what was tried in words."""
    clock = Clock(settings.seconds)
    exact = Exact(model, settings)
    run = exact.run()
    if run is not None:
        return run, exact.tried
    numeric = Numeric(model, settings.rounds, clock, settings.seed)
    confirmed: list[Run] = []

    def confirms(tried: Tried) -> bool:
        """Whether a simulated run counts: by itself where the model isn't solved exactly, else where its path has a solution."""
        if not exact.is_complete:
            return True
        found = shown_way(model, tried, clock)
        if found is not None:
            confirmed.append(found)
        return found is not None

    try:
        tried = numeric.search(confirms)
    except Unsupported as why:
        return None, f"{exact.tried}; not by numbers, for {why}"
    told = f"{exact.tried}; {numeric.runs} simulated runs"
    return (confirmed[0] if confirmed else simulated_run(tried) if tried else None), told


def shown_way(model: Tree, tried: Tried, clock: Clock) -> Run | None:
    """The exact run on the path of a simulated one, where there is one."""
    paths = Paths(clock, prunes=False)
    end = tried.simulation.end
    try:
        found = paths.following(model, [did.program for did in end[1]] if end else [], tried.first)
        return run_of(found, model, clock) if found else None
    except (Unsupported, OutOfTime):
        return None


class Exact:
    """The search by paths."""

    def __init__(self, model: Tree, settings: Settings) -> None:
        self.model, self.settings = model, settings
        self.paths = Paths(Clock(settings.seconds * EXACT_PART))
        self.names, self.tried, self.is_complete = first_names(model), "", True

    def run(self) -> Run | None:
        """The run of the first path that has a solution, the shortest first."""
        done = ""
        try:
            for rounds in range(self.settings.rounds + 1):
                for found in self.paths.search(self.model, rounds):
                    run = run_of(found, self.model, self.paths.clock)
                    if run is not None:
                        self.tried = f"paths of {counted(rounds)}"
                        return run
                done = f"all paths of up to {counted(rounds)}" if rounds else "the paths of no round"
                if not self.paths.has_more:
                    break
        except Unsupported as why:
            self.is_complete, done = False, f"not exactly, for {why}"
        except OutOfTime:
            done = f"{done or 'no path'} in time"
        if self.paths.is_partial:
            self.is_complete, done = False, f"{done}; a system isn't solved exactly"
        self.tried = f"{done}; {self.paths.unknown} paths too hard" if self.paths.unknown else done
        return None


# From a solution to a run

def run_of(found: Found, model: Tree, clock: Clock) -> Run | None:
    """The run that a solution is, with simple numbers where some do; none where it isn't confirmed."""
    names = first_names(model)
    chosen = [solver.name_of(step.constant) for step in found.path.taken if step.constant is not None]
    symbols = [name for name in names if name.endswith("()")]
    numbers = simple_numbers(found, [*symbols, *chosen, *(name for name in names if name not in symbols)], clock)
    if all(numbers.get(name, Amount.of(0)).exact is not None for name in [*names, *chosen]):
        try:
            return confirmed_run(found, names, {name: number.exact or Fraction(0) for name, number in numbers.items()})
        except NoRun:
            return None
        except Unsupported:
            pass
    return run_by_solver(found, names)


def simple_numbers(found: Found, names: Sequence[str], clock: Clock) -> dict[str, Amount]:
    """The numbers of a solution, those that may be simple made so one after another."""
    solution, wanted = found.solution, found.asked
    if solution is None:
        return {name: Amount.of(0) for name in names}
    there = solver.constants(wanted)
    deadline, asked = time.process_time() + ROUND_SECONDS, 0
    numbers: dict[str, Amount] = {}
    for name in names:
        constant = there.get(name)
        if not isinstance(constant, Term):
            numbers[name] = Amount.of(0)
            continue
        now = amount_of(solution.value(constant))
        for candidate in simpler(now):
            asked += 1
            if asked > ROUND_QUESTIONS or time.process_time() > deadline or clock.left() < 0:
                break
            asked_now = solver.both([wanted, pinned(name, candidate)])
            answer = solver.timely(asked_now, ROUND_MILLISECONDS)
            if answer.solution and (solver.has_quantifier(wanted) or answer.solution.holds(asked_now)):
                solution, now = answer.solution, Amount.of(candidate)
                break
        numbers[name] = now
        if now.exact is not None:
            wanted = solver.both([wanted, pinned(name, now.exact)])
    return numbers


def amount_of(expression: Expression) -> Amount:
    """The amount that a number of z3 is."""
    exact = solver.exact(expression)
    if exact is not None:
        return Amount.of(exact)
    known = solver.near(expression)
    return Amount(float(known) if known is not None else float("nan"))


def simpler(now: Amount) -> list[Fraction]:
    """The numbers that are tried in place of another: those before it in the list of simple ones, then rounded ones."""
    if now.exact in SIMPLE:
        return SIMPLE[: SIMPLE.index(now.exact)]
    greater = [number for number in GREATER if number < abs(now.near)]
    rounded = [Fraction(now.near).limit_denominator(most) for most in (1, 4, 10, 100)]
    short = [number for number in dict.fromkeys([*greater, *rounded]) if number != now.exact]
    return [*SIMPLE[:6], *short]


def confirmed_run(found: Found, names: Sequence[str], numbers: Numbers) -> Run:
    """The run with these numbers, computed again; `NoRun` where it doesn't break the model."""
    first = {name: numbers.get(name, Fraction(0)) for name in names}
    replayed = exactly.replayed(found.path.taken, dict(first), numbers)
    if exactly.holds(found.fails, replayed.end):
        raise NoRun
    sides = [f"{Amount.of(left).text()} {mark} {Amount.of(right).text()}" for left, mark, right in sides_of(found.fails, replayed.end)]
    shown = {name: Amount.of(number) for name, number in first.items()}
    return Run(True, shown, replayed.steps, text(found.fails), sides, found.path.rounds)


def sides_of(formula: Tree, numbers: Mapping[str, Fraction]) -> list[tuple[Fraction, str, Fraction]]:
    """Both sides of each comparison of a formula, as far as they can be computed."""
    if formula.word in COMPARISONS:
        try:
            left, right = (exactly.value(kid, numbers) for kid in formula.kids)
            return [(left, COMPARISONS[formula.word], right)]
        except Unsupported:
            return []
    if formula.word in ("and", "or", "imply", "equiv", "not"):
        return [side for kid in formula.kids for side in sides_of(kid, numbers)]
    return []


# Runs with numbers that are no fractions

def run_by_solver(found: Found, names: Sequence[str]) -> Run | None:
    """The run of a solution whose numbers are roots of polynomials, or that fractions don't follow: z3 must find all conditions true with
    them, by its exact arithmetic or asked both ways."""
    solution = found.solution
    if solution is None:
        return None
    if solver.has_quantifier(found.asked):
        if not solver.is_refuted_by(solver.no(found.asked), all_chosen(found.asked, solution), 2000):
            return None
    elif not solution.holds(found.asked):
        return None
    first = {name: amount_of(solution.value(solver.real(name))) for name in names}
    steps = [step_by_solver(step, solution) for step in found.path.taken]
    sides = []
    for left, mark, right in sides_by_solver(found.fails, found.path.state, solution):
        sides.append(f"{left.text()} {mark} {right.text()}")
    return Run(True, first, steps, text(found.fails), sides, found.path.rounds)


def all_chosen(asked: Formula, solution: solver.Solution) -> dict[str, Fraction | bool]:
    """The values of all constants, those of choices and times too."""
    found: dict[str, Fraction | bool] = {}
    for name, constant in solver.constants(asked).items():
        found[name] = (solver.near(solution.value(constant)) or Fraction(0)) if isinstance(constant, Term) else solution.holds(constant)
    return found


def valued(value: Value, solution: solver.Solution) -> Amount:
    """What a value comes to."""
    for case in value.cases:
        if all(solution.holds(condition) for condition in case.conditions):
            return amount_of(solution.value(case.numerator, case.denominator))
    return Amount(float("nan"))


def step_by_solver(step: Taken, solution: solver.Solution) -> Step:
    """A step with its values."""
    tree = step.tree
    if step.kind == Kind.ROUND:
        return Step(Kind.ROUND, f"round {step.round}", round=step.round)
    if step.kind in (Kind.TEST, Kind.ASSUMED) or step.state is None:
        return Step(step.kind, text(tree))
    names = list(equations(tree)) if step.kind == Kind.FLOW else [tree.detail]
    values = {name: valued(step.state.get(name), solution) for name in names}
    duration = amount_of(solution.value(step.constant)) if step.kind == Kind.FLOW and step.constant is not None else None
    shown = f"\\forall {tree.detail}" if tree.word == "forall" else text(tree)
    return Step(step.kind, shown, values, duration)


def sides_by_solver(formula: Tree, state: State, solution: solver.Solution) -> list[tuple[Amount, str, Amount]]:
    """Both sides of each comparison of a formula."""
    if formula.word in COMPARISONS:
        left, right = (valued(Meaning().term(kid, state), solution) for kid in formula.kids)
        return [(left, COMPARISONS[formula.word], right)]
    if formula.word in ("and", "or", "imply", "equiv", "not"):
        return [side for kid in formula.kids for side in sides_by_solver(kid, state, solution)]
    return []
