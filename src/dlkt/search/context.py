"""What a search knows while it runs: the program, the solver, the annotations, its bounds, and what it has said.

The bounds are of two kinds. `work` counts solver steps and calls of the program; the search budgets its methods by it, so that what it finds
doesn't depend on how fast the machine is. The clock is looked at only for the bound that the user gave.
"""

import time
from collections.abc import Callable
from contextlib import contextmanager
from collections.abc import Iterator
from typing import NamedTuple

from dlkt.formulas import Values, bound_anywhere, free, is_arithmetic, match, substituted, text, unique
from dlkt.reader import Note
from dlkt.search.kernel import Goal, Kernel
from dlkt.search.solver import SECOND, Solver
from dlkt.search.writing import comment, times
from dlkt.trees import Tree

CALL = SECOND // 100  # what a call of the program counts
LONGEST = 400  # letters of a goal in a comment


class OutOfTime(Exception):
    """The bound that the user gave is reached, or control-C."""


class IsFalse(Exception):
    """A run is known that breaks the model."""


class OutOfWork(Exception):
    """A method has used up its budget."""


class Step(NamedTuple):
    """Why a method didn't do."""

    method: str
    goal: str
    why: str


class Search:
    """A search in a model: `prove` gives the text of a strategy for a goal, or none."""

    def __init__(self, kernel: Kernel, solver: Solver, notes: list[Note], seconds: float, prover: "Callable[[Search, Goal], str | None]") -> None:
        self.kernel, self.solver, self.notes, self.prover = kernel, solver, notes, prover
        self.seconds, self.end, self.limit = seconds, time.time() + seconds, float("inf")
        self.guess, self.partial, self.quiet = True, False, 0
        self.known: dict[Goal, str | None] = {}
        self.failures: list[str] = []
        self.story: list[Step] = []
        self.hints: list[Tree] = []
        self.left_open = 0
        self.activity = "reading"
        self.stopped = False
        self.is_broken: Callable[[], bool] = lambda: False

    # Bounds

    def work(self) -> int:
        """How much was done."""
        return self.solver.work + self.kernel.calls * CALL

    def tick(self) -> None:
        """Ends what has used up its bound."""
        if self.stopped or time.time() > self.end:
            raise OutOfTime
        if self.is_broken():
            raise IsFalse
        if self.work() > self.limit:
            raise OutOfWork

    def within(self, seconds: float, action: "Callable[[], str | None]") -> str | None:
        """What an action gives, or none where it takes more work than about these seconds; its failures aren't told."""
        before, self.limit = self.limit, min(self.limit, self.work() + seconds * SECOND)
        try:
            with self.silence():
                return action()
        except OutOfWork:
            if self.work() > before:
                raise
            return None
        finally:
            self.limit = before

    @contextmanager
    def silence(self) -> Iterator[None]:
        """While failures aren't told."""
        self.quiet += 1
        try:
            yield
        finally:
            self.quiet -= 1

    def tried(self, action: "Callable[[], str | None]") -> str | None:
        """What an action gives, whose failures aren't told."""
        with self.silence():
            return action()

    # What is said

    def say(self, what: str) -> None:
        """Tells a failure, once."""
        if what not in self.failures and not self.quiet:
            self.failures.append(what)

    def because(self, method: str, goal: Goal, why: str) -> None:
        """Keeps why a method didn't do."""
        step = Step(method, goal.shown(), why)
        if step not in self.story:
            self.story.append(step)

    def give_up(self, goal: Goal) -> str | None:
        """Nothing, or in a partial strategy a word that leaves the goal."""
        if not self.partial or self.quiet:
            return None
        self.left_open += 1
        shown = goal.shown()
        return f"{comment('left: ' + (shown if len(shown) <= LONGEST else shown[:LONGEST] + ' ..'))} nil"

    # The model

    def names(self, goal: Goal) -> set[str]:
        """All names of a goal."""
        found: set[str] = set()
        for one in (*goal.left, goal.right):
            found |= free(one) | bound_anywhere(one)
        return {name.rstrip("'") for name in found}

    def notes_for(self, program: Tree) -> list[Tree]:
        """The annotations of this program, with its terms, and what a sketch gives."""
        found: list[Tree] = []
        for note in self.notes:
            values: dict[str, Tree] = {}
            if note.program is program:
                found += note.formulas
            elif match(note.program, program, values):
                terms: Values = values
                found += [substituted(one, terms) for one in note.formulas]
        return unique(found + self.hints)

    # Goals

    def tidy(self, goal: Goal) -> tuple[str, Goal]:
        """Takes the conjunctions on the left apart."""
        def ands(tree: Tree) -> int:
            return 1 + ands(tree.kids[0]) + ands(tree.kids[1]) if tree.word == "and" else 0
        words = times("andL('L)", sum(map(ands, goal.left)))
        return words, self.kernel.goal(goal, words) if words else goal

    def prove(self, goal: Goal) -> str | None:
        """The text of a strategy for a goal, or none."""
        self.tick()
        if goal not in self.known:
            self.known[goal] = self.prover(self, goal)
        return self.known[goal]


def fresh(base: str, taken: "set[str] | frozenset[str]") -> str:
    """A name that isn't taken."""
    count = 0
    while f"{base}{count}" in taken or f"{base}{count}'" in taken:
        count += 1
    return f"{base}{count}"


def hide_programs(goal: Goal) -> tuple[list[str], Goal]:
    """Hides what isn't arithmetic on the left: the words, and the goal."""
    words, left = [], list(goal.left)
    for place in reversed(range(len(left))):
        if not is_arithmetic(left[place]):
            words.append(f"hideL(-{place + 1})")
            del left[place]
    return words, Goal(tuple(left), goal.right)


def shown_values(values: "dict[str, str]") -> str:
    """Values for people."""
    return ", ".join(f"{name}={value}" for name, value in values.items())


def listed(formulas: "list[Tree] | tuple[Tree, ...]") -> str:
    """Formulas for people."""
    return ", ".join(map(text, formulas))
