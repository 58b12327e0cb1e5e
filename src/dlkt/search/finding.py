"""Finds a strategy for a model: the whole of a search, from the text of a model to a strategy that the program takes, or to why there is none.

What is found is run once more as a whole by `dlk prove`. It is judged elsewhere: by `dlk guard` and by the solvers, as every strategy.
"""

import time
from collections.abc import Mapping
from enum import StrEnum
from pathlib import Path
from typing import Any, NamedTuple

from dlkt.formulas import model, sequent, text
from dlkt.program import Refused, one_line, position, program_of, read_bytes, refusal_in
from dlkt.reader import Note, Wrong
from dlkt.search.breaking import BROKEN, Breaking, lines_of
from dlkt.search.context import IsFalse, OutOfTime, OutOfWork, Search, Step
from dlkt.search.kernel import Failed, Goal, Kernel
from dlkt.search.lemmas import Lemma
from dlkt.search.shapes import proved
from dlkt.search.sketches import expand
from dlkt.search.solver import SECOND, Solver

SECONDS = 60.0
AFTER = 20.0  # seconds for a partial strategy behind the bound


class Annotations(StrEnum):
    """Which annotations of a model are used."""

    ALL = "all"
    LOOPS = "loops"
    NONE = "none"


class Options(NamedTuple):
    """What a search is told: its seconds, which annotations are used, whether invariants are guessed, whether a partial strategy is wanted, the
    program, and a sketch with the folder where the names of its lemmas begin."""

    seconds: float = SECONDS
    annotations: Annotations = Annotations.ALL
    guess: bool = True
    partial: bool = False
    program: str | None = None
    sketch: str | None = None
    folder: Path = Path()


class Found(NamedTuple):
    """What a search found: a strategy, or none; the lemmas whose proofs are to be linked; how many goals it leaves open; why there is none, or
    what is left; what the search for a run tells that breaks the model, or an annotation; why each method didn't do; and how long it took, with how
    many questions to the solver and calls of the program."""

    strategy: str | None
    lemmas: list[Lemma]
    left_open: int
    reasons: list[str]
    told: Mapping[str, Any] | None
    story: list[Step]
    seconds: float
    questions: int
    calls: int

    @property
    def values(self) -> list[str]:
        """The lines of a run that breaks the model, or an annotation."""
        return lines_of(self.told)

    @property
    def is_told_with_values(self) -> bool:
        """Whether there are values at which the model, an annotation, or what is left to show is false."""
        return bool(self.values) or any(" at " in reason or ": from " in reason for reason in self.reasons)

    @property
    def is_refuted(self) -> bool:
        """Whether a run breaks the model, and not an annotation alone."""
        return any(line.startswith(BROKEN) for line in self.values)

    @property
    def is_whole(self) -> bool:
        """Whether there is a strategy that leaves no goals."""
        return self.strategy is not None and self.left_open == 0


def source_of(path: str, program: str) -> str:
    """The text of a model that the program takes. Refused in one line where it can't be read, or passes a limit."""
    source = read_bytes(path).decode("latin-1")
    kernel = Kernel(program)
    try:
        status, said = kernel.run(source, "nil")
    finally:
        kernel.stop()
    first = one_line(said.split("\n", 1)[0].replace(kernel.folder.name + "/", "")) or "the program says nothing"
    refusal = refusal_in(said)
    if status not in (0, 1) and refusal is not None:
        place = position(source, refusal.byte)
        raise Refused(f"{path}:{place.line}:{place.column}: {refusal.why or refusal.what}: the model can't be read here")
    if status not in (0, 1):
        raise Refused(f"{path}: {first}")
    try:
        model(source)
    except (Wrong, RecursionError) as fault:
        raise Refused(f"{path}: the model is too deep, or can't be read by the search") from fault
    return source


def notes_wanted(notes: list[Note], wanted: Annotations) -> list[Note]:
    """Those of a model's annotations that are used."""
    if wanted is Annotations.LOOPS:
        return [note for note in notes if note.program.word == "loop"]
    return notes if wanted is Annotations.ALL else []


class Finder:
    """One search for a model. `stop` ends what it started."""

    def __init__(self, source: str, options: Options) -> None:
        self.source, self.options, self.begin = source, options, time.time()
        tree, notes = model(source)
        self.goal = Goal((), tree)
        self.solver = Solver(end=self.begin + options.seconds)
        self.kernel = Kernel(program_of(options.program))
        self.search = Search(self.kernel, self.solver, notes_wanted(notes, options.annotations), options.seconds, proved)
        self.search.guess = options.guess
        self.breaking = Breaking(source, Path(self.kernel.folder.name))
        self.search.is_broken = lambda: self.breaking.look(self.search.work() / SECOND)
        self.lemmas: list[Lemma] = []
        self.was_interrupted = False

    def stop(self) -> None:
        """Ends what runs."""
        self.breaking.stop()
        self.solver.stop()
        self.kernel.stop()

    def interrupt(self) -> None:
        """Has the search end where it next looks."""
        self.search.stopped = self.was_interrupted = True

    def strategy(self) -> str | None:
        """A strategy for the model, or what the sketch is as a plain one; none where nothing is found."""
        if self.options.sketch is None:
            return self.search.prove(self.goal)
        found = expand(self.search, self.goal, self.options.sketch, self.options.folder)
        self.lemmas = found.lemmas if found else []
        return found.strategy.rstrip() if found else None

    def attempt(self) -> str | None:
        """The same; what ends it before is said."""
        try:
            return self.strategy()
        except OutOfTime:
            if not self.search.stopped:
                self.search.say(f"out of time ({self.options.seconds:g} s)")
        except OutOfWork:
            self.search.say("out of budget")
        except IsFalse:
            self.search.say("the model is false")
        except Failed as why:
            self.search.say(str(why))
        return None

    def partial(self) -> str | None:
        """What was found, and `nil` where nothing was: nothing new is asked, where the search was ended."""
        search = self.search
        search.partial, search.guess, search.quiet, search.is_broken = True, False, 0, lambda: False
        search.known = {goal: said for goal, said in search.known.items() if said is not None}
        self.solver.is_silent = search.stopped
        search.stopped, search.limit, search.end = False, float("inf"), time.time() + AFTER
        self.solver.end = search.end
        found = self.attempt()
        if found is None and self.options.sketch is None:
            search.left_open = 0
            found = search.give_up(self.goal)
        return found

    def found(self) -> Found:
        """A strategy for the whole model, or what was found of it."""
        search = self.search
        strategy = self.attempt()
        is_told = any(reason.startswith("the invariant") for reason in search.failures)
        if strategy is None and not search.stopped and not is_told and self.options.sketch is None:
            self.breaking.wait(self.begin + self.options.seconds)
        if strategy is None and (self.options.partial or search.stopped):
            strategy = self.partial()
        if strategy is not None:
            strategy = self.taken(strategy)
        spent = time.time() - self.begin
        told = None if strategy is not None and not search.left_open else self.breaking.told
        return Found(strategy, self.lemmas, search.left_open, search.failures, told, search.story, spent, self.solver.asked, self.kernel.calls)

    def taken(self, strategy: str) -> str | None:
        """The strategy where the program takes it as a whole, else none. A sketch may leave goals, as every strategy."""
        status, said = self.kernel.run(self.source, strategy)
        if status == 0 or (status == 1 and (self.search.left_open or self.options.sketch is not None)):
            return strategy
        self.search.say(f"what was found isn't taken: {one_line(said.splitlines()[0] if said else 'no answer')}")
        return None


def found(path: str | Path, options: Options = Options()) -> Found:
    """A strategy for the model of a file, or why there is none."""
    finder = Finder(source_of(str(path), program_of(options.program)), options)
    try:
        return finder.found()
    finally:
        finder.stop()


def expand_sketch(path: str | Path, sketch: str, options: Options = Options()) -> Found:
    """The plain strategy of a sketch for the model of a file, or why there is none. Refused in one line where the sketch can't be turned."""
    return found(path, options._replace(sketch=sketch))


def expand_line(sequent_text: str, line: str, options: Options = Options()) -> str:
    """A line with words of sketches as a plain strategy for one goal, as a prompt has it. Refused in one line where nothing is found."""
    left, right = sequent(sequent_text)
    if len(right) != 1:
        raise Refused("the words of sketches work on a goal with one formula on the right")
    goal = Goal(tuple(left), right[0])
    finder = Finder(text(goal.formula()), options)
    try:
        said = expand(finder.search, goal, line, options.folder)
    except IsFalse:
        said = None
        finder.search.say("; ".join(line.strip() for line in lines_of(finder.breaking.told)))
    except (OutOfTime, OutOfWork):
        said = None
        finder.search.say(f"out of time ({options.seconds:g} s)")
    except Failed as why:
        raise Refused(str(why)) from why
    finally:
        finder.stop()
    if said is None:
        raise Refused("; ".join(finder.search.failures[-3:]) or "nothing is found")
    if said.lemmas:
        raise Refused("a lemma is linked by `dlkt auto --sketch`, not here")
    return said.strategy
