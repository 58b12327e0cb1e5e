"""The state at a failure: the goals on which a word of a strategy fails.

The strategy is run up to the word, with a cut of a formula of its own where the word fails: the goals in which that formula stands are
those. What the strategy does behind the word is left out, and what it did before stays as it is written.
"""

import re
import tempfile
from dataclasses import dataclass
from pathlib import Path
from typing import Callable, Sequence

from dlkt import strategies
from dlkt.program import Name, Refusal, answer, goals_in, has_report, split_sequent
from dlkt.strategies import Atom, Branch, Choice, Part, Repeat
from dlkt.terms import readable


# A goal: the formulas on its left and on its right.
Goal = tuple[list[str], list[str]]
# Runs a strategy: what is printed and the term that it makes, or none where it fails.
Runner = Callable[[str], tuple[str, bytes] | None]


@dataclass(frozen=True)
class State:
    """The goals on which a word fails, each a pair of lists of formulas; how many parts a branch has, and how many goals it meets."""

    goals: list[Goal]
    parts: int | None
    count: int | None


def new_name(*texts: str) -> str:
    """A name of a symbol that none of these texts has."""
    number = 0
    while any(f"here{number}_" in text for text in texts):
        number += 1
    return f"here{number}_"


def up_to(text: str, way: Sequence[Part], mark: str, last: str = "({} | {})") -> str:
    """The strategy up to the last part of the way, with a mark where that part fails; or with something else of that part and the mark last."""
    here, below = way[0], way[1:]
    source = text[here.begin : here.end]
    if not below or isinstance(here, Atom):
        return last.format(source, mark)
    if isinstance(here, Repeat):
        return up_to(text, below, mark, last)
    at = next(number for number, part in enumerate(here.parts) if part is below[0])
    before = [text[part.begin : part.end] for part in here.parts[:at]]
    if isinstance(here, Choice):
        return "(" + " | ".join([*before, up_to(text, below, mark, last)]) + ")"
    if isinstance(here, Branch):
        after = ["nil"] * (len(here.parts) - at - 1)
        return "<(" + ", ".join([*before, up_to(text, below, mark, last), *after]) + ")"
    if isinstance(below[0], Branch) and len(below) == 1:
        return counted(before, below[0], mark)
    return f"({'; '.join([*before, up_to(text, below, mark, last)])} | nil)"


def counted(before: Sequence[str], branch: Branch, mark: str) -> str:
    """A branch that fails for the number of its parts: where the number is right nothing is done, and else each goal has the mark."""
    nothing = ", ".join(["nil"] * len(branch.parts))
    return f"({'; '.join([*before, f'<({nothing})'])} | {'; '.join([*before, mark])} | nil)"


def marked(goals: Sequence[str], name: str) -> list[Goal]:
    """The goals that have the mark, without it."""
    found = []
    for goal in goals:
        left, right = split_sequent(goal) or ([], [])
        if left and left[-1] == f"{name}()":
            found.append((left[:-1], right))
    return found


def first_group(term: str, name: str) -> int:
    """How many goals have the mark in one go, in the first place of the term, which is one of version 1, where it is put."""
    cuts = [bool(re.search(rf"apply \d+ \d+ cut\({name}\(\)\)$", line)) for line in term.split("\n")]
    if True not in cuts:
        return 0
    first = cuts.index(True)
    return next(at for at, is_cut in enumerate([*cuts[first:], False]) if not is_cut)


def state_at(program: str, model: Name, text: str, refusal: Refusal) -> State | None:
    """The state where a strategy fails; none where it can't be had."""

    def run(shortened: str) -> tuple[str, bytes] | None:
        """What is printed of this strategy, and the term that it makes; none where it fails."""
        with tempfile.TemporaryDirectory() as folder:
            strategy, term = Path(folder) / "strategy", Path(folder) / "term"
            strategy.write_text(shortened, encoding="latin-1")
            said = answer(program, "prove", model, strategy, term)
            return (said.text, term.read_bytes()) if has_report(said) else None

    return state_by(run, text, refusal.byte, Path(model).read_bytes().decode("latin-1"))


def state_by(run: Runner, text: str, byte: int, *others: str) -> State | None:
    """The state where a strategy fails at a byte, by what runs a strategy in its stead; none where it can't be had. The names in the other
    texts are in use."""
    try:
        way = strategies.way_to(strategies.read(text), byte)
    except strategies.Wrong:
        return None
    if way is None:
        return None
    name = new_name(text, *others)
    made = run(up_to(text, way, f'cut("{name}()")'))
    if made is None:
        return None
    goals = marked(goals_in(made[0]), name)
    group = first_group(readable(made[1]), name)
    if not goals:
        return None
    if isinstance(way[-1], Branch):
        return State(goals[:group], len(way[-1].parts), group)
    return State(goals, None, None)
