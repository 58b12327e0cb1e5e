"""The program as an oracle: which goals a strategy leaves of one goal.

Nothing of the calculus is computed here: `dlk prove` runs each strategy on the goal, which is put as the formula `A -> B -> C` behind
`implyR(1)*2`. What was asked once is kept.
"""

import re
import tempfile
from pathlib import Path
from typing import NamedTuple

from dlkt.formulas import make, sequent, text
from dlkt.program import answer
from dlkt.trees import Tree


class Goal(NamedTuple):
    """Formulas on the left, and the one on the right."""

    left: tuple[Tree, ...]
    right: Tree

    def shown(self) -> str:
        """The text of the goal."""
        return f"{', '.join(map(text, self.left))} ==> {text(self.right)}".strip()

    def formula(self) -> Tree:
        """The formula that says the same."""
        whole = self.right
        for one in reversed(self.left):
            whole = make("imply", "", one, whole)
        return whole


class Several(NamedTuple):
    """A goal with another number of formulas on the right than one."""

    left: tuple[Tree, ...]
    right: tuple[Tree, ...]

    def shown(self) -> str:
        """The text of the goal."""
        return f"{', '.join(map(text, self.left))} ==> {', '.join(map(text, self.right))}".strip()


class Failed(Exception):
    """The strategy fails."""


class Left(NamedTuple):
    """What a strategy leaves: goals and leaves."""

    goals: list[Goal | Several]
    leaves: list[str]


def goals_of(said: str) -> list[Goal | Several]:
    """The goals of a printed report."""
    found: list[Goal | Several] = []
    for one in re.findall(r"^goal \d+ (.*)$", said, re.MULTILINE):
        left, right = sequent(one)
        found.append(Goal(tuple(left), right[0]) if len(right) == 1 else Several(tuple(left), tuple(right)))
    return found


class Kernel:
    """The program, and what it has answered."""

    def __init__(self, program: str) -> None:
        self.program = program
        self.folder = tempfile.TemporaryDirectory()
        self.known: dict[tuple[Goal, str], Left | str] = {}
        self.calls = 0

    def stop(self) -> None:
        """Removes the folder of its files."""
        self.folder.cleanup()

    def run(self, formula: str, strategy: str) -> tuple[int, str]:
        """The status and the output of `prove`."""
        self.calls += 1
        place = Path(self.folder.name)
        (place / "model").write_text(formula + "\n", encoding="latin-1")
        (place / "strategy").write_text(strategy + "\n", encoding="latin-1")
        said = answer(self.program, "prove", place / "model", place / "strategy", place / "term")
        return said.status, said.text or said.complaint

    def left(self, goal: Goal, strategy: str) -> Left:
        """What a strategy leaves of a goal. `Failed` where it fails."""
        key = goal, strategy
        if key not in self.known:
            count = len(goal.left)
            before = f"implyR(1)*{count}; " if count else "nil; "
            status, said = self.run(text(goal.formula()), f"{before}({strategy})")
            if status < 0:  # control-C ends the program, too
                raise Failed("the program was ended")
            self.known[key] = Left(goals_of(said), re.findall(r"^leaf \d+ (.*)$", said, re.MULTILINE)) if status in (0, 1) else said.split("\n")[0]
        found = self.known[key]
        if isinstance(found, str):
            raise Failed(found)
        return found

    def apply(self, goal: Goal, strategy: str) -> list[Goal | Several]:
        """The goals that a strategy leaves of a goal."""
        return self.left(goal, strategy).goals

    def goals(self, goal: Goal, strategy: str) -> list[Goal]:
        """The same, where each has one formula on the right."""
        found = self.apply(goal, strategy)
        plain = [one for one in found if isinstance(one, Goal)]
        if len(plain) < len(found):
            raise Failed("a goal has several formulas on the right")
        return plain

    def goal(self, goal: Goal, strategy: str) -> Goal:
        """The one goal that a strategy leaves."""
        found = self.goals(goal, strategy)
        if len(found) != 1:
            raise Failed(f"{len(found)} goals")
        return found[0]

    def closes(self, goal: Goal, strategy: str) -> bool:
        """Whether a strategy leaves nothing of a goal."""
        try:
            return not self.apply(goal, strategy)
        except Failed:
            return False
