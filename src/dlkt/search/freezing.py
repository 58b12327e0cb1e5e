"""Freezing: variables that no equation changes are told to have the slope 0, so that differential invariants may read them.

A differential invariant may read a variable u that no equation changes only where the domain says u'=0. So u':=0 is put in front of the system,
which changes nothing, for nothing reads u' (`dassignb`), and what is known then is kept behind it by `boxCut`. Constants `c()` need none of this.
"""

from collections.abc import Callable

from dlkt.formulas import ZERO, conjunction, make
from dlkt.search.context import Search
from dlkt.search.kernel import Goal
from dlkt.search.systems import frozen_fact
from dlkt.search.writing import branch, quoted, remark, seq, times


def drops(names: list[str], left: int) -> str:
    """What shows that the system does behind u':=0 what it does without it."""
    place = left + 1
    one = f"useAt(dassignb,-{place})"
    return seq("implyR(1)", *([f"useAt(composeb,-{place})", one] * (len(names) - 1)), one, "close")


def freezing(goal: Goal, names: list[str], rest: str) -> str:
    """The text that puts u'=0 for these variables in front of what is known; `rest` proves what is left."""
    box = goal.right
    program = make("assign", names[-1] + "'", ZERO)
    for name in reversed(names[:-1]):
        program = make("seq", "", make("assign", name + "'", ZERO), program)
    known = [*map(frozen_fact, names), *goal.left]
    opened = times("andL('L)", len(known) - 1)
    return seq(f"cutR({quoted(make('box', '', program, box))},1)", branch(
        remark("what no equation changes is frozen: its slope is 0", seq(f"boxCut({quoted(conjunction(known))},1)", branch(
            seq(times("step(1)", 2 * len(names) - 1), "leaf"), seq(opened, rest)))),
        drops(names, len(goal.left))))


def frozen(goal: Goal, names: list[str]) -> Goal:
    """The goal behind it."""
    return Goal((*map(frozen_fact, names), *goal.left), goal.right)


def freeze(search: Search, goal: Goal, names: list[str], inner: Callable[[Goal], "str | None"]) -> str | None:
    """Freezes these variables; `inner` gives the text for what is left."""
    search.tick()
    rest = inner(frozen(goal, names))
    return rest and freezing(goal, names, rest)
