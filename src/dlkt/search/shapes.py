"""The search by the shape of the goal: what stands on the right says which method is next.

Arithmetic is a leaf, or `close`, or `prop`. A loop wants an invariant (`loops`), a system facts that hold along it (`plans`), a diamond a run
(`runs`). Every other program is taken apart by `step`, so that there is a goal for each way through it, or by an interface where there are many
ways (`interface`). The rules are those of sequent calculus for dynamic logic: Platzer, Logical Foundations of Cyber-Physical Systems, 2018.
"""

from dlkt.formulas import is_arithmetic, text
from dlkt.search.context import Search, fresh, hide_programs, shown_values
from dlkt.search.interface import by_interface
from dlkt.search.kernel import Failed, Goal
from dlkt.search.leftboxes import by_left
from dlkt.search.loops import prove_loop
from dlkt.search.plans import prove_system
from dlkt.search.runs import by_run, by_time
from dlkt.search.solver import FALSE, VALID
from dlkt.search.steps import UNFOLDS, flattened
from dlkt.search.witnesses import by_witness
from dlkt.search.writing import bracketed, branch, comment, seq

LEAF_SECONDS = 5.0


def proved(search: Search, goal: Goal) -> str | None:
    """The text of a strategy for a goal, or none."""
    right = goal.right
    if is_arithmetic(right):
        return arithmetic(search, goal) if all(map(is_arithmetic, goal.left)) else with_programs(search, goal)
    if right.word == "imply":
        return after(search, "implyR(1)", goal)
    words, goal = search.tidy(goal)
    for place, one in enumerate(goal.left, 1):
        if one.word == "exists":
            rest = after(search, f"skolemL(-{place})", goal)
            return rest and seq(words, rest)
    rest = by_shape(search, goal)
    return rest and seq(words, rest)


def by_shape(search: Search, goal: Goal) -> str | None:
    """The same, of a goal whose left side is taken apart, and whose right side has programs."""
    right = goal.right
    program = right.kids[0] if right.word in ("box", "dia") else None
    if right.word == "box" and program is not None and program.word == "loop":
        return prove_loop(search, goal)
    if right.word == "box" and program is not None and program.word == "system":
        return prove_system(search, goal) or search.give_up(goal)
    if right.word == "dia":
        return diamond(search, goal) or search.give_up(goal)
    if right.word in ("and", "equiv"):
        return both(search, goal, "andR(1)" if right.word == "and" else "equivR(1)")
    if right.word == "exists":
        return by_witness(search, goal) or unfold(search, goal)
    if right.word == "not" and right.kids[0].word == "box":
        return by_run(search, goal) or unfold(search, goal)
    return unfold(search, goal)


def with_programs(search: Search, goal: Goal) -> str | None:
    """Arithmetic on the right, and programs on the left: without them, or by what they say."""
    words, goal = search.tidy(goal)
    rest = search.tried(lambda: arithmetic(search, goal)) or search.tried(lambda: by_left(search, goal)) or flat(search, goal) or search.give_up(goal)
    if rest is None:
        search.say(f"what the programs on the left say isn't used: {goal.shown()}")
    return rest and seq(words, rest)


def arithmetic(search: Search, goal: Goal) -> str | None:
    """A goal of arithmetic: closed by the program where it can, else a leaf that a solver finds valid."""
    if goal.right in goal.left:
        return "close"
    words, goal = hide_programs(goal)
    has_connectives = any(one.word not in ("eq", "ne", "ge", "gt", "le", "lt") for one in (*goal.left, goal.right))
    if not words and has_connectives and search.kernel.closes(goal, "prop"):
        return "prop"
    said = search.solver.valid(goal.left, goal.right, LEAF_SECONDS)
    if said.answer == VALID:
        return seq(*words, "leaf")
    if said.answer == FALSE:
        search.because("leaf", goal, f"it is false at {shown_values(said.values)}")
        search.say(f"false: {goal.shown()} at {shown_values(said.values)}")
        return search.give_up(goal)
    goals = search.kernel.apply(goal, "prop")
    if len(goals) > 1 and all(isinstance(one, Goal) and search.solver.holds(one.left, one.right, LEAF_SECONDS) for one in goals):
        return seq(*words, "prop; leaf")
    search.because("leaf", goal, "the solver doesn't know")
    search.say(f"unknown to the solver: {goal.shown()}")
    return search.give_up(goal)


def both(search: Search, goal: Goal, word: str) -> str | None:
    """A conjunction or an equivalence of which a part has programs: one part after the other."""
    parts = []
    for one in search.kernel.goals(goal, word):
        part = search.prove(one)
        if part is None:
            return None
        parts.append(part)
    return seq(word, branch(*parts))


def after(search: Search, words: str, goal: Goal) -> str | None:
    """Words that leave one goal, and its proof."""
    try:
        rest = search.prove(search.kernel.goal(goal, words))
    except Failed:
        return None
    return rest and seq(words, rest)


def unfold(search: Search, goal: Goal) -> str | None:
    """Takes a program apart: a goal for each way through it, or an interface where there are many."""
    found = by_interface(search, goal)
    if found:
        return found
    for words in UNFOLDS:  # fewer steps where there are too many goals
        try:
            goals = search.kernel.goals(goal, words)
            break
        except Failed:
            continue
    else:
        search.because("taking apart", goal, "the program refuses the steps, or there are too many goals")
        return None
    if goals == [goal]:
        return rename(search, goal) or flat(search, goal)
    parts = []
    for one in goals:
        part = search.prove(one)
        if part is None:
            return None
        parts.append(part)
    return seq(words, joined(goal, goals, parts)) if parts else words


def joined(goal: Goal, goals: list[Goal], parts: list[str]) -> str:
    """The parts of several goals: once where they are alike, and else with a comment on what each goal knows that the others don't."""
    kinds = set(parts)
    if len(kinds) == 1:
        return bracketed(parts[0]) if len(parts) > 1 else parts[0]
    if kinds == {"close", "leaf"}:
        return "(close | leaf)"
    named = []
    for one, part in zip(goals, parts):
        new = [text(f) for f in one.left if f not in goal.left]
        named.append(f"{comment('where ' + ', '.join(new))}\n{part}" if new and "\n" in part else part)
    return branch(*named)


def rename(search: Search, goal: Goal) -> str | None:
    """Where the name of a quantifier or an assignment is used elsewhere."""
    right = goal.right
    if right.word == "forall" or (right.word == "box" and right.kids[0].word == "assign"):
        name = right.detail if right.word == "forall" else right.kids[0].detail
        new = fresh(name.rstrip("'"), search.names(goal))
        return after(search, f"boundR({new},1)" + ("; skolemR(1)" if right.word == "forall" else "; step(1)"), goal)
    search.because("taking apart", goal, "no rule takes what stands on the right apart")
    search.say(f"no way on: {goal.shown()}")
    return None


def flat(search: Search, goal: Goal) -> str | None:
    """Steps at all places, where that leaves arithmetic."""
    try:
        words, goal = flattened(search, goal)
    except Failed:
        return None
    if not words or not is_arithmetic(goal.right):
        return None
    rest = arithmetic(search, goal)
    return rest and seq(*words, rest)


def diamond(search: Search, goal: Goal) -> str | None:
    """A diamond: by its steps where it has neither systems nor loops, else by a run."""
    program = goal.right.kids[0]
    if program.word == "system":
        return by_time(search, goal) or by_run(search, goal)
    plain = search.tried(lambda: flat(search, goal))
    if plain:
        return plain
    words, here = hide_programs(goal)
    found = by_run(search, here)
    return found and seq(*words, found)
