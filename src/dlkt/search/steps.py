"""Steps that leave no choice: the words that take a program apart, and where in a formula a step is possible."""

from dlkt.search.context import Search
from dlkt.search.kernel import Goal
from dlkt.trees import Tree

UNFOLD = "(step(1) | andR(1) | implyR(1) | skolemR(1))*40"
UNFOLDS = (UNFOLD, UNFOLD.replace("*40", "*8"), UNFOLD.replace("*40", "*2"))
MOST_STEPS = 60


def place_of_step(tree: Tree, path: str = "") -> str | None:
    """The path of the first program that a step takes apart, from outside on; none where there is none."""
    if tree.word in ("box", "dia"):
        if tree.kids[0].word not in ("system", "loop", "const"):
            return path
        if tree.word == "dia" and path == "":
            return None
    for number, kid in enumerate(tree.kids):
        if kid.sort == "formula":
            found = place_of_step(kid, f"{path}.{number}")
            if found is not None:
                return found
    return None


def next_step(goal: Goal) -> str | None:
    """The word that does the first step that is possible anywhere in a goal."""
    for sign, side in (("", (goal.right,)), ("-", goal.left)):
        for number, one in enumerate(side, 1):
            path = place_of_step(one)
            if path is not None:
                return f"step({sign}{number}{path})"
    return None


def flattened(search: Search, goal: Goal) -> tuple[list[str], Goal]:
    """Steps at all places: the words, and the goal."""
    words: list[str] = []
    while len(words) < MOST_STEPS:
        word = next_step(goal)
        if word is None:
            break
        goal = search.kernel.goal(goal, word)
        words.append(word)
    return words, goal


def systems_in(tree: Tree) -> list[Tree]:
    """The systems in a program or a formula."""
    if tree.word == "system":
        return [tree]
    return [one for kid in tree.kids if kid.sort != "term" for one in systems_in(kid)]


def field_of(system: Tree) -> dict[str, Tree]:
    """The right sides of a system's equations, by the variables."""
    return dict(zip((item[:-1] for item in system.detail.split(",")), system.kids[:-1]))
