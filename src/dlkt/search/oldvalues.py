"""Old values: names for the values that variables have now, so that what comes can speak of them later.

`cut("\\exists x0 x0=x")` is arithmetic, and `skolemL` gives the name; no program below changes x0. KeYmaera X writes `old(x)`. In an annotation
`old(x)` is the value of x before the loop or the system behind which it stands.
"""

import re
from collections.abc import Callable, Mapping

from dlkt.formulas import bound, conjunction, free, is_arithmetic, make, variable
from dlkt.search.context import Search, fresh
from dlkt.search.kernel import Goal
from dlkt.search.writing import branch, quoted, remark, seq, times
from dlkt.trees import Tree

Inner = Callable[[Goal, dict[str, Tree]], "str | None"]


def reads_old(tree: Tree) -> frozenset[str]:
    """The variables x of which a formula reads `old(x)`."""
    if tree.word == "app" and tree.detail == "old" and len(tree.kids) == 1 and tree.kids[0].word == "var":
        return frozenset([tree.kids[0].detail])
    return frozenset().union(*map(reads_old, tree.kids))


def replaced_old(tree: Tree, values: Mapping[str, Tree]) -> Tree:
    """An annotation with the names of old values for `old(x)`."""
    if tree.word == "app" and tree.detail == "old" and len(tree.kids) == 1 and tree.kids[0].word == "var":
        return values.get(tree.kids[0].detail, tree.kids[0])
    return make(tree.word, tree.detail, *(replaced_old(kid, values) for kid in tree.kids)) if tree.kids else tree


def value_said(goal: Goal, name: str) -> Tree | None:
    """A term without what the program changes that the left side says a variable is."""
    writes = bound(goal.right.kids[0])
    for one in goal.left:
        if one.word == "eq" and one.kids[0] is variable(name) and not free(one.kids[1]) & writes and is_arithmetic(one):
            return one.kids[1]
    return None


def is_used(name: str, of: str, strategy: str) -> bool:
    """Whether a strategy does more with an old value than to carry it."""
    rest = re.sub(rf"{name}'=0|{name}':=0|\b{name}={of}\b", "", strategy)
    return re.search(rf"\b{name}\b", rest) is not None


def keep_old(search: Search, goal: Goal, names: list[str], inner: Inner) -> str | None:
    """Names for the values that these variables have now. `inner` gives the text of the rest; it is told which term is the old value of each
    variable. Where the left side says x=c, c is that term, and nothing is cut in. Names that the rest doesn't use are left out."""
    taken = search.names(goal)
    old: dict[str, Tree] = {}
    cuts: list[tuple[str, str]] = []
    for name in names:
        said = value_said(goal, name)
        if said is not None:
            old[name] = said
            continue
        new = fresh(name, taken)
        taken.add(new)
        old[name] = variable(new)
        cuts.append((new, name))
    if not cuts:
        return inner(goal, old)
    ghosts = [make("eq", "", variable(new), variable(name)) for new, name in cuts]
    rest = inner(Goal(goal.left + tuple(ghosts), goal.right), old)
    if rest is None:
        return None
    spare = [name for new, name in cuts if not is_used(new, name, rest)]
    if spare and len(spare) < len(cuts):
        same = {name: variable(name) for name in spare}
        fewer = keep_old(search, goal, [name for name in names if name not in spare], lambda new, values: inner(new, values | same))
        if fewer:
            return fewer
    some = conjunction(ghosts)
    for new, _ in reversed(cuts):
        some = make("exists", new, some)
    place = len(goal.left) + 1
    opening = seq(times(f"skolemL(-{place})", len(cuts)), times("andL('L)", len(cuts) - 1))
    return seq(f"cut({quoted(some)})", branch(remark("the values now get names", seq(opening, rest)), "hideR(1); leaf"))
