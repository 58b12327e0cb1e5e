"""Witnesses: of `\\exists x (A & R)`, where A is arithmetic, that there is some x with A is a leaf, and R is proved of that x."""

from dlkt.formulas import conjunction, conjuncts, free_of_all, is_arithmetic, make
from dlkt.search.context import Search, fresh
from dlkt.search.kernel import Failed, Goal
from dlkt.search.writing import branch, quoted, seq


def by_witness(search: Search, goal: Goal) -> str | None:
    """A quantifier on the right: a text or none."""
    name, body = goal.right.detail, goal.right.kids[0]
    plain = [part for part in conjuncts(body) if is_arithmetic(part)]
    if not plain:
        return None
    some = make("exists", name, conjunction(plain))
    if not search.solver.holds([one for one in goal.left if is_arithmetic(one)], some, 5.0):
        search.because("witness", goal, f"{quoted(some)} isn't known to hold")
        return None
    place = len(goal.left) + 1
    new = name if name not in free_of_all(goal.left) else fresh(name, search.names(goal))
    begin = f"cut({quoted(some)})"
    opening = seq(f"boundL({new},-{place})" if new != name else "", f"skolemL(-{place})", "useAt(existsdual,1)", "notR(1)",
                  f'useAt(allinst,-{place + 1},"f()~>{new}")', f"notL(-{place + 1})")
    try:
        here = search.kernel.goal(goal, seq(begin, branch(opening, "hideR(1); leaf")))
    except Failed:
        return None
    rest = search.prove(here)
    return rest and seq(begin, branch(seq(opening, rest), "hideR(1); leaf"))
