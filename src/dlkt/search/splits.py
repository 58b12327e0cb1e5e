"""Cases by the signs of what a system keeps: two cars that both brake, and whatever moves with accelerations that don't change.

Of p>=0 let w=-p' and D=-w', a term that the system keeps. Then p is a quadratic of the time, and 2*D*p-w^2 is kept: the energy of the relative
motion. Where D>0 and it is at least 0, p never gets below 0. Else the cases are w<=0 and w>=0, then the signs of the linear terms that are kept
(are both cars still moving when they are equally fast?), then whether the turn lies behind the end of the cycle (w<=D*T), then the sign of D. In
each case differential invariants are enough: no further axiom.
"""

from typing import NamedTuple

from dlkt.formulas import (
    NotPolynomial, ONE, ZERO, added, conjuncts, free, is_arithmetic, make, multiplied, normal_form, number, polynomial, slope, subtracted, term_of, text,
    unique, variable,
)
from dlkt.search.conserved import conserved
from dlkt.search.context import Search
from dlkt.search.cuts import text_for_arithmetic
from dlkt.search.kernel import Goal
from dlkt.search.pool import pool
from dlkt.search.systems import System
from dlkt.search.writing import branch, comment, quoted, seq
from dlkt.trees import Tree

MOST_SPLITS = 4


class Distance(NamedTuple):
    """A term p that is to stay at least, or above, 0, its fall w=-p' and the slope D of -w."""

    strict: bool
    term: Tree
    fall: Tree
    loss: Tree


def distances(system: System) -> list[Distance]:
    """The parts p~0 of the post whose slope changes steadily."""
    found = []
    for part in conjuncts(normal_form(system.post)):
        if part.word not in ("ge", "gt", "le", "lt"):
            continue
        term = subtracted(*(part.kids if part.word in ("ge", "gt") else part.kids[::-1]))
        try:
            fall = term_of(polynomial(make("neg", "", slope(term, system.field))))
            loss = term_of(polynomial(make("neg", "", slope(fall, system.field))))
        except NotPolynomial:
            continue
        if free(fall) & system.bound and not free(loss) & system.bound and loss is not ZERO:
            found.append(Distance(part.word in ("gt", "lt"), term, fall, loss))
    return found


def clock_of(system: System) -> tuple[Tree | None, Tree | None]:
    """A variable that says the time since the start, and its limit: t'=1, t=0 at first, t<=T in the domain."""
    for name, term in system.field.items():
        clock = variable(name)
        if term is ONE and any(one.word == "eq" and one.kids[0] is clock and one.kids[1] is ZERO for one in system.left):
            limits = (one.kids[1] for one in system.domain if one.word == "le" and one.kids[0] is clock and not free(one.kids[1]) & system.bound)
            return clock, next(limits, None)
    return None, None


def terms_to_split(system: System) -> list[Tree]:
    """Terms whose signs decide how a quadratic distance goes, in the order in which they are tried."""
    found, (_, limit) = [], clock_of(system)
    moving = system.bound | {name for name in system.search.names(system.goal) if name not in system.frozen}
    kept = conserved(system.field, 1, moving)
    for one in distances(system):
        found.append(one.fall)
        found += [term for term in kept if free(term) & free(one.fall) & system.bound]
        if limit is not None:
            found.append(term_of(polynomial(subtracted(one.fall, multiplied(one.loss, limit)))))
        if one.loss.word != "num":
            found.append(one.loss)
    return unique(found)


def more_facts(system: System) -> list[Tree]:
    """The energies of the relative motions, and what held at first in terms of the values now: p(t)=p+w*t+D*t^2/2 a time t earlier."""
    found = []
    clock, _ = clock_of(system)
    for one in distances(system):
        energy = term_of(polynomial(subtracted(multiplied(multiplied(number(2), one.loss), one.term), make("pow", "", one.fall, number(2)))))
        found += [make(word, "", energy, ZERO) for word in (("gt", "ge") if one.strict else ("ge",))]
        if clock is not None:
            square = make("div", "", multiplied(one.loss, make("pow", "", clock, number(2))), number(2))
            before = added(added(one.term, multiplied(one.fall, clock)), square)
            found.append(make("gt" if one.strict else "ge", "", term_of(polynomial(before)), ZERO))
            fall = term_of(polynomial(added(one.fall, multiplied(one.loss, clock))))
            found += [make(word, "", fall, ZERO) for word in ("le", "ge")]
    return found


def split(search: Search, goal: Goal, frozen: "list[str] | tuple[str, ...]", known: tuple[Tree, ...] = (), depth: int = 0) -> str | None:
    """A goal with a system whose post is arithmetic: facts, and otherwise cases by the sign of a term. A text or none."""
    system = System(search, goal, frozen)
    if not is_arithmetic(system.post) or not distances(system):
        return None
    search.activity = "cases by the signs of what is kept"
    extra = more_facts(system)
    candidates = pool(system, extra)
    first = [one for one in candidates if one in extra]
    rest = [one for one in candidates if one not in extra]
    if depth and system.collect(rest[: len(system.constants)] + first + rest, early=True):
        return text_for_arithmetic(system)
    if depth >= MOST_SPLITS:
        return None
    for term in terms_to_split(system):
        if term not in known:
            known = (*known, term)
            below, above = make("le", "", term, ZERO), make("ge", "", term, ZERO)
            if not search.solver.holds(system.start, below, 0.5) and not search.solver.holds(system.start, above, 0.5):
                return by_sign(search, goal, frozen, (below, above), known, depth)
    return None


def by_sign(search: Search, goal: Goal, frozen: "list[str] | tuple[str, ...]", cases: tuple[Tree, Tree], known: tuple[Tree, ...], depth: int) -> str | None:
    """Both cases of a sign."""
    parts = []
    for case in cases:
        search.tick()
        rest = split(search, Goal(goal.left + (case,), goal.right), frozen, known, depth + 1)
        if rest is None:
            return None
        parts.append(f"{comment('where ' + text(case))}\n{rest}")
    either = make("or", "", *cases)
    return seq(f"cut({quoted(either)})", branch(seq(f"orL(-{len(goal.left) + 1})", branch(*parts)), "hideR(1); leaf"))
