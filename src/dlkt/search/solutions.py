"""By the solution: where the right sides use each other in one direction only, the solution is a polynomial of the time.

Old values get names, a clock is added where there is none, and the solution x=x0+v0*t+a*t^2/2 is cut in, equation by equation, each a
differential invariant of those before it (Platzer, A complete uniform substitution calculus for differential dynamic logic, J. Autom. Reason.
2017, shows solving by these means). What the domain bounds is integrated, too: of a>=b in the domain, where a=q*x'+r, q*x>=q*x0+(b-r)*t.
"""

from fractions import Fraction

from dlkt.formulas import (
    NotPolynomial, ONE, Polynomial, ZERO, added, free, free_of_all, has_division, has_quantifier, is_arithmetic, make, multiplied, polynomial,
    polynomial_product, polynomial_quotients, polynomial_sum, substituted, subtracted, term_of, text, unique, variable, variables,
)
from dlkt.search.context import Search, fresh
from dlkt.search.cuts import ghost_text, text_for_arithmetic
from dlkt.search.freezing import freeze
from dlkt.search.kernel import Failed, Goal
from dlkt.search.oldvalues import keep_old
from dlkt.search.pool import usable
from dlkt.search.solver import FALSE
from dlkt.search.systems import System
from dlkt.search.writing import seq
from dlkt.trees import Tree

MOST_PARTS = 40
PASSED = "##"  # the time since the start; x# is the old value of x
Solution = dict[str, Polynomial]


def integral(whole: Polynomial) -> Polynomial:
    """The integral of a polynomial of the time, which is 0 at first."""
    found: Polynomial = {}
    for key, value in whole.items():
        power = dict(key).get(PASSED, 0)
        above = tuple(sorted({**dict(key), PASSED: power + 1}.items()))
        found[above] = found.get(above, Fraction(0)) + value / (power + 1)
    return found


def composed(whole: Polynomial, values: Solution) -> Polynomial:
    """A polynomial with polynomials for some of its variables."""
    found: Polynomial = {}
    for key, value in whole.items():
        one: Polynomial = {(): value}
        for name, power in key:
            factor = values.get(name, {((name, 1),): Fraction(1)})
            for _ in range(power):
                one = polynomial_product(one, factor)
        found = polynomial_sum(found, one)
    return found


def solution_of(system: System) -> Solution | None:
    """The solution of a system whose equations use each other in one direction: polynomials of the time and of old values, or none."""
    done: Solution = {}
    todo = dict(system.field)
    while todo:
        ready = [name for name, term in todo.items() if not free(term) & todo.keys()]
        if not ready:
            return None
        for name in ready:
            try:
                inside = polynomial(todo.pop(name))
                if any(power < 0 and other in done for key in inside for other, power in key):
                    return None
                done[name] = polynomial_sum({((name + "#", 1),): Fraction(1)}, integral(composed(inside, done)))
            except NotPolynomial:
                return None
    return None if any(len(one) > MOST_PARTS for one in done.values()) else done


def solve(search: Search, goal: Goal) -> str | None:
    """A goal with a system and arithmetic behind it: a text, or none."""
    system = System(search, goal)
    found = solution_of(system) if is_arithmetic(system.post) else None
    if found is None:
        search.because("solution", goal, "the solution isn't a polynomial of the time")
        return None
    search.activity = "the solution"
    clock = next((name for name in system.evolved if system.field[name] is ONE), None)
    if clock is not None:
        return with_clock(search, goal, clock, found)
    name = fresh("t", search.names(goal))
    begin = ghost_text(name, "0", "1", "0", len(goal.left))
    try:
        new = search.kernel.goal(goal, begin)
    except Failed:
        return None
    rest = with_clock(search, new, name, found | {name: {((name + "#", 1),): Fraction(1), ((PASSED, 1),): Fraction(1)}})
    return rest and seq(begin, rest)


def integrated(system: System, old: dict[str, Tree], passed: Tree) -> list[Tree]:
    """Bounds by integration: a part a>=b of the domain bounds x' where a=q*x'+r, with q, r and b kept."""
    found = []
    for part in system.domain:
        if part.word not in ("ge", "gt", "le", "lt"):
            continue
        one, other = part.kids if part.word in ("ge", "gt") else part.kids[::-1]
        for low, high in ((one, other), (make("neg", "", other), make("neg", "", one))):
            if free(high) & system.bound:
                continue
            for name, term in system.field.items():
                try:
                    options = polynomial_quotients(polynomial(low), polynomial(term))
                except NotPolynomial:
                    continue
                for factor, rest in options:
                    by, less = term_of(factor), term_of(rest)
                    if by is not ZERO and free(term) & system.bound and not (free(by) | free(less)) & system.bound:
                        rate = term_of(polynomial(subtracted(high, less)))
                        found.append(make("ge", "", multiplied(by, variable(name)), added(multiplied(by, old[name]), multiplied(rate, passed))))
    return unique(found)


def equations_of(found: Solution, old: dict[str, Tree], clock: str, names: list[str]) -> list[Tree]:
    """The equations of the solution in terms of old values, those of the fewest parts first; those without the names that aren't kept."""
    passed = subtracted(variable(clock), old[clock])
    values = {name + "#": old[name] for name in names} | {PASSED: passed}
    lost = {name for name in names if old[name] is variable(name)}
    equations = []
    for name in sorted(names, key=lambda name: len(found[name])):
        if name in lost:
            continue
        if name == clock:
            equations.append(make("ge", "", variable(clock), old[clock]))
        elif not any(other + "#" in free(term_of(found[name])) for other in lost):
            equations.append(make("eq", "", variable(name), substituted(term_of(found[name]), values)))
    return equations


def with_clock(search: Search, goal: Goal, clock: str, found: Solution) -> str | None:
    """The solution, with the values at the start and the parameters frozen; and what the domain bounds, integrated."""
    evolved = [item[:-1] for item in goal.right.kids[0].detail.split(",")]

    def with_old(new: Goal, old: dict[str, Tree]) -> str | None:
        names = variables(free_of_all([new.right, *new.left]))
        system = System(search, new)
        kept = sorted(name for name in names if not name.endswith("'") and name not in system.bound)
        return freeze(search, new, kept, lambda here: solved(search, here, kept, old, clock, found)) if kept \
            else solved(search, new, kept, old, clock, found)

    return keep_old(search, goal, evolved, with_old)


def solved(search: Search, goal: Goal, kept: list[str], old: dict[str, Tree], clock: str, found: Solution) -> str | None:
    """The goal where the old values have names and are frozen: by the solution as a cut."""
    here = System(search, goal, kept)
    passed = subtracted(variable(clock), old[clock])
    equations = equations_of(found, old, clock, here.evolved)
    told = [one for one in here.left if not (one.word == "eq" and one.kids[0].word == "var" and one.kids[0] in old.values())]
    before = [substituted(one, old) for one in [*(one for one in told if free(one) & here.bound), *here.domain]]
    before = [one for one in before if not free(one) & here.bound]
    lost = [name for name in here.evolved if old[name] is variable(name)]
    bounds = [one for one in integrated(here, old, passed) if not any(name in free(one) for name in lost)]
    quantified = has_quantifier(here.post)
    plain = usable(here, [one for one in before if has_division(one)])
    shown = usable(here, equations)
    pool = here.constants + before + plain + (equations[:1] + bounds if quantified else []) + shown + bounds
    if here.collect(unique(pool), early=quantified):
        return text_for_arithmetic(here)
    tell_false(search, here, old, shown)
    return None


def tell_false(search: Search, here: System, old: dict[str, Tree], equations: list[Tree]) -> None:
    """Says at which values the solution breaks what was asked for, where it is all in the domain."""
    said = here.solver.valid(here.known(), here.post, 5.0)
    if said.answer != FALSE or not all(one in here.known() for one in equations):
        search.because("solution", here.goal, f"with the solution, {here.why_not()}")
        return
    back = {term.detail: name for name, term in old.items() if term.word == "var"}
    begin = [f"{back.get(name, name)}={value}" for name, value in said.values.items() if name.endswith("()") or name in back or name in here.frozen]
    now = [f"{name}={said.values[name]}" for name in here.evolved if name in said.values]
    search.say(f"false, as it seems: {text(here.post)} along {text(here.program)}: from {', '.join(begin)} it gets to {', '.join(now)}")
