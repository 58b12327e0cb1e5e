"""A system in a box: the methods in the order in which they are tried, cheap ones first, each with a budget.

1. There is no run, for the domain doesn't hold at first.
2. An annotation that reads `old(x)`.
3. Facts that are cut in (`systems`), from the cheap tier of candidates, and then from all (`pool`).
4. The domain holds at first, or there is no run.
5. What no equation changes is frozen (`freezing`), and 3 again; then cases by the signs of what the system keeps (`splits`).
6. Two bounds that need each other (`coupled`).
7. Cases by a disjunction on the left.
8. The solution (`solutions`).
9. A barrier from a template (`barriers`), where nothing is annotated.
"""

from collections.abc import Callable

from dlkt.formulas import FALSE, TRUE, conjunction, conjuncts, differentiable, free, free_of_all, is_arithmetic, substituted, text, unique, variables
from dlkt.search.barriers import barrier
from dlkt.search.context import Search, hide_programs
from dlkt.search.coupled import coupled
from dlkt.search.cuts import text_for, text_for_arithmetic
from dlkt.search.freezing import freeze
from dlkt.search.kernel import Failed, Goal
from dlkt.search.oldvalues import keep_old, reads_old, replaced_old
from dlkt.search.pool import pool, tiers, usable
from dlkt.search.solutions import solve
from dlkt.search.splits import split
from dlkt.search.steps import MOST_STEPS, place_of_step
from dlkt.search.systems import System
from dlkt.search.writing import branch, comment, quoted, seq
from dlkt.trees import Tree

MOST_CASES, MOST_DEPTH = 3, 9
Method = Callable[[Search, Goal, int], "str | None"]


def prove_system(search: Search, goal: Goal) -> str | None:
    """A goal with a system on the right: a text, or none."""
    words, goal = hide_programs(goal)
    search.activity = f"along {text(goal.right.kids[0])}"
    rest = attempt(search, goal)
    return rest and seq(*words, rest)


def attempt(search: Search, goal: Goal, depth: int = 0) -> str | None:
    """The same, where the left side is arithmetic."""
    for method in METHODS:
        search.tick()
        found = method(search, goal, depth)
        if found:
            return found
    system = System(search, goal)
    system.collect(tiers(system)[0])
    why = system.why_not()
    search.because("all methods", goal, why)
    search.say(f"along {text(system.program)} from {', '.join(map(text, system.left)) or 'anywhere'}: {why}")
    return None


def attempt_tidy(search: Search, goal: Goal, depth: int) -> str | None:
    """The same, behind the conjunctions on the left."""
    words, goal = search.tidy(goal)
    rest = attempt(search, goal, depth)
    return rest and seq(words, rest)


def steps_behind(search: Search, goal: Goal, depth: int) -> str | None:
    """Where a program without loops and systems comes behind the system: its steps are done there, so that arithmetic is left."""
    if is_arithmetic(goal.right.kids[1]) or depth >= MOST_DEPTH:
        return None
    words: list[str] = []
    new = goal
    while (path := place_of_step(new.right)) is not None and len(words) < MOST_STEPS:
        try:
            new = search.kernel.goal(new, f"step(1{path})")
        except Failed:
            break
        words.append(f"step(1{path})")
    if not words or not is_arithmetic(new.right.kids[1]):
        return None
    rest = search.tried(lambda: attempt(search, new, depth))
    return rest and seq(*words, rest)


def no_run(search: Search, goal: Goal, _: int) -> str | None:
    """Where what is known contradicts the domain."""
    system = System(search, goal)
    if not search.solver.holds(system.start, FALSE, 1.0):
        return None
    nothing = "dI(1); <(leaf, hideR(1); leaf)"
    if is_arithmetic(system.post) and differentiable(system.post) and not system.unevolved(system.post):
        return nothing
    return seq('boxCut("false",1)', branch(nothing, "closeFalse(-1)"))


def by_old_values(search: Search, goal: Goal, _: int) -> str | None:
    """An annotation that reads old(x): the old values get names, are frozen, and the annotation is cut in with them."""
    notes = [part for note in search.notes_for(goal.right.kids[0]) for part in conjuncts(note)]
    wanted = sorted({name for part in notes for name in reads_old(part)})
    if not wanted:
        return None

    def with_old(new: Goal, old: dict[str, Tree]) -> str | None:
        given = [replaced_old(part, old) for part in notes]
        moved = [substituted(one, old) for one in goal.left if is_arithmetic(one) and free(one) & old.keys()]
        writes = System(search, goal).bound
        names = sorted(name for name in variables(free_of_all([new.right, *new.left, *given])) if not name.endswith("'") and name not in writes)
        extra = [one for one in moved + given if is_arithmetic(one)]
        return freeze(search, new, names, lambda here: with_facts(search, here, names, extra)) if names else with_facts(search, new, names, extra)

    return keep_old(search, goal, wanted, with_old)


def with_facts(search: Search, goal: Goal, names: list[str], extra: list[Tree]) -> str | None:
    """A goal whose variables are frozen: by facts, or by cases."""
    here = System(search, goal, names)
    mine = usable(here, extra)
    if here.collect(unique(here.constants + mine + pool(here, mine)), early=bool(extra)):
        return text_for(here)
    return split(search, goal, names)


def by_facts(search: Search, goal: Goal, _: int) -> str | None:
    """By facts that are cut in, from the cheap tier first."""
    system = System(search, goal)
    for tier in tiers(system):
        if system.collect(tier):
            found = text_for(system)
            if found:
                return found
            break
    search.because("differential cuts", goal, system.why_not())
    return None


def domain_at_first(search: Search, goal: Goal, depth: int) -> str | None:
    """The domain holds at first, or there is no run."""
    domain = goal.right.kids[0].kids[-1]
    system = System(search, goal)
    if domain is TRUE or not is_arithmetic(domain) or all(search.solver.holds(system.left, part, 1.0) for part in system.domain):
        return None
    rest = attempt_tidy(search, Goal(goal.left + (domain,), goal.right), depth)
    return rest and seq(f"cut({quoted(domain)})", branch(rest, seq('boxCut("false",1)', branch("dI(1); close", "closeFalse(-1)"))))


def by_freezing(search: Search, goal: Goal, _: int) -> str | None:
    """With what no equation changes frozen; by facts, or by cases."""
    system = System(search, goal)
    loose = sorted(set(system.unevolved(conjunction([*goal.left, system.post]))) | set(system.unevolved(system.program)))
    loose = [name for name in loose if name not in system.bound]
    if not loose:
        return split(search, goal, ())
    found = freeze(search, goal, loose, lambda here: with_facts(search, here, loose, []))
    if found is None:
        search.because("freezing", goal, f"with {', '.join(loose)} frozen nothing else is shown")
    return found


def by_cases(search: Search, goal: Goal, depth: int) -> str | None:
    """Cases by a disjunction on the left."""
    for place, one in enumerate(goal.left):
        if one.word == "or" and depth < MOST_CASES:
            parts = []
            for case in one.kids:
                part = attempt_tidy(search, Goal((*goal.left[:place], case, *goal.left[place + 1:]), goal.right), depth + 1)
                if part is None:
                    break
                parts.append(f"{comment('where ' + text(case))}\n{part}")
            if len(parts) == len(one.kids):
                return seq(f"orL(-{place + 1})", branch(*parts))
    return None


def by_solution(search: Search, goal: Goal, _: int) -> str | None:
    """By the solution."""
    return solve(search, goal)


def by_coupling(search: Search, goal: Goal, _: int) -> str | None:
    """By two bounds that need each other."""
    return coupled(search, goal)


def by_barrier(search: Search, goal: Goal, _: int) -> str | None:
    """By a barrier from a template."""
    system = System(search, goal)
    if not search.guess or search.quiet or not is_arithmetic(system.post):
        return None
    search.activity = "a barrier from a template"
    found = barrier(search, system)
    if found is None:
        search.because("template", goal, "no polynomial of degree 2 is found that is a barrier")
        return None
    here = System(search, goal)
    here.cofactors = {found.formula: found.factor}
    if here.collect(unique([found.formula, *pool(here, [found.formula])]), early=True):
        return text_for_arithmetic(here)
    return None


METHODS: tuple[Method, ...] = (
    steps_behind, no_run, by_old_values, by_facts, domain_at_first, by_freezing, by_coupling, by_cases, by_solution, by_barrier,
)
