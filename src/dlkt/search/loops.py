"""Loops: an invariant that holds at first, that a round keeps, and that says what was asked for.

It is the annotation `@invariant(J)`, to which the constants' assumptions are added: several annotations are tried one by one and as a
conjunction. Where that isn't enough, or nothing is annotated, further conjuncts are guessed, from the precondition, the domains, the tests and
from what the systems conserve, and those that a round doesn't keep are dropped until the rest keep each other: the Houdini algorithm (Flanagan
and Leino, Houdini, an annotation assistant for ESC/Java, FME 2001). An annotation may read `old(x)`, the value of x before the loop.
"""

from typing import NamedTuple

from dlkt.formulas import (
    NotPolynomial, ZERO, bound, conjunction, conjuncts, free, is_arithmetic, make, normal_form, polynomial, substituted, term_of, text, unique, variable,
)
from dlkt.search.conserved import at_the_limit, bounds_of_conserved
from dlkt.search.context import Search, hide_programs, shown_values
from dlkt.search.kernel import Failed, Goal
from dlkt.search.oldvalues import keep_old, reads_old, replaced_old
from dlkt.search.solver import FALSE, VALID
from dlkt.search.steps import UNFOLD, field_of, systems_in
from dlkt.search.writing import branch, quoted, remark, seq
from dlkt.trees import Tree

WHOLE_SECONDS, ONE_SECONDS = 20.0, 6.0


class Loop(NamedTuple):
    """A goal with a loop, and what is known before it: of what no round changes, and of the rest."""

    goal: Goal
    left: list[Tree]
    constants: list[Tree]
    moving: list[Tree]

    @property
    def body(self) -> Tree:
        """The program that is repeated."""
        return self.goal.right.kids[0].kids[0]

    @property
    def post(self) -> Tree:
        """What is asked for."""
        return self.goal.right.kids[1]


def loop_of(goal: Goal) -> Loop:
    """The loop of a goal."""
    writes = bound(goal.right.kids[0])
    left = [one for one in goal.left if is_arithmetic(one)]
    return Loop(goal, left, [one for one in left if not free(one) & writes], [one for one in left if free(one) & writes])


def prove_loop(search: Search, goal: Goal) -> str | None:
    """A goal with a loop in a box: a text, or none."""
    here = loop_of(goal)
    search.activity = "an invariant of the loop"
    notes = search.notes_for(goal.right.kids[0])
    if any(map(reads_old, notes)):
        return with_old_values(search, goal, unique(part for note in notes for part in conjuncts(note)))
    options = [conjuncts(note) for note in notes]
    if len(notes) > 1:
        options.insert(0, unique(part for note in notes for part in conjuncts(note)))
    if not notes:
        options = [conjuncts(here.post)] if is_arithmetic(here.post) else [[]]
        found = by_precondition(search, here)
        if found:
            return found
    for given in options:
        found = by_parts(search, here, unique(part for part in given if part not in here.constants), bool(notes))
        if found:
            return found
    return partial_round(search, here, options[0])


def partial_round(search: Search, here: Loop, parts: list[Tree]) -> str | None:
    """In a partial strategy, the loop with what was annotated, and what is left open below it."""
    if not search.partial or search.quiet:
        return None
    return by_round(search, here, here.constants + [part for part in parts if part not in here.constants]) or search.give_up(here.goal)


def by_precondition(search: Search, here: Loop) -> str | None:
    """By the precondition as it stands, which is often meant so."""
    whole = unique(part for one in here.moving for part in conjuncts(one))
    if not search.guess or not whole or not is_arithmetic(here.post) or not search.solver.holds(here.left, here.post, 2.0):
        return None
    return search.within(WHOLE_SECONDS, lambda: by_round(search, here, here.constants + whole))


def with_old_values(search: Search, goal: Goal, given: list[Tree]) -> str | None:
    """An invariant that reads `old(x)`: the values before the loop get names, which no round changes, and what was known of them is kept."""
    wanted = sorted({name for part in given for name in reads_old(part)})

    def with_old(new: Goal, old: dict[str, Tree]) -> str | None:
        writes = bound(goal.right.kids[0])
        left = [one for one in goal.left if is_arithmetic(one)]
        kept = unique(part for part in (substituted(one, old) for one in left) if not free(part) & writes)
        here = Loop(new, [one for one in new.left if is_arithmetic(one)], kept, [one for one in left if free(one) & writes])
        return by_parts(search, here, unique(replaced_old(part, old) for part in given), True)

    return keep_old(search, goal, wanted, with_old)


def by_parts(search: Search, here: Loop, given: list[Tree], is_given: bool) -> str | None:
    """The loop with these conjuncts and the constants' assumptions, and, where that isn't enough, with more that are guessed."""
    for part in given:
        said = search.solver.valid(here.left, part, 5.0)
        if said.answer != VALID and is_given:
            how = "doesn't hold" if said.answer == FALSE else "isn't known to hold"
            search.because("loop invariant", here.goal, f"{text(part)} {how} at first: {shown_values(said.values)}")
            search.say(f"the invariant {text(part)} {how} at first: {shown_values(said.values)}")
            return None
    given = [part for part in given if search.solver.holds(here.left, part, 5.0)]
    parts = here.constants + given
    found = by_round(search, here, parts) if not search.partial else search.tried(lambda: by_round(search, here, parts))
    if found or not search.guess:
        return found
    search.because("loop invariant", here.goal, f"a round doesn't keep {text(conjunction(here.constants + given))}, or it doesn't say enough")
    return houdini(search, here, given, is_given)


def houdini(search: Search, here: Loop, given: list[Tree], is_given: bool) -> str | None:
    """More conjuncts, of which those that a round keeps are left."""
    keep = given if is_given else []
    more = [part for part in guesses(search, here, [] if is_given else given) if part not in keep and part not in here.constants]
    more = [part for part in more if search.solver.holds(here.left, part, 1.0)]
    if not more:
        return None
    search.activity = f"a loop invariant among {len(more)} formulas"
    with search.silence():
        while more:
            search.tick()
            whole = conjunction(here.constants + keep + more)
            lost = [part for part in more if not is_kept(search, here, whole, part)]
            if not lost:
                break
            more = [part for part in more if part not in lost]
    if not more and (is_given or not here.constants):
        search.because("Houdini", here.goal, "a round keeps none of the formulas that were guessed")
        return None
    found = by_round(search, here, here.constants + keep + more)
    if found is None:
        search.because("Houdini", here.goal, f"kept are {text(conjunction(keep + more))}, which isn't enough")
    return found


def is_kept(search: Search, here: Loop, whole: Tree, part: Tree) -> bool:
    """Whether a round that begins where all hold ends where this part holds."""
    goal = Goal((whole,), make("box", "", here.body, part))
    return search.within(ONE_SECONDS, lambda: search.prove(goal)) is not None


def guesses(search: Search, here: Loop, given: list[Tree]) -> list[Tree]:
    """Formulas that may be kept: parts of the precondition, domains, tests, what systems conserve, and signs."""
    writes = bound(here.body)
    more = [part for one in here.moving for part in conjuncts(normal_form(one))]
    equations = [part for part in more if part.word == "eq"]
    more += [make("ge", "", *part.kids) for part in equations] + [make("le", "", *part.kids) for part in equations]
    more += domains_in(here.body) + tests_at_once(here.body)
    if is_arithmetic(here.post):
        wanted = conjuncts(normal_form(here.post))
        for system in systems_reached(search, here):
            more += at_the_limit(field_of(system), wanted, writes)
    for system in systems_in(here.body):
        more += bounds_of_conserved(field_of(system), here.left, writes)
    more += between_domains(here.body)
    more += [make(word, "", variable(name), ZERO) for name in sorted(writes) if not name.endswith("'") for word in ("ge", "le")]
    if is_arithmetic(here.post):
        more += conjuncts(normal_form(here.post)) + given
    return unique(more)


def systems_reached(search: Search, here: Loop) -> list[Tree]:
    """The systems of the body with the terms that the ways to them put in."""
    try:
        ways = search.kernel.goals(Goal((), make("box", "", here.body, here.post)), UNFOLD)
    except Failed:
        return []
    return unique(system for way in ways for system in systems_in(way.right))


def domains_in(tree: Tree) -> list[Tree]:
    """The conjuncts of the domains in a program."""
    return [part for system in systems_in(tree) for part in conjuncts(system.kids[-1])]


def tests_in(tree: Tree) -> list[Tree]:
    """The conjuncts of the tests in a program."""
    if tree.word == "test" and is_arithmetic(tree.kids[0]):
        return conjuncts(tree.kids[0])
    return [part for kid in tree.kids if kid.sort != "term" for part in tests_in(kid)]


def tests_at_once(body: Tree) -> list[Tree]:
    """The tests with 0 for the longest time T of t<=T: what a controller's test leaves when the next round is due."""
    limits = {part.kids[1] for part in domains_in(body) if part.word == "le" and part.kids[0].word == "var" and part.kids[1].word in ("app", "var")}
    names = {limit.detail + ("()" if limit.word == "app" else "") for limit in limits}
    found = []
    for part in tests_in(body):
        if free(part) & names and part.word in ("ge", "gt", "le", "lt"):
            now = substituted(part, {name: ZERO for name in names})
            try:
                found.append(make(now.word, "", *(term_of(polynomial(kid)) for kid in now.kids)))
            except NotPolynomial:
                found.append(now)
    return found


def between_domains(body: Tree) -> list[Tree]:
    """What may hold where two domains meet, as x=5 -> v<=0 where one ends at x<=5 and another begins at x>=5."""
    atoms, found = domains_in(body), []
    moving = sorted({name for system in systems_in(body) for name in field_of(system)})
    for one in atoms:
        if one.word == "le" and any(other.word == "ge" and other.kids == one.kids for other in atoms):
            border = make("eq", "", *one.kids)
            found += [make("imply", "", border, make(word, "", variable(name), ZERO)) for name in moving if name not in free(border) for word in ("le", "ge")]
    return found


def by_round(search: Search, here: Loop, parts: list[Tree]) -> str | None:
    """The loop with the conjunction of these as its invariant."""
    invariant = conjunction(parts)
    enough = search.prove(Goal((invariant,), here.post))
    if enough is None:
        return None
    keeps = search.prove(Goal((invariant,), make("box", "", here.body, invariant)))
    if keeps is None:
        return None
    if all(part in here.goal.left for part in parts):
        first = "close" if len(parts) == 1 else "prop"
    else:
        words, _ = hide_programs(here.goal)
        first = seq(*words, "leaf")
    return seq(f"loop({quoted(invariant)},1)",
               branch(remark("it holds at first", first), remark("a round keeps it", keeps), remark("it is what was asked for", enough)))
