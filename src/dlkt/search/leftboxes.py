"""A box on the left, with one equation of constant slope: what it says at some time, by its solution `DS`.

The time is one at which the post of the box, its domain, or what is wanted turns, or a unit behind that.
"""

from collections.abc import Iterator

from dlkt.formulas import ONE, TRUE, ZERO, free, is_arithmetic, make, normal_form, substituted, subtracted, variable
from dlkt.search.context import Search
from dlkt.search.kernel import Goal
from dlkt.search.runs import at_time, atoms_of, borders, domain_along
from dlkt.search.writing import branch, seq
from dlkt.trees import Tree


def by_left(search: Search, goal: Goal) -> str | None:
    """A goal with arithmetic on the right, and such a box on the left: a text or none."""
    if not is_arithmetic(goal.right):
        return None
    for place, one in enumerate(goal.left, 1):
        if one.word == "box" and one.kids[0].word == "system" and len(one.kids[0].kids) == 2 and is_arithmetic(one.kids[1]):
            found = by_box(search, goal, place)
            if found:
                return found
    return None


def times_of(goal: Goal, box: Tree) -> Iterator[Tree]:
    """Times at which something turns, and those a unit behind."""
    system, post = box.kids
    name, (rise, domain) = system.detail[:-1], system.kids
    now = variable(name)
    turns = [*borders(name, [*atoms_of(normal_form(post)), *atoms_of(domain)]), *borders(name, atoms_of(normal_form(goal.right)))]
    for time in [ZERO, *(make("div", "", subtracted(end, now), rise) for end in turns)]:
        yield time
        yield make("add", "", time, ONE)


def by_box(search: Search, goal: Goal, place: int) -> str | None:
    """By the box at this place on the left."""
    box = goal.left[place - 1]
    system, post = box.kids
    name, (rise, domain) = system.detail[:-1], system.kids
    if name in free(rise) or not is_arithmetic(domain) or any(not is_arithmetic(one) for one in goal.left if one is not box):
        return None
    left = [one for one in goal.left if is_arithmetic(one)]
    denied = [*left, make("not", "", goal.right)]
    for time in times_of(goal, box):
        search.tick()
        if not search.solver.holds(denied, make("ge", "", time, ZERO), 1.0):
            continue
        if domain is not TRUE and not search.solver.holds(denied, domain_along(domain, name, rise, time, variable(name), {}), 1.0):
            continue
        end = make("add", "", variable(name), make("mul", "", rise, time))
        if search.solver.holds([*left, substituted(post, {name: end})], goal.right, 1.0):
            words = seq(at_time(place, time), branch("leaf", seq(f"implyL(-{place})", branch("leaf", "leaf"))))
            if search.kernel.closes(goal, words):
                return words
    return None
