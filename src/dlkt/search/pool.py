"""Formulas that may hold along a system, in the order in which they are tried: what is known first, what is guessed last.

The first tier is what is cheap and mostly enough: the constants' assumptions, the annotations behind the system, and the parts of what is asked
for. The second is what held before the system. The third is guessed: a controller's tests with `T-t` for the longest time T, which gives nearly all
invariants of controllers that are sampled; what the system conserves; Lyapunov functions; signs; and sums of two facts.
"""

from typing import TYPE_CHECKING

from dlkt.formulas import (
    ONE, TRUE, ZERO, added, conjuncts, disjuncts, free, free_of_all, is_arithmetic, make, normal_form, substituted, subtracted, unique, variable,
    variables,
)
from dlkt.search.conserved import bounds_of_conserved, completed
from dlkt.trees import Tree

if TYPE_CHECKING:
    from dlkt.search.systems import System

MOST_SUMMED = 5


def usable(system: "System", formulas: list[Tree]) -> list[Tree]:
    """These as `derive` takes them, each once; what it can't take is left out."""
    found = (system.usable(one) for one in unique(formulas) if one is not TRUE and is_arithmetic(one))
    return unique([one for one in found if one is not None])


def said_first(system: "System") -> list[Tree]:
    """The first tier."""
    notes = [part for note in system.search.notes_for(system.program) if is_arithmetic(note) for part in conjuncts(normal_form(note))]
    post = conjuncts(normal_form(system.post)) if is_arithmetic(system.post) else []
    return system.constants + notes + post


def held_before(system: "System") -> list[Tree]:
    """The second tier: what held before the system of what it changes."""
    return [part for one in system.left if free(one) & system.bound for part in conjuncts(normal_form(one))]


def for_the_rest_of_a_cycle(system: "System") -> list[Tree]:
    """What a test says of a whole cycle, for what is left of it: with T-t for T, where t'=1 and the domain has t<=T."""
    found = []
    for limit in system.domain:
        if limit.word not in ("le", "lt", "ge", "gt"):
            continue
        low, high = limit.kids if limit.word in ("le", "lt") else limit.kids[::-1]
        if low.word != "var" or system.field.get(low.detail) is not ONE or high.word not in ("app", "var") or high.kids:
            continue
        name = high.detail + ("()" if high.word == "app" else "")
        for one in system.left:
            if name in free(one) and free(one) != {name}:
                parts = [part for part in conjuncts(normal_form(one)) if name in free(part) and len(free(part)) > 1]
                found += [substituted(part, {name: subtracted(high, low)}) for part in parts]
    return found


def weaker(facts: list[Tree]) -> list[Tree]:
    """What equations and disjunctions say in part."""
    found = []
    for one in facts:
        if one.word == "eq":
            found += [make("ge", "", *one.kids), make("le", "", *one.kids)]
        if one.word == "or":
            found += disjuncts(one)
    return found


def sums(facts: list[Tree]) -> list[Tree]:
    """Sums of two facts, as x+y>0 of x>0 and y>0."""
    signs = []
    for one in facts:
        if one.word in ("gt", "ge", "lt", "le"):
            signs.append((subtracted(*(one.kids if one.word in ("gt", "ge") else one.kids[::-1])), one.word))
    return [make("gt" if {"gt", "lt"} & {word, other} else "ge", "", added(one, two), ZERO)
            for place, (one, word) in enumerate(signs) for two, other in signs[:place]]


def guessed(system: "System") -> list[Tree]:
    """The third tier."""
    search, facts = system.search, held_before(system)
    post = conjuncts(normal_form(system.post)) if is_arithmetic(system.post) else []
    moving = system.bound | {name for name in variables(search.names(system.goal)) if name not in system.frozen}
    found = for_the_rest_of_a_cycle(system) + facts + weaker(facts)
    found += bounds_of_conserved(system.field, system.left, moving) + completed(system.field, post)
    others = [name for name in variables(free_of_all(system.field.values())) if name not in system.field and not name.endswith("'")]
    for name in [*sorted(others), *system.evolved]:
        found += [make("ge", "", variable(name), ZERO), make("le", "", variable(name), ZERO)]
    return found + (sums(facts) if len(facts) <= MOST_SUMMED else [])


def borders_too(formulas: list[Tree], system: "System") -> list[Tree]:
    """Strict bounds with the border, as x<=S() of x<S()."""
    return [make({"gt": "ge", "lt": "le"}[one.word], "", *one.kids) for one in formulas if one.word in ("gt", "lt") and free(one) & system.bound]


def tiers(system: "System", extra: "tuple[Tree, ...] | list[Tree]" = ()) -> list[list[Tree]]:
    """What is tried: a cheap tier, and one with all."""
    first = said_first(system) + list(extra)
    everything = first + guessed(system)
    return [usable(system, first), usable(system, everything + borders_too(everything, system))]


def pool(system: "System", extra: "tuple[Tree, ...] | list[Tree]" = ()) -> list[Tree]:
    """All that is tried."""
    return tiers(system, extra)[-1]
