"""The texts of what was found about a system: cuts by `dC`, each with its proof, and what comes last.

The texts are those that a person writes: `dI(1)` with its start and its slopes, ghosts by `dG` with the value that they begin with, and the
constants' assumptions in one cut. Where sketch words are wanted (`short`), a ghost, a differential invariant and a Darboux argument are a word
each (`sketches`).
"""

from fractions import Fraction
from typing import TYPE_CHECKING

from dlkt.formulas import ONE, ZERO, conjunction, is_arithmetic, make, text, variable
from dlkt.search.context import Search, fresh
from dlkt.search.darboux import scaled
from dlkt.search.kernel import Goal
from dlkt.search.writing import branch, quoted, remark, seq, times
from dlkt.trees import Tree

if TYPE_CHECKING:
    from dlkt.search.systems import Fact, System


def slopes_text(count: int) -> str:
    """What shows the slopes of a differential invariant in a system of so many equations."""
    equations = "useAt(DE,1)" if count == 1 else f"useAt(DEsys,1)*{count}"
    return f"derive(1.1); {equations}; dW(1); {times('step(1)', count)}; leaf"


def invariant_text(count: int, start: str) -> str:
    """A differential invariant in a system of so many equations, with the proof of its start."""
    return seq("dI(1)", branch(start, slopes_text(count)))


def ghost_text(name: str, factor: str, term: str, start: str, left: int) -> str:
    """Adds the ghost name'=factor*name+term, which begins with `start`; the goal has so many formulas on the left."""
    place = left + 1
    return seq(f'dG({name},"{factor}","{term}",1)', f'useBack(selfassign,1.0,"x_~~{name}")', "useAt(existsdual,1)", "notR(1)",
               f'useAt(allinst,-{place},"f()~>{start}")', f"notL(-{place})", "step(1)", "skolemR(1)", "implyR(1)")


def darboux_text(formula: Tree, term: Tree, factor: Tree, moving: frozenset[str], names: "set[str]", shape: tuple[int, int]) -> str:
    """Shows p~0 by the cofactor of p. `shape` is how many formulas stand on the left, and how many equations there are."""
    left, count = shape
    one, other = fresh("y", names), fresh("z", names)
    product = make("mul", "", make("mul", "", term, variable(one)), variable(one))
    kept = make({"gt": "gt", "lt": "gt", "eq": "eq"}.get(formula.word, "ge"), "", product, ZERO)
    ghost = ghost_text(one, text(scaled(factor, Fraction(-1, 2), moving)), "0", "1", left)
    if kept.word == "gt":
        return seq(ghost, f"dC({quoted(kept)},1)", branch("dW(1); leaf", invariant_text(count + 1, "leaf")))
    second = ghost_text(other, text(scaled(factor, Fraction(1, 2), moving)), "0", "1", left + 1)
    both = make("eq", "", make("mul", "", variable(one), variable(other)), ONE)
    return seq(ghost, second, f"dC({quoted(both)},1)", branch(
        seq(f"dC({quoted(kept)},1)", branch("dW(1); leaf", invariant_text(count + 2, "leaf"))), invariant_text(count + 2, "leaf")))


def proof_of(system: "System", fact: "Fact") -> str:
    """The proof of one fact that changes."""
    count = len(system.evolved)
    if fact.cofactor is None:
        return invariant_text(count, "close" if fact.formula in system.start else "leaf")
    factor, term = fact.cofactor.factor, fact.cofactor.term
    said = f"Darboux: the slope of {text(term)} is {'' if fact.formula.word == 'eq' else 'at least '}{text(factor)} times it"
    shape = len(system.goal.left), count
    return remark(said, darboux_text(fact.formula, term, factor, system.bound, system.search.names(system.goal), shape))


def written(system: "System", needed: "list[Fact]", last: str) -> str:
    """The cuts of these facts, and what comes last."""
    constants = [fact for fact in needed if fact.method == "V"]
    others = [fact for fact in needed if fact.method != "V"]
    if others and others[-1].formula is system.post:
        last = proof_of(system, others.pop())
    out = last
    for fact in reversed(others):
        out = seq(f"dC({quoted(fact.formula)},1)", branch(out, proof_of(system, fact)))
    if constants:
        whole = conjunction(fact.formula for fact in constants)
        literal = all(fact.formula in system.left for fact in constants)
        how = "close" if literal and len(constants) == 1 else "prop" if literal else "leaf"
        out = seq(f"dC({quoted(whole)},1)", branch(out, f"useAt(V,1); {how}"))
    return out


def text_for_arithmetic(system: "System") -> str:
    """The proof where the domain is enough now."""
    needed = system.needed()
    if not needed and system.post in system.domain and len(system.domain) == 1:
        return "dW(1); close"
    parts = system.parts
    return written(system, needed, "dW(1); leaf" if len(parts) == 1 else f"dW(1); {times('andR(1)', len(parts) - 1)}; (close | leaf)")


def text_for_program(search: Search, system: "System") -> str | None:
    """Where a program comes behind the system: all facts are kept, and the proof goes on behind `dW`."""
    facts = list(system.facts)
    constants = [fact.formula for fact in facts if fact.method == "V"]
    others = [fact.formula for fact in facts if fact.method != "V"]
    domain = system.program.kids[-1]
    for one in ([conjunction(constants)] if constants else []) + others:
        domain = make("and", "", domain, one)
    rest = search.prove(Goal((domain,), system.post))
    return rest and written(system, facts, seq("dW(1)", rest))


def text_for(system: "System") -> str | None:
    """The proof of a system along which enough is known."""
    return text_for_arithmetic(system) if is_arithmetic(system.post) else text_for_program(system.search, system)
