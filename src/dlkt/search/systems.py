"""A system and the facts that hold along it, collected one after another until the domain is enough.

A fact is cut into the domain by `dC` and proved by the first of these that does:

- V: it reads nothing that the system changes, and holds at first.
- A differential invariant: it holds at first, and where the domain holds, its slopes don't lead out of it.
- Darboux: its slope is a multiple of itself, or more (`darboux`).

Facts are asked for against the domain with the facts before it: differential cuts (Platzer, Differential-algebraic dynamic logic for
differential-algebraic programs, J. Log. Comput. 2010; The structure of differential invariants and differential cut elimination, LMCS 2012).
At the end those that the proof doesn't need are left out.
"""

from collections.abc import Iterable
from typing import NamedTuple

from dlkt.formulas import (
    NotPolynomial, TRUE, ZERO, bound, cleared, conjuncts, differentiable, free, has_division, is_arithmetic, make, slope_formula, text, variable,
    variables,
)
from dlkt.search.context import Search
from dlkt.search.darboux import Cofactor, darboux
from dlkt.search.kernel import Goal
from dlkt.search.steps import field_of
from dlkt.trees import Tree

MOST_ROUNDS = 6
KEPT, SLOPE, DARBOUX = "V", "differential invariant", "Darboux"


class Fact(NamedTuple):
    """A formula that holds along a system, how that is shown, the condition on slopes that must follow from the domain, and for Darboux the
    cofactor; and the variables whose u'=0 must be in the domain."""

    formula: Tree
    method: str
    condition: Tree = TRUE
    cofactor: Cofactor | None = None
    unevolved: tuple[str, ...] = ()


def frozen_fact(name: str) -> Tree:
    """What says of a variable that it doesn't change."""
    return make("eq", "", variable(name + "'"), ZERO)


class System:
    """A goal with a system: what is known, and what holds along it."""

    def __init__(self, search: Search, goal: Goal, frozen: Iterable[str] = ()) -> None:
        self.search, self.solver, self.goal, self.frozen = search, search.solver, goal, tuple(frozen)
        self.program, self.post = goal.right.kids
        self.evolved = [item[:-1] for item in self.program.detail.split(",")]
        self.field = field_of(self.program)
        self.domain = conjuncts(self.program.kids[-1])
        self.left = [one for one in goal.left if is_arithmetic(one)]
        self.bound = bound(self.program)
        self.start = self.left + self.domain
        self.constants = [one for one in self.left if not free(one) & self.bound]
        self.facts: list[Fact] = []
        self.cofactors: dict[Tree, Tree] = {}
        self.refused: dict[Tree, str] = {}
        self.base: list[Fact] = []
        self.parts: list[Tree] = [self.post]

    def known(self) -> list[Tree]:
        """The domain and the facts."""
        return self.domain + [fact.formula for fact in self.facts]

    def unevolved(self, tree: Tree) -> tuple[str, ...]:
        """The variables of a formula that no equation changes."""
        return tuple(name for name in variables(free(tree)) if name not in self.field and not name.endswith("'"))

    def divided(self, formula: Tree) -> Tree | None:
        """A formula without divisions, where the signs are known."""
        given = self.constants + self.domain
        return cleared(formula, lambda term: self.solver.sign(given, term))

    def usable(self, formula: Tree) -> Tree | None:
        """A formula as `derive` takes it; none where there is no such one."""
        if differentiable(formula) or not free(formula) & self.bound:
            return formula
        return self.divided(formula)

    # One fact

    def fact(self, formula: Tree, seconds: float = 1.0) -> Fact | None:
        """A fact of this formula, by the first method that does, or none."""
        if formula is TRUE or formula in self.known():
            return None
        if not free(formula) & self.bound:
            return Fact(formula, KEPT) if formula in self.left or self.solver.holds(self.left, formula, seconds) else None
        loose = self.unevolved(formula)
        if not differentiable(formula) or any(name not in self.frozen for name in loose):
            return None
        if not self.solver.holds(self.start, formula, seconds):
            self.refused.setdefault(formula, "it doesn't hold at first, or isn't known to")
            return None
        domain = self.known()
        if self.solver.holds(domain, formula, seconds):
            return None
        try:
            condition = slope_formula(formula, self.field)
        except NotPolynomial:
            self.refused[formula] = "its slope isn't a polynomial"
            return None
        if self.solver.holds(domain, condition, seconds):
            return Fact(formula, SLOPE, condition, None, loose)
        found = darboux(self, formula, domain, seconds)
        if found is None:
            self.refused[formula] = f"its slopes don't keep it: {text(condition)}, and no Darboux cofactor does"
            return None
        return Fact(formula, DARBOUX, found.condition, found, loose)

    # Collecting

    def enough(self, seconds: float = 1.5) -> bool:
        """Whether the domain is enough now: with all facts, or with those without divisions."""
        if not is_arithmetic(self.post):
            return False
        plain = [fact for fact in self.facts if not has_division(fact.formula)]
        for facts in (self.facts, plain) if len(plain) < len(self.facts) else (self.facts,):
            known = self.domain + [fact.formula for fact in facts]
            parts = conjuncts(self.post)
            if self.solver.holds(known, self.post, seconds):
                self.base, self.parts = list(facts), [self.post]
                return True
            if len(parts) > 1 and all(self.solver.holds(known, part, seconds) for part in parts):
                self.base, self.parts = list(facts), parts
                return True
        return False

    def freeze_facts(self) -> None:
        """Takes the u'=0 of frozen variables as facts."""
        known = self.known()
        self.facts += [Fact(one, KEPT) for one in map(frozen_fact, self.frozen) if one not in known]

    def collect(self, pool: Iterable[Tree], early: bool = False) -> bool:
        """Collects facts until the domain is enough. Whether it is, or, where the post isn't arithmetic, true. Early: asks after each fact."""
        self.freeze_facts()
        if self.enough():
            return True
        todo = list(pool)
        for _ in range(MOST_ROUNDS):
            changed, later = False, []
            for one in todo:
                self.search.tick()
                found = self.fact(one)
                if found is None:
                    later.append(one)
                    continue
                self.facts.append(found)
                if early and found.method != KEPT and self.enough(0.3):
                    return True
                changed = changed or found.method != KEPT or len(self.facts) <= len(self.constants)
            if self.enough():
                return True
            if not changed:
                break
            todo = later
        return self.enough(5.0) if is_arithmetic(self.post) else True

    # What is needed

    def least(self, conclusion: Tree, facts: list[Fact], seconds: float = 2.0) -> list[Fact]:
        """The facts of these that a conclusion needs."""
        needed = list(facts)
        for fact in reversed(facts):
            rest = [one for one in needed if one is not fact]
            if self.solver.holds(self.domain + [one.formula for one in rest], conclusion, seconds):
                needed = rest
        return needed

    def with_needs(self, needed: list[Fact]) -> list[Fact]:
        """With the facts that those need, in their order."""
        wanted = list(needed)
        done: set[int] = set()
        while True:
            todo = [fact for fact in wanted if id(fact) not in done]
            if not todo:
                break
            fact = todo[-1]
            done.add(id(fact))
            if fact.method == KEPT:
                continue
            before = self.facts[: next(place for place, one in enumerate(self.facts) if one is fact)]
            more = self.least(fact.condition, before) if fact.condition is not TRUE else []
            primes = [frozen_fact(name) for name in fact.unevolved]
            more += [one for one in self.facts if one.formula in primes]
            wanted += [one for one in more if not any(one is other for other in wanted)]
        return [fact for fact in self.facts if any(fact is one for one in wanted)]

    def needed(self) -> list[Fact]:
        """The facts that the post needs, with those that they need."""
        direct = next((fact for fact in self.facts if fact.formula is self.post), None)
        if direct is not None:
            return self.with_needs([direct])
        facts = self.base or self.facts
        wanted = {id(fact) for part in self.parts for fact in self.least(part, facts)}
        return self.with_needs([fact for fact in self.facts if id(fact) in wanted])

    def why_not(self) -> str:
        """Why the domain isn't enough."""
        if not is_arithmetic(self.post):
            return "what comes behind isn't shown"
        lacking = [part for part in conjuncts(self.post) if not self.solver.holds(self.known(), part, 1.0)]
        return "; ".join(f"{text(part)} isn't shown ({self.refused.get(part, 'no fact found')})" for part in lacking) or f"{text(self.post)} isn't shown"
