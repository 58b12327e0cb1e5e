"""The guard once more in Python, for bench/soundness.py, by the words of docs/SOUNDNESS.md; and the same with one mistake.

It judges a row that comes of DI or DG, a pair for a predicational, and the use of Dforall. With a mistake it lets through what the guard refuses: a
campaign that finds no invalid row among those has no teeth there.
"""

from __future__ import annotations

from enum import Enum

from dlkt.trees import Tree, evolves
from rows import TREES, Instance, pairs_of

COMPARISONS = ("eq", "ne", "ge", "gt", "le", "lt")


class Mistake(Enum):
    """What a wrong guard lets through."""

    CONSTANT = "a constant of differential equations may stay"
    RIGHT_NOT_SMOOTH = "right sides of comparisons need not be smooth"
    RIGHT_NOT_EVOLVED = "variables of right sides need not be evolved"
    VALUE_FOR_SLOPE = "B=0 freezes B"
    SLOPE_IN_INVARIANT = "an x' may stand in what DI proves"
    DIFFERENTIAL_IN_INVARIANT = "an (e)' may stand in what DI proves"
    ANY_DIVISOR = "a divisor may be 0"
    LEAST_ZERO = "d>=0 keeps a divisor off 0"
    ROUGH_DIVISOR = "a divisor need not be smooth"
    OTHER_NUMBER = "d!=1 keeps a divisor off 0"
    DIVISOR_BELOW_OR = "a part of the domain below | keeps a divisor off 0"
    OTHER_DIVISOR = "any part with 0 keeps every divisor off 0"
    NEGATIVE_POWER = "an exponent may be below 0"
    NOT_EVOLVED = "a variable need not be evolved"
    MOVING = "B'=1 freezes B"
    FROZEN_BELOW_OR = "a part of the domain below | freezes B"
    LEAST_SLOPE = "B'>=0 freezes B"
    SLOPE_IN_DOMAIN = "the domain may read an x' of its system"
    SLOPE_IN_RIGHT_SIDE = "a right side may read an x' of its system"
    ROUGH_FACTOR = "the factor of DG need not be smooth"
    ROUGH_SUMMAND = "the summand of DG need not be smooth"
    OFF_ZERO_AT_THE_END = "what DG proves keeps a divisor off 0"
    BELOW_A_DIFFERENTIAL = "_ may stand below a ( )'"
    QUANTIFIED_DIFFERENTIAL = "Dforall may be used"


def parts(formula: Tree, words: tuple[str, ...] = ("and",)) -> list[Tree]:
    """What the outermost `&` of a formula join, or these words."""
    if formula.word not in words:
        return [formula]
    return [part for kid in formula.kids for part in parts(kid, words)]


def variables(tree: Tree) -> set[str]:
    """The variables that are written in a tree."""
    if tree.word == "var":
        return {tree.detail}
    return {name for kid in tree.kids for name in variables(kid)}


def is_number(tree: Tree, detail: str) -> bool:
    """Whether a term is this number."""
    return bool(tree.word == "num" and tree.detail == detail)


def is_constant(term: Tree) -> bool:
    """Whether a term is made of numbers and functions without arguments."""
    if term.word in ("neg", "add", "sub", "mul", "div", "pow"):
        return all(map(is_constant, term.kids))
    return bool(term.word == "num" or (term.word == "app" and not term.kids))


class Twin:
    """The guard, with a mistake or without one."""

    def __init__(self, mistake: Mistake | None = None) -> None:
        self.mistake = mistake

    def lets(self, mistake: Mistake) -> bool:
        """Whether this is its mistake."""
        return self.mistake == mistake

    # Domains

    def keeps_off_zero(self, part: Tree, divisor: Tree) -> bool:
        """Whether a part of the domain keeps a divisor off 0."""
        if part.word not in COMPARISONS:
            return False
        left, right = part.kids
        words = {"ne", "gt", "lt"} | ({"ge"} if self.lets(Mistake.LEAST_ZERO) else set())
        if part.word not in words:
            return False
        if self.lets(Mistake.OTHER_DIVISOR) and any(is_number(side, "0") for side in (left, right)):
            return True
        zeros = ["0", "1"] if self.lets(Mistake.OTHER_NUMBER) and part.word == "ne" else ["0"]
        return any((left is divisor and is_number(right, zero)) or (right is divisor and is_number(left, zero)) for zero in zeros)

    def is_frozen(self, name: str, domain: Tree) -> bool:
        """Whether a part of the domain says that a variable's slope is 0."""
        slope, zero, one = TREES.make("var", f"{name}'"), TREES.make("num", "0"), TREES.make("num", "1")
        wanted = [TREES.make("eq", "", slope, zero)]
        if self.lets(Mistake.MOVING):
            wanted.append(TREES.make("eq", "", slope, one))
        if self.lets(Mistake.LEAST_SLOPE):
            wanted.append(TREES.make("ge", "", slope, zero))
        if self.lets(Mistake.VALUE_FOR_SLOPE):
            wanted.append(TREES.make("eq", "", TREES.make("var", name), zero))
        words = ("and", "or") if self.lets(Mistake.FROZEN_BELOW_OR) else ("and",)
        return any(part in wanted for part in parts(domain, words))

    # Terms

    def is_smooth(self, term: Tree, domain: Tree, in_invariant: bool) -> bool:
        """Whether a term is smooth under a domain."""
        kids = term.kids
        if is_constant(term):
            return True
        if term.word == "var":
            return not term.detail.endswith("'") or (in_invariant and self.lets(Mistake.SLOPE_IN_INVARIANT))
        if term.word == "diff":
            return in_invariant and self.lets(Mistake.DIFFERENTIAL_IN_INVARIANT)
        if term.word in ("neg", "add", "sub", "mul"):
            return all(self.is_smooth(kid, domain, in_invariant) for kid in kids)
        if term.word == "pow":
            is_literal = kids[1].word == "num" and "." not in kids[1].detail
            is_negative = kids[1].word == "neg" and kids[1].kids[0].word == "num"
            return (is_literal or (is_negative and self.lets(Mistake.NEGATIVE_POWER))) and self.is_smooth(kids[0], domain, in_invariant)
        if term.word != "div" or not self.is_smooth(kids[0], domain, in_invariant):
            return False
        return self.is_good_divisor(kids[1], domain, in_invariant)

    def is_good_divisor(self, divisor: Tree, domain: Tree, in_invariant: bool) -> bool:
        """Whether a smooth term over a divisor is smooth."""
        if is_constant(divisor):
            return True
        if not self.lets(Mistake.ROUGH_DIVISOR) and not self.is_smooth(divisor, domain, in_invariant):
            return False
        if self.lets(Mistake.ANY_DIVISOR):
            return True
        words = ("and", "or") if self.lets(Mistake.DIVISOR_BELOW_OR) else ("and",)
        return any(self.keeps_off_zero(part, divisor) for part in parts(domain, words))

    # DI and DG

    def is_smooth_formula(self, formula: Tree, domain: Tree) -> bool:
        """Whether what DI proves is made of comparisons of smooth terms."""
        if formula.word in ("true", "false"):
            return True
        if formula.word in ("and", "or", "not", "imply", "equiv"):
            return all(self.is_smooth_formula(kid, domain) for kid in formula.kids)
        if formula.word not in COMPARISONS:
            return False
        sides = formula.kids[:1] if self.lets(Mistake.RIGHT_NOT_SMOOTH) else formula.kids
        return all(self.is_smooth(side, domain, True) for side in sides)

    def looked_at(self, formula: Tree) -> set[str]:
        """The variables of what DI proves that must be evolved or frozen."""
        if formula.word in COMPARISONS and self.lets(Mistake.RIGHT_NOT_EVOLVED):
            return variables(formula.kids[0])
        if formula.word in COMPARISONS:
            return variables(formula)
        return {name for kid in formula.kids for name in self.looked_at(kid)}

    def of_invariant(self, row: Tree) -> str:
        """Why a row of DI is raw, or an empty text."""
        box, test = row.kids[1].kids
        system, proved, domain = box.kids[0], box.kids[1], test.kids[0].kids[0]
        items = system.detail.split(",")
        evolved = [item[:-1] for item in items if evolves(item)]
        if len(evolved) < len(items) and not self.lets(Mistake.CONSTANT):
            return "di-constant"
        if not self.is_smooth_formula(proved, domain):
            return "di-not-smooth"
        for name in sorted(self.looked_at(proved)):
            bare = name.rstrip("'")
            if bare not in evolved and not self.is_frozen(bare, domain) and not self.lets(Mistake.NOT_EVOLVED):
                return "di-not-evolved"
        slopes = {f"{name}'" for name in evolved}
        rights = TREES.make("system", system.detail, *system.kids[:-1], TREES.make("true"))
        if slopes & reads(rights) and not self.lets(Mistake.SLOPE_IN_RIGHT_SIDE):
            return "di-primed"
        if slopes & free_in(domain) and not self.lets(Mistake.SLOPE_IN_DOMAIN):
            return "di-primed"
        return ""

    def of_ghost(self, row: Tree) -> str:
        """Why a row of DG is raw, or an empty text."""
        left, right = row.kids
        system = right.kids[0].kids[0]
        new = system.kids[len(system.kids) - 2]
        factor, summand = new.kids[0].kids[0], new.kids[1]
        domain = system.kids[-1]
        if self.lets(Mistake.OFF_ZERO_AT_THE_END):
            domain = TREES.make("and", "", domain, left.kids[1])
        for term, mistake in ((factor, Mistake.ROUGH_FACTOR), (summand, Mistake.ROUGH_SUMMAND)):
            if not self.lets(mistake) and not self.is_smooth(term, domain, False):
                return "dg-not-smooth"
        return ""

    def says(self, instance: Instance) -> str:
        """Why an instance isn't guarded, or an empty text."""
        if instance.name == "Dforall" and not self.lets(Mistake.QUANTIFIED_DIFFERENTIAL):
            return "dforall"
        if not self.lets(Mistake.BELOW_A_DIFFERENTIAL) and any(map(has_hole_below_differential, replacements(instance))):
            return "differential-context"
        if instance.name in ("DI", "DG"):
            if not any(line.startswith("subst") for line in instance.lines):
                return "raw-fact"
            return self.of_invariant(instance.conclusion) if instance.name == "DI" else self.of_ghost(instance.conclusion)
        return ""


def reads(tree: Tree) -> set[str]:
    """The variables that a term may read, or terms in a system."""
    found = variables(tree)
    return found | {f"{name}'" for part in below_differentials(tree) for name in variables(part) if not name.endswith("'")}


def below_differentials(tree: Tree) -> list[Tree]:
    """The terms and formulas that stand in a `( )'` of a tree."""
    found = [tree.kids[0]] if tree.word in ("diff", "difff") else []
    return found + [part for kid in tree.kids for part in below_differentials(kid)]


def free_in(formula: Tree) -> set[str]:
    """The variables that are free in a formula: read where no quantifier and no assignment before binds them for sure."""
    return free(formula, frozenset())


def free(tree: Tree, bound: frozenset[str]) -> set[str]:
    """The variables that a formula or a term reads and that aren't bound."""
    if tree.word == "var":
        return {tree.detail} - bound
    if tree.word in ("forall", "exists"):
        return free(tree.kids[0], bound | {tree.detail})
    if tree.word in ("box", "dia"):
        read, sure = of_program(tree.kids[0], bound)
        return read | free(tree.kids[1], sure)
    if tree.word in ("diff", "difff"):
        return (reads(tree) | free(tree.kids[0], bound)) - bound
    return {name for kid in tree.kids for name in free(kid, bound)}


def of_program(program: Tree, bound: frozenset[str]) -> tuple[set[str], frozenset[str]]:
    """The variables that a program reads and that aren't bound, and those that are bound behind it for sure."""
    if program.word == "assign":
        return free(program.kids[0], bound), bound | {program.detail}
    if program.word == "any":
        return set(), bound | {program.detail}
    if program.word == "test":
        return free(program.kids[0], bound), bound
    if program.word == "seq":
        first, sure = of_program(program.kids[0], bound)
        second, last = of_program(program.kids[1], sure)
        return first | second, last
    if program.word == "choice":
        (one, left), (other, right) = (of_program(kid, bound) for kid in program.kids)
        return one | other, left & right
    if program.word == "loop":
        return of_program(program.kids[0], bound)[0], bound
    evolved = {item[:-1] for item in program.detail.split(",") if evolves(item)}
    slopes = frozenset(f"{name}'" for name in evolved)
    inner = {name for kid in program.kids for name in free(kid, bound | slopes)}
    return inner | (evolved - bound), bound | frozenset(evolved) | slopes


def replacements(instance: Instance) -> list[Tree]:
    """What comes in place of predicationals in the lines of an instance."""
    found = []
    for line in instance.lines:
        if line.startswith("subst "):
            found += [tree for symbol, tree in pairs_of(line.split(" ", 2)[2]) if symbol.endswith("{_}")]
    return found


def has_hole_below_differential(tree: Tree) -> bool:
    """Whether a `_` stands below a `( )'` of a formula."""
    return any("hole" in words(part) for part in below_differentials(tree))


def words(tree: Tree) -> set[str]:
    """The words of operators in a tree."""
    return {tree.word}.union(*map(words, tree.kids))
