"""Trees as the semantics needs them: written differentials, closed numbers, and the variables that stand in a tree.

The differential of a term is the sum of its derivatives by each variable x, times x'; that of a formula is as docs/SOUNDNESS.md has it. Names of
variables are the texts of trees: `x`, and `x'` for its slope.
"""

from __future__ import annotations

from fractions import Fraction
from functools import lru_cache

from dlkt.trees import Tree, Trees

TREES = Trees()
KEPT = 1 << 16
MOST_EXPONENT = 16


class Unsupported(Exception):
    """What isn't in the part of the logic that this semantics has."""


def make(word: str, detail: str = "", *kids: Tree) -> Tree:
    """A tree."""
    tree: Tree = TREES.make(word, detail, *kids)
    return tree


def forget() -> None:
    """Lets go all trees that were made here, for long runs."""
    TREES.made.clear()
    differential.cache_clear()
    formula_differential.cache_clear()
    reads.cache_clear()
    mentioned.cache_clear()


def numeral(value: Fraction | int) -> Tree:
    """The tree of a number."""
    value = Fraction(value)
    tree = make("num", str(abs(value.numerator)))
    if value.denominator != 1:
        tree = make("div", "", tree, make("num", str(value.denominator)))
    return make("neg", "", tree) if value < 0 else tree


def slope(name: str) -> str:
    """The name of a variable's slope."""
    return f"{name}'"


def is_slope(name: str) -> bool:
    """Whether a name is that of a slope."""
    return name.endswith("'")


ZERO, ONE, TWO = numeral(0), numeral(1), numeral(2)


@lru_cache(KEPT)
def differential(term: Tree) -> Tree:
    """The written differential of a term."""
    kids = term.kids
    if term.word == "var":
        return ZERO if is_slope(term.detail) else make("var", slope(term.detail))
    if term.word == "num" or (term.word == "app" and not kids):
        return ZERO
    if term.word == "diff":
        return differential(differential(kids[0]))
    if term.word in ("neg", "add", "sub"):
        return make(term.word, "", *map(differential, kids))
    if term.word in ("mul", "div"):
        first, second = make("mul", "", differential(kids[0]), kids[1]), make("mul", "", kids[0], differential(kids[1]))
        if term.word == "mul":
            return make("add", "", first, second)
        return make("div", "", make("sub", "", first, second), make("pow", "", kids[1], TWO))
    if term.word == "pow" and not reads(kids[1]):
        if folded(kids[1]) == 0:
            return ZERO
        lower = make("pow", "", kids[0], make("sub", "", kids[1], ONE))
        return make("mul", "", make("mul", "", kids[1], lower), differential(kids[0]))
    raise Unsupported(f"the differential of {term.word}")


@lru_cache(KEPT)
def formula_differential(formula: Tree) -> Tree:
    """The differential of a formula: of comparisons, `&` and `|` by the slopes, true of `true` and `false`, false of all else."""
    word = {"eq": "eq", "ne": "eq", "ge": "ge", "gt": "ge", "le": "le", "lt": "le"}.get(formula.word)
    if word:
        return make(word, "", *(make("diff", "", kid) for kid in formula.kids))
    if formula.word in ("and", "or"):
        return make("and", "", *map(formula_differential, formula.kids))
    if formula.word in ("true", "false"):
        return make("true")
    if formula.word in ("holds", "upred", "quant", "hole"):
        raise Unsupported(f"the differential of {formula.word}")
    return make("false")


@lru_cache(KEPT)
def reads(term: Tree) -> frozenset[str]:
    """The variables that a term reads, those of its differentials among them."""
    if term.word == "var":
        return frozenset([term.detail])
    if term.word == "diff":
        return reads(differential(term.kids[0]))
    return union([reads(kid) for kid in term.kids])


def union(sets: list[frozenset[str]]) -> frozenset[str]:
    """What is in one of these sets."""
    return frozenset().union(*sets)


@lru_cache(KEPT)
def mentioned(tree: Tree) -> frozenset[str]:
    """The variables that stand in a tree, free or bound, with the slopes that its differentials may read."""
    if tree.word == "var":
        return frozenset([tree.detail])
    found = union([mentioned(kid) for kid in tree.kids])
    if tree.word in ("diff", "difff"):
        found |= {slope(name) for name in found if not is_slope(name)}
    if tree.word in ("assign", "any", "forall", "exists"):
        found |= {tree.detail}
    if tree.word == "system":
        found |= {name for item in equations(tree) for name in (item, slope(item))}
    return found


def equations(system: Tree) -> dict[str, Tree]:
    """The right side of each variable that a system evolves."""
    items = system.detail.split(",")
    if not all(map(is_slope, items)):
        raise Unsupported("a constant of differential equations")
    return dict(zip((item[:-1] for item in items), system.kids))


def folded(term: Tree) -> Fraction | None:
    """The value of a term without variables and symbols; none of another."""
    if term.word == "num":
        return Fraction(term.detail)
    if term.word not in ("neg", "add", "sub", "mul", "div", "pow"):
        return None
    values = [folded(kid) for kid in term.kids]
    known = [value for value in values if value is not None]
    return combined(term.word, known) if len(known) == len(values) else None


def combined(word: str, values: list[Fraction]) -> Fraction | None:
    """What an operator makes of numbers: `a/0` is 0. None where it is a power that is no fraction, or too large."""
    first, last = values[0], values[-1]
    if word == "neg":
        return -first
    if word == "add":
        return first + last
    if word == "sub":
        return first - last
    if word == "mul":
        return first * last
    if word == "div":
        return first / last if last else Fraction(0)
    if last.denominator != 1 or abs(last) > MOST_EXPONENT:
        return None
    return Fraction(0) if last < 0 and first == 0 else first ** int(last)


def exponent(power: Tree) -> int:
    """The exponent of a power, where it is a whole number."""
    value = folded(power.kids[1])
    if value is None or value.denominator != 1:
        raise Unsupported("a power")
    return int(value)


# Terms that are linear in a variable

def linear(term: Tree, name: str) -> tuple[Fraction, Tree] | None:
    """The number c and the tree r with which the term is c*name+r; none where it isn't written so."""
    if name not in reads(term):
        return Fraction(0), term
    kids = term.kids
    if term.word == "var":
        return Fraction(1), ZERO
    if term.word == "diff":
        return linear(differential(kids[0]), name)
    parts = [linear(kid, name) for kid in kids]
    if term.word == "neg" and parts[0]:
        return -parts[0][0], make("neg", "", parts[0][1])
    if term.word in ("add", "sub") and parts[0] and parts[1]:
        sign = 1 if term.word == "add" else -1
        return parts[0][0] + sign * parts[1][0], make(term.word, "", parts[0][1], parts[1][1])
    if term.word == "mul":
        for factor, part in ((kids[0], parts[1]), (kids[1], parts[0])):
            value = folded(factor)
            if value is not None and part:
                return value * part[0], make("mul", "", factor, part[1])
    return None


def affine(term: Tree, name: str) -> tuple[Tree, Tree] | None:
    """The trees a and b, which don't read the name, with which the term is a*name+b; none where it isn't written so."""
    if name not in reads(term):
        return ZERO, term
    kids = term.kids
    if term.word == "var":
        return ONE, ZERO
    if term.word in ("neg", "add", "sub"):
        parts = [affine(kid, name) for kid in kids]
        known = [part for part in parts if part]
        if len(known) != len(parts):
            return None
        first, second = (make(term.word, "", *(part[place] for part in known)) for place in (0, 1))
        return first, second
    if term.word == "mul":
        for factor, other in ((kids[0], kids[1]), (kids[1], kids[0])):
            part = None if name in reads(factor) else affine(other, name)
            if part:
                return make("mul", "", factor, part[0]), make("mul", "", factor, part[1])
    return None


def is_numeral(term: Tree, detail: str) -> bool:
    """Whether a term is this number."""
    return bool(term.word == "num" and term.detail == detail)


def shorter(term: Tree) -> Tree:
    """A term without the sums with 0 and the products with 0 and 1."""
    if term.word not in ("add", "sub", "mul", "neg"):
        return term
    kids = [shorter(kid) for kid in term.kids]
    first, last = kids[0], kids[-1]
    is_zero, is_one = ([is_numeral(kid, detail) for kid in kids] for detail in ("0", "1"))
    if term.word == "mul" and (any(is_zero) or any(is_one)):
        return ZERO if any(is_zero) else last if is_one[0] else first
    if term.word == "add" and any(is_zero):
        return last if is_zero[0] else first
    if term.word == "sub" and is_zero[1]:
        return first
    return ZERO if term.word == "neg" and is_zero[0] else make(term.word, "", *kids)
