"""Terms and formulas by floating point: the value of a term, how far a formula is from failing, and whether it holds or fails safely.

Floating point rounds: a test that is strict must hold by a margin, and a formula fails where it does by a margin that goes with the size of what
is added up in it. So what holds or fails here by rounding alone isn't taken for so.
"""

from __future__ import annotations

import math
from functools import lru_cache
from typing import Callable, TypeAlias

from dlkt.semantics.syntax import KEPT, Unsupported, differential, folded
from dlkt.trees import Tree

Floats: TypeAlias = dict[str, float]
STRICT, LOOSE, EQUAL, NOTHING = 1e-7, 1e-12, 1e-8, 1e-9  # margins of `>`, `>=` and `=` that hold, and what is taken for 0
MARGIN = 1e-7  # of what fails


def power(base: float, exponent: float) -> float:
    """A power, and 0 where there is none."""
    if exponent == int(exponent) and (exponent >= 0 or base):
        return float(base ** int(exponent))
    return float(base**exponent) if base > 0 else 0.0


def quotient(top: float, divisor: float) -> float:
    """A quotient: `a/0` is 0."""
    return top / divisor if divisor else 0.0


def source(term: Tree) -> str:
    """The text of a term for Python, over a table `s` of values."""
    if term.word == "var":
        return f"s.get({term.detail!r},0.0)"
    if term.word == "num":
        return repr(float(term.detail))
    if term.word == "app" and not term.kids:
        return f"s[{term.detail + '()'!r}]"
    if term.word == "diff":
        return source(differential(term.kids[0]))
    parts = [source(kid) for kid in term.kids]
    if term.word == "neg":
        return f"(-{parts[0]})"
    if term.word in ("add", "sub", "mul"):
        return f"({parts[0]}{ {'add': '+', 'sub': '-', 'mul': '*'}[term.word] }{parts[1]})"
    if term.word == "div":
        return f"quotient({parts[0]},{parts[1]})"
    if term.word == "pow":
        exponent = folded(term.kids[1])
        if exponent in (2, 3) and term.kids[0].word in ("var", "app"):
            return f"({'*'.join([parts[0]] * int(exponent or 0))})"
        return f"({parts[0]}**{int(exponent or 0)})" if exponent in (2, 3) else f"power({parts[0]},{parts[1]})"
    raise Unsupported(f"{term.word} in a term")


@lru_cache(KEPT)
def compiled(term: Tree) -> Callable[[Floats], float]:
    """A term as a function of a table of values. The text that is run has nothing in it but names of variables, numbers and operators."""
    function: Callable[[Floats], float] = eval(f"lambda s: {source(term)}", {"power": power, "quotient": quotient})
    return function


def value(term: Tree, state: Floats) -> float:
    """The value of a term."""
    return compiled(term)(state)


def distance(formula: Tree, state: Floats) -> float:
    """How far a formula is from failing: at least 0 where it holds, below 0 where it fails."""
    kids, word = formula.kids, formula.word
    if word in ("true", "false"):
        return math.inf if word == "true" else -math.inf
    if word in ("ge", "gt"):
        return value(kids[0], state) - value(kids[1], state)
    if word in ("le", "lt"):
        return value(kids[1], state) - value(kids[0], state)
    if word in ("eq", "ne"):
        left = value(kids[0], state)
        apart = abs(left - value(kids[1], state))
        is_same = apart < NOTHING * (1 + abs(left))
        if word == "eq":
            return 0.0 if is_same else -apart
        return -NOTHING if is_same else apart
    if word == "and":
        return min(distance(kid, state) for kid in kids)
    if word == "or":
        return max(distance(kid, state) for kid in kids)
    if word == "not":
        return -distance(kids[0], state) or -LOOSE
    if word in ("imply", "equiv"):
        left, right = (distance(kid, state) for kid in kids)
        there = max(-left or -LOOSE, right)
        return there if word == "imply" else min(there, max(-right or -LOOSE, left))
    raise Unsupported(f"{word} in a formula")


def holds(formula: Tree, state: Floats) -> bool:
    """Whether a test holds safely: a strict one by a margin."""
    kids, word = formula.kids, formula.word
    if word in ("gt", "lt", "ne"):
        return distance(formula, state) > STRICT * (1 + abs(value(kids[0], state)))
    if word in ("ge", "le"):
        return distance(formula, state) >= -LOOSE
    if word == "eq":
        return distance(formula, state) >= -EQUAL * (1 + abs(value(kids[0], state)))
    if word == "and":
        return all(holds(kid, state) for kid in kids)
    if word == "or":
        return any(holds(kid, state) for kid in kids)
    if word == "imply":
        return fails(kids[0], state) or holds(kids[1], state)
    if word == "not":
        return fails(kids[0], state)
    return distance(formula, state) >= 0


def fails(formula: Tree, state: Floats, margin: float = MARGIN) -> bool:
    """Whether a formula fails safely: by a margin that goes with the size of what is added up."""
    kids, word = formula.kids, formula.word
    if word in ("ge", "gt", "le", "lt", "eq"):
        size = magnitude(kids[0], state) + magnitude(kids[1], state)
        return distance(formula, state) < -margin * (1 + size)
    if word == "and":
        return any(fails(kid, state, margin) for kid in kids)
    if word == "or":
        return all(fails(kid, state, margin) for kid in kids)
    if word == "imply":
        return holds(kids[0], state) and fails(kids[1], state, margin)
    if word == "not":
        return holds(kids[0], state)
    if word == "equiv":
        return any(holds(one, state) and fails(other, state, margin) for one, other in (kids, kids[::-1]))
    return distance(formula, state) < 0


def magnitude(term: Tree, state: Floats) -> float:
    """The size of what is added up in a term."""
    if term.word in ("add", "sub"):
        return magnitude(term.kids[0], state) + magnitude(term.kids[1], state)
    if term.word == "neg":
        return magnitude(term.kids[0], state)
    return abs(value(term, state))
