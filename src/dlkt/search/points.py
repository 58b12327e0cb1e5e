"""Points at which questions were false: most further questions are false at one of them, too, and needn't be asked.

Each point gives rational numbers to names, exactly as z3 said them; other names are 0 there. What is computed is exact, so that a question that
is false at a point is false. Testing candidates against known counterexamples first is what Daikon and counterexample-guided synthesis do (Ernst et
al., The Daikon system for dynamic detection of likely invariants, 2007).
"""

from collections.abc import Iterable, Mapping
from fractions import Fraction

from dlkt.trees import Tree

MOST_POINTS = 60
MOST_DIGITS = 400  # bits of a number that is computed with


class Unknown(Exception):
    """What isn't computed here: quantifiers, divisions by 0, symbols, roots, numbers that get too long."""


class Point:
    """Numbers for names, and what was computed with them."""

    def __init__(self, numbers: Mapping[str, Fraction]) -> None:
        self.numbers = numbers
        self.known: dict[Tree, bool | None] = {}

    def holds(self, formula: Tree) -> bool | None:
        """Whether a formula holds here; none where that isn't computed."""
        if formula not in self.known:
            try:
                self.known[formula] = self.truth(formula)
            except Unknown:
                self.known[formula] = None
        return self.known[formula]

    def truth(self, tree: Tree) -> bool:
        """The same, where the kids are computed anew."""
        word, kids = tree.word, tree.kids
        if word in ("true", "false"):
            return word == "true"
        if word == "not":
            return not self.truth(kids[0])
        if word == "and":
            return self.truth(kids[0]) and self.truth(kids[1])
        if word == "or":
            return self.truth(kids[0]) or self.truth(kids[1])
        if word == "imply":
            return not self.truth(kids[0]) or self.truth(kids[1])
        if word == "equiv":
            return self.truth(kids[0]) == self.truth(kids[1])
        if word not in ("eq", "ne", "ge", "gt", "le", "lt"):
            raise Unknown
        one, other = map(self.value, kids)
        return {"eq": one == other, "ne": one != other, "ge": one >= other, "gt": one > other, "le": one <= other, "lt": one < other}[word]

    def value(self, tree: Tree) -> Fraction:
        """The number that a term is here."""
        word, kids = tree.word, tree.kids
        if word == "num":
            return Fraction(tree.detail)
        if word == "var":
            return self.numbers.get(tree.detail, Fraction(0))
        if word == "app" and not kids:
            return self.numbers.get(tree.detail + "()", Fraction(0))
        if word == "neg":
            return -self.value(kids[0])
        if word not in ("add", "sub", "mul", "div", "pow"):
            raise Unknown
        one, other = map(self.value, kids)
        if word == "pow" and (other.denominator != 1 or not 0 < other <= 16) or word == "div" and other == 0:
            raise Unknown
        found = combined(word, one, other)
        if found.numerator.bit_length() + found.denominator.bit_length() > MOST_DIGITS:
            raise Unknown
        return found


def combined(word: str, one: Fraction, other: Fraction) -> Fraction:
    """Two numbers by an operator."""
    if word == "add":
        return one + other
    if word == "sub":
        return one - other
    if word == "mul":
        return one * other
    return one / other if word == "div" else one ** int(other)


def point_of(values: Mapping[str, str]) -> Point | None:
    """The point of what a solver printed; none where a number isn't exact."""
    try:
        return Point({name: Fraction(value) for name, value in values.items()})
    except (ValueError, ZeroDivisionError):
        return None


class Points:
    """The points that are kept, the last one first."""

    def __init__(self) -> None:
        self.points: list[Point] = []

    def add(self, values: Mapping[str, str]) -> None:
        """Keeps a point."""
        point = point_of(values)
        if point is not None:
            self.points = [point, *self.points[: MOST_POINTS - 1]]

    def against(self, left: Iterable[Tree], right: Tree, names: Iterable[str]) -> dict[str, str] | None:
        """Values at which the left formulas hold and the right one doesn't; none where no point is one."""
        facts = list(left)
        for point in self.points:
            if point.holds(right) is False and all(point.holds(one) for one in facts):
                self.points.remove(point)
                self.points.insert(0, point)
                return {name: str(point.numbers.get(name, Fraction(0))) for name in names}
        return None
