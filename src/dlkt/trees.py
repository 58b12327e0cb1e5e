"""Trees of formulas, terms and programs: the table of operators, and the canonical text of a tree.

A tree is kept once: `Trees.make` gives the same object for the same operator over the same kids, so that trees are compared by `is`. The words
of operators are those of node lines (docs/FILES.md), the texts those of docs/LANGUAGE.md. Nothing of this is proved.
"""

import re
from typing import Iterator, NamedTuple, Sequence

TERM, FORMULA, PROGRAM = "term", "formula", "program"
MOST_NODES, MOST_DEPTH, MOST_ARGUMENTS, MOST_ITEMS, MOST_DIGITS = 65_536, 1_000, 8, 64, 38

# A name, and the details of operators.
NAME = r"(?!(?:true|false)(?![A-Za-z0-9_]))[A-Za-z][A-Za-z0-9_]*"
NUMBER = r"(?:0|[1-9][0-9]*)(?:\.[0-9]*[1-9])?"
ITEM = rf"{NAME}(?:'|\{{\|{NAME}\|\}})?"
DETAILS = {
    "name": NAME,
    "variable": rf"{NAME}'?",
    "number": NUMBER,
    "dot": "[0-7]",
    "unit": rf"{NAME}(?:\|{NAME}\|)?",
    "items": rf"{ITEM}(?:,{ITEM})*",
}


class Row(NamedTuple):
    """What the table has of an operator: the sort of its trees, the kind of its detail, the sorts of its kids (none where its detail or their
    number tells), its level, the least levels of its first kid and of the others, and what stands before, between and behind its kids, where
    `{}` is the detail."""

    sort: str
    detail: str | None
    kids: tuple[str, ...] | None
    level: int
    first: int = 1
    later: int = 1
    opening: str = ""
    between: str = ","
    closing: str = ""


def infix(sort: str, kids: str, level: int, first: int, later: int, mark: str) -> Row:
    """The row of an operator between its two kids."""
    return Row(sort, None, (kids, kids), level, first, later, between=mark)


ROWS = {
    "var": Row(TERM, "variable", (), 5, opening="{}"),
    "num": Row(TERM, "number", (), 5, opening="{}"),
    "dot": Row(TERM, "dot", (), 5, opening="._{}"),
    "ufun": Row(TERM, "unit", (), 5, opening="{}"),
    "app": Row(TERM, "name", None, 5, opening="{}(", closing=")"),
    "neg": Row(TERM, None, (TERM,), 3, 3, opening="-"),
    "diff": Row(TERM, None, (TERM,), 5, opening="(", closing=")'"),
    "add": infix(TERM, TERM, 1, 1, 2, "+"),
    "sub": infix(TERM, TERM, 1, 1, 2, "-"),
    "mul": infix(TERM, TERM, 2, 2, 3, "*"),
    "div": infix(TERM, TERM, 2, 2, 3, "/"),
    "pow": infix(TERM, TERM, 4, 5, 3, "^"),
    "true": Row(FORMULA, None, (), 6, opening="true"),
    "false": Row(FORMULA, None, (), 6, opening="false"),
    "hole": Row(FORMULA, None, (), 6, opening="_"),
    "upred": Row(FORMULA, "unit", (), 6, opening="{}"),
    "holds": Row(FORMULA, "name", None, 6, opening="{}(", closing=")"),
    "eq": infix(FORMULA, TERM, 6, 1, 1, "="),
    "ne": infix(FORMULA, TERM, 6, 1, 1, "!="),
    "ge": infix(FORMULA, TERM, 6, 1, 1, ">="),
    "gt": infix(FORMULA, TERM, 6, 1, 1, ">"),
    "le": infix(FORMULA, TERM, 6, 1, 1, "<="),
    "lt": infix(FORMULA, TERM, 6, 1, 1, "<"),
    "quant": Row(FORMULA, "name", (FORMULA,), 6, opening="{}{{", closing="}"),
    "not": Row(FORMULA, None, (FORMULA,), 5, 5, opening="!"),
    "difff": Row(FORMULA, None, (FORMULA,), 6, opening="(", closing=")'"),
    "forall": Row(FORMULA, "name", (FORMULA,), 5, 5, opening="\\forall {} "),
    "exists": Row(FORMULA, "name", (FORMULA,), 5, 5, opening="\\exists {} "),
    "and": infix(FORMULA, FORMULA, 4, 5, 4, "&"),
    "or": infix(FORMULA, FORMULA, 3, 4, 3, "|"),
    "imply": infix(FORMULA, FORMULA, 2, 3, 2, " -> "),
    "equiv": infix(FORMULA, FORMULA, 1, 2, 1, " <-> "),
    "box": Row(FORMULA, None, (PROGRAM, FORMULA), 5, 1, 5, "[", "]"),
    "dia": Row(FORMULA, None, (PROGRAM, FORMULA), 5, 1, 5, "<", ">"),
    "const": Row(PROGRAM, "name", (), 3, opening="{};"),
    "assign": Row(PROGRAM, "variable", (TERM,), 3, opening="{}:=", closing=";"),
    "any": Row(PROGRAM, "name", (), 3, opening="{}:=*;"),
    "test": Row(PROGRAM, None, (FORMULA,), 3, opening="?", closing=";"),
    "system": Row(PROGRAM, "items", None, 3, opening="{{", closing="}"),
    "choice": infix(PROGRAM, PROGRAM, 1, 2, 1, "++"),
    "seq": infix(PROGRAM, PROGRAM, 2, 3, 2, ""),
    "loop": Row(PROGRAM, None, (PROGRAM,), 3, opening="{{", closing="}*"),
}
BRACKETS = {TERM: ("(", ")"), FORMULA: ("(", ")"), PROGRAM: ("{", "}")}


class Tree:
    """A tree: the word of its operator, the operator's detail (or an empty text), its kids, its sort, how many nodes it has as a tree, and its
    depth."""

    __slots__ = ("word", "detail", "kids", "sort", "size", "depth", "shown")

    def __init__(self, word: str, detail: str, kids: "tuple[Tree, ...]") -> None:
        self.word, self.detail, self.kids = word, detail, kids
        self.sort = ROWS[word].sort
        self.size: int = 1 + sum(kid.size for kid in kids)
        self.depth: int = 1 + max((kid.depth for kid in kids), default=0)
        self.shown: str | None = None


class Trees:
    """The trees that were made, each of them once."""

    def __init__(self) -> None:
        self.made: dict[tuple[str, str, tuple[int, ...]], Tree] = {}

    def find(self, word: str, detail: str, kids: Sequence[Tree]) -> Tree | None:
        """The tree with this operator over these kids, or none where it wasn't made."""
        return self.made.get((word, detail, tuple(map(id, kids))))

    def make(self, word: str, detail: str = "", *kids: Tree) -> Tree:
        """The tree with this operator over these kids."""
        key = word, detail, tuple(map(id, kids))
        if key not in self.made:
            self.made[key] = Tree(word, detail, kids)
        return self.made[key]


def parts(*trees: Tree) -> Iterator[Tree]:
    """Each tree that is a part of these, once."""
    waiting, seen = list(trees), set[int]()
    while waiting:
        tree = waiting.pop()
        if id(tree) not in seen:
            seen.add(id(tree))
            waiting += tree.kids
            yield tree


# The sorts of kids

def evolves(item: str) -> bool:
    """Whether an item of a system is the equation of a variable."""
    return item.endswith("'")


def kid_sorts(word: str, detail: str, count: int) -> tuple[str, ...] | None:
    """The sorts that the kids of an operator must have, where there are so many; none where there may not be so many."""
    row = ROWS[word]
    if row.kids is not None:
        return row.kids
    if word == "system":
        return (TERM,) * sum(map(evolves, detail.split(","))) + (FORMULA,)
    return (TERM,) * count if count <= MOST_ARGUMENTS else None


def has_parts(word: str, detail: str) -> bool:
    """Whether a detail, which has its form, keeps to the limits: of digits, of items, and of variables that are evolved once."""
    if word == "num":
        integer, _, fraction = detail.partition(".")
        return len(integer.lstrip("0")) + len(fraction) <= MOST_DIGITS and len(fraction) < MOST_DIGITS
    if word == "system":
        items = detail.split(",")
        evolved = [item for item in items if evolves(item)]
        return len(items) <= MOST_ITEMS and len(set(evolved)) == len(evolved)
    return True


def fits(word: str, detail: str, kids: Sequence[Tree]) -> bool:
    """Whether an operator may stand over these kids."""
    return has_parts(word, detail) and kid_sorts(word, detail, len(kids)) == tuple(kid.sort for kid in kids)


def is_small(tree: Tree) -> bool:
    """Whether a tree is within the limits of nodes and of depth."""
    return tree.size <= MOST_NODES and tree.depth <= MOST_DEPTH


# Canonical texts

def unit_text(detail: str) -> str:
    """The text of a unit symbol: `f|y|` is `f(|y|)`, and `f` is `f(||)`."""
    name, bar, taboo = detail.partition("|")
    return f"{name}(|{taboo})" if bar else f"{name}(||)"


def system_text(tree: Tree) -> str:
    """The text of a system between its braces."""
    terms = iter(tree.kids)
    parts = [f"{item}={text(next(terms))}" if evolves(item) else item for item in tree.detail.split(",")]
    domain = tree.kids[-1]
    return ",".join(parts) + ("" if domain.word == "true" else f"&{text(domain)}")


def within(tree: Tree, least: int) -> str:
    """The text of a kid, in brackets where it is below the least level."""
    if ROWS[tree.word].level >= least:
        return text(tree)
    opening, closing = BRACKETS[tree.sort]
    return f"{opening}{text(tree)}{closing}"


def text(tree: Tree) -> str:
    """The canonical text of a tree."""
    if tree.shown is None:
        row = ROWS[tree.word]
        if tree.word == "system":
            inside = system_text(tree)
        else:
            inside = row.between.join(within(kid, row.later if place else row.first) for place, kid in enumerate(tree.kids))
        detail = unit_text(tree.detail) if row.detail == "unit" else tree.detail
        tree.shown = row.opening.format(detail) + inside + row.closing
    return tree.shown


def sequent_text(left: Sequence[Tree], right: Sequence[Tree]) -> str:
    """The canonical text of a sequent."""
    return " ".join(part for part in (", ".join(map(text, left)), "==>", ", ".join(map(text, right))) if part)


def is_formula_too(tree: Tree) -> bool:
    """Whether the text of a term is that of a formula, too: an application, a unit function, or a `( )'` of such a term."""
    while tree.word == "diff":
        tree = tree.kids[0]
    return tree.word in ("app", "ufun")


def pair_text(symbol: str, tree: Tree) -> str:
    """The canonical text of a pair of a substitution."""
    return f"{'term ' if tree.sort == TERM and is_formula_too(tree) else ''}{symbol}~>{text(tree)}"


# Symbols, as the left sides of pairs have them

DOTS = r"\((?:\._0" + "".join(rf"(?:,\._{k}" for k in range(1, MOST_ARGUMENTS)) + ")?" * (MOST_ARGUMENTS - 1) + r")?\)"
SYMBOLS = {
    "application": re.compile(NAME + DOTS),
    "unit": re.compile(rf"{NAME}(?:\(\|\|\)|\(\|{NAME}\|\))"),
    "predicational": re.compile(rf"{NAME}\{{_\}}"),
    "program": re.compile(rf"{NAME};"),
    "ode": re.compile(rf"\{{{NAME}(?:\{{\|{NAME}\|\}})?\}}"),
}
SYMBOL = "|".join(f"(?:{pattern.pattern})" for pattern in SYMBOLS.values())


def may_replace(symbol: str, tree: Tree) -> bool:
    """Whether a tree may stand behind a symbol in a pair."""
    kind = next(kind for kind, pattern in SYMBOLS.items() if pattern.fullmatch(symbol))
    if kind == "ode":
        return tree.word == "system" and tree.kids[-1].word == "true"
    return tree.sort in {"predicational": (FORMULA,), "program": (PROGRAM,)}.get(kind, (TERM, FORMULA))
