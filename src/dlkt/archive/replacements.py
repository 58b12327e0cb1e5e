"""What stands in a model for what stands in the archive: a line each, for the README of an entry."""

from collections import Counter
from typing import Iterator

from .declare import BOOL, DEFINED_BY, HP, VARIABLE, Symbol, several
from .models import Model, needed
from .syntax import Raw
from .tree import Node
from .write import said

LONGEST = 200  # letters of a definition that are shown
BUILT_IN_WORDS = ("abs", "min", "max")


def in_place(tree: Node) -> Node:
    """A tree with variables for arguments, to show it."""
    kids, notes = map(in_place, tree.kids), map(in_place, tree.notes)
    return (tree._replace(word="var") if tree.word == "arg" else tree).over(kids, notes)


def every(tree: Node) -> Iterator[Node]:
    """A tree and all below it, with its notes."""
    yield tree
    for kid in tree.kids + tree.notes:
        yield from every(kid)


def head_of(symbol: Symbol) -> str:
    """A definition as it is used."""
    if symbol.kind == HP:
        return f"{symbol.name};"
    return f"{symbol.name}({', '.join(symbol.dots)})" if symbol.arguments else symbol.name


def shortened(text: str) -> str:
    """A text, or the begin of a long one."""
    return text if len(text) <= LONGEST else f"{text[:LONGEST]} .."


def times(count: int) -> str:
    """How often, in words."""
    return "once" if count == 1 else "twice" if count == 2 else f"{count} times"


def raws_of(model: Model) -> list[Raw]:
    """The parts of the archive that a model is made of: the problem, and the definitions that it needs."""
    assert model.entry.tree is not None
    found = [one for one in model.entry.tree.trees if one.rule == "problem"]
    bodies = (model.table.symbols[name].body for name in sorted(needed(model.checked, model.bodies)))
    return found + [body for body in bodies if body is not None]


def lines_of(model: Model) -> list[str]:
    """What was replaced by what."""
    found = [*of_constants(model), *of_definitions(model)]
    raws = [one for raw in raws_of(model) for one in raw.everywhere()]
    tests = [one for one in raws if one.rule == "if_"]
    if tests:
        places = ", ".join(str(line) for line in sorted({one.place[0] for one in tests}))
        found.append(f"`if` is a choice between its test and `!` of it: {several(len(tests), 'place')}, in line {places}")
    calls = Counter(one.detail for one in every(model.expanded) if one.word == "app" and one.detail in BUILT_IN_WORDS)
    for name, count in sorted(calls.items()):
        found.append(f"`{name}` is written by cases, at the comparison or the assignment in which it stands: {times(count)}")
    if any(one.rule == "imply" and any(word.kind == "BACK" for word in one.words) or one.rule == "back" for one in raws):
        found.append("`p <- q` is `q -> p`")
    for place, old, new in model.expander.renames:
        found.append(f"`{old}`, which a definition binds, is `{new}` where an argument in line {place[0]} reads `{old}`")
    return found


def of_constants(model: Model) -> list[str]:
    """The constants without a value: they have brackets in the model."""
    used = {one.detail for one in every(model.tree) if one.word in ("app", "holds") and not one.kids}
    names = [name for name in sorted(used) if name in model.table.symbols and not model.table.symbols[name].brackets]
    return [f"constants have brackets: {', '.join(f'`{name}` is `{name}()`' for name in names)}"] if names else []


def of_definitions(model: Model) -> list[str]:
    """The definitions that the problem needs, with their bodies."""
    wanted = needed(model.checked, model.bodies)
    trees = [model.checked, *(model.bodies[name] for name in wanted)]
    counts = Counter(one.detail for tree in trees for one in every(tree) if one.word == "use")
    found = []
    for name in sorted(wanted):
        symbol = model.table.symbols[name]
        body = shortened(said(in_place(model.expander.body(name))))
        found.append(f"`{head_of(symbol)}` {DEFINED_BY[symbol.kind]} `{body}`, put in {times(counts[name])}")
    unused = [name for name, symbol in sorted(model.table.symbols.items()) if symbol.body is not None and name not in wanted]
    if unused:
        found.append(f"not used: {', '.join(unused)}")
    return found


def undefined(model: Model) -> list[str]:
    """The functions, predicates and programs of the model of which nothing is known but their names."""
    names = {one.detail for one in every(model.tree) if one.word in ("app", "holds") and one.kids or one.word == "const"}
    kinds = {VARIABLE: "", BOOL: "a predicate", HP: "a program"}
    return [f"{name} ({kinds.get(model.table.symbols[name].kind, 'a function')})" for name in sorted(names) if name in model.table.symbols]
