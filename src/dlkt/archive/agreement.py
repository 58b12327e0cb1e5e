"""Whether `dlk subst` puts the same in for a definition as the expansion here: for each definition, in the problem and in each body that uses it.

Where the substitution isn't admissible (a definition would capture a variable, or is an abbreviation with variables behind a program), `dlk` takes
none, and the definition isn't compared there.
"""

import tempfile
from pathlib import Path
from typing import Container, NamedTuple

from dlkt.program import answer
from dlkt.reader import Wrong, expression
from dlkt.trees import Tree, pair_text, text

from .declare import HP, REAL, Symbol
from .expand import Expander
from .models import Model, needed
from .tree import NOWHERE, Node, node, uses
from .write import TREES, dlk_tree

QUANTIFIERS, WITH_VARIABLE = ("forall", "exists"), ("var", "assign", "any")
Shape = tuple[object, ...]


class Compared(NamedTuple):
    """A definition and where it was put in; whether both are the same, or none where `dlk` takes no substitution; and what `dlk` said."""

    name: str
    where: str
    same: bool | None
    said: str


class Standard:
    """Trees with numbers for quantified names and for names that aren't known, by the order in which they are met, to compare trees up to these."""

    def __init__(self, known: Container[str]) -> None:
        self.known, self.count, self.others = known, 0, dict[str, str]()

    def name(self, name: str, bound: dict[str, str]) -> str:
        """The standard name of a variable, which may have a prime."""
        bare = name.rstrip("'")
        if bare in bound:
            return bound[bare] + name[len(bare) :]
        if bare in self.known:
            return name
        return self.others.setdefault(bare, f"#other{len(self.others)}") + name[len(bare) :]

    def tree(self, tree: Tree, bound: dict[str, str]) -> Shape:
        """The standard form of a tree below quantifiers."""
        detail = tree.detail
        if tree.word in QUANTIFIERS:
            self.count += 1
            detail, bound = f"#{self.count}", {**bound, tree.detail: f"#{self.count}"}
        elif tree.word in WITH_VARIABLE:
            detail = self.name(detail, bound)
        elif tree.word == "system":
            detail = ",".join(self.name(item, bound) for item in detail.split(","))
        return tree.word, detail, *(self.tree(kid, bound) for kid in tree.kids)


def are_same(one: Tree, other: Tree, known: Container[str]) -> bool:
    """Whether two trees are the same up to the names of quantified variables and of those that aren't known."""
    return Standard(known).tree(one, {}) == Standard(known).tree(other, {})


class Comparer:
    """Compares the definitions of one model."""

    def __init__(self, model: Model, program: str, folder: Path) -> None:
        self.program, self.folder, self.symbols = program, folder, model.table.symbols
        old = model.expander
        self.known = old.known
        self.expander = Expander(old.bodies, old.arguments, old.taken, lambda place, text: None)

    def symbolic(self, tree: Node, arguments: dict[str, Node]) -> Node:
        """A tree of dlk: symbols for the definitions, and these for the arguments."""
        if tree.word == "arg":
            return arguments[tree.detail]
        kids = [self.symbolic(kid, arguments) for kid in tree.kids]
        if tree.word == "use":
            kind = self.symbols[tree.detail].kind
            return node("const" if kind == HP else "app" if kind == REAL else "holds", *kids, detail=tree.detail)
        return tree.over(kids, ())

    def pair(self, symbol: Symbol) -> str:
        """The pair of a definition."""
        dots = {name: node("dot", detail=str(place)) for place, name in enumerate(symbol.dots)}
        body = dlk_tree(self.symbolic(self.expander.body(symbol.name), dots))
        brackets = ";" if symbol.kind == HP else f"({','.join(f'._{place}' for place in range(symbol.arity))})"
        return pair_text(f"{symbol.name}{brackets}", body)

    def compared(self, name: str, where: str, host: Node) -> Compared:
        """A definition in one tree that uses it."""
        own = self.symbols[where].dots if where else ()
        prefix = "argument"
        while any(one.startswith(prefix) for one in self.expander.taken):
            prefix += "_"
        host = self.expander.put(host, {argument: node("app", detail=f"{prefix}{place}") for place, argument in enumerate(own)}, NOWHERE)
        if where and self.symbols[where].kind == REAL:
            host = node("eq", host, node("num", detail="0"))
        kept = self.symbolic(self.expander.expand(host, keep=name), {})
        mine = dlk_tree(self.symbolic(self.expander.expand(host), {}))
        given, pairs = self.folder / "given", self.folder / "pairs"
        given.write_text(text(dlk_tree(kept)) + "\n")
        pairs.write_text(self.pair(self.symbols[name]) + "\n")
        said = answer(self.program, "subst", given, pairs)
        if said.status != 0:
            return Compared(name, where, None, said.text.strip().split("\n")[0])
        try:
            theirs = expression(said.text.strip(), TREES)
        except Wrong:
            return Compared(name, where, False, said.text.strip())
        return Compared(name, where, are_same(theirs, mine, self.known), said.text.strip())


def compared(model: Model, program: str) -> list[Compared]:
    """Each definition that the problem needs, in each place that uses it."""
    hosts = {"": model.checked} | {name: model.bodies[name] for name in sorted(needed(model.checked, model.bodies))}
    with tempfile.TemporaryDirectory() as folder:
        comparer = Comparer(model, program, Path(folder))
        return [comparer.compared(name, where, host) for where, host in hosts.items() for name in sorted(uses(host))]
