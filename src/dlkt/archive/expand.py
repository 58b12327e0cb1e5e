"""Definitions are replaced by their bodies without capture.

A definition is a function of its arguments and of the state in which it stands: free program variables of its body are read there, so a definition
with such variables is an abbreviation. Names that the body binds (by a quantifier, or by a program below a box or a diamond) are renamed where
an argument reads them; a renamed program variable that is read before it is written gets its value first.
"""

from typing import Callable, Iterable

from dlkt.trees import MOST_NODES

from .tree import Node, Place, Refused, arguments_in, bound, free, items, knows_all, names, node, size

MOST_SPENT = 4 * MOST_NODES
RENAMED = ("var", "assign", "dassign", "any", "forall", "exists")
Terms = dict[str, Node]


class Expander:
    """Expands the trees of one entry. `bodies` are the definitions, `arguments` the names of their arguments, and `taken` the names that stand
    anywhere in the entry."""

    def __init__(self, bodies: dict[str, Node], arguments: dict[str, tuple[str, ...]], taken: Iterable[str],
                 hint: Callable[[Place, str], None]) -> None:
        self.bodies, self.arguments, self.hint = bodies, arguments, hint
        self.known = frozenset(taken)
        self.taken = set(self.known)
        self.done, self.spent = dict[str, Node](), 0
        self.renames = list[tuple[Place, str, str]]()

    def fresh(self, name: str) -> str:
        """A name that stands nowhere in the entry."""
        base, count = name.rstrip("0123456789") or name, 1
        while f"{base}{count}" in self.taken:
            count += 1
        self.taken.add(f"{base}{count}")
        return f"{base}{count}"

    def other(self, name: str, place: Place) -> str:
        """A fresh name for one that is renamed at a place."""
        new = self.fresh(name)
        self.renames.append((place, name, new))
        return new

    def body(self, name: str) -> Node:
        """A body without definitions."""
        if name not in self.done:
            self.done[name] = self.expand(self.bodies[name])
        return self.done[name]

    def expand(self, tree: Node, quantified: frozenset[str] = frozenset(), keep: str = "") -> Node:
        """A tree without definitions, or with one of them alone, which is kept."""
        inner = quantified | {tree.detail} if tree.word in ("forall", "exists") else quantified
        kids = tuple(self.expand(kid, inner, keep) for kid in tree.kids)
        notes = tuple(self.expand(note, inner, keep) for note in tree.notes)
        if tree.word != "use" or tree.detail == keep:
            return tree.over(kids, notes)
        body = self.body(tree.detail)
        shared = sorted((free(body) - arguments_in(body)) & quantified)
        if shared:
            self.hint(tree.place, f"{tree.detail} reads {', '.join(shared)}, which a quantifier binds here")
        found = self.put(body, dict(zip(self.arguments[tree.detail], kids)), tree.place)
        self.spent += size(found)
        if self.spent > MOST_SPENT or size(found) > MOST_NODES:
            raise Refused(tree.place, f"the definitions get too large here (more than {MOST_NODES} nodes)")
        return found

    def put(self, tree: Node, given: Terms, place: Place) -> Node:
        """A tree with terms for its arguments."""
        if tree.word == "arg":
            return given.get(tree.detail, tree)
        inside = arguments_in(tree)
        given = {argument: term for argument, term in given.items() if argument in inside}
        if not given:
            return tree
        if tree.word in ("forall", "exists"):
            tree = self.apart_from_quantifier(tree, given, place)
        if tree.word in ("box", "dia"):
            tree = self.apart_from_program(tree, given, place)
        return tree.over([self.put(kid, given, place) for kid in tree.kids], [self.put(note, given, place) for note in tree.notes])

    def apart_from_quantifier(self, tree: Node, given: Terms, place: Place) -> Node:
        """A quantifier over a name that no argument below it reads."""
        if not reads(given, tree.kids[0], tree.detail):
            return tree
        if knows_all(tree.kids[0]):
            raise Refused(place, f"an argument reads {tree.detail}, which the definition binds over a symbol for all variables")
        new = self.other(tree.detail, place)
        return node(tree.word, renamed(tree.kids[0], tree.detail, new), detail=new, at=tree.place)

    def apart_from_program(self, tree: Node, given: Terms, place: Place) -> Node:
        """A modality whose program changes nothing that an argument below it reads."""
        if knows_all(tree.kids[0]) and any(free(term) or knows_all(term) for term in given.values()):
            raise Refused(place, "an argument with variables stands in the definition below a program of which nothing is known")
        for name in sorted({name.rstrip("'") for name in bound(tree.kids[0])}):
            if not reads(given, tree, name):
                continue
            if knows_all(tree):
                raise Refused(place, f"an argument reads {name}, which the definition binds over a symbol for all variables")
            if any(name + "'" in free(term) for term in given.values()) or name + "'" in free(tree):
                raise Refused(place, f"an argument reads {name}, which the definition changes, and {name}' is read: write it out")
            new, was_read = self.other(name, place), name in free(tree)
            program, formula = (renamed(kid, name, new) for kid in tree.kids)
            if was_read:
                program = node("seq", node("assign", node("var", detail=name), detail=new), program, at=tree.place)
            tree = node(tree.word, program, formula, at=tree.place)
        return tree


def reads(given: Terms, tree: Node, name: str) -> bool:
    """Whether one of the terms for arguments in a tree reads a variable."""
    inside = arguments_in(tree)
    return any(argument in inside and ({name, name + "'"} & free(term) or knows_all(term)) for argument, term in given.items())


def renamed(tree: Node, old: str, new: str) -> Node:
    """A tree with another name for a variable everywhere (of which the new name is nowhere)."""
    detail = tree.detail
    if tree.word in RENAMED:
        detail = new if detail == old else f"{new}'" if detail == f"{old}'" else detail
    if tree.word == "system":
        detail = ",".join(f"{new}'" if item == f"{old}'" else item for item in items(tree))
    kids = tuple(renamed(kid, old, new) for kid in tree.kids)
    notes = tuple(renamed(note, old, new) for note in tree.notes)
    return Node(tree.word, detail, kids, notes, tree.place)


def taken_names(declared: Iterable[str], trees: Iterable[Node]) -> set[str]:
    """The names that stand anywhere in an entry."""
    return set(declared).union(*map(names, trees))
