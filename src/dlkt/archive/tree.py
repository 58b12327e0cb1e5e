"""The trees of archives: an operator, its detail, its kids, its notes (@invariant), and its place in the file.

The words of operators are those of `dlkt.trees.ROWS`, and besides: `arg` (an argument of a definition), `use` (a symbol with a definition),
`dassign` (an assignment to `x'`), `old` (`old(e)` in an annotation).
"""

from typing import Iterable, NamedTuple

from dlkt.reader import COMPARISONS

Place = tuple[int, int]
NOWHERE: Place = (1, 1)
COMPARE = tuple(COMPARISONS.values())
WITH_NAMES = ("var", "arg", "app", "holds", "assign", "dassign", "any", "forall", "exists", "const", "use")


class Refused(Exception):
    """Why an entry isn't read, and where: a line and a column, from 1."""

    def __init__(self, place: Place, reason: str) -> None:
        super().__init__(reason)
        self.place, self.reason = place, reason


class Node(NamedTuple):
    """A tree. Notes stand at loops and systems: formulas."""

    word: str
    detail: str = ""
    kids: tuple["Node", ...] = ()
    notes: tuple["Node", ...] = ()
    place: Place = NOWHERE

    def over(self, kids: Iterable["Node"], notes: Iterable["Node"] | None = None) -> "Node":
        """The same operator over other kids."""
        return self._replace(kids=tuple(kids), notes=self.notes if notes is None else tuple(notes))


def node(word: str, *kids: Node, detail: str = "", at: Place = NOWHERE) -> Node:
    """A tree over these kids."""
    return Node(word, detail, kids, (), at)


def items(tree: Node) -> list[str]:
    """The items of a system."""
    return tree.detail.split(",")


def size(tree: Node) -> int:
    """How many nodes a tree has, with its notes."""
    return 1 + sum(map(size, tree.kids)) + sum(map(size, tree.notes))


def key(tree: Node) -> tuple[object, ...]:
    """A tree without its places, to compare it."""
    return tree.word, tree.detail, tuple(map(key, tree.kids)), tuple(map(key, tree.notes))


def names(tree: Node) -> set[str]:
    """All names that stand anywhere in a tree, without primes."""
    found: set[str] = set()
    if tree.word in WITH_NAMES:
        found.add(tree.detail.rstrip("'"))
    if tree.word == "system":
        found |= {item.rstrip("'") for item in items(tree)}
    if tree.word in ("ufun", "upred"):
        found |= {part for part in tree.detail.split("|") if part}
    for kid in tree.kids + tree.notes:
        found |= names(kid)
    return found


def uses(tree: Node) -> set[str]:
    """The names of the definitions that a tree uses."""
    found = {tree.detail} if tree.word == "use" else set()
    return found.union(*map(uses, tree.kids + tree.notes))


def arguments_in(tree: Node) -> set[str]:
    """The arguments that stand in a definition's body."""
    found = {tree.detail} if tree.word == "arg" else set()
    return found.union(*map(arguments_in, tree.kids + tree.notes))


def knows_all(tree: Node) -> bool:
    """Whether a symbol without a definition stands in a tree that may read or write any variable."""
    if tree.word in ("const", "upred", "ufun") or tree.word == "system" and any(not item.endswith("'") for item in items(tree)):
        return True
    return any(map(knows_all, tree.kids + tree.notes))


def free(tree: Node) -> frozenset[str]:
    """Variables (and arguments) that a tree reads, primes as `x'`. What annotations read counts, too.
    Symbols that read everything are left to `knows_all`."""
    word = tree.word
    if word in ("var", "arg"):
        return frozenset([tree.detail])
    if word in ("forall", "exists"):
        return free(tree.kids[0]) - {tree.detail}
    if word in ("box", "dia", "seq"):
        return free(tree.kids[0]) | free(tree.kids[1]) - must(tree.kids[0])
    found = frozenset[str]().union(*map(free, tree.kids + tree.notes))
    if word == "system":
        found |= {item[:-1] for item in items(tree) if item.endswith("'")}
    if word in ("diff", "difff"):
        found |= {name + "'" for name in found if not name.endswith("'")}
    return found


def bound(tree: Node) -> frozenset[str]:
    """Variables that a program, or a program or quantifier in a formula, may write."""
    word = tree.word
    found = frozenset[str]().union(*map(bound, tree.kids))
    if word in ("assign", "any", "forall", "exists"):
        found |= {tree.detail}
    if word == "dassign":
        found |= {tree.detail + "'"}
    if word == "system":
        found |= written_by(tree)
    return found


def written_by(system: Node) -> frozenset[str]:
    """The variables that a system evolves, and their primes."""
    evolved = {item[:-1] for item in items(system) if item.endswith("'")}
    return frozenset(evolved | {name + "'" for name in evolved})


def must(program: Node) -> frozenset[str]:
    """Variables that each run of a program writes."""
    word = program.word
    if word in ("assign", "any"):
        return frozenset([program.detail])
    if word == "dassign":
        return frozenset([program.detail + "'"])
    if word == "system":
        return written_by(program)
    if word == "choice":
        return must(program.kids[0]) & must(program.kids[1])
    if word == "seq":
        return must(program.kids[0]) | must(program.kids[1])
    return frozenset()
