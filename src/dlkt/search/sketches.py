"""Sketches: strategies by hand with words that the tool turns into plain ones.

    auto                             finds a strategy for the goal
    auto("R","S")                    the same, with these formulas to cut in
    dIc(1)                           a differential invariant, with the proofs of its start and of its slopes
    dbx("g",1)                       Darboux: the right side's p~0 by the cofactor g of p'=g*p+r
    ghost(y,"a","b","start",1)       a new variable with y'=a*y+b, which begins with `start`
    solve(1)                         by the solution
    freeze(u,1)                      u'=0 in the domain, for a variable u that no equation changes; several names may stand there
    lemma("FOLDER","W()~>w")         the proof in a folder, instantiated, as a lemma

The words of a sketch are turned from front to end: the strategy is run up to a word, with a cut of a formula of its own in its place, and the
goals in which that formula stands are those on which the word works. Where they want different strategies, a branch is written, which is only
possible where the word runs once; in brackets it runs once for each goal.
"""

from pathlib import Path
from typing import NamedTuple

from dlkt import strategies
from dlkt.failing import new_name
from dlkt.formulas import NotPolynomial, conjunction, formula, is_arithmetic, polynomial, text
from dlkt.program import Refused, position
from dlkt.reader import Wrong
from dlkt.search.context import Search
from dlkt.search.cuts import darboux_text, ghost_text, invariant_text
from dlkt.search.darboux import left_of_zero
from dlkt.search.freezing import freezing
from dlkt.search.kernel import Failed, Goal, Several
from dlkt.search.lemmas import Lemma, lemma_of, lemma_text
from dlkt.search.solutions import solve
from dlkt.search.systems import System, frozen_fact
from dlkt.search.writing import branch, quoted, seq
from dlkt.strategies import Atom, Branch, Choice, Repeat, Sequence
from dlkt.trees import Tree

Node = Atom | Branch | Choice | Repeat | Sequence


class Word(NamedTuple):
    """A word of sketches: the kinds of its arguments, the last of which may be repeated where `repeats` names its kind."""

    kinds: tuple[str, ...]
    repeats: str = ""


WORDS = {
    "auto": Word((), "text"),
    "dIc": Word(("place",)),
    "dbx": Word(("text", "place")),
    "ghost": Word(("name", "text", "text", "text", "place")),
    "solve": Word(("place",)),
    "freeze": Word(("name", "place"), "name"),
    "lemma": Word(("text",), "text"),
}


class Unable(Exception):
    """A word can't be turned into plain ones here, and why."""


class Turning(NamedTuple):
    """What words are turned for: the search, the goal of the whole sketch, the folder where names of folders begin, and the lemmas that were used."""

    search: Search
    goal: Goal
    folder: Path
    lemmas: list[Lemma]


class Expanded(NamedTuple):
    """The plain strategy, and the lemmas whose proofs are to be linked where it leaves their goals."""

    strategy: str
    lemmas: list[Lemma]


def sketch_atoms(tree: Node) -> list[Atom]:
    """The words of a strategy that are those of sketches, in the order of the text."""
    return [atom for atom in strategies.atoms(tree) if atom.name in WORDS]


def is_sketch(source: str) -> bool:
    """Whether a strategy has a word of sketches. What is no strategy is none."""
    try:
        return bool(sketch_atoms(strategies.read(source)))
    except strategies.Wrong:
        return False


def arguments_fit(atom: Atom) -> bool:
    """Whether a word has the arguments that it wants."""
    kinds = [argument.kind for argument in atom.arguments]
    word = WORDS[atom.name]
    if not word.repeats:
        return tuple(kinds) == word.kinds
    last = word.kinds[-1:] if word.kinds and word.kinds[-1] == "place" else ()
    body = kinds[: len(kinds) - len(last)] if last else kinds
    needed = len(word.kinds) - len(last)
    return tuple(kinds[len(body):]) == last and len(body) >= needed and all(kind == word.repeats for kind in body)


def expand(search: Search, goal: Goal, sketch: str, folder: Path) -> Expanded | None:
    """A sketch for a goal as a plain strategy; none where a word `auto` finds nothing, which the search has said. `folder` is where names of
    folders begin. Refused in one line where the sketch can't be read, or a word can't be turned."""
    turning = Turning(search, goal, folder, [])
    while True:
        try:
            tree = strategies.read(sketch)
        except strategies.Wrong as wrong:
            raise Refused(f"{place_of(sketch, wrong.byte)}: the sketch can't be read here") from wrong
        atoms = sketch_atoms(tree)
        if not atoms:
            return Expanded(sketch, turning.lemmas)
        atom = atoms[0]
        try:
            new = turned(turning, sketch, tree, atom)
        except (Unable, Failed) as why:
            raise Refused(f"{place_of(sketch, atom.begin)}: {atom.name}: {why}") from why
        if new is None:
            return None
        sketch = sketch[: atom.begin] + placed(sketch, atom.begin, new) + sketch[atom.end:]


def place_of(source: str, byte: int) -> str:
    """A place as people count."""
    found = position(source, byte)
    return f"{found.line}:{found.column}"


def placed(sketch: str, byte: int, new: str) -> str:
    """A text that is put at a place, with its further lines indented as the line there."""
    line = sketch[sketch.rfind("\n", 0, byte) + 1: byte]
    depth = len(line) - len(line.lstrip())
    first, *more = new.split("\n")
    return "\n".join([first, *(" " * depth + one for one in more)])


def turned(turning: Turning, sketch: str, tree: Node, atom: Atom) -> str | None:
    """The plain text of a word, for all goals on which it works."""
    if not arguments_fit(atom):
        raise Unable("the word takes other arguments")
    way = strategies.way_to(tree, atom.begin)
    assert way is not None
    if any(isinstance(node, Repeat) for node in way):
        raise Unable("a word of sketches can't stand in a repeat")
    name = new_name(sketch, text(turning.goal.formula()))
    goals = marked(turning.search.kernel.apply(turning.goal, up_to(sketch, way, f'cut("{name}()")')), name)
    if not goals:
        return "nil"
    found = []
    for one in goals:
        part = plain_text(turning, one, atom)
        if part is None:
            return None
        found.append(part)
    is_alone = len(goals) == 1 and all(not isinstance(node, Choice) for node in way) and is_direct(way)
    if len(set(found)) == 1:
        return found[0] if is_alone or "<(" not in found[0] and "|" not in found[0] else f"({found[0]})"
    if not runs_once(way):
        raise Unable("several goals come here that want different strategies: write a branch with a word for each")
    return branch(*found)


def runs_once(way: list[Node]) -> bool:
    """Whether what stands at the end of a way runs once, for all goals that are left there: a branch may take its place then."""
    for node, kid in zip(way, way[1:]):
        if isinstance(node, Sequence) and not isinstance(kid, (Atom, Branch)) and node.parts[0] is not kid:
            return False
    return len(way) > 1 and isinstance(way[-2], Sequence) and way[-2].parts[0] is not way[-1]


def is_direct(way: list[Node]) -> bool:
    """Whether the end of a way needs no brackets, where one goal comes to it: it is a part of a branch, or of a sequence that runs once."""
    return len(way) == 1 or isinstance(way[-2], Branch) or runs_once(way) or isinstance(way[-2], Sequence) and way[-2].parts[0] is way[-1]


def up_to(sketch: str, way: list[Node], mark: str) -> str:
    """The strategy up to the last part of the way, with a mark in its place."""
    here, below = way[0], way[1:]
    if not below:
        return mark
    assert isinstance(here, (Branch, Choice, Sequence))
    at = next(number for number, part in enumerate(here.parts) if part is below[0])
    before = [sketch[part.begin: part.end] for part in here.parts[:at]]
    inside = up_to(sketch, below, mark)
    if isinstance(here, Branch):
        return "<(" + ", ".join([*before, inside, *["nil"] * (len(here.parts) - at - 1)]) + ")"
    if isinstance(here, Choice):
        return "(" + " | ".join([*before, inside]) + ")"
    whole = "; ".join([*before, inside])
    return whole if isinstance(below[0], Branch) else f"({whole})"


def marked(goals: list[Goal | Several], name: str) -> list[Goal]:
    """The goals that have the mark, without it."""
    found = []
    for goal in goals:
        if goal.left and text(goal.left[-1]) == f"{name}()":
            if isinstance(goal, Several):
                raise Unable("the goal has several formulas on the right: hide the others first")
            found.append(Goal(goal.left[:-1], goal.right))
    return found


# The words

def plain_text(turning: Turning, goal: Goal, atom: Atom) -> str | None:
    """The plain text of a word on one goal."""
    search = turning.search
    texts = [argument.text for argument in atom.arguments]
    if atom.arguments and atom.arguments[-1].kind == "place" and texts[-1] != "1":
        raise Unable("the word works at place 1 alone")
    try:
        if atom.name == "auto":
            return automatic(search, goal, [formula(one) for one in texts])
        if atom.name == "lemma":
            lemma = lemma_of(search, turning.folder / texts[0], texts[1:])
            turning.lemmas.append(lemma)
            return lemma_text(search, goal, lemma)
        if goal.right.word != "box" or goal.right.kids[0].word != "system":
            raise Unable(f"the right side is no box with a system: {text(goal.right)}")
        return on_system(search, goal, atom.name, texts[:-1])
    except Wrong as wrong:
        raise Unable(f"a text in quotes can't be read at byte {wrong.byte} of it") from wrong


def automatic(search: Search, goal: Goal, hints: list[Tree]) -> str | None:
    """What the search finds for a goal, with these formulas to cut in."""
    search.hints, search.known = hints, {}
    try:
        found = search.prove(goal)
    finally:
        search.hints = []
    return found or search.give_up(goal)


def term(source: str) -> Tree:
    """The term of a text."""
    return formula(f"{source}=0").kids[0]


def on_system(search: Search, goal: Goal, word: str, texts: list[str]) -> str | None:
    """The plain text of a word on a box with a system."""
    system = System(search, goal)
    count, left = len(system.evolved), len(goal.left)
    if word == "ghost":
        name, factor, rest, start = texts
        if name in search.names(goal):
            raise Unable(f"the name {name} stands in the goal already")
        return ghost_text(name, text(term(factor)), text(term(rest)), text(term(start)), left)
    if word == "solve":
        found = solve(search, goal)
        if found is None:
            raise Unable("the solution isn't a polynomial of the time, or doesn't show what is asked for")
        return found
    if word == "freeze":
        return frozen_text(goal, texts, system)
    if not is_arithmetic(system.post):
        raise Unable(f"what is asked for isn't arithmetic: {text(system.post)}")
    if word == "dIc":
        return invariant_text(count, "close" if system.post in system.start else "leaf")
    return by_cofactor(search, system, term(texts[0]))


def by_cofactor(search: Search, system: System, factor: Tree) -> str:
    """The right side's p~0 by a cofactor."""
    if system.post.word not in ("eq", "ge", "gt", "le", "lt"):
        raise Unable(f"what is asked for is no comparison: {text(system.post)}")
    try:
        polynomial(factor)
    except NotPolynomial as why:
        raise Unable("the cofactor is no polynomial") from why
    shape = len(system.goal.left), len(system.evolved)
    return darboux_text(system.post, left_of_zero(system.post), factor, system.bound, search.names(system.goal), shape)


def frozen_text(goal: Goal, names: list[str], system: System) -> str:
    """The words that put u'=0 into the domain for these variables, and leave one goal."""
    for name in names:
        if name in system.field:
            raise Unable(f"an equation changes {name}")
        if frozen_fact(name) in (*system.domain, *goal.left):
            raise Unable(f"{name} is frozen already")
    facts = conjunction(map(frozen_fact, names))
    kept = seq(f"dC({quoted(facts)},1)", branch("nil", "useAt(V,1); " + ("close" if len(names) == 1 else "prop")))
    return freezing(goal, names, kept)
