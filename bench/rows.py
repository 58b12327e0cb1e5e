"""Rows for bench/soundness.py: symbols of formulas, substitution and renaming without a look at what is captured, and the program's word on them.

A substitution is made here by plain replacement, and again by the program, which refuses what isn't admissible: a term in which many instances are
merged at once is accepted where the program's own instances are, letter by letter, those that are made here.
"""

from __future__ import annotations

import functools
import re
import subprocess
from pathlib import Path
from typing import NamedTuple, Sequence

from common import PROGRAM
from dlkt import reader
from dlkt.trees import Tree, Trees, evolves, fits, text

TREES = Trees()
Symbol = tuple[str, str, int, str]
UNIT = {"ufun": "unit function", "upred": "unit predicate"}
APPLIED = {"app": "application", "holds": "predicate"}
REFUSED_LINE = re.compile(r"refused: .*?\bline (\d+)")


class Row(NamedTuple):
    """A row of a proof: its conclusion and its goals, as texts of sequents, and how many leaves."""

    conclusion: str
    goals: tuple[str, ...]
    leaves: tuple[str, ...]


class Instance(NamedTuple):
    """An instance of an axiom or a rule: its name, the lines of its term, its conclusion, and its goals, as trees."""

    name: str
    lines: tuple[str, ...]
    conclusion: Tree
    goals: tuple[Tree, ...]


# The program

class Program:
    """The program, with a folder for its files."""

    def __init__(self, folder: Path, program: str | None = None) -> None:
        self.program, self.folder, self.calls = program or str(PROGRAM), folder, 0
        self.model, self.out = folder / "model", folder / "out"

    def answer(self, words: Sequence[str], given: str) -> tuple[int, str]:
        """The status and what is printed, with a term as standard input."""
        self.calls += 1
        run = subprocess.run([self.program, *words], input=given.encode(), capture_output=True, check=False, timeout=120)
        return run.returncode, run.stdout.decode()

    def row(self, lines: Sequence[str]) -> Row | str:
        """The last row of a term, or the refusal."""
        status, printed = self.answer(["convert", "-", str(self.out)], term_of(lines))
        if status > 1:
            return printed.strip() or "refused"
        goals, leaves = (tuple(re.findall(rf"^{kind} \d+ (.*)$", printed, re.MULTILINE)) for kind in ("goal", "leaf"))
        found = re.search(r"^conclusion (.*)$", printed, re.MULTILINE)
        return Row(found[1] if found else "", goals, leaves)

    def guard(self, conclusion: Tree | str, lines: Sequence[str]) -> str:
        """What the guard says of a term: `guarded`, `unguarded line N: why`, or a refusal."""
        return self.guard_and_goals(conclusion, lines)[0]

    def guard_and_goals(self, conclusion: Tree | str, lines: Sequence[str]) -> tuple[str, list[str]]:
        """What the guard says of a term, and its goals."""
        shown = conclusion if isinstance(conclusion, str) else text(conclusion)
        self.model.write_text(shown + "\n")
        _, printed = self.answer(["guard", str(self.model), "-"], term_of(lines))
        return printed.split("\n", 1)[0], re.findall(r"^goal \d+ (.*)$", printed, re.MULTILINE)


def term_of(lines: Sequence[str]) -> str:
    """The text of a term file."""
    return "\n".join([*(f"{number} {line}" for number, line in enumerate(lines, 1)), "done\n"])


def sequent_tree(shown: str) -> Tree:
    """The formula that says what a sequent does."""
    left, right = reader.sequent(shown, TREES)
    found = right[-1] if right else TREES.make("false")
    for part in reversed(right[:-1]):
        found = TREES.make("or", "", part, found)
    for part in reversed(left):
        found = TREES.make("imply", "", part, found)
    return found


# Symbols and substitution

def symbols(*trees: Tree) -> list[Symbol]:
    """The symbols of trees, but for the constant `k()`: kind, name, number of arguments, taboo."""
    found: set[Symbol] = set()
    seen: set[Tree] = set()
    waiting = list(trees)
    while waiting:
        tree = waiting.pop()
        if tree in seen:
            continue
        seen.add(tree)
        name, _, taboo = tree.detail.rstrip("|").partition("|")
        if tree.word in UNIT:
            found.add((UNIT[tree.word], name, 0, taboo))
        elif tree.word in APPLIED and (tree.word, name, len(tree.kids)) != ("app", "k", 0):
            found.add((APPLIED[tree.word], name, len(tree.kids), ""))
        elif tree.word == "quant":
            found.add(("predicational", name, 0, ""))
        elif tree.word == "const":
            found.add(("program", name, 0, ""))
        elif tree.word == "system":
            for item in tree.detail.split(","):
                if not evolves(item):
                    name, _, taboo = item.rstrip("|}").partition("{|")
                    found.add(("ode", name, 0, taboo))
        waiting += tree.kids
    return sorted(found)


@functools.lru_cache(1 << 10)
def pairs_of(pairs: str) -> tuple[tuple[str, Tree], ...]:
    """The pairs that a text has, read once."""
    return tuple((symbol, tree) for symbol, tree in reader.pairs(pairs, TREES))


class Replacing:
    """Replaces symbols in trees, without a look at what is captured."""

    def __init__(self, pairs: str) -> None:
        self.by = dict(pairs_of(pairs))
        self.known: dict[Tree, Tree] = {}

    def tree(self, tree: Tree) -> Tree:
        """A tree with the symbols replaced."""
        if tree not in self.known:
            self.known[tree] = self.made(tree)
        return self.known[tree]

    def made(self, tree: Tree) -> Tree:
        """A tree with the symbols replaced, made anew."""
        name, _, taboo = tree.detail.rstrip("|").partition("|")
        kids = [self.tree(kid) for kid in tree.kids]
        if tree.word in UNIT and f"{name}(|{taboo}|)" in self.by:
            return self.by[f"{name}(|{taboo}|)"]
        if tree.word in APPLIED:
            symbol = f"{name}({','.join(f'._{place}' for place in range(len(kids)))})"
            if symbol in self.by:
                return plugged(self.by[symbol], kids)
        if tree.word == "quant" and f"{name}{{_}}" in self.by:
            return filled(self.by[f"{name}{{_}}"], kids[0])
        if tree.word == "const" and f"{name};" in self.by:
            return self.by[f"{name};"]
        return self.system(tree, kids) if tree.word == "system" else TREES.make(tree.word, tree.detail, *kids)

    def system(self, tree: Tree, kids: list[Tree]) -> Tree:
        """A system with constants replaced by equations."""
        items: list[str] = []
        terms: list[Tree] = []
        waiting = iter(kids)
        for item in tree.detail.split(","):
            given = self.by.get(f"{{{item}}}")
            if evolves(item):
                items.append(item)
                terms.append(next(waiting))
            elif given is None:
                items.append(item)
            else:
                items += given.detail.split(",")
                terms += given.kids[:-1]
        return TREES.make("system", ",".join(items), *terms, kids[-1])


def mapped(tree: Tree, leaf: dict[Tree, Tree], known: dict[Tree, Tree]) -> Tree:
    """A tree with some of its parts replaced."""
    if tree in leaf:
        return leaf[tree]
    if tree not in known:
        known[tree] = TREES.make(tree.word, tree.detail, *(mapped(kid, leaf, known) for kid in tree.kids))
    return known[tree]


def plugged(tree: Tree, arguments: Sequence[Tree]) -> Tree:
    """A replacement with its dots replaced."""
    return mapped(tree, {TREES.make("dot", str(place)): argument for place, argument in enumerate(arguments)}, {})


def filled(tree: Tree, inner: Tree) -> Tree:
    """A replacement with its `_` replaced."""
    return mapped(tree, {TREES.make("hole"): inner}, {})


def renamed(tree: Tree, one: str, other: str) -> Tree:
    """A tree with two names exchanged, in its variables and taboos."""
    exchange = {one: other, other: one}

    def name_of(detail: str) -> str:
        bare = detail.rstrip("'")
        return exchange.get(bare, bare) + detail[len(bare):]

    def exchanged(part: Tree) -> Tree:
        kids = [exchanged(kid) for kid in part.kids]
        detail = part.detail
        if part.word in ("var", "assign", "any", "forall", "exists"):
            detail = name_of(detail)
        elif part.word in UNIT and "|" in detail:
            symbol, taboo = detail.rstrip("|").split("|")
            detail = f"{symbol}|{exchange.get(taboo, taboo)}|"
        elif part.word == "system":
            detail = ",".join(name_of(item) if evolves(item) else item_renamed(item, exchange) for item in detail.split(","))
        return TREES.make(part.word, detail, *kids)

    return exchanged(tree)


def item_renamed(item: str, exchange: dict[str, str]) -> str:
    """A constant of a system with its taboo exchanged."""
    name, bar, taboo = item.rstrip("|}").partition("{|")
    return f"{name}{{|{exchange.get(taboo, taboo)}|}}" if bar else item


# Many instances at once

def conjunction(trees: Sequence[Tree]) -> Tree:
    """What says that all of some formulas hold."""
    found = trees[-1]
    for tree in reversed(trees[:-1]):
        found = TREES.make("and", "", tree, found)
    return found


def joined_lines(instances: Sequence[Instance]) -> tuple[list[str], list[tuple[int, int]]]:
    """The lines of a term that proves the conjunction of instances from their goals, and for each instance the first and the last of its lines."""
    lines: list[str] = []
    places: list[tuple[int, int]] = []
    for instance in instances:
        begin = len(lines)
        lines += [shifted(line, begin) for line in instance.lines]
        places.append((begin + 1, len(lines)))
    lines.append(f"start ==> {text(conjunction([instance.conclusion for instance in instances]))}")
    goal = 1
    for place, (_, end) in enumerate(places):
        if place < len(places) - 1:
            lines.append(f"apply {len(lines)} {goal} andR(1)")
        lines.append(f"merge {len(lines)} {goal} {end}")
        goal += len(instances[place].goals)
    return lines, places


def shifted(line: str, by: int) -> str:
    """A line whose facts are so many lines later."""
    word, _, rest = line.partition(" ")
    facts = {"apply": [0], "merge": [0, 2], "subst": [0], "rename": [0]}.get(word, [])
    parts = rest.split(" ", 2)
    for place in facts:
        parts[place] = str(int(parts[place]) + by)
    return " ".join([word, *parts]) if facts else line


def accepted(program: Program, instances: Sequence[Instance]) -> tuple[list[Instance], list[str], str]:
    """The instances that the program makes, too, letter by letter; the refusals of the others; and what the guard says of all that are accepted."""
    left, refused = list(instances), list[str]()
    while left:
        lines, places = joined_lines(left)
        said, goals = program.guard_and_goals(conjunction([instance.conclusion for instance in left]), lines)
        if said == "guarded" or said.startswith("unguarded"):
            made = [f"==> {text(goal)}" for instance in left for goal in instance.goals]
            if goals != made:
                raise SystemExit(f"the program has other goals than are made here: {set(goals) ^ set(made)}")
            return left, refused, said
        found = REFUSED_LINE.match(said)
        number = int(found[1]) if found else 0
        at = [place for place, (begin, end) in enumerate(places) if begin <= number <= end]
        if not at and number > places[-1][1]:  # a merge: the program makes another conclusion
            at = [min((number - places[-1][1] - 1) // 2, len(left) - 1)]
        if not at:
            raise SystemExit(f"the program refuses a term in a way that isn't known: {said}")
        refused.append(f"{said}: {left[at[0]].name}: {left[at[0]].lines[-1]}")
        del left[at[0]]
    return left, refused, "guarded"


# What is well made, and what may be captured

def is_well_made(tree: Tree) -> bool:
    """Whether each operator of a tree may stand over its kids: a system evolves no variable twice."""
    return fits(tree.word, tree.detail, tree.kids) and all(map(is_well_made, tree.kids))


def bound_in(tree: Tree) -> set[str]:
    """The names that are bound anywhere in a tree."""
    found = {name for kid in tree.kids for name in bound_in(kid)}
    if tree.word in ("assign", "any", "forall", "exists"):
        found.add(tree.detail)
    if tree.word == "system":
        found |= {name for item in tree.detail.split(",") if evolves(item) for name in (item, item[:-1])}
    return found


def read_in(tree: Tree) -> set[str]:
    """The names that stand in a tree as variables, with the slopes that its differentials may read."""
    if tree.word == "var":
        return {tree.detail}
    found = {name for kid in tree.kids for name in read_in(kid)}
    return found | {f"{name}'" for name in found if not name.endswith("'")} if tree.word in ("diff", "difff") else found


def may_capture(row: Sequence[Tree], pairs: str) -> bool:
    """Whether a substitution may not be admissible, by a rough look: a replacement with arguments reads what is bound somewhere, or binds what an
    argument may read; or one with a taboo reads that."""
    replaced = pairs_of(pairs)
    bound = {name for tree in row for name in bound_in(tree)}
    bound |= {name for symbol, tree in replaced if symbol[-1] in ";}" for name in bound_in(tree)}
    read = {name for tree in row for name in read_in(tree)} | {name for symbol, tree in replaced for name in read_in(tree) if not bound_in(tree)}
    for symbol, tree in replaced:
        if symbol.endswith("|)"):
            taboo = symbol.rstrip("|)").rpartition("(|")[2]
            if taboo and {taboo, f"{taboo}'"} & (read_in(tree) | bound_in(tree)):
                return True
        elif symbol.endswith(")") and (read_in(tree) & bound or bound_in(tree) & read):
            return True
    return False
