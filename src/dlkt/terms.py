"""Reads term files of both versions, and writes them in either: docs/FILES.md has the two forms.

A step is the text of its line with the places of its trees left out, and these trees. In version 1 a line has the texts of its trees, in version 2
the numbers of their nodes. Of a file of version 2 each line is looked at as `check` does it, but whether a step is one of the calculus is for
the program alone. A file of version 1 is read as the tools always read it: what stands in its lines is left as it is where no tree is wanted.
Nothing of this is proved.
"""

import re
from typing import Callable, NamedTuple, Sequence

from dlkt import reader
from dlkt.calculus import PREMISES
from dlkt.program import Refused
from dlkt.trees import DETAILS, FORMULA, NAME, ROWS, SYMBOL, Tree, Trees, fits, is_small, may_replace, pair_text, sequent_text, text

HEAD, END = "dlk 2", "done"
LONGEST_LOOK = 1 << 23  # bytes of a term that are looked through for lemmas
NUMBER = "[1-9][0-9]{0,8}"
# The words of rules by what stands in their brackets; each other rule has one place.
WITH_FORMULA, WITH_NAME, WITH_PLACES = ("cut", "cutL", "cutR"), ("boundL", "boundR"), ("close", "exchangeL", "exchangeR")
ONE_PLACE = "|".join(name for name in PREMISES if name not in (*WITH_FORMULA, *WITH_NAME, *WITH_PLACES))

NODE_LINE = re.compile(rf"node ({NUMBER}) ([a-z]+)(.*)", re.DOTALL)
STEP_LINE = re.compile(rf"({NUMBER}) ([a-z]+) (.*)", re.DOTALL)
KIDS = re.compile(rf"(?: {NUMBER})*")
SIDES = re.compile(rf"((?:{NUMBER} )*)==>((?: {NUMBER})*)")
PLAIN = {
    "axiom": re.compile(NAME),
    "rule": re.compile(NAME),
    "merge": re.compile(f"{NUMBER} {NUMBER} {NUMBER}"),
    "rename": re.compile(f"{NUMBER} {NAME} {NAME}"),
}
PLAIN_RULE = re.compile(
    rf"{NUMBER} {NUMBER} (?:(?:{ONE_PLACE})\({NUMBER}\)|(?:{'|'.join(WITH_NAME)})\({NUMBER},{NAME}\)"
    rf"|(?:{'|'.join(WITH_PLACES)})\({NUMBER},{NUMBER}\))"
)
CUT = re.compile(rf"({NUMBER} {NUMBER} (?:cut\(|cut[LR]\({NUMBER},))(.*)\)", re.DOTALL)
SUBST = re.compile(rf"({NUMBER}) (.*)", re.DOTALL)
PAIR = re.compile(rf"({SYMBOL})~>({NUMBER})")


class Wrong(Refused):
    """The first wrong line of a term, as `check` names it: its place in the file, and why."""

    def __init__(self, place: int, why: str) -> None:
        super().__init__(f"line {place}: {why}")
        self.place, self.why = place, why


class Malformed(Exception):
    """A line that has none of the forms."""


Sides = tuple[list[Tree], list[Tree]]
Pairs = list[tuple[str, Tree]]


class Step(NamedTuple):
    """A step: its number, the line of the file on which it stands, its word, what stands behind the word and before its trees, and those: two
    sides (`start`, `leaf`), symbols with a tree each (`subst`), or the formula of a rule that has one."""

    number: int
    place: int
    word: str
    rest: str
    sides: Sides | None = None
    pairs: Pairs | None = None
    formula: Tree | None = None


class Lemma(NamedTuple):
    """A lemma that was linked into a term: its first and its last step, what it concludes, and how many goals it proves."""

    first: int
    last: int
    conclusion: str
    goals: int


class Readers(NamedTuple):
    """Readers of the trees of a step."""

    sides: Callable[[str], Sides]
    pairs: Callable[[str], Pairs]
    formula: Callable[[str], Tree]


class Term(NamedTuple):
    """A term file: its version, its steps, and how many nodes it has, or none in version 1."""

    version: int
    steps: list[Step]
    nodes: int | None


def decoded(data: str | bytes) -> str:
    """The text of a file, a character a byte."""
    return data if isinstance(data, str) else data.decode("latin-1")


def lines_of(data: str | bytes) -> list[str]:
    """The lines of a file. The last line feed may be missing."""
    lines = decoded(data).split("\n")
    return lines if lines[-1] else lines[:-1]


def version_of(data: str | bytes) -> int:
    """The version of a term file, which its first line tells."""
    return 2 if decoded(data).split("\n", 1)[0] == HEAD else 1


# Reading

class Nodes:
    """The nodes of a file of version 2 so far: trees, numbered from 1."""

    def __init__(self) -> None:
        self.trees, self.known = Trees(), set[int]()
        self.by_number: list[Tree] = []

    def numbered(self, number: str) -> Tree:
        """The tree of a node."""
        if not 1 <= int(number) <= len(self.by_number):
            raise Malformed
        return self.by_number[int(number) - 1]

    def formula(self, number: str) -> Tree:
        """The formula of a node."""
        tree = self.numbered(number)
        if tree.sort != FORMULA:
            raise Malformed
        return tree

    def sides(self, rest: str) -> Sides:
        """The trees of a sequent by its nodes."""
        found = SIDES.fullmatch(rest)
        if found is None:
            raise Malformed
        left, right = ([self.formula(number) for number in side.split()] for side in found.groups())
        return left, right

    def pairs(self, rest: str) -> Pairs:
        """The pairs of a substitution by their nodes."""
        pairs, at = list[tuple[str, Tree]](), 0
        while at < len(rest):
            at += bool(pairs)
            found = PAIR.match(rest, at)
            if found is None or rest[found.end() : found.end() + 1] not in ("", ",") or rest[found.end() :] == ",":
                raise Malformed
            symbol, tree = found[1], self.numbered(found[2])
            if not may_replace(symbol, tree):
                raise Malformed
            pairs.append((symbol, tree))
            at = found.end()
        return pairs

    def of_cut(self, rest: str) -> Tree:
        """The formula of a cut by its node."""
        if not re.fullmatch(f"#{NUMBER}", rest):
            raise Malformed
        return self.formula(rest[1:])

    def read(self, word: str, rest: str) -> Tree:
        """The tree of a node line, of which this is the word and what stands behind it."""
        row, detail = ROWS.get(word), ""
        if row is None:
            raise Malformed
        if row.detail:
            found = re.match(f" ({DETAILS[row.detail]})(?: |$)", rest)
            if found is None or not re.fullmatch(DETAILS[row.detail], found[1]):
                raise Malformed
            detail, rest = found[1], rest[found.end(1) :]
        if not KIDS.fullmatch(rest):
            raise Malformed
        kids = tuple(map(self.numbered, rest.split()))
        if not fits(word, detail, kids):
            raise Malformed
        tree = self.trees.make(word, detail, *kids)
        if id(tree) in self.known or not is_small(tree):
            raise Malformed
        return tree

    def add(self, tree: Tree) -> None:
        """Makes a tree the next node."""
        self.known.add(id(tree))
        self.by_number.append(tree)


def step_of(place: int, line: str, readers: Readers) -> Step:
    """The step of a line."""
    parts = STEP_LINE.fullmatch(line)
    if parts is None:
        raise Malformed
    number, word, rest = int(parts[1]), parts[2], parts[3]
    if word in ("start", "leaf"):
        return Step(number, place, word, "", sides=readers.sides(rest))
    if word == "subst":
        found = SUBST.fullmatch(rest)
        if found is None:
            raise Malformed
        return Step(number, place, word, found[1], pairs=readers.pairs(found[2]))
    if word == "apply":
        found = CUT.fullmatch(rest)
        if found:
            return Step(number, place, word, found[1], formula=readers.formula(found[2]))
    pattern = PLAIN_RULE if word == "apply" else PLAIN.get(word)
    if pattern is None or not pattern.fullmatch(rest):
        raise Malformed
    return Step(number, place, word, rest)


def read(data: str | bytes) -> Term:
    """The term of a file of either version. Refused at its first wrong line."""
    lines, version, nodes, trees, steps = lines_of(data), version_of(data), Nodes(), Trees(), list[Step]()
    by_texts = Readers(lambda rest: reader.sequent(rest, trees), lambda rest: reader.pairs(rest, trees), lambda rest: reader.formula(rest, trees))
    readers = Readers(nodes.sides, nodes.pairs, nodes.of_cut) if version == 2 else by_texts
    for place, line in enumerate(lines[version - 1 :], version):
        if line == END and steps:
            if place < len(lines):
                raise Wrong(place + 1, "Malformed")
            return Term(version, steps, len(nodes.by_number) if version == 2 else None)
        node = NODE_LINE.fullmatch(line) if version == 2 else None
        try:
            if node:
                nodes.add(nodes.read(node[2], node[3]))
                is_next = int(node[1]) == len(nodes.by_number)
            else:
                steps.append(step_of(place, line, readers))
                is_next = steps[-1].number == len(steps)
        except (Malformed, reader.Wrong):
            raise Wrong(place, "Malformed") from None
        if not is_next:
            raise Wrong(place, "WrongNumber")
    raise Wrong(len(lines) + 1, "NoEnd")


# Writing

def line_of(step: Step, sides: Callable[[Sides], str], pair: Callable[[str, Tree], str], formula: Callable[[Tree], str]) -> str:
    """The line of a step by what writes its trees."""
    if step.sides is not None:
        return f"{step.number} {step.word} {sides(step.sides)}"
    if step.pairs is not None:
        return f"{step.number} subst {step.rest} {','.join(pair(*one) for one in step.pairs)}"
    return f"{step.number} {step.word} {step.rest}" + (f"{formula(step.formula)})" if step.formula is not None else "")


def line_in_full(step: Step) -> str:
    """The line of a step in version 1, with canonical texts."""
    return line_of(step, lambda sides: sequent_text(*sides), pair_text, text)


def in_version_1(term: Term) -> str:
    """The canonical file of version 1 of these steps."""
    return "".join(f"{line_in_full(step)}\n" for step in term.steps) + f"{END}\n"


def trees_in(step: Step) -> list[Tree]:
    """The trees of a step, in the order in which they are written."""
    if step.sides is not None:
        return [*step.sides[0], *step.sides[1]]
    if step.pairs is not None:
        return [tree for _, tree in step.pairs]
    return [] if step.formula is None else [step.formula]


class Numbering:
    """Numbers the nodes of a file of version 2 as they are needed, kids before parents and left before right."""

    def __init__(self) -> None:
        self.numbers, self.lines = dict[int, int](), list[str]()

    def add(self, tree: Tree) -> None:
        """Gives each part of a tree that has none yet a node."""
        waiting = [tree]
        while waiting:
            here = waiting[-1]
            lacking = [] if id(here) in self.numbers else [kid for kid in here.kids if id(kid) not in self.numbers]
            if lacking:
                waiting.append(lacking[0])
                continue
            waiting.pop()
            if id(here) not in self.numbers:
                self.numbers[id(here)] = len(self.numbers) + 1
                detail = f" {here.detail}" if here.detail else ""
                kids = "".join(f" {self.numbers[id(kid)]}" for kid in here.kids)
                self.lines.append(f"node {len(self.numbers)} {here.word}{detail}{kids}")

    def of(self, trees: Sequence[Tree]) -> list[str]:
        """The numbers of these trees."""
        return [str(self.numbers[id(tree)]) for tree in trees]

    def line(self, step: Step) -> str:
        """The line of a step, whose trees have nodes."""
        return line_of(
            step, lambda sides: " ".join([*self.of(sides[0]), "==>", *self.of(sides[1])]), lambda symbol, tree: f"{symbol}~>{self.of([tree])[0]}",
            lambda tree: f"#{self.of([tree])[0]}",
        )


def in_version_2(term: Term) -> str:
    """The canonical file of version 2 of these steps."""
    nodes, lines = Numbering(), [HEAD]
    for step in term.steps:
        nodes.lines = lines
        for tree in trees_in(step):
            nodes.add(tree)
        lines.append(nodes.line(step))
    return "".join(f"{line}\n" for line in [*lines, END])


# Linked terms

def facts_of(step: Step) -> list[int]:
    """The steps on which a step rests."""
    numbers = step.rest.split(" ")
    if step.word in ("apply", "subst", "rename"):
        return [int(numbers[0])]
    return [int(numbers[0]), int(numbers[2])] if step.word == "merge" else []


def lemma_at_end(steps: Sequence[Step]) -> Lemma | None:
    """The lemma that `link` put behind these steps, or none where their end doesn't look so: a start, steps that rest on no earlier ones, and then
    nothing but merges of the last of these."""
    if len(steps) < 3 or steps[-1].word != "merge":
        return None
    last = facts_of(steps[-1])[1]
    tail = [facts_of(step) for step in steps[last:] if step.word == "merge"]
    if len(tail) != len(steps) - last or not tail:
        return None
    first = tail[0][0] + 1
    is_chain = all(fact[1] == last for fact in tail) and all(fact[0] == last + number for number, fact in enumerate(tail[1:], 1))
    lemma = steps[first - 1 : last]
    if not is_chain or first < 2 or len(lemma) < 2 or lemma[0].sides is None or lemma[0].word != "start":
        return None
    if any(fact < first for step in lemma for fact in facts_of(step)):
        return None
    return Lemma(first, last, sequent_text(*lemma[0].sides), len(tail))


def lemmas_in(data: str | bytes) -> list[Lemma]:
    """The lemmas that were linked into a term, the last one first, as far as its form tells. Of a very long term nothing is told."""
    if len(data) > LONGEST_LOOK:
        return []
    try:
        steps: Sequence[Step] = read(data).steps
    except Wrong:
        return []
    found = []
    while lemma := lemma_at_end(steps):
        found.append(lemma)
        steps = steps[: lemma.first - 1]
    return found


# For the tools that want the lines of version 1

def readable(data: str | bytes) -> str:
    """The text of a term in version 1: one of version 2 is written anew, any other is left as it is."""
    return in_version_1(read(data)) if version_of(data) == 2 else decoded(data)
