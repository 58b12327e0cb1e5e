"""Draws the proof of a term as one page for a browser.

    dlkt tree TERM [PAGE] [--model MODEL --strategy STRATEGY] [--depth N] [--dlk PROGRAM]

PAGE is TERM.html where it isn't given, and - is standard output: one file for a browser without a network, with the tree of the last line. At its root
stands what is proved, below each goal those that are left of it, and at the ends axioms, leaves and open goals. docs/INSTALL.md ("A picture of a
proof") says more of it. With the model and the strategy that made the term, the lines of a word of the strategy are one node: for that the strategy
is run again. Where it makes another term, or it can't be said which word made which line, the page has the lines, and standard error says so.

Nothing is checked here: that is the work of `dlk check`. The shape follows from the lines alone: which line works on which goal, and how many premises
its rule has. The goals are those that the lines give, and what the rules for connectives, cuts and the structure of a sequent make of them; where that
isn't enough, a formula is shown as dots. The page has each formula once, as a term of version 2 has it, and makes the texts of them itself.
"""
import argparse
import html
import importlib.resources
import json
import re
import sys
from typing import Callable, Iterable, NamedTuple, Sequence

from dlkt import reader as texts
from dlkt.calculus import AXIOMATIC_RULES, PREMISES
from dlkt.layout import laid_out
from dlkt.program import Name, Refused, add_options, position, put_at, read_bytes, refuse_bad_output
from dlkt.terms import Numbering, Step, Term, read, trees_in
from dlkt.trees import BRACKETS, PROGRAM, ROWS, Tree, Trees, parts, text
from dlkt.words import Run, word_runs

PAGES = importlib.resources.files("dlkt") / "pages"

# The operators of the formulas at which rules work, by the rules' names without L and R.
RULE_WORDS = {
    "not": ("not",), "and": ("and",), "or": ("or",), "imply": ("imply",), "equiv": ("equiv",), "skolem": ("forall", "exists"),
    "equivify": ("imply",), "commuteEquiv": ("equiv",),
}
KINDS = ("open", "rule", "axiom", "leaf", "subst", "rename", "again", "start")
FIRST_BYTES = b"<!doctype html>"  # of a page
LONG, NARROW = 60, 60  # letters of a formula with a program that is laid out, and the width of its lines

# The formulas on a side, none where one isn't known; and both sides.
Side = tuple[Tree | None, ...]
Sequent = tuple[Side, Side]


class Wrong(Refused):
    """A line from which no tree can be drawn."""


class Told(NamedTuple):
    """What is known of the words of the strategy: the text of each and where it stands, and which of them made a line."""

    words: list[list[str]]
    by_line: dict[int, int]


UNTOLD = Told([], {})


class Line:
    """A step line: its number, its word, the facts and the goal that it names, and its rule: the name, what stands in the brackets, and its
    formula."""

    def __init__(self, step: Step) -> None:
        self.step, self.number, self.word = step, step.number, step.word
        self.fact = self.goal = self.by = 0
        self.rule, self.inside, self.formula = "", "", step.formula
        parts = step.rest.split(" ", 2)
        if step.word in ("apply", "merge"):
            self.fact, self.goal = int(parts[0]), int(parts[1])
        if step.word == "merge":
            self.by = int(parts[2])
        if step.word in ("subst", "rename"):
            self.fact = int(parts[0])
        if step.word == "apply":
            self.rule, _, inside = parts[2].partition("(")
            self.inside = inside.removesuffix(")").removesuffix(",")


class Node:
    """A goal, and what was done at it."""

    def __init__(self, kind: str, line: int, name: str = "", kids: "Iterable[Node]" = ()) -> None:
        self.kind, self.line, self.name, self.kids = kind, line, name, list(kids)
        self.made_by, self.merges = 0, list[int]()
        self.again: Node | None = None
        self.sequent: Sequent | None = None
        self.same_as: Node | None = None


def lines_of(term: Term) -> tuple[list[Line], list[int]]:
    """The lines of a term, and for each how many goals it has; both begin with a place for no line."""
    lines, goals = list[Line](), [0]
    for number, step in enumerate(term.steps, 1):
        line = Line(step)
        for fact in (line.fact, line.by):
            if fact >= number:
                raise Wrong(f"line {number}: there is no line {fact} before it")
        if line.goal > goals[line.fact]:
            raise Wrong(f"line {number}: line {line.fact} has no goal {line.goal}")
        lines.append(line)
        goals.append(count_goals(line, goals))
    return [lines[0], *lines], goals


def count_goals(line: Line, goals: Sequence[int]) -> int:
    """How many goals a line has, from those of the lines before."""
    if line.word in ("start", "rule"):
        return 1
    if line.word in ("axiom", "leaf"):
        return 0
    if line.word == "apply":
        return goals[line.fact] - 1 + PREMISES[line.rule]
    if line.word == "merge":
        return goals[line.fact] - 1 + goals[line.by]
    return goals[line.fact]


def followed(node: Node) -> Node:
    """The node that stands for this one."""
    while node.same_as is not None:
        node = node.same_as
    return node


class Drawing:
    """The tree of the last line. It is made from there to the front: of a line, and nodes for the goals that it leaves, come
    the line's fact and nodes for the goals of that. A proof that is put in at two places is drawn at the first."""

    def __init__(self, data: str | bytes) -> None:
        self.term = read(data)
        self.lines, self.goals = lines_of(self.term)
        last = len(self.lines) - 1
        self.open = [Node("open", 0) for _ in range(self.goals[last])]
        self.root = Node("hole", 0)
        self.drawn, self.used = dict[int, Node](), set[int]()
        self.waiting = [(last, self.root, self.open)]
        while self.waiting:
            self.draw(*self.waiting.pop())
        self.root = followed(self.root)
        self.nodes = self.in_order()
        Goals(self.lines, trees_of(self.term)).fill(self.root)

    def draw(self, number: int, root: Node, goals: list[Node]) -> None:
        """Draws a line's proof at a node that stands empty, with these nodes for its goals."""
        while True:
            line = self.lines[number]
            self.used.add(number)
            at = line.goal - 1
            if line.word == "apply":
                width = PREMISES[line.rule]
                node = Node("rule", number, line.rule, goals[at : at + width])
                goals = [*goals[:at], node, *goals[at + width :]]
            elif line.word == "merge":
                width = self.goals[line.by]
                goals = [*goals[:at], self.other(line.by, goals[at : at + width], number), *goals[at + width :]]
            else:
                break
            number = line.fact
        node = self.end(line, goals)
        root.same_as = node
        node = followed(node)
        node.merges = root.merges + node.merges
        if line.step.sides is not None:
            node.sequent = tuple(line.step.sides[0]), tuple(line.step.sides[1])

    def end(self, line: Line, goals: list[Node]) -> Node:
        """The node with which the proof of a line without an earlier goal begins."""
        if line.word == "start":
            return goals[0]
        if line.word in ("leaf", "axiom"):
            return Node(line.word, line.number)
        if line.word == "rule":
            return Node("rule", line.number, line.step.rest, goals)
        return Node(line.word, line.number, "", [self.other(line.fact, goals, 0)])

    def other(self, number: int, goals: list[Node], merge: int) -> Node:
        """A node for the proof of another line. One that was drawn already is named again."""
        short = self.lines[number].word in ("axiom", "leaf", "rule")
        if number in self.drawn and not short:
            node = Node("again", number, "", goals)
            node.again = self.drawn[number]
        else:
            node = Node("hole", 0)
            self.drawn[number] = node
            self.waiting.append((number, node, goals))
        if merge:
            node.merges = [merge]
        return node

    def in_order(self) -> list[Node]:
        """The nodes, each before those below it, with the line that made each of them."""
        nodes, waiting = list[Node](), [self.root]
        while waiting:
            node = waiting.pop()
            nodes.append(node)
            node.kids = [followed(kid) for kid in node.kids]
            for kid in node.kids:
                kid.made_by = node.line
            waiting.extend(reversed(node.kids))
        return nodes


# Goals

def trees_of(term: Term) -> Trees:
    """Where the trees of a term were made, and all that are their parts: so that what is made of them is the same tree where it is one of them."""
    trees = Trees()
    for tree in parts(*(tree for step in term.steps for tree in trees_in(step))):
        trees.made[tree.word, tree.detail, tuple(map(id, tree.kids))] = tree
    return trees


def put(side: Side, at: int, *formulas: Tree | None) -> Side:
    """A side with these formulas in the stead of the one at a place."""
    return (*side[:at], *formulas, *side[at + 1 :])


class Goals:
    """The goals that follow from those above them, as far as they can be told."""

    def __init__(self, lines: Sequence[Line], trees: Trees) -> None:
        self.lines, self.trees = lines, trees

    def fill(self, root: Node) -> None:
        """Gives each node below this one the sequent that follows from the one above it, where no line gives its own."""
        waiting = [root]
        while waiting:
            node = waiting.pop()
            line = self.lines[node.line] if node.line else None
            if line is not None and line.word == "apply" and node.kids and node.sequent:
                try:
                    found = self.premises(node.sequent, line)
                except (ValueError, IndexError) as fault:
                    raise Wrong(f"line {node.line}: {line.rule}({line.inside}) names no place of its goal") from fault
                for kid, sequent in zip(node.kids, found):
                    kid.sequent = kid.sequent or sequent
            if line is not None and line.word == "subst" and node.kids[0].kids and node.kids[0].name in AXIOMATIC_RULES:
                goal = node.kids[0].kids[0]
                goal.sequent = goal.sequent or self.premise_of_instance(node.kids[0].name, line.step.pairs or [])
            waiting.extend(node.kids)

    def made(self, word: str, left: Tree | None, right: Tree | None) -> Tree | None:
        """A formula of two parts, where both are known."""
        return None if left is None or right is None else self.trees.make(word, "", left, right)

    def premises(self, sequent: Sequent, line: Line) -> list[Sequent]:
        """The premises of a rule on a sequent, as far as they can be told."""
        left, right = sequent
        if line.rule == "cut":
            return [((*left, line.formula), right), (left, (*right, line.formula))]
        first, _, second = line.inside.partition(",")
        at, is_left = int(first) - 1, line.rule.endswith("L")
        formula = (left if is_left else right)[at]

        def here(*formulas: Tree | None) -> Sequent:
            """The sequent with these formulas in the stead of that one."""
            return (put(left, at, *formulas), right) if is_left else (left, put(right, at, *formulas))

        if line.rule in ("cutL", "cutR"):
            if is_left:
                return [here(line.formula), (put(left, at), (*right, self.made("imply", formula, line.formula)))]
            return [here(line.formula), here(self.made("imply", line.formula, formula))]
        if line.rule in ("hideL", "hideR"):
            return [here()]
        if line.rule in ("boundL", "boundR"):
            return [here(None)]
        if line.rule in ("exchangeL", "exchangeR"):
            other = int(second) - 1
            moved = here((left if is_left else right)[other])
            return [(put(moved[0], other, formula), right) if is_left else (left, put(moved[1], other, formula))]
        if line.rule == "coHideR":
            return [((), (formula,))]
        return self.logical(sequent, line.rule, at, formula)

    def logical(self, sequent: Sequent, rule: str, at: int, formula: Tree | None) -> list[Sequent]:
        """The premises of a rule for a connective or a quantifier."""
        left, right = sequent
        is_fit = formula is not None and formula.word in RULE_WORDS.get(rule[:-1], ())
        kids: Sequence[Tree | None] = formula.kids if formula is not None and is_fit else (None, None)
        one, f, g = kids[0], kids[0], kids[-1]
        new_left = put(left, at)
        both: dict[str, Callable[[], list[Sequent]]] = {
            "notL": lambda: [(new_left, (*right, one))],
            "notR": lambda: [((*left, one), put(right, at))],
            "skolemL": lambda: [(put(left, at, one), right)],
            "skolemR": lambda: [(left, put(right, at, one))],
            "andL": lambda: [((*put(left, at, f), g), right)],
            "andR": lambda: [(left, put(right, at, f)), (left, put(right, at, g))],
            "orL": lambda: [(put(left, at, f), right), (put(left, at, g), right)],
            "orR": lambda: [(left, (*put(right, at, f), g))],
            "implyL": lambda: [(new_left, (*right, f)), (put(left, at, g), right)],
            "implyR": lambda: [((*left, f), put(right, at, g))],
            "equivL": lambda: [((*put(left, at, self.made("imply", f, g)), self.made("imply", g, f)), right)],
            "equivR": lambda: [(left, put(right, at, self.made("imply", f, g))), (left, put(right, at, self.made("imply", g, f)))],
            "equivifyR": lambda: [(left, put(right, at, self.made("equiv", f, g)))],
            "commuteEquivL": lambda: [(put(left, at, self.made("equiv", g, f)), right)],
            "commuteEquivR": lambda: [(left, put(right, at, self.made("equiv", g, f)))],
        }
        return both[rule]() if rule in both else []

    def premise_of_instance(self, name: str, pairs: Sequence[tuple[str, Tree]]) -> Sequent | None:
        """The premise of an axiomatic rule behind a substitution of these pairs, where each of its symbols has one."""
        premise, replaced = texts.formula(AXIOMATIC_RULES[name][0], self.trees), dict(pairs)
        if not premise.kids:
            return (), (replaced.get(text(premise), premise),)
        first, second = (replaced.get(text(symbol), symbol) for symbol in premise.kids)
        return (), (self.trees.make(premise.word, "", first, second),)


# The page

def part(*names: str) -> str:
    """The text of files of which pages are made, one below the other."""
    return "\n".join((PAGES / name).read_text(encoding="utf-8").rstrip("\n") for name in names)


def filled(template: str, **parts: str) -> str:
    """A template with its marks, as `@NAME@`, replaced. Only the template's own marks are: none that a part has in it."""
    return re.sub(r"@([A-Z]+)@", lambda mark: parts.get(mark[1].lower(), mark[0]), template)


def script_data(value: object) -> str:
    """A value as a page's script reads it."""
    return json.dumps(value, separators=(",", ":")).replace("<", "\\u003c")


class Table:
    """The formulas of a page, each once: the term in version 2, which has those of its lines, and nodes for others. A sequent is the numbers of
    its formulas, 0 where one isn't known."""

    def __init__(self, drawing: Drawing) -> None:
        self.drawing, self.numbering = drawing, Numbering()
        self.term = self.numbering.lines = ["dlk 2"]
        for step in drawing.term.steps:
            for tree in trees_in(step):
                self.numbering.add(tree)
            self.term.append(self.numbering.line(step))
        self.more = self.numbering.lines = list[str]()
        self.sequents, self.laid = dict[str, int](), dict[int, str]()

    def text(self) -> str:
        """The term in version 2."""
        return "\n".join([*self.term, "done", ""])

    def formula(self, tree: Tree | None) -> str:
        """The number of a formula."""
        if tree is None:
            return "0"
        self.numbering.add(tree)
        return self.numbering.of([tree])[0]

    def sequent(self, sequent: Sequent | None) -> int:
        """The number of a sequent; 0 where nothing is known of it."""
        sides = "|".join(",".join(map(self.formula, side)) for side in sequent) if sequent else "|"
        return self.sequents.setdefault(sides, len(self.sequents) + 1) if sides.strip("0,|") else 0

    def lay_out(self, sequent: Sequent) -> None:
        """Has the formulas of a sequent laid out, where they are long and have programs."""
        for tree in (*sequent[0], *sequent[1]):
            if tree is not None and len(text(tree)) > LONG and any(part.sort == PROGRAM for part in parts(tree)):
                self.laid[int(self.formula(tree))] = laid_out(tree, width=NARROW)

    def given(self, depth: int, told: Told) -> dict[str, object]:
        """What the page's script is given: the table of operators, the formulas, the sequents, the nodes in the order of the tree, each with the
        number of its kids, and the words of the strategy."""
        nodes, drawn = [], self.drawing.nodes
        places = {id(node): place for place, node in enumerate(drawn)}
        for node in drawn:
            again = places.get(id(followed(node.again)), -1) if node.again else -1
            row = [KINDS.index(node.kind), node.line, self.sequent(node.sequent), told.by_line.get(node.line, -1), len(node.kids)]
            nodes.append(row + ([again, *node.merges] if again >= 0 or node.merges else []))
        for goal in self.drawing.open:
            if goal.sequent:
                self.lay_out(goal.sequent)
        return {
            "operators": operators(), "term": self.text(), "more": self.more, "sequents": list(self.sequents), "laid": self.laid, "nodes": nodes,
            "words": told.words, "depth": depth,
        }


def operators() -> dict[str, list[object]]:
    """The table of operators as the page's script wants it: levels, the marks before, between and behind the kids, with @ for the detail, whether
    there is one, and the brackets round it."""
    return {
        word: [row.level, row.first, row.later, row.opening.format("@"), row.between, row.closing, int(bool(row.detail)), BRACKETS[row.sort]]
        for word, row in ROWS.items()
    }


def summary(drawing: Drawing) -> str:
    """One sentence on the whole."""
    lines = len(drawing.lines) - 1
    kinds = [node.kind for node in drawing.nodes]
    unused = lines - len(drawing.used)
    spare = f" ({unused} of them not used in the last)" if unused else ""
    leaves, goals = kinds.count("leaf"), kinds.count("open")
    state = "no goal is open" if goals == 0 else f"{goals} open goal{'s' if goals > 1 else ''}"
    return f"{lines} lines{spare}, {len(kinds)} nodes, {leaves} leaf node{'s' if leaves != 1 else ''}; {state}"


def tree(given: object) -> str:
    """The part of a page that has the tree: it wants the style `tree.css`."""
    return filled(part("tree.html"), script=part("tree.js"), formulas=part("escaped.js", "formulas.js"), data=script_data(given))


def page(drawing: Drawing, name: str, depth: int, told: Told) -> str:
    """The text of the page."""
    parts = {"name": html.escape(name), "summary": summary(drawing), "style": part("tree.css")}
    return filled(part("prooftree.html"), **parts, tree=tree(Table(drawing).given(depth, told)))


def told_by(runs: Sequence[Run], strategy: bytes) -> Told:
    """The words that these runs are of. Those of one word at one place of the strategy are one."""
    places, words, by_line = dict[int, int](), list[list[str]](), dict[int, int]()
    for run in runs:
        if run.byte not in places:
            places[run.byte] = len(words)
            at = position(strategy, run.byte)
            words.append([run.word, f"{at.line}:{at.column}"])
        by_line.update(dict.fromkeys(range(run.first, run.last + 1), places[run.byte]))
    return Told(words, by_line)


def told_of(given: argparse.Namespace) -> Told:
    """The words of the strategy that is given, if one is."""
    if not given.strategy:
        return UNTOLD
    runs = word_runs(given.model, given.strategy, given.dlk, given.term)
    if runs is None:
        print("dlkt tree: it can't be said which word of the strategy made which line of this term", file=sys.stderr)
        return UNTOLD
    return told_by(runs, read_bytes(given.strategy))


def refuse_bad_page(target: str, inputs: Sequence[Name]) -> None:
    """Refuses a PAGE that is an input, can't be written, or has something else than a page in it."""
    if target != "-":
        refuse_bad_output(target, inputs, [FIRST_BYTES], "a page")


def write_page(target: str, said: str) -> None:
    """Writes a page where it is wanted: `-` is standard output."""
    data = said.encode("utf-8", "backslashreplace")
    if target == "-":
        sys.stdout.buffer.write(data)
    else:
        put_at(data, target)


HELP = "draws the proof of a term as one page for a browser"
EXAMPLE = "dlkt tree examples/car/term /tmp/car.html"


def add_words(parser: argparse.ArgumentParser) -> None:
    """The words of the command."""
    parser.add_argument("term")
    parser.add_argument("page", nargs="?")
    parser.add_argument("--model", help="the model of the term, for the words of a strategy")
    parser.add_argument("--strategy", help="the strategy that made the term: the lines of a word become one node")
    parser.add_argument("--depth", type=int, default=12, metavar="N", help="below this depth the lines are folded at first (12)")
    add_options(parser, "--dlk")


def run(given: argparse.Namespace) -> int:
    """Draws the term that the words name."""
    if bool(given.model) != bool(given.strategy):
        raise Refused("--model and --strategy go together")
    target = given.page or f"{given.term}.html"
    refuse_bad_page(target, [name for name in (given.term, given.model, given.strategy) if name])
    drawing = Drawing(read_bytes(given.term))
    write_page(target, page(drawing, given.term, given.depth, told_of(given)))
    return 0
