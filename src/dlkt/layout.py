"""Lays out formulas, programs, terms, sequents and strategies for people: line breaks and indentation follow the structure.

What is laid out is read as the same tree, with the same annotations. In comes a tree with the annotations of its programs, as `reader.model`
gives them, or a strategy, as `strategies.read` gives it; out comes a text with lines of the wanted width where that can be. Nothing of this is
proved.

A text is first a document of parts (`Doc`), in which a group stays on one line where it fits there, and else has all its own lines broken.
"""

import re
from dataclasses import dataclass
from typing import Iterable, NamedTuple, Sequence, Union

from dlkt import reader, strategies
from dlkt.reader import Note
from dlkt.strategies import Atom, Branch, Choice, Part, Repeat
from dlkt.trees import BRACKETS, FORMULA, PROGRAM, ROWS, TERM, Tree, Trees, evolves, text, unit_text

WIDTH = 100
ENDLESS = 1_000_000_000_000  # the width of a sheet on which nothing is broken
STEP = 2
SHORT = 24  # letters of a term that is never broken
MOST_CHOICE = 48  # letters of a choice that stays on one line
MOST_BRANCH = 40  # letters of a branch that stays on one line
NEVER = 1_000_000  # the width of what stays on no line
CHAINS = {"and": "&", "or": "|"}
ARROWS = {"imply": "->", "equiv": "<->"}
SUMS, PRODUCTS = {"add": "+", "sub": "-"}, {"mul": "*", "div": "/"}
COMPARISONS = ("eq", "ne", "ge", "gt", "le", "lt")
BARE = 7  # a level above all others: brackets in any case
PLAIN = (*COMPARISONS, "true", "false", "hole", "upred", "holds")


# Documents

@dataclass(slots=True)
class Line:
    """A place where a line may end: the text that stands there where it doesn't."""

    flat: str


@dataclass(slots=True)
class Pad:
    """A text that stands only where the lines of its group are broken."""

    text: str


@dataclass(slots=True)
class Nest:
    """Parts whose lines begin so many columns further right."""

    by: int
    parts: "Doc"


@dataclass(slots=True)
class Group:
    """Parts that stand on one line where it has room: how wide they are there."""

    parts: "Doc"
    width: int


Doc = Union[str, Line, Pad, Nest, Group, "tuple[Doc, ...]"]


def width_of(doc: Doc) -> int:
    """How wide a document is on one line."""
    if isinstance(doc, str):
        return len(doc)
    if isinstance(doc, Group):
        return doc.width
    if isinstance(doc, Line):
        return len(doc.flat)
    if isinstance(doc, Nest):
        return width_of(doc.parts)
    return 0 if isinstance(doc, Pad) else sum(map(width_of, doc))


def group(*parts: Doc) -> Group:
    """These parts, on one line where it has room."""
    return Group(parts, width_of(parts))


class Sheet:
    """The lines that a document comes to."""

    def __init__(self, width: int) -> None:
        self.width, self.out, self.column = width, [""], 0
        self.waiting: list[tuple[int, bool, Doc]] = []

    def put(self, doc: Doc) -> str:
        """The text of a document."""
        self.waiting = [(0, True, doc)]
        while self.waiting:
            indent, is_broken, here = self.waiting.pop()
            if isinstance(here, str):
                self.write(here)
            elif isinstance(here, Line):
                self.end_line(indent) if is_broken else self.write(here.flat)
            elif isinstance(here, Pad):
                self.write(here.text if is_broken else "")
            elif isinstance(here, Nest):
                self.waiting.append((indent + here.by, is_broken, here.parts))
            elif isinstance(here, Group):
                self.waiting.append((indent, is_broken and not self.has_room(here), here.parts))
            else:
                self.waiting += [(indent, is_broken, part) for part in reversed(here)]
        return "".join(self.out)

    def write(self, said: str) -> None:
        """Writes on the line."""
        self.out.append(said)
        self.column += len(said)

    def end_line(self, indent: int) -> None:
        """Ends the line. Lines begin at most in the middle of the sheet."""
        indent = max(0, min(indent, self.width // 2))
        self.out[-1] = self.out[-1].rstrip(" ")
        self.out.append("\n" + " " * indent)
        self.column = indent

    def has_room(self, here: Group) -> bool:
        """Whether the line has room for a group and for what stands behind it up to the next place where a line may end."""
        room = self.width - self.column - here.width
        ahead = len(self.waiting)
        behind: list[tuple[bool, Doc]] = []
        while room >= 0:
            if not behind:
                ahead -= 1
                if ahead < 0:
                    return True
                behind.append(self.waiting[ahead][1:])
            is_broken, doc = behind.pop()
            if isinstance(doc, Line) and is_broken:
                return True
            if isinstance(doc, (str, Line)):
                room -= width_of(doc)
            elif isinstance(doc, (Nest, Group)):
                behind.append((is_broken, doc.parts))
            elif isinstance(doc, tuple):
                behind += [(is_broken, part) for part in reversed(doc)]
        return False


def filled(parts: Sequence[Doc], between: Doc = "") -> Doc:
    """Parts one behind another, as many on a line as fit there; `between` is what stands at the end of each but the last."""
    first, *others = parts
    return (first, *((between, group(Line(" "), part)) for part in others))


def bracketed(opening: str, inside: Doc, closing: str) -> Group:
    """A document between brackets, which have lines of their own where it doesn't fit on one."""
    return group(opening, Nest(STEP, (Line(""), inside)), Line(""), closing)


def kept(doc: Doc, most: int) -> Doc:
    """A document that has lines of its own where it has more letters than so many."""
    return doc if width_of(doc) <= most else Group(doc.parts if isinstance(doc, Group) else doc, NEVER)


def opened(doc: Doc) -> Doc:
    """A document whose first group breaks with what it stands in."""
    if isinstance(doc, Group):
        return doc.parts
    return (opened(doc[0]), *doc[1:]) if isinstance(doc, tuple) and doc else doc


# Trees

class Layout:
    """Makes the document of a tree, at whose programs these annotations stand."""

    def __init__(self, notes: Sequence[Note], is_greedy: bool = False) -> None:
        self.notes, self.at, self.end, self.is_greedy = notes, 0, len(notes), is_greedy

    def within(self, tree: Tree, least: int) -> Doc:
        """A part, in brackets where it is below the least level."""
        if ROWS[tree.word].level >= least:
            return self.part(tree)
        if tree.sort == PROGRAM:
            return self.noted(tree, bracketed("{", self.program(tree), "}"), True)
        opening, closing = BRACKETS[tree.sort]
        return bracketed(opening, self.part(tree), closing)

    def part(self, tree: Tree) -> Doc:
        """A tree of any sort, without brackets round it."""
        if tree.sort == TERM:
            return self.term(tree)
        if tree.sort == FORMULA:
            return self.formula(tree)
        return self.noted(tree, self.program(tree), tree.word in ("loop", "system"))

    # Terms

    def term(self, tree: Tree) -> Doc:
        """A term."""
        if len(text(tree)) <= SHORT or not tree.kids:
            return text(tree)
        for marks in (SUMS, PRODUCTS):
            if tree.word in marks:
                return self.left_chain(tree, marks)
        row = ROWS[tree.word]
        if tree.word == "app":
            return bracketed(f"{tree.detail}(", filled([self.term(kid) for kid in tree.kids], ","), ")")
        if tree.word == "diff":
            return bracketed("(", self.term(tree.kids[0]), ")'")
        kids = [self.within(kid, row.later if place else row.first) for place, kid in enumerate(tree.kids)]
        if tree.word == "pow":
            return (kids[0], "^", kids[1])
        return (row.opening.format(unit_text(tree.detail) if row.detail == "unit" else tree.detail), *kids)

    def left_chain(self, tree: Tree, marks: dict[str, str]) -> Doc:
        """Operators that group to the left, with a break before each where one is needed."""
        parts: list[Doc] = []
        row = ROWS[tree.word]
        while tree.word in marks:
            parts.append(group(Line(""), marks[tree.word], self.within(tree.kids[1], row.later)))
            tree = tree.kids[0]
        return Nest(STEP, (self.within(tree, row.first), *reversed(parts)))

    # Formulas

    def formula(self, tree: Tree) -> Doc:
        """A formula."""
        row = ROWS[tree.word]
        if tree.word in COMPARISONS:
            left, right = tree.kids
            return group(self.term(left), Nest(STEP, (Line(" "), f"{row.between} ", self.term(right))))
        if tree.word in CHAINS:
            return self.chain(tree, CHAINS[tree.word])
        if tree.word in ARROWS:
            return self.arrows(tree, ARROWS[tree.word])
        if tree.word in ("box", "dia"):
            inside = bracketed(row.opening, self.part(tree.kids[0]), row.between)
            return (inside, " ", self.within(tree.kids[1], row.later))
        if tree.word in ("not", "forall", "exists"):
            kid = tree.kids[0]
            is_bare = tree.word == "not" and kid.word in COMPARISONS  # `!x = 0` would look like another formula
            return (row.opening.format(tree.detail), self.within(kid, BARE if is_bare else row.first))
        if tree.word == "holds" and tree.kids:
            return bracketed(f"{tree.detail}(", filled([self.term(kid) for kid in tree.kids], ","), ")")
        if tree.word in ("quant", "difff"):
            return bracketed(row.opening.format(tree.detail), self.formula(tree.kids[0]), row.closing)
        return text(tree)

    def right_chain(self, tree: Tree) -> list[Tree]:
        """The parts of an operator that groups to the right."""
        word, parts = tree.word, []
        while tree.word == word:
            parts.append(tree.kids[0])
            tree = tree.kids[1]
        return [*parts, tree]

    def chain(self, tree: Tree, mark: str) -> Doc:
        """Parts of `&` or of `|`: where they don't fit on one line, as many plain ones on a line as fit there, and others one a line."""
        parts, least = self.right_chain(tree), ROWS[tree.word].first
        first = self.within(parts[0], least)
        docs: list[Doc] = [Nest(STEP, first) if parts[0].word in CHAINS else first]
        for before, part in zip(parts, parts[1:]):
            here = (Line(" "), f"{mark} ", Nest(STEP, self.within(part, least)))
            docs.append(group(here) if before.word in PLAIN and part.word in PLAIN else here)
        return group(*docs)

    def arrows(self, tree: Tree, mark: str) -> Doc:
        """Parts of `->` or of `<->`: the arrows stand on lines of their own where the parts don't fit on one."""
        parts, least = self.right_chain(tree), ROWS[tree.word].first
        docs: list[Doc] = [Nest(STEP, self.within(part, least)) for part in parts]
        others = ((Line(" "), mark, Nest(STEP, Line(" ")), doc) for doc in docs[1:])
        return group(Pad(" " * STEP), docs[0], *others)

    # Programs

    def program(self, tree: Tree) -> Doc:
        """A program without its annotations and without braces of its own."""
        if tree.word in ("seq", "choice"):
            return self.joined(tree.word, self.joined_parts(tree))
        if tree.word == "loop":
            return (bracketed("{", self.part(tree.kids[0]), "}"), "*")
        if tree.word == "system":
            return self.system(tree)
        if tree.word == "assign":
            return (f"{tree.detail} := ", Nest(2 * STEP, self.term(tree.kids[0])), ";")
        if tree.word == "any":
            return f"{tree.detail} := *;"
        if tree.word == "test":
            return ("?", Nest(STEP, group(self.formula(tree.kids[0]))), ";")
        return text(tree)

    def joined_parts(self, tree: Tree) -> list[tuple[str, Doc]]:
        """The parts of a sequence or of a choice, each behind its word. What groups to the right is one part where it is annotated itself."""
        spine, row = [tree], ROWS[tree.word]
        while spine[-1].kids[1].word == tree.word:
            spine.append(spine[-1].kids[1])
        parts = [(node.kids[0].word, self.within(node.kids[0], row.first)) for node in spine]
        last = spine[-1].kids[1]
        parts.append((last.word, self.within(last, row.later)))
        for place in range(len(spine) - 1, 0, -1):
            found = self.annotations(spine[place])
            if found:
                parts[place:] = [("", with_annotations(self.joined(tree.word, parts[place:]), found, False))]
        return parts

    def joined(self, word: str, parts: Sequence[tuple[str, Doc]]) -> Doc:
        """The parts of a sequence, or of a choice: they have lines of their own where they are long together. In a sequence `x := *;` and the
        tests behind it keep together where they fit on a line."""
        if word == "choice":
            first, *others = [Nest(1, group(part)) for _, part in parts]
            doc: Doc = (Pad(" "), first, *((Nest(-STEP, Line(" ")), "++ ", part) for part in others))
            return kept(doc, MOST_CHOICE)
        docs: list[Doc] = [parts[0][1]]
        for (before, _), (behind, part) in zip(parts, parts[1:]):
            here = (Line(" "), part)
            docs.append(group(here) if before == "any" and behind in ("any", "test") else here)
        return tuple(docs)

    def system(self, tree: Tree) -> Doc:
        """A system of differential equations with its domain."""
        terms = iter(tree.kids)
        items: list[Doc] = [(f"{item} = ", self.term(next(terms))) if evolves(item) else item for item in tree.detail.split(",")]
        domain = tree.kids[-1]
        if domain.word == "true":
            return bracketed("{", filled(items, ","), "}")
        least = 1 if domain.word == "and" else ROWS["and"].first
        return bracketed("{", (filled(items, ","), Line(" "), "& ", Nest(STEP, self.within(domain, least))), "}")

    # Annotations

    def noted(self, tree: Tree, doc: Doc, is_braced: bool) -> Doc:
        """A program with its annotations behind it, in braces where an annotation needs them."""
        return with_annotations(doc, self.annotations(tree), is_braced)

    def annotations(self, tree: Tree) -> list[Doc]:
        """The next annotation where it is one of this program, and those behind it if this layout is a greedy one."""
        found: list[Doc] = []
        while self.takes(tree, found) and self.is_greedy:
            pass
        return found

    def takes(self, tree: Tree, found: list[Doc]) -> bool:
        """Whether an annotation of this program comes next, which is found then: those of programs inside it stand before it."""
        begin, end = self.at, self.end
        number = next((number for number in range(begin, end) if self.notes[number].program is tree), None)
        if number is None:
            return False
        self.end = number
        formulas = [group(self.formula(formula)) for formula in self.notes[number].formulas]
        self.end = end
        if self.at != number:
            self.at = begin
            return False
        self.at += 1
        found.append(bracketed("@invariant(", filled(formulas, ","), ")"))
        return True


def with_annotations(doc: Doc, annotations: Sequence[Doc], is_braced: bool) -> Doc:
    """A program with these annotations behind it, each of which needs braces in front."""
    for annotation in annotations:
        doc = group(opened(doc if is_braced else bracketed("{", doc, "}")), annotation)
        is_braced = False
    return doc


def document(tree: Tree, notes: Sequence[Note]) -> Doc:
    """The document of a tree. Where a program stands several times in the tree, its annotations go to the first of its places that are left."""
    for is_greedy in (False, True):
        layout = Layout(notes, is_greedy)
        doc = layout.part(tree)
        if layout.at == len(notes):
            return Nest(STEP, group(Pad(" " * STEP), doc)) if tree.word == "choice" else group(doc)
    raise ValueError("these annotations aren't those of the tree")


def laid_out(tree: Tree, notes: Sequence[Note] = (), width: int = WIDTH) -> str:
    """The text of a tree with these annotations, without a line feed at its end."""
    return Sheet(width).put(document(tree, notes))


def laid_out_sequent(left: Iterable[Tree], right: Iterable[Tree], width: int = WIDTH, indent: str = "    ") -> list[str]:
    """The lines of a sequent: a formula behind its place, -1, -2 and so on on the left, 1, 2 and so on on the right, and the arrow between."""
    lines = []
    for sign, side in ((-1, left), (1, right)):
        for number, formula in enumerate(side, 1):
            front = f"{indent}{sign * number:>3}: "
            first, *others = laid_out(formula, width=max(width - len(front), 20)).split("\n")
            lines += [front + first, *(" " * len(front) + other for other in others)]
        if sign < 0:
            lines.append(f"{indent}     ==>")
    return lines


def laid_out_goal(goal: str, width: int = WIDTH, indent: str = "    ") -> list[str]:
    """The lines of a goal, given as the text of a sequent."""
    left, right = reader.sequent(goal, Trees())
    return laid_out_sequent(left, right, width, indent)


# Strategies

HARD = Group(Line(""), NEVER)
COMMENT = re.compile(r'"[^"]*"|(?P<comment>/\*.*?\*/)', re.DOTALL)


class Comment(NamedTuple):
    """A comment: its first byte, its lines, and whether it stands behind a part on a line that ends with it."""

    begin: int
    lines: tuple[str, ...]
    is_behind: bool


def moved_lines(before: str, comment: str) -> tuple[str, ...]:
    """The lines of a comment as they stand where it begins a line: `before` is what stood before it on its line."""
    first, *others = comment.split("\n")
    return (first.rstrip(), *(other[len(before) :].rstrip() if not other[: len(before)].strip() else other.strip() for other in others))


def comments_in(source: str) -> list[Comment]:
    """The comments of a strategy. Lines of a comment keep their places to each other."""
    found = []
    for here in COMMENT.finditer(source):
        if here["comment"]:
            before = source[source.rfind("\n", 0, here.start()) + 1 : here.start()]
            after = source[here.end() :].partition("\n")[0]
            is_behind = bool(before.strip(" \t\r")) and not after.strip(" \t\r")
            found.append(Comment(here.start(), moved_lines(before, here["comment"]), is_behind))
    return found


class StrategyLayout:
    """Makes the document of a strategy with these comments, each of which comes to stand at the part before which it stood."""

    def __init__(self, comments: Sequence[Comment]) -> None:
        self.comments = list(reversed(comments))

    def behind(self, end: int) -> Doc:
        """The comments up to a byte that stand behind a part."""
        found: list[Doc] = []
        while self.comments and self.comments[-1].begin < end and self.comments[-1].is_behind:
            found.append((" ", self.lines(), Group("", NEVER)))
        return tuple(found)

    def before(self, end: int) -> Doc:
        """The comments up to a byte, on lines of their own."""
        found: list[Doc] = []
        while self.comments and self.comments[-1].begin < end:
            found.append((self.lines(), HARD))
        return tuple(found)

    def lines(self) -> Doc:
        """The lines of the next comment, which is gone then."""
        first, *others = self.comments.pop().lines
        return (first, *((HARD, other) for other in others))

    def part(self, node: Part, is_inside: bool) -> Doc:
        """A part, which needs brackets inside of a sequence, a choice or a repeat."""
        while isinstance(node, strategies.Sequence) and len(node.parts) == 1:
            node = node.parts[0]
        comments = self.before(node.begin)
        if is_inside and isinstance(node, (Choice, strategies.Sequence)):
            return (comments, bracketed("(", self.bare(node), ")"))
        return (comments, self.bare(node))

    def bare(self, node: Part) -> Doc:
        """A part without brackets round it."""
        if isinstance(node, Atom):
            return atom_text(node)
        if isinstance(node, Repeat):
            return (self.part(node.body, True), f"*{node.times}")
        if isinstance(node, Choice):
            first, *others = [self.part(part, True) for part in node.parts]
            return (first, *(group(Line(" "), "| ", other) for other in others))
        return self.branch(node) if isinstance(node, Branch) else self.sequence(node)

    def sequence(self, node: strategies.Sequence) -> Doc:
        """Parts with `;` between: as many on a line as fit there, but a branch begins and ends lines where the sequence doesn't fit on one."""
        parts = node.parts
        docs: list[Doc] = [self.part(parts[0], True)]
        for place in range(1, len(parts)):
            part = parts[place]
            if isinstance(part, Branch):
                docs.append(("; ", self.branch(part)))
                continue
            is_apart = isinstance(parts[place - 1], Branch) or isinstance((*parts, None)[place + 1], Branch)
            comments = self.behind(part.begin)
            has_own_line = is_apart or comments or self.comments and self.comments[-1].begin < part.begin
            here = (Line(" "), self.part(part, True))
            docs.append((";", comments, here if has_own_line else group(here)))
        return group(*docs)

    def branch(self, node: Branch) -> Doc:
        """A branch, with a part a line where it is long."""
        inside: list[Doc] = []
        for place, part in enumerate(node.parts):
            inside += [(",", self.behind(part.begin), Line(" ")) if place else "", self.part(part, False)]
        last = (self.behind(node.end), *((HARD, self.lines()) for _ in range(self.count(node.end))))
        return kept(bracketed("<(", (*inside, last), ")"), MOST_BRANCH)

    def count(self, end: int) -> int:
        """How many comments are left up to a byte."""
        return sum(comment.begin < end for comment in self.comments)


def atom_text(atom: Atom) -> str:
    """The text of an atom."""
    said = ""
    for argument in atom.arguments:
        said += f'"{argument.text}", ' if argument.kind == "text" else f"{argument.text},"
    return f"{atom.name}({said.rstrip(', ')})" if said else atom.name


def laid_out_strategy(node: Part, source: str = "", width: int = WIDTH) -> str:
    """The text of a strategy with the comments of the text from which it was read, without a line feed at its end."""
    layout = StrategyLayout(comments_in(source))
    doc = (layout.part(node, False), layout.behind(len(source)))
    rest = [(HARD, layout.lines()) for _ in range(len(layout.comments))]
    return Sheet(width).put(group(*doc, *rest))
