"""Reads the texts of formulas, programs, terms, sequents and substitutions to trees. docs/LANGUAGE.md has the grammar, and the limits.

A text is a string of one character a byte (`latin-1`). What the program refuses is refused here, too, and for the same reason, at a byte, where
one is told; of a text that isn't in the grammar it may be another byte than the program names, where brackets hold a term and not a formula.
tests/test_reader.py compares the two. Nothing of this is proved.
"""

import re
from typing import Callable, Mapping, NamedTuple, NoReturn, Sequence, TypeVar

from dlkt.trees import FORMULA, MOST_ARGUMENTS, MOST_DEPTH, MOST_DIGITS, MOST_ITEMS, MOST_NODES, TERM, Tree, Trees, evolves

TOKEN = re.compile(
    r"(?P<blank>(?:[ \t\r\n]|/\*.*?\*/|//[^\n]*)+)|(?P<word>[A-Za-z][A-Za-z0-9_]*)|(?P<number>[0-9]+(?:\.[0-9]+)?)|(?P<dot>\._[0-7])"
    r"|(?P<mark>\\forall|\\exists|@invariant|\(\|\|\)|\(\||\|\)|\{\||\|\}|<->|==>|->|<=|>=|!=|:=|\+\+|~>|~~|[_()\[\]{}&|!=<>+\-*/^'?;,])",
    re.DOTALL,
)
COMPARISONS = {"=": "eq", "!=": "ne", ">=": "ge", ">": "gt", "<=": "le", "<": "lt"}
SUMS, PRODUCTS = {"+": "add", "-": "sub"}, {"*": "mul", "/": "div"}
END = "end"
MOST_LEVELS = 1_200  # of brackets
Part = TypeVar("Part")


class Wrong(Exception):
    """The text is none of its kind from this byte on, and why: `byte`, `literal`, `nesting`, `syntax` or `shape`, or, of the whole text, `size` or
    `depth`."""

    def __init__(self, byte: int, why: str = "syntax") -> None:
        super().__init__(f"no text goes on at byte {byte}: {why}")
        self.byte, self.why = byte, why


class Token(NamedTuple):
    """A word, a number, a dot or a mark with its text and its first byte."""

    kind: str
    text: str
    byte: int


class Either(NamedTuple):
    """What a text is as a term and as a formula, one of which may be missing."""

    term: Tree | None
    formula: Tree | None


class Note(NamedTuple):
    """What stands in `@invariant(..)` behind a loop or a system: the tree of the program, and the formulas."""

    program: Tree
    formulas: tuple[Tree, ...]


def canonical(number: str) -> str:
    """The text of a number without zeros in front and at the end of its fraction."""
    integer, _, fraction = number.partition(".")
    fraction = fraction.rstrip("0")
    return (integer.lstrip("0") or "0") + (f".{fraction}" if fraction else "")


def tokens(text: str) -> list[Token]:
    """The tokens of a text, and its end."""
    found: list[Token] = []
    at = 0
    while at < len(text):
        here = TOKEN.match(text, at)
        if here is None or here[0] == "/" and text.startswith("/*", at):
            raise Wrong(at, "byte")
        kind, said = here.lastgroup or "", here[0]
        if kind == "word" and said in ("true", "false"):
            kind = "mark"
        if kind != "blank":
            found.append(Token(kind, said, at))
        at += len(said)
    look_at_limits(found)
    return [*found, Token(END, "", len(text))]


def look_at_limits(found: Sequence[Token]) -> None:
    """Refuses a literal with too many digits, and else a bracket that opens one level too many."""
    for token in found:
        if token.kind == "number" and len(token.text.replace(".", "")) > MOST_DIGITS:
            raise Wrong(token.byte, "literal")
    level = 0
    for token in found:
        if token.text in ("(", "[", "{"):
            if level == MOST_LEVELS:
                raise Wrong(token.byte, "nesting")
            level += 1
        elif token.text in (")", "]", "}"):
            level = max(0, level - 1)


class Reader:
    """Reads a text from front to end, into these trees."""

    def __init__(self, text: str, trees: Trees, has_dots: bool = False) -> None:
        self.tokens, self.at, self.make, self.has_dots = tokens(text), 0, trees.make, has_dots
        self.notes: list[Note] = []
        self.shapes: list[int] = []

    # Tokens

    def sees(self, *texts: str) -> bool:
        """Whether these tokens stand here."""
        here = self.tokens[self.at : self.at + len(texts)]
        return [token.text for token in here] == list(texts) and here[-1].kind != END

    def next(self) -> str:
        """The text of the token here, which is gone over."""
        self.at += 1
        return self.tokens[self.at - 1].text

    def take(self, *texts: str) -> bool:
        """Goes over these tokens, where they stand here."""
        if not self.sees(*texts):
            return False
        self.at += len(texts)
        return True

    def need(self, text: str) -> None:
        """Goes over a token that must stand here."""
        if not self.take(text):
            self.stop()

    def stop(self) -> NoReturn:
        """Refuses the text at the token here."""
        raise Wrong(self.tokens[self.at].byte)

    def name(self) -> str:
        """A name, which must stand here."""
        if self.tokens[self.at].kind != "word":
            self.stop()
        return self.next()

    def behind(self, ahead: int) -> Token:
        """The token so many places ahead."""
        return self.tokens[min(self.at + ahead, len(self.tokens) - 1)]

    def whole(self, part: Callable[[], Part]) -> Part:
        """What a reader reads, behind which the text must end."""
        found = part()
        if self.tokens[self.at].kind != END:
            self.stop()
        if self.shapes:
            raise Wrong(min(self.shapes), "shape")
        return found

    def small(self, tree: Tree) -> Tree:
        """A tree, which must be within the limits."""
        if tree.size > MOST_NODES or tree.depth > MOST_DEPTH:
            raise Wrong(self.tokens[-1].byte, "size" if tree.size > MOST_NODES else "depth")
        return tree

    def listed(self, part: Callable[[], Part]) -> list[Part]:
        """One or more parts with commas between."""
        found = [part()]
        while self.take(","):
            found.append(part())
        return found

    # Formulas

    def formula(self) -> Tree:
        """A formula."""
        return self.must(self.either(), FORMULA)

    def term(self) -> Tree:
        """A term."""
        return self.must(self.sum(), TERM)

    def formula_or_term(self) -> Tree:
        """A formula, or what is a term alone."""
        found = self.either()
        return self.must(found, TERM if found.formula is None else FORMULA)

    def must(self, either: Either, sort: str) -> Tree:
        """What the text is of this sort, which it must be."""
        found = either.formula if sort == FORMULA else either.term
        if found is None:
            self.stop()
        return found

    def either(self) -> Either:
        """A formula or a term, from the loosest operator on."""
        return self.right_side("equiv", "<->", lambda: self.right_side("imply", "->", self.disjunction))

    def disjunction(self) -> Either:
        """A formula of `|` and what binds tighter, or a term."""
        return self.right_side("or", "|", lambda: self.right_side("and", "&", self.unary))

    def right_side(self, word: str, mark: str, part: Callable[[], Either]) -> Either:
        """Parts with an operator between that groups to the right."""
        parts = [part()]
        while self.sees(mark):
            self.must(parts[-1], FORMULA)
            self.next()
            parts.append(part())
        if len(parts) == 1:
            return parts[0]
        found = self.must(parts[-1], FORMULA)
        for one in reversed(parts[:-1]):
            found = self.make(word, "", self.must(one, FORMULA), found)
        return Either(None, found)

    def unary(self) -> Either:
        """A formula behind prefixes, a comparison, or a term."""
        prefixes: list[tuple[str, str, tuple[Tree, ...]]] = []
        while True:
            if self.take("!"):
                prefixes.append(("not", "", ()))
            elif self.sees("\\forall") or self.sees("\\exists"):
                prefixes.append((self.next().lstrip("\\"), self.name(), ()))
            elif self.sees("[") or self.sees("<"):
                opening = self.next()
                inside = self.program()
                self.need("]" if opening == "[" else ">")
                prefixes.append(("box" if opening == "[" else "dia", "", (inside,)))
            else:
                break
        found = self.comparison()
        if not prefixes:
            return found
        formula = self.must(found, FORMULA)
        for word, detail, before in reversed(prefixes):
            formula = self.make(word, detail, *before, formula)
        return Either(None, formula)

    def comparison(self) -> Either:
        """A comparison, a formula without an operator in front, or a term."""
        for word, text in (("true", "true"), ("false", "false"), ("hole", "_")):
            if (word != "hole" or self.has_dots) and self.take(text):
                return Either(None, self.make(word))
        left = self.sum()
        comparison = COMPARISONS.get(self.tokens[self.at].text)
        if comparison is None:
            return left
        term = self.must(left, TERM)
        self.next()
        return Either(None, self.make(comparison, "", term, self.term()))

    # Terms

    def sum(self) -> Either:
        """Terms with `+` and `-` between, or what stands in their place."""
        return self.left_side(SUMS, lambda: self.left_side(PRODUCTS, self.signed))

    def left_side(self, words: Mapping[str, str], part: Callable[[], Either]) -> Either:
        """Parts with operators between that group to the left."""
        found = part()
        while self.tokens[self.at].text in words and self.tokens[self.at].kind == "mark":
            left = self.must(found, TERM)
            word = words[self.next()]
            found = Either(self.make(word, "", left, self.must(part(), TERM)), None)
        return found

    def signed(self) -> Either:
        """A term behind signs, or what stands in its place."""
        signs = 0
        while self.take("-"):
            signs += 1
        found = self.power()
        if not signs:
            return found
        term = self.must(found, TERM)
        for _ in range(signs):
            term = self.make("neg", "", term)
        return Either(term, None)

    def power(self) -> Either:
        """A power, or its base alone."""
        base = self.primary()
        if not self.sees("^"):
            return base
        term = self.must(base, TERM)
        self.next()
        return Either(self.make("pow", "", term, self.must(self.signed(), TERM)), None)

    def primary(self) -> Either:
        """A term or a formula without an operator outside brackets."""
        token = self.tokens[self.at]
        if token.kind == "number":
            return Either(self.make("num", canonical(self.next())), None)
        if token.kind == "dot" and self.has_dots:
            return Either(self.make("dot", self.next()[2:]), None)
        if token.kind == "word":
            begin = len(self.shapes)
            self.shapes.append(token.byte)
            found, count = self.named(self.next())
            if count <= MOST_ARGUMENTS:
                del self.shapes[begin]
            return found
        self.need("(")
        found = self.either()
        self.need(")")
        if not self.take("'"):
            return found
        return Either(*(kid and self.make(word, "", kid) for word, kid in (("diff", found.term), ("difff", found.formula))))

    def named(self, name: str) -> tuple[Either, int]:
        """A variable or a symbol, behind its name, and how many arguments it has."""
        if self.take("'"):
            return Either(self.make("var", f"{name}'"), None), 0
        if self.take("(||)"):
            return Either(self.make("ufun", name), self.make("upred", name)), 0
        if self.take("(|"):
            detail = f"{name}|{self.name()}|"
            self.need("|)")
            return Either(self.make("ufun", detail), self.make("upred", detail)), 0
        if self.take("{"):
            inside = self.formula()
            self.need("}")
            return Either(None, self.make("quant", name, inside)), 0
        if not self.take("("):
            return Either(self.make("var", name), None), 0
        terms = [] if self.sees(")") else self.listed(self.term)
        self.need(")")
        return Either(self.make("app", name, *terms), self.make("holds", name, *terms)), len(terms)

    # Programs

    def program(self) -> Tree:
        """A program."""
        parts = [self.sequence()]
        while self.take("++"):
            parts.append(self.sequence())
        return self.grouped("choice", parts)

    def grouped(self, word: str, parts: Sequence[Tree]) -> Tree:
        """Parts of an operator that groups to the right."""
        found = parts[-1]
        for part in reversed(parts[:-1]):
            found = self.make(word, "", part, found)
        return found

    def sequence(self) -> Tree:
        """Statements one after another."""
        parts = [self.statement()]
        while self.tokens[self.at].kind == "word" or self.sees("?") or self.sees("{"):
            parts.append(self.statement())
        return self.grouped("seq", parts)

    def statement(self) -> Tree:
        """A statement."""
        if self.take("?"):
            found = self.make("test", "", self.formula())
        elif self.sees("{"):
            return self.group()
        else:
            name = self.name()
            if self.take(";"):
                return self.make("const", name)
            if self.take(":=", "*"):
                found = self.make("any", name)
            else:
                variable = f"{name}'" if self.take("'") else name
                self.need(":=")
                found = self.make("assign", variable, self.term())
        self.need(";")
        return found

    def group(self) -> Tree:
        """A program or a system in braces, a star and an invariant behind it, where they are there."""
        found = self.braced()
        if self.take("*"):
            found = self.make("loop", "", found)
        if self.take("@invariant"):
            self.need("(")
            self.notes.append(Note(found, tuple(self.listed(self.formula))))
            self.need(")")
        self.take(";")
        return found

    def braced(self) -> Tree:
        """A program or a system in braces."""
        after, later = self.behind(2).text, self.behind(3).text
        is_item = self.behind(1).kind == "word" and (after in (",", "}", "&", "{|") or after == "'" and later == "=")
        if is_item:
            return self.system()
        self.need("{")
        found = self.program()
        self.need("}")
        return found

    def system(self) -> Tree:
        """A system in braces."""
        begin = self.tokens[self.at].byte
        self.need("{")
        items, terms = [], []
        for item, term in self.listed(self.item):
            items.append(item)
            terms += term
        domain = self.formula() if self.take("&") else self.make("true")
        self.need("}")
        evolved = [item for item in items if evolves(item)]
        if len(items) > MOST_ITEMS or len(set(evolved)) < len(evolved):
            self.shapes.append(begin)
        return self.make("system", ",".join(items), *terms, domain)

    def item(self) -> tuple[str, list[Tree]]:
        """An item of a system, and its term where it has one."""
        name = self.name()
        if self.take("'"):
            self.need("=")
            return f"{name}'", [self.term()]
        if self.take("{|"):
            name = f"{name}{{|{self.name()}|}}"
            self.need("|}")
        return name, []

    # Sequents and substitutions

    def sequent(self) -> tuple[list[Tree], list[Tree]]:
        """The formulas of both sides of a sequent."""
        left = [] if self.sees("==>") else self.listed(self.formula)
        self.need("==>")
        return left, [] if self.tokens[self.at].kind == END else self.listed(self.formula)

    def pairs(self) -> list[tuple[str, Tree]]:
        """The pairs of a substitution: each a symbol in its canonical spelling, and a tree."""
        return [] if self.tokens[self.at].kind == END else self.listed(self.pair)

    def pair(self) -> tuple[str, Tree]:
        """A pair."""
        is_term = self.sees("term") and self.behind(1).kind == "word"
        self.at += is_term
        if self.sees("{"):
            symbol = self.ode()
            self.need("~>")
            return symbol, self.system()
        name = self.name()
        if self.take(";"):
            self.need("~>")
            return f"{name};", self.program()
        if self.take("{", "_", "}"):
            self.need("~>")
            return f"{name}{{_}}", self.formula()
        symbol = name + self.arguments()
        self.need("~>")
        found = self.either()
        return symbol, self.must(found, TERM if is_term or found.formula is None else FORMULA)

    def ode(self) -> str:
        """The symbol of an ODE constant."""
        self.need("{")
        item, terms = self.item()
        self.need("}")
        if terms:
            self.stop()
        return f"{{{item}}}"

    def arguments(self) -> str:
        """The brackets behind the name of a symbol."""
        if self.take("(||)"):
            return "(||)"
        if self.take("(|"):
            taboo = self.name()
            self.need("|)")
            return f"(|{taboo}|)"
        self.need("(")
        dots: list[str] = []
        while not self.sees(")"):
            if dots:
                self.need(",")
            if self.tokens[self.at].text != f"._{len(dots)}":
                self.stop()
            dots.append(self.next())
        self.need(")")
        return f"({','.join(dots)})"


def formula(text: str, trees: Trees) -> Tree:
    """The tree of a formula."""
    return model(text, trees)[0]


def model(text: str, trees: Trees) -> tuple[Tree, list[Note]]:
    """The tree of a model, and its annotations in the order in which their ends stand."""
    reader = Reader(text, trees)
    return reader.small(reader.whole(reader.formula)), reader.notes


def sequent(text: str, trees: Trees) -> tuple[list[Tree], list[Tree]]:
    """The trees on the two sides of a sequent."""
    reader = Reader(text, trees)
    left, right = reader.whole(reader.sequent)
    return [*map(reader.small, left)], [*map(reader.small, right)]


def pairs(text: str, trees: Trees) -> list[tuple[str, Tree]]:
    """The pairs of a substitution."""
    reader = Reader(text, trees, has_dots=True)
    return [(symbol, reader.small(tree)) for symbol, tree in reader.whole(reader.pairs)]


def expression(text: str, trees: Trees) -> Tree:
    """The tree of a formula, a program or a term, with argument dots and `_`; what is a formula and a term is taken as the formula."""
    faults = []
    for read in (Reader.formula_or_term, Reader.program):
        reader = Reader(text, trees, has_dots=True)
        try:
            return reader.small(reader.whole(lambda: read(reader)))
        except Wrong as fault:
            faults.append(fault)
    raise max(faults, key=lambda fault: fault.byte if fault.why == "syntax" else len(text) + 1)
