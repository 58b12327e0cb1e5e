"""Reads the text of a strategy into its parts, each with the bytes at which it stands. docs/STRATEGIES.md has the language.

The text is a string of one character a byte (`latin-1`), so that places in it are those that the program prints.
"""

import re
from typing import NamedTuple, Union

# Whether a word is one, and its arguments are those that it wants, is for the program to judge: here only the syntax is read.
BLANK = re.compile(r"(?:\s|/\*.*?\*/)*", re.DOTALL)
NAME = re.compile(r"[A-Za-z][A-Za-z0-9_]*")
PLACE = re.compile(r"-?\d{1,9}(?:\s*\.\s*\d{1,9})*")
NUMBER = re.compile(r"\d{1,9}")
LOCATOR = re.compile(r"'[LR]")
TEXT = re.compile(r'"([^"]*)"')
MOST_LEVELS = 64


class Wrong(Exception):
    """The text is no strategy from this byte on."""

    def __init__(self, byte: int) -> None:
        super().__init__(f"no strategy goes on at byte {byte}")
        self.byte = byte


class Argument(NamedTuple):
    """An argument of an atom: `place`, `locator`, `name` or `text`; its text, without the quotes; and its first byte."""

    kind: str
    text: str
    begin: int


class Atom(NamedTuple):
    """A word of a strategy with its arguments."""

    begin: int
    end: int
    name: str
    arguments: tuple[Argument, ...]


class Choice(NamedTuple):
    """`s | t`: the first part that doesn't fail."""

    begin: int
    end: int
    parts: "tuple[Part, ...]"


class Sequence(NamedTuple):
    """`s; t`: one part after another, each on all goals that are left."""

    begin: int
    end: int
    parts: "tuple[Part, ...]"


class Branch(NamedTuple):
    """`<(s, t)`: a part for each goal."""

    begin: int
    end: int
    parts: "tuple[Part, ...]"


class Repeat(NamedTuple):
    """`s*n`."""

    begin: int
    end: int
    body: "Part"
    times: int


# A strategy, and each part of one.
Part = Union[Atom, Choice, Sequence, Branch, Repeat]


class Reader:
    """Reads a strategy from front to end."""

    def __init__(self, text: str) -> None:
        self.text, self.at, self.levels = text, 0, 0
        self.skip()

    def skip(self) -> None:
        """Goes over blanks and comments."""
        found = BLANK.match(self.text, self.at)
        self.at = found.end() if found else self.at

    def sees(self, mark: str) -> bool:
        """Whether this mark stands here."""
        return self.text.startswith(mark, self.at)

    def take(self, mark: str) -> bool:
        """Goes over a mark and the blanks behind it, where it stands here."""
        if not self.sees(mark):
            return False
        self.at += len(mark)
        self.skip()
        return True

    def need(self, mark: str) -> None:
        """Goes over a mark that must stand here."""
        if not self.take(mark):
            raise Wrong(self.at)

    def match(self, pattern: re.Pattern[str]) -> re.Match[str]:
        """What the pattern matches here, without the blanks behind it, and its end."""
        found = pattern.match(self.text, self.at)
        if not found:
            raise Wrong(self.at)
        self.at = found.end()
        self.skip()
        return found

    def whole(self) -> Part:
        """The strategy, behind which the text ends."""
        node = self.strategy()
        if self.at != len(self.text):
            raise Wrong(self.at)
        return node

    def strategy(self) -> Part:
        """Sequences with `|` between."""
        parts = [self.sequence()]
        while self.take("|"):
            parts.append(self.sequence())
        return parts[0] if len(parts) == 1 else Choice(parts[0].begin, parts[-1].end, tuple(parts))

    def sequence(self) -> Part:
        """Parts with `;` between."""
        parts = [self.repeated()]
        while self.take(";"):
            parts.append(self.branch() if self.sees("<(") else self.repeated())
        return parts[0] if len(parts) == 1 else Sequence(parts[0].begin, parts[-1].end, tuple(parts))

    def opens(self, mark: str) -> bool:
        """Goes over a mark that opens a level, where it stands here."""
        if self.sees(mark) and self.levels == MOST_LEVELS:
            raise Wrong(self.at)
        opened = self.take(mark)
        self.levels += opened
        return opened

    def closes(self) -> int:
        """Goes over the bracket that ends a level, and answers the byte behind it."""
        end = self.at + 1
        self.need(")")
        self.levels -= 1
        return end

    def branch(self) -> Branch:
        """`<(`, strategies with commas between, and `)`."""
        begin = self.at
        self.opens("<(")
        parts = [self.strategy()]
        while self.take(","):
            parts.append(self.strategy())
        return Branch(begin, self.closes(), tuple(parts))

    def repeated(self) -> Part:
        """A part, and how often it is repeated."""
        node = self.primary()
        while self.take("*"):
            number = self.match(NUMBER)
            node = Repeat(node.begin, number.end(), node, int(number[0]))
        return node

    def primary(self) -> Part:
        """A strategy in brackets, with them, or an atom."""
        begin = self.at
        if self.opens("("):
            node = self.strategy()
            end = self.closes()
            return Sequence(begin, end, (node,)) if isinstance(node, Atom) else node._replace(begin=begin, end=end)
        name = self.match(NAME)
        if not self.take("("):
            return Atom(name.start(), name.end(), name[0], ())
        arguments = [self.argument()]
        while self.take(","):
            arguments.append(self.argument())
        end = self.at + 1
        self.need(")")
        return Atom(name.start(), end, name[0], tuple(arguments))

    def argument(self) -> Argument:
        """A place, a locator, a name or a text in quotes."""
        begin = self.at
        if self.sees("'"):
            return Argument("locator", self.match(LOCATOR)[0], begin)
        if self.sees('"'):
            return Argument("text", self.match(TEXT)[1], begin)
        if self.text[begin : begin + 1].isalpha():
            return Argument("name", self.match(NAME)[0], begin)
        return Argument("place", re.sub(r"\s", "", self.match(PLACE)[0]), begin)


def read(text: str) -> Part:
    """The strategy of a text. `Wrong` where it is none."""
    return Reader(text).whole()


def kids(node: Part) -> tuple[Part, ...]:
    """The parts of a part."""
    if isinstance(node, Atom):
        return ()
    return (node.body,) if isinstance(node, Repeat) else node.parts


def atoms(node: Part) -> list[Atom]:
    """The atoms of a strategy, in the order of the text."""
    waiting, found = [node], list[Atom]()
    while waiting:
        here = waiting.pop()
        if isinstance(here, Atom):
            found.append(here)
        waiting.extend(reversed(kids(here)))
    return found


def way_to(node: Part, byte: int) -> list[Part] | None:
    """The parts from the whole down to the atom or the branch that begins at a byte; none where nothing begins there."""
    if isinstance(node, (Atom, Branch)) and node.begin == byte:
        return [node]
    for kid in kids(node):
        if kid.begin <= byte < kid.end or kid.begin == byte:
            below = way_to(kid, byte)
            if below:
                return [node, *below]
    return None


def line_of(text: str, node: Part) -> str:
    """The text of a part on one line."""
    return re.sub(r"\s+", " ", re.sub(r"/\*.*?\*/", " ", text[node.begin : node.end], flags=re.DOTALL)).strip()
