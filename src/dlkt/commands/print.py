"""Shows a model or a strategy laid out: with line breaks and indentation by its structure, and with its comments.

    dlkt print FILE [--width N]

FILE is a model, or a formula, a program or a term of the language of models, or a strategy; - is standard input. What is printed is read as what
FILE is, with the same annotations. Comments stand where they stood, as far as the lines go: one behind a part at the end of the part's line, any
other above the line with the part before which it stood. What is no text of any kind is refused at the place up to which it is one, with status 2.
"""

import argparse
import sys
from typing import NamedTuple

from dlkt import reader, strategies
from dlkt.layout import WIDTH, laid_out, laid_out_strategy, moved_lines
from dlkt.program import Refused, position, read_bytes
from dlkt.reader import TOKEN, canonical
from dlkt.trees import Trees

OPENERS, CLOSERS = ("(", "{"), (")", "}")
LOOSE = (*OPENERS, *CLOSERS, ";")  # what may be written or left out
NO_DOMAIN = ["&", "true"]


class Remark(NamedTuple):
    """A comment of a model: before which of the text's solid tokens it stands, its lines, whether other tokens stand before it on its line, and
    how many brackets close and open between the token before and the comment, and how many close between it and the token behind."""

    place: int
    lines: tuple[str, ...]
    is_behind: bool
    closers_before: int
    openers_before: int
    closers_behind: int


class Tokens:
    """The solid tokens of a text, which are all but `;` and brackets round something; and for each the loose ones before it, with their bytes."""

    def __init__(self, text: str) -> None:
        self.text = text
        self.solid: list[str] = []
        self.begins: list[int] = []
        self.loose: list[list[tuple[str, int]]] = [[]]
        self.comments: list[tuple[int, int, str]] = []
        at, before = 0, -1
        while at < len(text):
            here = TOKEN.match(text, at)
            if here is None:
                raise reader.Wrong(at)
            if here.lastgroup == "blank":
                self.take_comments(at, here[0])
            elif here[0] == ")" and self.loose[-1][-1:] == [("(", before)]:
                self.loose[-1].pop()
                self.take_solid("(", before)
                self.take_solid(")", at)
            elif here[0] in LOOSE:
                self.loose[-1].append((here[0], at))
            else:
                self.take_solid(canonical(here[0]) if here.lastgroup == "number" else here[0], at)
            before = before if here.lastgroup == "blank" else at
            at += len(here[0])

    def take_solid(self, token: str, at: int) -> None:
        """Takes a token that is solid."""
        self.solid.append(token)
        self.begins.append(at)
        self.loose.append([])

    def take_comments(self, at: int, blank: str) -> None:
        """Takes the comments between two tokens."""
        inside = 0
        while inside < len(blank):
            end = inside + 1
            if blank.startswith("/*", inside):
                end = blank.index("*/", inside) + 2
            elif blank.startswith("//", inside):
                end = (blank + "\n").index("\n", inside)
            if end > inside + 1:
                self.comments.append((len(self.solid), at + inside, blank[inside:end]))
            inside = end

    def remarks(self) -> list[Remark]:
        """The comments, each with its place."""
        found = []
        for place, begin, comment in self.comments:
            before = self.text[self.text.rfind("\n", 0, begin) + 1 : begin]
            loose = [(token in CLOSERS, token in OPENERS, at > begin) for token, at in self.loose[place]]
            counts = (loose.count(wanted) for wanted in ((True, False, False), (False, True, False), (True, False, True)))
            found.append(Remark(place, moved_lines(before, comment), bool(place and before.strip()), *counts))
        return found


def matched(source: Tokens, printed: Tokens) -> list[int]:
    """For each solid token of the source the place of the same one as it is printed, and of the end; domains that are `true` aren't printed."""
    places, at = [], 0
    wanted = source.solid
    number = 0
    while number < len(wanted):
        if at < len(printed.solid) and printed.solid[at] == wanted[number]:
            places.append(at)
            at, number = at + 1, number + 1
        elif wanted[number : number + 2] == NO_DOMAIN:
            places += [at, at]
            number += 2
        else:
            raise ValueError("what is printed has other tokens")
    return [*places, at]


def with_comments(text: str, printed: str, width: int) -> str:
    """What is printed of a text, with the text's comments."""
    source, target = Tokens(text), Tokens(printed)
    if not source.comments:
        return printed
    places, lines = matched(source, target), printed.split("\n")
    above: dict[int, list[Remark]] = {}

    for remark in source.remarks():
        number = printed.count("\n", 0, byte_for(remark, target, places[remark.place]))
        if remark.is_behind and len(remark.lines) == 1 and len(lines[number]) + len(remark.lines[0]) + 2 <= width:
            lines[number] += f"  {block(remark.lines[0])}"
        else:
            above.setdefault(number, []).append(remark)
    return "\n".join(line for number in range(len(lines)) for line in (*said_above(lines, number, above.get(number, [])), lines[number]))


def byte_for(remark: Remark, target: Tokens, place: int) -> int:
    """The byte to whose line a comment belongs: of the token before it where it stands behind one on its line, else of that behind it."""
    closers = [at for token, at in target.loose[place] if token in CLOSERS]
    openers = [at for token, at in target.loose[place] if token in OPENERS and at > max(closers, default=-1)]
    if remark.is_behind and place:
        before = [target.begins[place - 1], *closers, *openers]
        count = min(remark.closers_before, len(closers))
        return before[len(closers) + min(remark.openers_before, len(openers)) if remark.openers_before and openers else count]
    if remark.closers_behind and closers:
        return closers[-min(remark.closers_behind, len(closers))]
    behind = [*openers, target.begins[place] if place < len(target.begins) else len(target.text) - 1]
    return behind[min(remark.openers_before, len(openers))]


def block(comment: str) -> str:
    """A comment that may stand anywhere in a line."""
    is_plain = comment.startswith("//") and "*/" not in comment
    return f"/*{comment[2:].rstrip()} */" if is_plain else comment


def said_above(lines: list[str], number: int, remarks: list[Remark]) -> list[str]:
    """The lines of these comments, indented as the line below them, or, before a bracket that closes, as the line above; not at all in front."""
    if not remarks:
        return []
    model = lines[number - 1] if number and lines[number].lstrip()[:1] in CLOSERS else lines[number]
    indent = " " * (len(model) - len(model.lstrip())) if number else ""
    return [(indent + line).rstrip() for remark in remarks for line in remark.lines]


def printed_model(text: str, width: int) -> str:
    """A model, a formula, a program or a term, laid out with its comments. `reader.Wrong` where the text is none."""
    trees = Trees()
    try:
        tree, notes = reader.model(text, trees)
    except reader.Wrong as formula_fault:
        try:
            tree, notes = reader.expression(text, trees), []
        except reader.Wrong as fault:
            raise max(formula_fault, fault, key=lambda one: one.byte) from None
        again = reader.Reader(text, trees, has_dots=True)
        if tree.sort == "program":
            again.whole(again.program)
            notes = again.notes
    return with_comments(text, laid_out(tree, notes, width), width)


def printed(text: str, width: int) -> str:
    """A text of any kind, laid out. Refused at its place where it is none."""
    try:
        return printed_model(text, width)
    except reader.Wrong as fault:
        first = fault.byte
    try:
        return laid_out_strategy(strategies.read(text), text, width)
    except strategies.Wrong as fault:
        place = position(text, max(first, fault.byte))
    raise Refused(f"{place.line}:{place.column}: this is no model and no strategy from here on")


HELP = "shows a model or a strategy laid out, with its comments"
EXAMPLE = "dlkt print examples/tutorial/car/model"


def add_words(parser: argparse.ArgumentParser) -> None:
    """The words of the command."""
    parser.add_argument("file", metavar="FILE")
    parser.add_argument("--width", type=int, default=WIDTH, metavar="N", help=f"how wide the lines may be, where that can be ({WIDTH})")


def run(options: argparse.Namespace) -> int:
    """Prints the file that the words name."""
    data = sys.stdin.buffer.read() if options.file == "-" else read_bytes(options.file)
    try:
        text = printed(data.decode("latin-1"), options.width)
    except Refused as why:
        raise Refused(f"{options.file}:{why}") from why
    sys.stdout.buffer.write(f"{text}\n".encode("latin-1"))
    return 0
