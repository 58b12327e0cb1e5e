"""Says of each line of a term which word of the strategy made it. A line is a step, in a term of either version.

    dlkt words MODEL STRATEGY [--dlk PROGRAM]     prints each word with its lines

How it knows. The strategy is run, and its lines are shared out among its words by their shapes: a rule makes one line of its name, a use
of an axiom an instance and so many lines behind it, and so on. Shapes alone may mislead where a choice or a repeat has words alike. So
the words that were found are written as a strategy without any choice to make: each choice stands as the part that was taken, behind
those that weren't, and each repeat as the parts that it did, behind them its body once more where it ended early. In front of what must
fail stands a line of its own, which would stay if it didn't. This strategy is run, and where it makes the same term, byte by byte, the
words are right. Where it doesn't, another sharing is tried, and at last nothing is said: all lines have none.
"""

import argparse
import re
import tempfile
from pathlib import Path
from typing import Collection, NamedTuple

from dlkt import strategies
from dlkt.calculus import AXIOMS, CONNECTIVES, DERIVES, PREMISES, STEPS
from dlkt.program import Answer, Name, Refused, add_options, answer, complaint_of, has_report, position, program_of, read_bytes, refusal_in
from dlkt.strategies import Argument, Atom, Branch, Choice, Part, Repeat, Sequence
from dlkt.terms import readable

# What a name of the library stands for at a place, as docs/STRATEGIES.md says it.
EXPANSIONS = {
    "prop": " | ".join(word if word.startswith("close") else f"{word}('{word[-1]})" for word in CONNECTIVES).join(("(", ")*200")),
    "step": " | ".join(f"useAt({axiom},{{0}})" for axiom in STEPS),
    "dC": "useAt(DC,{0})",
    "dG": "useAt(DG,{0})",
    "dW": "useAt(DWeq,{0}); G({0}); implyR(1)",
    "dI": "useAt(DI,{0}); <(useAt(testb,{0}); implyR({0}), implyR({0}))",
    "loop": "boxCut({0}); <(cutR({0}); <(nil, useAt(I,{0}); G({0}); implyR(1)), nil)",
}
# The lines of words that always make the same ones, of which `main` is the line before them, and how many goals they leave.
FIXED = {
    "leaf": ("leaf, merge {main} {goal} {next}", 0),
    "G": ("rule G, subst, apply {main} {goal} coHideR(, merge", 1),
    "boxCut": ("axiom K, subst, rule G, subst, apply {main} {goal} cutR(, apply, apply, merge, merge, apply", 2),
}
# A line that changes nothing of a goal but an empty one. It would show that what stands behind it didn't fail.
MARK = '(exchangeR(1,1)|exchangeL(-1,-1)|cut("true"))'
# How often another sharing of lines is tried.
TRIES = 12
# What stands before each word that is run again: the first line that it made.
FIRST_LINE = re.compile(r"/\*(\d+)\*/")
LINE = re.compile(r"\d+ (\w+) (.*)", re.DOTALL)


class Run(NamedTuple):
    """One run of a word: its first and its last line, its byte in the strategy, its text, and the goal on which it ran."""

    first: int
    last: int
    byte: int
    word: str
    goal: int


# What a part of a strategy made: how many goals are left, and the text of what was done.
Done = tuple[int, str]
# A line of a term: its word, and what stands behind.
Line = tuple[str, str]
Arguments = tuple[Argument, ...]


class Mismatch(Exception):
    """The lines from here on aren't those of this part."""


class Sharing:
    """Shares the lines of a term out among the words of a strategy. `at` is how many lines have been given away."""

    def __init__(self, text: str, lines: list[Line], refuted: set[tuple[int, int]]) -> None:
        self.text, self.lines, self.refuted = text, lines, refuted
        self.at, self.runs = 1, list[Run]()

    # Strategies. Each answers how many goals are left, and the text of what was done.

    def on_one(self, node: Part, goal: int) -> Done:
        """A strategy on one goal."""
        if isinstance(node, Atom):
            return self.word(node, goal)
        if isinstance(node, Choice):
            return self.choice(node, goal)
        if isinstance(node, Repeat):
            return self.turns(node.body, node.times, goal)
        return self.sequence(node, goal)

    def attempt(self, node: Part, goal: int) -> Done | None:
        """The same, or none where the lines aren't its own; then none of them is given away."""
        at, known = self.at, len(self.runs)
        try:
            return self.on_one(node, goal)
        except Mismatch:
            self.at = at
            del self.runs[known:]
            return None

    def sequence(self, node: Sequence | Branch, goal: int) -> Done:
        """One part after another."""
        goals, done = 1, []
        for part in node.parts:
            if isinstance(part, Branch):
                goals, text = self.each(part.parts, goal, goals)
            else:
                goals, text = self.each([part] * goals, goal, goals)
            if text:
                done.append(text)
        return goals, "; ".join(done) or "nil"

    def each(self, parts: Collection[Part], goal: int, goals: int) -> Done:
        """A part for each goal."""
        if len(parts) != goals:
            raise Mismatch
        left, texts = 0, []
        for part in parts:
            more, text = self.on_one(part, goal + left)
            left += more
            texts.append(text)
        return left, side_by_side(texts)

    def choice(self, node: Choice, goal: int) -> Done:
        """The first part whose lines stand here, behind those before it."""
        failed: list[str] = []
        for part in node.parts:
            done = self.attempt(part, goal)
            if done:
                left, text = done
                return left, f"({' | '.join([*failed, text])})" if failed else text
            failed.append(f"({MARK}; ({self.source(part)}))")
        raise Mismatch

    def turns(self, body: Part, times: int, goal: int) -> Done:
        """A body as often as its lines stand here, so many times at most. While there is one goal the texts stand one behind another."""
        done = []
        while times > 0:
            before = self.at
            taken = self.attempt(body, goal)
            if taken is None:
                done.append(f"({MARK}; ({self.source(body)}))*1")
                break
            goals, text = taken
            done.append(text)
            if self.at == before:
                break
            times -= 1
            if goals != 1:
                left, text = self.each([Repeat(body.begin, body.end, body, times)] * goals, goal, goals)
                return left, "; ".join([*done, text] if text else done)
        return 1, "; ".join(done) or "nil"

    def source(self, node: Part) -> str:
        """The text of a part as it is written."""
        return self.text[node.begin : node.end]

    # Words

    def word(self, atom: Atom, goal: int) -> Done:
        """A word of the strategy, which is given its lines."""
        first = self.at + 1
        if (first, atom.begin) in self.refuted:
            raise Mismatch
        left = self.made(atom, goal)
        if self.at >= first:
            self.runs.append(Run(first, self.at, atom.begin, strategies.line_of(self.text, atom), goal))
        return left, f"/*{first}*/{self.source(atom)}"

    def made(self, atom: Atom, goal: int) -> int:
        """How many goals a word leaves, whose lines are passed over."""
        name, arguments = atom.name, atom.arguments
        if name == "nil":
            return 1
        if name in FIXED:
            lines, left = FIXED[name]
            self.all_of(lines.format(main=self.at, goal=goal, next=self.at + 1))
            return left
        if name in PREMISES:
            return self.rule(name, arguments, goal)
        if name in ("useAt", "useBack"):
            return self.use(arguments[0].text, arguments[1], name == "useBack", goal)
        if name == "derive":
            return self.derive(arguments[0], goal)
        if name in EXPANSIONS:
            return self.library(name, arguments[-1].text if arguments else "", goal)
        raise Mismatch

    def need(self, word: str, rest: str = "") -> None:
        """Passes over a line that begins so."""
        if self.at >= len(self.lines):
            raise Mismatch
        found, behind = self.lines[self.at]
        if found != word or not behind.startswith(rest):
            raise Mismatch
        self.at += 1

    def rule(self, name: str, arguments: Arguments, goal: int) -> int:
        """A rule: one line, at the places that are given."""
        self.need("apply", f"{self.at} {goal} {name}(")
        places = [it.text.lstrip("-") for it in arguments if it.kind == "place"]
        if places and not re.match(re.escape(",".join(places)) + "[,)]", self.lines[self.at - 1][1].partition("(")[2]):
            raise Mismatch
        return PREMISES[name]

    def use(self, axiom: str, place: Argument, back: bool, goal: int) -> int:
        """A use of an axiom: its instance, and the lines of its form."""
        form, main = AXIOMS.get(axiom), self.at
        if form is None or place.kind == "name":
            raise Mismatch
        self.instance(axiom)
        if form == "R":
            self.all_of("start, apply, merge, leaf, merge")
        if form in "RQ":
            self.all_of("rule, subst, merge, subst")
        if form in "RQE":
            self.all_of("rule, subst, merge")
        left_side = place.text.startswith(("-", "'L"))
        cut = "coHideR(" if form == "F" else "cutL(" if left_side else "cutR("
        index = "" if place.kind == "locator" else place.text.lstrip("-").split(".")[0]
        self.need("apply", f"{main} {goal} {cut}{index}")
        count = {"C": 10, "I": 1, "F": 0}.get(form, 3 if left_side == back else 2)
        self.all_of("apply, " * count + "merge")
        return {"C": 2, "F": 0}.get(form, 1)

    def instance(self, axiom: str) -> None:
        """The axiom, with its names and its replacements."""
        self.need("axiom", axiom)
        while self.at < len(self.lines) and self.lines[self.at][0] == "rename":
            self.at += 1
        if self.at < len(self.lines) and self.lines[self.at][0] == "subst":
            self.at += 1

    def all_of(self, lines: str) -> None:
        """Passes over lines that begin so."""
        for line in lines.split(", "):
            word, _, rest = line.partition(" ")
            self.need(word, rest)

    def derive(self, place: Argument, goal: int) -> int:
        """The uses of axioms that work out a `( )'`: each leaves as many as its operator has sides."""
        left = 1
        while left:
            word, axiom = self.lines[self.at] if self.at < len(self.lines) else ("", "")
            if word != "axiom" or axiom not in DERIVES:
                raise Mismatch
            self.use(axiom, place, False, goal)
            left += DERIVES[axiom] - 1
        return 1

    def library(self, name: str, place: str, goal: int) -> int:
        """A name of the library: the strategy for which it stands."""
        inner = Sharing(EXPANSIONS[name].format(place), self.lines, set())
        inner.at = self.at
        left, _ = inner.on_one(strategies.read(inner.text), goal)
        self.at = inner.at
        return left


def side_by_side(texts: list[str]) -> str:
    """The strategy that does each of these on a goal of its own."""
    if not texts or all(text == "nil" for text in texts):
        return ""
    if len(texts) == 1:
        return texts[0]
    if len({FIRST_LINE.sub("", text) for text in texts}) == 1:
        return f"({texts[0]})"
    return f"<({', '.join(texts)})"


def made_by(program: str, model: Name, text: str) -> tuple[str | None, Answer]:
    """The term that a strategy of this text makes of a model, as one of version 1, or none; and the program's answer."""
    with tempfile.TemporaryDirectory() as folder:
        strategy, term = Path(folder) / "strategy", Path(folder) / "term"
        strategy.write_bytes(text.encode("latin-1"))
        said = answer(program, "prove", model, strategy, term)
        return (readable(term.read_bytes()) if has_report(said) else None), said


def lines_of(term: str) -> list[Line]:
    """The lines of a term of version 1 before its end: the word and the rest of each."""
    found = [LINE.fullmatch(line) for line in term.split("\n")]
    return [(line[1], line[2]) for line in found if line]


def shared(text: str, tree: Part, lines: list[Line], refuted: set[tuple[int, int]]) -> tuple[list[Run], str] | None:
    """The runs of words and the strategy of what was done; none where the lines can't be shared out."""
    sharing = Sharing(text, lines, refuted)
    try:
        _, done = sharing.on_one(tree, 1)
    except (Mismatch, IndexError, RecursionError, strategies.Wrong):
        return None
    return (sharing.runs, done) if sharing.at == len(lines) else None


def failed_at(done: str, said: Answer) -> int:
    """The first line of the word that fails where what was done is done again."""
    refusal = refusal_in(said.text)
    before = FIRST_LINE.findall(done[: refusal.byte]) if refusal and refusal.what == "fails" else []
    return int(before[-1]) if before else 0


def runs_in(program: str, model: Name, text: str, term: str) -> list[Run] | None:
    """The runs of words that made a term, in order, or none where that can't be said."""
    try:
        tree = strategies.read(text)
    except strategies.Wrong:
        return None
    refuted, lines = set[tuple[int, int]](), lines_of(term)
    for _ in range(TRIES):
        found = shared(text, tree, lines, refuted)
        if found is None:
            return None
        runs, done = found
        again, said = made_by(program, model, done)
        if again == term:
            return runs
        pairs = enumerate(zip(term.split("\n"), again.split("\n")), 1) if again else ()
        number = next((at for at, (here, there) in pairs if here != there), 0) if again else failed_at(done, said)
        wrong = next((run for run in runs if run.first <= number <= run.last), None)
        if wrong is None or (wrong.first, wrong.byte) in refuted:
            return None
        refuted.add((wrong.first, wrong.byte))
    return None


def word_runs(model: Name, strategy: Name, program: str | None = None, term: Name | None = None) -> list[Run] | None:
    """The runs of the words of a strategy with the lines that they made, in order; none where that can't be said. A term that is given is
    looked at in place of the one that the strategy makes: none comes where they differ."""
    program = program_of(program)
    text = read_bytes(strategy).decode("latin-1")
    made, said = made_by(program, model, text)
    if made is None:
        raise Refused(complaint_of(said))
    if term is not None and readable(read_bytes(term)) != made:
        return None
    return runs_in(program, model, text, made)


def words_of_lines(runs: list[Run] | None, count: int) -> list[tuple[int, str] | None]:
    """For each of so many lines the byte and the text of the word that made it, or none."""
    words: list[tuple[int, str] | None] = [None] * count
    for run in runs or []:
        words[run.first - 1 : run.last] = [(run.byte, run.word)] * (run.last - run.first + 1)
    return words


HELP = "says of each line of a term which word of the strategy made it"
EXAMPLE = "dlkt words examples/car/model examples/car/strategy"


def add_words(parser: argparse.ArgumentParser) -> None:
    """The words of the command."""
    parser.add_argument("model")
    parser.add_argument("strategy")
    add_options(parser, "--dlk")


def run(given: argparse.Namespace) -> int:
    """Prints the words with their lines."""
    runs = word_runs(given.model, given.strategy, given.dlk)
    if runs is None:
        print("it can't be said which word made which line")
        return 1
    data = read_bytes(given.strategy)
    for run in runs:
        place = position(data, run.byte)
        lines = f"line {run.first}" if run.first == run.last else f"lines {run.first} to {run.last}"
        print(f"{given.strategy}:{place.line}:{place.column}: {run.word}: {lines}")
    return 0
