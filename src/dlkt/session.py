"""A proof that grows a line at a time: what `dlk session` says of a model and a script, with undo, suggestions and files.

In go a model and lines, each a strategy for a goal; out come the goals that are left, why a line isn't done, and, where it is wanted, the proof as
a strategy, a script and a term. After each line the program runs the whole script so far, anew: nothing is known but what it says. Nothing of
this is proved.
"""

import itertools
import re
from pathlib import Path
from typing import Iterable, NamedTuple, Sequence

from dlkt import reader as texts
from dlkt import strategies
from dlkt.failing import State, state_by
from dlkt.layout import ENDLESS, WIDTH, laid_out, laid_out_goal, laid_out_strategy
from dlkt.program import (
    INPUT_REFUSED,
    Answer,
    Refused,
    answer,
    are_same_file,
    complaint_of,
    goals_in,
    has_report,
    leaves_in,
    numbered,
    position,
    put_at,
    read_bytes,
    refusal_in,
)
from dlkt.terms import lines_of
from dlkt.trees import Tree, Trees, sequent_text, text

FAILURE = re.compile(r"(fails|budget) at (\d+)(?:: (\w+))?")
OK = re.compile(r"ok goals (\d+)")
APPLY = re.compile(r"apply ([1-9]\d{0,8}) (.*)", re.DOTALL)
MOST_SHOWN = 4  # goals on which a word fails
RIGHT = {
    "not": ("notR",), "and": ("andR",), "or": ("orR",), "imply": ("implyR",), "equiv": ("equivR",), "forall": ("skolemR",),
    "true": ("closeTrue",),
}
LEFT = {
    "not": ("notL",), "and": ("andL",), "or": ("orL",), "imply": ("implyL",), "equiv": ("equivL",), "exists": ("skolemL",),
    "false": ("closeFalse",),
}


class Line(NamedTuple):
    """A strategy that was run on a goal, a character a byte; how many goals there were before, and how many it left in the goal's place."""

    goal: int
    strategy: str
    goals_before: int
    goals_left: int

    def script(self) -> str:
        """The line of the script."""
        return f"apply {self.goal} {self.strategy}"

    def part(self) -> str:
        """The same as a part of a strategy, which passes over the other goals."""
        here = f"({self.strategy})"
        if self.goals_before == 1:
            return here
        return "<(" + ", ".join(here if number == self.goal else "nil" for number in range(1, self.goals_before + 1)) + ")"


class Suggestion(NamedTuple):
    """A strategy that works on a goal, the goals that it leaves in the goal's place, and the leaves that it adds."""

    strategy: str
    goals: Sequence[str]
    leaves: Sequence[str]


class Failure(Exception):
    """Why a line isn't done, in lines to show."""

    def __init__(self, lines: Sequence[str]) -> None:
        super().__init__("\n".join(lines))
        self.lines = list(lines)


def as_typed(lines: Sequence[str]) -> list[str]:
    """Lines of a character a byte as they were typed."""
    return [line.encode("latin-1").decode("utf-8", "replace") for line in lines]


# The strategy of a script

class Step:
    """A goal of a proof: the strategy that was run on it, or none, and the goals that this left."""

    def __init__(self) -> None:
        self.strategy: str | None = None
        self.left: list[Step] = []


def steps_of(lines: Sequence[Line]) -> Step:
    """The first goal, with what was done at it and below it."""
    root = Step()
    goals = [root]
    for line in lines:
        here = goals[line.goal - 1]
        here.strategy, here.left = line.strategy, [Step() for _ in range(line.goals_left)]
        goals[line.goal - 1 : line.goal] = here.left
    return root


def written(step: Step | None) -> str:
    """The strategy that does on one goal what was done there: where several goals are left, a branch has a part for each."""
    parts: list[str] = []
    while step is not None and step.strategy is not None:
        is_choice = isinstance(strategies.read(step.strategy), strategies.Choice)
        parts.append(f"({step.strategy})" if is_choice else step.strategy)
        left, step = step.left, None
        if len(left) == 1:
            step = left[0]
        elif any(one.strategy is not None for one in left):
            parts.append(f"<({', '.join(map(written, left))})")
    return "; ".join(parts) or "nil"


def strategy_of(lines: Sequence[Line]) -> str:
    """The strategy that does what these lines do, as a person would write it; where it would have too many levels, a part for each line."""
    try:
        plain = written(steps_of(lines))
        return laid_out_strategy(strategies.read(plain), plain)
    except strategies.Wrong:
        return ";\n".join(line.part() for line in lines)


# The proof

class Proof:
    """A proof that grows a line at a time, with a folder for its files. It knows of the goals what the program said last."""

    def __init__(self, folder: str | Path, program: str, model: str, script: str | None = None) -> None:
        self.program, self.place = program, Path(folder)
        self.inputs = [name for name in (model, script, program) if name]
        self.model = self.place / "model"
        self.model.write_bytes(read_bytes(model))
        self.lines, self.saved = list[Line](), list[Line]()
        self.report, self.written = "", set[str]()
        if script:
            self.take_script(script)
        self.see()

    # The program

    def session(self, lines: Sequence[str]) -> tuple[Answer, bytes | None]:
        """What the program answers to a script of these lines, and the term that it saves, or none."""
        script, term = self.place / "script", self.place / "term"
        script.write_text("".join(f"{line}\n" for line in lines), encoding="latin-1")
        term.unlink(missing_ok=True)
        said = answer(self.program, "session", self.model, script, term)
        return said, term.read_bytes() if term.exists() else None

    def so_far(self) -> list[str]:
        """The lines of the script so far."""
        return [line.script() for line in self.lines]

    def replies(self, said: Answer, count: int) -> tuple[list[str], str]:
        """The replies to so many lines, and what is printed behind them. Refused where the program doesn't answer."""
        if not has_report(said):
            raise Refused(complaint_of(said))
        lines = said.text.split("\n")
        return lines[:count], "\n".join(lines[count:])

    def see(self) -> None:
        """Asks the program for the state."""
        said, _ = self.session([*self.so_far(), "show"])
        if said.status == INPUT_REFUSED:
            self.refuse_model(said)
        replies, self.report = self.replies(said, len(self.lines))
        for line, reply in zip(self.lines, replies):
            if not OK.match(reply):
                raise Refused(f"{line.script()}: {reply}")

    def refuse_model(self, said: Answer) -> None:
        """Says where the program refuses the model, or what else it refuses."""
        refusal = refusal_in(said.text)
        if refusal and refusal.what == "model":
            place = position(self.model.read_bytes(), refusal.byte)
            raise Refused(f"{self.inputs[0]}:{place.line}:{place.column}: {complaint_of(said)}")
        raise Refused(complaint_of(said).replace(str(self.place), "").lstrip("/"))

    def take_script(self, script: str) -> None:
        """Takes the lines of a script, without those that failed or were undone."""
        given = [line.rstrip("\r") for line in lines_of(read_bytes(script))]
        said, _ = self.session(given)
        if said.status == INPUT_REFUSED and said.text.startswith("refused: script line"):
            raise Refused(f"{script}: {complaint_of(said)}")
        if said.status == INPUT_REFUSED:
            self.refuse_model(said)
        goals = 1
        wanted = [line for line in given if line not in ("show", "save")]
        said, _ = self.session(wanted)
        for line, reply in zip(wanted, self.replies(said, len(wanted))[0]):
            found, count = APPLY.fullmatch(line), OK.fullmatch(reply)
            if found and count:
                self.lines.append(Line(int(found[1]), found[2], goals, int(count[1]) - goals + 1))
            elif line == "undo" and count:
                self.lines.pop()
            if count:
                goals = int(count[1])

    # What there is to see

    def goals(self) -> list[str]:
        """The goals that are left."""
        return goals_in(self.report)

    def leaves(self) -> list[str]:
        """The leaves so far."""
        return leaves_in(self.report)

    def is_closed(self) -> bool:
        """Whether no goals are left."""
        return self.report.startswith("closed")

    def goal(self, number: int) -> str:
        """A goal. A failure where it isn't there."""
        goals = self.goals()
        if not 1 <= number <= len(goals):
            raise Failure([f"there is no goal {number}"])
        return goals[number - 1]

    def formula(self, place: int, goal: int) -> Tree:
        """The formula at a place of a goal. A failure where it isn't there."""
        left, right = numbered(self.goal(goal))
        formula = dict(left + right).get(place)
        if formula is None:
            raise Failure([f"there is no formula at place {place} of goal {goal}"])
        return texts.formula(formula, Trees())

    # What changes it

    def apply(self, goal: int, strategy: str) -> int:
        """Runs a strategy on a goal, and answers how many goals it leaves in the goal's place."""
        strategy = strategy.strip()
        line = Line(goal, strategy, len(self.goals()), 0)
        said, _ = self.session([*self.so_far(), line.script(), "show"])
        if said.status == INPUT_REFUSED and said.text.startswith("refused: script line"):
            raise Failure(self.why_refused(strategy))
        replies, report = self.replies(said, len(self.lines) + 1)
        if not OK.match(replies[-1]):
            raise Failure(self.why_failed(line, replies[-1]))
        left = len(goals_in(report)) - line.goals_before + 1
        self.lines.append(line._replace(goals_left=left))
        self.report = report
        return left

    def why_refused(self, strategy: str) -> list[str]:
        """The refusal of a text that is no strategy, with its place: the program tells it to whoever proves with it."""
        file = self.place / "strategy"
        file.write_text(strategy, encoding="latin-1")
        refusal = refusal_in(answer(self.program, "prove", self.model, file, self.place / "none").text)
        if refusal is None or refusal.what != "strategy":
            return ["refused: this is no line of a script"]
        return [*self.marked(strategy, refusal.byte), f"column {refusal.byte + 1}: refused: {refusal.why}"]

    def why_failed(self, line: Line, reply: str) -> list[str]:
        """What the program says of a strategy that fails, with its place, and the goals there."""
        found = FAILURE.fullmatch(reply)
        if found is None:
            return [f"there is no goal {line.goal}" if reply == "no-goal" else reply]
        byte = int(found[2])
        told = [*self.marked(line.strategy, byte), f"column {byte + 1}: {found[1]}" + (f": {found[3]}" if found[3] else "")]
        state = self.state(line, byte) if found[1] == "fails" else None
        if state is None:
            return told
        if state.parts is not None:
            told.append(f"the branch has {state.parts} parts, and there are {state.count} goals")
        for left, right in state.goals[:MOST_SHOWN]:
            told += ["it fails on", *laid_out_goal(" ".join(part for part in (", ".join(left), "==>", ", ".join(right)) if part))]
        return told

    def state(self, line: Line, byte: int) -> State | None:
        """The state where a strategy fails."""

        def run(shortened: str) -> tuple[str, bytes] | None:
            """What is shown of the strategy up to there, and the term that it makes."""
            one_line = " ".join(shortened.split())
            said, term = self.session([*self.so_far(), line._replace(strategy=one_line).script(), "show", "save"])
            is_run = has_report(said) and said.text.split("\n")[len(self.lines)].startswith("ok goals ")
            return (said.text, term) if is_run and term else None

        return state_by(run, line.strategy, byte, self.model.read_bytes().decode("latin-1"), *self.so_far())

    def marked(self, strategy: str, byte: int) -> list[str]:
        """The strategy with a caret below a byte."""
        place = position(strategy, byte)
        return [f"  {place.source}", f"  {place.caret}"]

    def undo(self) -> Line:
        """Takes the last strategy back."""
        if not self.lines:
            raise Failure(["nothing to undo"])
        last = self.lines.pop()
        try:
            self.see()
        except BaseException:
            self.lines.append(last)
            raise
        return last

    # Suggestions

    def candidates(self, goal: str) -> list[str]:
        """Strategies that might go on at a goal, by the operators that stand there, and by the model's annotations."""
        trees = Trees()
        left, right = texts.sequent(goal, trees)
        found = ["close", "leaf", "prop"]
        for place, tree in [(number, tree) for number, tree in enumerate(right, 1)] + [(-number, tree) for number, tree in enumerate(left, 1)]:
            found += [f"{name}({place})" for name in (RIGHT if place > 0 else LEFT).get(tree.word, ())]
            if tree.word in ("box", "dia"):
                program = tree.kids[0]
                if program.word not in ("loop", "system"):
                    found.append(f"step({place})")
                elif place > 0 and program.word == "system":
                    found += [f"useAt(V,{place})", f"dW({place})", f"dI({place})"]
                if place > 0:
                    found += self.by_annotations(program, place, trees)
            if (tree.word, place > 0) in (("forall", True), ("exists", False)):
                side = "R" if place > 0 else "L"
                found.append(f"bound{side}({new_name(goal)},{place}); skolem{side}({place})")
        return list(dict.fromkeys(found))

    def by_annotations(self, program: Tree, place: int, trees: Trees) -> list[str]:
        """Strategies with the formulas that the model gives for a program."""
        try:
            _, notes = texts.model(self.model.read_bytes().decode("latin-1"), trees)
        except texts.Wrong:
            return []
        given = [[text(formula) for formula in note.formulas] for note in notes if note.program is program]
        formulas = [one[0] if len(one) == 1 else " & ".join(f"({formula})" for formula in one) for one in given]
        if program.word == "loop":
            return [f'loop("{formula}", {place})' for formula in formulas]
        return [f'dC("{formula}", {place})' for formula in formulas] if program.word == "system" else []

    def suggestions(self, number: int) -> list[Suggestion]:
        """The strategies of the candidates that work on a goal and change it. All are tried in one session."""
        goal, wanted = self.goal(number), list[str]()
        candidates = self.candidates(goal)
        for candidate in candidates:
            wanted += [f"apply {number} (({candidate}) | nil)", "show", "undo"]
        said, _ = self.session([*self.so_far(), *wanted])
        if not has_report(said):
            raise Failure([complaint_of(said)])
        reports = [part for part in re.split(r"^(?=closed$|open$)", said.text, flags=re.MULTILINE)][1:]
        found, before, leaves = list[Suggestion](), self.goals(), self.leaves()
        for candidate, report in zip(candidates, reports):
            goals = goals_in(report)
            left = goals[number - 1 : number + len(goals) - len(before)]
            is_needed = not candidate.startswith("bound") or not any(one.strategy == candidate.partition("; ")[2] for one in found)
            if left != [goal] and is_needed:
                found.append(Suggestion(candidate, left, leaves_in(report)[len(leaves) :]))
        return sorted(found, key=lambda one: (len(one.goals), bool(one.leaves)))

    # Files

    def save(self, name: str) -> list[str]:
        """Writes the strategy, the script and the term, and answers what was written."""
        files = [name, f"{name}.script", f"{name}.term"]
        for file in files:
            self.refuse_to_write(file)
        said, term = self.session([*self.so_far(), "save"])
        if term is None:
            raise Failure([complaint_of(said)])
        script = "".join(f"{line}\n" for line in (*self.so_far(), "save"))
        strategy, told = self.strategy(term)
        for file, data in zip(files, (strategy.encode("latin-1"), script.encode("latin-1"), term)):
            put_at(data, file)
            self.written.add(str(Path(file).resolve()))
        self.saved = list(self.lines)
        return [f"{files[0]}: the strategy, {told}", f"{files[1]}: the script", f"{files[2]}: the term"]

    def strategy(self, term: bytes) -> tuple[str, str]:
        """The strategy that does what the lines do, and what `prove` makes of it: this term, or one whose lines stand in another order, but with
        the same goals and leaves. Where it doesn't, a strategy with a part for each line."""
        by_lines = ";\n".join(line.part() for line in self.lines) or "nil"
        made, again = self.place / "strategy", self.place / "again"
        for strategy in (strategy_of(self.lines), by_lines):
            made.write_text(f"{strategy}\n", encoding="latin-1")
            again.unlink(missing_ok=True)
            said = answer(self.program, "prove", self.model, made, again)
            if again.exists() and again.read_bytes() == term:
                return f"{strategy}\n", "`prove` makes the same term of it"
            if has_report(said) and goals_in(said.text) == self.goals() and set(leaves_in(said.text)) == set(self.leaves()):
                return f"{strategy}\n", "`prove` makes the same proof of it, with its lines in another order"
        return f"{by_lines}\n", "but `prove` doesn't make this proof of it"

    def refuse_to_write(self, name: str) -> None:
        """Refuses a file that is an input, or is there and wasn't written here."""
        if any(are_same_file(name, given) for given in self.inputs):
            raise Failure([f"{name} is an input: it isn't written over"])
        path = Path(name)
        if path.exists() and str(path.resolve()) not in self.written:
            raise Failure([f"{name} is there already: name another file, or remove it"])
        if not path.resolve().parent.is_dir():
            raise Failure([f"{name}: there is no such folder"])

    def unsaved(self) -> list[str]:
        """The script so far, where it isn't saved."""
        return [] if self.lines == self.saved else as_typed(self.so_far())


def new_name(*texts_in_use: str) -> str:
    """A name that stands in none of these texts."""
    used: set[str] = {name for said in texts_in_use for name in re.findall(r"[A-Za-z]\w*", said)}
    wanted: Iterable[str] = itertools.chain("zyxwuvrsq", (f"z{number}" for number in itertools.count()))
    return next(name for name in wanted if name not in used)


def changes(before: str, after: str, width: int = WIDTH) -> list[str]:
    """What a goal has that the goal before it hasn't: each formula behind its place, on one line; all of it where nothing of it is new."""
    trees = Trees()
    old, new = texts.sequent(before, trees), texts.sequent(after, trees)
    found = []
    for sign, was, side in ((-1, old[0], new[0]), (1, old[1], new[1])):
        for number, tree in enumerate(side, 1):
            if not any(tree is one for one in was):
                found.append(f"{sign * number}: {laid_out(tree, width=ENDLESS)}")
    lines = found or [sequent_text(*new)]
    return [line if len(line) <= width else f"{line[: width - 1]}\u2026" for line in lines]
