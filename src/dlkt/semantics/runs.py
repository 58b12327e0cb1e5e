"""What a run is that breaks a model, and how it is told to people and to programs."""

from __future__ import annotations

from enum import Enum
from fractions import Fraction
from typing import Any, Mapping, NamedTuple, Sequence

LONGEST_FRACTION = 13  # letters
WIDTH = 34  # of a statement's text


class Status(Enum):
    """What a search found: a run whose numbers were put in exactly; one by floating point alone; nothing, which says nothing."""

    REFUTED, BY_NUMBERS, NOTHING = "refuted", "refuted by numbers", "nothing found"


class Kind(Enum):
    """What a step of a run is: a formula is assumed, a round of a loop begins, a value is computed or chosen, a test holds, a system runs for
    some time."""

    ASSUMED, ROUND, SET, CHOSEN, TEST, FLOW = "assumed", "round", "set", "chosen", "test", "flow"


class Amount(NamedTuple):
    """A number of a run: exact where it is a fraction, else near to it."""

    near: float
    exact: Fraction | None = None

    @staticmethod
    def of(value: Fraction | int) -> Amount:
        """The amount that a fraction is."""
        exact = Fraction(value)
        return Amount(float(exact), exact)

    @staticmethod
    def given(value: float) -> Amount:
        """The amount of a number that was given: exact where it is a fraction of small numbers."""
        exact = Fraction(value).limit_denominator(1000)
        return Amount(value, exact if float(exact) == value else None)

    def text(self) -> str:
        """The amount as people read it: `~` stands before what is rounded."""
        if self.exact is not None and len(str(self.exact)) <= LONGEST_FRACTION:
            return str(self.exact)
        return f"~{self.near:.6g}"


class Step(NamedTuple):
    """A step of a run: its kind, the text of the statement, what it sets, how long it takes, and the round that it begins."""

    kind: Kind
    text: str
    values: Mapping[str, Amount] = {}
    duration: Amount | None = None
    round: int = 0


class Accuracy(NamedTuple):
    """How a run by numbers was computed: the greatest step in time, and how far the formula is from being true."""

    step: float
    margin: float


class Run(NamedTuple):
    """A run that breaks a model: the first values, its steps, the formula that fails at its end, and what both sides of its comparisons are."""

    is_exact: bool
    first: Mapping[str, Amount]
    steps: Sequence[Step]
    fails: str
    sides: Sequence[str]
    rounds: int
    accuracy: Accuracy | None = None


class Answer(NamedTuple):
    """What came of a search: its status, the run where there is one, what was tried in words, how long it took, and hints."""

    status: Status
    run: Run | None
    tried: str
    seconds: float
    hints: Sequence[str] = ()


# For people

def values_text(values: Mapping[str, Amount]) -> str:
    """Values with their names."""
    return ", ".join(f"{name} = {value.text()}" for name, value in values.items())


class Row(NamedTuple):
    """A row of a run's table: the round that begins, the statement, how long it ran, and what it did."""

    heading: str
    statement: str = ""
    time: str = ""
    said: str = ""


def time_text(step: Step) -> str:
    """How long a step ran."""
    return "" if step.duration is None else f"for {step.duration.text() if step.duration.near else 0}"


def step_text(step: Step) -> str:
    """What a step did."""
    return "holds" if step.kind in (Kind.TEST, Kind.ASSUMED) else values_text(step.values)


def step_rows(run: Run) -> list[Row]:
    """The rows of a run's steps, each under its round."""
    found: list[Row] = []
    heading = ""
    for place, step in enumerate(run.steps):
        if step.kind == Kind.ASSUMED and all(earlier.kind == Kind.ASSUMED for earlier in run.steps[:place]):
            continue  # the first values are such that it holds
        if step.kind == Kind.ROUND:
            heading = f"round {step.round}"
            continue
        found.append(Row(heading, step.text, time_text(step), step_text(step)))
        heading = ""
    return [*found, Row(heading)] if heading else found


def run_lines(run: Run) -> list[str]:
    """The lines of a run's table: the first values, each step under its round, and what fails."""
    found = [f"  {'at first':<9}{values_text(run.first)}"] if run.first else []
    for row in step_rows(run):
        text = row.statement if len(row.statement) <= WIDTH else row.statement[: WIDTH - 3] + ".."
        time = f"{row.time}:  " if row.time else ""
        found.append(f"  {row.heading:<9}{text:<{WIDTH}} {time}{row.said}".rstrip())
    sides = f"   ({'; '.join(run.sides)})" if run.sides else ""
    return [*found, f"  {'fails':<9}{run.fails}{sides}"]


def counted(count: int) -> str:
    """A number of rounds."""
    return "no round" if count == 0 else f"{count} round{'s' if count > 1 else ''}"


def answer_lines(answer: Answer) -> list[str]:
    """The lines of an answer."""
    if answer.run is None:
        first = [f"nothing found in {answer.seconds:.1f} s ({answer.tried}): this doesn't say that the model is valid"]
    elif answer.run.is_exact:
        first = [f"refuted, in {answer.seconds:.2g} s", *run_lines(answer.run)]
    else:
        first = [f"refuted by numbers, in {answer.seconds:.2g} s: {accuracy_text(answer.run.accuracy)}", *run_lines(answer.run)]
    return [*first, *(f"  hint: {hint}" for hint in answer.hints)]


def accuracy_text(accuracy: Accuracy | None) -> str:
    """How a run by numbers was computed."""
    if accuracy is None:
        return "rounded"
    return f"simulated with steps of at most {accuracy.step:.2g}, and false by {accuracy.margin:.2g}"


# For programs

def amount_told(amount: Amount) -> dict[str, Any]:
    """An amount as JSON has it."""
    return {"near": amount.near, "exact": None if amount.exact is None else str(amount.exact), "text": amount.text()}


def values_told(values: Mapping[str, Amount]) -> dict[str, Any]:
    """Values as JSON has them."""
    return {name: amount_told(value) for name, value in values.items()}


def run_told(run: Run) -> dict[str, Any]:
    """A run as JSON has it."""
    steps = [
        {
            "kind": step.kind.value, "text": step.text, "values": values_told(step.values), "round": step.round or None,
            "duration": None if step.duration is None else amount_told(step.duration),
        }
        for step in run.steps
    ]
    return {
        "exact": run.is_exact, "first": values_told(run.first), "steps": steps, "fails": run.fails, "sides": list(run.sides),
        "rounds": run.rounds, "accuracy": None if run.accuracy is None else run.accuracy._asdict(), "lines": run_lines(run),
    }


def answer_told(answer: Answer) -> dict[str, Any]:
    """An answer as JSON has it."""
    return {
        "status": answer.status.value, "run": None if answer.run is None else run_told(answer.run), "tried": answer.tried,
        "seconds": round(answer.seconds, 3), "hints": list(answer.hints),
    }


def amount_of(told: Mapping[str, Any]) -> Amount:
    """The amount that was told."""
    return Amount(told["near"], None if told["exact"] is None else Fraction(told["exact"]))


def run_of(told: Mapping[str, Any]) -> Run:
    """The run that was told."""
    def values(those: Mapping[str, Any]) -> dict[str, Amount]:
        return {name: amount_of(value) for name, value in those.items()}

    steps = [
        Step(Kind(one["kind"]), one["text"], values(one["values"]), one["duration"] and amount_of(one["duration"]), one["round"] or 0)
        for one in told["steps"]
    ]
    accuracy = None if told["accuracy"] is None else Accuracy(**told["accuracy"])
    return Run(told["exact"], values(told["first"]), steps, told["fails"], told["sides"], told["rounds"], accuracy)
