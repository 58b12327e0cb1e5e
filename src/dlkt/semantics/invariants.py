"""Hints on the annotations of a model: whether each `@invariant` holds at first, is kept by its loop's body or its system, and is enough.

Each of these is a small model of its own, for which a run that breaks it is looked for: from a state in which the annotation holds, and the
assumptions that have constants alone. What is found is a hint and no more: a proof may need an annotation only where the program comes to it.
"""

from __future__ import annotations

from typing import Callable, NamedTuple, Sequence

from dlkt.reader import Note
from dlkt.semantics.numerically import Shape, shape_of
from dlkt.semantics.runs import Kind, Run, values_text
from dlkt.semantics.simulation import parts_of
from dlkt.semantics.syntax import make, mentioned
from dlkt.trees import Tree, text

Search = Callable[[Tree], Run | None]


class Question(NamedTuple):
    """A small model, and what it says where it breaks."""

    model: Tree
    says: str


def joined(parts: Sequence[Tree]) -> Tree:
    """What says that all parts hold."""
    if not parts:
        return make("true")
    found = parts[-1]
    for part in reversed(parts[:-1]):
        found = make("and", "", part, found)
    return found


def constant_assumptions(shape: Shape) -> list[Tree]:
    """The assumptions that read no variable: they hold all the time."""
    found = [part for formula in shape.assumptions for part in parts_of(formula, "and")]
    return [part for part in found if not mentioned(part)]


def questions(model: Tree, notes: Sequence[Note]) -> list[Question]:
    """The small models of the annotations."""
    shape = shape_of(model)
    if shape is None:
        return []
    constants, found = constant_assumptions(shape), list[Question]()
    parts = parts_of(shape.program, "seq")
    for note in notes:
        for place, formula in enumerate(note.formulas):
            known = [*constants, *note.formulas] if note.program.word == "loop" else [*constants, *note.formulas[: place + 1]]
            shown = f"@invariant({text(formula)})"
            if parts[0] is note.program:
                found.append(Question(make("imply", "", joined(shape.assumptions), formula), f"{shown} doesn't hold at first"))
            kept, says = note.program, "the system breaks"
            if note.program.word == "loop":
                kept, says = note.program.kids[0], "the loop's body breaks"
            found.append(Question(make("imply", "", joined(known), make("box", "", kept, formula)), f"{says} {shown}"))
        if parts[-1] is note.program:
            found.append(last_question(shape, note, constants))
    return found


def last_question(shape: Shape, note: Note, constants: Sequence[Tree]) -> Question:
    """The small model that says that an annotation of the last statement is enough for the postcondition."""
    known = [*constants, *note.formulas]
    if note.program.word == "system":
        known.append(note.program.kids[-1])
    shown = ", ".join(map(text, note.formulas))
    return Question(make("imply", "", joined(known), shape.postcondition), f"@invariant({shown}) isn't enough for the postcondition")


def told(run: Run) -> str:
    """The states between which a run breaks its small model."""
    end = {name: value for step in run.steps if step.kind in (Kind.SET, Kind.CHOSEN, Kind.FLOW) for name, value in step.values.items()}
    changed = {name: value for name, value in end.items() if name in run.first}
    first = f": with {values_text(run.first)}"
    return f"{first}, and then {values_text(changed)}" if changed else first


def hints(model: Tree, notes: Sequence[Note], search: Search) -> list[str]:
    """What the search finds of the annotations."""
    found = []
    for question in questions(model, notes):
        run = search(question.model)
        if run is not None:
            found.append(f"{question.says}{told(run)}{'' if run.is_exact else ' (by numbers)'}")
    return found
