"""Draws a run: time across, each variable a line, the domains of systems marked, and the formula that fails with both of its sides.

It needs matplotlib (Debian's python3-matplotlib). Along systems the lines are computed again by floating point.
"""

from __future__ import annotations

import importlib.util
import io
import logging
import random
import warnings
from pathlib import Path
from typing import BinaryIO, NamedTuple, Sequence

from dlkt import reader
from dlkt.program import Refused, are_same_file
from dlkt.semantics.floats import Floats, value
from dlkt.semantics.runs import Kind, Run, Step
from dlkt.semantics.simulation import Choices, Flow, Simulation
from dlkt.semantics.syntax import TREES, Unsupported, make, reads
from dlkt.trees import Tree, text

ENDINGS = {".svg": b"<?xml", ".png": b"\x89PNG", ".pdf": b"%PDF"}
POINTS = 60  # along a system
NEEDED = "the module matplotlib of Python isn't there: apt-get install python3-matplotlib, and start with /usr/bin/python3"
LONGEST = 60  # letters of a formula


class Span(NamedTuple):
    """A system's time, from and to, and its domain."""

    begin: float
    end: float
    domain: str


class Lines(NamedTuple):
    """What is drawn: times, the values at them of each variable and of each side of what fails, and the times of systems."""

    times: list[float]
    values: dict[str, list[float]]
    spans: list[Span]


def is_there() -> bool:
    """Whether matplotlib is there."""
    return importlib.util.find_spec("matplotlib") is not None


def refuse_bad_plot(target: str, model: str) -> None:
    """Refuses a plot that can't be drawn, is an input, or has something else in it than a plot."""
    if not is_there():
        raise Refused(NEEDED)
    path = Path(target)
    if path.suffix not in ENDINGS:
        raise Refused(f"{target}: a plot's name ends in .svg, .png or .pdf")
    if are_same_file(target, model):
        raise Refused(f"{target} is an input: it isn't written over")
    if not path.resolve().parent.is_dir():
        raise Refused(f"{target}: there is no such folder")
    if path.is_file():
        with path.open("rb") as file:
            first = file.read(8)
        if first and not first.startswith(ENDINGS[path.suffix]):
            raise Refused(f"{target} holds something else than a plot: it isn't written over; name another file, or remove it")


def variables(run: Run) -> list[str]:
    """The variables that a run changes, those that systems evolve first."""
    kinds = ([Kind.FLOW], [Kind.SET, Kind.CHOSEN])
    return list(dict.fromkeys(name for kind in kinds for step in run.steps if step.kind in kind for name in step.values))


def lines_of(run: Run) -> Lines:
    """The lines of a run."""
    state: Floats = {name: amount.near for name, amount in run.first.items()}
    drawn = {name: make("var", name) for name in variables(run)}
    drawn |= {text(side): side for side in sides_of(reader.formula(run.fails, TREES))}
    lines, time = Lines([], {name: [] for name in drawn}, []), 0.0

    def point() -> None:
        lines.times.append(time)
        for name, term in drawn.items():
            lines.values[name].append(value(term, state) if reads(term) <= set(state) else float("nan"))

    point()
    for step in run.steps:
        if step.kind == Kind.FLOW and step.duration is not None:
            system = reader.formula(f"[{step.text}]true", TREES).kids[0]
            begin, domain = time, system.kids[-1]
            for moment, state in along(step, system, state):
                time = begin + moment
                point()
            time = begin + step.duration.near
            lines.spans.append(Span(begin, time, "" if domain.word == "true" else text(domain)))
        state = {**state, **{name: amount.near for name, amount in step.values.items()}}
        point()
    return lines


def sides_of(formula: Tree) -> list[Tree]:
    """Both sides of each comparison of a formula, where it has no program and no quantifier."""
    if formula.word in ("eq", "ne", "ge", "gt", "le", "lt"):
        return [side for side in formula.kids if side.word != "num"]
    if formula.word in ("and", "or", "imply", "equiv", "not"):
        return [side for kid in formula.kids for side in sides_of(kid)]
    return []


def along(step: Step, system: Tree, state: Floats) -> Sequence[tuple[float, Floats]]:
    """States along a system."""
    duration = step.duration.near if step.duration else 0.0
    if duration <= 0:
        return []
    flow = Flow(Simulation(make("true"), 0, Choices(random.Random(1)), state), system)
    here, found = [state.get(name, 0.0) for name in flow.names], []
    for place in range(1, POINTS + 1):
        here = flow.stepped(here, duration / POINTS)
        found.append((duration * place / POINTS, {**state, **dict(zip(flow.names, here))}))
    return found


def short(formula: str) -> str:
    """The text of a formula, or its beginning."""
    return formula if len(formula) <= LONGEST else formula[: LONGEST - 2] + ".."


def drawn(run: Run) -> str:
    """The picture of a run as a part of a page; nothing where no time passes, or it can't be drawn."""
    if not is_there() or not any(step.duration and step.duration.near for step in run.steps):
        return ""
    logging.getLogger("matplotlib").setLevel(logging.ERROR)  # that it looks for fonts is no complaint
    out = io.BytesIO()
    with warnings.catch_warnings():
        warnings.simplefilter("ignore")
        try:
            draw(run, out)
        except (ArithmeticError, Unsupported):
            return ""
    said = out.getvalue().decode()
    return said[said.index("<svg") :]


def draw(run: Run, target: str | BinaryIO) -> None:
    """Draws a run to a file."""
    import matplotlib
    matplotlib.use("Agg")
    matplotlib.rcParams["svg.hashsalt"] = "dlkt"  # so that the same run gives the same file
    from matplotlib import pyplot
    lines, changed = lines_of(run), variables(run)
    figure, axes = pyplot.subplots(figsize=(8, 4.5))
    for name, values in lines.values.items():
        axes.plot(lines.times, values, label=short(name), marker=".", markersize=3, linestyle="-" if name in changed else "--")
    for number, span in enumerate(lines.spans):
        axes.axvspan(span.begin, span.end, color="0.5", alpha=0.06 + 0.06 * (number % 2))
        if span.domain:
            axes.text((span.begin + span.end) / 2, 1.01, short(span.domain), transform=axes.get_xaxis_transform(), ha="center", fontsize=7)
    end = lines.times[-1]
    axes.axvline(end, color="red", linestyle="--", linewidth=1)
    axes.annotate(f"fails: {short(run.fails)}", (end, 0.03), xycoords=("data", "axes fraction"), ha="right", color="red", fontsize=8)
    axes.set_xlabel("time")
    axes.legend(loc="best", fontsize=8)
    figure.tight_layout()
    form = Path(target).suffix[1:] if isinstance(target, str) else "svg"
    figure.savefig(target, format=form, metadata=dict.fromkeys(("Date", "Creator", "Format", "Type")) if form == "svg" else None)
    pyplot.close(figure)
