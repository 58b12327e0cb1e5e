"""Looks for a run that breaks a model, and prints it as a table.

    dlkt refute MODEL [--rounds N] [--seconds S] [--json] [--plot OUT] [--seed N]

Looked for are first values that satisfy the assumptions, what each statement does, how long each system runs, and where a formula fails. Loops run
N rounds at most in all (3), and the search takes S seconds at most (20); hints may take half as much again. The answer is one of three:

    refuted             a run, whose numbers were put in and computed again exactly
    refuted by numbers  a simulated run: with its step width, and by how much the formula fails. It isn't exact
    nothing found       that says nothing of the model

Below it stand hints on the annotations, where a loop's body or a system breaks its `@invariant`, and from which state. A value with `~` before it
is rounded. --json prints one object in place of this. --plot draws the run to a file that ends in .svg, .png or .pdf (Debian's
python3-matplotlib). --seed gives another start to what is tried at random (1).

The exit status is
    0   nothing found
    1   refuted
    2   the words, the model, or a file is refused, or z3's Python module isn't there
    3   refuted by numbers
    130 control-C

Nothing is proved here, and nothing is written but the plot. It needs z3's Python module (Debian's python3-z3).
"""

import argparse
import json
import os
import sys
import threading
from typing import Any, Callable

from dlkt import reader, semantics
from dlkt.program import Refused, add_options, position, read_bytes
from dlkt.trees import Tree, Trees

HELP = "looks for a run that breaks a model"
EXAMPLE = "dlkt refute examples/gallery/time_stop/model"

NOTHING_FOUND, REFUTED, BY_NUMBERS = 0, 1, 3
GRACE = 3.0  # seconds behind its time, in which the search may end by itself
STACK = 256 << 20
MOST_ROUNDS = 20


def rounds(text: str) -> int:
    """A number of rounds of a command line."""
    if not text.isdigit() or int(text) > MOST_ROUNDS:
        raise argparse.ArgumentTypeError(f"{text} is no number of rounds up to {MOST_ROUNDS}")
    return int(text)


def add_words(parser: argparse.ArgumentParser) -> None:
    """The words of the command."""
    parser.add_argument("model")
    parser.add_argument("--rounds", type=rounds, default=3, metavar="N", help="loops run so many rounds at most in all (3)")
    add_options(parser, "--seconds", metavar="S", help="how long is searched at most (20)")
    add_options(parser, "--json", help="one object in place of the table")
    parser.add_argument("--plot", metavar="OUT", help="draws the run: a file that ends in .svg, .png or .pdf")
    parser.add_argument("--seed", type=int, default=1, metavar="N", help="another start to what is tried at random (1)")


def model_of(path: str) -> tuple[Tree, list[reader.Note]]:
    """The tree of a model and its annotations."""
    if path == "-":
        raise Refused("standard input isn't taken: name a file")
    data = read_bytes(path)
    try:
        tree, notes = reader.model(data.decode("latin-1"), Trees())
        return tree, notes
    except reader.Wrong as fault:
        place = position(data, fault.byte)
        raise Refused(f"{path}:{place.line}:{place.column}: the model doesn't go on here") from fault
    except RecursionError as fault:
        raise Refused(f"{path}: the model is too deep") from fault


def in_time(work: Callable[[], Any], most: float) -> Any:
    """What a piece of work gives, where it ends in time; none where it doesn't. It may be in a call of z3 that doesn't end."""
    found: list[Any] = []
    faults: list[BaseException] = []

    def do() -> None:
        try:
            found.append(work())
        except BaseException as fault:
            faults.append(fault)

    threading.stack_size(STACK)
    thread = threading.Thread(target=do, daemon=True)
    thread.start()
    thread.join(most)
    if faults:
        raise faults[0]
    return found[0] if found else None


def run(options: argparse.Namespace) -> int:
    """Searches, and prints what is found."""
    model, notes = model_of(options.model)
    if not semantics.is_there():
        raise Refused(semantics.NEEDED)
    from dlkt.semantics import plot, refuting, runs
    if options.plot:
        plot.refuse_bad_plot(options.plot, options.model)
    settings = refuting.Settings(float(options.seconds), options.rounds, options.seed)
    answer = in_time(lambda: refuting.answered(model, notes, settings), options.seconds * (1 + refuting.HINTS_PART) + GRACE)
    is_over = answer is None
    if is_over:
        answer = runs.Answer(runs.Status.NOTHING, None, "a question to z3 didn't end", float(options.seconds))
    if options.plot and answer.run is not None:
        plot.draw(answer.run, options.plot)
    lines = [json.dumps(runs.answer_told(answer), indent=2)] if options.json else runs.answer_lines(answer)
    print("\n".join(lines))
    status = {runs.Status.NOTHING: NOTHING_FOUND, runs.Status.REFUTED: REFUTED, runs.Status.BY_NUMBERS: BY_NUMBERS}[answer.status]
    if is_over:  # z3 still works in its thread, which nothing ends but the end of the process
        sys.stdout.flush()
        os._exit(status)
    return status
