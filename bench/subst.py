#!/usr/bin/env python3
"""How the time of `dlk subst` grows with its file and with the binders round it: ratios of one run.

Each time is the least processor time of some runs, less that of a file of one variable. Run it after `./dlk` has built the
program.
A number as argument is the greatest number of nodes. More arguments are paths of programs, each timed in turn in the place of the
built one: so an old program runs beside a new one. A result that doubles at each level is timed last, for the built program or
the last one that is given; without a table of results it never ends.
"""
import pathlib
import tempfile

from common import PROGRAM, least_processor_time, words_of

# numbers of nodes, each four times the one before
SIZES = (1000, 4000, 16000, 64000)
BINDERS = (0, 10, 100)
# without a table of results loops cost nodes times nodes
FEW_SIZES = (250, 1000, 4000)
FEW_BINDERS = (0, 10, 100)
# the applications of one conjunct
LENGTH = 100
# a result that doubles at each of so many levels
LEVELS = 40


def body(nodes):
    """Conjuncts of sums of applications `f(x)`: three nodes for each."""
    parts = ["f(x)"] * (nodes // 3)
    pieces = [parts[i : i + LENGTH] for i in range(0, len(parts), LENGTH)]
    return "&".join("+".join(piece) + ">=0" for piece in pieces)


def under_quantifiers(nodes, binders):
    """The body under so many quantifiers."""
    return "".join(f"\\forall z{k} " for k in range(binders)) + f"({body(nodes)})"


def under_boxes(nodes, binders):
    """The body under so many boxes of an assignment."""
    return "".join(f"[z{k}:=1;]" for k in range(binders)) + f"({body(nodes)})"


def under_loops(nodes, binders):
    """The body as a test in so many loops."""
    return "[" + "{z:=1;{" * binders + f"?{body(nodes)};" + "}}*" * binders + "]true"


# what stands round the body, the pairs, the numbers of nodes and of binders
SHAPES = (
    ("quantifiers", under_quantifiers, "f(._0)~>._0+y", SIZES, BINDERS),
    ("boxes", under_boxes, "f(._0)~>._0+y", SIZES, BINDERS),
    ("boxes, a pair that isn't used", under_boxes, "g(._0)~>._0+y", SIZES, BINDERS),
    ("loops", under_loops, "f(._0)~>._0+y", FEW_SIZES, FEW_BINDERS),
)


def seconds(folder, text, pairs, runs, program):
    """The least time of a run of the program on this text and these pairs."""
    file = folder / "file"
    subst = folder / "subst"
    file.write_text(text)
    subst.write_text(pairs)
    is_too_big = b"refused: result-too-big"
    return least_processor_time(runs, ["subst", file, subst], lambda run: run.returncode == 0 or run.stdout.startswith(is_too_big), program)


def main():
    """Times each program, and at last the result that doubles."""
    named = words_of(__doc__, "NUMBER PROGRAM")
    most = int(named[0]) if named else SIZES[-1]
    with tempfile.TemporaryDirectory() as name:
        folder = pathlib.Path(name)
        programs = [pathlib.Path(word) for word in named[1:]] or [PROGRAM]
        for program in programs:
            print(program)
            time_shapes(folder, most, program)
        base = seconds(folder, "x", "", 20, programs[-1])
        took = seconds(folder, "f(" * LEVELS + "x" + ")" * LEVELS + ">=0", "f(._0)~>._0+._0", 5, programs[-1])
        print(f"a result that doubles {LEVELS} times is refused in {took / base:.2f} of a run on one variable")


def time_shapes(folder, most, program):
    """Prints a line for each shape, number of binders and size."""
    base = seconds(folder, "x", "", 20, program)
    for title, text_of, pairs, sizes, all_binders in SHAPES:
        bare = {}
        for binders in all_binders:
            last = None
            for nodes in sizes:
                if nodes > most:
                    continue
                took = seconds(folder, text_of(nodes, binders), pairs, 5, program) - base
                bare.setdefault(nodes, took)
                ratio = f", {took / last:.1f} times that of a quarter of the nodes" if last else ""
                more = f", {took / bare[nodes]:.1f} times that under none" if binders else ""
                print(f"{title}: {nodes} nodes under {binders} binders, {took / base:.2f} of a run on one variable{ratio}{more}")
                last = took


if __name__ == "__main__":
    main()
