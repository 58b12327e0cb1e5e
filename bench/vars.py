#!/usr/bin/env python3
"""How the time of `dlk vars` grows with its file and with the number of names: ratios of one run.

The time is to grow with the nodes, whatever the number of names. Each time is the processor time of the program, the least of
some runs, less that of a file of one variable. Run it after `./dlk` has built the program. A number as argument is the greatest
number of nodes. More arguments are paths of programs, each timed in turn in the place of the built one.
"""
import itertools
import pathlib
import tempfile

from common import PROGRAM, least_processor_time, words_of

# numbers of nodes, each four times the one before
SIZES = (1000, 4000, 16000, 64000)
FEW = 4
# many names: one for so many nodes
NODES_OF_A_NAME = 100
# the parts of one conjunct, so that no tree is deeper than 1,000
LENGTH = 250


def conjuncts(parts, length):
    """The parts in pieces of so many, and the last piece shorter."""
    return [parts[i : i + length] for i in range(0, len(parts), length)]


def names(count):
    """Names in turn, without end."""
    return (f"x{k % count}" for k in itertools.count())


def sums(nodes, count):
    """Sums of variables: two nodes for each."""
    name = names(count)
    parts = [next(name) for _ in range(nodes // 2)]
    return "&".join("+".join(piece) + ">=0" for piece in conjuncts(parts, LENGTH))


def assignments(nodes, count):
    """Assignments `x:=y;` one after the other: three nodes for each."""
    name = names(count)
    read = names(count)
    next(read)
    return [f"{next(name)}:={next(read)};" for _ in range(nodes // 3)]


def sequences(nodes, count):
    """Sequences of assignments, which group to the right."""
    return "&".join(f"[{''.join(piece)}]true" for piece in conjuncts(assignments(nodes, count), LENGTH))


def left_sequences(nodes, count):
    """Sequences of assignments that braces group to the left."""
    return "&".join(
        f"[{'{' * (len(piece) - 1)}{piece[0]}{'}'.join(piece[1:] + [''])}]true"
        for piece in conjuncts(assignments(nodes, count), LENGTH)
    )


def quantifiers(nodes, count):
    """Quantifiers round a formula: one node for each."""
    name = names(count)
    parts = [f"\\forall {next(name)} " for _ in range(nodes)]
    return "&".join("".join(piece) + "x0>=0" for piece in conjuncts(parts, LENGTH))


def differentials(nodes, count):
    """Differentials of sums within differentials: three nodes for each."""
    name = names(count)
    parts = [next(name) for _ in range(nodes // 3)]
    return "&".join(
        "(" * len(piece) + "0" + "".join(f"+{x})'" for x in piece) + ">=0" for piece in conjuncts(parts, LENGTH)
    )


SHAPES = (
    ("sums", sums),
    ("sequences", sequences),
    ("sequences to the left", left_sequences),
    ("quantifiers", quantifiers),
    ("differentials", differentials),
)


def seconds(path, text, program):
    """The least time of a run of the program on this text: of many runs where one is short."""
    path.write_text(text)
    return least_processor_time(20 if len(text) < 20000 else 5, ["vars", path], lambda run: run.returncode == 0, program)


def growth(path, title, texts, base, program):
    """Prints a line for each number of nodes, with its number of names and its text, and answers the times."""
    times = []
    for nodes, count, text in texts:
        took = seconds(path, text, program) - base
        ratio = f", {took / times[-1]:.1f} times that of the line above" if times else ""
        print(f"{title}: {nodes} nodes, {count} names, {took / base:.2f} of a run on one variable{ratio}")
        times.append(took)
    return times


def time_shapes(path, sizes, program):
    """Prints the lines of each shape with few names and with many, and how much the many cost."""
    base = seconds(path, "x", program)
    for title, text_of in SHAPES:
        few = [(nodes, FEW, text_of(nodes, FEW)) for nodes in sizes]
        many = [(nodes, nodes // NODES_OF_A_NAME, text_of(nodes, nodes // NODES_OF_A_NAME)) for nodes in sizes]
        times = zip(many, growth(path, title, few, base, program), growth(path, title, many, base, program))
        for (nodes, count, _), one, other in times:
            print(f"{title}: {nodes} nodes, {count} names cost {other / one:.1f} times what {FEW} names cost")


def main():
    """Times each program."""
    named = words_of(__doc__, "NUMBER PROGRAM")
    most = int(named[0]) if named else SIZES[-1]
    sizes = [nodes for nodes in SIZES if nodes <= most]
    with tempfile.TemporaryDirectory() as folder:
        for program in [pathlib.Path(word) for word in named[1:]] or [PROGRAM]:
            print(program)
            time_shapes(pathlib.Path(folder) / "file", sizes, program)


if __name__ == "__main__":
    main()
