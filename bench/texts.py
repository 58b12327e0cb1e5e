#!/usr/bin/env python3
"""How the time of `dlk print` grows with its file: ratios of one run.

Each time is the least of twenty runs, less that of a file of one variable. Run it after `./dlk` has built the program.
"""
import pathlib
import tempfile

from common import least_time, words_of

RUNS = 20
BRACKETS = 1200


def flat(count):
    """Conjuncts of 511 nodes each: 65,535 nodes with 128 of them."""
    return "&".join(["+".join(["x"] * 255) + ">=0"] * count)


def deep(count):
    """Conjuncts that are 918 deep: 65,390 nodes and depth 989 with 71 of them."""
    return "&".join(["-" * 917 + "x>=0"] * count)


def brackets(count):
    """Conjuncts in 1,200 brackets."""
    return "&".join(["(" * BRACKETS + "x>=0" + ")" * BRACKETS] * count)


def either(count):
    """Conjuncts in which 1,190 brackets stand round an application that may be a term or a formula."""
    return "&".join(["(" * 1190 + "f(x)*f(x)" + ")" * 1190 + ">=0"] * count)


def squares(count):
    """Conjuncts of a ten-fold (t)*(t)."""
    term = "f(x)"
    for _ in range(10):
        term = f"({term})*({term})"
    return "&".join([term + ">=0"] * count)


TEXTS = (
    ("flat", flat, (32, 64, 128)),
    ("deep", deep, (17, 35, 71)),
    ("brackets", brackets, (100, 200, 400)),
    ("brackets round f(x)*f(x)", either, (100, 200, 400)),
    ("ten-fold (t)*(t)", squares, (5, 10, 20)),
)


def seconds(path, text):
    """The least time of a run on this text."""
    path.write_text(text)
    return least_time(RUNS, ["print", path], lambda run: run.returncode == 0)


def main():
    """Prints a line for each text."""
    words_of(__doc__)
    with tempfile.TemporaryDirectory() as name:
        path = pathlib.Path(name) / "file"
        base = seconds(path, "x")
        for title, text_of, counts in TEXTS:
            before = None
            for count in counts:
                text = text_of(count)
                took = seconds(path, text) - base
                ratio = f", {took / before:.2f} times that of half the text" if before else ""
                print(f"{title}: {len(text)} bytes, {took / base:.2f} of a run on one variable{ratio}")
                before = took


if __name__ == "__main__":
    main()
