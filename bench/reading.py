#!/usr/bin/env python3
"""How fast the program reads, beside an earlier one: ratios of one run.

python3 bench/reading.py OLD has the path of the earlier program. Each text is refused at its end, so it is read whole, and nothing is made or
printed of it. Then each program checks a term of real proofs that are merged one after another.
"""
import pathlib
import tempfile

import check
import common

RUNS = 7


def texts():
    """Titles, and texts of about 600,000 bytes that break off behind an operator."""
    yield "sums and comparisons", "x+y*2-z>=0 & " * 46_000
    yield "long names", "position_of_the_car_in_front>=braking_distance_behind & " * 10_700
    yield "programs", "[x:=x+1;y:=*;{x'=v,v'=a}?v>=0;]x>=0 & " * 15_800
    yield "quantifiers and brackets", "\\forall x \\exists y ((x>=y -> (y<x)) <-> !(x=y)) & " * 12_800
    yield "numbers", "1234567.875*x<=0.001 & " * 26_000
    yield "symbols", "f(x,y,g())>=h(||) & p(|z|) & C{q(x)} & " * 15_300
    yield "spaces", ("x" + " " * 60 + ">=" + " " * 60 + "0 & ") * 4_700


def refused_at_end(length):
    """Whether a run says that the text of a model breaks off at its end; the earlier program may say no place."""

    def accepts(run):
        return run.returncode == 2 and run.stdout in (f"refused: model at {length}: syntax\n".encode(), b"refused: model: syntax\n")

    return accepts


def said(title, old_time, new_time):
    """Prints how many times the new program's time the old one takes."""
    print(f"{title}: {old_time / new_time:.2f} times as fast", flush=True)


def compared(title, words, accepts, old):
    """The times of the old program and of the new one, once their ratio is printed."""
    new_time = common.least_processor_time(RUNS, words, accepts)
    old_time = common.least_processor_time(RUNS, words, accepts, old)
    said(title, old_time, new_time)
    return old_time, new_time


def main():
    """Prints a line for each text, and for each term."""
    named = common.words_of(__doc__, "OLD")
    if len(named) != 1:
        raise SystemExit("reading.py: name one earlier program")
    old = pathlib.Path(named[0]).resolve()
    with tempfile.TemporaryDirectory() as name:
        folder = pathlib.Path(name)
        model = folder / "model"
        proof = folder / "term"
        pairs = []
        for title, text in texts():
            text = text.rstrip()
            model.write_text(text)
            pairs.append(compared(f"{title}, {len(text)} bytes", ["check", model, model], refused_at_end(len(text)), old))
        said("all of these", sum(pair[0] for pair in pairs), sum(pair[1] for pair in pairs))
        model.write_text("x>=0 -> x>=0\n")
        for count in (1_000, 30_000):
            text, lines = check.term(count)
            proof.write_text(text)
            compared(f"a term of {lines} lines", ["check", model, proof], lambda run: run.returncode == 0, old)


if __name__ == "__main__":
    main()
