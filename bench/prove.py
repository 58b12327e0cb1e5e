#!/usr/bin/env python3
"""How fast `dlk prove` makes a term, against `dlk check` of the term that it wrote: processor times, in one run.

The runs have from 1,000 to 15,900 lines, which the budget of 16,000 runs of an atom leaves room for: in each turn a formula is cut
in, and what the cut asks for is taken as a leaf. The last run has 256 goals, and each of its atoms works on one of
them. Printed are the times, how much longer `prove` takes than `check`, and the growth for ten times the lines.

Run it after `./dlk` has built the program.
"""
import pathlib
import tempfile

from common import PROGRAM, answer, least_processor_time, words_of

COUNTS = (1_000, 3_000, 10_000, 15_900)
GOALS = 256
RUNS = 3


def turns(count):
    """A model and a strategy for a run of about so many lines: a cut and a leaf in each turn, with three lines for three atoms."""
    turn = '(cutR("x>=0",1); <(nil, leaf))'
    hundreds, rest = divmod(count // 3, 100)
    parts = [f"({turn}*100)*{hundreds}"] if hundreds else []
    parts += [f"{turn}*{rest}"] if rest else []
    return "x>=0", "; ".join(parts)


def many_goals():
    """A model and a strategy that come to 256 goals, and then do something on each of them, one after another."""
    model = "&".join(["x>=0"] * GOALS)
    each = "(exchangeR(1,1)*50)"
    return model, f"andR(1)*{GOALS - 1}; <({', '.join([each] * GOALS)})"


def compared(folder, title, model, strategy):
    """The processor times of `prove` and of `check` on what it wrote, which are printed; with the number of lines."""
    names = [folder / name for name in ("model", "strategy", "term")]
    names[0].write_text(model + "\n")
    names[1].write_text(strategy + "\n")
    run = answer("prove", *names)
    if run.returncode > 1:
        raise SystemExit(f"prove.py: {title}: status {run.returncode}, {run.stdout[:200]!r}")
    proving = least_processor_time(RUNS, ("prove", *names), lambda r: r.stdout == run.stdout)
    checking = least_processor_time(RUNS, ("check", names[0], names[2]), lambda r: r.stdout == run.stdout)
    lines = names[2].read_text().count("\n") - 1
    print(f"{title}, {lines} lines: prove {proving:.3f} s, check {checking:.3f} s, {proving / checking:.2f} times", flush=True)
    return lines, proving


def main():
    """Prints a line for each run."""
    words_of(__doc__)
    if not PROGRAM.exists():
        raise SystemExit("prove.py: the program isn't built")
    times = {}
    with tempfile.TemporaryDirectory() as name:
        folder = pathlib.Path(name)
        for count in COUNTS:
            times[count] = compared(folder, "cuts and leaves", *turns(count))
        (few, short), (many, long) = times[1_000], times[10_000]
        print(f"for {many / few:.1f} times the lines prove takes {long / short:.1f} times as long")
        compared(folder, f"{GOALS} goals", *many_goals())


if __name__ == "__main__":
    main()
