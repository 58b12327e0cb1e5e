#!/usr/bin/env python3
"""How `dlk gen` grows, and what `prove` and `check` of the same texts cost: processor times, in one run.

A generated model of N assignments has a formula of N boxes, and each line of the term has it whole or in part: in version 1 by its text, so that ten times
the assignments make a hundred times the bytes, in version 2 by its node. What is looked for is the time beyond what the bytes make: the time a byte of term,
for ten times the assignments. `gen` makes the term and checks it, so beside it stand `prove` and `check` of the same model and strategy.

Run it after `./dlk` has built the program.
"""
import pathlib
import tempfile

from common import PROGRAM, answer, least_processor_time, words_of

COUNTS = (50, 100, 200, 350, 500)
RUNS = 3


def texts(count):
    """The model and the strategy that `gen` makes of a number."""
    return f"x>=0 -> {'[x:=x+1;]' * count}x>=0", f"implyR(1); useAt(assignb,1)*{count}; leaf"


def measured(folder, count):
    """The processor time of `gen`, and the bytes of its term, which are printed with the times of `prove` and `check`."""
    names = [folder / name for name in ("model", "strategy", "term")]
    for name, text in zip(names, texts(count)):
        name.write_text(text)
    proved = answer("prove", *names)
    summed = answer("gen", str(count))
    lines = 1 + 1 + 11 * count + 2
    if summed.stdout.decode() != f"generated {count}\nlines {lines}\nleaves 1\nclosed\n" or summed.returncode != 0:
        raise SystemExit(f"gen.py: gen {count}: status {summed.returncode}, {summed.stdout[:200]!r}")
    length = names[2].stat().st_size
    making = least_processor_time(RUNS, ("gen", str(count)), lambda r: r.stdout == summed.stdout)
    proving = least_processor_time(RUNS, ("prove", *names), lambda r: r.stdout == proved.stdout)
    checking = least_processor_time(RUNS, ("check", names[0], names[2]), lambda r: r.stdout == proved.stdout)
    print(
        f"gen {count}: {lines} lines, {length} bytes of term, {making:.3f} s, {1e9 * making / length:.0f} ns a byte;"
        f" prove {proving:.3f} s, check {checking:.3f} s, {proving / checking:.2f} times",
        flush=True,
    )
    return making, length


def main():
    """Prints a line for each number, and the growth."""
    words_of(__doc__)
    if not PROGRAM.exists():
        raise SystemExit("gen.py: the program isn't built")
    with tempfile.TemporaryDirectory() as name:
        found = {count: measured(pathlib.Path(name), count) for count in COUNTS}
    (short, few), (long, many) = found[50], found[500]
    print(f"for ten times the assignments the term has {many / few:.1f} times the bytes, and gen takes {long / short:.1f} times as long:"
          f" {10 * (long / short) / (many / few):.1f} times for ten times, beyond what the formulas' sizes make")


if __name__ == "__main__":
    main()
