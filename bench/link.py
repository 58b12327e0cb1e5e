#!/usr/bin/env python3
"""What `trim` and `link` cost beside `check`, and what `trim` saves.

    python3 bench/link.py [PROGRAM]
    python3 bench/link.py --gallery [PROGRAM]     a table of what `trim` saves of each proof of the gallery and of the recipes

First terms of up to 400,000 lines are trimmed: of one real proof that is done anew and merged again and again, as in bench/check.py, so that most steps
are said again; the same, of which nothing needs the first half; and a chain in which each step equals the one before but for its number, so that all
are needed. Then two terms are linked, of which the first has one goal, or 256 equal ones.
Times are those of the processor, the least of three runs, turn by turn with `check` of the same terms. Behind
each number stands what was aimed at.

It needs a C compiler, and a program that is built as `./dlk` builds it: that of DLK, or the one that is named.
"""
import argparse
import pathlib
import tempfile

from check import shifted, term
from common import PROGRAM, TOP, answer, knows, measured, measurer, steps_of

RUNS = 3
MODEL = "x>=0 -> x>=0"
COUNTS = (4_000, 40_000, 400_000)
GOALS = 256


def least(helper, program, rows):
    """For each row of words the least time of some runs, which are taken turn by turn."""
    best = [float("inf")] * len(rows)
    for _ in range(RUNS):
        for place, words in enumerate(rows):
            run = measured(helper, [program, *words])
            if run.status not in (0, 1):
                raise SystemExit(f"link.py: {words}: status {run.status}, {run.printed[:200]!r}")
            best[place] = min(best[place], run.seconds)
    return best


def written(path, text):
    """A file of this text."""
    path.write_text(text)
    return path


def with_spare_lines(count):
    """A term of about so many lines, of which the first half does what the second half does again."""
    lines = term(count // 2)[0].splitlines()[:-1]
    return "\n".join([*lines, *(shifted(line, len(lines)) for line in lines), "done", ""])


def chain(count):
    """A term of so many lines in which each step but the first and the last two is the same, on the line before it."""
    steps = ["start ==> x>=0 -> x>=0", *["apply {} 1 exchangeR(1,1)"] * (count - 3), "apply {} 1 implyR(1)", "apply {} 1 close(1,1)"]
    return "".join(f"{number} {step.format(number - 1)}\n" for number, step in enumerate(steps, 1)) + "done\n"


def trimming(helper, program, folder):
    """Prints what `trim` takes beside `check`."""
    model = written(folder / "model", MODEL + "\n")
    for count in COUNTS:
        texts = {"a proof again and again": term(count)[0], "half of it not needed": with_spare_lines(count), "a chain": chain(count)}
        for title, text in texts.items():
            file, out = written(folder / "term", text), folder / "out"
            checked, trimmed = least(helper, program, [("check", model, file), ("trim", model, file, out)])
            kept = f"{steps_of(out)} of {steps_of(file)} lines kept"
            print(f"trim, {title}, {kept}: {trimmed:.2f} s, {trimmed / checked:.2f} times check (2)", flush=True)


def open_term(count):
    """A term of about so many lines whose one goal is the model itself."""
    lines = term(count)[0].splitlines()[:-3]
    return "\n".join([*lines, "done", ""])


def equal_goals():
    """A model of 256 equal parts, and a term that takes it apart to as many equal goals."""
    parts = [f"({MODEL})"] * GOALS
    model = "&".join(parts)
    steps = [f"start ==> {model}", *(f"apply {{}} {goal} andR(1)" for goal in range(1, GOALS))]
    return model, "".join(f"{number} {step.format(number - 1)}\n" for number, step in enumerate(steps, 1)) + "done\n"


def linking(helper, program, folder):
    """Prints what `link` takes beside both checks."""
    model, out = written(folder / "model", MODEL + "\n"), folder / "out"
    for count in COUNTS:
        first, lemma = written(folder / "first", open_term(count // 2)), written(folder / "lemma", term(count // 2)[0])
        one, other, linked = least(helper, program, [("check", model, first), ("check", model, lemma), ("link", model, first, lemma, out)])
        print(f"link of {steps_of(first)} and {steps_of(lemma)} lines: {linked:.2f} s, {linked / (one + other):.2f} times both checks (1.5)", flush=True)
    text, steps = equal_goals()
    many, first = written(folder / "many", text + "\n"), written(folder / "first", steps)
    lemma = written(folder / "lemma", term(4_000)[0])
    one, other, linked = least(helper, program, [("check", many, first), ("check", model, lemma), ("link", many, first, lemma, out)])
    print(f"link of 256 equal goals and {steps_of(lemma)} lines: {linked:.2f} s, {linked / (one + other):.2f} times both checks (1.5)", flush=True)


def saved(program, folder):
    """Prints a table of what `trim` saves."""
    print("| Proof | Lines | Trimmed | Bytes | Trimmed | Of the lines |\n|---|---|---|---|---|---|")
    sums = [0, 0, 0, 0]
    for place in ("gallery", "recipes"):
        for model in sorted((TOP / "examples" / place).glob("*/model")):
            made, out = folder / "made", folder / "out"
            for words in (("prove", model, model.with_name("strategy"), made), ("trim", model, made, out)):
                run = answer(*words, program=program)
                if run.returncode not in (0, 1):
                    raise SystemExit(f"link.py: {words}: status {run.returncode}, {run.stdout[:200]!r}")
            row = [steps_of(made), steps_of(out), made.stat().st_size, out.stat().st_size]
            sums = [one + more for one, more in zip(sums, row)]
            print(f"| {model.parent.name} | {row[0]} | {row[1]} | {row[2]:,} | {row[3]:,} | {row[1] / row[0]:.2f} |")
    print(f"| all | {sums[0]} | {sums[1]} | {sums[2]:,} | {sums[3]:,} | {sums[1] / sums[0]:.2f} |")


def main():
    """Prints the times, or the table."""
    parser = argparse.ArgumentParser(description="What trim and link cost, and what trim saves.")
    parser.add_argument("program", nargs="?", type=pathlib.Path, default=PROGRAM)
    parser.add_argument("--gallery", action="store_true", help="the table of what trim saves")
    given = parser.parse_args()
    program = given.program.resolve()
    if not knows("trim", program):
        raise SystemExit(f"link.py: {program} doesn't know `trim`")
    with tempfile.TemporaryDirectory() as name:
        folder = pathlib.Path(name)
        if given.gallery:
            saved(program, folder)
        else:
            helper = measurer(folder)
            trimming(helper, program, folder)
            linking(helper, program, folder)


if __name__ == "__main__":
    main()
