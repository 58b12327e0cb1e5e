#!/usr/bin/env python3
"""What sessions cost: that going back costs nothing, and that a script of many lines costs what its strategies cost.

    python3 bench/session.py [PROGRAM]

Three pairs of scripts are run, turn by turn, the least of nine runs: 1,000 times a strategy that leaves the goal as it was, and 1,000 times the same with
`undo` behind each. Then scripts of 1,000 and of 10,000 lines `apply 1 nil`, and of 1,000 lines `show` behind a long proof. Behind each number stands what was
aimed at. It needs a C compiler, and a program that is built as `./dlk` builds it: that of DLK, or the one that is named.
"""
import pathlib
import tempfile

from common import PROGRAM, knows, measured, measurer, words_of

RUNS = 9
MODEL = "x>=0 & y>0 -> [a:=1; {x'=v,v'=a & v>=0}]x>=0"
PAIRS = (
    ("one rule", MODEL, "exchangeR(1,1)"),
    ("two uses of an axiom", MODEL, "useAt(composeb,1.1); useBack(composeb,1.1)"),
    ("a cut and what takes it away", MODEL, 'cut("true"); <(hideL(-1), closeTrue(2))'),
)


def least(helper, program, folder, scripts):
    """For each script the least time of some runs, which are taken turn by turn, and what it prints."""
    best, printed = [float("inf")] * len(scripts), [b""] * len(scripts)
    for _ in range(RUNS):
        for place, (model, lines) in enumerate(scripts):
            (folder / "model").write_text(model + "\n")
            (folder / "script").write_text("".join(f"{line}\n" for line in lines))
            run = measured(helper, [program, "session", folder / "model", folder / "script", folder / "term"])
            if run.status not in (0, 1) or b"fails" in run.printed or b"budget" in run.printed:
                raise SystemExit(f"session.py: status {run.status}, {run.printed[:200]!r}")
            best[place], printed[place] = min(best[place], run.seconds), run.printed
    return best, printed


def main():
    """Prints a line for each pair of scripts, and the times of the others."""
    named = words_of(__doc__, "PROGRAM")
    program = pathlib.Path(named[0]).resolve() if named else PROGRAM
    if not knows("session", program):
        raise SystemExit(f"session.py: {program} doesn't know `session`")
    with tempfile.TemporaryDirectory() as name:
        folder = pathlib.Path(name)
        helper = measurer(folder)
        for title, model, strategy in PAIRS:
            line = f"apply 1 {strategy}"
            (alone, back), printed = least(helper, program, folder, [(model, [line] * 1_000), (model, [line, "undo"] * 1_000)])
            goals = printed[1].decode().splitlines()[-1]
            if goals != "ok goals 1":
                raise SystemExit(f"session.py: {title}: ends with {goals}")
            print(f"1,000 times {title}: {alone * 1000:.1f} ms, with undo behind each {back * 1000:.1f} ms, {back / alone:.2f} times (1.2)", flush=True)
        counts = (1, 1_000, 10_000)
        times, _ = least(helper, program, folder, [(MODEL, ["apply 1 nil"] * count) for count in counts])
        for count, seconds in zip(counts, times):
            print(f"{count} lines of nil: {seconds * 1000:.1f} ms" + (" (50)" if count == 10_000 else ""), flush=True)
        proof = ["apply 1 exchangeR(1,1)"] * 5_000
        (alone, shown), _ = least(helper, program, folder, [(MODEL, proof), (MODEL, [*proof, *["show"] * 1_000])])
        print(f"1,000 times show behind 5,000 lines: {(shown - alone) * 1000:.1f} ms more than the {alone * 1000:.1f} ms of these", flush=True)


if __name__ == "__main__":
    main()
