#!/usr/bin/env python3
"""Both versions of the same proofs, side by side in one run: bytes, steps a second of processor time, instructions, and memory.

    python3 bench/versions.py [PROGRAM]

The proofs are the ten longest of the gallery, whose terms of version 1 stand below bench/data/version_1; `convert` makes those of version 2. Each is
checked in both versions, turn by turn, the least of nine runs, less what `check` of a smallest term takes, which is the start of the program;
then in one file again and again, so that the start says little. Where valgrind is there, its instructions are counted (`--tool=callgrind`), which other work on the machine doesn't
change. Then come the time of `convert` against that of `check`, the growth from 10,000 to 100,000 lines, the memory above that of the smallest run, and
the bytes a second against those of `metamath` on its database `set.mm`. Behind each number stands what was aimed at.

It needs a C compiler, and a program that is built as `./dlk` builds it: that of DLK, or the one that is named.
"""
import pathlib
import re
import shutil
import subprocess
import tempfile

from check import SET_MM, spent, term as long_term
from common import PROGRAM, TOP, converted, knows, measured, measurer, steps_of, words_of
from real import repeated

STORED = TOP / "bench" / "data" / "version_1"
RUNS = 9
SMALLEST = "1 start ==> x>=0 -> x>=0\n2 apply 1 1 implyR(1)\n3 apply 2 1 close(1,1)\ndone\n"
INSTRUCTIONS = re.compile(rb"Collected : (\d+)")


class Bench:
    """A folder, the small program that measures, and what the start of the program takes."""

    def __init__(self, folder, program):
        self.folder, self.program, self.measurer = folder, program, measurer(folder)
        self.model, self.small = folder / "model", folder / "small"
        self.model.write_text("x>=0 -> x>=0\n")
        self.small.write_text(SMALLEST)
        runs = [self.run("check", self.model, self.small) for _ in range(2 * RUNS)]
        self.start, self.least_peak = min(run.seconds for run in runs), min(run.peak for run in runs)
        self.start_instructions = self.counted("check", self.model, self.small)

    def run(self, *words):
        """A run of the program that ends well."""
        run = measured(self.measurer, [self.program, *words])
        if run.status not in (0, 1):
            raise SystemExit(f"versions.py: {words}: status {run.status}, {run.printed[:200]!r}")
        return run

    def counted(self, *words):
        """The instructions of a run, or none where valgrind isn't there."""
        if not shutil.which("valgrind"):
            return None
        out = self.folder / "callgrind"
        run = subprocess.run(["valgrind", "--tool=callgrind", f"--callgrind-out-file={out}", self.program, *words], capture_output=True, check=False)
        found = INSTRUCTIONS.search(run.stderr)
        return int(found[1]) if found else None

    def least(self, rows):
        """For each row of words the least time and the greatest peak of some runs, which are taken turn by turn."""
        best = [(float("inf"), 0)] * len(rows)
        for _ in range(RUNS):
            for place, words in enumerate(rows):
                run = self.run(*words)
                best[place] = min(best[place][0], run.seconds), max(best[place][1], run.peak)
        return best

    def above_start(self, seconds):
        """A time without the start of the program."""
        return max(seconds - self.start, 1e-4)


def pairs_of(bench):
    """The proofs: the name, the model, and the term in both versions."""
    for model in sorted(STORED.glob("*/model")):
        name = model.parent.name
        yield name, model, model.with_name("term"), converted(model.with_name("term"), bench.folder / name, bench.program)


def side_by_side(bench, title, proofs):
    """Prints a line for each proof, and the sums; how many times as many steps a second version 2 has, and its bytes a second."""
    sums = {"steps": 0, "bytes": [0, 0], "seconds": [0.0, 0.0], "instructions": [0, 0]}
    for name, model, *files in proofs:
        steps = steps_of(files[0])
        told = bench.least([("check", model, file) for file in files])
        sums["steps"] += steps
        shown = []
        for place, (file, (seconds, peak)) in enumerate(zip(files, told)):
            size, net = file.stat().st_size, bench.above_start(seconds)
            sums["bytes"][place] += size
            sums["seconds"][place] += net
            counted = bench.counted("check", model, file)
            if counted is not None:
                sums["instructions"][place] += counted - bench.start_instructions
            more = f", {(counted - bench.start_instructions) / steps:.0f} instructions a step" if counted is not None else ""
            memory = (peak - bench.least_peak) / size
            shown.append(f"{size} bytes, {steps / net:.0f} steps a second{more}, {memory:.1f} bytes of memory a byte above the smallest")
        print(f"{title}, {name}, {steps} steps: in full {shown[0]}; by nodes {shown[1]}", flush=True)
    one, two = sums["seconds"]
    print(f"{title}, all: {sums['bytes'][1] / sums['bytes'][0]:.2f} of the bytes, {one / two:.2f} times the steps a second (4)", flush=True)
    if all(sums["instructions"]):
        counts = [count / sums["steps"] for count in sums["instructions"]]
        print(f"{title}, all: {counts[0]:.0f} and {counts[1]:.0f} instructions a step, {counts[0] / counts[1]:.2f} times", flush=True)
    return sums["bytes"][1] / two


def converting(bench, proofs):
    """Prints the time of `convert` against that of `check`, of each version."""
    for version in (0, 1):
        times = [0.0, 0.0]
        for _, model, *files in proofs:
            (checked, _), (made, _) = bench.least([("check", model, files[version]), ("convert", files[version], bench.folder / "out")])
            times[0] += checked
            times[1] += made
        print(f"convert of version {version + 1} takes {times[1] / times[0]:.2f} times what check takes (1.5)", flush=True)


def growing(bench):
    """Prints how the time of version 2 grows with ten times the lines, and its memory."""
    told = []
    for count in (10_000, 100_000):
        text, lines = long_term(count)
        one = bench.folder / f"lines-{count}"
        one.write_text(text)
        two = converted(one, bench.folder / f"nodes-{count}", bench.program)
        (seconds, peak), = bench.least([("check", bench.model, two)])
        size = two.stat().st_size
        told.append(seconds)
        memory = (peak - bench.least_peak) / size
        print(f"{lines} lines by nodes: {size} bytes, {size / seconds / 1e6:.2f} million a second, {memory:.1f} bytes of memory a byte above the smallest (15)")
    print(f"from 10,000 to 100,000 lines by nodes the time grows {told[1] / told[0]:.1f} times (10.5)", flush=True)


def main():
    """Prints all of it."""
    named = words_of(__doc__, "PROGRAM")
    program = pathlib.Path(named[0]).resolve() if named else PROGRAM
    if not knows("convert", program):
        raise SystemExit(f"versions.py: {program} doesn't know `convert`")
    with tempfile.TemporaryDirectory() as name:
        bench = Bench(pathlib.Path(name), program)
        print(f"check of a smallest term: {bench.start * 1000:.1f} ms, {bench.least_peak / 1e6:.1f} MB", flush=True)
        proofs = list(pairs_of(bench))
        side_by_side(bench, "as it is", proofs)
        kept = []
        for proof, model, one, two in proofs:
            copy = bench.folder / f"{proof}-in-full"
            copy.write_bytes(one.read_bytes())
            kept.append((proof, model, repeated(copy), repeated(two)))
        # both files with as many copies: that of version 2 is made of that of version 1
        kept = [(proof, model, one, converted(one, two, program)) for proof, model, one, two in kept]
        rate = side_by_side(bench, "again and again", kept)
        converting(bench, proofs)
        growing(bench)
    if SET_MM.exists():
        size = SET_MM.stat().st_size
        seconds, _ = spent(["metamath", f"read '{SET_MM}'", "verify proof *", "exit"], "All proofs in the database were verified")
        print(f"version 2 is read at {rate * seconds / size:.1f} times the bytes a second of metamath on set.mm (3)")
    else:
        print("metamath: set.mm is not there")


if __name__ == "__main__":
    main()
