#!/usr/bin/env python3
"""What `derive` costs beside its plan written by hand.

    python3 bench/deriving.py [PROGRAM] [--runs N]

For sums of products as invariants have them, from 9 to 149 nodes, always the same ones, `prove` is run on `(e)'>=0` by `derive(1.0)` and by
the uses of axioms in which that ends, one by one. Both must write the same term. Each is run N times (9), in turn, and the least processor time of
each is told, with the ratio of the two. The program is the built one of this checkout, or the one that is named.
"""

import argparse
import random
import resource
import subprocess
import sys
import tempfile
from pathlib import Path
from typing import NamedTuple

PROGRAM = Path(__file__).resolve().parent.parent / "crates" / "dlk" / "out" / "dlk"
SIZES = (9, 25, 51, 99, 149)


class Term(NamedTuple):
    """A term: its text, how many nodes it has, and the uses of axioms for its differential, by the paths on from there."""

    text: str
    size: int
    uses: list


def below(way, uses):
    """The uses at the end of a way."""
    return [(name, way + path) for name, path in uses]


def leaf(text, name):
    """A variable, a constant or a number."""
    return Term(text, 1, [(name, [])])


def joined(mark, name, ways, a, b):
    """Two terms under an operator."""
    uses = [(name, []), *below(ways[0], a.uses), *below(ways[1], b.uses)]
    return Term(f"({a.text}){mark}({b.text})", a.size + b.size + 1, uses)


def squared(a):
    """The square of a term."""
    return Term(f"({a.text})^2", a.size + 2, [("Dpow", []), *below([1], a.uses)])


def made(size, draw):
    """A term of so many nodes."""
    if size < 3:
        return leaf(*draw.choice([("x", "Dvar"), ("y", "Dvar"), ("v", "Dvar"), ("c()", "Dconst"), ("2", "Dconst")]))
    if size % 2 and draw.random() < 0.2:
        return squared(made(size - 2, draw))
    first = draw.randrange(1, size - 1, 2)
    mark, name, ways = draw.choice([("+", "Dplus", ([0], [1])), ("-", "Dminus", ([0], [1])), ("*", "Dtimes", ([0, 0], [1, 1]))])
    return joined(mark, name, ways, made(first, draw), made(size - 1 - first, draw))


def by_hand(term):
    """The strategy with the uses one by one."""
    return "; ".join(f"useAt({name},1.{'.'.join(map(str, [0, *path]))})" for name, path in term.uses)


def spent(program, folder, strategy):
    """The processor seconds of a proof, and the term that it writes."""
    (folder / "strategy").write_text(strategy)
    before = resource.getrusage(resource.RUSAGE_CHILDREN)
    ran = subprocess.run([program, "prove", folder / "model", folder / "strategy", folder / "term"], capture_output=True, check=False)
    after = resource.getrusage(resource.RUSAGE_CHILDREN)
    if ran.returncode > 1:
        raise SystemExit(f"deriving.py: {ran.stdout.decode()}")
    return after.ru_utime + after.ru_stime - before.ru_utime - before.ru_stime, (folder / "term").read_bytes()


def main():
    """Compares the two on each term."""
    words = argparse.ArgumentParser(description="What derive costs beside its plan written by hand.")
    words.add_argument("program", nargs="?", default=str(PROGRAM), metavar="PROGRAM")
    words.add_argument("--runs", type=int, default=9, metavar="N")
    given = words.parse_args()
    draw = random.Random(7)
    with tempfile.TemporaryDirectory() as place:
        folder = Path(place)
        for size in SIZES:
            term = made(size, draw)
            (folder / "model").write_text(f"({term.text})'>=0\n")
            seconds, terms = {"derive": [], "by hand": []}, set()
            for _ in range(given.runs):
                for name, strategy in (("derive", "derive(1.0)"), ("by hand", by_hand(term))):
                    time, text = spent(given.program, folder, strategy)
                    seconds[name].append(time)
                    terms.add(text)
            if len(terms) > 1:
                raise SystemExit(f"deriving.py: another term at {size} nodes")
            least = {name: 1000 * min(times) for name, times in seconds.items()}
            lines = sum(line[:1].isdigit() for line in terms.pop().split(b"\n"))
            ratio = least["derive"] / least["by hand"]
            print(f"{term.size} nodes, {lines} lines: derive {least['derive']:.1f} ms, by hand {least['by hand']:.1f} ms, ratio {ratio:.2f}", flush=True)
    return 0


if __name__ == "__main__":
    sys.exit(main())
