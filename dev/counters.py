#!/usr/bin/env python3
"""Looks whether the program opens one counter of looks at nodes, and no other.

    python3 dev/counters.py

What is proved of looks speaks of the counter that is handed in. A call that opened a second one, and handed that on, would take looks that
the first doesn't count, and no contract would say so. The constructor can't be kept from them: whoever stands above `dlk_store` may call what
is public there, and the program's own file must. So this reads the code of `dlk` and of each crate that it stands on, without tests and
comments. A counter needs a blank, and a blank is had from `std::sync::ledger`. Two files may name more of it than the bound `Ledger`: the one
that says what a counter is, and the one with `main`, where one blank is made and one counter.

It prints a line, and for each place that opens another counter one more. The exit status is 0 where there is none, and else 1.
"""

import argparse
import re
import sys
from pathlib import Path

from checkout import TOP, with_those_below

MADE = Path("crates/dlk_store/src/steps.rt")
OPENED = Path("crates/dlk/src/main.rt")
BOUND = re.compile(r"^\s*use std::sync::ledger::Ledger;$")
LEDGER = re.compile(r"\bledger\b")
BLANK = re.compile(r"\bBlank\s*::\s*new\b")
COUNTER = re.compile(r"\bSteps\s*(?:::\s*<[^>]*>\s*)?::\s*new\b")


def faults_of(file: Path, lines: list[str]) -> list[str]:
    """What is wrong in a file, a line each."""
    place = file.relative_to(TOP)
    faults = []
    for number, line in enumerate(lines, 1):
        if place in (MADE, OPENED):
            continue
        if LEDGER.search(line) and not BOUND.match(line) or COUNTER.search(line) or BLANK.search(line):
            faults.append(f"{place}:{number}: may open another counter: {line.strip()}")
    if place == OPENED:
        for what, pattern in (("blanks", BLANK), ("counters", COUNTER)):
            made = sum(len(pattern.findall(line)) for line in lines)
            if made != 1:
                faults.append(f"{place}: makes {made} {what}")
    return faults


def main() -> int:
    """Reads the code of the program."""
    argparse.ArgumentParser(description=__doc__, formatter_class=argparse.RawDescriptionHelpFormatter).parse_args()
    crates = sorted(with_those_below(["dlk"]))
    faults, seen = [], set()
    for crate in crates:
        source = TOP / "crates" / crate / "src"
        for file in (it for it in sorted(source.rglob("*.rt")) if not {"tests", "tests.rt"} & set(it.relative_to(source).parts)):
            lines = [line.split("//")[0].rstrip() for line in file.read_text().splitlines()]
            faults.extend(faults_of(file, lines))
            seen.add(file.relative_to(TOP))
    faults.extend(f"{place}: is not there" for place in (MADE, OPENED) if place not in seen)
    if faults:
        print(f"COUNTERS: {len(faults)} places in the code of the program, where one counter of looks is to be opened in {OPENED}:")
        print("\n".join(faults))
        return 1
    print(f"one counter of looks, opened in {OPENED}; none in the other files of the {len(crates)} crates of the program")
    return 0


if __name__ == "__main__":
    sys.exit(main())
