#!/usr/bin/env python3
"""Counts lines: of code, contracts, definitions and proofs of the crates, and of Python by its rooms.

    python3 dev/lines.py [--crates] [FOLDER]

Empty lines and lines that are comments alone aren't counted. Of a crate `code` and `contracts` are those of `src` without tests: a contract is each
clause (`requires`, `ensures`, `decreases`, `invariant`) with the lines up to its closing brace, and each `ghost` line. `definitions` are those of
`specs`, without what the toolchain writes to `specs/declared`, `proofs` those of `proofs`, and `tests` those of tests in `src`. With --crates each
crate has a row, those with most lines first. FOLDER is another checkout than this one.
"""

import argparse
import re
import sys
from collections import Counter
from pathlib import Path

TOP = Path(__file__).resolve().parent.parent
KINDS = ("code", "contracts", "definitions", "proofs", "tests")
CLAUSE = re.compile(r"\s*(?:requires|ensures|decreases|invariant)\b")
GHOST = re.compile(r"\s*ghost\b")
ROOMS = ("src/dlkt", "src/dlkt/archive", "src/dlkt/commands", "src/dlkt/lsp", "src/dlkt/search", "src/dlkt/semantics", "dev", "bench", "tests")


def lines_of(file: Path, comment: str) -> list[str]:
    """The lines of a file that count."""
    return [it for it in file.read_text(encoding="utf-8").splitlines() if it.strip() and not it.strip().startswith(comment)]


def contract_lines(lines: list[str]) -> int:
    """How many lines of code are of contracts."""
    count, depth = 0, 0
    for line in lines:
        text = line.partition("//")[0]
        if depth == 0 and not CLAUSE.match(text) and not GHOST.match(text):
            continue
        count += 1
        depth = max(0, depth + text.count("{") - text.count("}"))
    return count


def is_test(file: Path, source: Path) -> bool:
    """Whether a file of code is one of tests."""
    return file.name == "tests.rt" or "tests" in file.relative_to(source).parts


def counts_of(crate: Path) -> Counter[str]:
    """How many lines of each kind a crate has."""
    found: Counter[str] = Counter()
    for file in (crate / "src").rglob("*.rt"):
        lines = lines_of(file, "//")
        if is_test(file, crate / "src"):
            found["tests"] += len(lines)
        else:
            contracts = contract_lines(lines)
            found.update({"contracts": contracts, "code": len(lines) - contracts})
    for kind, part in (("definitions", "specs"), ("proofs", "proofs")):
        files = (it for it in (crate / part).rglob("*.antt") if "declared" not in it.relative_to(crate).parts)
        found[kind] += sum(len(lines_of(it, "--")) for it in files)
    return found


def rooms(top: Path) -> dict[str, int]:
    """How many lines of Python each room has: those of a folder without those of another room in it."""
    found = {}
    for room in ROOMS:
        inner = [top / it for it in ROOMS if it.startswith(f"{room}/")]
        files = [it for it in (top / room).rglob("*.py") if not any(it.is_relative_to(other) for other in inner)]
        if files:
            found[room] = sum(len(lines_of(it, "#")) for it in files)
    return found


def table(rows: list[tuple[str, Counter[str]]]) -> list[str]:
    """The rows under their heads."""
    width = max(len(name) for name, _ in rows)
    lines = [" " * width + "".join(f"{kind:>13}" for kind in (*KINDS, "all"))]
    return lines + [f"{name:<{width}}" + "".join(f"{found[kind]:>13,}" for kind in KINDS) + f"{sum(found.values()):>13,}" for name, found in rows]


def main() -> int:
    """Prints the sums."""
    words = argparse.ArgumentParser(description=__doc__, formatter_class=argparse.RawDescriptionHelpFormatter)
    words.add_argument("folder", nargs="?", type=Path, default=TOP, metavar="FOLDER", help="a checkout (this one)")
    words.add_argument("--crates", action="store_true", help="a row a crate")
    given = words.parse_args()
    every = [(it.name, counts_of(it)) for it in sorted((given.folder / "crates").iterdir()) if (it / "src").is_dir()]
    every.sort(key=lambda it: -sum(it[1].values()))
    whole: Counter[str] = Counter()
    for _, found in every:
        whole.update(found)
    print("\n".join(table([*(every if given.crates else []), (f"{len(every)} crates", whole)])))
    print("Python: " + ", ".join(f"{room} {count:,}" for room, count in rooms(given.folder).items()))
    return 0


if __name__ == "__main__":
    sys.exit(main())
