#!/usr/bin/env python3
"""Makes the tables of crates in docs/ARCHITECTURE.md: each crate with its layer, what it is, and the crates that stand next below it.

    python3 dev/layers.py             prints the tables
    python3 dev/layers.py --write     puts them into docs/ARCHITECTURE.md, between the two lines of comment that name this script
    python3 dev/layers.py --check     exits 1 if the page has other tables

`crates.txt` says what each crate uses, and the first sentence of its `lib.rt` or `main.rt` what it is. A crate is *next below* another one if the other
one uses it, and no third crate that the other one uses stands on it. The layer of a crate is the length of the longest way down from it.
"""

import argparse
import re
import sys
from pathlib import Path

ROOT = Path(__file__).resolve().parent.parent
PAGE = ROOT / "docs" / "ARCHITECTURE.md"
FIRST = "<!-- The tables up to the next comment are made by dev/layers.py. -->"
LAST = "<!-- Here end the tables of dev/layers.py. -->"
TESTS = "dlk_tests_"

Uses = dict[str, set[str]]


def stop(text: str) -> None:
    """Ends with a text on standard error."""
    print(f"layers.py: {text}", file=sys.stderr)
    sys.exit(1)


def uses() -> Uses:
    """The crates of the project, each with those of the project that it uses."""
    rows = [it.partition(":") for it in (ROOT / "crates.txt").read_text(encoding="utf-8").splitlines() if it.strip() and not it.startswith("#")]
    listed = {name.split()[0]: set(used.split()) for name, _, used in rows}
    return {name: used & set(listed) for name, used in listed.items()}


def below(name: str, used: Uses) -> set[str]:
    """All crates on which a crate stands."""
    return used[name].union(*(below(it, used) for it in used[name]))


def nearest(name: str, used: Uses) -> list[str]:
    """The crates next below a crate: those that it uses, without those on which another one of these stands."""
    return sorted(used[name] - set().union(*(below(it, used) for it in used[name])))


def layer(name: str, used: Uses) -> int:
    """The length of the longest way down from a crate, itself counted."""
    return 1 + max((layer(it, used) for it in used[name]), default=0)


def told(name: str) -> str:
    """What a crate is: the first sentence of its root file."""
    source = ROOT / "crates" / name / "src"
    root = next((it for it in (source / "lib.rt", source / "main.rt") if it.is_file()), None)
    if root is None:
        stop(f"crates/{name} has no lib.rt and no main.rt")
        return ""
    head = re.match(r"(?://! ?.*\n)+", root.read_text(encoding="utf-8"))
    if not head:
        stop(f"{root.relative_to(ROOT)} doesn't begin by saying what it is")
        return ""
    text = " ".join(line.removeprefix("//!").strip() for line in head[0].splitlines())
    return re.split(r"(?<=\.)\s", text)[0].removesuffix(".").replace("|", "\\|")


def table(names: list[str], used: Uses) -> list[str]:
    """The lines of a table of crates, the lowest layer first."""
    rows = sorted((layer(name, used), name) for name in names)
    head = ["| Layer | Crate | What it is | Next below |", "|---|---|---|---|"]
    return head + [f"| {number} | `{name}` | {told(name)} | {', '.join(f'`{it}`' for it in nearest(name, used)) or '-'} |" for number, name in rows]


def tables() -> str:
    """Both tables: the crates of the program, and those of its tests."""
    used = uses()
    tried = [name for name in used if name.startswith(TESTS)]
    program = table([name for name in used if name not in tried], used)
    return "\n".join([*program, "", "These crates hold tests, and no crate of the program stands on them:", "", *table(tried, used)])


def parts(page: str) -> tuple[str, str, str]:
    """A page before its tables, its tables, and what stands behind them."""
    before, first, rest = page.partition(FIRST + "\n\n")
    made, last, behind = rest.partition("\n\n" + LAST)
    if not first or not last:
        stop(f"{PAGE.relative_to(ROOT)} lacks a line of comment: {LAST if first else FIRST}")
    return before + first, made, last + behind


def main() -> int:
    """Prints the tables, writes them, or compares."""
    words = argparse.ArgumentParser(description=__doc__, formatter_class=argparse.RawDescriptionHelpFormatter)
    words.add_argument("--write", action="store_true", help="put the tables into docs/ARCHITECTURE.md")
    words.add_argument("--check", action="store_true", help="compare with docs/ARCHITECTURE.md; exit 1 if they differ")
    given = words.parse_args()
    made = tables()
    if not given.write and not given.check:
        print(made)
        return 0
    before, now, behind = parts(PAGE.read_text(encoding="utf-8"))
    if given.write:
        PAGE.write_text(before + made + behind, encoding="utf-8")
    elif now != made:
        differing = next((new for new, old in zip(made.split("\n"), now.split("\n")) if new != old), "their number")
        stop(f"docs/ARCHITECTURE.md has other tables than dev/layers.py --write puts there, first in: {differing}")
    else:
        print(f"{len(uses())} crates stand in docs/ARCHITECTURE.md as they are")
    return 0


if __name__ == "__main__":
    sys.exit(main())
