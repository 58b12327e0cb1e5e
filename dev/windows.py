#!/usr/bin/env python3
"""Lists the lines that written answers repeat: the commonest windows of three lines, and how much stands in such windows.

    python3 dev/windows.py [--lines LINES] [--most NUMBER] [--files] [FOLDER]

Looked at are the answers to the goals of functions, `crates/*/proofs/**/Answers.antt` below the folder, or else of this checkout, with the lemmas
that stand beside them. What counts are the lines behind the `=` of a clause: neither imports, signatures, comments nor empty lines, nor a line that
ends with the `=`. A window is --lines lines (3) behind one another in one clause, without the spaces before them. It is repeated if it stands at
several places, in one file or in several.

For each of the --most commonest (20) a block is printed: at how many places it stands, its lines, and below that each file, the fullest first, with
the number of its places there. A window is made longer where the next line is the same at all its places, and what a window has is in none of the
later ones. With --files each file with repeated windows has a row: lines in such windows, all lines, windows that are repeated in it alone. The last
line has the sums.
"""

import argparse
import re
import sys
from collections import Counter, defaultdict
from pathlib import Path
from typing import Iterator, NamedTuple

TOP = Path(__file__).resolve().parent.parent
SIGNATURE = re.compile(r"(?:(?:pub|abbrev) )*[A-Za-z_+][\w'+-]*\s*:\s")
HEAD = re.compile(r"[A-Za-z_+].*?(?<=[\w})\]])\s=(?:\s|$)")
SKIPPED = re.compile(r"--|use |unfolding |infix|(?:pub )?(?:mutual|module)\b|where$")


class Place(NamedTuple):
    """Where a line of an answer stands: its file, its clause and its number among the lines of that clause."""

    file: Path
    clause: int
    line: int

    def plus(self, many: int) -> "Place":
        """So many lines further on."""
        return self._replace(line=self.line + many)


def clauses(text: str) -> Iterator[list[str]]:
    """The lines behind the `=` of each clause."""
    found: list[str] | None = None
    signed = False
    for line in text.split("\n"):
        here = line.strip()
        if not here or SKIPPED.match(here):
            continue
        if not line.startswith(" "):
            if found:
                yield found
            head = HEAD.match(line)
            signed = not head or bool(SIGNATURE.match(line))
            found = [line[head.end() :].strip()] if head and not signed and line[head.end() :].strip() else []
        elif found is not None and not signed:
            found.append(here)
    if found:
        yield found


def answers(folder: Path) -> dict[Path, list[list[str]]]:
    """The clauses of each file of answers below a folder."""
    files = sorted(folder.glob("crates/*/proofs/**/Answers.antt"))
    return {it.relative_to(folder): list(clauses(it.read_text(encoding="utf-8"))) for it in files}


def windows(every: dict[Path, list[list[str]]], width: int) -> dict[tuple[str, ...], list[Place]]:
    """The repeated windows, each with its places."""
    found: dict[tuple[str, ...], list[Place]] = defaultdict(list)
    for file, parts in every.items():
        for number, lines in enumerate(parts):
            for at in range(len(lines) - width + 1):
                found[tuple(lines[at : at + width])].append(Place(file, number, at))
    return {window: places for window, places in found.items() if len(places) > 1}


def covered(found: dict[tuple[str, ...], list[Place]], width: int) -> set[Place]:
    """The lines that stand in a repeated window."""
    return {place.plus(many) for places in found.values() for place in places for many in range(width)}


def extended(every: dict[Path, list[list[str]]], places: list[Place], width: int, taken: set[Place]) -> tuple[list[Place], int]:
    """A window made longer, up and down, while it is the same at all its places and none of its lines is taken."""

    def same(many: int) -> bool:
        there = [it.plus(many) for it in places]
        if any(it in taken or not 0 <= it.line < len(every[it.file][it.clause]) for it in there):
            return False
        return len(set(there)) == len(places) and len({every[it.file][it.clause][it.line] for it in there}) == 1

    first, last = 0, width
    while same(first - 1):
        first -= 1
    while same(last):
        last += 1
    return [it.plus(first) for it in places], last - first


def blocks(every: dict[Path, list[list[str]]], width: int, most: int) -> Iterator[tuple[list[str], list[Place]]]:
    """The commonest windows, made longer, each of lines that no earlier one has."""
    left, taken = windows(every, width), set[Place]()
    for _ in range(most):
        free = {window: [it for it in places if not any(it.plus(many) in taken for many in range(width))] for window, places in left.items()}
        left = {window: places for window, places in free.items() if len(places) > 1}
        if not left:
            return
        window = max(left, key=lambda it: len(left[it]))
        places, long = extended(every, left[window], width, taken)
        taken |= {place.plus(many) for place in places for many in range(long)}
        start = places[0]
        yield every[start.file][start.clause][start.line : start.line + long], places


def rows(every: dict[Path, list[list[str]]], found: dict[tuple[str, ...], list[Place]], width: int) -> Iterator[str]:
    """A row for each file that has lines in repeated windows, the fullest first."""
    repeated = Counter(it.file for it in covered(found, width))
    alone = Counter(places[0].file for places in found.values() if len({it.file for it in places}) == 1)
    for file, many in repeated.most_common():
        yield f"{many:5} of {sum(map(len, every[file])):4} lines, {alone[file]:3} windows in it alone: {file}"


def main() -> int:
    """Prints the commonest windows, and the sums."""
    words = argparse.ArgumentParser(description=__doc__, formatter_class=argparse.RawDescriptionHelpFormatter)
    words.add_argument("folder", nargs="?", type=Path, default=TOP, help="the checkout; none: this one")
    words.add_argument("--lines", type=int, default=3, metavar="LINES", help="how many lines a window has (3)")
    words.add_argument("--most", type=int, default=20, metavar="NUMBER", help="how many windows are printed (20)")
    words.add_argument("--files", action="store_true", help="a row a file")
    given = words.parse_args()
    every = answers(given.folder)
    found = windows(every, given.lines)
    for lines, places in blocks(every, given.lines, given.most):
        print(f"{len(places)} times {len(lines)} lines")
        print("\n".join(f"  | {it}" for it in lines))
        for file, many in Counter(it.file for it in places).most_common():
            print(f"    {many} {file}")
    if given.files:
        print("\n".join(rows(every, found, given.lines)))
    whole, repeated = sum(len(lines) for parts in every.values() for lines in parts), len(covered(found, given.lines))
    print(f"{whole:,} lines of answers in {len(every)} files, {repeated:,} of them ({100 * repeated / max(whole, 1):.1f}%) in {len(found):,} repeated windows")
    return 0


if __name__ == "__main__":
    sys.exit(main())
