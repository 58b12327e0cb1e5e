#!/usr/bin/env python3
"""Says of which crates the wrong bodies were tried as the crates are now, by the file dev/tried.txt.

    python3 dev/tried.py     exits 1 where a crate with wrong bodies changed since they were last tried

A row of the file has a crate, how many wrong bodies it has, the day on which all of them were refused, and a sum of the crate's files then: those of
`src` without tests, `specs` and `proofs`, and the wrong bodies of `must-fail` and `edits`, whichever of the two folders one stands in. Comments, the
breaks of lines and the order of imports don't count: no verdict comes from them.
`dev/edits.py NAME` writes the row of a crate when it has tried all of them and each was refused, and nothing else writes it. What a crate stands on
has rows of its own.

By hand a row may say `owed` in the place of the day: the crate was landed with its change before its wrong bodies were tried again. Such a crate is
named each time, and where it changes once more, it fails as any other.
"""

import argparse
import hashlib
import re
import sys
import time
from pathlib import Path
from typing import NamedTuple

TOP = Path(__file__).resolve().parent.parent
FILE = TOP / "dev" / "tried.txt"
PARTS = ("src", "specs", "proofs")
FOLDERS = ("must-fail", "edits")
OWED = "owed"
# A text in quotes, or else a comment or blanks, by the ending of a file.
PARTED = {
    ".rt": re.compile(r"""b?"(?:\\.|[^"\\])*"|b?'(?:\\[^']+|[^'\\])'|((?://[^\n]*|\s)+)""", re.DOTALL),
    ".antt": re.compile(r"""b?"(?:\\.|[^"\\])*"|((?:(?<!\S)--(?!\S)[^\n]*|\s)+)""", re.DOTALL),
}
IMPORT = re.compile(r"\b((?:pub )?(?:ghost )?use [\w:.]+)\{([^{}]*)\}(;?) ")
HEAD = "# crate, wrong bodies, day on which all were refused, sum of the crate then: written by dev/edits.py, read by dev/tried.py"


class Row(NamedTuple):
    """A row of the file."""

    crate: str
    bodies: int
    day: str
    sum: str


def bodies_of(crate: Path) -> list[Path]:
    """The wrong bodies of a crate's folder, by their names."""
    return sorted((it for folder in FOLDERS for it in (crate / folder).glob("*.edit")), key=lambda it: it.name)


def is_test(file: Path) -> bool:
    """Whether a file of a crate is one of tests, which the wrong bodies are tried without."""
    return file.name == "tests.rt" or "tests" in file.parts


def words_of(file: Path) -> bytes:
    """The text of a file without comments, with one blank where there are some, and an import for each name, in order, in the place of the first."""
    parted = PARTED.get(file.suffix)
    if parted is None:
        return file.read_bytes()
    text = parted.sub(lambda it: " " if it[1] else it[0], file.read_text(encoding="utf-8"))
    imports = sorted(f"{it[1]}{name.strip()}{it[3]} " for it in IMPORT.finditer(text) for name in it[2].split(",") if name.strip())
    return (" ".join(imports) + IMPORT.sub("", text)).strip().encode()


def sum_of(crate: Path) -> str:
    """A sum of what the verdicts on a crate's wrong bodies come from, as far as it stands in the crate's folder."""
    whole = hashlib.sha256()
    files = sorted(it for part in PARTS for it in (crate / part).rglob("*") if it.is_file() and not is_test(it.relative_to(crate)))
    for name, file in [*((str(it.relative_to(crate)), it) for it in files), *((it.name, it) for it in bodies_of(crate))]:
        text = words_of(file)
        whole.update(f"{name} {len(text)}\n".encode() + text)
    return whole.hexdigest()[:32]


def rows(file: Path = FILE) -> dict[str, Row]:
    """The rows of the file, by crate."""
    found = {}
    for line in file.read_text(encoding="utf-8").splitlines() if file.is_file() else ():
        if line and not line.startswith("#"):
            crate, count, day, known = line.split()
            found[crate] = Row(crate, int(count), day, known)
    return found


def crates_with_bodies(top: Path = TOP) -> list[Path]:
    """The folders of crates that have wrong bodies."""
    return [it for it in sorted((top / "crates").iterdir()) if it.is_dir() and bodies_of(it)]


def row_of(crate: Path) -> Row:
    """The row that says of a crate that its wrong bodies were tried now, as it is now."""
    return Row(crate.name, len(bodies_of(crate)), time.strftime("%Y-%m-%d"), sum_of(crate))


def put(new: list[Row], file: Path = FILE) -> None:
    """Writes rows in the place of those of their crates. Rows of crates that are gone, or have no wrong bodies, go."""
    every = rows(file) | {it.crate: it for it in new}
    there = {it.name for it in crates_with_bodies()}
    lines = [" ".join(map(str, row)) for name, row in sorted(every.items()) if name in there]
    fresh = file.with_suffix(".new")
    fresh.write_text("\n".join([HEAD, *lines]) + "\n", encoding="utf-8")
    fresh.replace(file)


def owed(top: Path = TOP, file: Path = FILE) -> list[str]:
    """The crates of which it is said that their wrong bodies are yet to be tried as they are now."""
    known = rows(file)
    return [it.name for it in crates_with_bodies(top) if it.name in known and known[it.name].day == OWED and known[it.name].sum == sum_of(it)]


def changed(top: Path = TOP, file: Path = FILE) -> list[str]:
    """The crates whose wrong bodies weren't tried as they are now, each with why."""
    known = rows(file)
    found: list[str] = []
    for crate in crates_with_bodies(top):
        row = known.get(crate.name)
        if row is None:
            found.append(f"{crate.name}: its wrong bodies were never tried")
        elif row.sum != sum_of(crate):
            found.append(f"{crate.name}: it changed since its wrong bodies were tried on {row.day}")
    return found


def main() -> int:
    """Says which crates changed."""
    argparse.ArgumentParser(description=__doc__, formatter_class=argparse.RawDescriptionHelpFormatter).parse_args()
    wrong = changed()
    for line in wrong:
        print(f"tried.py: {line}")
    if wrong:
        print(f"tried.py: try them by: python3 dev/edits.py --together {' '.join(it.partition(':')[0] for it in wrong)}")
    for crate in owed():
        print(f"owed: the wrong bodies of {crate}, by: python3 dev/edits.py --together {crate}")
    if not wrong:
        count = sum(it.bodies for it in rows().values())
        print(f"the wrong bodies of {len(crates_with_bodies())} crates, {count} in all, were tried as these are now, but for those that are owed")
    return 1 if wrong else 0


if __name__ == "__main__":
    sys.exit(main())
