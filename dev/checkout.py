"""What the scripts about wrong bodies share: the crates of a checkout, what each stands on, and files that change texts.

A file that changes texts (`*.edit`) has lines `file:`, and behind each of them pairs of `old:` and `new:`, a line each. An old text must stand once in
its file, as the pairs before it have left that.
"""

import hashlib
import subprocess
from pathlib import Path
from typing import Iterable, Iterator, NamedTuple

TOP = Path(__file__).resolve().parent.parent


class Broken(Exception):
    """Why something can't be tried, in one line."""


class Change(NamedTuple):
    """A change of one line of a file: the file, the old text and the new one, and the whole text of the file before it."""

    file: str
    old: str
    new: str
    before: str


def crates(top: Path = TOP) -> dict[str, list[str]]:
    """The crates of crates.txt, lowest first, each with the libraries of its line."""
    rows = [line.split(":") for line in (top / "crates.txt").read_text().splitlines() if ":" in line and not line.startswith("#")]
    return {name.split()[0]: below.split() for name, below in rows}


def with_those_below(names: Iterable[str]) -> list[str]:
    """The crates and all that they stand on, lowest first."""
    every, left = crates(), list(names)
    found: set[str] = set()
    while left:
        name = left.pop()
        if name in every and name not in found:
            found.add(name)
            left += every[name]
    return [name for name in every if name in found]


def changes_in(folder: Path, edit: Path) -> Iterator[Change]:
    """The changes of an edit to files below a folder, one after another. It is Broken where an old text isn't there, or stands there twice."""
    texts: dict[str, str] = {}
    file, old = "", ""
    for line in edit.read_text().splitlines():
        word, _, rest = line.partition(":")
        rest = rest.removeprefix(" ")
        if word == "file":
            file = rest.strip()
        elif word == "old":
            old = rest
        elif word == "new":
            if not file or not (folder / file).is_file():
                raise Broken(f"there is no file {file}")
            before = texts.get(file) or (folder / file).read_text()
            if not old or before.count(old) != 1:
                raise Broken(f"this text stands in {file} {before.count(old) if old else 0} times: {old}")
            yield Change(file, old, rest, before)
            texts[file], old = before.replace(old, rest), ""


def changed(folder: Path, edit: Path) -> dict[str, str]:
    """The texts of the files that an edit makes of those below a folder."""
    return {it.file: it.before.replace(it.old, it.new) for it in changes_in(folder, edit)}


def ran_in(folder: Path, *words: str) -> tuple[int, str]:
    """How a run in a folder ends, and what it said."""
    run = subprocess.run(
        words, cwd=folder, stdin=subprocess.DEVNULL, stdout=subprocess.PIPE, stderr=subprocess.STDOUT, text=True, errors="replace", check=False
    )
    return run.returncode, run.stdout


def sum_of(whole: str, folder: Path, paths: Iterable[Path]) -> str:
    """A sum of a text and of files of a folder."""
    found = hashlib.sha256(whole.encode())
    for path in paths:
        found.update(f"\0{path.relative_to(folder)}\0".encode() + path.read_bytes())
    return found.hexdigest()


def tell_faults(faults: Iterable[tuple[str, str]], kind: str) -> bool:
    """Says of what can't be applied why, and how many there are; whether all can be."""
    every = list(faults)
    bad = [f"{name}: {why}" for name, why in every if why]
    print("\n".join([*bad, f"{len(every)} {kind}, {len(bad)} of them can't be applied"]))
    return not bad
