"""The archives of tests/archives with the models that were written beside them by hand, and what is made of them."""

import re
from pathlib import Path
from typing import NamedTuple

ARCHIVES = Path(__file__).resolve().parent / "archives"
BETWEEN = "\n---\n"


class Pair(NamedTuple):
    """An archive: its name, its text, and the models of its entries; the word `refused` stands for none."""

    name: str
    archive: str
    models: list[str]


class Fault(NamedTuple):
    """A faulty archive: its name, its text, and what is said of it."""

    name: str
    archive: str
    said: str


class Translation(NamedTuple):
    """A formula, a tactic for it, and the goals that are left, or a word for what the sketch looks like."""

    formula: str
    tactic: str
    wanted: str


def pairs() -> list[Pair]:
    """The archives with models."""
    found = []
    for path in sorted(ARCHIVES.glob("*.models")):
        archive = path.with_suffix(".kyx").read_text("utf-8")
        found.append(Pair(path.stem, archive, path.read_text("utf-8").rstrip("\n").split(BETWEEN)))
    return found


def faults() -> list[Fault]:
    """The faulty archives."""
    found = []
    for part in ("\n" + (ARCHIVES / "faulty.txt").read_text("utf-8")).split("\n=== ")[1:]:
        name, rest = part.split("\n", 1)
        archive, said = re.split(r"\n--- ", rest.strip())
        found.append(Fault(name, archive + "\n", said))
    return found


def translations() -> list[Translation]:
    """The tactics."""
    found = []
    for line in (ARCHIVES / "tactics.txt").read_text("utf-8").splitlines():
        if line.strip() and not line.startswith("#"):
            formula, rest = line.split(" | ", 1)
            tactic, _, wanted = rest.rpartition(" |")
            found.append(Translation(formula, tactic, wanted.strip()))
    return found
