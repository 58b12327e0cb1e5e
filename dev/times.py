#!/usr/bin/env python3
"""Which proofs are dear, and which crates stand in the longest chain.

    python3 dev/times.py functions [CRATE ..] [--count N] [--parts]    the dearest functions of the crates, by default of all
    python3 dev/times.py crates                                        seconds of each crate, with its dearest function
    python3 dev/times.py chain [LOG]                                   the longest chain of crates.txt with times

In: what the prover keeps in `crates/NAME/out/`. It writes a file for each part of a proof when that part is checked, one after another, so the
time between two files is about what the later one took. That holds for a crate that was checked from nothing in one run, by one processor, as
`rt all check` and the gate do it; what was checked again later is told apart by a gap that is longer than `--gap` seconds, and isn't counted.
The chain takes its times from there too, or, where LOG is given, which `bench/gate.py watch` writes, from the processor times in it.

Out: seconds of the clock while other crates may have been proved beside it, and names. Nothing is changed.
"""

import argparse
import json
import re
import sys
from collections import defaultdict
from pathlib import Path
from typing import NamedTuple

TOP = Path(__file__).resolve().parent.parent
CRATES = TOP / "crates"
PARTS = frozenset(
    "Answers Code Declared Given Goals Invariants Key Kinds Layout Links Lts Measure Met Mir Named Pair Paired Proof Reads Statement Symbol Tie".split()
)


class Part(NamedTuple):
    """A file that the prover wrote: what it belongs to, which part of its proof it is, and the seconds that it took."""

    owner: str
    part: str
    seconds: float


def owner_of(name: str) -> tuple[str, str]:
    """The function or file of lemmas that a checked file belongs to, and which part of it that is."""
    words = name.split(".")
    if words[0] == "specs" and words[1:2] not in (["contracts"], ["declared"]):
        return "specs/" + "/".join(words[1:]), "definitions"
    kind = "contract" if words[0] == "specs" else "proof"
    rest = words[2:] if words[0] == "specs" else words[1:]
    for at, word in enumerate(rest):
        if word in PARTS or re.match(r"The[A-Z]|\w*-", word):
            return "::".join(rest[:at]) or "(the crate)", ".".join(rest[at:])
    if kind == "contract":
        return "::".join(rest) or "(the crate)", kind
    return "proofs/" + "/".join(rest), "lemmas"


def written(crate: str, gap: float) -> list[Part]:
    """The files of a crate's proof in the order in which they were written, with their seconds."""
    files = [(it.stat().st_mtime, it.name) for it in (CRATES / crate).glob("out/incremental/*/*.oantt")]
    starts = [it.stat().st_mtime for it in (CRATES / crate).glob("out/incremental/*/rattle-last-used")]
    before, parts = min([*starts, *(time for time, _ in files)], default=0.0), []
    for time, name in sorted(files):
        found = re.fullmatch(r"Rattle-\w+?-((?:proofs|specs)\..*)\.oantt", name)
        owner, part = owner_of(found[1]) if found else ("(the crate)", "all")
        if 0 <= time - before < gap:
            parts.append(Part(owner, part, time - before))
        before = time
    return parts


def proved() -> list[str]:
    """The crates of which there is something in `out/`."""
    return sorted(it.parent.parent.name for it in CRATES.glob("*/out/incremental"))


def by_owner(crate: str, gap: float) -> dict[str, dict[str, float]]:
    """The seconds of each function and file of a crate, part by part."""
    spent: dict[str, dict[str, float]] = defaultdict(lambda: defaultdict(float))
    for it in written(crate, gap):
        spent[it.owner][it.part] += it.seconds
    return spent


def functions(names: list[str], count: int, with_parts: bool, gap: float) -> None:
    """Prints the dearest functions and files."""
    rows = [(sum(parts.values()), crate, owner, parts) for crate in names for owner, parts in by_owner(crate, gap).items()]
    rows.sort(key=lambda row: -row[0])
    print(f"{sum(row[0] for row in rows):8.1f} s all of {len(names)} crates, {len(rows)} functions and files")
    for seconds, crate, owner, parts in rows[:count]:
        dearest = sorted(parts.items(), key=lambda it: -it[1])[: 4 if with_parts else 1]
        print(f"{seconds:8.1f} s {crate} {owner} ({', '.join(f'{part} {spent:.1f}' for part, spent in dearest)})")


def crates(names: list[str], gap: float) -> None:
    """Prints the seconds of each crate, and its dearest function or file."""
    rows = []
    for crate in names:
        spent = {owner: sum(parts.values()) for owner, parts in by_owner(crate, gap).items()}
        if spent:
            rows.append((sum(spent.values()), crate, max(spent, key=lambda it: spent[it]), max(spent.values())))
    for seconds, crate, owner, dearest in sorted(rows, reverse=True):
        print(f"{seconds:8.1f} s {crate}: {owner} {dearest:.1f}")
    print(f"{sum(row[0] for row in rows):8.1f} s all")


def lines_of_crates() -> dict[str, list[str]]:
    """What each crate stands on, as crates.txt has it."""
    below = {}
    for line in (TOP / "crates.txt").read_text().splitlines():
        name, colon, rest = line.split("#")[0].partition(":")
        if colon:
            below[name.split()[0]] = rest.split()
    return {name: [it for it in rest if it in below] for name, rest in below.items()}


def times(log: str | None, gap: float) -> dict[str, float]:
    """The seconds of each crate's proof, by the gate's log or by what the prover kept."""
    if log is None:
        return {crate: sum(it.seconds for it in written(crate, gap)) for crate in proved()}
    spent: dict[str, float] = defaultdict(float)
    for run in json.loads(Path(log).read_text())["runs"]:
        spent[run["crate"]] += run["spent"] if run["kind"] == "proof" else 0.0
    return spent


def chain(log: str | None, gap: float) -> None:
    """Prints the chain of crates, each standing on the one before, whose times are the longest together."""
    below, spent = lines_of_crates(), times(log, gap)
    longest: dict[str, tuple[float, list[str]]] = {}

    def up_to(name: str) -> tuple[float, list[str]]:
        """The longest chain that ends with a crate."""
        if name not in longest:
            seconds, names = max((up_to(it) for it in below[name]), default=(0.0, []))
            longest[name] = seconds + spent.get(name, 0.0), [*names, name]
        return longest[name]

    seconds, names = max(up_to(name) for name in below)
    so_far = 0.0
    for name in names:
        so_far += spent.get(name, 0.0)
        print(f"{spent.get(name, 0.0):8.1f} s {so_far:8.1f} s {name}")
    print(f"{seconds:8.1f} s of {sum(spent.values()):.1f} s in {len(names)} of {len(below)} crates")


def main() -> int:
    """Reads the words and prints."""
    words = argparse.ArgumentParser(description="Which proofs are dear, and which crates stand in the longest chain.")
    words.add_argument("what", choices=("functions", "crates", "chain"))
    words.add_argument("names", metavar="NAME", nargs="*", help="crates, or the gate's log for `chain`")
    words.add_argument("--count", type=int, default=40, help="how many functions are printed")
    words.add_argument("--parts", action="store_true", help="the four dearest parts of each function")
    words.add_argument("--gap", type=float, default=400.0, help="a longer time than this between two files is a pause")
    given = words.parse_args()
    try:
        if given.what == "chain":
            chain(given.names[0] if given.names else None, given.gap)
        elif given.what == "crates":
            crates(given.names or proved(), given.gap)
        else:
            functions(given.names or proved(), given.count, given.parts, given.gap)
    except (OSError, ValueError, KeyError) as why:
        print(f"times.py: {why}", file=sys.stderr)
        return 1
    return 0


if __name__ == "__main__":
    sys.exit(main())
