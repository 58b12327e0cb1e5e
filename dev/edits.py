#!/usr/bin/env python3
"""Tries the wrong bodies of the crates: the prover must refuse each.

    python3 dev/edits.py [NAME ..] [--room FOLDER] [--jobs N]
    python3 dev/edits.py [NAME ..] --together
    python3 dev/edits.py [NAME ..] --look
    python3 dev/edits.py [NAME ..] --starved [--together | --look]
    python3 dev/edits.py [NAME ..] --silent [--together | --look]
    python3 dev/edits.py --consistent [NAME ..] [--room FOLDER] [--jobs N] [--look]

An edit is a file that makes the code of a crate wrong. Those that tell most stand in `crates/NAME/must-fail/`, and the gate tries them; the
others stand in `crates/NAME/edits/`. This tries both, of the named crates or of all that have any, with the files as they stand in this
checkout. Who changes a crate tries its edits before the change lands.

They are tried as the gate tries its own, in a copy of these crates and of those below them, in the folder that --room names or else in one
below TMPDIR, --jobs of them at a time, or as many as there are processors, by `rt ci NAME ..`. What was proved or tried before isn't done again
while the files are the same: so a run that was broken off goes on where it was. A run with --silent or --starved in the same folder takes the place
of what was tried before.

Behind the run a line an edit says what came of it:

    dlk_memo/looks_twice: refused at src/walk.rt:40:5, looks
    dlk_memo/looks_thrice: NOT REFUSED

with the place, and the clause or other condition that is not proved there. `for a limit` stands where the prover gave up without a verdict,
and `bad` where the edit can't be applied or read, so that it says nothing. Last come the sums by crate.
The exit status is 0 where each edit is refused, 1 where one isn't, and 2 where they could not be tried. Of each crate whose wrong bodies were all
refused a row is written to dev/tried.txt: by that `.ci/run` sees which crates changed since (`dev/tried.py`).

With --together wrong bodies of different functions stand in a crate at the same time, and one check tries all of them: `dev/rounds.py` says
why that is the same. It takes a fifth of the time, or less, and is the way to try the edits of a crate that one works on.

With --look nothing is tried: it is only said which edits can't be applied, since the text that they change is gone or stands there twice. The exit
status is then 1 where there are such edits. It takes a moment, and is to be done whenever code changed.

The other ways try other bodies (docs/TESTED.md): --starved answers want of memory in place of a refusal, one refusal a body, wherever a function can
answer both; --silent takes the bodies of `dev/silent/NAME/`, of which no clause was thought to speak, so what is refused belongs into `edits/`. One
that isn't refused is no fault by itself there. --consistent takes changes in `dev/consistent/`, by their names, or all: each makes one mistake in a
definition and in the code alike, which the documents, the examples and the tests have to see, as `dev/consistent.py` says. A line a change says what
has seen it, or NOT SEEN; what came of it is kept, and it isn't tried again while the checkout is the same.
"""

import argparse
import json
import os
import re
import shutil
import subprocess
import sys
import tempfile
from collections import Counter
from pathlib import Path
from typing import NamedTuple

import consistent
import rounds
import tried as tried_file
from checkout import TOP, Broken, changed, crates, ran_in, sum_of, tell_faults, with_those_below

FOLDERS = ("must-fail", "edits")
SILENT = TOP / "dev" / "silent"
AHEAD = re.compile(r"rt: \w+(?: proved| NOT PROVED| is kept|: its tests are|: trying its|: \d+ of its)")
SAID = re.compile(r"rt: must-fail (\w+)/(\S+)\.edit: (.*)")
PLACE = re.compile(r"\b((?:src|specs|proofs)/\S+?:\d+:\d+)")
CLAUSE = re.compile(r"`[^`\s]*?clause-([\w-]+?)(?:-fault)?`")
CONDITION = re.compile(r"`([^`\s]+)`")
FUNCTION = re.compile(r"\bfn (\w+)")
FAULTS = re.compile(r"\benum (\w+)[^{;]*\{(.*?)\n\}", re.DOTALL)
REFUSAL = re.compile(r"\bErr\(\s*(\w+)::(\w+)")
KINDS = ("refused", "for a limit", "bad", "NOT REFUSED", "not tried")


Edits = dict[str, dict[str, Path]]


class Tried(NamedTuple):
    """What came of an edit: its crate and name, one of KINDS, and where and why, as far as rt says it."""

    crate: str
    edit: str
    kind: str
    why: str

    def line(self) -> str:
        """The line that tells it."""
        return f"{self.crate}/{self.edit}: {self.kind}{self.why}"


class Starved(NamedTuple):
    """A refusal, from one line of a file to another, with the lines that answer want of memory in its place."""

    file: Path
    function: str
    first: int
    last: int
    instead: list[str]

    @property
    def name(self) -> str:
        """The name of the body."""
        return f"starved_{'_'.join(self.file.with_suffix('').parts[1:])}_{self.first + 1}"


Found = dict[tuple[str, str], Tried]


def edits_of(crate: str, silent: bool = False) -> dict[str, Path]:
    """The edits of a crate by name, or its bodies of which no clause was thought to speak."""
    found: dict[str, Path] = {}
    for folder in [SILENT / crate] if silent else [TOP / "crates" / crate / it for it in FOLDERS]:
        for edit in sorted(folder.glob("*.edit")):
            if edit.stem in found:
                raise Broken(f"{crate} has two edits named {edit.stem}")
            found[edit.stem] = edit
    return found


def named(names: list[str]) -> list[str]:
    """The named crates, or all, lowest first."""
    for name in names:
        if name not in crates():
            raise Broken(f"{name} is no crate of crates.txt")
    return [name for name in crates() if not names or name in names]


def closing(text: str, at: int) -> int:
    """The place behind the bracket that closes the one at this place."""
    depth = 0
    for place in range(at, len(text)):
        depth += {"(": 1, ")": -1}.get(text[place], 0)
        if depth == 0:
            return place + 1
    return len(text)


def faults() -> set[str]:
    """The types of faults that have want of memory among their cases."""
    texts = (file.read_text() for name in crates() for file in (TOP / "crates" / name / "src").rglob("*.rt"))
    return {name for text in texts for name, cases in FAULTS.findall(text) if re.search(r"^ *Memory,", cases, re.MULTILINE)}


def refusals(crate: str, types: set[str]) -> list[Starved]:
    """The refusals that the functions of a crate answer in an expression, where want of memory is another case of their type."""
    found: list[Starved] = []
    for file in sorted(it for it in (TOP / "crates" / crate / "src").rglob("*.rt") if "tests" not in it.stem and it.parent.name != "tests"):
        text, taken = file.read_text(), -1
        for it in REFUSAL.finditer(text):
            end = closing(text, text.index("(", it.start()))
            first, last = text.count("\n", 0, it.start()), text.count("\n", 0, end)
            # a pattern, or a second one on the line
            if it[1] not in types or it[2] == "Memory" or first <= taken or re.match(r"\s*(=(?!=)|\||if\b)", text[end:]):
                continue
            begin, stop = text.rfind("\n", 0, it.start()) + 1, text.find("\n", end)
            line = text[begin : it.start()] + f"Err({it[1]}::Memory)" + text[end:stop]
            names, taken = FUNCTION.findall(text, 0, it.start()), last
            found.append(Starved(file.relative_to(TOP / "crates" / crate), names[-1] if names else "", first, last, [line] + [""] * (last - first)))
    return found


def refusals_of(names: list[str]) -> dict[str, list[Starved]]:
    """The refusals of the named crates that have some, or of all, lowest first, without those of tests."""
    types = faults()
    every = {name: refusals(name, types) for name in named(names)}
    return {name: bodies for name, bodies in every.items() if bodies}


def starve(room: Path, crate: str, bodies: list[Starved]) -> None:
    """Marks the lines of the refusals in the room's copy of a crate, so that each stands there once, and puts the bodies where the gate finds them."""
    folder = room / "crates" / crate / "must-fail"
    shutil.rmtree(folder, ignore_errors=True)
    folder.mkdir()
    for number, body in enumerate(bodies):
        file = room / "crates" / crate / body.file
        lines, edit = file.read_text().split("\n"), f"file: {body.file}\n"
        for at, instead in enumerate(body.instead, body.first):
            lines[at] += f" // refusal {number}, {at - body.first}"
            edit += f"old: {lines[at]}\nnew: {instead}\n"
        file.write_text("\n".join(lines))
        (folder / f"{body.name}.edit").write_text(edit)


def list_starved(every: dict[str, list[Starved]]) -> None:
    """Prints the refusals, and how many there are."""
    for crate, bodies in every.items():
        for it in bodies:
            print(f"crates/{crate}/{it.file}:{it.first + 1}: {it.function}: {it.instead[0].strip()}")
    print(f"{sum(map(len, every.values()))} refusals in {sum(map(bool, every.values()))} crates")


def chosen(names: list[str], silent: bool = False) -> Edits:
    """The edits that are tried, by crate, lowest first: of the named crates that have some, or of all."""
    found = {name: edits_of(name, silent) for name in named(names)}
    return {name: edits for name, edits in found.items() if edits}


def room_of(folder: str | None, kind: str = "edits") -> Path:
    """The folder of the copy, made where it isn't there. One that isn't ours is refused."""
    room = Path(folder or Path(tempfile.gettempdir()) / f"dlk-{kind}.{os.getuid()}").absolute()
    if room == TOP or TOP in room.parents:
        raise Broken(f"{room} lies in this checkout, where the gate would find it: name a folder outside")
    mark = room / f"of-dev-{kind}"
    if room.exists() and (not mark.exists() or room.stat().st_uid != os.getuid()):
        raise Broken(f"{room} is there, and not made by this script")
    room.mkdir(mode=0o700, parents=True, exist_ok=True)
    mark.touch()
    return room


def copy(room: Path, edits: Edits) -> None:
    """Puts the crates and what they stand on into the room as they are here, and the edits of the crates where the gate finds them."""
    every = with_those_below(edits)
    for folder in sorted((room / "crates").glob("*")):
        if folder.name not in every:
            shutil.rmtree(folder)
    lines = [f"{name}: {' '.join(below)}\n" for name, below in crates().items() if name in every]
    (room / "crates.txt").write_text("".join(lines))
    shutil.copyfile(TOP / "HANDLES", room / "HANDLES")
    for name in every:
        copied = room / "crates" / name
        for part in copied.glob("*") if copied.is_dir() else ():
            # what was proved there serves again
            if part.name != "out":
                shutil.rmtree(part) if part.is_dir() else part.unlink()
        shutil.copytree(TOP / "crates" / name, copied, ignore=shutil.ignore_patterns("out", *FOLDERS), dirs_exist_ok=True)
    for name, files in edits.items():
        folder = room / "crates" / name / "must-fail"
        shutil.rmtree(folder, ignore_errors=True)
        folder.mkdir()
        for edit, file in files.items():
            shutil.copyfile(file, folder / f"{edit}.edit")


def told(crate: str, name: str, text: str) -> Tried:
    """What rt says of an edit."""
    if text.startswith("refused"):
        place = PLACE.search(text)
        reason = CLAUSE.search(text) or CONDITION.search(text)
        kind = "for a limit" if "only by a limit" in text else "refused"
        where = f" at {place[1]}" if place else ""
        only = ", a proof names what it takes away" if "because a proof file names" in text else ""
        return Tried(crate, name, kind, where + (f", {reason[1]}" if reason else "") + only)
    kind = "NOT REFUSED" if text.startswith("NOT REFUSED") else "bad" if text.startswith("BAD EDIT") else "not tried"
    return Tried(crate, name, kind, "" if kind == "NOT REFUSED" else f": {text.partition(': ')[2]}")


def tried_by_gate(room: Path, names: list[str], jobs: int) -> Found:
    """Tries the edits of the crates by the gate of these crates, so many at a time, and gives what came of each. It tells on the way how far it is."""
    last = "rt said nothing"
    found: Found = {}
    with subprocess.Popen(
        ["rt", "ci", *names], cwd=room, env={**os.environ, "RT_JOBS": str(jobs)}, stdin=subprocess.DEVNULL, stdout=subprocess.PIPE,
        stderr=subprocess.STDOUT, text=True, errors="replace",
    ) as run:
        for line in map(str.rstrip, run.stdout or ()):
            said, last = SAID.match(line), line or last
            if said:
                found[said[1], said[2]] = told(said[1], said[2], said[3])
            elif AHEAD.match(line):
                print(line.removeprefix("rt: "), file=sys.stderr, flush=True)
    if not found:
        raise Broken(f"rt ci tried no edit: {last}")
    return found


def state_of(room: Path, name: str) -> str:
    """A sum of all that the verdicts on a crate's edits come from: its files and edits, what it stands on, and the toolchain."""
    files = (it for crate in with_those_below([name]) for it in sorted((room / "crates" / crate).rglob("*")) if it.is_file())
    parts = ((file, file.relative_to(room / "crates").parts) for file in files)
    return sum_of(
        ran_in(room, "rt", "version")[1], room,
        (file for file, (crate, part, *_) in parts if part != "out" and (crate == name or part != "must-fail")),
    )


def tried_in_rounds(room: Path, name: str, jobs: int) -> list[Tried]:
    """Tries the edits of one crate, many in one check of so many jobs, and gives what came of each: from a run before, where nothing has changed since."""
    folder = room / "crates" / name
    kept, key = room / f"{name}.rounds", state_of(room, name)
    bodies = [rounds.body_of(folder, it.stem, it) for it in sorted((folder / "must-fail").glob("*.edit"))]
    shutil.rmtree(folder / "must-fail")
    before = json.loads(kept.read_text()) if kept.is_file() else {}
    found = {it[1]: Tried(*it) for it in before["tried"]} if before.get("of") == key else {}
    left = [it for it in bodies if it.name not in found]
    if left:
        crate = rounds.Crate(folder, ["rt", "check", "--jobs", str(jobs)])
        why = crate.prove()
        if why:
            raise Broken(f"{name} is not proved: {why}")
        for edit, come in rounds.tried_together(crate, left):
            found[edit] = Tried(name, edit, come.kind, come.why)
            kept.write_text(json.dumps({"of": key, "tried": list(found.values())}))
        crate.end()
    print(f"{name}: {len(left)} edits tried, {len(found) - len(left)} were tried before", file=sys.stderr, flush=True)
    return list(found.values())


def prove_below(room: Path, names: list[str], jobs: int) -> None:
    """Proves what the crates stand on."""
    for name in with_those_below(names):
        if any(name in crates()[it] for it in with_those_below(names)):
            status, text = ran_in(room / "crates" / name, "rt", "lib", "--jobs", str(jobs))
            if status:
                raise Broken(f"{name} is not proved: {text.rstrip().rpartition(chr(10))[2]}")
            print(f"{name} proved", file=sys.stderr, flush=True)


def tried_together(room: Path, names: list[str], jobs: int) -> Found:
    """Tries the edits of the crates in rounds, one crate at a time, since one that has wrong bodies in it isn't what those above it stand on."""
    prove_below(room, names, jobs)
    return {(it.crate, it.edit): it for name in names for it in tried_in_rounds(room, name, jobs)}


def tried(room: Path, edits: dict[str, list[str]], jobs: int, together: bool) -> list[Tried]:
    """Tries the edits of the crates, so many at a time, and gives what came of each, in their order."""
    names = list(edits)
    found = (tried_together if together else tried_by_gate)(room, names, jobs)
    return [found.get((name, edit)) or Tried(name, edit, "not tried", ": rt said nothing of it") for name in names for edit in edits[name]]


def fault(crate: str, edit: Path) -> str:
    """Why an edit can't be applied, or nothing."""
    try:
        return "" if changed(TOP / "crates" / crate, edit) else "it changes nothing"
    except Broken as why:
        return str(why)


def look(edits: Edits) -> bool:
    """Says which edits can't be applied, and whether there are none."""
    return tell_faults([(f"{name}/{edit}", fault(name, path)) for name, files in edits.items() for edit, path in files.items()], "edits")


def tell_sums(names: list[str], every: list[Tried]) -> None:
    """Prints the sums by crate, and of all."""
    for name in [*names, "all"]:
        counts = Counter(it.kind for it in every if name in (it.crate, "all"))
        print(f"{name}: {counts.total()} edits, " + ", ".join(f"{counts[kind]} {kind}" for kind in KINDS if counts[kind] or kind == "refused"))


def try_consistent(given: argparse.Namespace) -> int:
    """Tries the named changes of a definition and of its code together, or all of them."""
    every = consistent.changes()
    for name in given.names:
        if name not in every:
            raise Broken(f"{name} is no change of dev/consistent")
    names = list(dict.fromkeys(given.names)) or list(every)
    if given.look:
        return 0 if consistent.look(names) else 1
    if shutil.which("rt") is None:
        raise Broken("there is no rt on the path: changes are tried with the Rattle toolchain")
    return 0 if consistent.try_all(room_of(given.room, "consistent"), names, max(1, given.jobs)) else 1


def parser() -> argparse.ArgumentParser:
    """The parser of the command line."""
    words = argparse.ArgumentParser(description=__doc__, formatter_class=argparse.RawDescriptionHelpFormatter)
    words.add_argument("names", nargs="*", metavar="NAME", help="a crate; none: all that have edits; with --consistent a change")
    words.add_argument("--room", metavar="FOLDER", help="where the copy of the crates stands")
    words.add_argument("--jobs", metavar="N", type=int, default=len(os.sched_getaffinity(0)), help="how many are tried at a time")
    words.add_argument("--together", action="store_true", help="many in one check, each in another function")
    words.add_argument("--look", action="store_true", help="only say which edits can't be applied")
    words.add_argument("--starved", action="store_true", help="bodies that answer want of memory in place of a refusal")
    words.add_argument("--silent", action="store_true", help="bodies of which no clause was thought to speak")
    words.add_argument("--consistent", action="store_true", help="changes of a definition and of its code together")
    return words


def try_edits(given: argparse.Namespace) -> bool:
    """Tries the edits of the named crates, or their bodies that want memory; gives whether all are refused. Of each crate whose own are, a row says so
    in dev/tried.txt: of its files as they were copied, so that what changes while they are tried isn't tried."""
    starved = refusals_of(given.names) if given.starved else {}
    edits = {} if given.starved else chosen(given.names, given.silent)
    if not edits and not starved:
        raise Broken("there is nothing to try")
    if shutil.which("rt") is None:
        raise Broken("there is no rt on the path: edits are tried with the Rattle toolchain")
    room = room_of(given.room)
    rows = [tried_file.row_of(TOP / "crates" / name) for name in edits if not given.silent]
    copy(room, edits or dict.fromkeys(starved, {}))
    for name, bodies in starved.items():
        starve(room, name, bodies)
    names = {name: list(files) for name, files in edits.items()} or {name: [it.name for it in bodies] for name, bodies in starved.items()}
    every = tried(room, names, max(1, given.jobs), given.together)
    print("\n".join(it.line() for it in every), flush=True)
    tell_sums(list(names), every)
    tried_file.put([row for row in rows if all(it.kind in KINDS[:2] for it in every if it.crate == row.crate)])
    return all(it.kind in KINDS[:2] for it in every)


def main() -> int:
    """Tries what is named, or looks at it."""
    given = parser().parse_args()
    try:
        if given.silent + given.starved + given.consistent > 1:
            raise Broken("--silent, --starved and --consistent are three ways: name one")
        if given.consistent:
            return try_consistent(given)
        if given.look and given.starved:
            list_starved(refusals_of(given.names))
            return 0
        return 0 if (look(chosen(given.names, given.silent)) if given.look else try_edits(given)) else 1
    except (Broken, OSError) as why:
        print(f"edits.py: {why}", file=sys.stderr)
        return 2


if __name__ == "__main__":
    sys.exit(main())
