"""Tries many wrong bodies of a crate in one check: `edits.py --together`.

A function is proved from its own body and from the contracts of those that it calls, not from their bodies. So wrong bodies of different
functions can stand in a crate at the same time, and the prover, which goes on where a function isn't proved, says of each function whether
its own proof fails. A round is one check of the crate with one wrong body a function. Two functions of which one names the other aren't
changed in one round, since the search for a proof waits for what a function calls. What isn't refused in its round is tried once more alone;
so is what changes no function's body, but a definition, a type or a constant.
"""

import os
import re
import shutil
from pathlib import Path
from typing import Iterator, NamedTuple

from checkout import changes_in, ran_in

FUNCTION = re.compile(r"^( *)(?:pub(?:\([a-z]+\))? )?(?:const )?fn (\w+)")
VERDICT = re.compile(r"fn (\S+): (.*)")
NOTE = re.compile(r"(?:note: )?(?:\./)?(src/\S+?):(\d+):\d+: (.*)")
ERROR = re.compile(r"(?:note: )?(?:\./)?(proofs/\S+)/\w+\.antt:\d+:\d+: error: (.*)")
TAKEN_AWAY = re.compile(r"has no field|is not in scope|has no `|was not admitted")
GOAL = re.compile(r"`((?:returns|calls|loop|arith|unreachable|[a-z])[\w-]*)`")
GAVE_UP = "gave up at one of its limits"
LIMIT = re.compile(r"antt ran out of|outgrew the memory limit|stopped at the step limit")


class Change(NamedTuple):
    """A change of one line of a file: the texts, and the function that it stands in, if there is one."""

    file: str
    old: str
    new: str
    function: str
    lines: range


class Body(NamedTuple):
    """A wrong body: its name and its changes."""

    name: str
    changes: list[Change]

    @property
    def functions(self) -> set[tuple[str, str]]:
        """The functions that it changes, each by file and name, or nothing where it changes more than bodies."""
        found = {(it.file, it.function) for it in self.changes}
        return found if all(file.startswith("src/") and name for file, name in found) else set()


class Come(NamedTuple):
    """What came of one: one of the kinds of `edits.py`, and where and why."""

    kind: str
    why: str


def function_at(text: str, at: int) -> tuple[str, range]:
    """The name of the function whose body has this place of a text, and its lines, counted from 1."""
    lines, line = text.split("\n"), text.count("\n", 0, at)
    for first in range(line, -1, -1):
        head = FUNCTION.match(lines[first])
        if head:
            last = next((it for it in range(first, len(lines)) if lines[it].startswith(head[1] + "}")), len(lines) - 1)
            return (head[2], range(first + 1, last + 2)) if line <= last else ("", range(0))
    return "", range(0)


def body_of(folder: Path, name: str, edit: Path) -> Body:
    """Reads an edit, whose old texts stand once in their files, as `edits.py --look` says."""
    changes = [Change(it.file, it.old, it.new, *function_at(it.before, it.before.index(it.old))) for it in changes_in(folder, edit)]
    return Body(name, changes)


def text_of(folder: Path, file: str, lines: range) -> str:
    """Some lines of a file."""
    return "\n".join((folder / file).read_text().split("\n")[lines.start - 1 : lines.stop - 1])


def is_apart(folder: Path, body: Body, others: list[Body]) -> bool:
    """Whether a wrong body changes other functions than these do, and neither names the other's."""
    names = {name for it in others for _, name in it.functions}
    mine = {name for _, name in body.functions}
    if names & mine:
        return False
    texts = {it: text_of(folder, it.file, it.lines) for of in (body, *others) for it in of.changes}

    def named(words: set[str], changes: list[Change]) -> bool:
        """Whether one of these names stands in the text of a change."""
        return any(re.search(rf"\b{word}\b", texts[it]) for word in words for it in changes)

    return not named(names, body.changes) and not any(named(mine, it.changes) for it in others)


def next_round(folder: Path, left: list[Body], most: int) -> list[Body]:
    """Wrong bodies that can stand in the crate together, or else the first one alone."""
    chosen: list[Body] = []
    for body in left:
        if body.functions and len(chosen) < most and is_apart(folder, body, chosen):
            chosen.append(body)
    return chosen or left[:1]


def linked(folder: Path, to: Path) -> None:
    """Copies what a check kept: what was proved by links, since a check replaces such a file and changes none."""

    def copy(one: str, other: str) -> None:
        """Copies a file, or links it."""
        if one.endswith(".oantt"):
            os.link(one, other)
        else:
            shutil.copy2(one, other)

    shutil.copytree(folder, to, symlinks=True, copy_function=copy)


class Crate:
    """A crate in the room, which was proved as it stands."""

    def __init__(self, folder: Path, call: list[str]) -> None:
        self.folder, self.call = Path(folder), call
        self.work, self.seed = self.folder / "out" / "incremental", self.folder / "out" / "incremental-as-it-stands"

    def check(self) -> str:
        """Checks the crate as its files are now, over what was proved of it as it stood, and gives what the prover said."""
        if self.seed.is_dir():
            shutil.rmtree(self.work, ignore_errors=True)
            linked(self.seed, self.work)
        return ran_in(self.folder, *self.call)[1]

    def prove(self) -> str:
        """Proves the crate as it stands, and keeps that for the rounds. It gives why that can't be, or nothing."""
        shutil.rmtree(self.seed, ignore_errors=True)
        said = self.check()
        if "logic=proved" not in said:
            return said.rstrip().rpartition("\n")[2] or "rt said nothing"
        if self.work.is_dir():
            linked(self.work, self.seed)
        return ""

    def check_with(self, bodies: list[Body]) -> str:
        """Checks the crate with these wrong bodies in it, and puts its own back."""
        texts: dict[Path, str] = {}
        for change in (it for body in bodies for it in body.changes):
            file = self.folder / change.file
            texts.setdefault(file, file.read_text())
            file.write_text(file.read_text().replace(change.old, change.new))
        try:
            return self.check()
        finally:
            for file, text in texts.items():
                file.write_text(text)

    def end(self) -> None:
        """Takes away what was kept for the rounds."""
        if self.seed.is_dir():
            shutil.rmtree(self.work, ignore_errors=True)
            self.seed.rename(self.work)


def verdicts(said: str) -> dict[str, str]:
    """The verdict on each function, by its path."""
    return {it[1]: it[2] for it in map(VERDICT.fullmatch, said.split("\n")) if it}


def own_failure(said: str, body: Body) -> Come | None:
    """Where and why the proof of a function that the body changes fails by itself, or nothing."""
    lines = said.split("\n")
    modules = {it.file: "::".join(part for part in Path(it.file).with_suffix("").parts[1:] if part not in ("lib", "main", "mod")) for it in body.changes}
    for path, verdict in verdicts(said).items():
        changes = [it for it in body.changes if path.endswith(f"::{it.function}") and f"::{modules[it.file]}::" in f"{path}::"]
        if not changes or verdict == "proved" or verdict.startswith("no proof: it calls"):
            continue
        notes = [it for it in map(NOTE.match, lines) if it and any(it[1] == of.file and int(it[2]) in of.lines for of in changes) and "not proved" in it[3]]
        place = path.partition("::")[2].replace("::", "/")
        errors = [it for it in map(ERROR.match, lines) if it and it[1] == f"proofs/{place}"]
        own = [it for it in errors if not TAKEN_AWAY.search(it[2])]
        if not notes and not own and errors:
            return Come("refused", f" at {errors[0][1]}, a proof names what it takes away")
        first = own[0] if own else notes[0] if notes else None
        goal = GOAL.search(first[0] if first else verdict)
        where = f" at {own[0][1]}" if own else f" at {notes[0][1]}:{notes[0][2]}" if notes else ""
        gave_up = ", where the search gave up" if not own and notes and all(GAVE_UP in it[3] for it in notes) else ""
        return Come("refused", where + (f", {goal[1].partition('clause-')[2] or goal[1]}" if goal else "") + gave_up)
    return None


def come_alone(said: str) -> Come:
    """What came of a body that was tried alone."""
    if "logic=not-proved" in said:
        told = [it for it in said.split("\n") if re.match(r"(?:note: )?(?:\./)?\S+:\d+:\d+: ", it) and ("error" in it or "not proved" in it)]
        own = [it for it in told if not TAKEN_AWAY.search(it)]
        first = (own or told or [""])[0]
        place, goal = re.search(r"((?:src|specs|proofs)/\S+?:\d+)", first), GOAL.search(first)
        where = (f" at {place[1]}" if place else "") + (f", {goal[1].partition('clause-')[2] or goal[1]}" if goal else "")
        return Come("refused", where + (", a proof names what it takes away" if told and not own else ""))
    if "logic=proved" in said:
        return Come("NOT REFUSED", "")
    if LIMIT.search(said):
        return Come("for a limit", "")
    first = next((it for it in said.split("\n") if "error" in it), said.rstrip().rpartition("\n")[2])
    return Come("bad" if re.search(r"\berror\b", first) else "not tried", f": {first[:160]}")


def tried_together(crate: Crate, bodies: list[Body], most: int = 24) -> Iterator[tuple[str, Come]]:
    """Tries the wrong bodies of a crate in rounds, and gives what came of each, by name, as it comes."""
    left = list(bodies)
    alone: set[str] = set()
    while left:
        chosen = next_round(crate.folder, [it for it in left if it.name not in alone], most) or left[:1]
        said = crate.check_with(chosen)
        for body in chosen:
            come = come_alone(said) if len(chosen) == 1 else own_failure(said, body)
            if come:
                left.remove(body)
                yield body.name, come
            else:
                alone.add(body.name)
