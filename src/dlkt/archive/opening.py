"""Opens an archive: its entries with the names of their folders, and what is told of them."""

from pathlib import Path
from typing import NamedTuple

from dlkt.program import Refused, one_line, read_bytes

from .folders import Carried, stem_of
from .models import Model, Read, models
from .read import WHOLE
from .tree import Place
from .tree import Refused as NotRead


class Opened(NamedTuple):
    """An entry, and the name of its folder."""

    stem: str
    read: Read


def decoded(data: bytes) -> str:
    """The text of an archive."""
    try:
        return data.decode("utf-8")
    except UnicodeDecodeError:
        return data.decode("latin-1")


def opened(archive: str, entry: str | None) -> list[Opened]:
    """The entries of an archive, or the one of this name."""
    try:
        found = models(decoded(read_bytes(archive)))
    except NotRead as fault:
        raise Refused(f"{archive}:{fault.place[0]}:{fault.place[1]}: {fault.reason}") from None
    taken = set[str]()
    named = [Opened(stem_of(Path(archive).stem if one.entry.kind == WHOLE else one.entry.name, taken), one) for one in found]
    wanted = named if entry is None else [one for one in named if one.read.entry.name == entry]
    if not wanted:
        names = ", ".join(one.entry.name for one in found if one.entry.name)
        raise Refused(f"{archive} has no entry {entry!r}: its entries are {names}" if found else f"{archive} has no entry")
    return wanted


def line_at(archive: str, place: Place, text: str) -> str:
    """A line that says something of a place in an archive."""
    return f"{one_line(archive)}:{place[0]}:{place[1]}: {one_line(text)}"


def lines_of_hints(archive: str, model: Model) -> list[str]:
    """The hints at what an entry says."""
    return [line_at(archive, place, f"{model.entry.name}: hint: {text}") for place, text in sorted(model.table.hints)]


def lines_of_tactics(archive: str, model: Model, tactics: list[Carried]) -> list[str]:
    """What got lost of tactics."""
    found = []
    for tactic in tactics:
        said = f"{model.entry.name}: tactic {tactic.name!r}"
        if tactic.fault:
            found.append(line_at(archive, tactic.fault.place, f"{said}: not carried over: {tactic.fault.reason}"))
        found += [line_at(archive, place, f"{said}: {note}") for place, note in (tactic.sketches.notes if tactic.sketches else ())]
    return found
