"""Proves the model of an entry: by the sketches of its tactics, then by the search alone. What is found is judged by the one verdict of `dlkt verify`,
which rests on this reader, too.

In go a model with the text of its file, and the tactics that were carried over; out comes each attempt, up to the first that is verified.
"""

import tempfile
import time
from pathlib import Path
from typing import Iterator, NamedTuple

from dlkt import verdict
from dlkt.program import Refused
from dlkt.search import finding
from dlkt.verdict import Source, Verdict

from .folders import Carried
from .tactic_words import AUTO

ALONE = "search"


class Limits(NamedTuple):
    """The program, seconds for each search, and seconds for each leaf."""

    program: str
    seconds: float
    leaf_seconds: int


class Attempt(NamedTuple):
    """How a proof was tried, the strategy that was found, its verdict, why there is none, and how long it took."""

    how: str
    strategy: str
    verdict: Verdict | None
    reason: str
    seconds: float

    @property
    def is_verified(self) -> bool:
        """Whether it was found, and is verified."""
        return self.verdict is not None and self.verdict.is_verified

    @property
    def said(self) -> str:
        """What came of it."""
        if self.verdict is None:
            return f"not verified: {self.reason}"
        if not self.is_verified:
            return f"not verified: {'; '.join(self.verdict.reasons)}"
        leaves = len(self.verdict.leaves)
        valid = f"{leaves} {'leaf' if leaves == 1 else 'leaves'} valid" if leaves else "no leaves"
        return f"verified: closed, guarded, {valid}. It rests on {', '.join([*self.verdict.rests_on, 'dlkt import (the model)'])}"


def ways(tactics: list[Carried]) -> list[tuple[str, str]]:
    """What is tried: in words, and a sketch, which is empty for the search alone."""
    found = list[tuple[str, str]]()
    for tactic in tactics:
        tries = tactic.sketches.tries if tactic.sketches else []
        found += [(f"tactic {tactic.name!r}" if number == 1 else f"tactic {tactic.name!r}, sketch {number}", sketch)
                  for number, sketch in enumerate(tries, 1) if sketch not in (AUTO, "nil")]
    return [*found, (ALONE, "")]


def attempts(name: str, model: str, tactics: list[Carried], limits: Limits) -> Iterator[Attempt]:
    """Attempts to prove a model, up to the first that is verified. `name` is how the model's file is told."""
    with tempfile.TemporaryDirectory() as folder:
        path = Path(folder) / "model"
        path.write_bytes(model.encode())
        for how, sketch in ways(tactics):
            found = attempted(how, sketch, path, Source(name, path.read_bytes()), limits)
            yield found
            if found.is_verified:
                return


def attempted(how: str, sketch: str, path: Path, source: Source, limits: Limits) -> Attempt:
    """One attempt."""
    begin = time.monotonic()
    options = finding.Options(seconds=limits.seconds, program=limits.program, sketch=sketch or None, folder=path.parent)
    try:
        found = finding.found(path, options)
    except Refused as why:
        return Attempt(how, "", None, str(why).replace(f"{path.parent}/", ""), time.monotonic() - begin)
    if found.strategy is None:
        reason = found.reasons[-1] if found.reasons else "nothing was found"
        return Attempt(how, "", None, reason, time.monotonic() - begin)
    strategy = f"{found.strategy}\n"
    judged = verdict.verdict_on(source, Source("strategy", strategy.encode()), verdict.Options(program=limits.program, seconds=limits.leaf_seconds))
    return Attempt(how, strategy, judged, "", time.monotonic() - begin)
