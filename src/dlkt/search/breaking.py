"""A run that breaks the model, looked for beside the search, so that what is false is told with values and not by a time-out.

`dlkt refute` looks for it in a process of its own (`dlkt.semantics.apart`), which is started where the search isn't done at once. An exact run ends
the search, for there is nothing to find; a simulated one, and hints on annotations that don't hold at first, aren't kept or aren't enough, are told
where the search finds nothing.
"""

import time
from collections.abc import Mapping
from pathlib import Path
from typing import Any

from dlkt import semantics
from dlkt.packages import system_has
from dlkt.semantics.apart import Apart

START, LATEST = 0.7, 4.0  # seconds of the processor, and of the clock, that the search has before
SECONDS, ROUNDS = 10, 3
MOST_WAIT = 40.0  # seconds for its answer, where the search is done
LOOK = 0.1  # seconds between two looks at whether there is an answer
EXACT, BY_NUMBERS = "refuted", "refuted by numbers"
BROKEN = "the model is false,"  # how the lines of a run begin


class Breaking:
    """The search for a run that breaks a model, and what came of it."""

    def __init__(self, model: str, place: Path) -> None:
        self.file = place / "whole"
        self.file.write_text(model + "\n", encoding="latin-1")
        self.begin, self.begin_here, self.looked = time.time(), time.process_time(), 0.0
        self.apart: Apart | None = None
        self.told: Mapping[str, Any] | None = None
        self.is_off = not semantics.is_there() and not system_has("z3")

    def start(self) -> None:
        """Starts it, where it isn't started."""
        if self.apart is None and not self.is_off:
            self.apart = Apart(self.file, SECONDS, ROUNDS)

    def stop(self) -> None:
        """Ends it."""
        if self.apart is not None:
            self.apart.stop()

    def look(self, elsewhere: float) -> bool:
        """Whether an exact run is known by now. It is started here where the search takes its time: here, and the told seconds elsewhere."""
        now = time.time()
        if self.told is None and not self.is_off and now - self.looked > LOOK:
            self.looked = now
            if time.process_time() - self.begin_here + elsewhere > START or now - self.begin > LATEST:
                self.start()
            self.take(0.0)
        return self.told is not None and self.told.get("status") == EXACT

    def wait(self, end: float) -> None:
        """Waits for the answer, up to a time."""
        self.start()
        if self.told is None:
            self.take(max(0.0, min(end - time.time(), MOST_WAIT)))

    def take(self, seconds: float) -> None:
        """Takes the answer where it comes within so many seconds."""
        if self.apart is not None:
            self.told = self.apart.answer(seconds)


def lines_of(told: Mapping[str, Any] | None) -> list[str]:
    """What is told of it in lines: the run, and the hints on annotations."""
    if told is None:
        return []
    run = told.get("run")
    head = {EXACT: f"{BROKEN} by this run:", BY_NUMBERS: f"{BROKEN} by a simulated run:"}.get(str(told.get("status")), "")
    lines = [head, *run["lines"]] if run and head else []
    return lines + [f"annotation: {hint}" for hint in told.get("hints", [])]
