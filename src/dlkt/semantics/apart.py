"""The search for a run in a process of its own, beside other work: it is started, asked for its answer, and stopped.

    search = Apart(path_of_the_model, seconds=10, rounds=3)
    ..                              other work
    told = search.answer(2.0)       what `dlkt refute --json` prints, as a table; none where there is no answer in 2 seconds
    search.stop()                   nothing is left running

The answer has `status`: `refuted`, `refuted by numbers`, `nothing found`; `run`, with `lines` for people, or none; `tried`, in words; `hints`. Where
the search can't be done, as z3's Python module isn't there, it has the status `not tried`, and `tried` says why.
"""

from __future__ import annotations

import contextlib
import json
import os
import subprocess
import sys
from pathlib import Path
from types import TracebackType
from typing import Any

from dlkt.semantics import NEEDED, is_there

SOURCE = Path(__file__).resolve().parents[2]
SYSTEM_PYTHON = "/usr/bin/python3"


class Apart:
    """A search in a process of its own."""

    def __init__(self, model: str | os.PathLike[str], seconds: int = 20, rounds: int = 3) -> None:
        python = sys.executable if is_there() or not os.access(SYSTEM_PYTHON, os.X_OK) else SYSTEM_PYTHON
        words = [python, "-m", "dlkt", "refute", str(model), "--json", "--seconds", str(seconds), "--rounds", str(rounds)]
        environment = {**os.environ, "PYTHONPATH": str(SOURCE), "PYTHONSAFEPATH": "1"}
        self.process = subprocess.Popen(
            words, stdin=subprocess.DEVNULL, stdout=subprocess.PIPE, stderr=subprocess.PIPE, text=True, env=environment)

    def answer(self, wait: float | None = None) -> dict[str, Any] | None:
        """The answer, where it comes within so many seconds; without a number it is waited for."""
        try:
            out, complaint = self.process.communicate(timeout=wait)
        except subprocess.TimeoutExpired:
            return None
        try:
            told: dict[str, Any] = json.loads(out)
            return told
        except ValueError:
            lines = complaint.strip().split("\n")
            why = lines[-1].removeprefix("dlkt refute: ") or NEEDED
            return {"status": "not tried", "run": None, "tried": why, "seconds": 0.0, "hints": []}

    def stop(self) -> None:
        """Ends the search, where it hasn't ended."""
        with contextlib.suppress(ProcessLookupError):
            self.process.kill()
        with contextlib.suppress(ValueError):  # where all was read already
            self.process.communicate()

    def __enter__(self) -> Apart:
        return self

    def __exit__(self, kind: type[BaseException] | None, fault: BaseException | None, trace: TracebackType | None) -> None:
        self.stop()
