#!/usr/bin/env python3
"""Runs what is looked at besides the proofs: documents, examples, scripts, types. Behind `rt ci` each of these can fail `.ci/run`.

    python3 dev/checks.py [--jobs N] [--before N] [NAME ..]

A check is a row of the table below: its name, its command, what it needs, and how many seconds it may take. It passes where its command ends with
status 0 in that time. What wants something that isn't installed here, as a solver or a package of Python, is skipped, and counted as skipped; the
program and the toolchain are never missing in that sense: without them a check fails. Names choose rows: each whose name begins so.

As many run at a time as --jobs says. A line a check says what came of it, with the last line that it printed; of one that failed the end of what
it printed stands below, and all of it in the file that is named. At the end stand those that were skipped and those that failed, and last how many
passed and failed. --before says how many passed before these began, as `rt ci` did, and is added. The exit status is 0 where none failed.

Scripts run with the first of `python3` and /usr/bin/python3 that has the packages that they want; DLKT_PYTHON names another one, which is then the
only one.
"""

import argparse
import contextlib
import functools
import os
import shutil
import signal
import subprocess
import sys
import tempfile
import time
from concurrent.futures import ThreadPoolExecutor
from pathlib import Path
from types import FrameType
from typing import NamedTuple

ROOT = Path(__file__).resolve().parent.parent
PROGRAM = os.environ.get("DLK") or str(ROOT / "crates" / "dlk" / "out" / "dlk")
# stands in a command for a python3 that has what the check needs
PYTHON = "python3"
SOLVER = "z3|cvc5"
IMPORT = "import "
# how many lines of a failed check are shown
SHOWN = 40


class Check(NamedTuple):
    """What is looked at: a name, a command, the programs and packages that it needs besides (a bar between those of which one is enough; a package
    begins with `import `), and how many seconds it may take."""

    name: str
    command: tuple[str, ...]
    needs: tuple[str, ...] = ()
    seconds: int = 120


def script(words: str, *needs: str, seconds: int = 120) -> Check:
    """A check by a script of this repository, whose name is its words."""
    return Check(words, (PYTHON, *words.split()), needs, seconds)


# What is looked at, long ones first.
CHECKS = [
    script("bench/edge.py", seconds=400),
    script("dev/doc_examples.py", seconds=600),
    script("dev/examples.py guarded", seconds=300),
    script("dev/examples.py gallery", seconds=300),
    script("dev/examples.py recipes", SOLVER, seconds=300),
    script("dev/examples.py terms", seconds=300),
    script("dev/examples.py models"),
    script("bench/limits.py", seconds=300),
    script("bench/soundness.py --seconds 120", f"{IMPORT}z3", seconds=300),
    script("tests/archive_property.py --mutants --fuzz 1000", f"{IMPORT}lark", seconds=450),
    Check("mypy", ("mypy",), ("mypy",), 300),
    Check("flake8", (PYTHON, "-m", "flake8", "src", "dev"), (f"{IMPORT}flake8",), 150),
    script("dev/definitions.py --check"),
    script("dev/layers.py --check", seconds=40),
    script("dev/links.py", seconds=40),
    script("dev/editors.py"),
    script("dev/edits.py --look"),
    script("dev/edits.py --silent --look"),
    script("dev/edits.py --consistent --look"),
    script("dev/counters.py"),
    script("dev/tried.py"),
    script("dev/manual.py --check", seconds=60),
]
# The packages that tests of dlkt want. A test that misses one is skipped by itself, and counted.
PACKAGES = ("lark", "prompt_toolkit", "hypothesis", "z3")


def tests() -> list[Check]:
    """A check for each file of tests."""
    files = sorted((ROOT / "tests").glob("test_*.py"))
    return [Check(f"tests/{it.name}", (PYTHON, "-m", "unittest", "-b", it.stem), (), 600) for it in files]


class Come(NamedTuple):
    """What came of a check: one of `passed`, `FAILED` and `skipped`, why, and how many of its tests were skipped."""

    check: Check
    kind: str
    why: str
    skipped: int = 0


@functools.cache
def has_package(python: str, name: str) -> bool:
    """Whether a python3 has a package."""
    asking = f"import importlib.util, sys; sys.exit(importlib.util.find_spec({name!r}) is None)"
    return subprocess.run([python, "-c", asking], capture_output=True, check=False).returncode == 0


def pythons() -> list[str]:
    """Each python3 that may run a script, the one that is asked first in front."""
    named = os.environ.get("DLKT_PYTHON")
    return [named] if named else list(dict.fromkeys(it for it in (shutil.which("python3"), "/usr/bin/python3") if it and os.access(it, os.X_OK)))


def python_for(packages: list[str]) -> str:
    """The first python3 that has most of these packages."""
    return max(pythons(), key=lambda python: sum(has_package(python, name) for name in packages), default=sys.executable)


def missing(check: Check) -> str:
    """What a check needs and isn't here, or nothing."""
    for need in check.needs:
        package = need.removeprefix(IMPORT)
        if not (any(map(shutil.which, need.split("|"))) if package == need else has_package(python_for([package]), package)):
            return package
    return ""


class Runs:
    """The checks that run now, so that none goes on where this ends."""

    def __init__(self, logs: Path) -> None:
        self.logs = logs
        self.now: set[subprocess.Popen[bytes]] = set()
        self.ended = False

    def end(self, *_: int | FrameType | None) -> None:
        """Ends all, and this."""
        self.ended = True
        print(f"checks.py: ended before all was done; the logs are in {self.logs}", flush=True)
        for run in list(self.now):
            with contextlib.suppress(ProcessLookupError):
                os.killpg(run.pid, signal.SIGKILL)
        os._exit(130)

    def come_of(self, check: Check) -> Come:
        """Runs a check, and says what came of it."""
        lacks = missing(check)
        if lacks or self.ended:
            return Come(check, "skipped", f"there is no {lacks.replace('|', ' or ')}")
        packages = [it.removeprefix(IMPORT) for it in check.needs if it.startswith(IMPORT)] or list(PACKAGES)
        words = [python_for(packages) if word == PYTHON else word for word in check.command]
        folder = ROOT / "tests" if check.name.startswith("tests/test_") else ROOT
        log, began = self.log_of(check), time.monotonic()
        environment = {**os.environ, "DLK": PROGRAM, "PYTHONDONTWRITEBYTECODE": "1"}
        with open(log, "wb") as said:
            run = subprocess.Popen(words, cwd=folder, env=environment, stdin=subprocess.DEVNULL, stdout=said, stderr=said, start_new_session=True)
            self.now.add(run)
            try:
                status = run.wait(check.seconds)
            except subprocess.TimeoutExpired:
                status = None
            kill(run)
            self.now.discard(run)
        took = time.monotonic() - began
        if status is None:
            return Come(check, "FAILED", f"no end within {check.seconds} seconds")
        lines = [it for it in log.read_text(errors="replace").splitlines() if it.strip()]
        skipped = int(lines[-1].partition("skipped=")[2].rstrip(")").partition(",")[0] or 0) if lines and "skipped=" in lines[-1] else 0
        return Come(check, "FAILED" if status else "passed", f"{took:.0f} s, {f'status {status}, ' if status else ''}{(lines or ['silent'])[-1]}", skipped)

    def log_of(self, check: Check) -> Path:
        """The file with what a check printed."""
        return self.logs / ("".join(it if it.isalnum() or it in "._-" else "_" for it in check.name) + ".log")


def kill(run: "subprocess.Popen[bytes]") -> None:
    """Ends a run with all that it started."""
    try:
        os.killpg(run.pid, signal.SIGKILL)
    except ProcessLookupError:
        pass
    run.wait()


def tell(come: Come, log: Path) -> Come:
    """Prints what came of a check."""
    print(f"{come.check.name}: {come.kind}: {come.why}", flush=True)
    if come.kind == "FAILED":
        lines = log.read_text(errors="replace").splitlines() if log.is_file() else []
        print(*(f"    {line}" for line in lines[-SHOWN:]), f"    (all of it: {log})", sep="\n", flush=True)
    return come


def tell_end(every: list[Come], before: int) -> int:
    """Prints what was skipped and what failed, and how many passed and failed; gives how many failed."""
    skipped, failed = [it for it in every if it.kind == "skipped"], [it for it in every if it.kind == "FAILED"]
    inside = sum(it.skipped for it in every)
    if skipped or inside:
        told = [f"{it.check.name} ({it.why})" for it in skipped] + ([f"{inside} tests in those that ran"] if inside else [])
        print(f"skipped: {len(skipped)} checks, {inside} tests: {'; '.join(told)}")
    if failed:
        print(f"failed: {', '.join(it.check.name for it in failed)}")
    print(f"{len(every) - len(skipped) - len(failed) + before} passed, {len(failed)} failed", flush=True)
    return len(failed)


def main() -> int:
    """Runs the checks that are named, or all."""
    words = argparse.ArgumentParser(description=__doc__, formatter_class=argparse.RawDescriptionHelpFormatter)
    words.add_argument("names", nargs="*", metavar="NAME", help="how the name of a check begins (all)")
    words.add_argument("--jobs", type=int, default=min(4, len(os.sched_getaffinity(0))), metavar="N", help="how many run at a time")
    words.add_argument("--before", type=int, default=0, metavar="N", help="how many passed before")
    given = words.parse_args()
    every = [it for it in [*CHECKS, *tests()] if not given.names or it.name.startswith(tuple(given.names))]
    if not every:
        print("checks.py: no check has a name that begins so", file=sys.stderr)
        return 2
    runs = Runs(Path(tempfile.mkdtemp(prefix="dlk-checks.")))
    signal.signal(signal.SIGINT, runs.end)
    signal.signal(signal.SIGTERM, runs.end)
    with ThreadPoolExecutor(max(1, given.jobs)) as lanes:
        found = list(lanes.map(lambda check: tell(runs.come_of(check), runs.log_of(check)), every))
    failed = tell_end(found, given.before)
    if not failed:
        shutil.rmtree(runs.logs, ignore_errors=True)
    return 1 if failed else 0


if __name__ == "__main__":
    sys.exit(main())
