#!/usr/bin/env python3
"""Tries `dlkt batch --dask` on one machine: a scheduler and four workers on the loopback address, one of which is killed in the middle.

    dev/dask_trial.py [--proofs N] [--dlk PROGRAM]

It makes a folder with N proofs (200), copies of small examples of this checkout, and prints their table twice: by `dlkt batch -j 2`, and by
the scheduler. When a fifth of the second table is there, a worker is killed by its id. The two tables must be the same but for the times, and
no proof may be lost. It needs Debian's python3-distributed. What it started has ended when it ends.

The exit status is 0 where the tables are the same, 1 where they aren't, and 2 where the trial can't be made.
"""

import argparse
import contextlib
import os
import shutil
import signal
import subprocess
import sys
import tempfile
import time
from pathlib import Path
from typing import Iterator

ROOT = Path(__file__).resolve().parent.parent
SMALL = ("increment", "chain", "first", "constants", "weakening", "any_value")
WORKERS = 4
SCHEDULER = "import sys; from distributed.cli.dask_scheduler import main; sys.exit(main())"
WORKER = "import sys; from distributed.cli.dask_worker import main; sys.exit(main())"


def copies(folder: Path, count: int) -> None:
    """Makes so many proofs."""
    names = [name for name in SMALL if (ROOT / "examples" / name / "strategy").is_file()]
    for number in range(count):
        place = folder / f"{number:03}-{names[number % len(names)]}"
        place.mkdir(parents=True)
        for file in ("model", "strategy"):
            shutil.copy(ROOT / "examples" / names[number % len(names)] / file, place / file)
    (folder / "000-broken").mkdir()
    (folder / "000-broken" / "model").write_text("x>=0 -> x>=0\n", encoding="utf-8")
    (folder / "000-broken" / "strategy").write_text("andR(1)\n", encoding="utf-8")


def environment(dlk: str | None) -> dict[str, str]:
    """That of all processes of the trial."""
    more = {"DLK": dlk} if dlk else {}
    return {**os.environ, **more, "PYTHONPATH": str(ROOT / "src")}


@contextlib.contextmanager
def started(words: list[str], log: Path, known: dict[str, str]) -> "Iterator[subprocess.Popen[bytes]]":
    """A process that runs while the trial goes on, in a group of its own."""
    with log.open("wb") as out:
        process = subprocess.Popen(words, stdout=out, stderr=subprocess.STDOUT, env=known, start_new_session=True)
    try:
        yield process
    finally:
        with contextlib.suppress(ProcessLookupError):
            os.killpg(process.pid, signal.SIGKILL)
        process.wait()


def address_in(log: Path) -> str:
    """The address that a scheduler tells in its log."""
    for _ in range(600):
        for line in log.read_text(encoding="utf-8", errors="replace").splitlines():
            if "Scheduler at:" in line:
                return line.split()[-1]
        time.sleep(0.1)
    raise SystemExit("dask_trial: the scheduler doesn't begin")


def without_times(table: list[str]) -> list[str]:
    """A table without the times of its rows."""
    return [line[:50] + line[60:] if line.startswith(("verified", "not-verified")) else line for line in table]


def by_scheduler(folder: Path, place: Path, known: dict[str, str]) -> tuple[list[str], int]:
    """The table by a scheduler and its workers, of which one is killed; and when, in lines of the table."""
    lines: list[str] = []
    killed = 0
    with contextlib.ExitStack() as running:
        log = place / "scheduler"
        words = [sys.executable, "-c", SCHEDULER, "--host", "127.0.0.1", "--port", "0", "--no-dashboard"]
        running.enter_context(started(words, log, known))
        address = address_in(log)
        workers = []
        for number in range(WORKERS):
            words = [sys.executable, "-c", WORKER, address, "--nthreads", "1", "--no-nanny", "--no-dashboard", "--name", f"worker{number}"]
            words += ["--local-directory", str(place / f"worker{number}-files")]
            workers.append(running.enter_context(started(words, place / f"worker{number}", known)))
        words = [sys.executable, "-m", "dlkt", "batch", str(folder), "--dask", address]
        with subprocess.Popen(words, stdout=subprocess.PIPE, text=True, env=known) as batch:
            assert batch.stdout is not None
            for line in batch.stdout:
                lines.append(line.rstrip("\n"))
                if not killed and len(lines) > len(list(folder.iterdir())) // 5:
                    killed = len(lines)
                    os.kill(workers[1].pid, signal.SIGKILL)
    return lines, killed


def main() -> int:
    """The trial."""
    parser = argparse.ArgumentParser(description=(__doc__ or "").split("\n", 1)[0])
    parser.add_argument("--proofs", type=int, default=200, metavar="N")
    parser.add_argument("--dlk", metavar="PROGRAM")
    options = parser.parse_args()
    known = environment(options.dlk)
    if subprocess.run([sys.executable, "-c", "import distributed"], capture_output=True, check=False).returncode:
        print("dask_trial: apt-get install python3-distributed, and run it with /usr/bin/python3", file=sys.stderr)
        return 2
    with tempfile.TemporaryDirectory() as name:
        place = Path(name)
        folder = place / "proofs"
        copies(folder, options.proofs)
        begin = time.monotonic()
        alone = subprocess.run([sys.executable, "-m", "dlkt", "batch", str(folder), "-j", "2"], capture_output=True, text=True, env=known, check=False)
        print(f"by -j 2: {alone.stdout.splitlines()[-1] if alone.stdout else alone.stderr}, {time.monotonic() - begin:.1f} s")
        begin = time.monotonic()
        lines, killed = by_scheduler(folder, place, known)
        print(f"by four workers, one of them killed behind line {killed}: {lines[-1] if lines else 'nothing'}, {time.monotonic() - begin:.1f} s")
        is_same = without_times(lines) == without_times(alone.stdout.splitlines()) and killed > 0
        print("the tables are the same but for the times" if is_same else "the tables differ")
        return 0 if is_same else 1


if __name__ == "__main__":
    sys.exit(main())
