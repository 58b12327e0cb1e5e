#!/usr/bin/env python3
"""How long the gate took, and which crates were dearest in it.

    python3 bench/gate.py watch LOG        notes the processor time of each run of the prover below the calling script, until it is ended
    python3 bench/gate.py dearest LOG      prints how long that took, and the ten dearest crates
    python3 bench/gate.py table LOG        prints the table of all crates that stands in docs/TESTED.md

The gate itself tells no times. `.ci/run` has this look on beside it, which changes nothing: about once a second the system is asked which
runs of the prover there are below `.ci/run`, and how much processor time each has used. What a run uses behind the last look is missing, so a
short one is told up to a second too low.

A crate has three columns, in processor minutes: its proof, that of its tests, and its edits, with the two checks that these begin and end
with.
"""

import argparse
import json
import os
import signal
import sys
import time
from collections import defaultdict
from pathlib import Path
from typing import NamedTuple

SECONDS = 1.0
KINDS = ("proof", "tests", "edits")
TICKS = os.sysconf("SC_CLK_TCK")
PROVER = "rattle"


class Run(NamedTuple):
    """A run of the prover as it was last seen: its process, crate and kind, its processor seconds, and when it was seen."""

    process: str
    crate: str
    kind: str
    spent: float
    seen: float


def read(path):
    """What a file of the system has, or nothing where its process has ended."""
    try:
        return Path(path).read_bytes()
    except OSError:
        return b""


def status_of(process):
    """The process above a process, when it began, and its processor seconds."""
    fields = read(f"/proc/{process}/stat").rpartition(b")")[2].split()
    return (fields[1].decode(), fields[19].decode(), (int(fields[11]) + int(fields[12])) / TICKS) if fields else ("0", "", 0.0)


def is_below(process, above):
    """Whether a process was begun by another one, or by one that it began."""
    while process not in ("0", "1", above):
        process = status_of(process)[0]
    return process == above


def kind_of(process, words):
    """What a run of the prover is for: rt copies a crate with an edit to a folder of its own."""
    try:
        folder = os.path.basename(os.readlink(f"/proc/{process}/cwd"))
    except OSError:
        folder = ""
    return "edits" if folder.startswith("rt-edit") else "tests" if "--test" in words else "proof"


def runs_below(above):
    """The runs of the prover that there are now below a process."""
    for process in filter(str.isdigit, os.listdir("/proc")):
        words = read(f"/proc/{process}/cmdline").decode(errors="replace").split("\0")
        if os.path.basename(words[0]) == PROVER and "--crate-name" in words and is_below(process, above):
            _, began, spent = status_of(process)
            crate = words[words.index("--crate-name") + 1]
            yield Run(f"{process} {began}", crate, kind_of(process, words), spent, time.time())


def watch(log):
    """Looks on until it is told to end, and keeps the log as it goes."""
    above, began, runs, ended = str(os.getppid()), time.time(), {}, []
    signal.signal(signal.SIGTERM, lambda *_: ended.append(True))
    signal.signal(signal.SIGINT, lambda *_: ended.append(True))
    kept = 0.0
    while not ended and os.getppid() != 1:
        for run in runs_below(above):
            runs[run.process] = run
        if time.time() - kept > 20:
            kept = time.time()
            keep(log, began, runs)
        time.sleep(SECONDS)
    keep(log, began, runs)


def keep(log, began, runs):
    """Writes the log anew."""
    whole = {"began": began, "ended": time.time(), "processors": len(os.sched_getaffinity(0)), "runs": [run._asdict() for run in runs.values()]}
    fresh = Path(f"{log}.new")
    fresh.write_text(json.dumps(whole))
    fresh.replace(log)


def spent(log):
    """The log, and the processor minutes of each crate by kind."""
    whole, minutes = json.loads(Path(log).read_text()), defaultdict(lambda: dict.fromkeys(KINDS, 0.0))
    for run in whole["runs"]:
        minutes[run["crate"]][run["kind"]] += run["spent"] / 60
    return whole, dict(sorted(minutes.items(), key=lambda it: -sum(it[1].values())))


def sums(minutes):
    """The processor minutes of all crates by kind."""
    return {kind: sum(of[kind] for of in minutes.values()) for kind in KINDS}


def told(of):
    """The minutes of a crate in words."""
    return f"{sum(of.values()):.1f} ({', '.join(f'{kind} {of[kind]:.1f}' for kind in KINDS if of[kind] >= 0.05)})"


def dearest(log):
    """Prints the time and the ten dearest crates."""
    whole, minutes = spent(log)
    clock = (whole["ended"] - whole["began"]) / 60
    print(f"the gate took {clock:.0f} minutes on {whole['processors']} processors, and {told(sums(minutes))} processor minutes")
    for crate, of in list(minutes.items())[:10]:
        print(f"{crate}: {told(of)}")


def table(log):
    """Prints the table of all crates."""
    _, minutes = spent(log)
    print(f"| crate | {' | '.join(KINDS)} | all |\n|---|{'---|' * (len(KINDS) + 1)}")
    for crate, of in [*((f"`{name}`", of) for name, of in minutes.items()), ("all", sums(minutes))]:
        print(f"| {crate} | {' | '.join(f'{of[kind]:.1f}' for kind in KINDS)} | {sum(of.values()):.1f} |")


def main():
    words = argparse.ArgumentParser(description="How long the gate took, and which crates were dearest in it.")
    words.add_argument("what", choices=("watch", "dearest", "table"))
    words.add_argument("log", metavar="LOG")
    given = words.parse_args()
    try:
        {"watch": watch, "dearest": dearest, "table": table}[given.what](given.log)
    except (OSError, ValueError, KeyError) as why:
        print(f"gate.py: {given.log}: {why}", file=sys.stderr)
        return 1
    return 0


if __name__ == "__main__":
    sys.exit(main())
