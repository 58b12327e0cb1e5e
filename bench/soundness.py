"""Tries the calculus and the guard against a second semantics: random instances and proofs that `dlk` accepts, judged by z3.

    python3 bench/soundness.py [--count N] [--seconds S] [--seed N] [--parts NAMES] [--patience F] [--names] [--out FILE]
    python3 bench/soundness.py --join FILE ..

Made are, by the seed, N things in all (1,500), in these parts:

    axioms      instances of all axioms and axiomatic rules by random substitutions and renamings
    border      instances of DI and DG made of the very words of the guard's clauses, and of words near them
    congruence  instances of CE with `_` under, beside and round a differential
    rules       sequents with one of the sequent rules applied
    proofs      forward proofs of 3 to 12 steps, each of which works on what the steps before it made
    library     models proved by `dI`, `dC` and `dG`
    changed     terms of the examples with a line changed
    planted     axioms with one place changed: how many are caught, an instance of theirs not being valid. `dlk` has no part in it

Each is checked by `dlk`, and judged by `guard`. Then the semantics says whether its conclusion is valid, where its premises and leaves are. The status
is 1 where a conclusion is invalid though the proof is guarded and its leaves and premises are valid; where the guard's twin in Python
(bench/twin.py) says something else than the guard; and where the campaign has no teeth: too few invalid instances for a reason of the guard, too few
planted mistakes caught, or too few of the wrong guards.

--seconds ends it earlier: what it must catch goes by what was tried. --out writes a line of JSON for each thing that isn't plainly valid, and last
all that was counted: so a long campaign can be run in pieces of other seeds, whose files --join puts together to one table. It needs z3's Python
module. A process beside it does the work, and is started anew where a question doesn't end.
"""

from __future__ import annotations

import argparse
import json
import os
import random
import select
import signal
import sys
import tempfile
import time
from collections import Counter
from pathlib import Path
from typing import Any, Iterator, NamedTuple

TOP = Path(__file__).resolve().parent.parent
sys.path[:0] = [str(TOP / "src"), str(TOP / "bench")]
sys.setrecursionlimit(60_000)

from campaign import PARTS, Campaign, Kept  # noqa: E402  (behind the path)
from twin import Mistake  # noqa: E402

SHARES = {"axioms": 520, "border": 270, "congruence": 40, "rules": 120, "proofs": 15, "library": 5, "changed": 5, "planted": 25}  # of a thousand
BATCH = {"axioms": 40, "border": 40, "congruence": 20, "rules": 10, "proofs": 5, "library": 5, "changed": 2, "planted": 2}
SILENCE = 60  # seconds after which a process is taken for stuck, and four times as many at most on a machine that isn't free
MEMORY_BATCHES = 30  # batches after which a process is started anew

# Of 1,000 decided instances of a part, how many invalid ones each reason of the guard must have at least.
FLOORS = {
    ("border", "di-not-smooth"): 15, ("border", "di-not-evolved"): 8, ("border", "di-primed"): 4, ("border", "di-constant"): 2,
    ("border", "dg-not-smooth"): 2, ("border", "raw-fact"): 2, ("congruence", "differential-context"): 30, ("axioms", "dforall"): 1,
}
LEAST_CAUGHT = 50  # of 100 planted mistakes
LEAST_WRONG_GUARDS = {400: 18, 2_000: 22, 10_000: 24}  # that must be caught, by how many instances of DI and DG were decided


class Work(NamedTuple):
    """A batch: its part, its number, how many things, and how many of them were done already."""

    part: str
    number: int
    count: int
    done: int


def batches(count: int, parts: list[str]) -> Iterator[Work]:
    """The batches of a campaign, those of all parts in turn."""
    whole = sum(SHARES[part] for part in parts)
    left = {part: count * SHARES[part] // whole for part in parts}
    number = 0
    while any(left.values()):
        for part in parts:
            size = min(BATCH[part], left[part])
            if size:
                yield Work(part, number, size, 0)
                left[part] -= size
        number += 1


class Settings(NamedTuple):
    """The seed, and by which factor the times of questions are longer than on a free machine."""

    seed: int
    patience: float


# A process that works

def child(work: list[Work], settings: Settings, out: int) -> None:
    """Does batches, and writes a line of JSON for each thing."""
    with tempfile.TemporaryDirectory() as folder, os.fdopen(out, "w") as file:
        campaign = Campaign(Path(folder), settings.seed, settings.patience)
        for batch in work:
            for place, kept in enumerate(campaign.batch(batch.part, batch.number, batch.count)):
                if place >= batch.done:
                    print(json.dumps(kept), file=file, flush=True)
            print(json.dumps(None), file=file, flush=True)


class Worker:
    """A process that does batches, and what comes of them."""

    def __init__(self, work: list[Work], settings: Settings) -> None:
        sys.stdout.flush()
        reading, writing = os.pipe()
        self.process = os.fork()
        if self.process == 0:
            status = 1
            try:
                signal.signal(signal.SIGTERM, signal.SIG_DFL)
                os.close(reading)
                child(work, settings, writing)
                status = 0
            except KeyboardInterrupt:
                pass
            except BaseException as fault:
                print(f"a batch ends with {fault!r}", file=sys.stderr, flush=True)
            finally:
                os._exit(status)
        os.close(writing)
        self.out, self.rest, self.status = reading, b"", 0

    def lines(self, longest: float) -> Iterator[Any]:
        """What it writes, until it ends or is silent for so long."""
        while select.select([self.out], [], [], longest)[0]:
            data = os.read(self.out, 1 << 16)
            if not data:
                break
            *whole, self.rest = (self.rest + data).split(b"\n")
            yield from map(json.loads, whole)

    def end(self) -> None:
        """Ends it, where it hasn't ended."""
        try:
            os.kill(self.process, signal.SIGKILL)
        except ProcessLookupError:
            pass
        self.status = os.waitstatus_to_exitcode(os.waitpid(self.process, 0)[1])
        os.close(self.out)


def silence(settings: Settings, end: float) -> float:
    """How many seconds a process may be silent."""
    return min(SILENCE * min(4.0, max(1.0, settings.patience / 10)), max(1.0, end - time.monotonic()))


def results(work: list[Work], settings: Settings, end: float) -> Iterator[Kept]:
    """What comes of all batches, in time."""
    while work and time.monotonic() < end:
        worker, some = Worker(work[:MEMORY_BATCHES], settings), list(work[:MEMORY_BATCHES])
        try:
            for kept in worker.lines(silence(settings, end)):
                if kept is None:
                    some.pop(0)
                else:
                    some[0] = some[0]._replace(done=some[0].done + 1)
                    yield kept
                if time.monotonic() > end:
                    break
        finally:
            worker.end()
        if worker.status not in (0, -signal.SIGKILL):
            raise SystemExit("a batch can't be done")
        if some and time.monotonic() < end:  # stuck: the thing is passed over
            part = some[0].part
            yield {"part": part, "name": "", "verdict": "stuck"}
            some[0] = some[0]._replace(done=some[0].done + 1)
        work = some + work[MEMORY_BATCHES:]


# What came of it

DECIDED = ("valid", "invalid")
COUNTED_BY_TWO = ("counts", "reasons", "by_name")
COLUMNS = ("tried", "decided", "valid", "invalid, flagged", "invalid and guarded", "undecided", "not in its part", "premise")


class Tally:
    """What came of a campaign."""

    def __init__(self) -> None:
        self.counts: Counter[tuple[str, str]] = Counter()
        self.reasons: Counter[tuple[str, str]] = Counter()
        self.by_name: Counter[tuple[str, str]] = Counter()
        self.caught: Counter[str] = Counter()
        self.refused, self.wrong = Counter[str](), list[Kept]()
        self.others = list[Kept]()

    def add(self, kept: Kept) -> None:
        """Counts a thing."""
        part, verdict = kept["part"], kept["verdict"]
        if verdict == "refused":
            self.refused[part] += 1
            return
        self.counts[part, "tried"] += 1
        self.by_name[kept["name"], "tried"] += 1
        if verdict in DECIDED:
            self.counts[part, "decided"] += 1
            self.by_name[kept["name"], "decided"] += 1
        if part == "planted":
            self.counts[part, "caught" if verdict == "invalid" else "passed"] += 1
        elif verdict == "invalid":
            self.add_invalid(kept)
        else:
            self.counts[part, verdict] += 1
        if kept.get("disagrees"):
            self.wrong.append(kept)
        if verdict != "valid":
            self.others.append(kept)

    def add_invalid(self, kept: Kept) -> None:
        """Counts a thing whose conclusion is invalid."""
        if kept["guard"] == "guarded":
            self.counts[kept["part"], "invalid and guarded"] += 1
            self.wrong.append(kept)
        else:
            self.counts[kept["part"], "invalid, flagged"] += 1
            self.reasons[kept["part"], kept["guard"]] += 1
            self.caught.update(kept.get("caught", []))

    def told(self) -> Kept:
        """All that was counted, for a file."""
        pairs = {name: [[*key, number] for key, number in getattr(self, name).items()] for name in COUNTED_BY_TWO}
        return {"tally": {**pairs, "caught": dict(self.caught), "refused": dict(self.refused)}}

    def join(self, told: Kept) -> None:
        """Adds what another campaign counted."""
        for name in COUNTED_BY_TWO:
            for one, other, number in told["tally"][name]:
                getattr(self, name)[one, other] += number
        self.caught.update(told["tally"]["caught"])
        self.refused.update(told["tally"]["refused"])

    def table(self) -> list[str]:
        """The table of the parts."""
        lines = [f"{'':<12}" + "".join(f"{column:>{max(9, len(column) + 2)}}" for column in COLUMNS)]
        for part in [part for part in PARTS if part != "planted" and self.counts[part, "tried"]]:
            undecided = sum(self.counts[part, word] for word in ("unknown", "doubt", "bounded", "stuck"))
            numbers = [
                *(self.counts[part, word] for word in ("tried", "decided", "valid", "invalid, flagged", "invalid and guarded")), undecided,
                self.counts[part, "unsupported"], self.counts[part, "premise"]]
            lines.append(f"{part:<12}" + "".join(f"{number:>{max(9, len(column) + 2)}}" for number, column in zip(numbers, COLUMNS)))
        return lines

    def toothless(self) -> list[str]:
        """What the campaign should have caught, and didn't."""
        found = []
        for (part, reason), floor in FLOORS.items():
            wanted, have = floor * self.counts[part, "decided"] // 1000, self.reasons[part, reason]
            if have < wanted:
                found.append(f"{have} invalid instances are flagged with {reason}, of {wanted} at least")
        planted = self.counts["planted", "tried"]
        if self.counts["planted", "caught"] * 100 < LEAST_CAUGHT * planted:
            found.append(f"{self.counts['planted', 'caught']} of {planted} planted mistakes are caught")
        wanted = max([least for decided, least in LEAST_WRONG_GUARDS.items() if decided <= self.counts["border", "decided"]], default=0)
        if len(self.caught) < wanted:
            found.append(f"{len(self.caught)} wrong guards are caught, of {wanted} at least")
        return found

    def report(self, seconds: float) -> bool:
        """Prints what came of it, and gives whether it is as it should be."""
        print("\n".join(self.table()))
        refused = ", ".join(f"{part} {number}" for part, number in self.refused.items())
        print(f"refused by dlk: {refused or 'none'}")
        print("invalid and flagged: " + (", ".join(f"{reason} {number}" for (_, reason), number in sorted(self.reasons.items())) or "none"))
        passed = [one.name for one in Mistake if one.name not in self.caught]
        print(f"wrong guards caught: {len(self.caught)} of {len(Mistake)}; not caught: {', '.join(passed) or 'none'}")
        if self.counts["planted", "tried"]:
            print(f"planted mistakes caught: {self.counts['planted', 'caught']} of {self.counts['planted', 'tried']}")
        whole = sum(number for (_, word), number in self.counts.items() if word == "tried")
        print(f"{whole} things in {seconds:.0f} s")
        for kept in self.wrong:
            print(f"WRONG: {json.dumps(kept)}")
        toothless = self.toothless()
        for why in toothless:
            print(f"NO TEETH: {why}")
        return not self.wrong and not toothless


def options_of(words: list[str]) -> argparse.Namespace:
    """The words of the command line."""
    parser = argparse.ArgumentParser(description=__doc__, formatter_class=argparse.RawDescriptionHelpFormatter)
    parser.add_argument("--count", type=int, default=1500)
    parser.add_argument("--seconds", type=float, default=float("inf"))
    parser.add_argument("--seed", type=int, default=1)
    parser.add_argument("--patience", type=float, default=10.0, help="the clock of questions may take longer than on a free machine by this factor")
    parser.add_argument("--parts", default=",".join(PARTS))
    parser.add_argument("--out", type=Path)
    parser.add_argument("--join", type=Path, nargs="+", metavar="FILE")
    parser.add_argument("--names", action="store_true", help="also a line for each axiom and rule")
    options = parser.parse_args(words)
    unknown = set(options.parts.split(",")) - set(PARTS)
    if unknown:
        parser.error(f"no part is {', '.join(sorted(unknown))}")
    return options


def ended(*_: object) -> None:
    """Ends a campaign that is told to end: with its table, and with nothing left running."""
    raise KeyboardInterrupt


def joined(files: list[Path]) -> bool:
    """Prints what came of campaigns, by the files that they wrote, and gives whether it is as it should be."""
    tally, seconds = Tally(), 0
    for file in files:
        for told in map(json.loads, file.read_text().splitlines()):
            if "tally" in told:
                tally.join(told)
                seconds += told["seconds"]
            elif told.get("disagrees") or (told["verdict"] == "invalid" and told["guard"] == "guarded"):
                tally.wrong.append(told)
    return tally.report(seconds)


def main(words: list[str]) -> int:
    """Runs a campaign."""
    options = options_of(words)
    if options.join:
        return 0 if joined(options.join) else 1
    signal.signal(signal.SIGTERM, ended)
    begin, tally = time.monotonic(), Tally()
    out = options.out.open("w") if options.out else None
    work = list(batches(options.count, options.parts.split(",")))
    with tempfile.TemporaryDirectory() as folder:
        Campaign(Path(folder), options.seed).ask_facts("changed" in options.parts)
    try:
        for kept in results(work, Settings(options.seed, options.patience), begin + options.seconds):
            tally.add(kept)
            if out and kept["verdict"] != "valid":
                print(json.dumps(kept), file=out, flush=True)
    except KeyboardInterrupt:
        print("interrupted")
    seconds = time.monotonic() - begin
    if out:
        print(json.dumps({**tally.told(), "seed": options.seed, "seconds": round(seconds)}), file=out, flush=True)
    is_good = tally.report(seconds)
    if options.names:
        for name in sorted({name for name, _ in tally.by_name}):
            print(f"{name:<14}{tally.by_name[name, 'tried']:>8}{tally.by_name[name, 'decided']:>8}")
    return 0 if is_good else 1


if __name__ == "__main__":
    random.seed(0)
    sys.exit(main(sys.argv[1:]))
