#!/usr/bin/env python3
"""How long the proofs of the program take on several processors, by the times of a run: simulated, so that another graph of crates can be tried on paper.

    python3 dev/clock.py LOG [--processors N]                          the clock of the proofs of `dlk`, the longest chain, and who waits for whom
    python3 dev/clock.py LOG --crates FILE --seconds NAME=SECONDS      the same for the graph of another file like crates.txt, with other times
    python3 dev/clock.py LOG --rows                                    when each crate begins and ends, besides

In: LOG, which `bench/gate.py watch` writes while the crates are proved, and `crates.txt`, which says what each crate stands on. Crates that `--top`
doesn't stand on are left out. A time that is given with `--seconds` (once for each crate) replaces that of the log, and is needed for a crate that
the log doesn't know.

What is simulated is what `rt ci` does: one crate a processor, each once those that it stands on are proved, and first the one with the longest
chain of others behind it. `rt ci` measures a chain in lines of code (`--by lines`), here it is seconds unless that is said. The tests of a crate
are a task that none waits for: `--tests NAME` adds those of a crate, as the log has them. A processor second of a proof takes `--stretch` seconds of the
clock, since all processors read and write at once. That two processors may share a crate at the end, and that this costs more work, isn't simulated.

Out: text. Nothing is changed.
"""

import argparse
import heapq
import json
import sys
from collections import defaultdict
from pathlib import Path
from typing import NamedTuple

ROOT = Path(__file__).resolve().parent.parent

Graph = dict[str, list[str]]
Times = dict[str, float]


class Span(NamedTuple):
    """When the proof of a crate began and ended, in seconds of the clock."""

    crate: str
    began: float
    ended: float


def graph_of(path: Path) -> Graph:
    """What each crate stands on, of the crates that the file lists."""
    rows = [line.split("#")[0].partition(":") for line in path.read_text(encoding="utf-8").splitlines()]
    listed = {name.split()[0]: rest.split() for name, colon, rest in rows if colon}
    return {name: [it for it in rest if it in listed] for name, rest in listed.items()}


def below(graph: Graph, top: str) -> Graph:
    """The part of a graph that a crate stands on, itself with it, the lowest first."""
    found: Graph = {}

    def add(name: str) -> None:
        """Adds a crate behind those that it stands on."""
        if name not in found:
            for it in graph[name]:
                add(it)
            found[name] = graph[name]

    add(top)
    return found


def seconds_of(log: Path, kind: str) -> Times:
    """The processor seconds of each crate in the runs of a kind."""
    spent: Times = defaultdict(float)
    for run in json.loads(log.read_text(encoding="utf-8"))["runs"]:
        if run["kind"] == kind:
            spent[run["crate"]] += run["spent"]
    return dict(spent)


def lines_of(crate: str) -> int:
    """The lines of a crate's files of code."""
    return sum(it.read_bytes().count(b"\n") for it in (ROOT / "crates" / crate / "src").rglob("*.rt"))


def behind(graph: Graph, weights: Times) -> Times:
    """The weight of the heaviest chain that begins with each crate and goes up; a graph has the lowest crates first."""
    best: Times = dict.fromkeys(graph, 0.0)
    for name in reversed(graph):
        best[name] += weights[name]
        for it in graph[name]:
            best[it] = max(best[it], best[name])
    return best


def simulated(graph: Graph, spent: Times, urgency: Times, processors: int) -> list[Span]:
    """The spans of all crates, in the order in which they end."""
    waiting = sorted(graph, key=lambda it: -urgency[it])
    running: list[tuple[float, float, str]] = []
    spans: list[Span] = []
    proved: set[str] = set()
    now = 0.0
    while waiting or running:
        for name in [it for it in waiting if proved.issuperset(graph[it])][: processors - len(running)]:
            waiting.remove(name)
            heapq.heappush(running, (now + spent[name], now, name))
        now, began, name = heapq.heappop(running)
        proved.add(name)
        spans.append(Span(name, began, now))
    return spans


def chain(graph: Graph, spent: Times) -> list[str]:
    """The chain of crates, each standing on the one before, that takes longest."""
    best: dict[str, tuple[float, list[str]]] = {}
    for name, rest in graph.items():
        seconds, names = max((best[it] for it in rest), default=(0.0, []))
        best[name] = seconds + spent[name], [*names, name]
    return max(best.values())[1]


def text_of(seconds: float) -> str:
    """Minutes and seconds."""
    return f"{round(seconds) // 60}:{round(seconds) % 60:02d}"


def show(spans: list[Span], graph: Graph, spent: Times, given: argparse.Namespace) -> None:
    """Prints the clock, the longest chain, and who waits for whom up to the end."""
    end, work, names = spans[-1].ended, sum(spent.values()), chain(graph, spent)
    if given.rows:
        for span in sorted(spans, key=lambda it: it.began):
            print(f"{text_of(span.began):>6} {text_of(span.ended):>6} {span.crate}")
    print(f"clock {text_of(end)}, on {given.processors} processors, which are at work {100 * work / (end * given.processors):.0f}% of the time")
    print(f"work {text_of(work)}, of which a processor's share is {text_of(work / given.processors)}, in {len(graph)} tasks")
    print(f"longest chain {text_of(sum(spent[it] for it in names))}: " + ", ".join(f"{it} {spent[it]:.0f}" for it in names))
    of, path = {it.crate: it for it in spans}, [spans[-1]]
    while path[-1].began > 0:
        # what ended when this one began: one that it stands on if there is such a one, else one that left its processor
        freed = [it for it in spans if it.ended == path[-1].began]
        path.append(next((of[it] for it in graph[path[-1].crate] if of[it] in freed), freed[0]))
    print("the end waited for: " + ", ".join(f"{it.crate} {text_of(it.ended)}" for it in reversed(path)))


def main() -> int:
    """Reads the words, simulates and prints."""
    words = argparse.ArgumentParser(description="How long the proofs of the program take on several processors, simulated by the times of a run.")
    words.add_argument("log", type=Path, metavar="LOG", help="what `bench/gate.py watch` wrote")
    words.add_argument("--processors", type=int, choices=range(1, 65), default=4, metavar="N", help="how many crates are proved at once")
    words.add_argument("--crates", type=Path, default=ROOT / "crates.txt", metavar="FILE", help="another graph than that of crates.txt")
    words.add_argument("--seconds", action="append", default=[], metavar="NAME=SECONDS", help="processor seconds of a crate, in place of those of the log")
    words.add_argument("--top", default="dlk", metavar="NAME", help="the crate up to which it is proved")
    words.add_argument("--tests", action="append", default=[], metavar="NAME", help="a crate whose tests are proved too")
    words.add_argument("--by", choices=("seconds", "lines"), default="seconds", help="what the length of a chain is measured in where a crate is chosen")
    words.add_argument("--stretch", type=float, default=1.06, help="seconds of the clock that a processor second takes")
    words.add_argument("--rows", action="store_true", help="a line for each crate, besides")
    given = words.parse_args()
    try:
        graph = below(graph_of(given.crates), given.top)
        spent, tests = seconds_of(given.log, "proof"), seconds_of(given.log, "tests")
        spent |= {name: float(seconds) for name, _, seconds in (it.partition("=") for it in given.seconds)}
        spent = {name: given.stretch * spent[name] for name in graph}
        urgency = behind(graph, spent if given.by == "seconds" else {it: float(lines_of(it)) for it in graph})
        for name in given.tests:
            task = f"{name} (tests)"
            graph[task], spent[task], urgency[task] = graph[name], given.stretch * tests[name], 0.0
        show(simulated(graph, spent, urgency, given.processors), graph, spent, given)
    except KeyError as why:
        print(f"clock.py: there is no time of {why}: neither the log nor a word --seconds NAME=SECONDS has one", file=sys.stderr)
        return 1
    except (OSError, ValueError) as why:
        print(f"clock.py: {why}", file=sys.stderr)
        return 1
    return 0


if __name__ == "__main__":
    sys.exit(main())
