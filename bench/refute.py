"""Breaks models at one place, and counts how many of them `dlkt refute` refutes, and how fast; and that it refutes none that isn't broken.

    python3 bench/refute.py [--count N] [--seed N] [--seconds S] [--out FILE] [--only PART] [--whole]

The models are those of examples/gallery, tutorial and recipes, which are all true. Broken is one place of one of them, drawn by the seed: a sign is turned, an
assumption is dropped, a test or a domain loses a part, or a bound is moved by 1, so that more is allowed or more is promised. N models are broken
(140). Each search has S seconds of the clock (5). --out writes a line of JSON for each, with the model. --only takes the models whose name has PART
in it. --whole leaves the breaking out.

What isn't refuted is listed. Some of it is valid still: which is said beside it where bench/data/refuted_not.json has been told, by its text.
The status is 1 where a model that isn't broken is refuted, or the aims aren't reached: 70 of 100 refuted, half of those in 0.2 seconds.
It needs z3's Python module.
"""

from __future__ import annotations

import argparse
import json
import random
import statistics
import sys
import time
from pathlib import Path
from typing import Iterator, NamedTuple

TOP = Path(__file__).resolve().parent.parent
sys.path.insert(0, str(TOP / "src"))
sys.setrecursionlimit(60_000)

from dlkt import reader  # noqa: E402  (behind the path)
from dlkt.trees import ROWS, Tree, Trees, text  # noqa: E402

FOLDERS = ("gallery", "tutorial", "recipes")
LOOKED_AT = TOP / "bench" / "data" / "refuted_not.json"
AIM, AIM_SECONDS = 0.7, 0.2
KINDS = ("sign", "assumption", "test", "bound")
TREES = Trees()
HIGHER = {"ge": "sub", "gt": "sub", "le": "add", "lt": "add"}  # what is done to the right side, so that more is allowed
LOWER = {"ge": "add", "gt": "add", "le": "sub", "lt": "sub"}


class Change(NamedTuple):
    """A change of a model at one place: its kind, what it does in words, and the model."""

    kind: str
    says: str
    model: Tree


class Result(NamedTuple):
    """What came of a search: the model's name, the change, the status, and seconds of the processor and of the clock."""

    name: str
    change: Change
    status: str
    seconds: float
    clock: float


def models(only: str) -> dict[str, Tree]:
    """The models by their names."""
    found = {}
    for folder in FOLDERS:
        for path in sorted((TOP / "examples" / folder).glob("*/model")):
            name = f"{folder}/{path.parent.name}"
            if only in name:
                found[name] = reader.model(path.read_text(), TREES)[0]
    return found


# One place broken

def rebuilt(tree: Tree, place: int, kid: Tree) -> Tree:
    """A tree with another kid at a place."""
    kids = [*tree.kids[:place], kid, *tree.kids[place + 1:]]
    return TREES.make(tree.word, tree.detail, *kids)


def moved(comparison: Tree, by: dict[str, str]) -> Iterator[tuple[str, Tree]]:
    """A comparison with its right side moved by 1."""
    if comparison.word in by:
        one = TREES.make("num", "1")
        changed = rebuilt(comparison, 1, TREES.make(by[comparison.word], "", comparison.kids[1], one))
        yield f"{text(comparison)} ~> {text(changed)}", changed


def turned(term: Tree) -> Iterator[tuple[str, Tree]]:
    """A term with a sign turned at one place."""
    if term.word in ("add", "sub"):
        changed = TREES.make("sub" if term.word == "add" else "add", "", *term.kids)
        yield f"{text(term)} ~> {text(changed)}", changed
    if term.word == "neg":
        yield f"{text(term)} ~> {text(term.kids[0])}", term.kids[0]
    for place, kid in enumerate(term.kids):
        for says, changed in turned(kid):
            yield says, rebuilt(term, place, changed)


def within(tree: Tree, kind: str, allowed: bool) -> Iterator[Change]:
    """The changes of a formula or a program. It is one that says what is allowed, or what is promised."""
    if tree.word in ("eq", "ne", "ge", "gt", "le", "lt"):
        for place, kid in enumerate(tree.kids):
            for says, changed in turned(kid):
                yield Change("sign", says, rebuilt(tree, place, changed))
        for says, changed in moved(tree, HIGHER if allowed else LOWER):
            yield Change("bound", says, changed)
        return
    if tree.word in ("assign",) or tree.word == "system":
        for place, kid in enumerate(tree.kids):
            if ROWS[kid.word].sort == "term":
                for says, changed in turned(kid):
                    yield Change("sign", says, rebuilt(tree, place, changed))
    for place, kid in enumerate(tree.kids):
        if ROWS[kid.word].sort == "term":
            continue
        is_allowed = True if tree.word in ("test", "system") or (tree.word == "imply" and place == 0) else allowed
        inner = "test" if tree.word in ("test", "system") else kind
        for change in within(kid, inner, is_allowed):
            yield change._replace(model=rebuilt(tree, place, change.model))
        if tree.word in ("test", "system") and kid.word != "true":
            for says, changed in without_part(kid):
                yield Change("test", says, rebuilt(tree, place, changed))


def without_part(formula: Tree) -> Iterator[tuple[str, Tree]]:
    """A conjunction without one of its parts."""
    if formula.word != "and":
        yield f"without {text(formula)}", TREES.make("true")
        return
    first, second = formula.kids
    for says, changed in without_part(first):
        yield says, second if changed.word == "true" else rebuilt(formula, 0, changed)
    for says, changed in without_part(second):
        yield says, first if changed.word == "true" else rebuilt(formula, 1, changed)


def changes(model: Tree) -> list[Change]:
    """All changes of a model."""
    found = list(within(model, "", False))
    if model.word == "imply":
        found += [Change("assumption", says, rebuilt(model, 0, changed)) for says, changed in without_part(model.kids[0])]
    return [change for change in found if change.model is not model]


def drawn(whole: dict[str, Tree], count: int, seed: int) -> list[tuple[str, Change]]:
    """The changes that are tried: of each kind as many as of the others, of the models in turn."""
    rng = random.Random(seed)
    waiting = {}
    for kind in KINDS:
        by_model = {name: [change for change in changes(model) if change.kind == kind] for name, model in whole.items()}
        for found in by_model.values():
            rng.shuffle(found)
        names = list(by_model)
        rng.shuffle(names)
        waiting[kind] = [(name, by_model[name][turn]) for turn in range(max(map(len, by_model.values()))) for name in names if turn < len(by_model[name])]
    found = [waiting[kind][turn] for turn in range(count) for kind in KINDS if turn < len(waiting[kind])]
    return found[:count]


# Trying

def tried(name: str, change: Change, seconds: float) -> Result:
    """What comes of a search on a broken model."""
    from dlkt.semantics import refuting
    begin, clock = time.process_time(), time.monotonic()
    answer = refuting.refuted(change.model, refuting.Settings(seconds))
    return Result(name, change, answer.status.value, time.process_time() - begin, time.monotonic() - clock)


def told(result: Result) -> str:
    """A result as a line of JSON."""
    change = result.change
    return json.dumps({
        "name": result.name, "kind": change.kind, "says": change.says, "status": result.status, "seconds": round(result.seconds, 3),
        "clock": round(result.clock, 3), "model": text(change.model),
    })


def print_table(results: list[Result]) -> bool:
    """Prints what came of the broken models, and gives whether the aims are reached."""
    print(f"{'':<12}{'tried':>7}{'refuted':>9}{'by numbers':>12}{'nothing found':>15}")
    for kind in (*KINDS, "all"):
        some = [result for result in results if kind in (result.change.kind, "all")]
        counts = [sum(result.status == status for result in some) for status in ("refuted", "refuted by numbers", "nothing found")]
        print(f"{kind:<12}{len(some):>7}{counts[0]:>9}{counts[1]:>12}{counts[2]:>15}")
    found = [result for result in results if result.status != "nothing found"]
    middle = statistics.median([result.seconds for result in found]) if found else 0.0
    longest = max((result.seconds for result in found), default=0.0)
    share = len(found) / len(results) if results else 0.0
    print(f"{100 * share:.0f} of 100 refuted; processor time of those: half in {middle:.3f} s, all in {longest:.1f} s")
    return share >= AIM and middle < AIM_SECONDS


def print_rest(results: list[Result]) -> None:
    """Prints the broken models that weren't refuted, with what is known of them."""
    known = json.loads(LOOKED_AT.read_text()) if LOOKED_AT.is_file() else {}
    for result in results:
        if result.status == "nothing found":
            print(f"  {result.name:<26}{result.change.says:<60} {known.get(text(result.change.model), 'not looked at')}")


def options_of(words: list[str]) -> argparse.Namespace:
    """The words of the command line."""
    parser = argparse.ArgumentParser(description=__doc__, formatter_class=argparse.RawDescriptionHelpFormatter)
    parser.add_argument("--count", type=int, default=140)
    parser.add_argument("--seed", type=int, default=1)
    parser.add_argument("--seconds", type=float, default=5.0)
    parser.add_argument("--out", type=Path)
    parser.add_argument("--only", default="")
    parser.add_argument("--whole", action="store_true")
    return parser.parse_args(words)


def main(words: list[str]) -> int:
    """Tries the models, broken and whole."""
    options = options_of(words)
    whole = models(options.only)
    results = []
    out = options.out.open("w") if options.out else None
    for name, change in drawn(whole, 0 if options.whole else options.count, options.seed):
        results.append(tried(name, change, options.seconds))
        if out:
            print(told(results[-1]), file=out, flush=True)
    is_good = print_table(results) if results else True
    print_rest(results)
    wrong = []
    for name, model in whole.items():
        result = tried(name, Change("", "", model), options.seconds)
        wrong += [result] if result.status != "nothing found" else []
    print(f"{len(whole)} models that aren't broken: {len(wrong)} refuted {[result.name for result in wrong] or ''}")
    return 0 if is_good and not wrong else 1


if __name__ == "__main__":
    sys.exit(main(sys.argv[1:]))
