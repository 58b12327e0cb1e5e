#!/usr/bin/env python3
"""Random archives: the formula with its definitions taken as functions says the same as the model that is read, on small rational states.

    tests/archive_property.py [--cases N] [--seed N] [--mutants] [--fuzz N]

With --mutants each of the faulty expansions below must be found by that, within so many archives of three seeds. With --fuzz archives with faults put
in are read, too: they are read or refused, and nothing falls over. The status is 0 where all is as it should be.
"""

import argparse
import random
import sys
import time
from pathlib import Path
from typing import Callable, NamedTuple
from unittest import mock

sys.path.insert(0, str(Path(__file__).resolve().parent.parent / "src"))
sys.setrecursionlimit(20_000)

import archive_cases  # noqa: E402  (behind the path)
import archive_random  # noqa: E402
from dlkt.archive import check, expand, tree  # noqa: E402
from dlkt.archive.expand import Expander  # noqa: E402
from dlkt.archive.models import models  # noqa: E402
from dlkt.archive.tactics import proposals  # noqa: E402
from dlkt.archive.tree import Node, Refused, node  # noqa: E402

EXPECTED_REFUSALS = ("too large", "in a differential equation")
LONGEST, SECONDS = 20_000, 3
SEEDS = 3  # of which one finds a faulty expansion
BITS = ("(", ")", "{", "}", "[", "]", ";", "&", "->", "<->", "x", "A", "A()", "End.", "Real ", "Bool ", "HP ", "'", "*", "++", ".", ",", '"', "/*", "-", "^",
        "@invariant(x>0)", "\\forall x ", "<", ">", "=", "!", "?", "0", "1.5", "old(x)", "abs(", "|", "Problem", "Definitions", 'Tactic "t" ', "\n", "y' ")


class Counts(NamedTuple):
    """What came of random archives: how many were compared, in how many states, how many had renamed names, were refused or too large, and the
    first that is another thing, with its number, or none."""

    states: int
    renamed: int
    refused: int
    skipped: int
    archives: int
    difference: str


def differs(text: str, problem: tuple, model_tree: Node, rng: random.Random) -> tuple[int, str]:
    """How many states were compared, and what is different in the last of them."""
    begin, count = time.monotonic(), 0
    for state in archive_random.states(rng):
        if time.monotonic() - begin > SECONDS:
            break
        count += 1
        wanted = archive_random.is_true(problem, state, {})
        try:
            found = archive_random.model_is_true(model_tree, state)
        except KeyError as name:
            return count, f"{name} is free in the model\n{text}"
        if wanted != found:
            values = ", ".join(f"{name}={value}" for name, value in state.items())
            return count, f"{wanted} by the definitions, {found} by the model, in {values}\n{text}"
    return count, ""


def compared(cases: int, seed: int) -> Counts:
    """Compares random archives, up to the first difference."""
    rng = random.Random(seed)
    states = renamed = refused = skipped = 0
    for case in range(cases):
        text, problem = archive_random.made(rng)
        (one,) = models(text)
        if one.model is None:
            refused += 1
            if not any(words in one.fault.reason for words in EXPECTED_REFUSALS):
                return Counts(states, renamed, refused, skipped, case + 1, f"refused at {one.fault.place}: {one.fault.reason}\n{text}")
            continue
        if len(one.model.text) > LONGEST:
            skipped += 1
            continue
        renamed += bool(one.model.expander.renames)
        count, difference = differs(text, problem, one.model.tree, rng)
        states += count
        if difference:
            return Counts(states, renamed, refused, skipped, case + 1, f"{difference}\n{one.model.text}")
    return Counts(states, renamed, refused, skipped, cases, "")


# Faulty expansions

def tree_as_it_is(self: Expander, found: Node, given: object, place: object) -> Node:
    """Nothing is renamed."""
    return found


def without_saved_value(self: Expander, found: Node, given: object, place: object) -> Node:
    """A program variable is renamed without its value."""
    made = APART(self, found, given, place)
    while made is not found and made.kids[0].word == "seq" and made.kids[0].kids[0].place == tree.NOWHERE:
        made = node(made.word, made.kids[0].kids[1], made.kids[1])
    return made


def in_the_program_alone(found: Node, old: str, new: str) -> Node:
    """Formulas keep the old name."""
    return found if found.word in tree.COMPARE else RENAMED(found, old, new)


def not_in_notes(found: Node, old: str, new: str) -> Node:
    """Annotations keep the old name."""
    return RENAMED(found._replace(notes=()), old, new)._replace(notes=found.notes)


def not_in_systems(found: Node, old: str, new: str) -> Node:
    """Equations keep the old name."""
    return found if found.word == "system" else RENAMED(found, old, new)


def not_fresh(self: Expander, name: str) -> str:
    """A name that stands elsewhere."""
    return "w" if name != "w" else "x"


def either_must(program: Node) -> frozenset[str]:
    """What one of two ways writes is taken for what both write."""
    if program.word == "choice":
        return either_must(program.kids[0]) | either_must(program.kids[1])
    return MUST(program)


def without_systems(found: Node) -> frozenset[str]:
    """Equations aren't seen to change anything."""
    return frozenset() if found.word == "system" else BOUND(found)


def names_alone(given: dict, found: Node, name: str) -> bool:
    """Only an argument that is a name is seen to read it."""
    return READS({argument: term for argument, term in given.items() if term.word in ("var", "arg")}, found, name)


def hides_nothing(self: check.Checker, raw: object) -> Node:
    """A quantifier doesn't hide an argument of its name."""
    with mock.patch.object(check, "replace", lambda checker, arguments, bound: REPLACE(checker, bound=bound)):
        return QUANTIFIER(self, raw)


APART, RENAMED, MUST, BOUND, READS = Expander.apart_from_program, expand.renamed, tree.must, tree.bound, expand.reads
REPLACE, QUANTIFIER = check.replace, check.Checker.quantifier
MUTANTS: dict[str, tuple[tuple[object, str, Callable[..., object]], ...]] = {
    "quantifiers capture": ((Expander, "apart_from_quantifier", tree_as_it_is),),
    "programs capture": ((Expander, "apart_from_program", tree_as_it_is),),
    "a renamed variable starts anywhere": ((Expander, "apart_from_program", without_saved_value),),
    "comparisons keep the old name": ((expand, "renamed", in_the_program_alone),),
    "annotations keep the old name": ((expand, "renamed", not_in_notes),),
    "equations keep the old name": ((expand, "renamed", not_in_systems),),
    "new names aren't new": ((Expander, "fresh", not_fresh),),
    "one of two ways counts as both": ((tree, "must", either_must),),
    "equations change nothing": ((expand, "bound", without_systems),),
    "arguments read nothing below operators": ((expand, "reads", names_alone),),
    "quantifiers hide no arguments": ((check.Checker, "quantifier", hides_nothing),),
}


def found_mutants(cases: int, seed: int) -> bool:
    """Whether each faulty expansion is found."""
    all_found = True
    for name, patches in MUTANTS.items():
        for (where, what, instead), more in ((patch, more) for patch in patches for more in range(SEEDS)):
            with mock.patch.object(where, what, instead):
                counts = compared(cases, seed + more)
            if counts.difference:
                break
        all_found = all_found and bool(counts.difference)
        told = f"found by archive {counts.archives} of seed {seed + more}" if counts.difference else f"not found by {cases} archives of {SEEDS} seeds"
        print(f"{name}: {told}", flush=True)
    return all_found


# Faults put in

def spoilt(text: str, rng: random.Random) -> str:
    """A text with a few faults."""
    for _ in range(rng.randint(1, 3)):
        at, kind = rng.randrange(len(text)), rng.random()
        if kind < .35:
            text = text[:at] + text[at + rng.randint(1, 4):]
        elif kind < .8:
            text = text[:at] + rng.choice(BITS) + text[at:]
        else:
            other = rng.randrange(len(text))
            text = text[:at] + text[other:other + rng.randint(1, 12)] + text[at:]
    return text


def fuzzed(cases: int, seed: int) -> bool:
    """Whether archives with faults are read or refused, and nothing else."""
    rng, texts = random.Random(seed), [pair.archive for pair in archive_cases.pairs()]
    counts = dict.fromkeys(("read", "refused", "whole", "tactics", "untranslated"), 0)
    for case in range(cases):
        text = spoilt(rng.choice(texts), rng)
        try:
            found = models(text)
        except Refused:
            counts["whole"] += 1
            continue
        for one in found:
            if one.model is None:
                counts["refused"] += 1
                if "fault of this reader" in one.fault.reason:
                    print(f"case {case}: {one.fault.reason}\n{text}")
                    return False
                continue
            counts["read"] += 1
            for tactic in one.model.tactics:
                try:
                    proposals(tactic, one.model)
                    counts["tactics"] += 1
                except Refused:
                    counts["untranslated"] += 1
    print(f"{cases} texts with faults: {counts['read']} entries read, {counts['refused']} refused, {counts['whole']} archives refused as a whole; "
          f"{counts['tactics']} tactics carried over, {counts['untranslated']} not")
    return True


def main() -> int:
    """What the words say."""
    parser = argparse.ArgumentParser(description="Compares random archives with the models that are read.")
    parser.add_argument("--cases", type=int, default=2000)
    parser.add_argument("--seed", type=int, default=1)
    parser.add_argument("--mutants", action="store_true")
    parser.add_argument("--fuzz", type=int, default=0, metavar="N")
    options = parser.parse_args()
    counts = compared(options.cases, options.seed)
    if counts.difference:
        print(f"archive {counts.archives}, seed {options.seed}: {counts.difference}")
        return 1
    print(f"{options.cases} archives, {counts.states} states compared, {counts.renamed} archives with renamed names, {counts.refused} refused, "
          f"{counts.skipped} too large")
    is_good = not options.mutants or found_mutants(options.cases, options.seed)
    return 0 if is_good and (not options.fuzz or fuzzed(options.fuzz, options.seed)) else 1


if __name__ == "__main__":
    sys.exit(main())
