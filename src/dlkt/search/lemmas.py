"""Lemmas from other folders: a proof that stands there, with terms for its symbols, is cut in and linked.

A folder has `model` and `strategy`. The pairs of a substitution, as `W()~>w`, say which instance is wanted: `dlk subst` makes its formula, and the
line `subst` behind the lemma's own proof its term (uniform substitution: Platzer, J. Autom. Reason. 2017). In the strategy the instance is cut in,
and its proof is left as a goal, where `dlk link` puts the lemma's term.
"""

import tempfile
from collections.abc import Sequence
from pathlib import Path
from typing import NamedTuple

from dlkt.formulas import formula, text
from dlkt.program import INPUT_REFUSED, Refused, answer, complaint_of, has_report, one_line, put_at, read_bytes
from dlkt.search.context import Search, hide_programs
from dlkt.search.kernel import Failed, Goal, Several
from dlkt.search.writing import branch, comment, quoted, seq
from dlkt.terms import readable
from dlkt.trees import Tree


class Lemma(NamedTuple):
    """A lemma: its folder, the pairs of its substitution, the formula that it says then, and its term."""

    folder: Path
    pairs: str
    formula: Tree
    term: str


def lemma_of(search: Search, folder: Path, pairs: Sequence[str]) -> Lemma:
    """The lemma of a folder with these pairs. Refused where it can't be proved, or has no such instance."""
    program, said = search.kernel.program, ",".join(pairs)
    for name in ("model", "strategy"):
        if not (folder / name).is_file():
            raise Refused(f"the lemma {folder}: there is no file {name}")
    with tempfile.TemporaryDirectory() as place:
        term, given = Path(place) / "term", Path(place) / "pairs"
        proof = answer(program, "prove", folder / "model", folder / "strategy", term)
        if proof.status != 0:
            raise Refused(f"the lemma {folder} isn't proved: {one_line(proof.text.splitlines()[0] if proof.text else complaint_of(proof))}")
        given.write_text(said, encoding="latin-1")
        instance = answer(program, "subst", folder / "model", given)
        if instance.status != 0:
            raise Refused(f"the lemma {folder}: {said}: {one_line(complaint_of(instance))}")
        lines = readable(term.read_bytes())
    return Lemma(folder, said, formula(instance.text.strip()), with_pairs(lines, said))


def with_pairs(lines: str, pairs: str) -> str:
    """A term, whose last line says the lemma, with the instance behind it."""
    if not pairs:
        return lines
    *steps, end = lines.rstrip("\n").split("\n")
    last = int(steps[-1].split(" ", 1)[0])
    return "\n".join([*steps, f"{last + 1} subst {last} {pairs}", end]) + "\n"


def lemma_text(search: Search, goal: Goal, lemma: Lemma) -> str:
    """The words that use a lemma: its instance is cut in, what it assumes is shown, and its proof is left as a goal."""
    here = Goal((*goal.left, lemma.formula), goal.right)
    said = comment(f"by the lemma in {lemma.folder}, whose proof is linked at the goal that is left")
    return f"{said}\n" + seq(f"cut({quoted(lemma.formula)})", branch(used(search, here, lemma.formula), "coHideR(2)"))


def used(search: Search, goal: Goal, lemma: Tree) -> str:
    """The words that use a lemma on the left: what it assumes is shown, and it closes the goal where it says what is asked for."""
    if lemma is goal.right:
        return "close"
    if lemma.word != "imply":
        return "nil"
    place = goal.left.index(lemma) + 1
    first, second = search.kernel.apply(goal, f"implyL(-{place})")
    assumed, rest = lemma.kids
    sides = first.right if isinstance(first, Several) else (first.right,)
    if not isinstance(second, Goal) or rest not in second.left or assumed not in sides:
        raise Failed("the lemma doesn't come apart")
    start = shown(search, Goal(first.left, assumed), sides.index(assumed) + 1)
    return seq(f"implyL(-{place})", branch(start, used(search, second, rest)))


def shown(search: Search, goal: Goal, place: int) -> str:
    """The proof of what a lemma assumes, which stands on the right at a place, beside another formula."""
    if goal.right in goal.left:
        return "close"
    words, plain = hide_programs(goal)
    found = search.prove(plain)
    if found is None:
        raise Failed(f"what the lemma assumes isn't shown: {text(goal.right)}")
    return seq(f"coHideR({place})" if not plain.left else f"hideR({3 - place})", *words, found)


def linked(program: str, model: str | Path, strategy: str, lemmas: Sequence[Lemma], target: str | Path) -> None:
    """Writes the term of a strategy with the terms of its lemmas in it. Refused where the program takes one of them not."""
    with tempfile.TemporaryDirectory() as place:
        folder = Path(place)
        here, new = folder / "term", folder / "linked"
        (folder / "strategy").write_text(strategy + "\n", encoding="latin-1")
        said = answer(program, "prove", model, folder / "strategy", here)
        if not has_report(said):
            raise Refused(one_line(complaint_of(said)))
        for lemma in {one.formula: one for one in lemmas}.values():
            (folder / "lemma").write_text(lemma.term, encoding="latin-1")
            said = answer(program, "link", model, here, folder / "lemma", new)
            if said.status == INPUT_REFUSED or not has_report(said):
                raise Refused(f"the lemma {lemma.folder} can't be linked: {one_line(complaint_of(said))}")
            here, new = new, here
        put_at(read_bytes(here), target)
