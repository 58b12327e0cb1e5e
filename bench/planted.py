"""Axioms with one place changed, for bench/soundness.py: whether a random instance shows that they aren't valid. The program has no part in it."""

from __future__ import annotations

import random

from dlkt.semantics import deciding, syntax
from dlkt.semantics.deciding import Verdict
from dlkt.trees import Tree
from instances import Pairing, Texts
from rows import TREES, Replacing, may_capture, read_in, symbols

TRIES, MILLISECONDS, MOST_DRAWN = 16, 300, 60
OTHERS = {
    "eq": ["ne", "le"], "ne": ["eq"], "ge": ["gt", "le"], "gt": ["ge", "lt"], "le": ["lt", "ge"], "lt": ["le", "gt"], "and": ["or"], "or": ["and"],
    "box": ["dia"], "dia": ["box"], "forall": ["exists"], "exists": ["forall"], "add": ["sub"], "sub": ["add"], "mul": ["add"], "div": ["mul"],
    "choice": ["seq"], "seq": ["choice"],
}
TURNED = ("imply", "sub", "div", "pow", "seq", "box")


def changes_here(tree: Tree, names: list[str]) -> list[Tree]:
    """A tree with its top changed."""
    found = [TREES.make(word, tree.detail, *tree.kids) for word in OTHERS.get(tree.word, [])]
    if tree.word in ("imply", "sub", "div", "pow", "seq"):
        found.append(TREES.make(tree.word, tree.detail, *tree.kids[::-1]))
    if tree.word in ("not", "neg", "diff", "difff", "loop"):
        found.append(tree.kids[0])
    if tree.word == "var":
        found += [TREES.make("var", name) for name in names if name != tree.detail]
    if tree.word == "num":
        found += [TREES.make("num", number) for number in ("0", "1", "2") if number != tree.detail]
    if tree.word == "equiv":  # one of its directions with a side denied
        found.append(TREES.make("equiv", "", TREES.make("not", "", tree.kids[0]), tree.kids[1]))
    if tree.word == "system" and tree.kids[-1].word != "true":
        found.append(TREES.make("system", tree.detail, *tree.kids[:-1], TREES.make("true")))
    return found


def changes_within(tree: Tree, names: list[str]) -> list[Tree]:
    """A tree with one place changed."""
    found = changes_here(tree, names)
    for place, kid in enumerate(tree.kids):
        for changed in changes_within(kid, names):
            found.append(TREES.make(tree.word, tree.detail, *tree.kids[:place], changed, *tree.kids[place + 1:]))
    return found


def changes_of(axiom: Tree) -> list[Tree]:
    """An axiom with one place changed, in all ways."""
    return [changed for changed in dict.fromkeys(changes_within(axiom, sorted(read_in(axiom)))) if changed is not axiom]


def caught(name: str, changed: Tree, rng: random.Random) -> bool:
    """Whether a random instance of a changed axiom is invalid."""
    tries = 0
    for _ in range(MOST_DRAWN):
        pairs = Pairing(name, Texts(rng)).text(symbols(changed))
        if may_capture([changed], pairs):
            continue
        tries += 1
        try:
            instance = Replacing(pairs).tree(changed)
            if deciding.decided(instance, MILLISECONDS).verdict == Verdict.INVALID:
                return True
        except syntax.Unsupported:
            pass
        if tries == TRIES:
            break
    return False
