"""Texts of dlk from trees: the model with its annotations. What is written is read back, and must be the same tree with the same annotations."""

from dlkt import layout
from dlkt.reader import Note, Wrong, model
from dlkt.trees import BRACKETS, ROWS, Tree, Trees, is_small, text

from .tree import Node, Place, Refused, items

TREES = Trees()


def row_of(tree: Node) -> tuple[str, str]:
    """The word and the detail of a tree in dlk."""
    if tree.word == "dassign":
        return "assign", f"{tree.detail}'"
    return ("app", "old") if tree.word == "old" else (tree.word, tree.detail)


def dlk_tree(tree: Node, trees: Trees = TREES) -> Tree:
    """The tree of dlkt."""
    word, detail = row_of(tree)
    return trees.make(word, detail, *(dlk_tree(kid, trees) for kid in tree.kids))


def said(tree: Node, least: int = 0) -> str:
    """The text of a tree with its annotations, in brackets where its operator is below a level."""
    word, detail = row_of(tree)
    row = ROWS[word]
    if word == "system":
        inside = system_said(tree)
    else:
        inside = row.between.join(said(kid, row.later if place else row.first) for place, kid in enumerate(tree.kids))
    if row.detail == "unit":
        name, bar, taboo = detail.partition("|")
        detail = f"{name}(|{taboo})" if bar else f"{name}(||)"
    found = row.opening.format(detail) + inside + row.closing
    if tree.notes:
        found += f"@invariant({', '.join(map(said, tree.notes))})"
    if row.level < least:
        brackets = BRACKETS[row.sort]
        found = brackets[0] + found + brackets[1]
    return found


def system_said(tree: Node) -> str:
    """The text of a system between its braces."""
    terms = iter(tree.kids)
    parts = [f"{item}={said(next(terms))}" if item.endswith("'") else item for item in items(tree)]
    domain = tree.kids[-1]
    return ",".join(parts) + ("" if domain.word == "true" else f"&{said(domain)}")


def notes_of(tree: Node, trees: Trees = TREES) -> list[Note]:
    """Annotations in the order in which a reader meets their ends."""
    found: list[Note] = []
    for kid in tree.kids + tree.notes:
        found += notes_of(kid, trees)
    if tree.notes:
        found.append(Note(dlk_tree(tree, trees), tuple(dlk_tree(note, trees) for note in tree.notes)))
    return found


def refuse_other(written: str, tree: Node, place: Place) -> None:
    """Refuses a text that isn't read back as this tree with these annotations."""
    whole = dlk_tree(tree)
    try:
        again, notes = model(written, TREES)
    except Wrong as fault:
        raise Refused(place, f"a fault of this reader: what it writes isn't read at {written[fault.byte : fault.byte + 20]!r}") from None
    if again is not whole or notes != notes_of(tree) or text(again) != text(whole):
        raise Refused(place, "a fault of this reader: what it writes is read as something else")


def written_model(tree: Node, place: Place) -> str:
    """The text of a model. Refused where dlk has no room for it."""
    whole = dlk_tree(tree)
    if not is_small(whole):
        raise Refused(place, f"the model is too large for dlk ({whole.size} nodes, depth {whole.depth})")
    found = said(tree)
    refuse_other(found, tree, place)
    return found


def laid_out(tree: Node, place: Place) -> str:
    """The text of a model for people. It is read back, too; where it isn't the same, the text is that on one line."""
    try:
        found = layout.laid_out(dlk_tree(tree), notes_of(tree))
        refuse_other(found, tree, place)
        return found
    except (Refused, ValueError):
        return written_model(tree, place)
