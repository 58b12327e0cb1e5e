"""A plain reading of what docs/FILES.md says of `link` and `trim`, over terms as dlkt.terms reads them: for comparison with the program, with which it
shares no code. It works on steps that are taken: whether they are is for the program to say.
"""

import sys
from pathlib import Path

sys.path.insert(0, str(Path(__file__).resolve().parent.parent / "src"))
from dlkt import terms  # noqa: E402  (behind the path)
from dlkt import reader  # noqa: E402
from dlkt.terms import Step, Term  # noqa: E402
from dlkt.trees import Trees  # noqa: E402

# Where the numbers of facts stand among the parts of a step behind its word.
FACTS = {"apply": (0,), "merge": (0, 2), "subst": (0,), "rename": (0,)}


def facts_of(step):
    """The facts that a step names."""
    parts = step.rest.split(" ")
    return [int(parts[place]) for place in FACTS.get(step.word, ())]


def renumbered(step, number, new):
    """The step with this number, and with new numbers for its facts."""
    parts = step.rest.split(" ")
    for place in FACTS.get(step.word, ()):
        parts[place] = str(new(int(parts[place])))
    return step._replace(number=number, rest=" ".join(parts))


def same_trees(steps, trees):
    """The steps over trees of one table, so that equal trees are one: each is read again from its text."""
    lines = "".join(f"{terms.line_in_full(step)}\n" for step in steps)
    made = []
    for line in lines.split("\n")[:-1]:
        readers = terms.Readers(lambda rest: reader.sequent(rest, trees), lambda rest: reader.pairs(rest, trees), lambda rest: reader.formula(rest, trees))
        made.append(terms.step_of(len(made) + 1, line, readers))
    return made


def key_of(step):
    """What two equal steps have in common."""
    return step.word, step.rest, tuple(map(id, terms.trees_in(step))), terms.line_in_full(step).split(" ", 1)[1]


def trimmed(steps):
    """The steps that the last one needs, each once."""
    steps = same_trees(steps, Trees())
    needed = {len(steps)}
    for step in reversed(steps):
        if step.number in needed:
            needed.update(facts_of(step))
    kept, numbers, known = [], {}, {}
    for step in steps:
        if step.number not in needed:
            continue
        new = renumbered(step, len(kept) + 1, numbers.__getitem__)
        key = key_of(new)
        if key not in known:
            known[key] = new.number
            kept.append(new)
        numbers[step.number] = known[key]
    return kept


def linked(term, lemma, goals, conclusion):
    """The steps of a term and of a lemma, and merges at the goals that are the lemma's conclusion. These are the texts of the term's last goals and of that
    conclusion, as the program prints them."""
    count, more = len(term), len(lemma)
    steps = [*term, *(renumbered(step, step.number + count, lambda fact: fact + count) for step in lemma)]
    main = count
    for goal in reversed([number for number, text in enumerate(goals, 1) if text == conclusion]):
        steps.append(Step(len(steps) + 1, 0, "merge", f"{main} {goal} {count + more}"))
        main = len(steps)
    return same_trees(steps, Trees())


def written(steps):
    """The file of version 2 of these steps."""
    return terms.in_version_2(Term(2, steps, None))
