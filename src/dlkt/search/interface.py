"""An interface between a controller and its plant: of [c;d]J a formula R with [c]R and R -> [d]J.

The ways through c don't multiply the proof of d then. R is made choice by choice of what all ways leave (strongest postconditions, joined), and is
cut down to what d needs: what held before, the tests, the tests with the variable for the term that it was set to (x+V()*ep()<=S() with v:=V()
gives x+v*ep()<=S(), the weakest condition), bounds by the values, and signs (Dijkstra, A discipline of programming, 1976; Bohrer, Luo, Chuang,
Platzer, CoasterX: a case study in component-driven hybrid systems proof automation, ADHS 2018, for the cut between controller and plant).
"""

from typing import NamedTuple

from dlkt.formulas import (
    NotPolynomial, TRUE, ZERO, conjunction, conjuncts, disjunction, free, free_of_all, is_arithmetic, make, normal_form, put_for, substituted, unique,
    variable,
)
from dlkt.search.context import Search, fresh
from dlkt.search.kernel import Failed, Goal
from dlkt.search.writing import branch, comment, quoted, seq, times
from dlkt.trees import Tree

FEW_WAYS, MANY_WAYS, MOST_WAYS, MOST_CLASSES = 8, 32, 300, 4


class Way(NamedTuple):
    """A way through a program without systems and loops: what is assigned in terms of the state before, its tests likewise, and as written."""

    values: dict[str, Tree]
    tests: tuple[Tree, ...]
    written: tuple[Tree, ...]


class Stage(NamedTuple):
    """A choice: the words up to it, the goal there, the program, its ways, and what holds behind all of them."""

    words: list[str]
    goal: Goal
    program: Tree
    ways: list[Way]
    kept: list[Tree]


def ways_count(program: Tree) -> int:
    """How many ways lead through a program."""
    if program.word == "choice":
        return ways_count(program.kids[0]) + ways_count(program.kids[1])
    if program.word == "seq":
        return ways_count(program.kids[0]) * ways_count(program.kids[1])
    return 1


def has_system(tree: Tree) -> bool:
    """Whether there is a system, a loop or a constant in a program."""
    return tree.word in ("system", "loop", "const") or any(has_system(kid) for kid in tree.kids if kid.sort != "term")


def ways_of(program: Tree, before: list[Way] | None = None) -> list[Way]:
    """The ways through a program."""
    states = [Way({}, (), ())] if before is None else before
    if program.word == "seq":
        return ways_of(program.kids[1], ways_of(program.kids[0], states))
    if program.word == "choice":
        return ways_of(program.kids[0], states) + ways_of(program.kids[1], states)
    found = []
    for values, tests, written in states:
        if program.word == "assign":
            values = values | {program.detail: substituted(program.kids[0], values)}
        elif program.word == "any":
            values = values | {program.detail: variable(f"any{len(tests)}of{program.detail}")}
        elif program.word == "test":
            tests, written = (*tests, substituted(program.kids[0], values)), (*written, program.kids[0])
        else:
            raise NotPolynomial
        found.append(Way(values, tests, written))
    return found


def candidates_after(ways: list[Way], before: list[Tree], post: Tree) -> list[Tree]:
    """What may hold behind all ways."""
    found = list(before) + conjuncts(post)
    assigned = list(dict.fromkeys(name for way in ways for name in way.values))
    for way in ways:
        for part in (part for test in way.written if is_arithmetic(test) for part in conjuncts(normal_form(test))):
            found.append(part)
            found += [put_for(part, term, variable(name)) for name, term in way.values.items()
                      if term.word in ("app", "num") and not term.kids and term is not ZERO]
    for name in assigned:
        for value in unique(way.values[name] for way in ways if name in way.values):
            if not free(value) & frozenset(assigned):
                found += [make(word, "", variable(name), value) for word in ("eq", "ge", "le")]
        found += [make(word, "", variable(name), ZERO) for word in ("ge", "le")]
    return unique(one for one in found if is_arithmetic(one) and one is not TRUE)


def holds_after(search: Search, ways: list[Way], before: list[Tree], formula: Tree, seconds: float = 0.5) -> bool:
    """Whether a formula holds behind all ways from these facts."""
    for way in ways:
        target = substituted(formula, way.values)
        if target not in before and target not in way.tests:
            if not search.solver.holds([*before, *filter(is_arithmetic, way.tests)], target, seconds):
                return False
    return True


def classes(ways: list[Way], read: frozenset[str]) -> list[Tree]:
    """The ways as formulas over what is read later: what is set, and the tests of what isn't set; alike ways once."""
    found = []
    for way in ways:
        parts = [make("eq", "", variable(name), term) for name, term in way.values.items()
                 if name in read and not term.detail.startswith("any") and not free(term) & way.values.keys()]
        parts += [part for test in way.written if is_arithmetic(test) for part in conjuncts(test) if free(part) <= read]
        found.append(conjunction(unique(parts)))
    return unique(found)


def steps_text(names: list[str]) -> str:
    """The words that take a choice apart and close each way."""
    return "(" + " | ".join(["close", "leaf", "step(1)", "andR(1)", "implyR(1)", "skolemR(1)", *(f"boundR({name},1)" for name in names)]) + ")*60"


def any_names(program: Tree) -> list[str]:
    """The variables that are set to any value."""
    return [program.detail] if program.word == "any" else [name for kid in program.kids if kid.sort != "term" for name in any_names(kid)]


def plant_of(goal: Goal) -> Tree:
    """What is asked for behind the plant; `true` where that isn't arithmetic."""
    post = goal.right
    while post.word == "box":
        post = post.kids[1]
    return post if is_arithmetic(post) else TRUE


def kept_after(search: Search, ways: list[Way], goal: Goal, rest: Tree, after: Tree) -> list[Tree]:
    """What holds behind all ways and may be of use for the rest."""
    before = [one for one in goal.left if is_arithmetic(one)]
    read = free(rest)
    kept = []
    for part in candidates_after(ways, before, after):
        search.tick()
        if all(name in read or name.endswith("()") for name in free(part)) and holds_after(search, ways, before, part):
            kept.append(part)
    kept = reduced(search, kept, before)
    kinds = classes(ways, read)
    if 1 < len(kinds) <= MOST_CLASSES and TRUE not in kinds:
        joined = disjunction(kinds)
        if not search.solver.holds(kept, joined, 0.5) and holds_after(search, ways, before, joined):
            kept.append(joined)
    return kept


def reduced(search: Search, kept: list[Tree], before: list[Tree]) -> list[Tree]:
    """Without what follows from the others together, the weaker ones first."""
    out = list(kept)
    for part in reversed(kept):
        if part not in before:
            rest = [one for one in out if one is not part]
            if search.solver.holds(rest, part, 0.3):
                out = rest
    return out


def stages_of(search: Search, goal: Goal, after: Tree) -> tuple[list[Stage], list[str], Goal] | None:
    """The choices in front of the plant, the words behind the last of them, and the goal behind it; none where there is no interface."""
    stages: list[Stage] = []
    here, last, words = goal, goal, []
    while here.right.word == "box" and not (here.right.kids[0].word != "seq" and has_system(here.right.kids[0])):
        search.tick()
        program, rest = here.right.kids
        if program.word == "seq":
            here = search.kernel.goal(here, "step(1)")
            words.append("step(1)")
            continue
        if program.word != "choice" or ways_count(program) < 2:
            step, here = one_step(search, here)
            words.append(step)
            continue
        ways = ways_of(program)
        kept = kept_after(search, ways, here, rest, after) if len(ways) <= MOST_WAYS else []
        if not kept:
            return None
        stages.append(Stage(words, here, program, ways, kept))
        words = []
        here = last = Goal(tuple(kept), rest)
    return (stages, words, last) if stages else None


def by_interface(search: Search, goal: Goal) -> str | None:
    """Cuts between the parts of a controller, each choice for itself, and the plant: a text or none."""
    if goal.right.word != "box" or goal.right.kids[0].word != "seq" or not all(map(is_arithmetic, goal.left)):
        return None
    count = ways_count(goal.right.kids[0])
    if count < FEW_WAYS:
        return None
    search.activity = f"an interface behind {count} ways"
    after = plant_of(goal)
    try:
        found = stages_of(search, goal, after)
    except (Failed, NotPolynomial):
        return None
    if found is None:
        return None
    stages, words, last = found
    needed, inner = plant_from(search, stages[-1].kept, words, last, count)
    if inner is None:
        search.because("interface", goal, f"the plant isn't proved from what holds behind all ways: {', '.join(quoted(one) for one in needed)}")
        return None
    needed, inner = least_for(search, needed, inner, words, last, after)
    out = put_together(search, goal, stages, needed, seq(*words, inner))
    return out if out and search.kernel.closes(goal, out) else None


def plant_from(search: Search, kept: list[Tree], words: list[str], last: Goal, count: int) -> tuple[list[Tree], str | None]:
    """The facts from which the plant is proved, and the proof: first without the joined ways, which the proof would take apart again."""
    joined = [part for part in kept if part.word == "or"]
    if joined and len(kept) > len(joined):
        plain = [part for part in kept if part not in joined]
        inner = behind(search, last, words, plain, 20)
        if inner:
            return plain, inner
    return kept, behind(search, last, words, kept, 40) if not joined or count >= MANY_WAYS else None


def least_for(search: Search, needed: list[Tree], inner: str, words: list[str], last: Goal, after: Tree) -> tuple[list[Tree], str]:
    """What the proof of the plant can do without is left out, as long as that takes no more than a while."""
    end = search.work() + 12 * 400_000
    for part in sorted(needed, key=lambda one: (one.word != "or", one in conjuncts(after), -len(free(one)))):
        if search.work() > end or len(needed) == 1:
            break
        fewer = [one for one in needed if one is not part]
        shorter = behind(search, last, words, fewer, 4)
        if shorter is not None and shorter.count("\n") <= inner.count("\n"):
            needed, inner = fewer, shorter
    return needed, inner


def put_together(search: Search, goal: Goal, stages: list[Stage], needed: list[Tree], out: str) -> str | None:
    """The cuts of all stages, the last one first; of each what the next one needs."""
    target = needed
    for stage in reversed(stages):
        left = [one for one in stage.goal.left if is_arithmetic(one)]
        taken = search.names(goal) | {"x"}
        names: list[str] = []
        for name in dict.fromkeys(any_names(stage.program)):
            names.append(fresh(name, taken))
            taken.add(names[-1])
        whole, steps = conjunction(target), steps_text(names)
        if not search.kernel.closes(Goal(stage.goal.left, make("box", "", stage.program, whole)), steps):
            return None
        said = comment(f"what comes needs this, and each of {len(stage.ways)} ways leaves it")
        out = seq(*stage.words, f"boxCut({quoted(whole)},1)", branch(f"{said}\n{steps}", seq(times("andL('L)", len(target) - 1), out)))
        chosen = list(left)
        for part in reversed(left):
            fewer = [one for one in chosen if one is not part]
            if all(holds_after(search, stage.ways, fewer, one) for one in target):
                chosen = fewer
        target = chosen
    return out


def behind(search: Search, last: Goal, words: list[str], facts: list[Tree], seconds: float) -> str | None:
    """The proof of what comes behind the last cut, from these facts, or none."""
    goal = Goal(tuple(facts), last.right)
    try:
        goal = search.kernel.goal(goal, seq(*words)) if words else goal
    except Failed:
        return None
    return search.within(seconds, lambda: search.prove(goal))


def one_step(search: Search, goal: Goal) -> tuple[str, Goal]:
    """A step of a program with one way: its words and the goal."""
    words, here = ["step(1)"], search.kernel.goal(goal, "step(1)")
    while here.right.word in ("forall", "imply"):
        if here.right.word == "imply":
            word = "implyR(1)"
        elif here.right.detail in free_of_all(here.left):
            word = f"boundR({fresh(here.right.detail, search.names(goal))},1); skolemR(1)"
        else:
            word = "skolemR(1)"
        here = search.kernel.goal(here, word)
        words.append(word)
    return seq(*words), here
