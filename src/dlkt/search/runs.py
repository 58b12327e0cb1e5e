"""Diamonds by a run: a way through the program, with loops of up to three rounds, is guessed and simulated with terms.

The times of systems and the values of `x:=*` are terms from the borders of domains, tests and the post. The dual of the diamond is a box on the
left, which `iterateb`, `choiceb` and `composeb` cut down to that way, and which is refuted from outside on: assignments by `assignb`, tests by
`testb`, any value by an instance, a system with one equation of constant slope by its solution `DS` (Platzer, J. Autom. Reason. 2017).
"""

from collections.abc import Iterator
from itertools import islice
from typing import NamedTuple

from dlkt.formulas import (
    NotPolynomial, ONE, TRUE, ZERO, Polynomial, bound, division, free, is_arithmetic, make, normal_form, number, polynomial, substituted, subtracted, term_of,
    text, unique, variable,
)
from dlkt.search.context import OutOfWork, Search
from dlkt.search.kernel import Failed, Goal
from dlkt.search.solver import SECOND
from dlkt.search.writing import branch, quoted, remark, seq
from dlkt.trees import Tree

MOST_ROUNDS, MOST_WAYS, MOST_TRIES, MOST_INNER = 3, 300, 400, 12
BUDGET = 20.0

Turn = tuple[str, Tree | int | None]  # `seq`, `pick` with a side, `stop` and `go` of a loop, `do` with a program
Terms = list[Tree | None]  # the time or the value of each step, where it has one


def ways(program: Tree) -> Iterator[list[Turn]]:
    """The ways through a program, lists of what is done in turn; the loops' rounds are counted up."""
    if program.word == "seq":
        for first in ways(program.kids[0]):
            for second in ways(program.kids[1]):
                yield [("seq", None), *first, *second]
    elif program.word == "choice":
        for side in (0, 1):
            for one in ways(program.kids[side]):
                yield [("pick", side), *one]
    elif program.word == "loop":
        rounds: list[list[Turn]] = [[("stop", None)]]
        yield rounds[0]
        for _ in range(MOST_ROUNDS):
            rounds = [[("go", None), *one, *more] for one in islice(ways(program.kids[0]), MOST_INNER) for more in rounds]
            yield from rounds[:MOST_WAYS]
    else:
        yield [("do", program)]


def steps_of(way: list[Turn]) -> list[Tree]:
    """The programs that a way runs."""
    return [what for kind, what in way if kind == "do" and isinstance(what, Tree)]


def atoms_of(tree: Tree) -> list[Tree]:
    """The comparisons in a formula but `!=`."""
    if tree.word in ("ge", "gt", "le", "lt", "eq"):
        return [tree]
    return [one for kid in tree.kids if kid.sort == "formula" for one in atoms_of(kid)]


def borders(name: str, atoms: list[Tree]) -> list[Tree]:
    """Where comparisons turn, as terms for a variable: b of x<=b; and beside it for strict ones."""
    found = []
    for one in atoms:
        if one.word not in ("ge", "gt", "le", "lt", "eq") or name not in free(one):
            continue
        try:
            whole = polynomial(subtracted(*one.kids))
        except NotPolynomial:
            continue
        value = root_of(whole, name)
        if value is not None:
            found.append(value)
            if one.word in ("gt", "lt"):
                found += [make("add", "", value, ONE), make("sub", "", value, ONE)]
    return unique(found)


def root_of(whole: Polynomial, name: str) -> Tree | None:
    """Where a polynomial that is linear in a variable is 0."""
    inner = {key: value for key, value in whole.items() if any(other == name for other, _ in key)}
    if any(dict(key)[name] != 1 for key in inner):
        return None
    factor = {tuple((other, power) for other, power in key if other != name): value for key, value in inner.items()}
    rest = {key: -value for key, value in whole.items() if key not in inner}
    if set(factor) == {()} and abs(factor[()]) == 1:
        return term_of({key: value * factor[()] for key, value in rest.items()})
    return make("div", "", term_of(rest), term_of(factor))


def looked_ahead(rest: list[Tree], post: Tree) -> list[Tree]:
    """The comparisons that come, in terms of the values behind this step."""
    ahead = atoms_of(normal_form(post))
    for step in reversed(rest):
        if step.word == "assign":
            ahead = [substituted(one, {step.detail: step.kids[0]}) for one in ahead]
        elif step.word in ("test", "system"):
            ahead = atoms_of(normal_form(step.kids[-1])) + ahead
    return ahead


def domain_along(domain: Tree, name: str, rate: Tree, time: Tree, now: Tree, values: dict[str, Tree]) -> Tree:
    """That a domain holds while a variable runs with a constant slope for a time."""
    passed = variable("within")
    here = make("add", "", now, make("mul", "", rate, passed))
    span = make("and", "", make("ge", "", passed, ZERO), make("le", "", passed, time))
    return make("forall", "within", make("imply", "", span, substituted(domain, values | {name: here})))


class Simulation:
    """A run with terms: from what is known on the left to a post."""

    def __init__(self, search: Search, left: list[Tree], post: Tree) -> None:
        self.search, self.left, self.post, self.tries = search, left, post, MOST_TRIES

    def run(self, steps: list[Tree], values: dict[str, Tree]) -> Terms | None:
        """Terms for the times and values along the steps, so that all tests and the post hold; none where none are found."""
        self.tries -= 1
        self.search.tick()
        if self.tries < 0:
            return None
        if not steps:
            return [] if self.holds(substituted(self.post, values), 2.0) else None
        step, rest = steps[0], steps[1:]
        if step.word == "assign":
            return self.then(None, rest, values | {step.detail: substituted(step.kids[0], values)})
        if step.word == "test":
            holds = is_arithmetic(step.kids[0]) and self.holds(substituted(step.kids[0], values), 1.0)
            return self.then(None, rest, values) if holds else None
        if step.word == "any":
            return self.any_value(step.detail, rest, values)
        return self.evolution(step, rest, values) if step.word == "system" and len(step.kids) == 2 else None

    def holds(self, formula: Tree, seconds: float) -> bool:
        """Whether a formula follows from what is known."""
        return self.search.solver.holds(self.left, formula, seconds)

    def then(self, term: Tree | None, rest: list[Tree], values: dict[str, Tree]) -> Terms | None:
        """A step with this term, and what comes."""
        found = self.run(rest, values)
        return None if found is None else [term, *found]

    def any_value(self, name: str, rest: list[Tree], values: dict[str, Tree]) -> Terms | None:
        """Some value that does."""
        if any(name in bound(step) for step in rest):
            return None
        for value in [*borders(name, looked_ahead(rest, self.post)), ZERO, ONE]:
            value = substituted(value, values)
            found = self.then(value, rest, values | {name: value})
            if found is not None:
                return found
        return None

    def evolution(self, step: Tree, rest: list[Tree], values: dict[str, Tree]) -> Terms | None:
        """Some time that does."""
        name, (rise, domain) = step.detail[:-1], step.kids
        if name in free(rise) or any(name in bound(one) for one in rest) or not is_arithmetic(domain):
            return None
        now, rate = values.get(name, variable(name)), substituted(rise, values)
        ends = [substituted(one, values) for one in borders(name, [*atoms_of(domain), *looked_ahead(rest, self.post)])]
        for time in [*unique(division(subtracted(end, now), rate) for end in ends), ZERO]:
            if not self.holds(make("ge", "", time, ZERO), 1.0):
                continue
            if domain is not TRUE and not self.holds(domain_along(domain, name, rate, time, now, values), 2.0):
                continue
            found = self.then(time, rest, values | {name: make("add", "", now, make("mul", "", rate, time))})
            if found is not None:
                return found
        return None


def cut_down(formula: Tree, way: list[Turn], place: int) -> str:
    """Words that close `A, [a]Q ==> [s1]..[sk]Q` for a way through a, where the box is the last of so many formulas on the left."""
    words = []
    for turn, (kind, what) in enumerate(way):
        program, post = formula.kids
        if kind == "seq":
            words.append(f"useAt(composeb,-{place})")
            formula = make("box", "", program.kids[0], make("box", "", program.kids[1], post))
        elif kind == "pick":
            assert isinstance(what, int)
            words.append(seq(f"useAt(choiceb,-{place})", f"andL(-{place})", f"hideL(-{place + 1 - what})"))
            formula = make("box", "", program.kids[what], post)
        elif kind in ("stop", "go"):
            words.append(seq(f"useAt(iterateb,-{place})", f"andL(-{place})", f"hideL(-{place + 1 if kind == 'stop' else place})"))
            formula = post if kind == "stop" else make("box", "", program.kids[0], make("box", "", program, post))
        else:
            return seq(*words, f"boxCut({quoted(post)},1)", branch("close", cut_down(post, way[turn + 1:], 1)))
    return seq(*words, "close")


def refuted(steps: list[Tree], terms: Terms, place: int) -> str:
    """Words that close `A, [s1]..[sk]!P ==>`, where the box is the last of so many formulas on the left."""
    if not steps:
        return seq(f"notL(-{place})", "leaf")
    step, term, rest = steps[0], terms[0], refuted(steps[1:], terms[1:], place)
    if step.word == "assign":
        return seq(f"useAt(assignb,-{place})", rest)
    if step.word == "test":
        return seq(f"useAt(testb,-{place})", f"implyL(-{place})", branch("leaf", rest))
    assert term is not None
    if step.word == "any":
        return seq(f"useAt(randomb,-{place})", f'useAt(allinst,-{place},"f()~>{text(term)}")', rest)
    return seq(at_time(place, term), branch("leaf", seq(f"implyL(-{place})", branch("leaf", rest))))


def at_time(place: int, time: Tree) -> str:
    """Words that take a box with one equation on the left at a time: by `DS`; goals are left for the time and for the rest."""
    return seq(f"useAt(DS,-{place})", f"useAt(assignb,-{place}.0.1.1)", f'useAt(allinst,-{place},"f()~>{text(time)}")', f"implyL(-{place})")


def run_said(steps: list[Tree], terms: Terms) -> str:
    """A run in words."""
    said = []
    for step, term in zip(steps, terms):
        how = "" if term is None else f" for {text(term)}" if step.word == "system" else f" as {text(term)}"
        said.append(text(step) + how)
    return "a run: " + ", ".join(said)


class Wanted(NamedTuple):
    """A diamond: how it is brought to the left, its program and its post."""

    begin: str
    program: Tree
    post: Tree


def wanted_of(right: Tree) -> Wanted:
    """The diamond on the right, or the box with a negation behind it that is denied."""
    if right.word == "not" and right.kids[0].kids[1].word == "not":
        return Wanted("notR(1)", right.kids[0].kids[0], right.kids[0].kids[1].kids[0])
    return Wanted("step(1); notR(1)", *right.kids)


def by_run(search: Search, goal: Goal) -> str | None:
    """A diamond on the right by a run: a text or none."""
    if goal.right.word == "not" and goal.right.kids[0].kids[1].word != "not":
        return None
    wanted = wanted_of(goal.right)
    if not is_arithmetic(wanted.post) or not all(map(is_arithmetic, goal.left)):
        return None
    search.activity = "a run"
    before, search.limit = search.limit, min(search.limit, search.work() + BUDGET * SECOND)
    try:
        return among_ways(search, goal, wanted)
    except OutOfWork:
        if search.work() > before:
            raise
        return None
    finally:
        search.limit = before


def among_ways(search: Search, goal: Goal, wanted: Wanted) -> str | None:
    """The first way, those of the fewest steps first, along which a run is found and proved."""
    simulation = Simulation(search, list(goal.left), wanted.post)
    for way in sorted(islice(ways(wanted.program), MOST_WAYS), key=lambda one: len(steps_of(one))):
        steps = steps_of(way)
        terms = simulation.run(steps, {})
        if terms is not None:
            found = written(search, goal, wanted, way, terms)
            if found:
                return found
    search.because("run", goal, "no run is found whose times are terms from the borders of domains, tests and the post")
    return None


def written(search: Search, goal: Goal, wanted: Wanted, way: list[Turn], terms: Terms) -> str | None:
    """The proof by a run: a text, or none where the program refuses it."""
    steps, place = steps_of(way), len(goal.left) + 1
    denied = make("not", "", wanted.post)
    straight = denied
    for step in reversed(steps):
        straight = make("box", "", step, straight)
    problem = ""
    for from_inside in (False, True):  # assignments from outside on, or from inside on where a name is assigned again
        if from_inside and any(step.word in ("system", "any") for step in steps):
            break
        rest = seq(*(f"step(-{place}{'.1' * depth})" for depth in reversed(range(len(steps)))), "leaf") if from_inside else refuted(steps, terms, place)
        if len(steps) > 1 or any(term is not None for term in terms):
            rest = remark(run_said(steps, terms), rest)
        if len(way) > len(steps):
            whole = make("box", "", wanted.program, denied)
            rest = seq(f"cut({quoted(straight)})", branch(seq(f"hideL(-{place})", rest), cut_down(whole, way, place)))
        out = seq(wanted.begin, rest)
        try:
            if not search.kernel.apply(goal, out):
                return out
        except Failed as why:
            problem = str(why)
    search.because("run", goal, f"a run is there, but the program refuses its proof ({problem}): {run_said(steps, terms)}")
    return None


def by_time(search: Search, goal: Goal) -> str | None:
    """A diamond with one equation of constant slope: at 0, or where the post turns, or a unit behind that. A text or none."""
    program, post = goal.right.kids
    if len(program.kids) != 2 or post.word not in ("ge", "le", "gt", "lt", "eq") or program.detail[:-1] in free(program.kids[0]):
        return None
    name, rise = program.detail[:-1], program.kids[0]
    place, ends = len(goal.left) + 1, []
    for one, other in (post.kids, post.kids[::-1]):
        if one is variable(name) and name not in free(other):
            gap = subtracted(other, one)
            beyond = make("add", "", make("pow", "", gap, number(2)), ONE)  # further than the gap, whichever sign that has
            ends += [make("div", "", end, rise) for end in (gap, make("add", "", gap, ONE), beyond, make("neg", "", beyond))]
    for time in [ZERO, *ends]:
        words = seq("step(1)", "notR(1)", f"useAt(DS,-{place})", f"useAt(assignb,-{place}.0.1.1)", f'useAt(allinst,-{place},"f()~>{text(time)}")')
        try:
            found = search.kernel.apply(goal, words)[0]
        except Failed:
            continue
        right = (found.right,) if isinstance(found, Goal) else found.right
        if all(map(is_arithmetic, (*found.left, *right))) and search.solver.holds(found.left, right[0] if right else make("false"), 5.0):
            return seq(words, "leaf")
    search.because("time", goal, "no time is found at which the post holds")
    return None
