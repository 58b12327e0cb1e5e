"""Formulas and programs as formulas of real numbers, by the definitions of their runs.

A box over a program is what holds at the ends of all its runs, a diamond what holds at the end of one. A system is solved by polynomials in time;
its domain is asked at both ends of what is a straight line in time, and else for all times between by a quantifier. A loop is exact where z3 shows
that some rounds reach all that one round more reaches; else it is unrolled, which gives a bound from above or from below, as the place of the
loop in the formula asks (its polarity).
"""

from __future__ import annotations

from typing import Callable, TypeAlias

from dlkt.semantics import polynomials, solver
from dlkt.semantics.polynomials import NoPolynomial
from dlkt.semantics.solver import Formula, Said, Term
from dlkt.semantics.syntax import Unsupported, differential, exponent, formula_differential, mentioned
from dlkt.semantics.systems import Poles, Solution, solved
from dlkt.semantics.values import TESTS, State, Value, compared
from dlkt.trees import Tree
from fractions import Fraction

Ending: TypeAlias = Callable[[State], Formula]
MOST_ROUNDS = 2  # after which a loop is looked at whether it reaches more
MILLISECONDS = 1000


class Meaning:
    """What trees mean. Loops are unrolled so many rounds where they aren't exact: then `is_exact` becomes false."""

    def __init__(self, rounds: int = 2, poles: Poles = Poles.REFUSED) -> None:
        self.rounds, self.poles, self.is_exact = rounds, poles, True
        self.enough: dict[Tree, int | None] = {}

    # Terms

    def term(self, term: Tree, state: State) -> Value:
        """The value of a term."""
        if term.word == "var":
            return state.get(term.detail)
        if term.word == "num":
            return Value.of(solver.number(Fraction(term.detail)))
        if term.word == "app" and not term.kids:
            return Value.of(solver.real(f"{term.detail}()"))
        if term.word == "diff":
            return self.term(differential(term.kids[0]), state)
        if term.word == "pow":
            return self.term(term.kids[0], state).power(exponent(term))
        if term.word == "neg":
            return self.term(term.kids[0], state).negated()
        if term.word not in ("add", "sub", "mul", "div"):
            raise Unsupported(f"{term.word} in a term")
        left, right = (self.term(kid, state) for kid in term.kids)
        by_word = {"add": Value.plus, "sub": Value.minus, "mul": Value.times, "div": Value.over}
        return by_word[term.word](left, right)

    # Formulas

    def formula(self, formula: Tree, state: State, from_above: bool = True) -> Formula:
        """What a formula says of a state. Where it isn't exact, it is a bound from above, or from below."""
        kids = formula.kids
        if formula.word in TESTS:
            return compared(formula.word, self.term(kids[0], state), self.term(kids[1], state))
        if formula.word in ("true", "false"):
            return solver.TRUE if formula.word == "true" else solver.FALSE
        if formula.word == "not":
            return solver.no(self.formula(kids[0], state, not from_above))
        if formula.word in ("and", "or"):
            parts = [self.formula(kid, state, from_above) for kid in kids]
            return solver.both(parts) if formula.word == "and" else solver.either(parts)
        if formula.word == "imply":
            return self.implication(kids[0], kids[1], state, from_above)
        if formula.word == "equiv":
            return solver.both([self.implication(kids[0], kids[1], state, from_above), self.implication(kids[1], kids[0], state, from_above)])
        if formula.word in ("forall", "exists"):
            constant = solver.fresh(formula.detail)
            body = self.formula(kids[0], state.put({formula.detail: Value.of(constant)}), from_above)
            return solver.quantified(formula.word == "forall", constant, body)
        if formula.word in ("box", "dia"):
            return Running(self, formula.word == "box", from_above).program(kids[0], state, lambda end: self.formula(kids[1], end, from_above))
        if formula.word == "difff":
            return self.formula(formula_differential(kids[0]), state, from_above)
        if formula.word == "holds" and not kids:
            return solver.truth(f"{formula.detail}()")
        raise Unsupported(f"{formula.word} in a formula")

    def implication(self, premise: Tree, conclusion: Tree, state: State, from_above: bool) -> Formula:
        """That one formula implies another."""
        return solver.implied(self.formula(premise, state, not from_above), self.formula(conclusion, state, from_above))

    # Systems

    def inside(self, domain: Tree, solution: Solution, time: Term, from_above: bool) -> Formula:
        """That the domain holds from the start to this time."""
        found, rest = [], []
        for part in conjuncts(domain):
            degree = self.degree(part, solution)
            if degree is None or degree > 1:
                rest.append(part)
            else:  # the ends of a straight line are enough, and one of them for what stays
                moments = [solver.ZERO, time] if degree else [time]
                found += [self.formula(part, solution.at(moment), from_above) for moment in moments]
        if rest:
            moment = solver.fresh("moment")
            there = solution.at(moment)
            holds = solver.both(self.formula(part, there, from_above) for part in rest)
            found.append(solver.quantified(True, moment, solver.either([solver.compare("lt", moment, solver.ZERO), solver.compare("gt", moment, time), holds])))
        return solver.both(found)

    def degree(self, part: Tree, solution: Solution) -> int | None:
        """The degree in time of a comparison whose truth on a line follows from its ends; none of another formula."""
        if part.word not in ("eq", "ge", "gt", "le", "lt"):
            return None
        try:
            return len(polynomials.difference(self, part, solution.state, solution.along)) - 1
        except NoPolynomial:
            return None


def conjuncts(formula: Tree) -> list[Tree]:
    """The formulas that `&` joins, without `true`."""
    if formula.word == "and":
        return [part for kid in formula.kids for part in conjuncts(kid)]
    return [] if formula.word == "true" else [formula]


class Running:
    """The runs of programs below a box or a diamond, as a bound from above or from below."""

    def __init__(self, meaning: Meaning, is_box: bool, from_above: bool) -> None:
        self.meaning, self.is_box, self.from_above = meaning, is_box, from_above
        self.all = solver.both if is_box else solver.either

    def program(self, program: Tree, state: State, ending: Ending) -> Formula:
        """What holds of the ends of a program's runs."""
        kids = program.kids
        if program.word == "assign":
            return ending(state.put({program.detail: self.meaning.term(kids[0], state)}))
        if program.word == "any":
            constant = solver.fresh(program.detail)
            return solver.quantified(self.is_box, constant, ending(state.put({program.detail: Value.of(constant)})))
        if program.word == "test":
            if self.is_box:
                return solver.implied(self.meaning.formula(kids[0], state, not self.from_above), ending(state))
            return solver.both([self.meaning.formula(kids[0], state, self.from_above), ending(state)])
        if program.word == "choice":
            return self.all([self.program(kid, state, ending) for kid in kids])
        if program.word == "seq":
            return self.program(kids[0], state, lambda end: self.program(kids[1], end, ending))
        if program.word == "loop":
            return self.loop(kids[0], state, ending)
        if program.word == "system":
            return self.system(program, state, ending)
        raise Unsupported(f"{program.word} in a program")

    def loop(self, body: Tree, state: State, ending: Ending) -> Formula:
        """What holds after any number of rounds."""
        known = self.meaning.enough
        if body not in known:
            known[body] = enough_rounds(body)
        rounds = known[body]
        if rounds is None:
            self.meaning.is_exact = False
            rounds = self.meaning.rounds
            if self.is_box != self.from_above:
                return solver.TRUE if self.from_above else solver.FALSE
        return self.again(body, state, ending, rounds)

    def again(self, body: Tree, state: State, ending: Ending, rounds: int) -> Formula:
        """What holds after so many rounds at most."""
        here = ending(state)
        if rounds == 0:
            return here
        return self.all([here, self.program(body, state, lambda end: self.again(body, end, ending, rounds - 1))])

    def system(self, system: Tree, state: State, ending: Ending) -> Formula:
        """What holds of the ends of a system's runs."""
        solution = solved(self.meaning, system, state, self.meaning.poles)
        if solution is None:
            return solver.TRUE if self.is_box else solver.FALSE
        time = solver.fresh("time")
        inside = self.meaning.inside(system.kids[-1], solution, time, self.from_above != self.is_box)
        inside = solver.both([inside, solution.allowed(time)])
        end = ending(solution.at(time))
        if self.is_box:
            return solver.quantified(True, time, solver.either([solver.compare("lt", time, solver.ZERO), solver.no(inside), end]))
        return solver.quantified(False, time, solver.both([solver.compare("ge", time, solver.ZERO), inside, end]))


def enough_rounds(body: Tree) -> int | None:
    """The least number of rounds, of a few, that reach all that one round more reaches; none where z3 knows of none."""
    names = sorted(mentioned(body))
    ends = {name: solver.real(f"end:{name}") for name in names}
    reached = []
    try:
        for rounds in range(MOST_ROUNDS + 2):
            meaning = Meaning(rounds=0)
            running = Running(meaning, False, True)
            found = running.again(
                body, State(), lambda end: solver.both(compared("eq", end.get(name), Value.of(ends[name])) for name in names), rounds)
            if not meaning.is_exact:
                return None
            reached.append(found)
    except Unsupported:
        return None
    for rounds in range(MOST_ROUNDS + 1):
        more = solver.both([reached[rounds + 1], solver.no(reached[rounds])])
        if solver.timely(more, MILLISECONDS).said == Said.IMPOSSIBLE:
            return rounds
    return None
