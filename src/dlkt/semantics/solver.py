"""z3 by a few typed functions: questions on formulas of `expressions`, with a time that is kept, and solutions.

What is decided: whether a formula of polynomials has a solution, by cylindrical algebraic decomposition on demand (nlsat), and with quantifiers by
quantifier elimination on top of it (nlqsat).

z3 4.8.12 now and then answers `sat` to what has no solution, as it is stopped. So no answer is believed that comes as late as its time. A question
is bounded by z3's own count of steps, too: on a machine that isn't free the clock may have more time (`Pace`), and the answers stay the same.
"""

from __future__ import annotations

import time
from enum import Enum
from fractions import Fraction
from typing import Any, Iterable, Mapping, NamedTuple, TypeAlias

import z3

from dlkt.semantics import expressions
from dlkt.semantics.expressions import FALSE, TRUE, Formula, Term, no

__all__ = ["FALSE", "TRUE", "Formula", "Term", "no"]
Expression: TypeAlias = Any  # what z3 has of a term, a formula or a number: it has no types
MOST_MEMORY = 3_000  # megabytes, behind which z3 stops
z3.set_param("memory_max_size", MOST_MEMORY)
LATE = 0.9  # of the time or the steps that a question has
STEPS = 500  # of z3 in about a millisecond


class Pace:
    """By which factor the clock may take longer than on a free machine."""

    factor = 1.0


class Said(Enum):
    """What z3 says of a formula: it has a solution, it has none, or nothing."""

    SOLVED, IMPOSSIBLE, UNKNOWN = "sat", "unsat", "unknown"


class Answer(NamedTuple):
    """What z3 says, and its solution where it gives one."""

    said: Said
    solution: Solution | None


class Solution:
    """The values that z3 gives to the constants of a formula."""

    def __init__(self, model: Expression) -> None:
        self.model = model

    def value(self, term: Term, divisor: Term | None = None) -> Expression:
        """The value of a term, maybe over another one, as z3 has it: a number, maybe a root of a polynomial."""
        asked = IN_Z3.term(term) if divisor is None else IN_Z3.term(term) / IN_Z3.term(divisor)
        return z3.simplify(self.model.eval(asked, model_completion=True))

    def holds(self, formula: Formula) -> bool:
        """Whether a formula is true with these values, by z3's exact arithmetic."""
        return bool(z3.is_true(z3.simplify(self.model.eval(IN_Z3.formula(formula), model_completion=True))))


# Terms and formulas

def number(value: Fraction | int) -> Term:
    """A number."""
    return expressions.of_number(value)


ZERO, ONE = number(0), number(1)


def real(name: str) -> Term:
    """A real constant of this name."""
    return expressions.of_name(name)


def truth(name: str) -> Formula:
    """A constant of this name that is true or false."""
    return expressions.of_truth(name)


def fresh(name: str) -> Term:
    """A real constant that is nowhere else. It has a `!` in its name."""
    return real(expressions.fresh_name(name))


def name_of(constant: Term) -> str:
    """The name of a constant."""
    (name,) = constant.names()
    return name


def compare(word: str, one: Term, other: Term) -> Formula:
    """That two terms compare so."""
    return expressions.has_sign(one.plus(other.scaled(-1)), expressions.SIGNS[word])


def both(parts: Iterable[Formula]) -> Formula:
    """That all parts hold."""
    return expressions.together(True, parts)


def either(parts: Iterable[Formula]) -> Formula:
    """That a part holds."""
    return expressions.together(False, parts)


def implied(premise: Formula, conclusion: Formula) -> Formula:
    """That the conclusion holds where the premise does."""
    return either([no(premise), conclusion])


def quantified(is_for_all: bool, constant: Term, body: Formula) -> Formula:
    """That a formula holds for all values of a constant, or for one."""
    return expressions.bound(is_for_all, name_of(constant), body)


def has_quantifier(formula: Formula) -> bool:
    """Whether a quantifier stands in a formula."""
    return formula.depth > 0


def constants(formula: Formula) -> dict[str, Term | Formula]:
    """The constants that a formula reads, by their names: real numbers, and truth values."""
    return {name.removeprefix("?"): truth(name[1:]) if name.startswith("?") else real(name) for name in sorted(formula.names)}


def near(value: Expression) -> Fraction | None:
    """A rational number of z3 as a fraction, a root of a polynomial by one near to it, else none."""
    if z3.is_rational_value(value):
        return exact(value)
    if z3.is_algebraic_value(value):
        return exact(value.approx(12))
    return None


def exact(value: Expression) -> Fraction | None:
    """A rational number of z3 as a fraction; none of another."""
    return Fraction(value.numerator_as_long(), value.denominator_as_long()) if z3.is_rational_value(value) else None


# What z3 gets

class InZ3:
    """Terms and formulas as z3 has them, each made once."""

    def __init__(self) -> None:
        self.context = z3.main_ctx()
        self.names: dict[str, Expression] = {}
        self.terms: dict[Term, Expression] = {}
        self.formulas: dict[Formula, Expression] = {}

    def forget(self) -> None:
        """Lets go what was made."""
        self.names.clear()
        self.terms.clear()
        self.formulas.clear()

    def many(self, making: Any, parts: list[Expression]) -> Any:
        """An operator of z3 over parts."""
        if len(parts) == 1:
            return parts[0].as_ast()
        return making(self.context.ref(), len(parts), (z3.Ast * len(parts))(*(part.as_ast() for part in parts)))

    def constant(self, name: str) -> Expression:
        """A real constant."""
        if name not in self.names:
            self.names[name] = z3.Real(name)
        return self.names[name]

    def term(self, term: Term) -> Expression:
        """A term."""
        if term not in self.terms:
            summands = []
            for monomial, value in term.ordered():
                factors = [] if value == 1 and monomial else [z3.RealVal(str(value))]
                factors += [self.constant(name) for name, power in monomial for _ in range(power)]
                summands.append(z3.ArithRef(self.many(z3.Z3_mk_mul, factors), self.context))
            self.terms[term] = z3.ArithRef(self.many(z3.Z3_mk_add, summands), self.context) if summands else z3.RealVal(0)
        return self.terms[term]

    def formula(self, formula: Formula) -> Expression:
        """A formula."""
        if formula not in self.formulas:
            self.formulas[formula] = self.anew(formula)
        return self.formulas[formula]

    def anew(self, formula: Formula) -> Expression:
        """A formula, made anew."""
        if formula.kind == "sign":
            assert formula.term is not None
            return self.sign(self.term(formula.term), formula.signs)
        if formula.kind in ("true", "false"):
            return z3.BoolVal(formula is TRUE)
        if formula.kind == "truth":
            return z3.Bool(formula.name) if formula.signs else z3.Not(z3.Bool(formula.name))
        parts = [self.formula(part) for part in formula.parts]
        if formula.kind in ("and", "or"):
            return z3.BoolRef(self.many(z3.Z3_mk_and if formula.kind == "and" else z3.Z3_mk_or, parts), self.context)
        return (z3.ForAll if formula.kind == "forall" else z3.Exists)([self.constant(formula.name)], parts[0])

    def sign(self, term: Expression, signs: int) -> Expression:
        """That a term has one of these signs."""
        word = {value: word for word, value in expressions.SIGNS.items()}[signs]
        if word in ("eq", "ne"):
            return term == 0 if word == "eq" else z3.Not(term == 0)
        return term < 0 if word == "lt" else term > 0 if word == "gt" else term <= 0 if word == "le" else term >= 0


IN_Z3 = InZ3()


def forget() -> None:
    """Lets go all formulas that were made, for long runs."""
    expressions.forget()
    IN_Z3.forget()


# Questions

def ask(formula: Formula, milliseconds: int) -> Answer:
    """What z3 says of a formula, whenever it comes."""
    formula = expressions.opened(formula)
    if formula is TRUE:
        return Answer(Said.SOLVED, None)
    if formula is FALSE:
        return Answer(Said.IMPOSSIBLE, None)
    try:
        solver = z3.Tactic("nlqsat" if has_quantifier(formula) else "qfnra-nlsat").solver()  # a new one: nlqsat can't be used again
        solver.set("timeout", int(milliseconds * Pace.factor))
        solver.set("rlimit", milliseconds * STEPS)
        solver.add(z3.simplify(IN_Z3.formula(formula)))  # nlqsat refuses what isn't simplified
        said = Said(str(solver.check()))
        return Answer(said, Solution(solver.model()) if said == Said.SOLVED else None)
    except z3.Z3Exception:
        return Answer(Said.UNKNOWN, None)


def timely(formula: Formula, milliseconds: int) -> Answer:
    """What z3 says of a formula, where it doesn't come as late as its time."""
    begin = time.monotonic()
    answer = ask(formula, milliseconds)
    if time.monotonic() - begin > LATE * Pace.factor * milliseconds / 1000:
        return Answer(Said.UNKNOWN, None)
    return answer


def chosen(solution: Solution) -> dict[str, Fraction | bool]:
    """The values of a solution for what has a name without `!`, roots by fractions near to them."""
    found: dict[str, Fraction | bool] = {}
    for declared in solution.model.decls():
        if declared.arity() == 0 and "!" not in declared.name():
            value = solution.model[declared]
            rational = bool(z3.is_true(value)) if z3.is_bool(value) else near(value)
            if rational is not None:
                found[declared.name()] = rational
    return found


def is_refuted_by(formula: Formula, values: Mapping[str, Fraction | bool], milliseconds: int) -> bool:
    """Whether a formula is false where its constants have these values, and 0 and false where none is given. Where it has quantifiers, both the
    formula and its negation are asked, so that one false answer doesn't count."""
    reals, truths = dict[str, Term](), dict[str, bool]()
    for name, constant in constants(formula).items():
        if isinstance(constant, Term):
            reals[name] = number(Fraction(values.get(name, 0)))
        else:
            truths[name] = bool(values.get(name, False))
    there = expressions.put_truths(expressions.put(formula, reals), truths)
    return timely(no(there), milliseconds).said == Said.SOLVED and timely(there, milliseconds).said == Said.IMPOSSIBLE
